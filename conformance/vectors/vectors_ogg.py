"""Small Ogg streams built by hand, each with the answer that the format and the profile give it."""
import hashlib

import model
import vectors
from vectors import block, hexed, stream_info


def page(number, *packets, flags=0, granule=0, serial=1, ended=True, lacing=None, version=0, capture=b"OggS", wrong=0):
    """A page of whole packets; with `ended` false the last one goes on in the next page."""
    body = b"".join(packets)
    if lacing is None:
        lacing = []
        for index, packet in enumerate(packets):
            values = [255] * (len(packet) // 255) + [len(packet) % 255]
            lacing += values if ended or index + 1 < len(packets) else values[:-1]
    head = capture + bytes([version, flags]) + granule.to_bytes(8, "little") + serial.to_bytes(4, "little")
    head += number.to_bytes(4, "little")
    tail = bytes([len(lacing)]) + bytes(lacing) + body
    check = model.crc(32, head + bytes(4) + tail) ^ wrong
    return head + check.to_bytes(4, "little") + tail


def mapping(info, count=1, last=False, magic=b"\x7fFLAC\1\0"):
    return magic + count.to_bytes(2, "big") + b"fLaC" + block(0, info, last)


def paged(*packets, first=0):
    """Every packet on a page of its own, the last page marked last."""
    result = []
    for index, packet in enumerate(packets):
        flags = (2 if index == 0 else 0) | (4 if index == len(packets) - 1 else 0)
        result.append(page((first + index) % 2**32, packet, flags=flags))
    return result


INFO = stream_info(channels=2)
EMPTY_COMMENT = block(4, bytes(8))
FRAME = hexed("FFF869180000BF0158FD01128B5AB2")
SHORT_INFO = stream_info(16, 16, channels=2)
SILENT = [vectors.frame(vectors.SILENCE * 2, 16, number, channel_code=1) for number in range(3)]


def good_vectors():
    head, comment = mapping(INFO), EMPTY_COMMENT
    yield "ogg", b"".join(paged(head, comment, FRAME)), "frames 1 samples 1"
    known = stream_info(channels=2, total=1, digest=hashlib.md5(hexed("F463B028")).digest(), frames=(15, 15))
    yield "ogg-encoded", page(0, mapping(known), flags=2) + page(1, comment) + page(2, FRAME, flags=4, granule=1), "frames 1 samples 1"
    yield "ogg-no-frame", b"".join(paged(head, comment)), "frames 0 samples 0"
    yield "ogg-info-alone", page(0, mapping(INFO, 0, True), flags=6), "frames 0 samples 0"
    yield "ogg-from-the-greatest-number", b"".join(paged(head, comment, FRAME, first=2**32 - 1)), "frames 1 samples 1"
    yield "ogg-any-flags", page(0, head, flags=0xFA) + page(1, comment, FRAME, flags=0xFC, granule=99), "frames 1 samples 1"
    yield "ogg-one-page", page(0, mapping(SHORT_INFO), flags=2) + page(1, comment, *SILENT, flags=4), "frames 3 samples 48"
    parts = page(0, head, flags=2) + page(1) + page(2, comment) + page(3) + page(4, FRAME) + page(5, flags=4)
    yield "ogg-empty-pages", parts, "frames 1 samples 1"
    for length in (251, 506):
        long = block(1, bytes(length), False)
        yield f"ogg-packet-{length + 4}", b"".join(paged(head, long, comment, FRAME)), "frames 1 samples 1"
    long = block(1, bytes(65025 - 4), False)
    pages = [page(0, head, flags=2), page(1, long, ended=False), page(2, flags=1, lacing=[0]), page(3, comment), page(4, FRAME, flags=4)]
    yield "ogg-packet-65025", b"".join(pages), "frames 1 samples 1"
    pages[2:3] = [page(2, flags=1), page(3, flags=1, lacing=[0])]
    pages[4:] = [page(4, comment), page(5, FRAME, flags=4)]
    yield "ogg-packet-65025-empty-page", b"".join(pages), "frames 1 samples 1"
    longer = block(1, bytes(70000), False)
    pages = [page(0, head, flags=2), page(1, longer[:65025], ended=False), page(2, longer[65025:], comment, FRAME, flags=5)]
    yield "ogg-packet-70004", b"".join(pages), "frames 1 samples 1"


def page_fault_vectors():
    head, comment = mapping(SHORT_INFO), EMPTY_COMMENT
    pages = paged(head, comment, *SILENT[:2])
    whole = b"".join(pages)

    def changed(number, **more):
        packets = [head, comment, *SILENT[:2]]
        flags = more.pop("flags", [2, 0, 0, 4][number])
        fresh = page(more.pop("sequence", number), packets[number], flags=flags, **more)
        return b"".join(pages[:number] + [fresh] + pages[number + 1:])

    yield "ogg-two", whole, "frames 2 samples 32"
    yield "ogg-capture", changed(2, capture=b"OggT"), "page 2: 31 BadPage"
    yield "ogg-version", changed(2, version=1), "page 2: 31 BadPage"
    yield "ogg-sum", changed(2, wrong=1), "page 2: 32 PageCheck"
    yield "ogg-serial", changed(2, serial=2), "page 2: 34 OtherStream"
    yield "ogg-sum-and-serial", changed(2, serial=2, wrong=1), "page 2: 32 PageCheck"
    yield "ogg-serial-and-number", changed(2, serial=2, sequence=7), "page 2: 34 OtherStream"
    yield "ogg-number", changed(2, sequence=3), "page 2: 33 PageOrder"
    yield "ogg-continued", changed(2, flags=1), "page 2: 33 PageOrder"
    yield "ogg-first-again", changed(2, flags=2), "page 2: 33 PageOrder"
    yield "ogg-not-first", changed(0, flags=0), "marker: 37 BadMapping"
    yield "ogg-first-continued", changed(0, flags=3), "page 0: 33 PageOrder"
    yield "ogg-not-first-continued", changed(0, flags=1), "page 0: 33 PageOrder"
    yield "ogg-last-too-early", changed(2, flags=4), "page 3: 33 PageOrder"
    yield "ogg-block-due", changed(0, flags=6), "block 1: 35 PacketLength"
    yield "ogg-page-left-out", b"".join(pages[:2] + pages[3:]), "page 2: 33 PageOrder"
    yield "ogg-byte-after", whole + b"O", "page 4: 33 PageOrder"
    yield "ogg-not-last", changed(3, flags=0), "end: 36 NoEndPage"
    yield "ogg-page-cut-off", b"".join(pages[:3]), "end: 36 NoEndPage"
    yield "ogg-header-cut-off", b"".join(pages[:1]), "end: 36 NoEndPage"
    for length in (1, 3, 4, 5, 26, 27, 28, 78):
        yield f"ogg-front-{length}", whole[:length], "page 0: 3 Truncated"
    yield "ogg-front-4-wrong", b"Ogg" + b"s", "page 0: 31 BadPage"
    yield "ogg-front-page-1", whole[:79 + 30], "page 1: 3 Truncated"
    yield "ogg-long-lacing-cut", b"".join(pages[:2]) + page(2, bytes(65025), ended=False)[:-1], "page 2: 3 Truncated"
    yield "ogg-two-lacings", page(0, head, b"", flags=2) + b"".join(pages[1:]), "marker: 37 BadMapping"


def packet_fault_vectors():
    head, comment = mapping(INFO), EMPTY_COMMENT

    def packets(*more):
        return b"".join(paged(head, *more))

    yield "ogg-magic", b"".join(paged(mapping(INFO, magic=b"\x7fFLAC\1\1"), comment)), "marker: 37 BadMapping"
    yield "ogg-marker", b"".join(paged(head[:9] + b"fLaD" + head[13:], comment)), "marker: 37 BadMapping"
    yield "ogg-info-length", b"".join(paged(head[:16] + b"\x21" + head[17:], comment)), "block 0: 7 BlockLength"
    yield "ogg-info-type", b"".join(paged(head[:13] + b"\1" + head[14:], comment)), "block 0: 5 NotStreamInfoFirst"
    yield "ogg-any-count", b"".join(paged(mapping(INFO, 9), comment, FRAME)), "frames 1 samples 1"
    yield "ogg-no-bytes-for-frame", packets(comment, b""), "frame 0: 35 PacketLength"
    yield "ogg-no-bytes-at-end", packets(comment, FRAME, b""), "frame 1: 35 PacketLength"
    yield "ogg-no-bytes-for-block", packets(b"", comment), "block 1: 35 PacketLength"
    yield "ogg-block-short", packets(comment[:-1], FRAME), "block 1: 35 PacketLength"
    yield "ogg-block-goes-on", packets(comment + b"\0", FRAME), "block 1: 35 PacketLength"
    yield "ogg-block-and-frame", packets(comment + FRAME), "block 1: 35 PacketLength"
    yield "ogg-block-fault-first", packets(block(4, bytes(8) + b"\0") + b"\0", FRAME), "block 1: 7 BlockLength"
    yield "ogg-frame-short", packets(comment, FRAME[:-1]), "frame 0: 35 PacketLength"
    yield "ogg-frame-goes-on", packets(comment, FRAME + b"\0"), "frame 0: 35 PacketLength"
    yield "ogg-frame-check-first", packets(comment, FRAME[:-1] + b"\0\0"), "frame 0: 26 FrameCheck"
    yield "ogg-total", b"".join(paged(mapping(stream_info(channels=2, total=3)), comment, FRAME)), "end: 28 TotalMismatch"
    wrong = stream_info(channels=2, digest=bytes(15) + b"\1")
    yield "ogg-digest", b"".join(paged(mapping(wrong), comment, FRAME)), "end: 29 Md5Mismatch"
    yield "ogg-total-and-byte", b"".join(paged(mapping(wrong), comment, FRAME)) + b"\0", "page 3: 33 PageOrder"
    padding, start = block(1, bytes(251)), page(0, head, flags=2)
    opened = page(1, padding, ended=False)
    yield "ogg-packet-open-at-end", start + page(1, padding, ended=False, flags=4), "block 1: 35 PacketLength"
    yield "ogg-packet-open-no-page", start + opened, "end: 36 NoEndPage"
    yield "ogg-packet-goes-on-in-page", start + opened + page(2, b"\0", flags=5), "block 1: 35 PacketLength"
    yield "ogg-packet-goes-on-in-bad-page", start + opened + page(2, b"\0", flags=5, wrong=1), "page 2: 32 PageCheck"
    yield "ogg-packet-not-continued", start + opened + page(2, flags=4, lacing=[0]), "page 2: 33 PageOrder"
    yield "ogg-packet-ends-in-page", start + opened + page(2, flags=5, lacing=[0]), "frames 0 samples 0"
    bad = block(3, bytes(36) + bytes(215 + 1), True)
    yield "ogg-fault-before-bad-page", start + page(1, bad[:255], ended=False) + page(2, b"\0", flags=5, wrong=1), "block 1: 10 SeekOrder"


def large_vectors():
    pages = [page(0, mapping(INFO), flags=2), page(1, EMPTY_COMMENT)]
    pages += [page(number) for number in range(2, 100002)]
    yield "ogg-100000-empty-pages", b"".join(pages + [page(100002, FRAME, flags=4)]), "frames 1 samples 1"


def all_vectors():
    for source in (good_vectors, page_fault_vectors, packet_fault_vectors):
        yield from source()
