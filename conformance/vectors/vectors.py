#!/usr/bin/env python3
"""Small streams built by hand, each with the answer that the format and the profile give it.

usage: vectors.py        asks the model for each and prints where it answers otherwise
       vectors.py DIR    writes them into DIR, as NAME.flac or NAME.oga
"""
import hashlib
import os
import sys

sys.path.append(os.path.join(os.path.dirname(os.path.dirname(os.path.abspath(__file__))), "model"))
import model

MARKER = b"fLaC"


class BitString:
    """A list of bits that grows at its end."""

    def __init__(self):
        self.value, self.length = 0, 0

    def put(self, count, value):
        self.value = self.value << count | (value & ((1 << count) - 1))
        self.length += count
        return self

    def bits(self, text):
        text = text.replace(" ", "")
        return self.put(len(text), int(text, 2))

    def bytes(self):
        pad = -self.length % 8
        return (self.value << pad).to_bytes((self.length + pad) // 8, "big")


def hexed(text):
    return bytes.fromhex(text)


def block(kind, content, last=True):
    return bytes([kind | (128 if last else 0)]) + len(content).to_bytes(3, "big") + content


def stream_info(least=4096, greatest=4096, rate=44100, channels=1, depth=16, total=0, digest=bytes(16), frames=(0, 0)):
    bits = BitString().put(16, least).put(16, greatest).put(24, frames[0]).put(24, frames[1])
    bits.put(20, rate).put(3, channels - 1).put(5, depth - 1).put(36, total)
    return bits.bytes() + digest


def stream(*parts, info=None, blocks=()):
    """A stream of frames after its STREAMINFO and other blocks (kind, content)."""
    whole = [(0, info if info is not None else stream_info())] + list(blocks)
    return MARKER + b"".join(block(k, c, i == len(whole) - 1) for i, (k, c) in enumerate(whole)) + b"".join(parts)


def coded(number):
    if number < 0x80:
        return bytes([number])
    length = next(n for n in range(2, 8) if number < 1 << (5 * n + 1))
    tail = [0x80 | number >> 6 * i & 63 for i in range(length - 2, -1, -1)]
    lead = (0xFF << (8 - length)) & 0xFF | (number >> 6 * (length - 1))
    return bytes([lead] + tail)


def frame(body="", size=16, number=0, variable=0, rate_code=9, channel_code=0, depth_code=4, spelled=None, rate=b"",
          size_code=None, size_field=None, body_bytes=None, crc16=None):
    """A frame: `body` gives the subframes' bits, padded with zeros; checks are computed."""
    if size_code is None:
        size_code, size_field = (6, bytes([size - 1])) if size <= 256 else (7, (size - 1).to_bytes(2, "big"))
    head = BitString().put(15, 0x7FFC).put(1, variable).put(4, size_code).put(4, rate_code)
    head = head.put(4, channel_code).put(3, depth_code).put(1, 0).bytes()
    head += (coded(number) if spelled is None else spelled) + (size_field or b"") + rate
    head += bytes([model.crc(8, head)])
    whole = head + (body_bytes if body_bytes is not None else BitString().bits("0" + body).value_bytes(body))
    return whole + (model.crc(16, whole) if crc16 is None else crc16).to_bytes(2, "big")


def body_of(self, body):
    bits = BitString()
    return bits.bits(body).bytes() if body else b""


BitString.value_bytes = body_of

SILENCE = "0000 0000" + "0" * 16
"""A constant subframe of zeros at depth 16."""


def fixed(order, *rest, depth=16):
    return f"0{order + 8:06b}0" + "0" * depth * order + "".join(rest)


def linear(order, *rest, depth=16):
    return f"0{order + 31:06b}0" + "0" * depth * order + "".join(rest)


ESCAPED = "00 0000 1111 00000"
"""A residual of zeros in one partition: method 0, partition order 0, escape of no bits."""

ROW_1 = hexed("664C614380000022 1000 1000 00000F 00000F 0AC442F000000001") + bytes(16) + hexed("FFF869180000BF0358FD0312 8BAA9A")
RAMP = hexed("FFF86908000F3014000000 0103C0EFC9")
ZEROS = hexed("FFF86908000F301003C0CF43")
ALTERNATING = hexed("FFF86908000F304003E9004 0F000B5AA".replace(" ", ""))
LEFT_SIDE = hexed("FFF86988000F3B14000000 0103C02007803D83")
TOO_LARGE = hexed("FFF86988000F3B007FFF00FFFF806F48")
SHORT = stream_info(16, 4096)
VENDOR = hexed("0E000000") + b"flac profile 1"


def sixteens(least=16, greatest=4096, channels=1, **more):
    return stream_info(least, greatest, channels=channels, **more)


def metadata_vectors():
    info = (0, stream_info())
    head = MARKER + block(*info, last=False)
    no_frames = stream_info(total=0)
    sheet = bytes(128) + bytes(8) + bytes(259)
    track = bytes(8) + b"\1" + bytes(12) + bytes(14)
    point = bytes(18)
    picture = bytes(4) + hexed("FFFFFFFF") + bytes(24)
    yield "empty", b"", "marker: 3 Truncated"
    yield "marker-cut", b"fLa", "marker: 3 Truncated"
    yield "marker-wrong", b"fLaD", "marker: 4 BadMarker"
    yield "no-block", MARKER, "block 0: 3 Truncated"
    yield "padding-first", MARKER + hexed("81000004") + bytes(4), "block 0: 5 NotStreamInfoFirst"
    yield "forbidden-first", MARKER + hexed("FF000000"), "block 0: 5 NotStreamInfoFirst"
    yield "info-length", MARKER + hexed("80000023") + bytes(35), "block 0: 7 BlockLength"
    yield "info-least-15", stream(info=stream_info(15, 4096)), "block 0: 8 BadStreamInfo"
    yield "info-least-over", stream(info=stream_info(4097, 4096)), "block 0: 8 BadStreamInfo"
    yield "info-rate-0", stream(info=stream_info(rate=0)), "block 0: 8 BadStreamInfo"
    yield "info-depth-3", stream(info=stream_info(depth=3)), "block 0: 8 BadStreamInfo"
    yield "info-depth-4", stream(info=stream_info(depth=4)), "frames 0 samples 0"
    yield "no-frame", stream(info=no_frames), "frames 0 samples 0"
    yield "no-next-block", head, "block 1: 3 Truncated"
    yield "forbidden-type", head + hexed("FF000000"), "block 1: 6 ForbiddenType"
    yield "table-17", head + hexed("83000011"), "block 1: 7 BlockLength"
    yield "application-3", head + hexed("82000003"), "block 1: 7 BlockLength"
    yield "repeated-info", head + hexed("80000021"), "block 1: 9 RepeatedBlock"
    yield "comments-count", head + hexed("8400000800000000FFFFFFFF"), "block 1: 7 BlockLength"
    yield "comments", stream(blocks=[(4, VENDOR + bytes(4))]), "frames 0 samples 0"
    yield "comments-twice", stream(blocks=[(4, VENDOR + bytes(4))] * 2), "block 2: 9 RepeatedBlock"
    yield "comments-left-over", stream(blocks=[(4, VENDOR + bytes(5))]), "block 1: 7 BlockLength"
    yield "comments-cut-after-left-over", head + hexed("84000009") + bytes(8), "block 1: 7 BlockLength"
    yield "comments-cut-before", head + hexed("84000009") + bytes(7), "block 1: 3 Truncated"
    yield "comments-3", stream(blocks=[(4, bytes(3))]), "block 1: 7 BlockLength"
    yield "comments-3-cut", head + hexed("84000003") + bytes(2), "block 1: 3 Truncated"
    yield "comments-0", stream(blocks=[(4, b"")]), "block 1: 7 BlockLength"
    yield "placeholder-first", stream(blocks=[(3, b"\xff" * 8 + bytes(10) + point)]), "block 1: 10 SeekOrder"
    yield "points-equal", stream(blocks=[(3, point * 2)]), "block 1: 10 SeekOrder"
    yield "placeholders", stream(blocks=[(3, point + (b"\xff" * 8 + bytes(10)) * 2)]), "frames 0 samples 0"
    yield "table-empty", stream(blocks=[(3, b"")]), "frames 0 samples 0"
    yield "table-cut", head + hexed("83FFFFF6"), "block 1: 3 Truncated"
    yield "sheet-count", stream(blocks=[(5, sheet + b"\1")]), "block 1: 7 BlockLength"
    yield "sheet-no-track", stream(blocks=[(5, sheet + b"\0")]), "block 1: 11 CueSheet"
    yield "sheet-short", stream(blocks=[(5, sheet)]), "block 1: 7 BlockLength"
    yield "sheet-short-reserved", stream(blocks=[(5, sheet[:-1] + b"\1")]), "block 1: 11 CueSheet"
    yield "sheet-reserved", stream(blocks=[(5, bytes(136) + b"\1" + bytes(258) + b"\1" + track + b"\0")]), "block 1: 11 CueSheet"
    yield "sheet", stream(blocks=[(5, sheet + b"\1" + track + b"\1" + bytes(12))]), "frames 0 samples 0"
    yield "sheet-track-reserved", stream(blocks=[(5, sheet + b"\1" + track[:-1] + b"\1\0")]), "block 1: 11 CueSheet"
    yield "sheet-index-reserved", stream(blocks=[(5, sheet + b"\1" + track + b"\1" + bytes(11) + b"\1")]), "block 1: 11 CueSheet"
    yield "sheet-indices", stream(blocks=[(5, sheet + b"\1" + track + b"\1" + bytes(11))]), "block 1: 7 BlockLength"
    yield "sheet-left-over", stream(blocks=[(5, sheet + b"\1" + track + b"\0\0")]), "block 1: 7 BlockLength"
    yield "picture-media", stream(blocks=[(6, picture)]), "block 1: 7 BlockLength"
    yield "picture-media-cut", head + hexed("86000020") + picture[:8], "block 1: 7 BlockLength"
    yield "picture", stream(blocks=[(6, bytes(32))]), "frames 0 samples 0"
    yield "picture-left-over", stream(blocks=[(6, bytes(33))]), "block 1: 7 BlockLength"
    yield "reserved-types", stream(blocks=[(7, b"abc"), (126, b""), (1, b"\1\2")]), "frames 0 samples 0"


def row_1_vectors():
    yield "row-1", ROW_1, "frames 1 samples 1"
    yield "row-1-cut", ROW_1[:-1], "frame 0: 3 Truncated"
    yield "row-1-check", ROW_1[:-1] + b"\x9b", "frame 0: 26 FrameCheck"
    yield "row-1-and-00", ROW_1 + b"\0", "frame 1: 3 Truncated"
    yield "row-1-and-0000", ROW_1 + b"\0\0", "frame 1: 12 BadSync"
    for length in range(57):
        place = "marker" if length < 4 else "block 0" if length < 42 else "frame 0"
        answer = "end: 28 TotalMismatch" if length == 42 else f"{place}: 3 Truncated"
        yield f"row-1-front-{length}", ROW_1[:length], answer
    yield "row-1-other-rate", ROW_1[:44] + b"\x58" + ROW_1[45:], "frame 0: 17 HeaderMismatch"
    silence = hexed("FFF86908000F300000004680")
    mismatch = ROW_1[:42] + silence
    yield "mono-frame", mismatch, "frame 0: 17 HeaderMismatch"
    changed = bytearray(mismatch)
    changed[20], changed[25] = 0x40, 0x10
    yield "mono-frame-mended", bytes(changed), "frames 1 samples 16"
    digest = hashlib.md5(bytes(32)).digest()
    for name, message, answer in (("good", digest, "frames 1 samples 16"), ("bad", digest[::-1], "end: 29 Md5Mismatch")):
        yield f"digest-{name}", stream(silence, info=sixteens(total=16, digest=message)), answer
    yield "total-and-digest", stream(silence, info=sixteens(total=17, digest=digest[::-1])), "end: 28 TotalMismatch"
    yield "empty-audio", stream(info=stream_info(channels=2, digest=hashlib.md5(b"").digest())), "frames 0 samples 0"
    encoded = ROW_1[:8] + hexed("1000 1000 00000F 00000F 0AC442F000000001") + hashlib.md5(hexed("F463B028")).digest()
    yield "row-2", encoded + hexed("FFF869180000BF0158FD01128B5AB2"), "frames 1 samples 1"


def header_vectors():
    def one(answer, **more):
        return stream(frame(SILENCE, **more), info=sixteens()), answer

    good = "frames 1 samples 16"
    largest = hexed("FDBFBFBFBFBF"), hexed("FEBFBFBFBFBFBF")
    yield "number-127", *one(good, spelled=hexed("7F"))
    yield "number-128", *one(good, spelled=hexed("C280"))
    yield "number-long", *one("frame 0: 15 BadNumber", spelled=hexed("C1BF"))
    yield "number-cut", stream(frame(SILENCE)[:4] + hexed("C1"), info=sixteens()), "frame 0: 3 Truncated"
    yield "number-3-long", *one("frame 0: 15 BadNumber", spelled=hexed("E09FBF"))
    yield "number-4-long", *one("frame 0: 15 BadNumber", spelled=hexed("F08FBFBF"))
    yield "number-greatest-fixed", *one(good, spelled=largest[0])
    yield "number-greatest-variable", *one(good, variable=1, spelled=largest[1])
    yield "number-lead-80", *one("frame 0: 15 BadNumber", spelled=hexed("80"))
    yield "number-lead-FF", *one("frame 0: 15 BadNumber", variable=1, spelled=hexed("FF"))
    yield "number-lead-FE-fixed", *one("frame 0: 15 BadNumber", spelled=largest[1])
    yield "number-continuation", *one("frame 0: 15 BadNumber", spelled=hexed("C2C0"))
    yield "size-65536", *one("frame 0: 13 ReservedCode", size_code=7, size_field=hexed("FFFF"))
    yield "size-reserved", *one("frame 0: 13 ReservedCode", size_code=0)
    yield "rate-forbidden", *one("frame 0: 13 ReservedCode", rate_code=15)
    yield "channels-reserved", *one("frame 0: 13 ReservedCode", channel_code=11)
    yield "depth-reserved", *one("frame 0: 13 ReservedCode", depth_code=3)
    yield "rate-as-stated", *one("frame 0: 14 NotSubset", rate_code=0)
    yield "depth-as-stated", *one("frame 0: 14 NotSubset", depth_code=0)
    yield "rate-other-code", *one(good, rate_code=13, rate=(44100).to_bytes(2, "big"))
    yield "rate-stored-0", *one("frame 0: 17 HeaderMismatch", rate_code=12, rate=b"\0")
    yield "size-4608", stream(frame(SILENCE, size_code=5), info=sixteens(16, 4608)), "frames 1 samples 4608"
    yield "size-8192-at-44100", stream(frame(SILENCE, size_code=13), info=sixteens(16, 8192)), "frame 0: 14 NotSubset"
    yield "size-over-greatest", stream(frame(SILENCE, size_code=5), info=sixteens()), "frame 0: 19 BlockSize"
    fast = sixteens(16, 65535, rate=96000)
    yield "size-16384-at-96000", stream(frame(SILENCE, size_code=14, rate_code=11), info=fast), "frames 1 samples 16384"
    yield "size-16385-at-96000", stream(frame(SILENCE, 16385, rate_code=11), info=fast), "frame 0: 14 NotSubset"


def sequence_vectors():
    def sized(*sizes, start=0, least=16, greatest=4608, strategies=None, numbers=None):
        parts, first = [], start
        for index, size in enumerate(sizes):
            variable = 0 if strategies is None else strategies[index]
            number = numbers[index] if numbers else first if variable else start + index
            parts.append(frame(SILENCE, size, number, variable))
            first += size
        return stream(*parts, info=sixteens(least, greatest))

    yield "sizes-short-last", sized(4096, 4096, 16), "frames 3 samples 8208"
    yield "sizes-short-inside", sized(4096, 16, 4096), "frame 2: 19 BlockSize"
    yield "sizes-longer", sized(4096, 4097), "frame 1: 19 BlockSize"
    yield "sizes-below-least", sized(4000, 4000, least=4096), "frame 1: 19 BlockSize"
    yield "sizes-below-least-last", sized(4096, 1, least=4096), "frames 2 samples 4097"
    yield "numbers-from-5", sized(16, 16, start=5), "frames 2 samples 32"
    yield "numbers-gap", sized(16, 16, numbers=[0, 2]), "frame 1: 18 Sequence"
    yield "variable", sized(4608, 4096, strategies=[1, 1]), "frames 2 samples 8704"
    yield "variable-growing", sized(16, 17, 4608, strategies=[1, 1, 1]), "frames 3 samples 4641"
    yield "variable-short-inside", sized(16, 15, 16, strategies=[1, 1, 1]), "frame 2: 19 BlockSize"
    yield "variable-wrong-first", sized(4096, 4096, strategies=[1, 1], numbers=[0, 4608]), "frame 1: 18 Sequence"
    yield "variable-then-fixed", sized(16, 16, strategies=[1, 0], numbers=[0, 16]), "frame 1: 18 Sequence"
    given = hexed("FFF9C908E18880BB")
    second = given + BitString().bits(SILENCE).bytes()
    second += model.crc(16, second).to_bytes(2, "big")
    yield "variable-given", stream(frame(SILENCE, 4608, 0, 1), second, info=sixteens(16, 4608)), "frames 2 samples 8704"


def subframe_vectors():
    def one(body, size=16, answer=None, **more):
        return stream(frame(body, size, **more), info=sixteens()), answer or f"frames 1 samples {size}"

    wrong = "frame 0: {}".format
    yield "ramp", stream(RAMP, info=sixteens()), "frames 1 samples 16"
    yield "zeros", stream(ZEROS, info=sixteens()), "frames 1 samples 16"
    yield "alternating", stream(ALTERNATING, info=sixteens()), "frames 1 samples 16"
    yield "left-side", stream(LEFT_SIDE, info=sixteens(channels=2)), "frames 1 samples 16"
    yield "too-large", stream(TOO_LARGE, info=sixteens(channels=2)), wrong("27 SampleRange")
    yield "too-large-check", stream(TOO_LARGE[:-1] + b"\x49", info=sixteens(channels=2)), wrong("26 FrameCheck")
    yield "wasted-15", *one("0 000000 1" + "0" * 14 + "1" + "1")
    yield "wasted-16", *one("0 000000 1" + "0" * 15 + "1" * 9, answer=wrong("20 BadSubframe"))
    yield "subframe-bit", *one("1 000000 0" + "0" * 16, answer=wrong("20 BadSubframe"))
    yield "subframe-type-2", *one("0 000010 0" + "0" * 16, answer=wrong("20 BadSubframe"))
    yield "subframe-type-13", *one("0 001101 0" + "0" * 16, answer=wrong("20 BadSubframe"))
    yield "order-is-block", *one(fixed(4, ESCAPED), 4, wrong("22 BadPartition"))
    yield "linear-13", *one(linear(13, ESCAPED), 13, wrong("14 NotSubset"))
    yield "precision-forbidden", *one(linear(1, "1111"), answer=wrong("21 BadPredictor"))
    yield "shift-negative", *one(linear(1, "0000 10000"), answer=wrong("21 BadPredictor"))
    yield "method-reserved", *one(fixed(0, "10 0000 0000"), answer=wrong("22 BadPartition"))
    yield "partition-8-of-2", *one(fixed(2, "00 0011 1111 00000"), answer=wrong("22 BadPartition"))
    yield "partition-9", *one(fixed(0, "00 1001 1111 00000"), answer=wrong("14 NotSubset"))
    yield "partition-odd", *one(fixed(0, "00 0001 1111 00000"), 15, wrong("22 BadPartition"))
    yield "partitions", *one(fixed(2, "00 0010", "1111 00000" * 4))
    yield "rice-minus-1", *one(fixed(0, "00 0000 0000", "01" + "1" * 15))
    yield "rice-5", *one(fixed(0, "00 0000 0010", "00110" + "100" * 15))
    yield "folded-too-large", *one(fixed(0, "01 0000 11110", "0001", "1" * 30, "0" * 700), answer=wrong("23 ResidualRange"))
    yield "quotient-greatest", *one(fixed(0, "00 0000 1110", "0" * 262143 + "1" + "1" * 13 + "0", ("1" + "0" * 14) * 15),
                                    answer=wrong("27 SampleRange"))
    yield "quotient-too-large", *one(fixed(0, "00 0000 1110", "0" * 262144 + "1"), answer=wrong("23 ResidualRange"))
    yield "escape-31", *one(fixed(0, "00 0000 1111 11111", "0" * 31 * 16))
    yield "padding-not-zero", *one(fixed(0, ESCAPED, "1"), answer=wrong("24 NonzeroPadding"))
    yield "below-zero", *one(linear(1, "")[:8] + f"{0xFFFD:016b}" + "0001 00001 01" + ESCAPED, 2)
    deep = stream_info(16, 4096, channels=2, depth=32)
    sides = "0 000000 0" + f"{2**31 - 1:032b}" + "0 000000 0" + f"{2**32 - 1:033b}"
    yield "depth-32-side", stream(frame(sides, channel_code=8, depth_code=7), info=deep), "frames 1 samples 16"
    swapped = "0 000000 0" + f"{2**32 - 1:033b}" + "0 000000 0" + f"{2**32 - 2**31:032b}"
    yield "depth-32-side-first", stream(frame(swapped, channel_code=9, depth_code=7), info=deep), "frames 1 samples 16"
    odd = "0 000000 0" + f"{0xFFFF:016b}" + "0 000000 0" + f"{0x1FFFF:017b}"
    yield "mid-side-odd", stream(frame(odd, channel_code=10), info=sixteens(channels=2)), "frames 1 samples 16"


def whole_vectors():
    """Streams of several blocks and frames."""
    import streams
    comments = VENDOR + hexed("01000000 07000000") + b"TITLE=x"
    yield "row-1-retagged", ROW_1[:4] + hexed("00000022") + ROW_1[8:42] + block(4, comments) + ROW_1[42:], "frames 1 samples 1"
    yield "every-block", streams.native().data, "frames 3 samples 41"


def foreign_vectors():
    """Tags of another format around a good stream."""
    good = stream(RAMP, info=sixteens(total=16))
    yield "tag-before", b"ID3\3\0\0\0\0\0\12" + bytes(10) + good, "marker: 4 BadMarker"
    yield "tag-after", good + b"TAG" + bytes(125), "frame 1: 12 BadSync"


def large_vectors():
    """A frame that does not end: its first value's quotient is a run of zeros past the limit of a frame."""
    head = stream(ZEROS[:8], info=sixteens())
    limit = len(head) - 8 + model.FRAME_LIMIT
    yield "frame-too-long", head.ljust(limit + 9, b"\0"), "frame 0: 25 FrameTooLong"
    yield "frame-at-limit", head.ljust(limit, b"\0"), "frame 0: 25 FrameTooLong"
    yield "frame-below-limit", head.ljust(limit - 1, b"\0"), "frame 0: 3 Truncated"


def all_vectors():
    for source in (metadata_vectors, row_1_vectors, header_vectors, sequence_vectors, subframe_vectors,
                   whole_vectors, foreign_vectors):
        yield from source()
    import vectors_ogg
    yield from vectors_ogg.all_vectors()


SWEPT = ("row-1", "row-2", "empty-audio", "ramp", "zeros", "alternating", "left-side", "row-1-retagged", "every-block")
SWEPT_OGG = ("ogg-encoded", "ogg-one-page")
"""The streams that `sweep` changes."""


def main(words):
    failed = 0
    for name, data, answer in all_vectors():
        if words:
            with open(os.path.join(words[0], name + (".oga" if data[:1] == b"O" else ".flac")), "wb") as file:
                file.write(data)
        found = model.answer(data)
        if found != answer:
            failed += 1
            print(f"{name}: the model answers '{found}', due is '{answer}'")
    print(f"{sum(1 for _ in all_vectors())} vectors, {failed} answered otherwise by the model")
    return 1 if failed else 0


if __name__ == "__main__":
    sys.exit(main(sys.argv[1:]))
