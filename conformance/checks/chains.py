#!/usr/bin/env python3
"""`--any` of `flac test`, `decode` and `list`, and `flac verify`, over Ogg streams one after another, by a reader of pages of its own.

usage: conformance/checks/chains.py [--quick]

The streams are those of the reference encoder and of ffmpeg, put one after another as `cat` does: two and three of them, of one
format and of several, between tags, cut, damaged, with other bytes between them, and as `oggz-merge` mixes them. What has to hold: the
samples are those that the reference decodes from each stream alone, one after another; the counts are those of the packets; a fault is
in the stream and on the page where it was put; without `--any` the second stream is refused. FLAC names the program. Status 1 if an
answer is not the one that is due.
"""
import json
import math
import os
import re
import shutil
import struct
import subprocess
import sys
import tempfile

import folders  # noqa: F401  (the path of the modules below)
from program import Wrong, call, read, short


def expect(what, found, due):
    if found != due:
        raise Wrong(f"{what}: answers '{short(found)}', due is '{short(due)}'")


def samples(count, channels, width, step):
    """Raw samples, signed little-endian."""
    top = (1 << (8 * width - 1)) - 1
    return b"".join(int(top * 0.7 * math.sin((at + 31 * channel) / step)).to_bytes(width, "little", signed=True)
                    for at in range(count) for channel in range(channels))


def by_reference(folder, raw, rate, channels, bits, *words):
    """A stream of the reference encoder."""
    path = os.path.join(folder, "made.oga")
    form = ["--force-raw-format", "--endian=little", "--sign=signed", f"--channels={channels}", f"--bps={bits}", f"--sample-rate={rate}"]
    subprocess.run(["flac", "-s", "-f", "--ogg", *form, *words, "-o", path, "-"], input=raw, check=True, stderr=subprocess.DEVNULL)
    data = read(path)
    os.remove(path)
    return data


def by_ffmpeg(folder, raw, rate, channels, *words):
    """A stream of ffmpeg, which ends with an empty packet; None if ffmpeg is not there."""
    if not shutil.which("ffmpeg"):
        return None
    path = os.path.join(folder, "made.oga")
    subprocess.run(["ffmpeg", "-v", "error", "-y", "-f", "s16le", "-ar", str(rate), "-ac", str(channels), "-i", "-", "-c:a", "flac", *words, path], input=raw, check=True)
    data = read(path)
    os.remove(path)
    return data


def pages_of(data):
    """The places of the pages at the start of some bytes, each with whether it is marked last."""
    at, pages = 0, []
    while data[at:at + 4] == b"OggS" and len(data) >= at + 27:
        size = 27 + data[at + 26] + sum(data[at + 27:at + 27 + data[at + 26]])
        if at + size > len(data):
            break
        pages.append((at, size, bool(data[at + 5] & 4)))
        at += size
    return pages


def frames_in(data):
    """How many packets of a stream are frames: those that begin with the sync code."""
    packets, packet = [], b""
    for at, size, _ in pages_of(data):
        lacing = data[at + 27:at + 27 + data[at + 26]]
        place = at + 27 + len(lacing)
        for value in lacing:
            packet += data[place:place + value]
            place += value
            if value < 255:
                packets.append(packet)
                packet = b""
    return sum(packet[:1] == b"\xff" and packet[1:2] in (b"\xf8", b"\xf9") for packet in packets)


def info_of(data):
    """The 34 bytes of STREAMINFO: after the page's head, and 9 and 4 bytes of the mapping and the marker, and the block's head."""
    at = 28 + 9 + 4 + 4
    return data[at:at + 34]


def digest_of(data):
    """The digest that STREAMINFO states, in hexadecimal; None if it states none."""
    digest = info_of(data)[18:]
    return digest.hex() if any(digest) else None


def total_of(data):
    """The number of samples that STREAMINFO states, 0 if it is unknown."""
    return int.from_bytes(info_of(data)[13:18], "big") & ((1 << 36) - 1)


def decoded(folder, data):
    """The raw samples of a stream, by the reference: by ffmpeg if that wrote the stream."""
    path, raw = os.path.join(folder, "one.oga"), os.path.join(folder, "one.raw")
    with open(path, "wb") as file:
        file.write(data)
    subprocess.run(["flac", "-s", "-f", "-d", "--force-raw-format", "--endian=little", "--sign=signed", "-o", raw, path], check=True, stderr=subprocess.DEVNULL)
    found = read(raw)
    os.remove(raw)
    os.remove(path)
    return found


class Chain:
    """Bytes in a file, and the calls that are compared."""

    def __init__(self, folder, data, name="chain.oga"):
        self.path, self.out, self.report = (os.path.join(folder, part) for part in (name, "out.raw", "out.jsonl"))
        with open(self.path, "wb") as file:
            file.write(data)
        if os.path.exists(self.out):
            os.remove(self.out)

    def verified(self, *words):
        """The status of `verify`, what it prints, and the line of its report, without what the system knows of the file."""
        status, out, err = call("verify", *words, "--report", self.report, self.path)
        entry = json.loads(read(self.report))
        os.remove(self.report)
        return status, out, err, {name: value for name, value in entry.items() if name not in ("path", "bytes", "modified", "nanoseconds")}

    def is_verified(self, frames, count, streams, words, members):
        """`words` come after the counts; `members` are those of the format, and of what is checked."""
        many = f" streams {streams}" if streams > 1 else ""
        line = f"ok {self.path}: frames {frames} samples {count}{many}{words}\nverified 1 ok 1 bad 0\n"
        due = {"status": "ok", "container": "ogg", "frames": frames, "samples": count, **members}
        if streams > 1:
            due["streams"] = streams
        expect("verify", self.verified(), (0, line.encode(), b"", due))

    def is_good(self, frames, count, raw):
        status, out, err = call("test", "--any", self.path)
        expect("test", (status, out, err), (0, f"frames {frames} samples {count}\n".encode(), b""))
        status, out, err = call("decode", "--any", self.path, self.out)
        expect("decode", (status, out, err), (0, b"", b""))
        expect("samples", read(self.out) == raw, True)

    def is_refused(self, line, raw, test_too=True):
        due = f"flac: {self.path}: {line}\n".encode()
        if test_too:
            expect("test", call("test", "--any", self.path), (1, b"", due))
            status, out, err, entry = self.verified()
            expect("verify", (status, out, err), (1, b"verified 1 ok 0 bad 1\n", due))
            fault = re.fullmatch(r"(?:stream (\d+): )?(\w+)(?: (\d+))?: (\d+) (\w+)", line)
            number, place, index, error, name = fault.groups()
            said = {"status": "bad", "place": place, "index": index and int(index), "error": int(error), "name": name, "stream": number and int(number)}
            expect("report", {**entry, "sample": None}, {**{key: value for key, value in said.items() if value is not None}, "sample": None})
            expect("samples before", entry["sample"] >= len(raw) // 4, True)
        expect("decode", call("decode", "--any", self.path, self.out), (1, b"", due))
        found = read(self.out) if os.path.exists(self.out) else b""
        expect("samples before", found[:len(raw)] == raw, True)


def flipped(data, page, shift=40):
    """The stream with a byte of a page's segments changed."""
    at, size, _ = pages_of(data)[page]
    place = at + size - 1 - shift % max(size - 30, 1)
    return data[:place] + bytes([data[place] ^ 0x55]) + data[place + 1:]


def compare(folder, quick):
    raws = [samples(count, 2, 2, step) for count, step in ((9000, 20), (5000, 33), (12345, 7))]
    streams = [by_reference(folder, raw, 44100, 2, 16, "--blocksize=1024", f"--serial-number={number + 1}") for number, raw in enumerate(raws)]
    kinds = {"reference": streams}
    if by_ffmpeg(folder, raws[0], 44100, 2):
        kinds["ffmpeg"] = [by_ffmpeg(folder, raw, 44100, 2) for raw in raws]
        kinds["both"] = [kinds["ffmpeg"][0], streams[1], kinds["ffmpeg"][2]]
    done = 0
    for kind, each in kinds.items():
        for chosen in ([0], [0, 1], [1, 0, 2], [2, 2]) if not quick else ([0, 1], [1, 0, 2]):
            parts = [each[at] for at in chosen]
            raw = b"".join(raws[at] for at in chosen)
            if kind == "reference":
                expect(f"{kind}: the reference's samples", b"".join(decoded(folder, part) for part in parts) == raw, True)
            frames, count = sum(map(frames_in, parts)), len(raw) // 4
            chain = Chain(folder, b"".join(parts))
            chain.is_good(frames, count, raw)
            members = {"rate": 44100, "channels": 2, "depth": 16}
            whole, known = all(digest_of(part) for part in parts), all(total_of(part) for part in parts)
            members.update({"md5_checked": whole, "subset": True, "id3": False})
            if len(parts) == 1 and whole:
                members["md5"] = digest_of(parts[0])
            words = ("" if whole else " no-md5") + ("" if known else " no-total")
            chain.is_verified(frames, count, len(parts), words, members)
            done += 2
            tagged = b"ID3\x03\0\0\0\0\0\x05" + bytes(5) + b"".join(parts) + b"TAG" + bytes(125)
            chain = Chain(folder, tagged)
            chain.is_good(frames, count, raw)
            chain.is_verified(frames, count, len(parts), words + " id3", {**members, "id3": True})
            done += 2
        first, second = each[0], each[1]
        # Damage in the second stream, on each page; its end is missing; other bytes follow.
        pages = pages_of(second)
        for page in range(len(pages)):
            Chain(folder, first + flipped(second, page)).is_refused(f"stream 2: page {page}: 32 PageCheck", raws[0])
            done += 1
        Chain(folder, first + second[:pages[-1][0]]).is_refused(f"stream 2: end: 36 NoEndPage", raws[0])
        Chain(folder, first + b"\0" + second).is_refused("stream 2: page 0: 31 BadPage", raws[0])
        Chain(folder, first + second + b"junk").is_refused("stream 3: page 0: 31 BadPage", raws[0] + raws[1])
        Chain(folder, first + b"fLaC" + second).is_refused("stream 2: page 0: 31 BadPage", raws[0])
        done += 4
        # Damage in the first stream has the line that it has alone.
        Chain(folder, flipped(first, 2) + second).is_refused("page 2: 32 PageCheck", b"")
        # Without --any the second stream is refused at its first page.
        status, out, err = call("test", Chain(folder, streams[0] + second).path)
        expect("without --any", (status, out, err), (1, b"", f"flac: {folder}/chain.oga: page {len(pages_of(streams[0]))}: 33 PageOrder\n".encode()))
        done += 2
        # The lines of each stream, with a line between.
        alone = [call("list", "--any", Chain(folder, data).path) for data in (first, second)]
        expect("list", call("list", "--any", Chain(folder, first + second).path), (0, alone[0][1] + b"stream 2\n" + alone[1][1], b""))
        done += 1
    # Other formats: the channels, the rate, the depth.
    one = streams[0]
    for channels, rate, width in ((1, 44100, 2), (2, 48000, 2), (2, 44100, 3), (2, 44100, 1)):
        raw = samples(6000, channels, width, 11)
        other = by_reference(folder, raw, rate, channels, 8 * width)
        Chain(folder, one + other).is_refused("stream 2: 95 OtherFormat", raws[0], test_too=False)
        expect("samples of the first alone", len(read(os.path.join(folder, "out.raw"))), len(raws[0]))
        status, out, err = call("test", "--any", os.path.join(folder, "chain.oga"))
        expect("test", (status, out, err), (0, f"frames {frames_in(one) + frames_in(other)} samples {9000 + 6000}\n".encode(), b""))
        frames = frames_in(one) + frames_in(other)
        members = {"rate": 44100, "channels": 2, "depth": 16, "md5_checked": True, "subset": True, "id3": False}
        Chain(folder, one + other).is_verified(frames, 9000 + 6000, 2, "", members)
        done += 3
    # One stream is outside the streamable subset: all are, but --subset refuses that one.
    outside = by_reference(folder, raws[1], 44100, 2, 16, "--lax", "--blocksize=17000")
    members = {"rate": 44100, "channels": 2, "depth": 16, "md5_checked": True, "subset": False, "id3": False}
    chain = Chain(folder, one + outside)
    chain.is_verified(frames_in(one) + frames_in(outside), 9000 + 5000, 2, " outside-subset", members)
    expect("--subset", chain.verified("--subset")[2], f"flac: {chain.path}: stream 2: frame 0: 14 NotSubset\n".encode())
    done += 2
    # Streams that are mixed, page by page, are no chain.
    if shutil.which("oggz-merge"):
        for number, data in enumerate(streams[:2]):
            with open(os.path.join(folder, f"{number}.oga"), "wb") as file:
                file.write(data)
        mixed = os.path.join(folder, "mixed.oga")
        subprocess.run(["oggz-merge", "-o", mixed, os.path.join(folder, "0.oga"), os.path.join(folder, "1.oga")], check=True, stderr=subprocess.DEVNULL)
        Chain(folder, read(mixed)).is_refused("page 1: 34 OtherStream", b"")
        done += 1
    return done


def main():
    with tempfile.TemporaryDirectory() as folder:
        try:
            done = compare(folder, "--quick" in sys.argv[1:])
        except Wrong as wrong:
            print(f"chains: {wrong}")
            return 1
    print(f"chains: {done} comparisons, all as is due")
    return 0


if __name__ == "__main__":
    sys.exit(main())
