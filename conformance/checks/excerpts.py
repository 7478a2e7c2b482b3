#!/usr/bin/env python3
"""`flac decode --from --to` over streams of other encoders: exactly the samples of the part, whatever comes after it.

usage: conformance/checks/excerpts.py [--quick] [--seed N]

The streams are made by the reference encoder and by the program, native and in Ogg, at several formats and block sizes, with and
without the number of samples in STREAMINFO. Parts at the bounds of frames, over them, of one sample, up to the end, and some at
random are decoded to raw samples and to WAV files, and compared with cuts of the samples that were put in; those that the reference
decoder takes, with what it decodes by --skip and --until. Parts that are none, and parts of streams that are damaged before, in or
after the part are judged by the decoded samples and by the line of `flac test`. Streams that are long enough for a search among their
frames come with right and wrong seek tables, and none, with variable block sizes, without their first frames, cut off, damaged, and
through a pipe. FLAC names the program. Status 1 if an answer is not the one that is due.
"""
import argparse
import os
import random
import re
import struct
import subprocess
import sys
import tempfile
import time

import folders  # noqa: F401  (the path of the modules below)
import parts
import program
from program import Wrong, call, expect, read

FORMATS = [(2, 16, 44100), (1, 8, 8000), (2, 24, 96000), (6, 16, 48000), (1, 20, 192000), (2, 32, 48000), (3, 12, 22050)]
BLOCKS = (16, 192, 1152, 4096)


def encoded(path, sound, size, ogg):
    """A stream by the reference encoder, or by the program if that does not take the depth."""
    if sound.bits % 8 == 0:
        parts.by_reference(path, sound, size, 5, ogg)
        return
    with open("raw", "wb") as file:
        file.write(sound.raw())
    words = ["--rate", sound.rate, "--channels", sound.channels, "--bits", sound.bits, "--block", size, "--lax", *(["--ogg"] if ogg else [])]
    program.succeeds("encode", "raw", path, *map(str, words))


def without_total(data):
    """A native stream whose STREAMINFO states neither the number of samples nor their digest (RFC 9639, section 8.2)."""
    data = bytearray(data)
    data[21] &= 0xf0
    data[22:42] = bytes(20)
    return bytes(data)


def moment(chance, sample, rate):
    """A sample's number, or a time at which it begins, as a word of the command line."""
    if chance.randrange(3):
        return str(sample)
    nanoseconds = -(-sample * 10**9 // rate)
    if nanoseconds * rate // 10**9 != sample:
        return str(sample)
    seconds, rest = divmod(nanoseconds, 10**9)
    hours, minutes = seconds // 3600, seconds // 60 % 60
    second = f"{seconds % 60:02}.{rest:09}"
    return f"{hours}:{minutes:02}:{second}" if hours else f"{minutes}:{second}"


def spans(chance, count, size, many):
    """Parts of a stream: at the bounds of frames, over them, of one sample, and some at random."""
    yield from ((0, min(size, count)), (0, count), (0, None), (0, 1), (count - 1, count), (count - 1, None))
    if count > 2 * size:
        yield from ((size, 2 * size), (size - 1, size + 1), (size - 1, 2 * size + 1), (size, None), (2 * size - 1, 2 * size))
    for _ in range(many):
        first, last = sorted(chance.sample(range(count + 1), 2))
        yield first, chance.choice((last, last, None))


def words_of(chance, first, last, rate):
    words = ["--from", moment(chance, first, rate)] if first or chance.randrange(2) or last is None else []
    return words + (["--to", moment(chance, last, rate)] if last is not None else [])


class Runs:
    def __init__(self, chance):
        self.chance, self.written, self.refused = chance, 0, 0

    def part(self, path, sound, raw, first, last, lax, counted=True):
        """Decodes a part to raw samples and to a WAV file, whose length is known or not."""
        row = sound.channels * ((sound.bits + 7) // 8)
        due = raw[first * row:(len(sound.rows) if last is None else last) * row]
        words = words_of(self.chance, first, last, sound.rate)
        expect(call("decode", *lax, *words, path, "part.raw"), (0, b"", b""))
        expect(read("part.raw"), due)
        expect(call("decode", *lax, *words, path, "part.wav", "--force"), (0, b"", b""))
        self.wave("part.wav", sound, due, counted)
        self.written += 2
        return due

    def wave(self, path, sound, due, counted):
        """The WAV file is that of a stream of these samples, as the whole is decoded."""
        with open("due.raw", "wb") as file:
            file.write(due)
        words = ["--rate", sound.rate, "--channels", sound.channels, "--bits", sound.bits, "--lax", "--force"]
        program.succeeds("encode", "due.raw", "due.flac", *map(str, words))
        if not counted:
            with open("due.flac", "r+b") as file:
                file.write(without_total(read("due.flac")))
        program.succeeds("decode", "--lax", "due.flac", "due.wav", "--force")
        expect(read(path), read("due.wav"))

    def none(self, path, words, line, begun=False):
        """A part that is none: its line, and OUT as it was. `begun`: it is found at the end of the stream, after samples."""
        for name, old in (("none.raw", b"old samples"), ("none.wav", b""), ("new.wav", None)):
            for other in (name, f"{name}.part"):
                if os.path.exists(other):
                    os.remove(other)
            if old is not None:
                with open(name, "wb") as file:
                    file.write(old)
            expect(call("decode", *words, path, name), (1, b"", f"flac: {path}: {line}\n".encode()))
            if old or not begun:
                expect(read(name) if os.path.exists(name) else None, old)
        self.refused += 3


def by_reference(path, ogg, first, last):
    words = ["flac", "-s", "-d", "-c", "--force-raw-format", "--endian=little", "--sign=signed", *(["--ogg"] if ogg else [])]
    words += [f"--skip={first}"] if first else []
    words += [f"--until={last}"] if last is not None else []
    return subprocess.run([*words, path], check=True, stdout=subprocess.PIPE, stderr=subprocess.DEVNULL).stdout


def one_stream(runs, path, sound, size, ogg, lax, many):
    chance, raw, count = runs.chance, sound.raw(), len(sound.rows)
    for k, (first, last) in enumerate(spans(chance, count, size, many)):
        due = runs.part(path, sound, raw, first, last, lax)
        if sound.bits % 8 == 0 and not ogg and k % 3 == 0:
            expect(by_reference(path, ogg, first, last), due)
    for words, line in (
        (["--from", "5", "--to", "5"], "73 EmptyRange"), (["--from", "600", "--to", "0:00.000000001"], "73 EmptyRange"), (["--to", "0"], "73 EmptyRange"),
        (["--to", str(count + 1)], "74 RangeEnd"), (["--from", str(count)], "74 RangeEnd"), (["--from", str(count + 7), "--to", str(count + 9)], "74 RangeEnd"),
    ):
        runs.none(path, [*lax, *words], line)


def damaged(runs, path, sound, size, tries):
    """A changed byte: parts before the frame are decoded, and the others refused with the line of `test`."""
    chance, raw, count = runs.chance, sound.raw(), len(sound.rows)
    row = sound.channels * ((sound.bits + 7) // 8)
    data = read(path)
    for _ in range(tries):
        changed = bytearray(data)
        changed[chance.randrange(42, len(data))] ^= 1 << chance.randrange(8)
        with open("bad.flac", "wb") as file:
            file.write(changed)
        status, _, err = call("test", "--lax", "bad.flac")
        if status == 0:
            continue
        place = err.split(b": ")[2].split(b" ")
        if place[0] != b"frame":
            continue
        good = int(place[1]) * size
        if good:
            last = chance.randrange(1, good + 1)
            first = chance.randrange(last)
            expect(call("decode", "--lax", "--from", str(first), "--to", str(last), "bad.flac", "part.raw"), (0, b"", b""))
            expect(read("part.raw"), raw[first * row:last * row])
            runs.written += 1
        if good < count:
            before = read("part.raw") if os.path.exists("part.raw") else b""
            first = chance.randrange(good + 1)
            expect(call("decode", "--lax", "--from", str(first), *chance.choice((["--to", str(good + 1)], [])), "bad.flac", "part.raw"), (1, b"", err))
            if before:
                expect(read("part.raw"), before)
            runs.refused += 1


def around(runs, path, sound):
    """Between the tags of other programs, with --any."""
    row = sound.channels * ((sound.bits + 7) // 8)
    with open("tagged.flac", "wb") as file:
        file.write(b"ID3\x03\0\0\0\0\0\x0a" + bytes(10) + read(path) + b"TAG" + bytes(125))
    expect(call("decode", "--any", "--from", "3", "tagged.flac", "part.raw"), (0, b"", b""))
    expect(read("part.raw"), sound.raw()[3 * row:])
    expect(call("decode", "--from", "3", "tagged.flac", "part.raw"), (1, b"", b"flac: tagged.flac: marker: 4 BadMarker\n"))
    runs.written += 1


def pipes(path, sound):
    """Standard input and standard output."""
    row = sound.channels * ((sound.bits + 7) // 8)
    with open(path, "rb") as file:
        ran = subprocess.run([program.PROGRAM, "decode", "--from", "2", "--to", "9", "-", "-"], stdin=file, stdout=subprocess.PIPE, stderr=subprocess.PIPE, check=False)
    expect((ran.returncode, ran.stderr, ran.stdout), (0, b"", sound.raw()[2 * row:9 * row]))


# ---- streams that are longer than what a search looks through at once

def blocks_end(data):
    """Where the first frame begins, and each metadata block: its offset, kind and length (RFC 9639, section 8.1)."""
    at, found = 4, []
    while True:
        kind, length = data[at] & 127, int.from_bytes(data[at + 1:at + 4], "big")
        found.append((at, kind, length))
        last, at = data[at] >> 7, at + 4 + length
        if last:
            return at, found


def frames_of(path):
    """Where the frames begin, and how many bytes they have, as the reference decoder analyses the stream."""
    subprocess.run(["flac", "-s", "-a", "-f", "--lax", "-o", "long.ana", path], check=True, stderr=subprocess.DEVNULL)
    with open("long.ana", encoding="ascii") as file:
        found = [re.match(r"frame=\d+\toffset=(\d+)\tbits=(\d+)", line) for line in file]
    return [(int(one[1]), int(one[2]) // 8) for one in found if one]


def with_table(data, points):
    """The stream with these points in its seek table: sample, offset from the first frame, block size (section 8.5)."""
    data, (_, blocks) = bytearray(data), blocks_end(data)
    at, _, length = next(one for one in blocks if one[1] == 3)
    text = b"".join(struct.pack(">QQH", *point) for point in points[:length // 18])
    data[at + 4:at + 4 + length] = text + (b"\xff" * 8 + bytes(10)) * (length // 18 - len(text) // 18)
    return bytes(data)


def check_value(data, bits, polynomial):
    value, top = 0, 1 << (bits - 1)
    table = []
    for byte in range(256):
        one = byte << (bits - 8)
        for _ in range(8):
            one = (one << 1) ^ (polynomial if one & top else 0)
        table.append(one & (1 << bits) - 1)
    for byte in data:
        value = (value << 8) & (1 << bits) - 1 ^ table[value >> (bits - 8) ^ byte]
    return value


def coded(number):
    """A number as a header has it (section 9.1.5)."""
    if number < 128:
        return bytes([number])
    rest = []
    while number >= 1 << 6 - len(rest):
        rest.insert(0, 128 | number & 63)
        number >>= 6
    return bytes([(0xff80 >> len(rest)) & 0xff | number, *rest])


def renumbered(data, frames, number_of, variable):
    """The stream with other numbers in its frames: those of their first samples, with variable block sizes."""
    pieces = [data[:frames[0][0]]]
    for k, (at, size) in enumerate(frames):
        frame = data[at:at + size]
        old = 1 if frame[4] < 128 else 8 - (frame[4] ^ 255).bit_length()
        ends = {6: 1, 7: 2}.get(frame[2] >> 4, 0) + {12: 1, 13: 2, 14: 2}.get(frame[2] & 15, 0)
        head = frame[:1] + bytes([frame[1] & 0xfe | variable]) + frame[2:4] + coded(number_of(k)) + frame[4 + old:4 + old + ends]
        body = head + bytes([check_value(head, 8, 0x07)]) + frame[4 + old + ends + 1:-2]
        pieces.append(body + check_value(body, 16, 0x8005).to_bytes(2, "big"))
    return b"".join(pieces)


class Long:
    """A stream that is longer than what a search looks through at once."""

    def __init__(self, runs, sound, size):
        self.runs, self.chance, self.sound, self.size = runs, runs.chance, sound, size
        self.raw, self.row = sound.raw(), sound.channels * ((sound.bits + 7) // 8)
        parts.by_reference("long.flac", sound, size, 2, False)
        subprocess.run(["metaflac", "--add-seekpoint=40x", "long.flac"], check=True)
        self.data, self.frames = read("long.flac"), frames_of("long.flac")
        self.count = len(sound.rows)

    def due(self, first, last, before=0):
        return self.raw[(before + first) * self.row:(self.count if last is None else before + last) * self.row]

    def spans(self, many):
        yield from ((self.count - 1, None), (self.count - 1, self.count), (self.count // 2, self.count // 2 + 1), (self.count // 3, None), (5, None))
        for _ in range(many):
            first = self.chance.randrange(self.count - 1)
            yield first, self.chance.choice((None, min(self.count, first + 1 + self.chance.randrange(4 * self.size))))

    def same(self, name, data, many, before=0):
        """Parts of these bytes: those of the samples from a number on."""
        with open(name, "wb") as file:
            file.write(data)
        for first, last in self.spans(many):
            first, last = first - before, None if last is None else last - before
            if first >= 0:
                words = words_of(self.chance, first, last, self.sound.rate)
                expect(call("decode", "--lax", *words, name, "part.raw", "--force"), (0, b"", b""))
                expect(read("part.raw"), self.due(first, last, before))
                self.runs.written += 1
        self.runs.none(name, ["--lax", "--from", str(self.count - before)], "74 RangeEnd")

    def tables(self, many):
        data, chance = self.data, self.chance
        start, ends = blocks_end(data)[0], len(data)
        points = [(k * self.size, at - start, self.size) for k, (at, _) in enumerate(self.frames)]
        chosen = sorted(chance.sample(points, min(39, len(points))))
        self.same("long.flac", data, many)
        self.same("placeholders.flac", with_table(data, []), many)
        with open("zero.flac", "wb") as file:
            file.write(with_table(data, [(0, at, self.size) for _, at, _ in chosen]))
        # points at one sample break a rule of the table (RFC 9639, section 8.5), which is part of the stream
        status, _, err = call("decode", "--lax", "--to", "1", "zero.flac", "part.raw", "--force")
        expect((status, err.endswith(b": 10 SeekOrder\n")), (1, True))
        self.same("wild.flac", with_table(data, [(sample, chance.randrange(2 ** 64), self.size) for sample, _, _ in chosen]), many)
        self.same("within.flac", with_table(data, [(sample, chance.randrange(ends), self.size) for sample, _, _ in chosen]), many)
        self.same("later.flac", with_table(data, [(sample, other, self.size) for (sample, _, _), (_, other, _) in zip(chosen, chosen[5:])]), many)
        subprocess.run(["metaflac", "--remove", "--block-type=SEEKTABLE", "--dont-use-padding", "long.flac"], check=True)
        self.same("none.flac", read("long.flac"), many)
        if self.sound.bits == 16:
            parts.by_ffmpeg("ffmpeg.flac", self.sound, self.size)
            self.same("ffmpeg.flac", read("ffmpeg.flac"), many)

    def numbers(self, many):
        """Variable block sizes; a stream from a later frame on; one whose STREAMINFO states another block size."""
        start, frames = self.frames[0][0], self.frames
        self.same("variable.flac", renumbered(self.data, frames, lambda k: k * self.size, 1), many)
        cut = self.chance.randrange(1, len(frames) // 2)
        later = without_total(self.data[:start]) + self.data[frames[cut][0]:]
        with open("cut.flac", "wb") as file:
            file.write(later)
        for first, last in self.spans(many):
            if first >= cut * self.size:
                first, last = first - cut * self.size, None if last is None else last - cut * self.size
                expect(call("decode", "--lax", *words_of(self.chance, first, last, self.sound.rate), "cut.flac", "part.raw", "--force"), (0, b"", b""))
                expect(read("part.raw"), self.due(first, last, cut * self.size))
                self.runs.written += 1
        wide = bytearray(self.data)
        wide[10:12] = (self.size * 2).to_bytes(2, "big")
        self.same("wide.flac", bytes(wide), many)

    def refused(self, name, data, first, last, due, line):
        """The samples up to a fault, and its line."""
        with open(name, "wb") as file:
            file.write(data)
        if os.path.exists("part.raw"):
            os.remove("part.raw")
        words = ["--from", str(first), *(["--to", str(last)] if last is not None else [])]
        expect(call("decode", "--lax", *words, name, "part.raw"), (1, b"", f"flac: {name}: {line}\n".encode()))
        expect(read("part.raw"), due)
        self.runs.refused += 1

    def damage(self, tries):
        """A frame that is damaged before the part, in it and after it; a stream that is cut off."""
        size, frames = self.size, self.frames
        for _ in range(tries):
            hit = self.chance.randrange(1, len(frames) - 1)
            at, length = frames[hit]
            data = bytearray(self.data)
            data[at + self.chance.randrange(length)] ^= 1 << self.chance.randrange(8)
            with open("bad.flac", "wb") as file:
                file.write(data)
            status, _, err = call("test", "--lax", "bad.flac")
            expect((status, err.startswith(f"flac: bad.flac: frame {hit}: ".encode())), (1, True))
            line = err.decode().split(": ", 2)[2].rstrip("\n")
            last = self.chance.randrange(1, hit * size + 1)
            first = max(0, last - 1 - self.chance.randrange(3 * size))
            expect(call("decode", "--lax", "--from", str(first), "--to", str(last), "bad.flac", "part.raw", "--force"), (0, b"", b""))
            expect(read("part.raw"), self.due(first, last))
            first = self.chance.randrange(max(0, hit * size - 3 * size), hit * size)
            self.refused("bad.flac", data, first, (hit + 1) * size, self.due(first, hit * size), line)
            # a frame before the part: not read if it is far away
            first = (hit + 1) * size + self.chance.randrange(4)
            status, _, told = call("decode", "--lax", "--from", str(first), "--to", str(min(self.count, first + 9)), "bad.flac", "part.raw", "--force")
            expect((status, told), (0, b"") if status == 0 else (1, err))
            if status == 0:
                expect(read("part.raw"), self.due(first, min(self.count, first + 9)))
            self.runs.written += 1
        hit = len(frames) - 2
        first = (hit - 1) * size + 3
        for end in (frames[hit][0], frames[hit][0] + 9):
            with open("short.flac", "wb") as file:
                file.write(self.data[:end])
            _, _, err = call("test", "--lax", "short.flac")
            self.refused("short.flac", self.data[:end], first, None, self.due(first, hit * size), err.decode().split(": ", 2)[2].rstrip("\n"))

    def streams(self):
        """Standard input; between the tags of other programs."""
        first = self.count // 2
        for source in (["long.flac"], None):
            words = [program.PROGRAM, "decode", "--lax", "--from", str(first), "--to", str(first + 9), "-", "-"]
            with open("long.flac", "rb") as file:
                data = None if source else file.read()
                ran = subprocess.run(words, **({"stdin": file} if source else {"input": data}), stdout=subprocess.PIPE, stderr=subprocess.PIPE, check=False)
            expect((ran.returncode, ran.stderr, ran.stdout), (0, b"", self.due(first, first + 9)))
        with open("tagged.flac", "wb") as file:
            file.write(b"ID3\x03\0\0\0\0\0\x0a" + bytes(10) + self.data + b"TAG" + bytes(125))
        expect(call("decode", "--any", "--from", str(first), "--to", str(first + 9), "tagged.flac", "part.raw", "--force"), (0, b"", b""))
        expect(read("part.raw"), self.due(first, first + 9))
        self.runs.written += 3


def long_streams(runs, quick):
    chance = runs.chance
    for channels, bits, rate, size in ((2, 16, 44100, 1152), (1, 24, 96000, 4096)) if quick else ((2, 16, 44100, 4096), (2, 24, 96000, 1152), (6, 16, 48000, 4608), (1, 8, 8000, 192)):
        count = 3_000_000 // (channels * ((bits + 7) // 8)) + chance.randrange(size)
        rows = parts.made(chance, 100_000, channels, bits, rate).rows
        rows = [rows[(i * 7919 + i // 100_000) % len(rows)] if i // 40_000 % 2 else rows[i % len(rows)] for i in range(count)]
        stream = Long(runs, parts.Sound(rate, bits, rows), size)
        many = 2 if quick else 6
        stream.tables(many)
        stream.numbers(many)
        stream.damage(4 if quick else 20)
        stream.streams()


def main():
    parser = argparse.ArgumentParser()
    parser.add_argument("--quick", action="store_true")
    parser.add_argument("--seed", type=int, default=int(time.time()))
    words = parser.parse_args()
    chance = random.Random(words.seed)
    print(f"seed {words.seed}")
    runs = Runs(chance)
    with tempfile.TemporaryDirectory() as folder:
        os.chdir(folder)
        for number, (channels, bits, rate) in enumerate(FORMATS[:3] if words.quick else FORMATS):
            size = chance.choice(BLOCKS)
            sound = parts.made(chance, chance.choice((5000, 9001)), channels, bits, rate)
            many = 3 if words.quick else 12
            for ogg in (False, True):
                path = f"{number}.{'oga' if ogg else 'flac'}"
                encoded(path, sound, size, ogg)
                one_stream(runs, path, sound, size, ogg, ["--lax"], many)
                if not ogg:
                    with open(f"{number}-open.flac", "wb") as file:
                        file.write(without_total(read(path)))
                    for first, last in spans(chance, len(sound.rows), size, 2):
                        runs.part(f"{number}-open.flac", sound, sound.raw(), first, last, ["--lax"], last is not None)
                    count = len(sound.rows)
                    runs.none(f"{number}-open.flac", ["--lax", "--to", str(count + 1)], "74 RangeEnd", True)
                    runs.none(f"{number}-open.flac", ["--lax", "--from", str(count)], "74 RangeEnd", True)
                    damaged(runs, path, sound, size, 20 if words.quick else 100)
            if number == 0:
                around(runs, "0.flac", sound)
                pipes("0.flac", sound)
        long_streams(runs, words.quick)
    print(f"{runs.written} parts as due, {runs.refused} refused")
    return 0


if __name__ == "__main__":
    try:
        sys.exit(main())
    except Wrong as wrong:
        print(f"wrong: {wrong}")
        sys.exit(1)
