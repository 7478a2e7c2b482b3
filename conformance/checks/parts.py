#!/usr/bin/env python3
"""`flac same` over pairs of streams whose samples are known: the status, and the line of the first difference.

usage: conformance/checks/parts.py [--quick] [--seed N]

The streams are made by the reference encoder and by FFmpeg, in blocks of many sizes, at several levels, native and in Ogg, of samples
that are equal, or differ in one sample, in their number, or in their format. What is due is found from the samples themselves. Some
streams are cut off or damaged: then the program's own line of `flac test` is due, unless the samples before differ. FLAC names the
program. Status 1 if an answer is not the one that is due.
"""
import argparse
import os
import random
import subprocess
import sys
import tempfile
import time

import folders  # noqa: F401  (the path of the modules below)
import program
from program import Wrong, expect

SIZES = (16, 17, 192, 576, 1000, 1152, 4095, 4096, 4608, 16384)


class Sound:
    """Samples of a format: a list of inter-channel samples."""

    def __init__(self, rate, bits, rows):
        self.rate, self.bits, self.rows = rate, bits, rows
        self.channels = len(rows[0])

    def raw(self):
        width = (self.bits + 7) // 8
        return b"".join(sample.to_bytes(width, "little", signed=True) for row in self.rows for sample in row)

    def changed(self, **words):
        other = Sound(self.rate, self.bits, self.rows)
        for name, value in words.items():
            setattr(other, name, value)
        other.channels = len(other.rows[0])
        return other


def made(chance, count, channels, bits, rate):
    """Steps with some noise, which all kinds of subframes suit somewhere."""
    top = 2 ** (bits - 1)
    rows, level = [], [0] * channels
    for i in range(count):
        if i % 997 == 0:
            level = [chance.randrange(-top // 2, top // 2) for _ in range(channels)]
        noise = top // 64 if i // 4000 % 2 else 1
        rows.append([max(-top, min(top - 1, one + chance.randrange(-noise, noise + 1))) for one in level])
    return Sound(rate, bits, rows)


def by_reference(path, sound, size, level, ogg):
    words = ["flac", "-s", "-f", "--lax", "--force-raw-format", "--endian=little", "--sign=signed", f"--channels={sound.channels}",
             f"--bps={sound.bits}", f"--sample-rate={sound.rate}", f"-{level}", f"-b{size}", "-o", path]
    words += ["--ogg", "--serial-number=77"] if ogg else []
    subprocess.run([*words, "-"], input=sound.raw(), check=True, stderr=subprocess.DEVNULL)


def by_ffmpeg(path, sound, size):
    kind = "s16le" if sound.bits == 16 else None
    if not kind:
        return False
    words = ["ffmpeg", "-v", "error", "-y", "-f", kind, "-ar", str(sound.rate), "-ac", str(sound.channels), "-i", "-", "-c:a", "flac",
             "-frame_size", str(size), path]
    subprocess.run(words, input=sound.raw(), check=True)
    return True


def difference(a, b):
    """The line that is due, empty if there is no difference."""
    for name, x, y in (("rate", a.rate, b.rate), ("channels", a.channels, b.channels), ("bits", a.bits, b.bits)):
        if x != y:
            return f"{name} {x} {y}\n"
    for number, (x, y) in enumerate(zip(a.rows, b.rows)):
        if x != y:
            channel = next(c for c in range(a.channels) if x[c] != y[c])
            return f"differ at sample {number} channel {channel}\n"
    if len(a.rows) != len(b.rows):
        return f"samples {len(a.rows)} {len(b.rows)}\n"
    return ""


def check_pair(a, b, sound, other):
    due = difference(sound, other)
    expect(program.call("same", a, b), (1 if due else 0, due.encode(), b""))


def variants(chance, sound):
    """The same samples, and some that differ."""
    yield sound
    for _ in range(3):
        at, channel = chance.randrange(len(sound.rows)), chance.randrange(sound.channels)
        rows = [list(row) for row in sound.rows]
        rows[at][channel] += 1 if rows[at][channel] < 2 ** (sound.bits - 1) - 1 else -1
        yield sound.changed(rows=rows)
    yield sound.changed(rows=sound.rows[:-chance.randrange(1, 100)])
    yield sound.changed(rate=sound.rate + 1000)


def main():
    parser = argparse.ArgumentParser()
    parser.add_argument("--quick", action="store_true")
    parser.add_argument("--seed", type=int, default=int(time.time()))
    words = parser.parse_args()
    chance = random.Random(words.seed)
    print(f"seed {words.seed}")
    pairs = 0
    with tempfile.TemporaryDirectory() as folder:
        os.chdir(folder)
        kinds = [(2, 16, 44100), (1, 16, 8000), (2, 24, 96000), (6, 16, 48000), (1, 8, 22050)]
        for channels, bits, rate in kinds[:2] if words.quick else kinds:
            sound = made(chance, 9000, channels, bits, rate)
            streams = []
            for k, one in enumerate(variants(chance, sound)):
                sizes = chance.sample(SIZES, 2 if words.quick else 4)
                for size in sizes:
                    path = f"{k}-{size}.flac"
                    by_reference(path, one, size, chance.randrange(9), False)
                    streams.append((path, one))
                path = f"{k}-ogg.oga"
                by_reference(path, one, chance.choice(SIZES[2:]), 5, True)
                streams.append((path, one))
                if k == 0 and by_ffmpeg("ffmpeg.flac", one, 2304):
                    streams.append(("ffmpeg.flac", one))
            for a, x in streams:
                for b, y in streams:
                    check_pair(a, b, x, y)
                    pairs += 1
            pairs += damaged(chance, streams)
    print(f"{pairs} pairs of streams: all answers are due")


def damaged(chance, streams):
    """Pairs of which one is cut off or has a changed byte."""
    pairs = 0
    for _ in range(40):
        (a, x), (b, y) = chance.choice(streams), chance.choice(streams)
        with open(a, "rb") as file:
            data = bytearray(file.read())
        at = chance.randrange(len(data))
        if chance.randrange(2):
            data = data[:at]
        else:
            data[at] ^= 1 << chance.randrange(8)
        with open("bad", "wb") as file:
            file.write(data)
        status, _, line = program.call("test", "--lax", "bad")
        if status == 0:
            continue
        for first, second in (("bad", b), (b, "bad")):
            status, out, err = program.call("same", first, second)
            if status != 1 or bool(out) == bool(err) or err not in (b"", line):
                raise Wrong(f"same {first} {second}: {a} at {at}: {status} {out} {err}, test: {line}")
            if out.startswith(b"samples"):
                raise Wrong(f"same {first} {second}: {a} at {at}: {out}")
            pairs += 1
    return pairs


if __name__ == "__main__":
    try:
        main()
    except Wrong as wrong:
        sys.exit(str(wrong))
