#!/usr/bin/env python3
"""`flac encode` of raw samples and WAV files in a regular file, which is read twice, beside the same bytes through a pipe, which are held in memory.

usage: conformance/checks/two_passes.py [--quick] [--seed N]

What has to hold: both streams have the same bytes, native and in Ogg, at several formats, block sizes, seek tables, searches and lists of predictors; the reference decodes
the samples that were put in; what is refused is refused with the same line; OUT is then as a pipe leaves it, and a new one
is empty, also on a full disk. A file that is changed while it is encoded is refused with 94 `Changed`. The memory is at most 8 MB and 40 bytes a frame. FLAC names the program. Status 1 if an answer is not the one that is due.
"""
import argparse
import os
import random
import resource
import struct
import subprocess
import sys
import tempfile
import time

import folders  # noqa: F401  (the path of the modules below)
import parts
from program import BINARY, PROGRAM, Wrong, call, expect, read

FORMATS = [(2, 16, 44100), (1, 8, 8000), (2, 24, 96000), (6, 16, 48000), (8, 12, 22050), (1, 20, 192000), (2, 32, 48000)]


def words_of(sound):
    return ["--rate", str(sound.rate), "--channels", str(sound.channels), "--bits", str(sound.bits)]


def piped(raw, out, words):
    """The status and the line of an encoding whose samples come through a pipe."""
    done = subprocess.run([PROGRAM, "encode", "-", out, *words], input=raw, capture_output=True, check=False, timeout=120)
    return done.returncode, done.stdout, done.stderr


def put(path, data):
    with open(path, "wb") as file:
        file.write(data)
    return path


def state(path):
    return read(path) if os.path.exists(path) else None


def gone(*paths):
    for path in paths:
        if os.path.lexists(path):
            os.remove(path)


def one(rng, folder):
    """A sound, encoded both ways with the same words."""
    channels, bits, rate = rng.choice(FORMATS)
    sound = parts.made(rng, rng.choice([1, 15, 4096, 4097, 20000]), channels, bits, rate)
    words = words_of(sound)
    words += rng.choice([[], ["--block", "16"], ["--block", "1152"], ["--block", "4608"]])
    words += rng.choice([[], ["--seek-every", "1000"], ["--seek-every", "4096"]])
    words += rng.choice([[], ["--search", "quick"], ["--search", "full"]])
    words += rng.choice([[], ["--lax"]])
    words += rng.choice([[], ["--ogg", "--serial", str(rng.randrange(1 << 32))]])
    words += rng.choice([[], ["TITLE=a", "ARTIST=b"]])
    if rng.random() < 0.3:
        words += ["--predictors", put(os.path.join(folder, "list"), b"14 2 1 -1\n5 31 -16\n")]
    raw = put(os.path.join(folder, "a.raw"), sound.raw())
    file, pipe = os.path.join(folder, "file.flac"), os.path.join(folder, "pipe.flac")
    gone(file, pipe)
    first, second = call("encode", raw, file, *words), piped(sound.raw(), pipe, words)
    expect((first[0], first[1], first[2].replace(raw.encode(), b"-")), second)
    if second[0]:
        expect(state(file), state(pipe))
        return 0
    expect(read(file), read(pipe))
    expect(os.path.exists(file + ".part"), False)
    if bits % 8 == 0:
        more = ["--ogg"] if "--ogg" in words else []
        done = subprocess.run(["flac", "-s", "-d", "-c", *more, "--force-raw-format", "--endian=little", "--sign=signed", file], capture_output=True, check=True)
        expect(done.stdout, sound.raw())
    return 1


def wave_of(channels, bits, valid, rate, data, tail=b"", stated=None):
    """A WAV file of these samples, of which `valid` bits count, and these bytes after them."""
    width = (bits + 7) // 8
    head = struct.pack("<HHIIHH", 1 if valid == bits else 0xFFFE, channels, rate, rate * channels * width, channels * width, bits)
    if valid != bits:
        head += struct.pack("<HHI", 22, valid, (1 << channels) - 1) + bytes.fromhex("0100000000001000800000aa00389b71")
    body = b"WAVEfmt " + struct.pack("<I", len(head)) + head + b"data" + struct.pack("<I", len(data) if stated is None else stated)
    body += data + (b"\0" if len(data) % 2 else b"") + tail
    return b"RIFF" + struct.pack("<I", len(body)) + body


def samples_of(rng, channels, bits, valid, count):
    """Samples of `bits` bits whose lowest bits are zeros, in whole bytes, or now and then are not."""
    width, low = (bits + 7) // 8, 8 * ((bits + 7) // 8) - valid
    data = bytearray()
    for index in range(count * channels):
        number = rng.randrange(-(1 << (8 * width - low - 1)), 1 << (8 * width - low - 1)) >> rng.choice([0, 0, 3])
        number = (number << low) + (128 if width == 1 else 0)
        data += number.to_bytes(width, "little", signed=width > 1)
    if low and data and rng.random() < 0.2:
        data[rng.randrange(count * channels) * width] |= 1
    return bytes(data)


def one_wave(rng, folder):
    """A WAV file, encoded both ways with the same words."""
    channels, rate = rng.choice([(1, 8000), (2, 44100), (6, 48000)])
    bits, valid = rng.choice([(8, 8), (16, 16), (16, 12), (16, 8), (24, 24), (24, 20), (24, 16), (32, 24), (32, 32), (20, 20)])
    data = samples_of(rng, channels, bits, valid, rng.choice([0, 1, 15, 4096, 4097, 9000]))
    tail = rng.choice([b"", b"", b"LIST\x04\0\0\0abcd", b"junk", b"id3 \x03\0\0\0abc"])
    wave = wave_of(channels, bits, valid, rate, data, tail, rng.choice([None, None, None, 0, len(data) + 10, 0xFFFFFFFF]))
    if rng.random() < 0.1:
        wave = wave[:rng.randrange(len(wave))]
    words = rng.choice([[], ["--block", "16"], ["--block", "4608"]])
    words += rng.choice([[], ["--seek-every", "1000"], ["--ogg", "--serial", str(rng.randrange(1 << 32))]])
    words += rng.choice([[], ["--search", "none"], ["--search", "quick"]]) + rng.choice([[], ["--lax"]]) + rng.choice([[], ["--no-keep"]])
    words += rng.choice([[], ["--to-end"]]) + rng.choice([[], ["TITLE=a", "ARTIST=b"]])
    path = put(os.path.join(folder, "a.wav"), wave)
    file, pipe = os.path.join(folder, "file.flac"), os.path.join(folder, "pipe.flac")
    gone(file, pipe)
    first, second = call("encode", path, file, *words), piped(wave, pipe, words)
    expect((first[0], first[1], first[2].replace(path.encode(), b"-")), second)
    if second[0]:
        expect(state(file) or b"", state(pipe) or b"")
        return 0
    expect(read(file), read(pipe))
    if "--no-keep" not in words:
        back = os.path.join(folder, "back.wav")
        gone(back)
        expect(call("decode", "--lax", file, back)[0], 0)
        expect(read(back), wave)
    return 1


def wave_changed(rng, folder, count):
    """Bytes of a WAV file are taken away, or others come, while it is encoded."""
    path, out = os.path.join(folder, "large.wav"), os.path.join(folder, "j.flac")
    for change, more in (("added", []), ("taken", []), ("other", []), ("taken", ["--ogg"])):
        large_wave(rng, path, count)
        gone(out)
        child = subprocess.Popen([BINARY, "encode", path, out, "--search", "quick", *more], stdout=subprocess.PIPE, stderr=subprocess.PIPE)
        time.sleep(0.5)
        if child.poll() is not None:
            raise Wrong("the file is too short to be changed in time")
        with open(path, "r+b") as file:
            if change == "taken":
                file.truncate(6 * 4096)
            else:
                file.seek(0, 2 if change == "added" else 0)
                file.write(b"123456")
        done = child.communicate()
        expect((child.returncode, *done), (1, b"", f"flac: {path}: 94 Changed\n".encode()))
        expect((state(out) or b"", state(out + ".part")), (b"", None))


def large_wave(rng, path, count):
    """A WAV file of two channels of 24 bits: blocks of noise, repeated."""
    part = rng.randbytes(6 * 4096)
    with open(path, "wb") as file:
        file.write(wave_of(2, 24, 24, 96000, b"", stated=6 * 4096 * count))
        for _ in range(count):
            file.write(part)


def refused(folder):
    """What is refused: the same line, and nothing is written."""
    good = bytes(range(100)) * 40
    cases = [(good[:3999], []), (good, ["--bits", "12"]), (b"fLaC" + good, []), (b"RIFF\x04\0\0\0WAVE" + good, []), (good, ["--block", "8"]), (good, ["--predictors", put(os.path.join(folder, "bad"), b"no list\n")])]
    for data, more in cases:
        words = ["--rate", "44100", "--channels", "2", "--bits", "16"]
        if "--bits" in more:
            words[words.index("--bits") + 1] = more[1]
            more = []
        raw, file, pipe = put(os.path.join(folder, "b.raw"), data), os.path.join(folder, "c.flac"), os.path.join(folder, "d.flac")
        for old in (None, b"", b"some text"):
            gone(file, pipe)
            if old is not None:
                put(file, old)
                put(pipe, old)
            first, second = call("encode", raw, file, *words, *more), piped(data, pipe, words + more)
            expect(first[0], 1)
            expect((first[0], first[1], first[2].replace(raw.encode(), b"-").replace(file.encode(), pipe.encode())), second)
            expect(state(file), state(pipe))
            expect(state(file) or b"", old or b"")
            expect((state(file + ".part"), state(pipe + ".part")), (None, None))
    raw = put(os.path.join(folder, "b.raw"), good)
    wave = put(os.path.join(folder, "e.wav"), b"RIFF\x04\0\0\0WAVE")
    words = ["--rate", "44100", "--channels", "2", "--bits", "16"]
    expect(call("encode", raw, wave, *words), (1, b"", f"flac: {wave}: cannot be created\n".encode()))
    expect(call("encode", raw, raw, *words), (1, b"", f"flac: {raw}: cannot be created\n".encode()))
    expect(call("encode", raw, "/dev/full", *words), (1, b"", b"flac: /dev/full: 39 Write\n"))
    expect(call("encode", folder, os.path.join(folder, "x.flac"), *words)[0], 1)
    expect((read(wave), read(raw)), (b"RIFF\x04\0\0\0WAVE", good))
    out = os.path.join(folder, "f.flac")
    for _ in range(2):
        expect(call("encode", raw, out, *words), (0, b"", b""))
    expect(call("encode", raw, "-", *words), (0, read(out), b""))


def large(rng, path, count):
    """A raw file of two channels of 24 bits: blocks of noise, repeated."""
    part = rng.randbytes(6 * 4096)
    with open(path, "wb") as file:
        for _ in range(count):
            file.write(part)


def full_disk(rng, folder):
    """A limit on the length of files is a full disk for a program that goes on after its signal: OUT is as it was."""
    raw, out = os.path.join(folder, "large.raw"), os.path.join(folder, "g.flac")
    large(rng, raw, 20)

    def limited():
        import signal
        signal.signal(signal.SIGXFSZ, signal.SIG_IGN)
        resource.setrlimit(resource.RLIMIT_FSIZE, (100000, 100000))

    words = ["--rate", "96000", "--channels", "2", "--bits", "24"]
    for old, more in ((None, []), (b"", []), (b"text", []), (None, ["--ogg"]), (b"text", ["--ogg"])):
        gone(out)
        if old is not None:
            put(out, old)
        done = subprocess.run([BINARY, "encode", raw, out, *words, *more], capture_output=True, check=False, preexec_fn=limited)
        expect((done.returncode, done.stderr), (1, f"flac: {out}: 39 Write\n".encode()))
        expect((state(out) or b"", state(out + ".part")), (old or b"", None))


def changed(rng, folder, count):
    """Bytes are added, or taken away, while the file is encoded."""
    raw, out = os.path.join(folder, "large.raw"), os.path.join(folder, "h.flac")
    words = ["--rate", "96000", "--channels", "2", "--bits", "24", "--search", "quick"]
    for change in ("added", "taken", "other"):
        large(rng, raw, count)
        gone(out)
        child = subprocess.Popen([BINARY, "encode", raw, out, *words], stdout=subprocess.PIPE, stderr=subprocess.PIPE)
        time.sleep(0.5)
        if child.poll() is not None:
            raise Wrong("the file is too short to be changed in time")
        with open(raw, "r+b") as file:
            if change == "taken":
                file.truncate(6 * 4096)
            else:
                file.seek(0, 2 if change == "added" else 0)
                file.write(b"123456")
        done = child.communicate()
        expect((child.returncode, *done), (1, b"", f"flac: {raw}: 94 Changed\n".encode()))
        expect((state(out) or b"", state(out + ".part")), (b"", None))


def memory(rng, folder, count, is_wave, *more):
    """The most memory, by the system's count, in KiB."""
    raw, out = os.path.join(folder, "large.wav" if is_wave else "large.raw"), os.path.join(folder, "i.flac")
    (large_wave if is_wave else large)(rng, raw, count)
    gone(out)
    words = ["--search", "none"] if is_wave else ["--rate", "96000", "--channels", "2", "--bits", "24"]
    child = subprocess.Popen([BINARY, "encode", raw, out, *words, *more])
    used = 0
    while child.poll() is None:
        with open(f"/proc/{child.pid}/status", encoding="ascii", errors="replace") as it:
            used = max([used, *(int(line.split()[1]) for line in it if line.startswith("VmHWM"))])
        time.sleep(0.005)
    expect(child.returncode, 0)
    most = 8_000_000 + 40 * count
    if not 0 < used * 1024 <= most:
        raise Wrong(f"{used} KiB for {count} frames: more than {most} bytes")
    return used


def main():
    parser = argparse.ArgumentParser()
    parser.add_argument("--quick", action="store_true")
    parser.add_argument("--seed", type=int, default=1)
    given = parser.parse_args()
    rng, started = random.Random(given.seed), time.time()
    with tempfile.TemporaryDirectory() as folder:
        made = sum(one(rng, folder) for _ in range(20 if given.quick else 200))
        waves = sum(one_wave(rng, folder) for _ in range(40 if given.quick else 400))
        refused(folder)
        full_disk(rng, folder)
        changed(rng, folder, 1000 if given.quick else 2000)
        wave_changed(rng, folder, 1000 if given.quick else 2000)
        count = 1000 if given.quick else 10000
        most = max(memory(rng, folder, count, is_wave, *more) for is_wave in (False, True) for more in ((), ("--ogg",)))
    print(f"two_passes: {made} streams of equal bytes and {waves} of WAV files, {most} KiB at most, {time.time() - started:.0f} s: all as is due")


if __name__ == "__main__":
    sys.exit(main())
