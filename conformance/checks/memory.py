#!/usr/bin/env python3
"""Measures the memory that `flac test` takes on the largest streams, beside what a decoder may hold, and that of `flac encode` of WAV
files, beside what it takes for the same samples raw and what is kept of the file.

usage: conformance/checks/memory.py [--quick]

--quick leaves out the streams of 16 MiB, and the WAV file of ten minutes. A decoder holds one metadata block, two arrays of a place for each sample of the largest
block that STREAMINFO and the subset, or with --lax the format, allow, and in Ogg one page. FLAC names the program; one without --lax
is asked without it only. Status 1 if more is taken, or an answer is not the one that is due.
"""
import argparse
import os
import struct
import subprocess
import sys
import tempfile
import time
import zlib

import folders  # noqa: F401  (the path of the modules below)
import program
import vectors
import vectors_ogg
from model import LAX, SUBSET
from program import read

HERE = os.path.dirname(os.path.abspath(__file__))
MOST = 16777215
PAGE = 65025 + 255
TEXT = POINT = 24
TRACK, INDEX = 56, 16
"""Bytes of a text in a list of comments (pointer, length, capacity), of a point in a list of points, of a track in a list of tracks,
and of an index point in that of a track."""
MIRRORED = bytes(int(f"{byte:08b}"[::-1], 2) for byte in range(256))
SLACK = 3 * 4096
"""The allocator gives whole pages for what is large: two arrays, and a block's content or a page."""
KEPT = 16384
"""What an encoding holds of a WAV file beside its samples and the chunks after them: the pieces before the samples, and their blocks."""


def arrays(channels, block):
    """The bytes of the arrays of 64 and 32 bits that a frame is read into."""
    return 12 * channels * block


def grown(count):
    """The places of a list that grows as it is read: at most the next power of two."""
    return 1 << (count - 1).bit_length()


def with_block(kind, content, length=None):
    """A stream of STREAMINFO and one block, and no frame."""
    head = vectors.MARKER + vectors.block(0, vectors.stream_info(16, 16), False)
    return head + bytes([kind | 128]) + (len(content) if length is None else length).to_bytes(3, "big") + content


def frame_streams():
    """Of these and the others: name, stream, answer, and how much may be held."""
    fast = dict(rate=96000, depth=32)
    wide = vectors.frame(("0 000001 0" + "01" * (16 * 16384)) * 8, 16384, rate_code=11, channel_code=7, depth_code=7)
    yield ("8 channels of 16384 samples of 32 bits", vectors.stream(wide, info=vectors.stream_info(16, 65535, channels=8, **fast)),
           "frames 1 samples 16384", arrays(8, 16384))
    yield "8 channels, blocks of 65535 stated", vectors.stream(info=vectors.stream_info(16, 65535, channels=8)), "frames 0 samples 0", arrays(8, 4608)
    yield "a total of 10^9 that is a lie", vectors.stream(info=vectors.stream_info(16, 16, total=10**9)), "end: 28 TotalMismatch", arrays(1, 16)
    frames = b"".join(vectors.frame(vectors.SILENCE, 16, number) for number in range(10000))
    yield "10000 frames", vectors.stream(frames, info=vectors.stream_info(16, 16)), "frames 10000 samples 160000", arrays(1, 16)


def lax_streams():
    """Blocks outside the subset."""
    wide = vectors.frame(("0 000001 0" + "01" * (16 * 65535)) * 8, 65535, rate_code=0, channel_code=7, depth_code=0)
    yield ("8 channels of 65535 samples of 32 bits", vectors.stream(wide, info=vectors.stream_info(16, 65535, channels=8, depth=32)),
           "frames 1 samples 65535", arrays(8, 65535))
    yield "8 channels, blocks of 65535 stated", vectors.stream(info=vectors.stream_info(16, 65535, channels=8)), "frames 0 samples 0", arrays(8, 65535)
    parts = vectors.frame(vectors.fixed(0, "00 1111" + "1111 00000" * 2**15), 32768)
    yield "2^15 partitions", vectors.stream(parts, info=vectors.stream_info(16, 32768)), "frames 1 samples 32768", arrays(1, 32768)


def block_streams():
    least = arrays(1, 16)
    blocks = [(2, b"abcd" + bytes(96))] * 10000
    yield "10000 blocks", vectors.stream(info=vectors.stream_info(16, 16), blocks=blocks), "frames 0 samples 0", least + grown(100)
    yield "a number of comments that is a lie", with_block(4, bytes(4) + b"\xff" * 4, MOST), "block 1: 7 BlockLength", least
    yield "a length of a text that is a lie", with_block(4, b"\xf0\xff\xff\0" + bytes(100), MOST), "block 1: 3 Truncated", least + grown(100)
    yield "a length of a seek table that is a lie", with_block(3, b"", MOST // 18 * 18), "block 1: 3 Truncated", least
    yield "a length of a picture's text that is a lie", with_block(6, bytes(4) + b"\xff" * 4 + bytes(24)), "block 1: 7 BlockLength", least


def page_streams():
    for name, stream, answer in vectors_ogg.large_vectors():
        yield name.replace("ogg-", "").replace("-", " "), stream, answer, arrays(2, 4096) + PAGE


def long_frame():
    """508 samples 2^31 - 1, each with a quotient of 262143 zeros, and four of 0: a frame of 16.6 million bytes."""
    four = sum(((1 << 14) + 0x3FFE) << 262158 * place for place in range(4)).to_bytes(4 * 262158 // 8, "big")
    values = int.from_bytes(four * 127, "big") << 60 | sum(1 << 15 * place + 14 for place in range(4))
    length = 18 + 508 * 262158 + 60
    body = (0b000100000000001110 << length - 18 | values) << -length % 8
    return vectors.frame(size=512, rate_code=11, depth_code=7, body_bytes=body.to_bytes((length + 7) // 8, "big"))


def crc32(data):
    """The check of a page, by that of zlib, which takes bits the other way round and begins with ones."""
    value = zlib.crc32(data.translate(MIRRORED), 0xFFFFFFFF) ^ 0xFFFFFFFF
    return int(f"{value:032b}"[::-1], 2)


def page_of(number, piece, flags, ended=True):
    """The page that `vectors_ogg.page` makes of a packet or a part of it, in a hundredth of its time."""
    lacing = bytes([255] * (len(piece) // 255) + ([len(piece) % 255] if ended else []))
    head = b"OggS\0" + bytes([flags]) + bytes(8) + (1).to_bytes(4, "little") + number.to_bytes(4, "little")
    tail = bytes([len(lacing)]) + lacing + piece
    return head + crc32(head + bytes(4) + tail).to_bytes(4, "little") + tail


def ogg_of(*blocks):
    """A stream of long blocks (kind, content), each in full pages of its own."""
    pages = [page_of(0, vectors_ogg.mapping(vectors.stream_info(16, 16)), flags=2)]
    assert pages == [vectors_ogg.page(0, vectors_ogg.mapping(vectors.stream_info(16, 16)), flags=2)]
    for index, (kind, content) in enumerate(blocks, 1):
        packet = vectors.block(kind, content, index == len(blocks))
        for at in range(0, len(packet) + 1, 65025):
            ended = at + 65025 > len(packet)
            flags = (1 if at else 0) | (4 if ended and index == len(blocks) else 0)
            pages.append(page_of(len(pages), packet[at:at + 65025], flags, ended))
    return b"".join(pages)


def large_blocks():
    """The largest block of each kind: its name, its kind, its content, how much of it may be held, and whether it may come again."""
    rest, count, points = bytes(MOST), (MOST - 8) // 4, MOST // 18
    picture = bytes(28) + (MOST - 32).to_bytes(4, "big") + rest[32:]
    comment = bytes(4) + b"\1\0\0\0" + (MOST - 12).to_bytes(4, "little") + rest[12:]
    table = b"".join(index.to_bytes(8, "big") + bytes(10) for index in range(points))
    indices = b"\xff" + b"".join(bytes(8) + bytes([index]) + bytes(3) for index in range(255))
    sheet = bytes(395) + b"\xff" + b"".join(bytes(8) + bytes([track]) + bytes(26) + indices for track in range(255))
    yield "padding of 16 MiB", 1, rest, 0, True
    yield "application block of 16 MiB", 2, rest, grown(MOST), True
    yield "unknown block of 16 MiB", 99, rest, grown(MOST), True
    yield "picture of 16 MiB", 6, picture, grown(MOST), True
    yield "cue sheet of 255 tracks of 255 points", 5, sheet, 256 * TRACK + 255 * 256 * INDEX, True
    yield "comment of 16 MiB", 4, comment, grown(MOST), False
    yield f"{count} comments", 4, bytes(4) + count.to_bytes(4, "little") + bytes(4 * count), TEXT * grown(count), False
    yield f"seek table of {points} points", 3, table, POINT * grown(points), False


def large_streams():
    yield ("a frame of 16.6 million bytes", vectors.stream(long_frame(), info=vectors.stream_info(16, 512, rate=96000, depth=32)),
           "frames 1 samples 512", arrays(1, 512))
    least, other = arrays(1, 16), (2, bytes(MOST))
    for name, kind, content, held, again in large_blocks():
        yield name, with_block(kind, content), "frames 0 samples 0", least + held
        for count in (2, 4):
            # a kind that comes only once is among application blocks
            blocks = [(kind, content)] * count if again else [other, (kind, content), other, other][:count]
            most = least + (held if again else max(held, grown(MOST)))
            called = f"{count} times {name}" if again else f"{name} in {count} blocks"
            yield called, vectors.stream(info=vectors.stream_info(16, 16), blocks=blocks), "frames 0 samples 0", most
            yield f"Ogg, {called}", ogg_of(*blocks), "frames 0 samples 0", most + PAGE
    yield "Ogg, application block of 16 MiB in full pages", ogg_of(other), "frames 0 samples 0", least + PAGE + grown(MOST)


def wave_cases(quick):
    """WAV files: name, format and seconds, a chunk after the samples, and a word: - if it comes by standard input, --ogg if the stream is in Ogg.
    A format has the bits of a sample in the file, and how many of them count."""
    stereo = dict(rate=44100, channels=2, bits=16, valid=16)
    yield "WAV, 16 bits, 30 s", stereo, 30, b"", ""
    yield "WAV, 16 bits, 30 s, by -", stereo, 30, b"", "-"
    yield "WAV, 16 bits, 30 s, --ogg", stereo, 30, b"", "--ogg"
    yield "WAV, 24 bits, 6 channels, 10 s", dict(rate=48000, channels=6, bits=24, valid=24), 10, b"", ""
    yield "WAV, 8 bits, 30 s", dict(stereo, bits=8, valid=8), 30, b"", ""
    yield "WAV, 12 in 16 bits, 30 s", dict(stereo, valid=12), 30, b"", ""
    yield "WAV, 20 in 24 bits, 6 channels, 10 s, by -", dict(rate=48000, channels=6, bits=24, valid=20), 10, b"", "-"
    # (what holds samples doubles from one that a piece of the file fills: here the raw job's is not the smaller one)
    yield "WAV, 24 in 32 bits, 40 s", dict(stereo, bits=32, valid=24), 40, b"", ""
    yield "WAV, 16 bits, 30 s, a chunk of 1 MiB after them", stereo, 30, bytes(1 << 20), ""
    if not quick:
        yield "WAV, 16 bits, 10 minutes", stereo, 600, b"", ""
        yield "WAV, 8 bits, 10 minutes", dict(stereo, bits=8, valid=8), 600, b"", ""
        yield "WAV, 24 in 32 bits, 10 minutes", dict(stereo, bits=32, valid=24), 600, b"", ""
        yield "WAV, 24 in 32 bits, 10 minutes, --ogg", dict(stereo, bits=32, valid=24), 600, b"", "--ogg"
        yield "WAV, 16 bits, 10 minutes, by -", stereo, 600, b"", "-"


def second_of(rate, channels, bits, valid):
    """The samples of a second, raw and as a WAV file has them: a saw in each channel, and a little noise."""
    top, seed, raw, wave = 1 << valid - 2, 1, bytearray(), bytearray()
    for at in range(rate):
        for channel in range(channels):
            seed = (seed * 1103515245 + 12345) & 0x7FFFFFFF
            value = at * (37 + channel) * (top // 4096 or 1) % (2 * top) - top + (seed >> 16) % 5
            raw += value.to_bytes((valid + 7) // 8, "little", signed=True)
            wave += (value + 128).to_bytes(1, "little") if bits == 8 else (value << bits - valid).to_bytes(bits // 8, "little", signed=True)
    return bytes(raw), bytes(wave)


def wave_head(rate, channels, bits, valid, size, extra):
    """What comes before the samples of a WAV file. If not all bits of a sample count, its format is WAVE_FORMAT_EXTENSIBLE."""
    row, whole = channels * bits // 8, valid == bits
    form = struct.pack("<HHIIHH", 1 if whole else 0xFFFE, channels, rate, rate * row, row, bits)
    if not whole:
        form += struct.pack("<HHI", 22, valid, 0) + bytes.fromhex("0100000000001000800000aa00389b71")
    head = b"WAVEfmt " + struct.pack("<I", len(form)) + form + b"data" + struct.pack("<I", size)
    return b"RIFF" + struct.pack("<I", len(head) + size + extra) + head


class Meter:
    def __init__(self, folder):
        self.stream, self.report, self.library = (os.path.join(folder, name) for name in ("stream", "report", "failing.so"))
        subprocess.run(["cc", "-O1", "-shared", "-fPIC", "-o", self.library, os.path.join(HERE, "failing.c")], check=True)

    def of(self, data, profile=SUBSET):
        """The answer of `test`, the peak of the memory that it asks for from the first byte on, and the peak of the process."""
        with open(self.stream, "wb") as file:
            file.write(data)
        answer = program.answer(self.stream, profile)
        subprocess.run([program.BINARY, "test", *profile.words, self.stream], stdout=subprocess.DEVNULL, stderr=subprocess.DEVNULL, check=False,
                       env={"LD_PRELOAD": self.library, "FAILING_REPORT": self.report, "FAILING_CUT": "0"})
        lines = {line.split()[0]: dict(pair.split("=") for pair in line.split()[1:]) for line in read(self.report).decode().splitlines()}
        os.remove(self.report)
        return answer, int(lines["exit"]["peak"]) - int(lines["cut"]["live"]), 1024 * int(lines["exit"]["resident"])

    def encoding(self, source, words, piped):
        """The peak of the memory that `encode` asks for, over the whole run."""
        out = self.stream + ".flac"
        with open(source, "rb") as file:
            done = subprocess.run([program.BINARY, "encode", "-" if piped else source, out, "--force", *words], stdin=file if piped else subprocess.DEVNULL,
                                  check=False, env={"LD_PRELOAD": self.library, "FAILING_REPORT": self.report})
        lines = {line.split()[0]: dict(pair.split("=") for pair in line.split()[1:]) for line in read(self.report).decode().splitlines()}
        for path in (self.report, *([out] if os.path.exists(out) else [])):
            os.remove(path)
        return done.returncode, int(lines["exit"]["peak"])

    def wave(self, folder, form, seconds, chunk, word):
        """The status of encoding a WAV file and the raw samples through a pipe, both peaks, and how many bytes the samples have in the file."""
        (plain, one), raw, file = second_of(**form), os.path.join(folder, "x.raw"), os.path.join(folder, "x.wav")
        piece = b"JUNK" + struct.pack("<I", len(chunk)) + chunk if chunk else b""
        with open(raw, "wb") as to_raw, open(file, "wb") as to_wave:
            to_wave.write(wave_head(size=len(one) * seconds, extra=len(piece), **form))
            for _ in range(seconds):
                to_raw.write(plain)
                to_wave.write(one)
            to_wave.write(piece)
        words = ["--rate", str(form["rate"]), "--channels", str(form["channels"]), "--bits", str(form["valid"])]
        raw_status, least = self.encoding(raw, [*words, "--search", "quick"], True)
        status, most = self.encoding(file, [word] if word == "--ogg" else [], word == "-")
        return raw_status or status, least, most, len(one) * seconds


def main():
    parser = argparse.ArgumentParser(description=__doc__, formatter_class=argparse.RawDescriptionHelpFormatter)
    parser.add_argument("--quick", action="store_true")
    words, began, failed, cases = parser.parse_args(), time.time(), 0, 0
    with tempfile.TemporaryDirectory() as folder:
        meter = Meter(folder)
        _, _, least = meter.of(with_block(1, b""))
        print(f"{'bytes':54}  {'stream':>9}  {'taken':>9}  {'at most':>9}  {'process':>9}")
        for group in (frame_streams, lax_streams, block_streams, page_streams) + (() if words.quick else (large_streams,)):
            profile = LAX if group is lax_streams else SUBSET
            for name, stream, due, most in group():
                answer, taken, whole = meter.of(stream, profile)
                name = " ".join((*profile.words, name))
                good, cases = answer == due and taken <= most + SLACK, cases + 1
                failed += not good
                print(f"{name:54}  {len(stream):9}  {taken:9}  {most:9}  {whole - least:9}" + ("" if good else f"  FAILED, answers '{answer}'"))
        for name, form, seconds, chunk, word in wave_cases(words.quick):
            status, least, taken, size = meter.wave(folder, form, seconds, chunk, word)
            most = least + 3 * len(chunk)
            good, cases = status == 0 and taken <= most + KEPT, cases + 1
            failed += not good
            print(f"{name:54}  {size:9}  {taken:9}  {most:9}  {'':9}" + ("" if good else f"  FAILED, status {status}"))
    print(f"memory: {cases} cases, {cases - failed} passed, {failed} failed, {time.time() - began:.0f} seconds")
    return 1 if failed else 0


if __name__ == "__main__":
    sys.exit(main())
