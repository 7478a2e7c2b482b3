#!/usr/bin/env python3
"""`flac recode` over streams of other encoders: the same samples, the same metadata blocks, in either container and back.

usage: conformance/checks/recode.py [--quick] [--seed N]

The streams are made by the reference encoder and by FFmpeg, native and in Ogg, at several formats, levels and block sizes, also
outside the streamable subset; blocks of each type are put into some of them by hand, in several orders. Each is encoded anew as a
native stream, from there in Ogg, and back. What has to hold: `flac same`; the samples that the reference decoder and FFmpeg give
are those that were put in; STREAMINFO has their number and their digest; the blocks are those of the input by a model of metadata
blocks, without seek tables, in Ogg with the comments first. Streams that are cut or changed, and files of other kinds, are refused
with the line of `flac test --any`, and OUT stays as it was. FLAC names the program. Status 1 if an answer is not the one that is due.
"""
import argparse
import hashlib
import os
import random
import shutil
import subprocess
import sys
import tempfile
import time

import folders  # noqa: F401  (the path of the modules below)
import model
import parts
import program
from program import Wrong, call, expect, read

FORMATS = [(2, 16, 44100), (1, 8, 8000), (2, 24, 96000), (6, 16, 48000), (8, 12, 22050), (1, 20, 192000), (2, 32, 48000)]
OUTSIDE = [(1, 13, 44100), (2, 16, 700001)]
"""Formats that the streamable subset does not have."""


# ---- metadata blocks, by hand (RFC 9639, section 8)

def block(kind, content):
    return kind, content


def sized(data, order="big"):
    return len(data).to_bytes(4, order) + data


def comments(vendor, *texts):
    return block(4, sized(vendor, "little") + len(texts).to_bytes(4, "little") + b"".join(sized(text, "little") for text in texts))


def picture(kind, media, text, data):
    return block(6, kind.to_bytes(4, "big") + sized(media) + sized(text) + bytes(16) + sized(data))


def cue_sheet():
    track = (0).to_bytes(8, "big") + b"\1" + bytes(12) + bytes(14) + b"\1" + (0).to_bytes(8, "big") + b"\1" + bytes(3)
    lead_out = (4000).to_bytes(8, "big") + b"\xff" + bytes(12) + bytes(14) + b"\0"
    return block(5, b"1234567890123".ljust(128, b"\0") + bytes(8) + bytes(259) + b"\2" + track + lead_out)


def seek_table():
    return block(3, (0).to_bytes(8, "big") + (0).to_bytes(8, "big") + (16).to_bytes(2, "big") + b"\xff" * 8 + bytes(10))


def block_lists(chance):
    """Lists of blocks after STREAMINFO."""
    tags = comments(b"some program", b"TITLE=\xc3\xa4", b"no equals sign", b"BYTES=\xff\xfe\0", b"", b"TITLE=again")
    cover = picture(3, b"image/png", b"front \xe2\x98\xba", chance.randbytes(70000))
    all_kinds = [tags, cover, cue_sheet(), seek_table(), block(2, b"abcd" + chance.randbytes(300)), block(1, bytes(4096)), block(99, chance.randbytes(50))]
    yield []
    yield [comments(b"")]
    yield [seek_table()]
    yield [block(1, bytes(10)), cover, tags, block(1, bytes(0)), seek_table(), block(2, b"riff")]
    yield [picture(4, b"", b"", b""), cover, picture(0, b"-->", b"", b"http://example.org/")]
    chance.shuffle(all_kinds)
    yield all_kinds


def spelled(blocks):
    """The blocks with their headers; the last one is marked."""
    last = len(blocks) - 1
    return b"".join(bytes([kind | (128 if i == last else 0)]) + len(content).to_bytes(3, "big") + content for i, (kind, content) in enumerate(blocks))


def with_blocks(data, blocks):
    """A native stream with these blocks after its STREAMINFO."""
    at, last = 4, 0
    while not last:
        last, size = data[at] >> 7, int.from_bytes(data[at + 1:at + 4], "big")
        at += 4 + size
    return b"fLaC" + spelled([block(0, data[8:42]), *blocks]) + data[at:]


# ---- what is due

def kept(blocks):
    """What is compared of blocks: of padding its length."""
    return [(kind, length, None if kind == 1 else fields) for kind, length, fields in blocks]


def due_blocks(blocks, ogg):
    left = [one for one in kept(blocks[1:]) if one[0] != 3]
    if ogg:
        first = [one for one in left if one[0] == 4] or [(4, 8, (b"", []))]
        left = first + [one for one in left if one[0] != 4]
    return left


def judge_blocks(old, new, ogg, points):
    """The blocks of a new stream, whose last one is a seek table if points are asked for."""
    expect(new[0][0], 0)
    left = kept(new[1:])
    if points:
        expect(left.pop()[0], 3)
    expect(left, due_blocks(old, ogg))


def blocks_of(path):
    return model.metadata_of(read(path)).blocks


def judge_info(path, sound, raw, size):
    info = blocks_of(path)[0][2]
    due = {"rate": sound.rate, "channels": sound.channels, "depth": sound.bits, "total": len(sound.rows), "digest": hashlib.md5(raw).digest()}
    expect({name: info[name] for name in due}, due)
    expect((info["least_block"], info["greatest_block"]), (size, size))


def anew(path, out, *words):
    """Encodes a stream anew into a file that is not there, since that of an earlier song is not replaced."""
    if os.path.exists(out):
        os.remove(out)
    expect(call("recode", path, out, *words), (0, b"", b""))


def by_reference(path, ogg):
    """The samples that the reference decoder gives; it writes raw samples of whole bytes alone."""
    words = ["flac", "-s", "-d", "-c", "--force-raw-format", "--endian=little", "--sign=signed", *(["--ogg"] if ogg else []), path]
    return subprocess.run(words, check=True, stdout=subprocess.PIPE, stderr=subprocess.DEVNULL).stdout


def encoded(path, sound, size, level, ogg):
    """A stream by the reference encoder, or by the program if that does not take the depth."""
    if sound.bits % 8 == 0:
        parts.by_reference(path, sound, size, level, ogg)
        return
    with open("raw", "wb") as file:
        file.write(sound.raw())
    words = ["--rate", sound.rate, "--channels", sound.channels, "--bits", sound.bits, "--block", size, "--lax", *(["--ogg"] if ogg else [])]
    program.succeeds("encode", "raw", path, *map(str, words))


def by_ffmpeg(path):
    words = ["ffmpeg", "-v", "error", "-i", path, "-f", "s16le", "-c:a", "pcm_s16le", "-"]
    return subprocess.run(words, check=True, stdout=subprocess.PIPE).stdout


# ---- cases

class Runs:
    """Counts, and a folder whose files are made and thrown away."""

    def __init__(self, chance):
        self.chance, self.written, self.refused = chance, 0, 0

    def recoded(self, path, out, sound, *words):
        """Encodes a stream anew, and judges it."""
        ogg, lax, points = "--ogg" in words, "--lax" in words, "--seek-every" in words
        size = int(words[words.index("--block") + 1]) if "--block" in words else 4096
        before = read(path)
        anew(path, out, *words)
        expect(read(path), before)
        expect(call("same", path, out), (0, b"", b""))
        test = call("test", *(["--lax"] if lax else []), out)
        expect(test, (0, f"frames {-(-len(sound.rows) // size)} samples {len(sound.rows)}\n".encode(), b""))
        raw = sound.raw()
        judge_blocks(blocks_of(path), blocks_of(out), ogg, points)
        judge_info(out, sound, raw, size)
        if sound.bits % 8 == 0:
            expect(hashlib.md5(by_reference(out, ogg)).digest(), hashlib.md5(raw).digest())
        subprocess.run(["flac", "-s", "-t", *(["--ogg"] if ogg else []), out], check=True, stderr=subprocess.DEVNULL)
        if sound.rows and sound.bits == 16 and sound.channels <= 2 and sound.rate < 655351 and shutil.which("ffmpeg"):
            expect(hashlib.md5(by_ffmpeg(out)).digest(), hashlib.md5(raw).digest())
        self.written += 1

    def there_and_back(self, path, sound, *words):
        """Native, from there in Ogg, and back: the last one has the bytes of the first, but for comments that are first in Ogg."""
        options = self.chance.choice([[], ["--search", "none"], ["--search", "full"], ["--block", "1152"], ["--block", "4608"]])
        self.recoded(path, "1.flac", sound, *options, *words)
        self.recoded("1.flac", "2.oga", sound, "--ogg", "--serial", str(self.chance.randrange(2**32)), *options, *words)
        self.recoded("2.oga", "3.flac", sound, *options, *words)
        anew("3.flac", "4.flac", *options, *words)
        expect(read("4.flac"), read("3.flac"))
        if self.chance.randrange(3) == 0:
            self.recoded(path, "5.flac", sound, "--seek-every", "1000", *words)

    def refuses(self, path, *words):
        """The line of `test --any`, whatever OUT is; false if that accepts the file."""
        status, _, line = call("test", "--any", path)
        if status == 0:
            return False
        for old in (None, b"", b"fLaC old", b"text"):
            for name in ("out", "out.part"):
                if os.path.exists(name):
                    os.remove(name)
            if old is not None:
                with open("out", "wb") as file:
                    file.write(old)
            force = ["--force"] if old == b"fLaC old" else []
            expect(call("recode", path, "out", *words, *force), (1, b"", line))
            expect(read("out") if os.path.exists("out") else None, old)
            expect(os.path.exists("out.part"), False)
        self.refused += 1
        return True


def outside_subset(runs, path):
    """Without --lax the format is refused, and with it written."""
    if os.path.exists("out.flac"):
        os.remove("out.flac")
    status, out, err = call("recode", path, "out.flac")
    if status != 1 or out or err.split(b": ")[-1][:2] not in (b"40", b"41"):
        raise Wrong(f"recode {path}: {status} {err}")
    expect(os.path.exists("out.flac"), False)
    runs.refused += 1


def damaged(runs, chance, streams, count):
    """Streams that are cut off or have a changed byte."""
    for _ in range(count):
        data = bytearray(read(chance.choice(streams)))
        at = chance.randrange(len(data))
        if chance.randrange(2):
            data = data[:at]
        else:
            data[at] ^= 1 << chance.randrange(8)
        with open("bad", "wb") as file:
            file.write(data)
        runs.refuses("bad", "--lax")


def other_files(runs):
    """Files of other kinds, and files that are not replaced."""
    for data in (b"", b"RIFF\x24\0\0\0WAVEfmt ", b"ID3\x03\0\0\0\0\0\x0a" + bytes(10), b"OggS", bytes(1000), b"fLaC"):
        with open("other", "wb") as file:
            file.write(data)
        if not runs.refuses("other"):
            raise Wrong(f"recode takes {data[:20]!r}")
    for path, line in (("nowhere", b"flac: nowhere: cannot be opened\n"), (".", None)):
        status, out, err = call("recode", path, "out.flac")
        if status != 1 or out or (line and err != line):
            raise Wrong(f"recode {path}: {status} {err}")


def kept_files(path):
    """OUT that is the input, or another file of sound, stays as it was."""
    stream = read(path)
    os.link(path, "hard.flac")
    os.symlink(path, "soft.flac")
    for out in (path, f"./{path}", "hard.flac", "soft.flac"):
        for force in ([], ["--force"]):
            expect(call("recode", path, out, *force), (1, b"", f"flac: {out}: cannot be created\n".encode()))
    expect(read(path), stream)
    for old in (b"RIFF\x24\0\0\0WAVE", b"ID3\x03 and more", b"FORM"):
        with open("kept", "wb") as file:
            file.write(old)
        expect(call("recode", path, "kept"), (1, b"", b"flac: kept: cannot be created: it may be another song, which --force replaces\n"))
        expect(read("kept"), old)
    expect(call("recode", path, "kept", "--force"), (0, b"", b""))
    expect(call("same", path, "kept"), (0, b"", b""))
    expect(call("recode", path, "kept", "--ogg"), (0, b"", b""))
    expect(read("kept")[:4], b"OggS")
    expect(call("recode", path, "/dev/full"), (1, b"", b"flac: /dev/full: 39 Write\n"))
    for name in ("hard.flac", "soft.flac", "kept"):
        os.remove(name)


def words_refused(path):
    for words, due in (
        (["--ogg", "--seek-every", "10"], b"flac: command: --ogg with --seek-every\n"),
        (["--block", "15"], None), (["--block", "5000"], None), (["TITLE=x"], None), (["--rate", "44100"], None),
    ):
        status, out, err = call("recode", path, "out.flac", *words)
        if status == 0 or out or not err or (due and (status, err) != (2, due)):
            raise Wrong(f"recode {words}: {status} {err}")
        expect(os.path.exists("out.flac"), False)


def tagged(runs, path, sound):
    """A stream between the tags of other programs: they are left out."""
    with open("tagged.flac", "wb") as file:
        file.write(b"ID3\x03\0\0\0\0\0\x0a" + bytes(10) + read(path) + b"TAG" + bytes(125))
    expect(call("recode", "tagged.flac", "out.flac"), (0, b"", b""))
    expect(call("same", path, "out.flac"), (0, b"", b""))
    judge_blocks(blocks_of(path), blocks_of("out.flac"), False, False)
    os.remove("out.flac")
    runs.written += 1


def pipes(path, sound):
    """Standard input and standard output."""
    with open(path, "rb") as file:
        ran = subprocess.run([program.PROGRAM, "recode", "-", "-", "--ogg"], stdin=file, stdout=subprocess.PIPE, stderr=subprocess.PIPE, check=False)
    expect((ran.returncode, ran.stderr), (0, b""))
    with open("piped.oga", "wb") as file:
        file.write(ran.stdout)
    expect(call("same", path, "piped.oga"), (0, b"", b""))


def main():
    parser = argparse.ArgumentParser()
    parser.add_argument("--quick", action="store_true")
    parser.add_argument("--seed", type=int, default=int(time.time()))
    words = parser.parse_args()
    chance = random.Random(words.seed)
    print(f"seed {words.seed}")
    runs = Runs(chance)
    with tempfile.TemporaryDirectory() as folder:
        os.chdir(folder)
        streams = []
        for number, (channels, bits, rate) in enumerate((FORMATS[:3] if words.quick else FORMATS) + OUTSIDE):
            lax = ["--lax"] if (channels, bits, rate) in OUTSIDE else []
            sound = parts.made(chance, chance.choice((5000, 9001)), channels, bits, rate)
            path = f"{number}.flac"
            encoded(path, sound, chance.choice(parts.SIZES[2:]), chance.randrange(9), False)
            streams.append(path)
            if lax:
                outside_subset(runs, path)
            data = read(path)
            for k, blocks in enumerate(block_lists(chance)):
                if words.quick and k not in (0, 3, 5):
                    continue
                mixed = f"{number}-{k}.flac"
                with open(mixed, "wb") as file:
                    file.write(with_blocks(data, blocks))
                runs.there_and_back(mixed, sound, *lax)
                streams.append(mixed)
            encoded(f"{number}.oga", sound, chance.choice(parts.SIZES[2:]), 5, True)
            runs.recoded(f"{number}.oga", "out.flac", sound, *lax)
            runs.recoded(f"{number}.oga", "out.oga", sound, "--ogg", *lax)
            streams.append(f"{number}.oga")
            if bits == 16 and not lax and parts.by_ffmpeg("ffmpeg.flac", sound, 2304):
                runs.there_and_back("ffmpeg.flac", sound)
        none = parts.Sound(44100, 16, [[0, 0]])
        none.rows = []
        parts.by_reference("none.flac", none, 4096, 5, False)
        runs.recoded("none.flac", "out.flac", none)
        runs.recoded("none.flac", "out.oga", none, "--ogg")
        for name in ("out.flac", "out.oga"):
            os.remove(name)
        damaged(runs, chance, streams, 60 if words.quick else 400)
        other_files(runs)
        kept_files(streams[0])
        words_refused(streams[0])
        tagged(runs, streams[0], None)
        pipes(streams[0], None)
    print(f"{runs.written} streams encoded anew, {runs.refused} refused: all answers are due")


if __name__ == "__main__":
    try:
        main()
    except Wrong as wrong:
        sys.exit(str(wrong))
