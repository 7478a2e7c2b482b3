#!/usr/bin/env python3
"""Encodes WAV files, natively, in Ogg and with a list of predictors, and decodes them again: each comes back byte for byte, or is
refused for the reason that is due. Streams that keep no file become plain ones, which other programs read.

usage: conformance/checks/waves.py [--quick] [--all] [--files N] [--only TEXT]

The made files have names; N more are generated (default 500, with --quick 100, with --all 10000), each field random within and outside
the rules, file K from the seed K. Which file is refused, at which chunk and for which reason, is told by `wave_files.judge`. Of the made
files, and of every tenth generated one, also: `flac -t` of the reference accepts our streams; if `flac --keep-foreign-metadata` makes a
stream of which `flac -d --keep-foreign-metadata` makes the same file, it does so of our stream too; and we make the same file of each
stream of the reference. Of some made files each block that keeps a piece is removed in turn. With `--to-end` files that are cut inside
their samples, or state none though they are there, come back as they are, made ones and every fifth generated one. What the program
cannot do yet is said in a line each, and skipped. FLAC names the program, JOBS how many processes run at once. Status 1 if an answer is
not the one that is due.
"""
import argparse
import itertools
import multiprocessing
import os
import random
import subprocess
import sys
import tempfile
import wave

import folders  # noqa: F401  (the path of the modules below)
import program
from program import Bench, Wrong, expect, read
from wave_files import DEPTHS, SPEAKERS, Found, generated, judge, made, noise, plain

JOBS = int(os.environ.get("JOBS", os.cpu_count() or 1))
LIST = b"9 4 28 -13\n12 9 1600 -1400 800 -300 60\n# a comment\n5 2 7\n"
"""A list of linear predictors."""
KEEP = "--keep-foreign-metadata"
WAYS = ([], ["--ogg"], ["--predictors", "LIST"])
"""How a file is encoded."""


# ---- programs

def reference(*words):
    """Whether a call of the reference succeeds."""
    quiet = {"stdout": subprocess.DEVNULL, "stderr": subprocess.DEVNULL}
    return subprocess.run(["flac", "-s", "-f", *words], **quiet, timeout=120, check=False).returncode == 0


def output_of(*words):
    """What a program writes to standard output, or None if it fails."""
    done = subprocess.run(words, stdout=subprocess.PIPE, stderr=subprocess.DEVNULL, stdin=subprocess.DEVNULL, timeout=120, check=False)
    return done.stdout if done.returncode == 0 else None


def depth_of(stream):
    """The bits of a sample that a native stream's STREAMINFO states."""
    return ((stream[20] & 1) << 4 | stream[21] >> 4) + 1


class Able:
    """What the program can do of what is tried here."""

    def __init__(self, bench):
        stream, files = bench.path(".flac"), made()
        program.call("encode", bench.put(files["ext16_valid12"], ".wav"), stream)
        self.valid = depth_of(read(stream)) == 12
        program.call("encode", bench.put(files["ext51side"], ".wav"), stream, "--force")
        self.mask = b"WAVEFORMATEXTENSIBLE_CHANNEL_MASK" in read(stream)
        program.call("encode", bench.put(bytes(64), ".raw"), stream, "--rate", "8000", "--channels", "1", "--bits", "8", "--force")
        status, _, error = program.call("decode", stream, bench.path(".wav"))
        self.plain = not (status == 1 and error.endswith(b": 71 NotKept\n"))

    def lines(self):
        """What is skipped."""
        if not self.plain:
            yield "plain files are skipped: the program refuses to make them (71)"
        if not self.valid:
            yield "depths of valid bits are skipped: the program stores all bits of the bytes"
        if not self.mask:
            yield "masks of more than two channels are skipped where the reference needs a comment: the program writes none"
        else:
            yield "speakers in the order of RFC 9639 are skipped where the reference has another order: the program writes no comment then"


# ---- files that are kept

def all_ways(bench, file, due, able):
    """Encodes the file each way and decodes it. Returns the path of the native stream, or None if it is refused."""
    path, kept = bench.put(file, ".wav"), None
    for way in WAYS:
        stream, again = bench.path(".flac"), bench.path(".wav")
        words = [bench.put(LIST, ".txt") if word == "LIST" else word for word in way]
        status, _, error = program.call("encode", path, stream, *words)
        if not isinstance(due, Found):
            expect((status, error.decode()), (1, f"flac: {path}: {due}\n"))
            expect(os.path.exists(stream) and read(stream), b"" if os.path.exists(stream) else False)
            continue
        expect((status, error), (0, b""))
        expect(program.call("decode", stream, again), (0, b"", b""))
        expect(read(again) == file, True)
        if not way and able.valid:
            expect(depth_of(read(stream)), due.depth())
        kept = kept or stream
    return kept


def with_reference(bench, file, due, ours, able):
    """The reference restores our stream if it restores its own, and we restore the reference's."""
    expect(reference("-t", ours), True)
    path, theirs, again = bench.put(file, ".wav"), bench.path(".flac"), bench.path(".wav")
    if not reference(KEEP, path, "-o", theirs):
        return
    comment = able.mask and due.mask not in (None, SPEAKERS[due.channels])
    needs = due.depth() != 8 * due.width and not able.valid or due.channels > 2 and not comment
    if not needs and reference("-d", KEEP, theirs, "-o", again) and read(again) == file:
        expect(reference("-d", KEEP, ours, "-o", again) and read(again) == file, True)
    back = bench.path(".wav")
    answer = program.call("decode", "--lax", theirs, back)
    if depth_of(read(theirs)) != 8 * due.width and not able.valid:
        expect((answer[0], answer[2].decode()), (1, f"flac: {theirs}: 72 OtherBits\n"))
        return
    expect((answer[0], answer[2]), (0, b""))
    # Its blocks do not have a byte after samples of odd length that is missing, or no zero.
    expect(read(back) == file or not due.padded, True)


def bare(bench, file, due, kept, able):
    """With --no-keep a stream has the same samples, no block APPLICATION, and speakers that are others in a comment."""
    stream, raw, other = bench.path(".flac"), bench.path(".raw"), bench.path(".raw")
    expect(program.call("encode", bench.put(file, ".wav"), stream, "--no-keep"), (0, b"", b""))
    _, listed, _ = program.call("list", stream)
    expect(b" APPLICATION " in listed, False)
    comment = f"WAVEFORMATEXTENSIBLE_CHANNEL_MASK=0x{due.mask or 0:08x}\n".encode()
    expect(comment in listed, able.mask and due.mask not in (None, SPEAKERS[due.channels]))
    expect((program.call("decode", stream, raw), program.call("decode", kept, other)), ((0, b"", b""), (0, b"", b"")))
    expect(read(raw) == read(other), True)
    expect(program.call("decode", stream, bench.path(".wav")), (0, b"", b""))


def check_kept(bench, name, able):
    """A made file, or a generated one by its number."""
    file = made()[name] if isinstance(name, str) else generated(name)
    due = judge(file)
    ours = all_ways(bench, file, due, able)
    if ours and (isinstance(name, str) or name % 10 == 0):
        with_reference(bench, file, due, ours, able)
        bare(bench, file, due, ours, able)


# ---- files that are cut

def cuts(file, name):
    """The file, cut at some places after its first 12 bytes: by less than an inter-channel sample, and by more."""
    pick = random.Random(f"cut {name}")
    ends = {len(file) - by for by in (1, 2, 3, 4, 6, 8, 12, 24)} | {pick.randrange(12, len(file)) for _ in range(4)} if len(file) > 36 else set()
    for end in sorted(ends):
        yield file[:end]


def check_cut(bench, name, able):
    """A file that is cut inside its samples is refused with 69, one that states none though they are there with 92. With --to-end they go
    to its end, and it comes back as it is. Any other file is answered as without the option."""
    file = made()[name] if isinstance(name, str) else generated(name)
    for part in (file, *cuts(file, name)):
        path, due = bench.put(part, ".wav"), judge(part, True)
        for words in ([], ["--ogg"]):
            stream, again = bench.path(".flac"), bench.path(".wav")
            status, _, error = program.call("encode", path, stream, "--to-end", *words)
            if not isinstance(due, Found):
                expect((status, error.decode()), (1, f"flac: {path}: {due}\n"))
                continue
            expect((status, error), (0, b""))
            expect(program.call("decode", stream, again), (0, b"", b""))
            expect(read(again) == part, True)
            if not words and able.valid:
                expect(depth_of(read(stream)), due.depth())
        refused = judge(part)
        if isinstance(due, Found) and not isinstance(refused, Found):
            expect(refused.endswith(("69 DataCut", "92 DataUnstated")), True)
            status, _, error = program.call("encode", path, bench.path(".flac"))
            expect((status, error.decode()), (1, f"flac: {path}: {refused}\n"))


# ---- blocks that are removed

def blocks_of(stream):
    """The blocks of a native stream, each its kind and its content, and the frames."""
    at, blocks, last = 4, [], False
    while not last:
        last, kind, size = stream[at] >= 128, stream[at] % 128, int.from_bytes(stream[at + 1:at + 4], "big")
        blocks.append((kind, stream[at + 4:at + 4 + size]))
        at += 4 + size
    return blocks, stream[at:]


def stream_of(blocks, frames):
    parts = [bytes([kind + 128 * (i == len(blocks) - 1)]) + len(body).to_bytes(3, "big") + body for i, (kind, body) in enumerate(blocks)]
    return b"fLaC" + b"".join(parts) + frames


def check_removed(bench, name, able):
    """Without a block that keeps a piece the file is the rest of it; but without its header, its format or the header of its samples it
    is plain. `name` is a file of samples of 8 or 16 bits, all of which count."""
    file = made()[name]
    due, path = judge(file), bench.path(".flac")
    expect(program.call("encode", bench.put(file, ".wav"), path), (0, b"", b""))
    blocks, frames = blocks_of(read(path))
    kept = [number for number, (kind, body) in enumerate(blocks) if kind == 2 and body[:4] == b"riff"]
    for gone in kept if able.plain else []:
        pieces = [blocks[number][1][4:] for number in kept if number != gone]
        piece, again = blocks[gone][1][4:], bench.path(".wav")
        stream = bench.put(stream_of([block for number, block in enumerate(blocks) if number != gone], frames), ".flac")
        expect(program.call("decode", stream, again), (0, b"", b""))
        if gone == kept[0] or piece[:4] in (b"fmt ", b"data"):
            raw = bytes(byte ^ 128 for byte in due.samples) if due.width == 1 else due.samples
            expect(read(again) == plain(due.rate, due.channels, due.bits, len(raw) // due.row, raw), True)
        else:
            head = next(at for at, part in enumerate(pieces) if part[:4] == b"data" and len(part) == 8) + 1
            pad = b"\0" * (len(due.samples) % 2)
            expect(read(again) == b"".join(pieces[:head]) + due.samples + pad + b"".join(pieces[head:]), True)


# ---- plain files

def readers(path, bits):
    """What each other program reads of a file, as samples of whole bytes, signed and the lowest byte first; by the program's name."""
    width = (bits + 7) // 8
    form = {1: ("s8", "s8"), 2: ("s16le", "s16le"), 3: ("s24le", "s24le"), 4: ("s32le", "s32le")}[width]
    yield "ffmpeg", output_of("ffmpeg", "-v", "error", "-i", path, "-f", form[0], "-acodec", f"pcm_{form[1]}", "-")
    if bits % 8 == 0:
        yield "sox", output_of("sox", "-D", path, "-t", "raw", "-e", "signed", "-b", str(8 * width), "-L", "-")
    try:
        with wave.open(path, "rb") as file:
            data = file.readframes(1 << 30)
        yield "wave", bytes(byte ^ 128 for byte in data) if width == 1 else data
    except (wave.Error, EOFError):
        pass


def read_by_others(path, rate, channels, bits, raw, known):
    """Each other program reads these samples. The module `wave` reads no extensible file before Python 3.12, and sox no odd depth."""
    width = (bits + 7) // 8
    due = b"".join(((int.from_bytes(raw[at:at + width], "little") << (8 * width - bits)) % 2 ** (8 * width)).to_bytes(width, "little")
                   for at in range(0, len(raw), width))
    found = dict(readers(path, bits))
    if not known:
        found = {name: data for name, data in found.items() if name == "ffmpeg"}
    wrong = [f"{name} reads {len(data or b'')} bytes of {len(due)}" for name, data in found.items() if data != due]
    if wrong and raw:
        raise Wrong(f"{rate} Hz, {channels} channels, {bits} bits: {'; '.join(wrong)}")


def unknown(stream):
    """The same native stream, whose STREAMINFO does not state the number of samples."""
    return stream[:21] + bytes([stream[21] & 0xF0, 0, 0, 0, 0]) + stream[26:]


def signed(raw, width, bits):
    """Raw samples of `bits` bits, each extended by its sign, of any bytes."""
    out = bytearray()
    for at in range(0, len(raw), width):
        value = int.from_bytes(raw[at:at + width], "little", signed=True) >> (8 * width - bits)
        out += value.to_bytes(width, "little", signed=True)
    return bytes(out)


def encoded_again(bench, due, bits, able):
    """A plain file comes back, too, and its stream has the bits that count."""
    stream, again = bench.path(".flac"), bench.path(".wav")
    expect(program.call("encode", bench.put(due, ".wav"), stream), (0, b"", b""))
    expect(program.call("decode", stream, again), (0, b"", b""))
    expect(read(again) == due, True)
    if able.valid:
        expect(depth_of(read(stream)), bits)


def check_plain(bench, row, able):
    """A stream of raw samples becomes the plain file that is due, which others read."""
    number, channels, bits = row
    pick, width = random.Random(number), (bits + 7) // 8
    raw = signed(noise(pick, channels, width, 8 * width), width, bits)
    rate, count = pick.choice([8000, 44100, 48000, 96000]), len(raw) // (channels * width)
    words = ["--rate", str(rate), "--channels", str(channels), "--bits", str(bits), "--raw", *([] if bits in DEPTHS else ["--lax"])]
    for total in (count, 0):
        due, stream = plain(rate, channels, bits, total, raw), bench.path(".flac")
        out = bench.put(due, ".wav")
        if bits in DEPTHS:
            encoded_again(bench, due, bits, able)
        if able.plain:
            expect(program.call("encode", bench.put(raw, ".raw"), stream, *words), (0, b"", b""))
            if total == 0:
                stream = bench.put(unknown(read(stream)))
            out = bench.path(".wav")
            expect(program.call("decode", "--lax", stream, out), (0, b"", b""))
            expect(read(out) == due, True)
        read_by_others(out, rate, channels, bits, raw, total > 0 or count == 0)


def check_long(bench, row, able):
    """Of a stream that states more than 4 GiB of samples the head is that of RF64."""
    channels, bits, total = row
    raw = bytes(64 * channels * (bits // 8))
    if not able.plain:
        return
    stream, out = bench.path(".flac"), bench.path(".wav")
    words = ["--rate", "44100", "--channels", str(channels), "--bits", str(bits)]
    expect(program.call("encode", bench.put(raw, ".raw"), stream, *words), (0, b"", b""))
    whole = read(stream)
    whole = whole[:21] + (int.from_bytes(whole[21:26], "big") & 0xF << 36 | total).to_bytes(5, "big") + whole[26:]
    expect(program.call("decode", bench.put(whole), out)[0], 1)
    due = plain(44100, channels, bits, total, raw)
    expect(read(out)[:len(due) - len(raw)], due[:len(due) - len(raw)])


# ---- all

def rows(words):
    """The name of each case, its check, and what this is given."""
    count = words.files if words.files is not None else 10000 if words.all else 100 if words.quick else 500
    for name in made():
        if not (words.quick and name.startswith("long_")):
            yield f"made {name}", check_kept, name
    for name in ("pcm16", "pcm8mono_odd_padded_then_list", "ext16", "list_between", "many", "pipe_ffmpeg", "rf64_list_after"):
        yield f"removed {name}", check_removed, name
    for number, (channels, bits) in enumerate(itertools.product(range(1, 9), (4, 7, 8, 12, 15, 16, 20, 24, 32))):
        if not words.quick or number % 7 == 0:
            yield f"plain {channels} channels, {bits} bits", check_plain, (number, channels, bits)
    for row in ((2, 16, 2**30 - 10), (2, 16, 2**30 - 9), (1, 8, 2**32 - 38), (1, 8, 2**32 - 37), (8, 32, 2**36 - 1)):
        yield f"plain, long, {row}", check_long, row
    for number in range(count):
        yield f"generated {number}", check_kept, number
    for name in made():
        if not name.startswith("long_") and not (words.quick and len(name) % 3):
            yield f"cut {name}", check_cut, name
    for number in range(count // 5):
        yield f"cut generated {number}", check_cut, number


def run(case):
    """What is wrong in a case, or None."""
    name, check, row, able = case
    with tempfile.TemporaryDirectory() as folder:
        try:
            check(Bench(folder), row, able)
        except Wrong as wrong:
            return f"{name}: {wrong}"
    return None


def main():
    parser = argparse.ArgumentParser(description=__doc__.split("\n", maxsplit=1)[0])
    parser.add_argument("--quick", action="store_true", help="fewer files")
    parser.add_argument("--all", action="store_true", help="10000 generated files")
    parser.add_argument("--files", type=int, help="how many files are generated")
    parser.add_argument("--only", default="", help="only cases with this text in their names")
    words = parser.parse_args()
    with tempfile.TemporaryDirectory() as folder:
        able = Able(Bench(folder))
    for line in able.lines():
        print(f"waves: {line}", flush=True)
    cases = [(*row, able) for row in rows(words) if words.only in row[0]]
    with multiprocessing.Pool(JOBS) as pool:
        wrong = [line for line in pool.imap_unordered(run, cases, chunksize=4) if line]
    for line in sorted(wrong):
        print(f"waves: {line}")
    print(f"waves: {len(cases)} files, {len(wrong)} wrong")
    return 1 if wrong or not cases else 0


if __name__ == "__main__":
    sys.exit(main())
