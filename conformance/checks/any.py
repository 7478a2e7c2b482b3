#!/usr/bin/env python3
"""`--any` of `flac test`, `decode` and `list`, and `flac verify`: streams between the tags of other programs, and with empty packets
at the end of an Ogg stream, by a model of both.

usage: conformance/checks/any.py [--quick]

The streams are those of the reference encoder, native and Ogg, whole, cut and changed. The tags are made by hand, by `mid3v2` of
mutagen and by `ffmpeg`, if they are there. What has to hold: the answer is the model's for the bytes between; without `--any` it is
the model's for all bytes; decoded samples are the same as without tags; `list` says how long the tags are, and `verify` that there
are some; no file changes. FLAC names the program. Status 1 if an answer is not the one that is due.
"""
import json
import math
import os
import shutil
import struct
import subprocess
import sys
import tempfile

import folders  # noqa: F401  (the path of the modules below)
import model
import model_bits
import program
from program import Wrong, call, expect, read

SAMPLES = b"".join(struct.pack("<hh", int(8000 * math.sin(i / 20)), int(7000 * math.sin(i / 33))) for i in range(20000))
FORMAT = ["--force-raw-format", "--endian=little", "--sign=signed", "--channels=2", "--bps=16", "--sample-rate=44100"]


def encoded(folder, *words):
    """A stream by the reference encoder."""
    path = os.path.join(folder, "made")
    subprocess.run(["flac", "-s", "-f", *FORMAT, *words, "-o", path, "-"], input=SAMPLES, check=True, stderr=subprocess.DEVNULL)
    data = read(path)
    os.remove(path)
    return data


# ---- the model: ID3v2.4.0, sections 3.1, 3.4 and 6.2, and ID3v1

def front_of(data):
    """The number of bytes of a tag before the stream, as its header says."""
    if len(data) < 10 or data[:3] != b"ID3" or data[3] == 255 or data[4] == 255 or max(data[6:10]) > 127:
        return 0
    size = sum(byte << shift for byte, shift in zip(data[6:10], (21, 14, 7, 0)))
    return 10 + size + (10 if data[3] == 4 and data[5] & 16 else 0)


def between(data):
    """The bytes between, and the numbers of those before and after."""
    before = min(front_of(data), len(data))
    rest = data[before:]
    after = 128 if len(rest) >= 128 and rest[-128:-125] == b"TAG" else 0
    return rest[:len(rest) - after], before, after


# ---- the model: empty packets at the end of an Ogg stream (RFC 3533, sections 5 and 6)

def page(head, lacing, body):
    """A page of these fields, the 22 bytes before its checksum, with the checksum that it has to have."""
    rest = bytes([len(lacing)]) + bytes(lacing) + body
    return head + struct.pack("<I", model_bits.crc(32, head + bytes(4) + rest)) + rest


def pages_of(data):
    """The good pages up to the one marked last, each by its fields, lacing values and segments, and the bytes after them."""
    pages, at = [], 0
    while data[at:at + 5] == b"OggS\0" and len(data) >= at + 27:
        head, lacing = data[at:at + 22], list(data[at + 27:at + 27 + data[at + 26]])
        start = at + 27 + data[at + 26]
        body = data[start:start + sum(lacing)]
        if len(lacing) < data[at + 26] or len(body) < sum(lacing) or page(head, lacing, body) != data[at:start + sum(lacing)]:
            break
        pages.append((head, lacing, body))
        at = start + sum(lacing)
        if head[5] & 4:
            break
    return pages, data[at:]


def without_empty(data):
    """The stream without the empty packets after its last other packet."""
    pages, rest = pages_of(data)
    ends, goes_on = 0, False
    for number, value in enumerate(value for _, lacing, _ in pages for value in lacing):
        if value or goes_on:
            ends = number + 1
        goes_on = value == 255
    kept, made = ends, b""
    for head, lacing, body in pages:
        made += page(head, lacing[:max(kept, 0)], body)
        kept -= len(lacing)
    return made + rest


# ---- tags

def tag(size, version=3, flags=0, fill=b"\0", revision=0):
    """A tag whose header says `size`, with as many bytes after it."""
    number = bytes(size >> shift & 127 for shift in (21, 14, 7, 0))
    footer = b"3DI" + bytes([version, revision, flags]) + number if version == 4 and flags & 16 else b""
    return b"ID3" + bytes([version, revision, flags]) + number + (fill * size)[:size] + footer


def old_tag():
    return b"TAG" + b"A song".ljust(30, b"\0") + bytes(95)


def by_mutagen(folder, stream):
    """The stream after `mid3v2` put a tag before it, or nothing if that is not there."""
    if not shutil.which("mid3v2"):
        return
    path = os.path.join(folder, "mutagen.flac")
    for words in (["--song", "A song"], ["--song", "x" * 3000, "--artist", "B"]):
        with open(path, "wb") as file:
            file.write(stream)
        if subprocess.run(["mid3v2", *words, path], stdout=subprocess.DEVNULL, stderr=subprocess.DEVNULL, check=False).returncode == 0:
            yield " ".join(words)[:20], read(path)


def by_ffmpeg(folder):
    """An ID3v2 tag as ffmpeg writes one before raw audio of another kind, in versions 3 and 4."""
    if not shutil.which("ffmpeg"):
        return
    for version in ("3", "4"):
        path = os.path.join(folder, "tagged.mp3")
        run = ["ffmpeg", "-v", "error", "-y", "-f", "s16le", "-ar", "44100", "-ac", "2", "-i", "-", "-metadata", "title=A song",
               "-id3v2_version", version, "-write_id3v1", "1", path]
        if subprocess.run(run, input=SAMPLES[:8000], check=False).returncode == 0:
            data = read(path)
            yield f"version {version}", data[:front_of(data)], data[-128:]


def oga_by_ffmpeg(folder):
    """Ogg streams as ffmpeg writes them, with an empty packet on the page marked last."""
    if not shutil.which("ffmpeg"):
        return
    for name, seconds in (("short.oga", "0.1"), ("long.ogg", "5")):
        path = os.path.join(folder, name)
        run = ["ffmpeg", "-v", "error", "-y", "-f", "s16le", "-ar", "44100", "-ac", "1", "-t", seconds, "-i", "-", "-c:a", "flac", path]
        if subprocess.run(run, input=SAMPLES * 6, check=False).returncode == 0:
            yield name, read(path)


def with_empty(ogg):
    """A stream whose pages are changed: by name, with empty packets at its end, between its frames, and after the page marked last."""
    pages, _ = pages_of(ogg)
    front = b"".join(page(*each) for each in pages[:-1])
    head, lacing, body = pages[-1]

    def marked(flags, more, packets=(), segments=b""):
        number = struct.unpack("<I", head[18:22])[0] + more
        return page(head[:5] + bytes([flags]) + head[6:18] + struct.pack("<I", number), list(packets), segments)

    for count in (1, 2, 3):
        if len(lacing) + count < 256:
            yield f"{count} at the end", front + page(head, lacing + [0] * count, body)
        flags = head[5] & ~4
        own = front + page(head[:5] + bytes([flags]) + head[6:], lacing, body)
        yield f"{count} on one page", own + marked(4, 1, [0] * count)
        yield f"{count} on pages", own + b"".join(marked(4 if n == count else 0, n, [0]) for n in range(1, count + 1))
        yield f"{count} on pages, none of them last", own + b"".join(marked(0, n, [0]) for n in range(1, count + 1))
        yield f"{count} after the page marked last", front + page(*pages[-1]) + marked(4, 1, [0] * count)
    yield "one before the last page's packets", front + page(head, [0] + lacing[:254], body[:sum(lacing[:254])])
    middle = pages[len(pages) // 2]
    ends = len(middle[1]) < 255 and middle[1][-1] < 255
    if ends and not middle[0][5] & 4:
        changed = page(middle[0], middle[1] + [0], middle[2])
        yield "one between frames", b"".join(page(*each) if each is not middle else changed for each in pages)


def rows(folder, quick):
    native, ogg, lax = encoded(folder), encoded(folder, "--ogg"), encoded(folder, "--lax", "-b", "20000")
    fronts = {"none": b"", "empty": tag(0), "of 1024": tag(1024), "of 128 by seven bits": tag(128), "version 2": tag(50, 2),
              "with a footer": tag(77, 4, 16), "version 3 with that flag": tag(77, 3, 16), "of text": tag(300, 4, 0, b"fLaC")}
    backs = {"none": b"", "ID3v1": old_tag(), "short": old_tag()[:127], "long": old_tag() + b"\0", "two": old_tag() + old_tag()}
    for stream_name, stream in (("native", native), ("Ogg", ogg), ("lax", lax)):
        for front_name, front in fronts.items():
            for back_name, back in backs.items():
                if not quick or "none" in (front_name, back_name) or stream is native:
                    yield f"{stream_name}, before {front_name}, after {back_name}", front + stream + back
    odd = {"version FF": tag(5, 255), "revision FF": tag(5, 3, 0, b"\0", 255), "eight bits": b"ID3\3\0\0\0\0\x80\0" + bytes(5),
           "nine bytes": b"ID3\3\0\0\0\0\0", "two tags": tag(5) + tag(6), "past the end": tag(1 << 20)[:10], "other letters": b"ID4" + tag(5)[3:]}
    for name, front in odd.items():
        for back in (b"", old_tag()):
            yield f"before: {name}, {len(back)} after", front + native + back
            yield f"before: {name}, alone, {len(back)} after", front + back
    for length in (0, 1, 3, 4, 41, 127, 128, 129, 255, 256, 257, len(native) - 1):
        for front in (b"", tag(40)):
            for back in (b"", old_tag()):
                yield f"{length} bytes, {len(front)} before, {len(back)} after", front + native[:length] + back
    wrong = native[:-3] + bytes([native[-3] ^ 1]) + native[-2:]
    yield "a wrong byte between tags", tag(9) + wrong + old_tag()
    # A stream that ends in a block which the tag's letters are in.
    letters = native[:4] + native[4:8] + native[8:42] + b"\x01\0\0\x80" + b"TAG" + bytes(125)
    yield "blocks that end as a tag does", letters
    for name, data in by_mutagen(folder, native):
        yield f"mutagen: {name}", data
    for name, data in oga_by_ffmpeg(folder):
        yield f"ffmpeg: {name}", data
        yield f"ffmpeg: {name}, between tags", tag(100) + data + old_tag()
        for changed, made in with_empty(without_empty(data)):
            yield f"{changed}, {name}", made
    for changed, made in with_empty(ogg):
        yield f"{changed}, the reference encoder", made
        yield f"{changed}, cut", made[:-1]
        yield f"{changed}, a wrong byte", made[:-1] + bytes([made[-1] ^ 1])
    for name, front, back in by_ffmpeg(folder):
        yield f"ffmpeg: {name}", front + native + back
        yield f"ffmpeg: {name}, Ogg", front + ogg + back


def answer(words, path):
    """The line of `test`, or the fault."""
    status, out, err = call("test", *words, path)
    return out.decode().strip() if status == 0 and not err else program.fault_of(path, status, err)


def has_more(data):
    """Whether bytes follow the first page of an Ogg stream that is marked last."""
    at = 0
    while data[at:at + 4] == b"OggS" and len(data) >= at + 27:
        end = at + 27 + data[at + 26] + sum(data[at + 27:at + 27 + data[at + 26]])
        if data[at + 5] & 4:
            return end < len(data)
        at = end
    return False


def judge(folder, data):
    path, raw = os.path.join(folder, "a.flac"), os.path.join(folder, "a.raw")
    with open(path, "wb") as file:
        file.write(data)
    middle, before, after = between(data)
    middle = without_empty(middle)
    due = model.answer(middle, model.LAX)
    expect(answer(["--lax"], path), model.answer(data, model.LAX))
    expect(answer([], path), model.answer(data, model.SUBSET))
    whole = due.startswith("frames")
    plain = os.path.join(folder, "b.flac")
    with open(plain, "wb") as file:
        file.write(middle)
    if has_more(middle):
        # (what follows the first stream is in chains.py)
        return
    expect(answer(["--any"], path), due)
    # The same samples, or as many of them before the fault; the same lines, and then those of the tags.
    found, wanted = call("decode", "--any", path, raw), call("decode", "--lax", plain, raw + "2")
    expect((found[0], read(raw) if os.path.exists(raw) else None), (wanted[0], read(raw + "2") if os.path.exists(raw + "2") else None))
    tags = (b"before ID3v2 %d\n" % before if before else b"") + (b"after ID3v1 %d\n" % after if after else b"")
    found, wanted = call("list", "--any", path), call("list", "--lax", plain)
    expect((found[0], found[1]), (wanted[0], wanted[1] + (tags if whole else b"")))
    status, out, err = call("verify", path)
    expect(status, 0 if whole else 1)
    line = f"ok {path}: {due}" if whole else f"flac: {path}: {due}\n"
    if not (out.decode().startswith(line) if whole else err.decode() == line):
        raise Wrong(f"verify: {out!r} {err!r}, due is {line!r}")
    if whole:
        expect(b"id3" in out.splitlines()[0][len(line):].split(), bool(before or after))
        report = os.path.join(folder, "a.jsonl")
        call("verify", "--report", report, path)
        entry = json.loads(read(report))
        expect((entry["container"], entry["id3"]), ("ogg" if middle[:1] == b"O" else "native", bool(before or after)))
        os.remove(report)
    expect(read(path), data)
    for name in (raw, raw + "2"):
        if os.path.exists(name):
            os.remove(name)


def main():
    quick = "--quick" in sys.argv[1:]
    good = bad = 0
    with tempfile.TemporaryDirectory() as folder:
        for name, data in rows(folder, quick):
            try:
                judge(folder, data)
                good += 1
            except Wrong as wrong:
                bad += 1
                print(f"any.py: {name}: {wrong}")
    print(f"any.py: {good} inputs answered as is due, {bad} not")
    return 1 if bad or not good else 0


if __name__ == "__main__":
    sys.exit(main())
