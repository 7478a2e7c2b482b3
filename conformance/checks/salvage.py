#!/usr/bin/env python3
"""`flac salvage` over damaged streams: what it writes, and what it says is missing.

usage: conformance/checks/salvage.py [--quick] [--seed N]

The reference encodes streams of noise and tones at several formats and block sizes; they are damaged: changed bits, bytes taken out
and put in, runs of zeros, parts swapped, the end cut off. A search of its own finds each frame of the good stream that is whole in
the damaged one, by its CRC-8 and CRC-16, and chooses the frames with the most samples whose numbers rise. What has to hold: status
0; the reference decodes OUT to just the samples of these frames, each at its place with silence for the others, or with --gap
without them; OUT has their number and digest, and the blocks of IN but for the seek table; the lines tell each range of missing
samples, and nothing if none is missing. A stream that keeps a WAV file is decoded to one whose header states its samples, also with
--gap. `flac -F` of the reference restores no frame that is not among them. Streams whose metadata
is damaged are refused with the line of `flac test`. FLAC names the program. Status 1 if an answer is not the one that is due.
"""
import argparse
import hashlib
import os
import random
import subprocess
import sys
import tempfile
import wave

import folders  # noqa: F401  (the path of the modules below)
import model
from program import Wrong, call, expect, read

FORMATS = [(2, 16, 44100, 4096), (1, 16, 8000, 1152), (2, 24, 96000, 4608), (4, 16, 48000, 576), (1, 8, 22050, 256)]
"""Channels, bits, rate and block size."""


# ---- frames (RFC 9639, section 9), by their checks alone

def table(bits, divisor):
    rows = []
    for byte in range(256):
        value = byte << (bits - 8)
        for _ in range(8):
            value = value << 1 ^ (divisor if value >> (bits - 1) else 0)
            value &= (1 << bits) - 1
        rows.append(value)
    return rows


CRC8, CRC16 = table(8, 0x07), table(16, 0x8005)


def crc8(data):
    value = 0
    for byte in data:
        value = CRC8[value ^ byte]
    return value


def crc16(data):
    value = 0
    for byte in data:
        value = (value << 8 & 0xFFFF) ^ CRC16[value >> 8 ^ byte]
    return value


def coded_number(data, at):
    """The value that is coded like a character in UTF-8, and how many bytes it has."""
    first = data[at]
    if first < 0x80:
        return first, 1
    size = 2
    while size < 7 and first >> (7 - size) & 1:
        size += 1
    number = first & (1 << (7 - size)) - 1
    for byte in data[at + 1:at + size]:
        number = number << 6 | byte & 63
    return number, size


def header(data, at):
    """The number of a frame with fixed blocking, and the length of its header; none if its CRC-8 does not fit."""
    if data[at:at + 2] != b"\xff\xf8" or at + 16 > len(data) + 10:
        return None
    try:
        number, size = coded_number(data, at + 4)
        end = at + 4 + size
        block, rate = data[at + 2] >> 4, data[at + 2] & 15
        end += {6: 1, 7: 2}.get(block, 0) + {12: 1, 13: 2, 14: 2}.get(rate, 0)
        return (number, end + 1 - at) if crc8(data[at:end]) == data[end] else None
    except IndexError:
        return None


def frames_of(data, front, total, block):
    """The frames of a good stream: each its bytes, its first sample and its size."""
    starts = []
    at = front
    while at < len(data):
        found = header(data, at)
        if not found or found[0] != len(starts):
            raise Wrong(f"no frame {len(starts)} at {at}")
        end = at + found[1]
        while True:
            end = data.find(b"\xff\xf8", end)
            end = len(data) if end < 0 else end
            following = header(data, end) if end < len(data) else None
            if end == len(data) or following and following[0] == len(starts) + 1:
                if crc16(data[at:end]) == 0:
                    break
            end += 1
        starts.append(at)
        at = end
    ends = starts[1:] + [len(data)]
    return [(data[a:b], n * block, min(block, total - n * block)) for n, (a, b) in enumerate(zip(starts, ends))]


# ---- what is due

def whole(frames, bad, front):
    """Where frames are whole in the damaged bytes, one after another: offset, length, first sample, size."""
    spots = []
    for data, first, size in frames:
        at = bad.find(data, front)
        while at >= 0:
            spots.append((at, len(data), first, size))
            at = bad.find(data, at + 1)
    left, end = [], front
    for spot in sorted(spots):
        if spot[0] >= end:
            left.append(spot)
            end = spot[0] + spot[1]
    return left


def best_chain(spots, total):
    """Those of them that rise and have the most samples; of two such chains the one with the earlier frame where they part."""
    tails = []
    for at in range(len(spots) - 1, -1, -1):
        _, _, first, size = spots[at]
        after = max((tail for tail in tails if spots[tail[1]][2] >= first + size), key=lambda tail: (tail[0], -tail[1]), default=(0, len(spots)))
        if first + size <= total:
            tails.append((after[0] + size, at, after[1]))
    chain, reach = [], 0
    follow = {at: (most, then) for most, at, then in tails}
    while True:
        some = [(most, -at) for at, (most, _) in follow.items() if spots[at][2] >= reach and (not chain or at > chain[-1])]
        if not some:
            return [spots[at] for at in chain]
        at = -max(some)[1]
        chain.append(at)
        reach = spots[at][2] + spots[at][3]


class Plain:
    """Places in a native stream: those of its bytes."""

    def __init__(self, before=0):
        self.before = before

    def of(self, at):
        return at + self.before

    def after(self, at):
        return at + self.before


class Placed:
    """Places in the input of the bytes that its pages hold."""

    def __init__(self, places, end):
        self.places, self.end = places, end

    def of(self, at):
        return self.places[at] if at < len(self.places) else self.end

    def after(self, at):
        return self.places[at - 1] + 1


def due_lines(path, kept, spots, rate, total, front, end, where=Plain()):
    """The lines of what is missing."""
    def time(sample):
        return f"{sample // rate // 60}:{sample // rate % 60:02}.{sample % rate * 1000 // rate:03}"

    lines, at, first = [], front, 0
    for spot in kept + [(end, 0, total, 0)]:
        start, stop = where.after(at), where.of(spot[0])
        place = f"bytes {start} to {stop - 1}" if start < stop else f"byte {start}"
        if first < spot[2]:
            lines.append(f"{place}: samples {first} to {spot[2] - 1} missing, {time(first)} to {time(spot[2] - 1)}")
        elif at < spot[0]:
            lines.append(f"{place}: no frame, no sample is missing")
        at, first = spot[0] + spot[1], spot[2] + spot[3]
    lines += [f"frame at byte {where.of(spot[0])}: out of order, {spot[3]} samples from {spot[2]}" for spot in spots if spot not in kept]
    if lines:
        lines.append(f"found {sum(spot[3] for spot in kept)} of {total} samples in {len(kept)} frames")
    return "".join(f"flac: {path}: {line}\n" for line in lines).encode()


def samples_due(kept, raw, width, total, gap):
    out, first = b"", 0
    for _, _, start, size in kept + [(0, 0, total, 0)]:
        if not gap:
            out += bytes((start - first) * width)
        out += raw[start * width:(start + size) * width]
        first = start + size
    return out


# ---- damage

def damaged(data, front, chance, kind):
    bad = bytearray(data)

    def place():
        return chance.randrange(front, max(front + 1, len(bad)))

    if kind == "bits":
        for _ in range(chance.randrange(1, 12)):
            bad[place()] ^= 1 << chance.randrange(8)
    elif kind == "holes":
        for _ in range(chance.randrange(1, 5)):
            at = place()
            del bad[at:at + chance.randrange(1, 5000)]
    elif kind == "insertions":
        for _ in range(chance.randrange(1, 5)):
            at = place()
            bad[at:at] = chance.randbytes(chance.randrange(1, 3000))
    elif kind == "zeros":
        for _ in range(chance.randrange(1, 4)):
            at, size = place(), chance.randrange(512, 8192)
            bad[at:at + size] = bytes(len(bad[at:at + size]))
    elif kind == "swapped" and len(bad) > front + 8192:
        a, b = sorted(chance.sample(range(front, len(bad) - 2048), 2))
        size = min(2048, b - a)
        bad[a:a + size], bad[b:b + size] = bad[b:b + size], bad[a:a + size]
    elif kind == "cut":
        del bad[place():]
    return bytes(bad)


KINDS = ["none", "bits", "holes", "insertions", "zeros", "swapped", "cut"]


# ---- pages (RFC 3533, section 6), by their checksums

def crc32(data):
    value = 0
    for byte in data:
        value = (value << 8 & 0xFFFFFFFF) ^ CRC32[value >> 24 ^ byte]
    return value


CRC32 = table(32, 0x04C11DB7)


def page_at(data, at):
    """Where the segments of the page at an offset begin and where it ends, and its serial number; none if it is not whole."""
    if data[at:at + 5] != b"OggS\0" or at + 27 > len(data):
        return None
    body = at + 27 + data[at + 26]
    end = body + sum(data[at + 27:body])
    if end > len(data) or body > len(data):
        return None
    page = bytearray(data[at:end])
    page[22:26] = bytes(4)
    return (at, body, end, data[at + 14:at + 18]) if crc32(page).to_bytes(4, "little") == data[at + 22:at + 26] else None


def pages_in(data):
    """The whole pages, none of which begins inside another."""
    pages, at = [], 0
    while True:
        at = data.find(b"OggS\0", at)
        if at < 0:
            return pages
        page = page_at(data, at)
        if page:
            pages.append(page)
        at = page[2] if page else at + 1


def left_in(data):
    """What the pages of the first stream of FLAC hold after the mapping header, with the bytes that are in no page as soon as there may be
    frames, and where each of these bytes is."""
    left, places, serial, frames, last = bytearray(), [], None, False, 0

    def add(start, end):
        left.extend(data[start:end])
        places.extend(range(start, end))

    for at, body, end, number in pages_in(data):
        if serial is None:
            if data[body:body + 5] == b"\x7fFLAC":
                serial = number
                add(body + 9, end)
        else:
            if frames:
                add(last, at)
            if serial == number:
                add(body, end)
                frames = frames or data[at + 5] % 2 == 0 and data[body:body + 1] >= b"\x80"
        last = end
    if frames:
        add(last, len(data))
    return bytes(left), Placed(places, len(data))


def audio_pages(data):
    """The pages of a good stream that hold frames."""
    pages = pages_in(data)
    first = next(index for index, page in enumerate(pages) if data[page[1]:page[1] + 2] == b"\xff\xf8")
    return pages[first:]


def swapped_pages(data, chance):
    """Two pages in each other's place, and one twice."""
    pages = audio_pages(data)
    parts = [data[at:end] for at, _, end, _ in pages]
    a, b = chance.randrange(len(parts)), chance.randrange(len(parts))
    parts[a], parts[b] = parts[b], parts[a]
    parts.insert(chance.randrange(len(parts)), parts[chance.randrange(len(parts))])
    return data[:pages[0][0]] + b"".join(parts)


# ---- streams

def noise(chance, channels, bits, count):
    """Raw samples: quiet noise over a slow rise, so that no two frames are the same."""
    width, most = bits // 8, 1 << (bits - 3)
    out = bytearray()
    for row in range(count):
        for channel in range(channels):
            value = (row * (channel + 3)) % most - most // 2 + chance.randrange(most // 8)
            out += (value & (1 << bits) - 1).to_bytes(width, "little")
    return bytes(out)


def blocks_of(path):
    return model.metadata_of(read(path)).blocks


def kept_blocks(path):
    return [(kind, length, fields) for kind, length, fields in blocks_of(path)[1:] if kind != 3]


def decoded(path, through=False):
    words = ["flac", "-s", "-d", "-c", "--force-raw-format", "--endian=little", "--sign=signed", *(["-F"] if through else []), path]
    return subprocess.run(words, check=not through, stdout=subprocess.PIPE, stderr=subprocess.DEVNULL).stdout


def judge(frames, kept, raw, width, front, spots, form, gap):
    """One call, over the file `bad.flac`."""
    _, bits, rate, _ = form
    total = len(raw) // width
    before = read("bad.flac")
    if os.path.exists("out.flac"):
        os.remove("out.flac")
    status, out, err = call("salvage", "bad.flac", "out.flac", *(["--gap"] if gap else []))
    expect((status, out), (0, b""))
    expect(err, due_lines("bad.flac", kept, spots, rate, total, front, len(before)))
    expect(read("bad.flac"), before)
    due = samples_due(kept, raw, width, total, gap)
    info = blocks_of("out.flac")[0][2]
    digest = hashlib.md5(due).digest()
    expect((info["total"], info["digest"], info["rate"], info["depth"]), (len(due) // width, digest, rate, bits))
    expect(kept_blocks("out.flac"), kept_blocks("bad.flac"))
    if due:
        expect(hashlib.md5(decoded("out.flac")).digest(), digest)
        subprocess.run(["flac", "-s", "-t", "out.flac"], check=True, stderr=subprocess.DEVNULL)
    test = call("test", "out.flac")
    expect((test[0], test[2]), (0, b""))


def judge_pages(frames, raw, width, form, gap):
    """One call, over the Ogg stream `bad.oga`; how many frames are found and kept."""
    _, bits, rate, _ = form
    total = len(raw) // width
    bad = read("bad.oga")
    left, where = left_in(bad)
    with open("left.flac", "wb") as file:
        file.write(left)
    front = 4 + sum(4 + length for _, length, _ in blocks_of("left.flac"))
    spots = whole(frames, left, front)
    kept = best_chain(spots, total)
    lines = due_lines("bad.oga", kept, spots, rate, total, front, len(left), where)
    if os.path.exists("out.flac"):
        os.remove("out.flac")
    status, out, err = call("salvage", "bad.oga", "out.flac", *(["--gap"] if gap else []))
    expect((status, out), (0, b""))
    expect(err, lines)
    expect(read("bad.oga"), bad)
    due = samples_due(kept, raw, width, total, gap)
    info = blocks_of("out.flac")[0][2]
    digest = hashlib.md5(due).digest()
    expect((info["total"], info["digest"], info["rate"], info["depth"]), (len(due) // width, digest, rate, bits))
    expect(kept_blocks("out.flac"), kept_blocks("left.flac"))
    if due:
        expect(hashlib.md5(decoded("out.flac")).digest(), digest)
    status, out, err = call("verify", "--all", "bad.oga")
    if status == 0:
        expect(err, b"")
    else:
        expect(err.split(b"\n", 1)[1], lines)
    return len(spots), len(kept)


def through_ffmpeg(path, bits):
    """What FFmpeg decodes of a damaged stream."""
    form = "s8" if bits == 8 else f"s{bits}le"
    words = ["ffmpeg", "-v", "quiet", "-i", path, "-c:a", f"pcm_{form}", "-f", form, "-"]
    return subprocess.run(words, check=False, stdin=subprocess.DEVNULL, stdout=subprocess.PIPE, stderr=subprocess.DEVNULL).stdout


def ogg_streams(chance, form, raw, quick, counts):
    """Damaged Ogg streams of the samples of `good.flac`: pages of several frames, as the reference makes them, and of one."""
    channels, bits, rate, block = form
    width = channels * (bits // 8)
    words = ["flac", "-s", "-f", "--force-raw-format", "--endian=little", "--sign=signed", f"--channels={channels}", f"--bps={bits}", f"--sample-rate={rate}",
             f"--blocksize={block}", "-5", "--tag=TITLE=some", "--padding=100", "--lax", "--ogg", "-o", "reference.oga", "in.raw"]
    subprocess.run(words, check=True)
    if os.path.exists("recoded.oga"):
        os.remove("recoded.oga")
    expect(call("recode", "good.flac", "recoded.oga", "--ogg", "--lax", "--block", str(block))[0], 0)
    for name in ("reference.oga", "recoded.oga"):
        data = read(name)
        left, _ = left_in(data)
        with open("left.flac", "wb") as file:
            file.write(left)
        front = 4 + sum(4 + length for _, length, _ in blocks_of("left.flac"))
        frames = frames_of(left, front, len(raw) // width, block)
        begin = audio_pages(data)[0][0]
        kinds = [*KINDS, "pages", *(["header"] if pages_in(data)[2][0] < begin else [])]
        for kind in kinds * (1 if quick else 4):
            if kind == "pages":
                bad = swapped_pages(data, chance)
            elif kind == "header":
                second = pages_in(data)[1]
                bad = bytearray(data)
                bad[chance.randrange(second[0], second[2])] ^= 1 << chance.randrange(8)
            else:
                bad = damaged(data, begin, chance, kind)
            with open("bad.oga", "wb") as file:
                file.write(bad)
            for gap in (False, True):
                found, kept = judge_pages(frames, raw, width, form, gap)
            others = [decoded("bad.oga", through=True)]
            if bits != 8 and channels <= 2:
                others.append(through_ffmpeg("bad.oga", bits))
            for there, other in zip(others, ("the reference", "FFmpeg")):
                restored = sum(raw[first * width:(first + size) * width] in there for _, first, size in frames)
                if restored > found:
                    raise Wrong(f"{name}, {kind}: {other} restores {restored} frames, of which {found} are found")
                counts["Ogg by " + other] += restored
            counts["Ogg files"] += 1
            counts["Ogg frames"] += len(frames)
            counts["Ogg kept"] += kept


def between_tags(data, raw, width, front, frames, form, chance):
    """A damaged native stream between tags of other programs: the lines tell where in the file it is."""
    bad = damaged(data, front, chance, "bits")
    spots = whole(frames, bad, front)
    kept = best_chain(spots, len(raw) // width)
    tag = b"ID3\3\0\0\0\0\1\0" + bytes(128)
    with open("tagged.flac", "wb") as file:
        file.write(tag + bad + b"TAG" + bytes(125))
    if os.path.exists("out.flac"):
        os.remove("out.flac")
    status, out, err = call("salvage", "tagged.flac", "out.flac")
    expect((status, out), (0, b""))
    expect(err, due_lines("tagged.flac", kept, spots, form[2], len(raw) // width, front, len(bad), Plain(len(tag))))
    due = samples_due(kept, raw, width, len(raw) // width, False)
    expect(hashlib.md5(decoded("out.flac")).digest(), hashlib.md5(due).digest())


def stream(chance, form, count):
    channels, bits, rate, block = form
    raw = noise(chance, channels, bits, count)
    with open("in.raw", "wb") as file:
        file.write(raw)
    words = ["flac", "-s", "-f", "--force-raw-format", "--endian=little", "--sign=signed", f"--channels={channels}", f"--bps={bits}", f"--sample-rate={rate}",
             f"--blocksize={block}", "-5", "--tag=TITLE=some", "--padding=100", "--lax", "-o", "good.flac", "in.raw"]
    subprocess.run(words, check=True)
    return raw


def refused(data, chance):
    """Streams whose metadata is damaged: the line of `test`, and OUT as it was."""
    for at in (0, 4, 5, 10, 20):
        bad = bytearray(data)
        bad[at] ^= 0x7F
        with open("bad.flac", "wb") as file:
            file.write(bad)
        status, _, line = call("test", "--lax", "bad.flac")
        if status != 1 or b"frame" in line or b"end" in line:
            continue
        with open("out.flac", "wb") as file:
            file.write(b"fLaC old")
        expect(call("salvage", "bad.flac", "out.flac", "--force"), (1, b"", line))
        expect(read("out.flac"), b"fLaC old")
        expect(call("salvage", "bad.flac", "out.flac"), (1, b"", b"flac: out.flac: cannot be created: it may be another song, which --force replaces\n"))
        expect(read("out.flac"), b"fLaC old")
    for name in ("out.flac", "out.flac.part"):
        if os.path.exists(name):
            os.remove(name)


def too_long(data):
    """A total that would be too much silence; without it nothing is refused."""
    bad = bytearray(data)
    bad[21] |= 0x0F
    with open("bad.flac", "wb") as file:
        file.write(bad)
    expect(call("salvage", "bad.flac", "out.flac"), (1, b"", b"flac: bad.flac: 45 TooLong\n"))
    status, _, _ = call("salvage", "bad.flac", "out.flac", "--gap", "--force")
    expect(status, 0)
    expect(hashlib.md5(decoded("out.flac")).digest(), hashlib.md5(decoded("good.flac")).digest())


def kept_wave(chance):
    """A stream that keeps a WAV file, whole and damaged: what OUT is decoded to has the frames that its header states."""
    with wave.open("in.wav", "wb") as file:
        file.setparams((2, 2, 44100, 0, "NONE", ""))
        file.writeframes(noise(chance, 2, 16, 20000))
    with open("in.wav", "ab") as file:
        file.write(b"LIST\4\0\0\0INFO")
    length = os.path.getsize("in.wav")
    with open("in.wav", "r+b") as file:
        file.seek(4)
        file.write((length - 8).to_bytes(4, "little"))
    expect(call("encode", "in.wav", "good.flac", "--force")[0], 0)
    good = read("good.flac")
    bad = bytearray(good)
    bad[len(bad) * 2 // 3] ^= 0x10
    for data, gap, left in [(good, False, 20000), (good, True, 20000), (bad, False, 20000), (bad, True, 20000 - 4096)]:
        with open("bad.flac", "wb") as file:
            file.write(data)
        for name in ("out.flac", "out.wav"):
            if os.path.exists(name):
                os.remove(name)
        expect(call("salvage", "bad.flac", "out.flac", *(["--gap"] if gap else []))[0], 0)
        expect(call("decode", "out.flac", "out.wav"), (0, b"", b""))
        with wave.open("out.wav", "rb") as file:
            expect((file.getnframes(), len(file.readframes(1 << 20)) // 4), (left, left))
        expect(b"LIST" in read("out.wav"), left == 20000)
        if data == good:
            expect(read("out.wav"), read("in.wav"))
        subprocess.run(["flac", "-s", "-t", "out.flac"], check=True, stderr=subprocess.DEVNULL)


def main():
    parser = argparse.ArgumentParser()
    parser.add_argument("--quick", action="store_true")
    parser.add_argument("--seed", type=int, default=1)
    given = parser.parse_args()
    chance = random.Random(given.seed)
    counts = {"files": 0, "frames": 0, "kept": 0, "reference": 0}
    counts.update({"Ogg files": 0, "Ogg frames": 0, "Ogg kept": 0, "Ogg by the reference": 0, "Ogg by FFmpeg": 0})
    with tempfile.TemporaryDirectory(prefix="flac-salvage-") as room:
        os.chdir(room)
        for form in FORMATS[:3 if given.quick else None]:
            channels, bits, _, block = form
            width = channels * (bits // 8)
            raw = stream(chance, form, block * chance.randrange(10, 20) + chance.randrange(1, block))
            data = read("good.flac")
            front = 4 + sum(4 + length for _, length, _ in blocks_of("good.flac"))
            frames = frames_of(data, front, len(raw) // width, block)
            for kind in KINDS * (1 if given.quick else 4):
                bad = damaged(data, front, chance, kind)
                with open("bad.flac", "wb") as file:
                    file.write(bad)
                spots = whole(frames, bad, front)
                kept = best_chain(spots, len(raw) // width)
                for gap in (False, True):
                    judge(frames, kept, raw, width, front, spots, form, gap)
                there = decoded("bad.flac", through=True)
                restored = sum(raw[first * width:(first + size) * width] in there for _, first, size in frames)
                if restored > len(spots):
                    raise Wrong(f"{kind}: the reference restores {restored} frames, of which {len(spots)} are whole")
                counts["files"] += 1
                counts["frames"] += len(frames)
                counts["kept"] += len(kept)
                counts["reference"] += restored
            refused(data, chance)
            too_long(data)
            between_tags(data, raw, width, front, frames, form, chance)
            ogg_streams(chance, form, raw, given.quick, counts)
        kept_wave(chance)
    print(f"salvage: {counts['files']} damaged files of {counts['frames']} frames; {counts['kept']} kept, {counts['reference']} restored by flac -F")
    print(f"salvage: {counts['Ogg files']} damaged Ogg files of {counts['Ogg frames']} frames; {counts['Ogg kept']} kept, {counts['Ogg by the reference']} "
          f"restored by flac -F, {counts['Ogg by FFmpeg']} of one or two channels by FFmpeg")
    return 0


if __name__ == "__main__":
    try:
        sys.exit(main())
    except Wrong as wrong:
        print(f"salvage: {wrong}")
        sys.exit(1)
