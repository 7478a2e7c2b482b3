#!/usr/bin/env python3
"""`flac list --json` and `flac list --block`, against a reader of the blocks, Python's json, metaflac and mutagen.

usage: conformance/checks/listed.py [--quick] [--seed N]

Streams have blocks of each kind: made at random, with texts of quotes, control bytes and bytes that are no UTF-8, and by metaflac,
mutagen and ffmpeg, native and in Ogg. What has to hold of each: a line is one object, with the members that a reader of the blocks
finds, in its order; with `--head` too; of chosen blocks these alone, and as text the lines that `list` has for them; a stream that is
refused has no line on standard output. FLAC names the program. Status 1 if anything is wrong.
"""
import argparse
import hashlib
import json
import math
import os
import random
import re
import struct
import subprocess
import sys
import tempfile

import folders  # noqa: F401  (the path of the modules below)
from program import Wrong, call, expect, read
from tag import blocks_of, comments_in, content_of, stream_of

INFO, PADDING, APPLICATION, SEEKTABLE, COMMENTS, CUESHEET, PICTURE = range(7)
TYPES = ["STREAMINFO", "PADDING", "APPLICATION", "SEEKTABLE", "VORBIS_COMMENT", "CUESHEET", "PICTURE"]
SAMPLES = b"".join(struct.pack("<hh", int(8000 * math.sin(i / 20)), int(7000 * math.sin(i / 33))) for i in range(20000))
FORMAT = ["--force-raw-format", "--endian=little", "--sign=signed", "--channels=2", "--bps=16", "--sample-rate=44100"]
COVER = struct.pack(">II", 3, 9) + b"image/png" + struct.pack(">I", 0) + struct.pack(">IIII", 2, 5, 24, 0)


# ---- a reader of blocks

def text_of(data):
    try:
        return data.decode("utf-8")
    except UnicodeDecodeError:
        return {"hex": data.hex()}


def data_of(data):
    return {"data_length": len(data), "data_md5": hashlib.md5(data).hexdigest()}


def info_of(body):
    packed = int.from_bytes(body[10:18], "big")
    return {"min_block_size": int.from_bytes(body[:2], "big"), "max_block_size": int.from_bytes(body[2:4], "big"),
            "min_frame_size": int.from_bytes(body[4:7], "big"), "max_frame_size": int.from_bytes(body[7:10], "big"),
            "rate": packed >> 44, "channels": (packed >> 41) % 8 + 1, "depth": (packed >> 36) % 32 + 1,
            "samples": packed % 2**36, "md5": body[18:].hex()}


def point_of(sample, offset, length):
    first = {"placeholder": True} if sample == 2**64 - 1 else {"sample": sample}
    return {**first, "offset": offset, "samples": length}


def comment_of(comment):
    name, equals, value = comment.partition(b"=")
    return {"name": text_of(name), "value": text_of(value)} if equals else {"text": text_of(comment)}


def sheet_of(body):
    tracks, at = [], 396
    for _ in range(body[395]):
        offset, number, isrc, flags = struct.unpack_from(">QB12sB", body, at)
        count, at = body[at + 35], at + 36
        indices = []
        for _ in range(count):
            indices.append({"number": body[at + 8], "offset": int.from_bytes(body[at:at + 8], "big")})
            at += 12
        tracks.append({"number": number, "offset": offset, "isrc": text_of(isrc.rstrip(b"\0")), "audio": flags < 128,
                       "pre_emphasis": flags & 64 != 0, "indices": indices})
    expect(at, len(body))
    return {"catalog": text_of(body[:128].rstrip(b"\0")), "lead_in": int.from_bytes(body[128:136], "big"), "cd": body[136] >= 128,
            "tracks": tracks}


def picture_of(body):
    at, parts = 4, []
    for _ in range(2):
        size = int.from_bytes(body[at:at + 4], "big")
        parts.append(body[at + 4:at + 4 + size])
        at += 4 + size
    width, height, depth, colors, size = struct.unpack_from(">IIIII", body, at)
    expect(at + 20 + size, len(body))
    return {"picture_type": int.from_bytes(body[:4], "big"), "media_type": text_of(parts[0]), "description": text_of(parts[1]),
            "width": width, "height": height, "depth": depth, "colors": colors, **data_of(body[at + 20:])}


def members_of(kind, body):
    if kind == INFO:
        return info_of(body)
    if kind == PADDING:
        return {}
    if kind == APPLICATION:
        return {"id": body[:4].hex(), **data_of(body[4:])}
    if kind == SEEKTABLE:
        return {"points": [point_of(*struct.unpack_from(">QQH", body, at)) for at in range(0, len(body), 18)]}
    if kind == COMMENTS:
        vendor, comments = comments_in(body)
        return {"vendor": text_of(vendor), "comments": [comment_of(c) for c in comments]}
    if kind == CUESHEET:
        return sheet_of(body)
    return picture_of(body) if kind == PICTURE else data_of(body)


def object_of(number, kind, body):
    name = TYPES[kind] if kind < len(TYPES) else f"TYPE_{kind}"
    return {"number": number, "type": name, "length": len(body), **members_of(kind, body)}


def is_meant(name, number, kind, body):
    """Whether a word of `--block` means the block."""
    if isinstance(name, int):
        return number == name
    word, _, identifier = name.partition(":")
    if identifier:
        due = bytes.fromhex(identifier[2:]) if identifier.startswith("0x") else identifier.encode()
        return kind == APPLICATION and body[:4] == due
    return word.upper() == (TYPES[kind] if kind < len(TYPES) else f"TYPE_{kind}")


def chosen(blocks, names):
    return [(i, *b) for i, b in enumerate(blocks) if not names or any(is_meant(n, i, *b) for n in names)]


def packets_of(data):
    """The packets of an Ogg stream."""
    at, packets, packet = 0, [], b""
    while at < len(data):
        expect(data[at:at + 4], b"OggS")
        lacing = data[at + 27:at + 27 + data[at + 26]]
        at += 27 + len(lacing)
        for size in lacing:
            packet += data[at:at + size]
            at += size
            if size < 255:
                packets.append(packet)
                packet = b""
    return packets


def any_blocks(data):
    """The blocks of a stream in either container (RFC 9639, section 10.1)."""
    if data[:4] == b"fLaC":
        return blocks_of(data)[0]
    packets = packets_of(data)
    first, blocks = packets[0], []
    expect(first[:5], b"\x7fFLAC")
    for packet in [first[13:], *packets[1:]]:
        blocks.append((packet[0] % 128, packet[4:]))
        if packet[0] >= 128:
            break
    return blocks


# ---- what the program prints

def words_for(names):
    return [w for n in names for w in ("--block", str(n))]


def line_due(path, blocks, names):
    return {"path": path, "blocks": [object_of(*b) for b in chosen(blocks, names)]}


def in_order(pairs):
    """Members in the order in which they stand, each once."""
    names = [name for name, _ in pairs]
    if len(set(names)) != len(names):
        raise Wrong(f"a member comes twice: {names}")
    return ("object", tuple(pairs))


def ordered(value):
    if isinstance(value, dict):
        return ("object", tuple((k, ordered(v)) for k, v in value.items()))
    return [ordered(v) for v in value] if isinstance(value, list) else value


def lines_of(out):
    """The objects of the lines of standard output."""
    if out and not out.endswith(b"\n"):
        raise Wrong("the last line has no end")
    lines = out.split(b"\n")[:-1]
    for line in lines:
        if re.search(rb'[\x00-\x1f]', line):
            raise Wrong(f"a control byte in a line: {line[:200]!r}")
    return [json.loads(line.decode("utf-8"), object_pairs_hook=in_order) for line in lines]


def check_json(paths, blocks, names, head):
    words = ["list", "--json", *(["--head"] if head else []), "--lax", *words_for(names), *paths]
    status, out, err = call(*words)
    expect((status, err), (0, b""))
    expect(lines_of(out), [ordered(line_due(p, b, names)) for p, b in zip(paths, blocks)])


def parts_of(out):
    """The lines of each block of `list`."""
    return re.findall(rb"^block .*\n(?:  .*\n)*", out, re.M)


def check_text(path, blocks, names, head):
    words = ["--head"] if head else []
    status, all_of_it, err = call("list", "--lax", *words, path)
    expect((status, err), (0, b""))
    parts = parts_of(all_of_it)
    expect(len(parts), len(blocks))
    status, out, err = call("list", "--lax", *words, *words_for(names), path)
    expect((status, err), (0, b""))
    expect(out, b"".join(parts[i] for i, _, _ in chosen(blocks, names)))


def choices(rng, blocks):
    """Words that name some blocks, or none that are there."""
    words = [rng.choice([rng.randrange(len(blocks) + 2), rng.choice(TYPES).lower(), rng.choice(TYPES), "type_9", "application:test",
                         "application:0x00ff22ff"]) for _ in range(rng.randrange(1, 4))]
    return [w for w in words if w != "application:test" or rng.random() < 0.9]


def check(rng, paths):
    """Everything of some files."""
    blocks = [any_blocks(read(path)) for path in paths]
    for head in (False, True):
        check_json(paths, blocks, [], head)
        for path, own in zip(paths, blocks):
            names = choices(rng, own)
            check_json([path], [own], names, head)
            check_text(path, own, names, head)
            for i in range(len(own)):
                check_json([path], [own], [i], head)


# ---- random layouts

TEXTS = [b"", b"x", b'a "quote" \\ and /', bytes(range(32)), b"\x7f\xc2\x80\xe2\x80\xa8", "Grüße \U0001f3b5".encode(), b"\xff", b"\xc3", b"\xed\xa0\x80",
         b"\xc0\x80", b"\xf4\x90\x80\x80", b"}],\"blocks\":[", b"\\u0041", b"hex", b"a\0b"]


def any_text(rng):
    return rng.choice([rng.choice(TEXTS), rng.randbytes(rng.randrange(20)), rng.choice(TEXTS) + rng.choice(TEXTS)])


def any_comment(rng):
    name = rng.choice([b"TITLE", b"ARTIST", b"title", b"", any_text(rng)])
    return name + rng.choice([b"=", b"=", b"==", b""]) + any_text(rng)


def any_sheet(rng):
    """A cue sheet that keeps the rules of RFC 9639, section 8.7, of no disc."""
    count, at = rng.randrange(0, 4), 0
    body = any_text(rng).replace(b"\0", b"")[:128].ljust(128, b"\0") + rng.randrange(2**64).to_bytes(8, "big") + b"\0" + bytes(258) \
        + bytes([count + 1])
    for number in range(1, count + 1):
        first = rng.randrange(2)
        indices = [(588 * i, first + i) for i in range(rng.randrange(1, 4))]
        body += struct.pack(">QB12sB", at, number, any_text(rng)[:12].ljust(12, b"\0"), rng.choice([0, 64, 128, 192])) + bytes(13) \
            + bytes([len(indices)])
        for offset, index in indices:
            body += struct.pack(">QB", offset, index) + bytes(3)
        at += 588 * 100
    return body + struct.pack(">QB12sB", at, 255, b"", 0) + bytes(13) + b"\0"


def any_picture(rng):
    media = rng.choice([b"image/png", b"-->", b"a\"b~"])
    text, data = rng.choice([any_text(rng), b"x size 1x1"]), rng.randbytes(rng.choice([0, 1, 300]))
    sizes = [rng.choice([0, 7, 2**32 - 1]) for _ in range(4)]
    return struct.pack(">II", rng.choice([0, 3, 20]), len(media)) + media + struct.pack(">I", len(text)) + text \
        + struct.pack(">IIIII", *sizes, len(data)) + data


def any_table(rng):
    points = sorted(rng.sample(range(0, 2**40), rng.randrange(4)))
    body = b"".join(struct.pack(">QQH", p, rng.randrange(2**63), rng.randrange(1, 4096)) for p in points)
    return body + b"".join(struct.pack(">QQH", 2**64 - 1, rng.randrange(2**64), 7) for _ in range(rng.randrange(3)))


def any_block(rng):
    kind = rng.choice([PADDING, APPLICATION, CUESHEET, PICTURE, 9, 126])
    if kind == PADDING:
        return kind, bytes(rng.randrange(50))
    if kind == APPLICATION:
        return kind, rng.choice([b"test", b"riff", b"\x00\xff\x22\xff"]) + rng.randbytes(rng.randrange(20))
    if kind == CUESHEET:
        return kind, any_sheet(rng)
    return (kind, any_picture(rng)) if kind == PICTURE else (kind, rng.randbytes(rng.randrange(20)))


def layout(rng, info):
    blocks = [any_block(rng) for _ in range(rng.randrange(6))]
    if rng.random() < 0.8:
        blocks.append((COMMENTS, content_of(any_text(rng), [any_comment(rng) for _ in range(rng.randrange(5))])))
    if rng.random() < 0.5:
        blocks.append((SEEKTABLE, any_table(rng)))
    rng.shuffle(blocks)
    return [(INFO, info), *blocks]


# ---- files of other programs

def encoded(folder, *words):
    path = os.path.join(folder, "made.flac")
    subprocess.run(["flac", "-s", "-f", *FORMAT, *words, "-o", path, "-"], input=SAMPLES, check=True, stderr=subprocess.DEVNULL)
    return path


def by_metaflac(folder):
    path, sheet, cover = (os.path.join(folder, name) for name in ("metaflac.flac", "sheet.cue", "cover.bin"))
    os.rename(encoded(folder, "-S", "10x"), path)
    with open(sheet, "w") as file:
        file.write('CATALOG 1234567890123\nFILE "a" WAVE\n  TRACK 01 AUDIO\n    ISRC ABCDE1234567\n    INDEX 01 00:00:00\n'
                   "  TRACK 02 AUDIO\n    PREGAP 00:00:01\n    INDEX 00 00:00:10\n    INDEX 01 00:00:20\n")
    with open(cover, "wb") as file:
        file.write(b"not a picture")
    for words in (["--set-tag=TITLE=a \"b\" \\"], ["--set-tag=ARTIST=Grüße"], [f"--import-cuesheet-from={sheet}"],
                  [f"--import-picture-from=3|image/png|a text|20x30x24|{cover}"], ["--add-padding=100"], ["--add-seekpoint=1s"]):
        subprocess.run(["metaflac", "--no-utf8-convert", *words, path], check=True)
    return path


def by_mutagen(folder):
    try:
        from mutagen.flac import FLAC, Picture
    except ImportError:
        print("mutagen is not there: nothing is made or read by it")
        return []
    path = os.path.join(folder, "mutagen.flac")
    os.rename(encoded(folder), path)
    file = FLAC(path)
    file["title"] = ["one\n\"two\"", "\u2028"]
    made = Picture()
    made.type, made.mime, made.desc, made.data, made.width = 4, "image/jpeg", "\"\\\t", b"\x00\x01", 9
    file.add_picture(made)
    file.save()
    return [path]


def by_ffmpeg(folder):
    paths, raw = [os.path.join(folder, name) for name in ("ffmpeg.flac", "ffmpeg.oga")], os.path.join(folder, "raw")
    with open(raw, "wb") as file:
        file.write(SAMPLES)
    for path in paths:
        subprocess.run(["ffmpeg", "-v", "error", "-y", "-f", "s16le", "-ar", "44100", "-ac", "2", "-i", raw, "-metadata", "title=a\"b", "-c:a", "flac",
                        path], check=True)
    return [paths[0], *([paths[1]] if call("test", "--lax", paths[1])[0] == 0 else [without_empty(paths[1])])]


def without_empty(path):
    """The same stream by this program: ffmpeg ends one in Ogg with an empty packet, which `list` takes with `--any` alone."""
    new = path[:-4] + "2.oga"
    expect(call("recode", "--ogg", path, new)[0], 0)
    return new


def listed(path):
    status, out, err = call("list", "--json", "--head", path)
    expect((status, err), (0, b""))
    return json.loads(out)["blocks"]


def against_metaflac(path):
    """Numbers, types, lengths and some fields as metaflac lists them."""
    text = subprocess.run(["metaflac", "--list", "--no-utf8-convert", path], check=True, stdout=subprocess.PIPE).stdout.decode(errors="replace")
    found = []
    for part in re.split(r"^METADATA block #", text, flags=re.M)[1:]:
        def field(name, part=part):
            return int(re.search(rf"^ *{name}: (\d+)", part, re.M).group(1))
        found.append((int(part.split("\n")[0]), field("type"), field("length"), part))
    own = listed(path)
    expect([(b["number"], b["type"], b["length"]) for b in own], [(n, TYPES[k], size) for n, k, size, _ in found])
    for block, (_, kind, _, part) in zip(own, found):
        if kind == SEEKTABLE:
            points = [tuple(map(int, p)) for p in re.findall(r"sample_number=(\d+), stream_offset=(\d+), frame_samples=(\d+)", part)]
            expect([(p["sample"], p["offset"], p["samples"]) for p in block["points"] if "sample" in p], points)
        if kind == COMMENTS:
            texts = re.findall(r"^    comment\[\d+\]: (.*)$", part, re.M)
            expect([f"{c['name']}={c['value']}".split("\n")[0] for c in block["comments"]], texts)
        if kind == PICTURE:
            sizes = [int(re.search(rf"^  {n}: (\d+)", part, re.M).group(1)) for n in ("width", "height", "depth", "colors", "data length")]
            expect([block[n] for n in ("width", "height", "depth", "colors", "data_length")], sizes)
        if kind == CUESHEET:
            expect(block["catalog"], re.search(r"^  media catalog number: (.*)$", part, re.M).group(1))
            expect([t["number"] for t in block["tracks"]], [int(n) for n in re.findall(r"^      number: (\d+)", part, re.M)])


def against_mutagen(path):
    from mutagen.flac import FLAC
    file, own = FLAC(path), {b["type"]: b for b in listed(path)}
    expect([(c["name"].lower(), c["value"]) for c in own["VORBIS_COMMENT"]["comments"]], [(n.lower(), v) for n, v in file.tags])
    picture, due = own["PICTURE"], file.pictures[0]
    expect((picture["picture_type"], picture["media_type"], picture["description"], picture["width"], picture["data_md5"]),
           (due.type, due.mime, due.desc, due.width, hashlib.md5(due.data).hexdigest()))
    expect((own["STREAMINFO"]["rate"], own["STREAMINFO"]["samples"]), (file.info.sample_rate, file.info.total_samples))


# ---- refusals

def refused(folder, stream):
    """A stream that is refused has its line on standard error and none on standard output; the others have theirs."""
    good, cut, damaged, none = (os.path.join(folder, name) for name in ("good.flac", "cut.flac", "damaged.flac", "none.flac"))
    for path, data in ((good, stream), (cut, stream[:60]), (damaged, stream[:-100] + bytes(100))):
        with open(path, "wb") as file:
            file.write(data)
    due = [ordered(line_due(good, any_blocks(stream), []))]
    for words, bad in ((["--head"], [cut, none]), ([], [cut, damaged, none])):
        status, out, err = call("list", "--json", *words, *bad, good)
        expect((status, lines_of(out), len(err.splitlines())), (1, due, len(bad)))
        for line, path in zip(err.decode().splitlines(), bad):
            expect(line.startswith(f"flac: {path}: "), True)
    expect(lines_of(call("list", "--json", "--head", damaged)[1]), [ordered(line_due(damaged, any_blocks(stream), []))])
    for word in ("type_127", "x", "-1", "4294967296", "padding:test", ""):
        status, out, err = call("list", "--json", "--block", word, good)
        expect((status, out, len(err.splitlines()) > 0), (2, b"", True))


def names(rng, folder, stream):
    """Paths of all kinds are texts of JSON."""
    for name in ('a "b".flac', "a\\b.flac", "new\nline.flac", "\x01\x1f\x7f.flac", "Grüße \U0001f3b5.flac", "}],.flac"):
        path = os.path.join(folder, name)
        with open(path, "wb") as file:
            file.write(stream)
        check(rng, [path])


def main():
    parser = argparse.ArgumentParser(description=__doc__.splitlines()[0])
    parser.add_argument("--quick", action="store_true")
    parser.add_argument("--seed", type=int, default=1)
    options = parser.parse_args()
    rng = random.Random(options.seed)
    with tempfile.TemporaryDirectory() as folder:
        stream = read(encoded(folder))
        blocks, frames = blocks_of(stream)
        for number in range(20 if options.quick else 300):
            path = os.path.join(folder, f"{number}.flac")
            with open(path, "wb") as file:
                file.write(stream_of(layout(rng, blocks[0][1]), frames))
            try:
                check(rng, [path])
            except Wrong as wrong:
                raise Wrong(f"layout {number} of seed {options.seed}: {wrong}") from None
            if number % 10 == 9:
                check(rng, [os.path.join(folder, f"{i}.flac") for i in range(number - 9, number + 1)])
        mine, others = by_mutagen(folder), [by_metaflac(folder), *by_ffmpeg(folder)]
        check(rng, mine + others)
        for path in [*mine, others[0], others[1]]:
            against_metaflac(path)
        for path in mine:
            against_mutagen(path)
        refused(folder, stream)
        names(rng, folder, stream)
    print("list --json and --block: as due")
    return 0


if __name__ == "__main__":
    try:
        sys.exit(main())
    except Wrong as wrong:
        print(f"wrong: {wrong}", file=sys.stderr)
        sys.exit(1)
