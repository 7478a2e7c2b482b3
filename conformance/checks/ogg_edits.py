#!/usr/bin/env python3
"""Ogg streams that are copied, tagged, edited and exported, by `flac recode --copy`, `flac tag`, `flac edit` and `flac export`.

usage: conformance/checks/ogg_edits.py [--quick] [--seed N]

The streams are made by the reference encoder and by FFmpeg, native and in Ogg; blocks of each type are put into some of them by hand.
Pages are read here by a reader of their own, which verifies the check of each, its number, its serial number and that no granule position
goes down. What has to hold: after each command the audio packets are byte by byte those of before, with the granule positions of
the samples so far; the header packets are those that a model of the edits gives, with the comments first and without seek tables; the serial
number stays; the file's mode stays; mutagen reads the comments; the reference and FFmpeg decode the samples that were put in. A copy
from native to Ogg and back has the bytes of the first. An edit that changes nothing leaves the file as it is. Streams that are cut or
changed are refused with the line of `flac test --any` or by a page, and stay as they are. FLAC names the program. Status 1 if an answer is
not the one that is due.
"""
import argparse
import os
import random
import subprocess
import sys
import tempfile
import time

import folders  # noqa: F401  (the path of the modules below)
import edit
import model
import parts
import recode
import tag
from program import Wrong, call, expect, read
from vectors_ogg import mapping, page

SEEKTABLE, COMMENTS = 3, 4


# ---- pages (RFC 3533, section 6; RFC 9639, section 10.1)

def pages_of(data):
    at, found = 0, []
    while at < len(data):
        head = data[at:at + 27]
        if head[:5] != b"OggS\0":
            raise Wrong(f"no page at {at}")
        lacing = data[at + 27:at + 27 + head[26]]
        end = at + 27 + head[26] + sum(lacing)
        whole = data[at:end]
        if model.crc(32, whole[:22] + bytes(4) + whole[26:]) != int.from_bytes(head[22:26], "little"):
            raise Wrong(f"check of the page at {at}")
        granule, serial, number = (int.from_bytes(head[a:b], "little") for a, b in ((6, 14), (14, 18), (18, 22)))
        expect(number, len(found) + (found[0]["number"] if found else 0))
        found.append({"flags": head[5], "granule": granule, "serial": serial, "number": number, "lacing": lacing, "body": whole[27 + head[26]:]})
        at = end
    expect([p["flags"] & 2 for p in found], [2] + [0] * (len(found) - 1))
    expect([p["flags"] & 4 for p in found], [0] * (len(found) - 1) + [4])
    expect(len({p["serial"] for p in found}), 1)
    return found


def packets_of(data):
    """The packets, each with the granule position of the page on which it ends, or None if another packet ends there after it."""
    found, part = [], b""
    for one in pages_of(data):
        at, ended = 0, []
        for size in one["lacing"]:
            part += one["body"][at:at + size]
            at += size
            if size < 255:
                ended.append(part)
                part = b""
        found += [(p, one["granule"] if i == len(ended) - 1 else None) for i, p in enumerate(ended)]
    expect(part, b"")
    return found


class Ogg:
    """An Ogg stream: its serial number, its metadata blocks, and its audio packets with their granule positions."""

    def __init__(self, data):
        self.serial = pages_of(data)[0]["serial"]
        packets = packets_of(data)
        first = packets[0][0]
        expect((first[:7], first[9:13]), (b"\x7fFLAC\1\0", b"fLaC"))
        texts = [first[13:]] + [p for p, _ in packets[1:] if p and p[0] != 0xFF]
        self.blocks = [(text[0] & 127, text[4:]) for text in texts]
        expect([len(text) - 4 for text in texts], [int.from_bytes(text[1:4], "big") for text in texts])
        expect([text[0] >> 7 for text in texts], [0] * (len(texts) - 1) + [1])
        self.frames = [(p, granule) for p, granule in packets[1:] if p[:1] == b"\xff"]
        self.count = int.from_bytes(first[7:9], "big")


def ogg_order(blocks):
    """The blocks as an Ogg stream has them: comments second, and no seek table."""
    rest = [b for b in blocks[1:] if b[0] not in (SEEKTABLE, COMMENTS)]
    first = [b for b in blocks[1:] if b[0] == COMMENTS] or [(COMMENTS, bytes(8))]
    return [blocks[0], *first, *rest]


def granules(info, frames, total):
    """Granule positions of frames of one size, the last one shorter."""
    size = int.from_bytes(info[:2], "big")
    return [min((i + 1) * size, total) for i in range(len(frames))]


def judge(old, new, blocks):
    """The new Ogg stream has these blocks, and the frames of the old one."""
    expect(new.serial, old.serial)
    expect([p for p, _ in new.frames], [p for p, _ in old.frames])
    expect(new.blocks, blocks)
    expect(new.count, len(blocks) - 1)


def put(path, data, mode=None):
    with open(path, "wb") as file:
        file.write(data)
    if mode is not None:
        os.chmod(path, mode)
    return path


# ---- the streams

def by_hand(rng, info, frames, blocks, total):
    """An Ogg stream with these blocks after STREAMINFO, comments first, a page for each packet."""
    blocks = ogg_order([(0, info), *blocks])[1:]
    texts = [bytes([kind | (128 if i == len(blocks) - 1 else 0)]) + len(body).to_bytes(3, "big") + body for i, (kind, body) in enumerate(blocks)]
    serial = rng.randrange(2**32)
    marks = granules(info, frames, total)
    made = [page(0, mapping(info, len(blocks)), flags=2, serial=serial)]
    for text in texts:
        made += paged(text, len(made), serial)
    for i, (frame, granule) in enumerate(zip(frames, marks)):
        made += paged(frame, len(made), serial, granule=granule, last=i == len(frames) - 1)
    return b"".join(made)


def paged(packet, number, serial, granule=0, last=False):
    """The pages of a packet: as many as it needs, of 255 segments each but the last."""
    made, at, most = [], 0, 255 * 255
    while True:
        part, rest = packet[at:at + most], len(packet) - at
        ends = rest < most
        lacing = [255] * (len(part) // 255) + ([len(part) % 255] if ends else [])
        flags = (1 if at else 0) | (4 if last and ends else 0)
        made.append(page(number + len(made), part, flags=flags, serial=serial, granule=granule if ends else 2**64 - 1, lacing=lacing))
        if ends:
            return made
        at += most


# ---- cases

def decodes(path, sound, ogg):
    expect(recode.by_reference(path, ogg), sound.raw())
    if sound.bits == 16 and sound.channels <= 2:
        expect(recode.by_ffmpeg(path), sound.raw())


def copied(rng, folder, native, sound):
    """From native to Ogg and back; returns the Ogg stream's path."""
    data, serial = read(native), rng.randrange(2**32)
    out, back = os.path.join(folder, "copy.oga"), os.path.join(folder, "back.flac")
    for path in (out, back):
        if os.path.exists(path):
            os.remove(path)
    expect(call("recode", "--copy", "--ogg", "--serial", str(serial), native, out), (0, b"", b""))
    new = Ogg(read(out))
    blocks, frames = tag.blocks_of(data)
    expect(new.serial, serial)
    expect(new.blocks, ogg_order(blocks))
    expect(b"".join(p for p, _ in new.frames), frames)
    expect([g for _, g in new.frames if g is not None], granules(blocks[0][1], new.frames, len(sound.rows)))
    expect(call("same", native, out), (0, b"", b""))
    decodes(out, sound, True)
    expect(call("recode", "--copy", out, back), (0, b"", b""))
    expect(read(back), tag.stream_of(ogg_order(blocks), frames))
    decodes(back, sound, False)
    return out


def tagged(rng, folder, path, sound):
    words = tag.words_of(rng)
    given = tag.given(words, os.path.join(folder, "lines"))
    data, old = read(path), Ogg(read(path))
    vendor, comments = tag.comments_in(old.blocks[1][1])
    due = tag.edited(comments, words)
    mode = rng.choice([0o600, 0o644, 0o640])
    os.chmod(path, mode)
    if due == comments:
        expect(call("tag", "-v", *given, path), (0, f"{path}: same\n".encode(), b""))
        expect(read(path), data)
        return
    expect(call("tag", "--in-place", *given, path), (1, b"", f"flac: {path}: 54 NoRoom\n".encode()))
    expect(read(path), data)
    expect(call("tag", "-v", *given, path), (0, f"{path}: rewritten\n".encode(), b""))
    new = Ogg(read(path))
    judge(old, new, [old.blocks[0], (COMMENTS, tag.content_of(vendor, due)), *old.blocks[2:]])
    expect(os.stat(path).st_mode & 0o777, mode)
    decodes(path, sound, True)
    by_mutagen(path, due)


def by_mutagen(path, due):
    """The comments as mutagen reads them, where all of them are what it takes."""
    import mutagen.oggflac
    if all(b"=" in c for c in due):
        try:
            texts = [c.decode() for c in due]
        except UnicodeDecodeError:
            return
        read_texts = [f"{name}={value}" for name, value in mutagen.oggflac.OggFLAC(path).tags]
        expect(sorted(t.partition("=")[0].upper() + "=" + t.partition("=")[2] for t in read_texts),
               sorted(t.partition("=")[0].upper() + "=" + t.partition("=")[2] for t in texts))


def edited(rng, folder, path, sound):
    old, data = Ogg(read(path)), read(path)
    removals = rng.sample(["picture", "padding", "application", "cuesheet", "type_99", "application:riff", "application:0x61626364"], rng.randrange(3))
    if len(old.blocks) > 2 and rng.random() < 0.3:
        removals.append(rng.randrange(1, len(old.blocks)))
    words = [word for r in removals for word in ("--remove-block", str(r))]
    padding = rng.choice([None, None, 0, 10, 5000])
    words += ["--padding", str(padding)] if padding is not None else []
    bodies = []
    if rng.random() < 0.5:
        image = rng.randbytes(rng.choice([10, 70000]))
        put(os.path.join(folder, "image"), image)
        words += ["--picture", f"4:image/x-some:3x5x24:{os.path.join(folder, 'image')}"]
        bodies.append(edit.picture_body(4, b"image/x-some", (3, 5, 24, 0), image))
    if rng.random() < 0.3:
        words += ["--seek-every", "0"]
    if not words:
        words = ["--padding", "7"]
        padding = 7
    after = ogg_order(edit.edited(old.blocks, removals, bodies, padding))
    before = ogg_order(old.blocks)
    status, out, err = call("edit", "-v", *words, path)
    expect((status, err), (0, b""))
    if out == f"{path}: same\n".encode():
        expect(read(path), data)
        expect(after, before)
    else:
        expect(out, f"{path}: rewritten\n".encode())
        judge(old, Ogg(read(path)), after)
        decodes(path, sound, True)


def exported(folder, path):
    """Each part is what the same command writes of the native copy."""
    native, one, two = (os.path.join(folder, name) for name in ("native.flac", "one", "two"))
    for name in (native, one, two):
        if os.path.exists(name):
            os.remove(name)
    expect(call("recode", "--copy", path, native), (0, b"", b""))
    count = len(Ogg(read(path)).blocks)
    for part in ("tags", "picture", "cuesheet", *map(str, range(count + 1))):
        first, second = call("export", path, part, one), call("export", native, part, two)
        expect((first[0], first[1], first[2].replace(path.encode(), native.encode())), second)
        if first[0] == 0:
            if part == "cuesheet":
                expect(read(one).replace(path.encode(), b""), read(two).replace(native.encode(), b""))
            else:
                expect(read(one), read(two))
    for number, (_, body) in enumerate(Ogg(read(path)).blocks):
        expect(call("export", path, str(number), "-"), (0, body, b""))


def damaged(rng, folder, path):
    """A stream that is cut off or has a changed byte is refused by each command, and stays as it is."""
    data = bytearray(read(path))
    at = rng.randrange(4, len(data))
    if rng.randrange(2):
        data = data[:at]
    else:
        data[at] ^= 1 << rng.randrange(8)
    bad, out = os.path.join(folder, "bad.oga"), os.path.join(folder, "bad.out")
    if call("test", "--any", put(bad, bytes(data)))[0] == 0:
        return 0
    for words in (["tag", "--set", "TITLE=other title of it", bad], ["tag", "--rewrite", "--clear", bad], ["edit", "--padding", "77", bad], ["recode", "--copy", bad, out]):
        if os.path.exists(out):
            os.remove(out)
        status, text, err = call(*words)
        if status != 1 or text or not err.startswith(f"flac: {bad}: ".encode()) or err.count(b"\n") != 1:
            raise Wrong(f"{words}: {status} {text} {err}")
        expect(read(bad), bytes(data))
        expect(os.path.exists(out), False)
        expect([name for name in os.listdir(folder) if name.endswith(".part")], [])
    return 1


def fixed(folder, path, sound):
    """What a user types: twice, with a seek table, a folder, no rights, a full disk, standard input."""
    data = read(path)
    expect(call("edit", "--seek-every", "1000", path), (1, b"", f"flac: {path}: cannot be edited: an Ogg stream has no seek table\n".encode()))
    expect(read(path), data)
    expect(call("tag", "--set", "TITLE=a", path), (0, b"", b""))
    once = read(path)
    expect(call("tag", "-v", "--set", "TITLE=a", path), (0, f"{path}: same\n".encode(), b""))
    expect(read(path), once)
    expect(call("edit", "--padding", "100", path), (0, b"", b""))
    once = read(path)
    expect(call("edit", "-v", "--padding", "100", path), (0, f"{path}: same\n".encode(), b""))
    expect(read(path), once)
    os.utime(path, (1000000000, 1000000000))
    expect(call("tag", "--keep-times", "--set", "TITLE=b", path), (0, b"", b""))
    expect(int(os.stat(path).st_mtime), 1000000000)
    expect(b"TITLE=b" in call("export", path, "tags", "-")[1].splitlines(), True)
    expect(call("recode", "--copy", path, "/dev/full"), (1, b"", b"flac: /dev/full: 39 Write\n"))
    expect(call("recode", "--copy", path, path), (1, b"", f"flac: {path}: cannot be created\n".encode()))
    expect(call("recode", "--copy", folder, os.path.join(folder, "x.flac"))[0], 1)
    other = os.path.join(folder, "other.flac")
    expect(call("recode", "--copy", path, other), (0, b"", b""))
    before = read(other)
    status, text, err = call("recode", "--copy", path, other)
    expect((status, text, err.startswith(f"flac: {other}: cannot be created".encode()), read(other)), (1, b"", True, before))
    expect(call("recode", "--copy", "--force", path, other), (0, b"", b""))
    done = subprocess.run([os.environ.get("FLAC") or "flac", "recode", "--copy", "-", "-"], stdin=open(path, "rb"), capture_output=True, check=False)
    expect((done.returncode, done.stdout, done.stderr), (0, read(other), b""))
    # several files, of both containers
    native = put(os.path.join(folder, "mixed.flac"), read(other))
    expect(call("tag", "-v", "--set", "ALBUM=c", native, path)[:2], (0, f"{native}: flipped\n{path}: rewritten\n".encode()))
    decodes(path, sound, True)


def of_ffmpeg(folder, sound):
    """An Ogg stream of FFmpeg, which has an empty packet after its last frame."""
    raw, path = put(os.path.join(folder, "f.raw"), sound.raw()), os.path.join(folder, "f.oga")
    subprocess.run(["ffmpeg", "-y", "-v", "error", "-f", "s16le", "-ar", str(sound.rate), "-ac", str(sound.channels), "-i", raw, "-c:a", "flac", "-f", "ogg", path], check=True)
    expect(call("tag", "--set", "TITLE=from ffmpeg", path), (0, b"", b""))
    expect(recode.by_ffmpeg(path), sound.raw())
    expect(call("test", path)[0], 0)
    out = os.path.join(folder, "f.flac")
    expect(call("recode", "--copy", path, out), (0, b"", b""))
    decodes(out, sound, False)


def main():
    parser = argparse.ArgumentParser()
    parser.add_argument("--quick", action="store_true")
    parser.add_argument("--seed", type=int, default=1)
    given = parser.parse_args()
    rng, started, refused, rounds = random.Random(given.seed), time.time(), 0, 4 if given.quick else 40
    with tempfile.TemporaryDirectory() as folder:
        for number in range(rounds):
            channels, bits, rate = recode.FORMATS[number % 4]
            sound = parts.made(rng, rng.choice([1, 4000, 9000]), channels, bits, rate)
            native = os.path.join(folder, "native0.flac")
            parts.by_reference(native, sound, rng.choice([1152, 4096]), rng.choice([0, 5, 8]), False)
            lists = [*recode.block_lists(rng)]
            data = recode.with_blocks(read(native), rng.choice(lists))
            path = copied(rng, folder, put(native, data), sound)
            tagged(rng, folder, path, sound)
            hand = by_hand(rng, data[8:42], [p for p, _ in Ogg(read(path)).frames], rng.choice(lists), len(sound.rows))
            mine = put(os.path.join(folder, "hand.oga"), hand)
            for one in (path, mine):
                for _ in range(3):
                    tagged(rng, folder, one, sound)
                    edited(rng, folder, one, sound)
                exported(folder, one)
                for _ in range(3):
                    refused += damaged(rng, folder, one)
        sound = parts.made(rng, 20000, 2, 16, 44100)
        path = os.path.join(folder, "reference.oga")
        parts.by_reference(path, sound, 4096, 5, True)
        tagged(rng, folder, path, sound)
        fixed(folder, path, sound)
        of_ffmpeg(folder, sound)
    print(f"ogg_edits: {rounds} rounds, {refused} refused streams, {time.time() - started:.0f} s: all as is due")


if __name__ == "__main__":
    sys.exit(main())
