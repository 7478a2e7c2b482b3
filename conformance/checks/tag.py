#!/usr/bin/env python3
"""Edits of comments by `flac tag`, against a model of the edits, metaflac and mutagen.

usage: conformance/checks/tag.py [--quick] [--seed N]

Layouts of blocks are made at random: padding before, after and between, pictures, seek tables, application and reserved blocks,
comments that are not UTF-8, no comments at all. What has to hold of each edit: the frames are the same bytes; all other blocks are
the same bytes in their order; the comments are those of the model; one block is marked last, the last one; the file has the same
length if it was edited in place, and was edited in place if the rule says so. FLAC names the program. Status 1 if anything is wrong.
"""
import argparse
import fcntl
import os
import random
import stat
import struct
import subprocess
import sys
import tempfile

import folders  # noqa: F401  (the path of the modules below)
from other_readers import comments_in, read_by_others
from program import PROGRAM, Wrong, expect, read

MOST = 16777215
PADDING, COMMENTS = 1, 4


def run(*words):
    """The status, standard output and standard error."""
    done = subprocess.run([PROGRAM, *words], stdout=subprocess.PIPE, stderr=subprocess.PIPE, timeout=120, check=False)
    return done.returncode, done.stdout, done.stderr


# ---- a stream as blocks and frames

def blocks_of(data):
    """The blocks, each its kind and its content, and the frames; the last block alone is marked last."""
    expect(data[:4], b"fLaC")
    at, blocks, last = 4, [], False
    while not last:
        last, kind, size = data[at] >= 128, data[at] % 128, int.from_bytes(data[at + 1:at + 4], "big")
        blocks.append((kind, data[at + 4:at + 4 + size]))
        if len(blocks[-1][1]) != size:
            raise Wrong("a block goes beyond the end")
        at += 4 + size
    return blocks, data[at:]


def stream_of(blocks, frames):
    parts = [b"fLaC"]
    for i, (kind, body) in enumerate(blocks):
        parts += [bytes([kind + 128 * (i == len(blocks) - 1)]), len(body).to_bytes(3, "big"), body]
    return b"".join(parts) + frames


def content_of(vendor, comments):
    parts = [struct.pack("<I", len(vendor)), vendor, struct.pack("<I", len(comments))]
    for comment in comments:
        parts += [struct.pack("<I", len(comment)), comment]
    return b"".join(parts)


# ---- the model of the edits, and of the rule

def is_named(name, comment):
    return comment.partition(b"=")[1] == b"=" and comment.partition(b"=")[0].upper() == name.upper()


def edited(comments, words):
    """The comments after --clear, --from, --remove, --set, --set-file, --add, in this order."""
    comments = [] if words["clear"] else list(comments)
    comments = comments if words.get("from") is None else list(words["from"])
    for word in words["remove"]:
        name, pair, value = word.partition(b"=")
        comments = [c for c in comments if not (is_named(name, c) and (not pair or c.partition(b"=")[2] == value))]
    done = []
    for new in words["set"] + words.get("set-file", []):
        name = new.partition(b"=")[0]
        if name.upper() in done:
            comments.append(new)
            continue
        done.append(name.upper())
        at = next((i for i, c in enumerate(comments) if is_named(name, c)), len(comments))
        comments = comments[:at] + [new] + [c for c in comments[at:] if not is_named(name, c)]
    return comments + words["add"]


def is_flip(blocks, size):
    """Whether comments of this size are put in place."""
    at, places = 4, []
    for kind, body in blocks:
        places.append(at)
        at += 4 + len(body)
    places.append(at)
    index = next((i for i, b in enumerate(blocks) if b[0] == COMMENTS), None)
    if index is None:
        return False
    start = index
    while start > 0 and blocks[start - 1][0] == PADDING:
        start -= 1
    end = index + 1
    while end < len(blocks) and blocks[end][0] == PADDING:
        end += 1
    before = next((i for i in range(start, index) if len(blocks[i][1]) >= size + 4), None)
    if before is not None:
        room, behind = len(blocks[before][1]), places[end] - places[before + 1]
        if behind <= MOST and places[before] % 512 <= 508 and room + behind <= size + 4 + MOST:
            return True
    after = next((i for i in range(index + 1, end) if len(blocks[i][1]) >= size + 8), None)
    return after is not None and places[after] - places[start] <= MOST and places[start] % 512 <= 508


# ---- random layouts

NAMES = [b"TITLE", b"ARTIST", b"Album", b"DATE", b"COMMENT", b"TRACKNUMBER"]


def picture(rng):
    data = rng.randbytes(rng.choice([0, 5, 300, 5000]))
    return struct.pack(">II", 3, 9) + b"image/png" + struct.pack(">I", 0) + bytes(16) + struct.pack(">I", len(data)) + data


def other_block(rng):
    kind = rng.choice([2, 3, 6, 6, 9])
    if kind == 2:
        return 2, b"test" + rng.randbytes(rng.randrange(40))
    if kind == 3:
        return 3, b"".join(struct.pack(">QQH", i * 100, i * 50, 100) for i in range(rng.randrange(4)))
    if kind == 6:
        return 6, picture(rng)
    return 9, rng.randbytes(rng.randrange(600))


def comment(rng):
    if rng.random() < 0.1:
        return b"RAW=" + bytes(rng.randrange(128, 256) for _ in range(rng.randrange(1, 30)))
    return rng.choice(NAMES) + b"=" + b"x" * rng.choice([0, 1, 3, 10, 200])


def layout(rng, info, has_greatest=False):
    """STREAMINFO and other blocks in any order; one of them, if that is asked for, as long as a block can be."""
    blocks = [other_block(rng) for _ in range(rng.choice([0, 0, 1, 2, 3]))]
    tables = [b for b in blocks if b[0] == 3]
    blocks = [b for b in blocks if b[0] != 3] + tables[:1]
    if rng.random() < 0.93:
        body = content_of(rng.choice([b"", b"reference libFLAC 1.4.2 20221022"]), [comment(rng) for _ in range(rng.randrange(6))])
        blocks.insert(rng.randrange(len(blocks) + 1), (COMMENTS, body))
    for _ in range(rng.choice([0, 0, 1, 1, 2, 3])):
        at = rng.randrange(len(blocks) + 1)
        spots = [i for i, b in enumerate(blocks) if b[0] == COMMENTS]
        if spots and rng.random() < 0.7:
            at = spots[0] + rng.randrange(2)
        blocks.insert(at, (PADDING, bytes(rng.choice([0, 3, 40, 60, 80, 120, 300, 1000, 8192]))))
    if has_greatest:
        greatest = rng.choice([(PADDING, bytes(MOST)), (2, b"test" + bytes(MOST - 4)), (9, b"x" * MOST)])
        blocks.insert(rng.randrange(len(blocks) + 1), greatest)
    return [(0, info), *blocks]


def words_of(rng):
    words = {"clear": rng.random() < 0.15, "from": None, "remove": [], "set": [], "set-file": [], "add": []}
    if rng.random() < 0.2:
        words["from"] = [comment(rng) for _ in range(rng.randrange(4))]
    for _ in range(rng.randrange(1, 4)):
        kind = rng.choice(["remove", "remove", "set", "set", "set-file", "add"])
        name = rng.choice(NAMES)
        name = name.lower() if rng.random() < 0.3 else name
        bare = kind == "remove" and rng.random() < 0.6
        value = rng.randbytes(rng.choice([0, 3, 300])) if kind == "set-file" else b"v" * rng.choice([0, 1, 7, 60, 500])
        words[kind].append(name if bare else name + b"=" + value)
    return words


def escaped(text):
    """A comment as a line: bytes outside 20 to 7E (hexadecimal) and the backslash are escaped."""
    return "".join(chr(b) if 32 <= b < 127 and b != 92 else f"\\x{b:02x}" for b in text).encode()


def given(words, lines=None):
    """The words of a command line; the lines of --from are written to the file `lines`."""
    found = ["--clear"] if words["clear"] else []
    if words["from"] is not None:
        with open(lines, "wb") as file:
            file.write(b"".join(escaped(text) + b"\n" for text in words["from"]))
        found += ["--from", lines]
    for number, word in enumerate(words.get("set-file", [])):
        name, _, value = word.partition(b"=")
        with open(f"{lines}.{number}", "wb") as file:
            file.write(value)
        found += ["--set-file", f"{name.decode()}={lines}.{number}"]
    for kind in ("add", "set", "remove"):
        for word in words[kind]:
            found += [f"--{kind}", word.decode()]
    return found


# ---- checks

def judge(old, new, words, flip, padding=8192):
    """The new bytes are those of the old ones with edited comments."""
    olds, frames = blocks_of(old)
    news, same_frames = blocks_of(new)
    if frames != same_frames:
        raise Wrong("other frames")
    spared = lambda bs: [b for b in bs if b[0] not in (PADDING, COMMENTS)]
    expect(spared(news), spared(olds))
    vendor, comments = next((comments_in(b) for k, b in olds if k == COMMENTS), (b"", []))
    expect([comments_in(b) for k, b in news if k == COMMENTS], [(vendor, edited(comments, words))])
    if flip:
        expect(len(new), len(old))
        order = lambda bs: [b for b in bs if b[0] != PADDING]
        expect([k for k, b in order(news)], [k for k, b in order(olds)])
    else:
        tail = [(PADDING, bytes(padding))] if padding else []
        expect(news[len(news) - 1 - len(tail):], [(COMMENTS, content_of(vendor, edited(comments, words))), *tail])
        expect(len([b for b in news if b[0] == PADDING]), len(tail))


def one(rng, folder, info, frames, number):
    path = os.path.join(folder, f"{number}.flac")
    old = stream_of(layout(rng, info, number % 40 == 39), frames)
    with open(path, "wb") as file:
        file.write(old)
    node = os.stat(path).st_ino
    for _ in range(rng.choice([1, 1, 3])):
        words = words_of(rng)
        blocks, _frames = blocks_of(old)
        vendor, comments = next((comments_in(b) for k, b in blocks if k == COMMENTS), (b"", []))
        due = edited(comments, words)
        lines, times = os.path.join(folder, "lines.txt"), rng.choice([[], ["--keep-times"]])
        before = os.stat(path).st_mtime_ns
        if rng.random() < 0.2:
            other = os.path.join(folder, "other.flac")
            expect(run("tag", *given(words, lines), "--out", other, path), (0, b"", b""))
            expect((read(path), os.path.exists(other + ".part")), (old, False))
            judge(old, read(other), words, False)
            expect(run("tag", *given(words, lines), "--out", "-", path), (0, read(other), b""))
            os.remove(other)
        status, out, err = run("tag", "-v", *times, *given(words, lines), path)
        new = read(path)
        if times or new == old:
            expect(os.stat(path).st_mtime_ns, before)
        expect((status, err), (0, b""))
        flip = is_flip(blocks, len(content_of(vendor, due)))
        what = "same" if due == comments else "flipped" if flip else "rewritten"
        expect(out, f"{path}: {what}\n".encode())
        if what == "same":
            expect(new, old)
        else:
            judge(old, new, words, flip)
        if what == "flipped":
            expect(os.stat(path).st_ino, node)
        node = os.stat(path).st_ino
        puts = [s.partition(b"=")[0].upper() for s in words["set"] + words["set-file"]]
        if not words["add"] and not (set(n.partition(b"=")[0].upper() for n in words["remove"]) & set(puts)) and len(puts) == len(set(puts)):
            expect(run("tag", "-v", *given(words, lines), path), (0, f"{path}: same\n".encode(), b""))
            expect(read(path), new)
        old = new
    expect(os.listdir(folder).count(f"{number}.flac.part"), 0)
    read_by_others(path, blocks_of(old)[0])
    os.remove(path)


def fixed(folder, info, frames):
    """Modes, files and words."""
    vendor = b"some vendor"
    body = content_of(vendor, [b"TITLE=a", b"x=\xff"])
    roomy = stream_of([(0, info), (COMMENTS, body), (PADDING, bytes(400))], frames)
    tight = stream_of([(0, info), (COMMENTS, body), (6, picture(random.Random(1)))], frames)
    none = {"clear": False, "from": None, "remove": [], "set": [], "add": []}

    def put(name, data, mode=0o644):
        path = os.path.join(folder, name)
        if os.path.lexists(path):
            os.remove(path)
        with open(path, "wb") as file:
            file.write(data)
        os.chmod(path, mode)
        return path

    def refused(path, text, *words):
        before = read(path) if os.path.isfile(path) else None
        expect(run("tag", *words, path), (1, b"", f"flac: {path}: {text}\n".encode()))
        if before is not None:
            expect(read(path), before)

    # modes
    path = put("tight.flac", tight)
    refused(path, "54 NoRoom", "--in-place", "--set", "TITLE=b")
    expect(run("tag", "--set", "TITLE=b", path), (0, b"", b""))
    judge(tight, read(path), {**none, "set": [b"TITLE=b"]}, False)
    for padding in (0, 1, 5000):
        path = put("padded.flac", roomy, 0o640)
        expect(run("tag", "-v", "--rewrite", "--padding", str(padding), "--set", "TITLE=b", path), (0, f"{path}: rewritten\n".encode(), b""))
        judge(roomy, read(path), {**none, "set": [b"TITLE=b"]}, False, padding)
        expect(stat.S_IMODE(os.stat(path).st_mode), 0o640)
    expect(run("tag", "--in-place", "--rewrite", "--set", "A=b", path), (2, b"", b"flac: command: --in-place with --rewrite\n"))
    other, wave, absent = os.path.join(folder, "other.flac"), put("a.wav", b"RIFF\x04\0\0\0WAVE"), os.path.join(folder, "absent")
    for words, text in ((["--in-place"], "--in-place with --out"), (["--keep-times"], "--keep-times with --out"), ([path], "--out with several files")):
        expect(run("tag", *words, "--set", "A=b", "--out", other, path), (2, b"", f"flac: command: {text}\n".encode()))
    for out in (path, wave):
        before, stream = read(out), read(path)
        status, text, err = run("tag", "--set", "A=b", "--out", out, path)
        expect((status, text, err.startswith(f"flac: {out}: cannot be created".encode()), err.count(b"\n")), (1, b"", True, 1))
        expect((read(out), read(path)), (before, stream))
    expect(run("tag", "--set-file", f"A={absent}", path), (1, b"", f"flac: {absent}: cannot be opened\n".encode()))
    expect(run("tag", "--set-file", f"A={absent}", "--out", other, path)[0], 1)
    expect(run("tag", "--set", "A=b", "--out", other, wave), (1, b"", f"flac: {wave}: marker: 4 BadMarker\n".encode()))
    expect(os.path.exists(other), False)
    path = put("long.flac", roomy)
    refused(path, "7 BlockLength", "--rewrite", "--padding", "16777216")

    # words
    for words in (["--remove", ""], ["--remove", "=b"], ["--set", "=b"], ["--add", "\x7f=b"], ["--set", "\u00e9=b"], ["--remove", "a\tb"]):
        expect(run("tag", *words, path), (2, b"", b"flac: command: 55 FieldName\n"))
    for words in (["--set", "TITLE"], ["--add", ""], ["--set-file", "TITLE"]):
        expect(run("tag", *words, path), (2, b"", b"flac: command: comment without =\n"))
    expect(read(path), roomy)
    for words in ([], ["-v"], ["--in-place"], ["--padding", "8192"]):
        expect(run("tag", *words, path), (2, b"", b"flac: command: tag needs --clear, --from, --remove, --set, --set-file, --add or --rewrite\n"))
    expect(run("tag", "--padding", "100", path), (2, b"", b"flac: command: to set the padding alone: flac edit --padding N FILE\n"))
    for words in (["TITLE=x", path], [path, "TITLE=x"], ["--in-place", "A=b/c", path]):
        expect(run("tag", *words), (2, b"", b"flac: command: to set a comment: flac tag --set NAME=VALUE FILE\n"))

    # lines
    back, lines = put("back.flac", roomy), os.path.join(folder, "back.txt")
    expect(run("export", back, "tags", lines), (0, b"", b""))
    expect(read(lines), b"TITLE=a\nx=\\xff\n")
    expect(run("tag", "-v", "--from", lines, back), (0, f"{back}: same\n".encode(), b""))
    for text, due in ((b"", []), (b"A=\xc3\xa9\nB=\\x5C\\x0a", [b"A=\xc3\xa9", b"B=\\\n"]), (b"A=1\nA=2\n", [b"A=1", b"A=2"])):
        back = put("back.flac", roomy)
        put("back.txt", text)
        expect(run("tag", "--from", lines, back), (0, b"", b""))
        judge(roomy, read(back), {**none, "from": due}, True)
        back = put("back.flac", roomy)
        done = subprocess.run([PROGRAM, "tag", "--clear", "--from", "-", "--add", "C=3", back], input=text, capture_output=True, check=False)
        expect((done.returncode, done.stdout, done.stderr), (0, b"", b""))
        judge(roomy, read(back), {**none, "from": due, "add": [b"C=3"]}, True)
    for text, number in ((b"A", 1), (b"\n", 1), (b"A=1\n\nB=2\n", 2), (b"A=1\n=2\n", 2), (b"A=1\r\n", 1), (b"A=\\", 1), (b"A=\\x4", 1), (b"A=1\nB=\\xg0", 2),
                         (b"\xc3\xa9=1", 1), (b"A=\t", 1), (b"A=1\nB=\0", 2)):
        put("back.txt", text)
        expect(run("tag", "--from", lines, path, path), (1, b"", f"flac: {lines}: line {number}: 49 CommentLine\n".encode()))
        expect(read(path), roomy)
    for wrong in (folder, os.path.join(folder, "absent")):
        expect(run("tag", "--from", wrong, path)[0], 1)
        expect(read(path), roomy)

    # several files, and files that are refused
    good, other = put("good.flac", roomy), put("other.flac", roomy)
    bad, ogg, cut = put("bad.flac", b"RIFFxxxx"), put("song.oga", b"OggS" + bytes(60)), put("cut.flac", roomy[:70])
    status, out, err = run("tag", "-v", "--set", "TITLE=new", good, bad, ogg, cut, folder, os.path.join(folder, "absent"), other)
    expect((status, out), (1, f"{good}: flipped\n{other}: flipped\n".encode()))
    lines = [f"flac: {bad}: marker: 4 BadMarker", f"flac: {ogg}: page 0: 32 PageCheck", f"flac: {cut}: block 1: 3 Truncated",
             f"flac: {folder}: cannot be opened", f"flac: {os.path.join(folder, 'absent')}: cannot be opened"]
    expect(err.decode().splitlines(), lines)
    for path, data in ((bad, b"RIFFxxxx"), (ogg, b"OggS" + bytes(60)), (cut, roomy[:70])):
        expect(read(path), data)
    for path in (good, other):
        judge(roomy, read(path), {**none, "set": [b"TITLE=new"]}, True)
    fifo = os.path.join(folder, "device")
    os.symlink("/dev/null", fifo)
    refused(fifo, "cannot be tagged: it is no regular file", "--set", "A=b")
    if os.getuid() != 0:
        locked = put("locked.flac", roomy, 0o444)
        refused(locked, "cannot be opened", "--set", "A=b")

    # a file is locked while it is edited: one that another program holds is refused, and of edits at one time none is half done
    path = put("held.flac", roomy)
    with open(path, "rb") as file:
        fcntl.flock(file, fcntl.LOCK_EX)
        refused(path, "cannot be tagged: another program edits it", "--set", "A=b")
        expect(run("edit", "--padding", "10", path), (1, b"", f"flac: {path}: cannot be edited: another program edits it\n".encode()))
    expect(run("tag", "--set", "A=b", path)[0], 0)
    for number in range(20):
        path = put("crowd.flac", roomy)
        crowd = [subprocess.Popen([PROGRAM, "tag", "--set", f"{name}={'x' * 4000}", path], stderr=subprocess.PIPE) for name in "ABC"]
        ends = [it.communicate()[1].decode() for it in crowd]
        expect({end for end in ends} <= {"", f"flac: {path}: cannot be tagged: another program edits it\n"}, True)
        names = {line.split("=")[0] for line in run("export", path, "tags", "-")[1].decode().splitlines()}
        expect({name for name, it in zip("ABC", crowd) if it.returncode == 0} <= names, True)
        expect(run("test", path)[0], 0)

    # links: an edit in place is seen by all of them, a new file takes the place of the one that was named
    path, link = put("named.flac", roomy), os.path.join(folder, "hard.flac")
    os.link(path, link)
    expect(run("tag", "--set", "TITLE=c", path)[0], 0)
    expect(read(link), read(path))
    before = read(link)
    expect(run("tag", "--rewrite", "--set", "TITLE=d", path)[0], 0)
    expect(read(link), before)
    judge(before, read(path), {**none, "set": [b"TITLE=d"]}, False)
    soft = os.path.join(folder, "soft.flac")
    os.symlink(path, soft)
    before = read(path)
    expect(run("tag", "--rewrite", "--set", "TITLE=e", soft)[0], 0)
    expect(os.path.islink(soft), True)
    judge(before, read(path), {**none, "set": [b"TITLE=e"]}, False)
    expect([n for n in os.listdir(folder) if ".part" in n], [])


def main():
    parser = argparse.ArgumentParser()
    parser.add_argument("--quick", action="store_true")
    parser.add_argument("--seed", type=int, default=1)
    asked = parser.parse_args()
    rng = random.Random(asked.seed)
    rounds = 40 if asked.quick else 1000
    with tempfile.TemporaryDirectory() as folder:
        raw, path = os.path.join(folder, "a.raw"), os.path.join(folder, "a.flac")
        with open(raw, "wb") as file:
            file.write(rng.randbytes(4000))
        subprocess.run(["flac", "-s", "--force-raw-format", "--sign=signed", "--endian=little", "--channels=1", "--bps=16", "--sample-rate=44100",
                        "--no-padding", "--no-seektable", "-o", path, raw], check=True)
        blocks, frames = blocks_of(read(path))
        fixed(folder, blocks[0][1], frames)
        for number in range(rounds):
            try:
                one(rng, folder, blocks[0][1], frames, number)
            except Wrong as wrong:
                raise Wrong(f"layout {number}: {wrong}") from None
    print(f"tag: {rounds} layouts, modes, files and words are right")


if __name__ == "__main__":
    try:
        main()
    except Wrong as wrong:
        print(f"tag: {wrong}")
        sys.exit(1)
