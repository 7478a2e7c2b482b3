#!/usr/bin/env python3
"""What a crash can leave of a file whose comments are edited by `flac tag`, and by `metaflac --set-tag`.

usage: conformance/checks/crash.py [--quick] [--edits N] [--others N] [--seed N]

strace records each write and each sync of a file while it is edited. Then every subset of the writes since the last sync is put on a
copy of the file, also with writes that are torn or garbage: of `flac tag` a write of exactly 4 bytes in one sector of 512 is stored as
a whole or not at all, and any other leaves anything in its bytes. `flac test`, `flac list` and `metaflac --list` have to read each copy
as they read the old file, or as they read the new one. A new file must have been stored before it takes the place of the old one.

Of metaflac less is asked: a sector of 512 is stored as a whole or not at all. What it leaves is counted. FLAC names the program. Status 1
if a copy of `flac tag` is read as anything else.
"""
import argparse
import collections
import hashlib
import itertools
import os
import random
import re
import shutil
import subprocess
import sys
import tempfile

import folders  # noqa: F401  (the path of the modules below)
from program import BINARY, Wrong, expect, read
from tag import blocks_of, given, layout, stream_of, words_of

SECTOR = 512
CALLS = "openat,open,close,dup,fcntl,lseek,read,write,pwrite64,pwritev,writev,ftruncate,fsync,fdatasync,rename,renameat,renameat2,unlink,mmap"
LINE = re.compile(r"^(?:\d+ +)?(\w+)\((.*)\) += (-?\d+|\?|0x[0-9a-f]+)")


class File:
    """A file as it was stored by its last sync, and the writes since then."""

    def __init__(self, stored):
        self.stored, self.writes = stored, []


def text_of(word):
    return bytes.fromhex(word.strip().strip('"').replace("\\x", ""))


def path_of(word):
    return os.path.realpath(os.fsdecode(text_of(word)))


def events(words, path, env):
    """The status of a command, the file of this path before it, and what was done then, in order: ('write', file, at, bytes),
    ('sync', file ..), and ('rename', file ..) if that one takes its place."""
    log, first = path + ".strace", File(read(path))
    done = subprocess.run(["strace", "-f", "-xx", "-s", "67108864", "-e", "trace=" + CALLS, "-o", log, *words], capture_output=True,
                          timeout=120, env=env, check=False)
    files, opened, found = {os.path.realpath(path): first}, {}, []
    with open(log, encoding="ascii") as lines:
        for line in lines:
            match = LINE.match(line)
            if match is None or match[3].startswith("-"):
                continue
            step(match[1], [w.strip() for w in match[2].split(", ")], int(match[3], 0) if match[3] != "?" else 0, files, opened, found,
                 os.path.realpath(path))
    os.remove(log)
    return done.returncode, first, found


def step(name, words, result, files, opened, found, path):
    """One call; `opened` has for each descriptor its file and its place, which copies of the descriptor share."""
    if name in ("openat", "open"):
        where = path_of(words[1 if name == "openat" else 0])
        flags = words[2 if name == "openat" else 1]
        if where not in files and "O_CREAT" in flags:
            files[where] = File(b"")
        opened[result] = [files.get(where), 0]
        if "O_TRUNC" in flags and files.get(where) is not None:
            found.append(("write", files[where], None, b""))
    elif name == "dup" or (name == "fcntl" and words[1].startswith("F_DUPFD")):
        opened[result] = opened.get(int(words[0]))
    elif name in ("rename", "renameat", "renameat2"):
        old, new = (words[0], words[1]) if name == "rename" else (words[1], words[3])
        moved = files.pop(path_of(old), None)
        if moved is not None and path_of(new) == path:
            found.append(("rename", moved, 0, b""))
        files[path_of(new)] = moved
    elif name in ("mmap", "writev", "pwritev"):
        if name != "mmap" and opened.get(int(words[0]), [None])[0] is not None:
            raise Wrong(f"a call that is not followed: {name}")
    elif name == "unlink":
        files.pop(path_of(words[0]), None)
    else:
        move(name, words, result, opened, found)


def move(name, words, result, opened, found):
    """A call of an open file."""
    place = opened.get(int(words[0]))
    if name == "close":
        opened.pop(int(words[0]), None)
    elif place is None or place[0] is None:
        return
    elif name == "lseek":
        place[1] = result
    elif name == "read":
        place[1] += result
    elif name == "write":
        found.append(("write", place[0], place[1], text_of(words[1])[:result]))
        place[1] += result
    elif name == "pwrite64":
        found.append(("write", place[0], int(words[3]), text_of(words[1])[:result]))
    elif name == "ftruncate":
        found.append(("write", place[0], None, b"\0" * int(words[1])))
    elif name in ("fsync", "fdatasync"):
        found.append(("sync", place[0], 0, b""))


def put(data, at, part):
    """The bytes after a write; without a place the length of `part` becomes that of the file."""
    if at is None:
        return data[:len(part)] + bytes(max(0, len(part) - len(data)))
    return data[:at] + bytes(max(0, at - len(data))) + part + data[at + len(part):]


def sectors(at, part):
    """The parts of a write in each sector."""
    if at is None:
        return [(at, part)]
    cuts = [0, *range(SECTOR - at % SECTOR, len(part), SECTOR), len(part)]
    return [(at + a, part[a:b]) for a, b in zip(cuts, cuts[1:]) if a < b]


def is_word(at, part):
    return at is not None and len(part) == 4 and at % SECTOR <= SECTOR - 4


def torn(rng, at, part):
    """Ways in which a write of any length may be stored."""
    n = rng.randrange(len(part) + 1)
    a, b = sorted(rng.randrange(len(part) + 1) for _ in range(2))
    yield [(at, part[:n])]
    yield [(at + n, part[n:])]
    yield [(at, rng.randbytes(len(part)))]
    yield [(at, part[:a] + rng.randbytes(b - a) + part[b:])]
    yield [piece for piece in sectors(at, part) if rng.random() < 0.5]


def left(rng, file, harsh):
    """What a crash can leave of a file, by the writes since its last sync: every subset of them if there are few."""
    writes = file.writes
    pieces = [[w] for w in writes] if harsh else [[p] for w in writes for p in sectors(*w)]
    chosen = itertools.product((False, True), repeat=len(pieces)) if len(pieces) <= 6 else \
        [*([i < k for i in range(len(pieces))] for k in range(len(pieces) + 1)),
         *([rng.random() < 0.5 for _ in pieces] for _ in range(40))]
    for some in chosen:
        yield apply(file.stored, [p for p, kept in zip(pieces, some) if kept])
    if harsh:
        for i, (at, part) in enumerate(writes):
            if is_word(at, part) or at is None or not part:
                continue
            for way in torn(rng, at, part):
                yield apply(file.stored, [[w] for w in writes[:i] if rng.random() < 0.5 or is_word(*w)] + [way])


def apply(data, pieces):
    for piece in pieces:
        for at, part in piece:
            data = put(data, at, part)
    return data


def outcomes(rng, found, first, harsh):
    """All that a crash can leave under the path, and whether a new file took its place without having been stored."""
    named, states, early = [first], {}, False
    def collect():
        for file in named:
            for data in left(rng, file, harsh):
                states[hashlib.sha256(data).digest()] = data
    for kind, file, at, part in found:
        if kind == "write":
            file.writes.append((at, part))
        elif kind == "sync":
            collect()
            file.stored, file.writes = apply(file.stored, [[w] for w in file.writes]), []
        else:
            collect()
            early |= bool(file.writes)
            named.append(file)
    collect()
    return list(states.values()), early


class Readers:
    """What the three readers say of some bytes."""

    def __init__(self, folder):
        self.path, self.known = os.path.join(folder, "crash.flac"), {}

    def __call__(self, data):
        key = hashlib.sha256(data).digest()
        if key not in self.known:
            with open(self.path, "wb") as file:
                file.write(data)
            self.known[key] = tuple(self.call(*words) for words in ([BINARY, "test", "--lax"], [BINARY, "list", "--lax"], ["metaflac", "--list"]))
        return self.known[key]

    def call(self, *words):
        done = subprocess.run([*words, self.path], capture_output=True, timeout=60, check=False)
        return done.returncode, done.stdout, done.stderr


def edit(rng, readers, folder, words, data, harsh):
    """What became of an edit: `same`, `in place` or `new file`; how many states, and those that are read as neither."""
    path = os.path.join(folder, "edited.flac")
    with open(path, "wb") as file:
        file.write(data)
    status, first, found = events([*words, path], path, {**os.environ, "LC_ALL": "C.UTF-8"})
    expect(status, 0)
    new = read(path)
    if new == data:
        return "same", 0, []
    states, early = outcomes(rng, found, first, harsh)
    if early and harsh:
        raise Wrong("a new file takes the place of the old one before it is stored")
    due = (readers(data), readers(new))
    if harsh and not any(state == new for state in states):
        raise Wrong("the writes that were recorded do not give the new file")
    renamed = any(kind == "rename" for kind, *_ in found)
    return "new file" if renamed else "in place", len(states), [s for s in states if readers(s) not in due]


def metaflac_words(rng):
    return ["metaflac", "--no-utf8-convert", f"--set-tag=TITLE={'v' * rng.choice([1, 7, 60, 500])}"]


def main():
    parser = argparse.ArgumentParser()
    parser.add_argument("--quick", action="store_true")
    parser.add_argument("--edits", type=int)
    parser.add_argument("--others", type=int)
    parser.add_argument("--seed", type=int, default=1)
    asked = parser.parse_args()
    if shutil.which("strace") is None:
        raise SystemExit("crash: strace is not installed")
    edits, others = asked.edits if asked.edits is not None else (25 if asked.quick else 500), asked.others if asked.others is not None else (10 if asked.quick else 100)
    rng, ours, theirs = random.Random(asked.seed), collections.Counter(), collections.Counter()
    with tempfile.TemporaryDirectory() as folder:
        raw, path = os.path.join(folder, "a.raw"), os.path.join(folder, "a.flac")
        with open(raw, "wb") as file:
            file.write(rng.randbytes(4000))
        subprocess.run(["flac", "-s", "--force-raw-format", "--sign=signed", "--endian=little", "--channels=1", "--bps=16", "--sample-rate=44100",
                        "--no-padding", "--no-seektable", "-o", path, raw], check=True)
        blocks, frames = blocks_of(read(path))
        readers, data = Readers(folder), b""
        for number in range(edits):
            if number % 4 == 0:
                data = stream_of(layout(rng, blocks[0][1]), frames)
            kind, count, wrong = edit(rng, readers, folder, [BINARY, "tag", *given(words_of(rng), os.path.join(folder, "lines.txt"))], data, True)
            ours[kind] += 1
            ours["states"] += count
            if wrong:
                raise Wrong(f"edit {number}: {len(wrong)} of {count} states are read as neither the old file nor the new one")
            data = read(os.path.join(folder, "edited.flac"))
        for number in range(others):
            data = stream_of(layout(rng, blocks[0][1]), frames)
            kind, count, wrong = edit(rng, readers, folder, metaflac_words(rng), data, False)
            theirs[kind] += 1
            theirs[kind, "states"] += count
            theirs[kind, "wrong"] += len(wrong)
            theirs[kind, "edits"] += bool(wrong)
    print(f"crash: flac tag: {edits} edits, {ours['in place']} in place, {ours['new file']} as new files, {ours['same']} that change nothing:"
          f" each of {ours['states']} states is read as the old file or as the new one")
    for kind in ("in place", "new file"):
        print(f"crash: metaflac: {theirs[kind]} edits, {kind}: {theirs[kind, 'wrong']} of {theirs[kind, 'states']} states, of {theirs[kind, 'edits']}"
              " edits, are read as neither")


if __name__ == "__main__":
    try:
        main()
    except Wrong as wrong:
        print(f"crash: {wrong}")
        sys.exit(1)
