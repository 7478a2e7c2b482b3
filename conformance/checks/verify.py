#!/usr/bin/env python3
"""`flac verify` over files and folders: each line, their order, the last line and the status, predicted by the model of the format.

usage: conformance/checks/verify.py [--quick]

The tree has streams of the reference encoder, some of them damaged, some without a digest or a number of samples or outside the
streamable subset, in both containers; names of all kinds; files that are no streams; links to files and folders; a pipe. A second
tree has 2,000 small files in 40 folders (with --quick 200), 1 in 20 damaged. For each the line of the report is predicted too; runs
are killed and resumed, and reports cannot be created or written. Trees are changed and compared with an older report of them: the
word of each file and the files that are gone are predicted. With `--all` streams are damaged: bits, holes, insertions, zeros, ends
that are cut off, frames that change places. What is missing of them is predicted by a search of its own: a frame is whole where the
model's reader takes it, by its CRC-8 and CRC-16, if it fits STREAMINFO. FLAC names the program. Status 1 if an answer is not the one
that is due.
"""
import functools
import json
import math
import os
import random
import shutil
import signal
import struct
import subprocess
import sys
import tempfile
import time

import folders  # noqa: F401  (the path of the modules below)
import model
import model_bits
import model_frames
import program
from program import Wrong, expect, read

SAMPLES = b"".join(struct.pack("<hh", int(8000 * math.sin(i / 20)), int(7000 * math.sin(i / 33))) for i in range(20000))
FORMAT = ["--force-raw-format", "--endian=little", "--sign=signed", "--channels=2", "--bps=16", "--sample-rate=44100"]
ENDINGS = (b".flac", b".fla", b".oga")
ODD = [" ", "\n", '"', "\\", "\x01", "\x7f", "\u00e9", "\u4e2d", "'", "$x", "\ue000", "\t", "%s", "-"]


@functools.lru_cache(maxsize=None)
def read_in(data, profile):
    """The answer of the model, and how many samples of each channel it read."""
    reader = model.reader_of(data, profile)
    return reader.result(), reader.samples


def answer_of(data, profile):
    return read_in(data, profile)[0]


def encoded(folder, *words):
    """A stream by the reference encoder."""
    path = os.path.join(folder, "made")
    run = ["flac", "-s", "-f", *FORMAT, *words, "-o", path, "-"]
    subprocess.run(run, input=SAMPLES, check=True, stderr=subprocess.DEVNULL)
    data = read(path)
    os.remove(path)
    return data


def changed(data, at, text):
    return data[:at] + text + data[at + len(text):]


def word_of(data):
    """What STREAMINFO, the first block of a native stream, does not state: its 36 bits of samples end at byte 26, its digest at 42."""
    words = b""
    at = 8 if data[:4] == b"fLaC" else data.index(b"fLaC") + 8
    if not any(data[at + 18:at + 34]):
        words += b" no-md5"
    if int.from_bytes(data[at + 10:at + 18], "big") % 2**36 == 0:
        words += b" no-total"
    return words


def shown(path):
    """A path as the lines have it: control characters of ASCII and backslashes as \\x and two digits."""
    return b"".join(b"\\x%02x" % byte if byte < 32 or byte in b"\x7f\\" else bytes([byte]) for byte in path)


def line_of(path, data, subset, again=True, tagged=False):
    """The line of a file on standard output and on standard error; its bytes are those between tags, if it is tagged."""
    path = shown(path)
    if data is None:
        return b"", b"flac: " + path + b": cannot be opened\n"
    narrow, wide = (answer_of(bytes(data), profile) for profile in (model.SUBSET, model.LAX))
    answer = narrow if subset else wide
    if not answer.startswith("frames"):
        return b"", b"flac: " + path + b": " + answer.encode() + b"\n"
    words = word_of(data)
    if not subset and again and not narrow.startswith("frames"):
        words += b" outside-subset"
    if again and tagged:
        words += b" id3"
    return b"ok " + path + b": " + answer.encode() + words + b"\n", b""


def escaped(path):
    """The bytes of a path as a text of JSON: control characters, quotation marks and backslashes as \\u00 and two digits."""
    return b"".join(b"\\u00%02x" % byte if byte < 32 or byte in b'"\\' else bytes([byte]) for byte in path)


def members_of(path, data, subset, again):
    """The members of the line of a file in the report, but its path: names and values in order."""
    try:
        found = os.stat(path)
        stamp = [("bytes", found.st_size), ("modified", found.st_mtime_ns // 10**9), ("nanoseconds", found.st_mtime_ns % 10**9)]
    except OSError:
        stamp = []
    if data is None:
        return [("status", "unopened")]
    if not os.path.isfile(path):
        stamp = []
    narrow = answer_of(bytes(data), model.SUBSET)
    answer, whole = read_in(bytes(data), model.SUBSET if subset else model.LAX)
    if not answer.startswith("frames"):
        place, reason = answer.rsplit(": ", 1)
        kind, _, index = place.partition(" ")
        number, name = reason.split(" ")
        return [("status", "bad"), *stamp, ("place", kind), *([("index", int(index))] if index else []), ("error", int(number)), ("name", name), ("sample", whole)]
    at = 8 if data[:4] == b"fLaC" else data.index(b"fLaC") + 8
    bits = int.from_bytes(data[at + 10:at + 18], "big")
    digest = data[at + 18:at + 34]
    frames, samples = (int(word) for word in answer.split()[1::2])
    rest = [("rate", bits >> 44), ("channels", (bits >> 41) % 8 + 1), ("depth", (bits >> 36) % 32 + 1), ("frames", frames), ("samples", samples)]
    rest += [("md5", digest.hex())] if any(digest) else []
    rest.append(("md5_checked", any(digest)))
    if subset or again:
        rest.append(("subset", narrow.startswith("frames")))
    if again:
        rest.append(("id3", False))  # no file of the trees has tags of other programs; any.py has such files
    return [("status", "ok"), ("container", "ogg" if data[:1] == b"O" else "native"), *stamp, *rest]


def entry_of(path, data, subset=False, again=True):
    """The line of a file in the report."""
    members = b"".join(b"," + json.dumps(name).encode() + b":" + json.dumps(value).encode() for name, value in members_of(path, data, subset, again))
    line = b'{"path":"' + escaped(path) + b'"' + members + b"}\n"
    expect(json.loads(line)["path"].encode(), path)  # another reader of JSON reads it so
    return line


def report_of(files, subset=False):
    return b"".join(entry_of(path, data, subset) for path, data in files)


OTHERS = b"\1vorbis", b"OpusHead", b"Speex   ", b"\x80theora", b"fishead\0", b"PCM     "
"""With what the first packet of another stream in Ogg begins."""


def is_chosen(name, data):
    name = name.lower()
    if name.endswith((b".ogg", b".oga")):
        return data is None or len(data) < 27 or data[:4] != b"OggS" or not data[27 + data[26]:].startswith(OTHERS)
    return name.endswith(ENDINGS)


def walk(folder):
    """The files of a folder that are due, in the order of the bytes of the names: the path and the bytes."""
    for name in sorted(os.listdir(folder)):
        path = os.path.join(folder, name)
        if os.path.isdir(path):
            if not os.path.islink(path):
                yield from walk(path)
            continue
        data = read(path) if os.path.isfile(path) else None
        if is_chosen(name, data):
            yield path, data


def due_of(files, subset=False, tagged=()):
    """The status and the texts that are due for these files, of which those at the paths `tagged` are between tags."""
    lines = [line_of(path, data, subset, True, path in tagged) for path, data in files]
    out, err = b"".join(line[0] for line in lines), b"".join(line[1] for line in lines)
    good = sum(bool(line[0]) for line in lines)
    out += b"verified %d ok %d bad %d\n" % (len(lines), good, len(lines) - good)
    return (0 if good == len(lines) else 1), out, err


def make_tree(folder):
    native = encoded(folder)
    ogg = encoded(folder, "--ogg")
    lax = encoded(folder, "--lax", "-b", "20000")
    music = os.path.join(folder, "music")
    for name in ("one", "two/deep/deeper", "three"):
        os.makedirs(os.path.join(music, name))
    files = {
        "one/01.flac": native, "one/02 no md5.flac": changed(native, 26, bytes(16)),
        "one/03 no total.FLAC": changed(native, 21, bytes([native[21] & 0xF0]) + bytes(4)),
        "one/04.fla": native[:len(native) // 2], "one/05.Oga": ogg, "one/06.ogg": ogg, "one/07.ogg": b"OggS" + bytes(60),
        "one/06 vorbis.ogg": b"OggS" + bytes(22) + b"\1\x1e\1vorbis" + bytes(60), "one/06 opus.oga": b"OggS" + bytes(22) + b"\1\x13OpusHead" + bytes(60),
        "one/06 zeros.ogg": bytes(100), "one/06 empty.oga": b"", "one/06 native.ogg": native,
        "one/08.txt": native, "one/09": native, "one/10.flac": b"", "one/11.flac": changed(native, len(native) - 3000, b"\0\0\0\0\0\0"),
        "one/12\nline end.flac": native, "one/12\nok b.flac: frames 1 samples 1\x1b[2J\x7f\\.flac": native, "one/13.flac": lax, "one/.hidden.flac": native, "one/\u00e9.flac": native,
        "two/deep/deeper/x.flac": changed(native, 26, bytes(range(16))), "two/deep.flac": native, "z.flac": ogg[:300],
    }
    for name, data in files.items():
        with open(os.path.join(music, name), "wb") as file:
            file.write(data)
    os.symlink("01.flac", os.path.join(music, "one/14 link.flac"))
    os.symlink("nowhere", os.path.join(music, "one/15 link to nothing.flac"))
    os.symlink("..", os.path.join(music, "one/16 loop"))
    os.symlink("../two", os.path.join(music, "one/17 folder.flac"))
    os.mkfifo(os.path.join(music, "one/18 pipe.flac"))
    return music.encode()


def compare(words, due):
    found = subprocess.run([program.PROGRAM, "verify", *words], stdout=subprocess.PIPE, stderr=subprocess.PIPE, stdin=subprocess.DEVNULL,
                           timeout=600, check=False)
    expect((found.returncode, found.stdout, found.stderr), due)


def compare_report(folder, words, files, due, subset=False):
    """The same with a report."""
    report = os.path.join(folder, "report.jsonl")
    compare(["--report", report, *words], due)
    expect(read(report), report_of(files, subset))
    os.remove(report)


def make_many(folder, count, seed):
    """A tree of many small files in 40 folders, 1 in 20 of them damaged."""
    chance = random.Random(seed)
    short = [encoded_short(folder, samples, words) for samples in (1, 700, 5000) for words in ([], ["--ogg"], ["-0"], ["--lax", "-b", "17000"])]
    many = os.path.join(folder, "many")
    places = []
    for number in range(40):
        name = f"{number:02d}{chance.choice(ODD)}{'/deep' if number % 5 == 0 else ''}"
        places.append(os.path.join(many, name))
        os.makedirs(places[-1])
    for number in range(count):
        data = bytearray(chance.choice(short))
        if number % 20 == 0:
            at = chance.randrange(len(data))
            data = data[:at] if chance.random() < 0.5 else data[:at] + bytes([data[at] ^ 1 << chance.randrange(8)]) + data[at + 1:]
        name = f"{number:04d}{chance.choice(ODD)}" + chance.choice([".flac", ".FLAC", ".fla", ".oga"])
        with open(os.path.join(chance.choice(places), name), "wb") as file:
            file.write(data)
    for number, place in enumerate(places):
        if number % 8 == 0:
            os.symlink("nowhere", os.path.join(place, "zz nothing.flac"))
        if number % 8 == 1:
            os.symlink("..", os.path.join(place, "zz loop.flac"))
        if number % 8 == 2:
            os.mkfifo(os.path.join(place, "zz pipe.oga"))
    return many.encode()


def encoded_short(folder, samples, words):
    """A stream of so few samples by the reference encoder."""
    path = os.path.join(folder, "made")
    run = ["flac", "-s", "-f", *FORMAT, *words, "-o", path, "-"]
    subprocess.run(run, input=SAMPLES[:4 * samples], check=True, stderr=subprocess.DEVNULL)
    data = read(path)
    os.remove(path)
    return data


def check_many(folder, count):
    many = make_many(folder, count, 5)
    files = list(walk(many))
    compare_report(folder, [many], files, due_of(files))
    compare_report(folder, ["--subset", many], files, due_of(files, True), True)


def check_resumed(folder, count):
    """Runs that are killed after some lines, and resumed: the report has each file once, the good ones of before first. Then over other folders."""
    again = os.path.join(folder, "again")
    os.makedirs(again)
    many = make_many(again, count, 6)
    files = list(walk(many))
    lines = {path: entry_of(path, data) for path, data in files}
    whole = report_of(files)
    report = os.path.join(folder, "resumed.jsonl")
    for part in (0, 1, count // 3, count // 2):
        if os.path.exists(report):
            os.remove(report)
        run = subprocess.Popen([program.PROGRAM, "verify", "--report", report, many], stdout=subprocess.DEVNULL, stderr=subprocess.DEVNULL)
        while run.poll() is None and (not os.path.exists(report) or read(report).count(b"\n") < part):
            time.sleep(0.0005)
        run.send_signal(signal.SIGKILL)
        run.wait()
        begun = read(report) if os.path.exists(report) else b""
        expect(whole.startswith(begun), True)
        cut = begun + whole[len(begun):len(begun) + 40]  # as if the last line was cut
        with open(report, "wb") as file:
            file.write(cut)
        kept = [line for line in cut.splitlines(True) if line.endswith(b"\n") and is_good(line)]
        rest = [(path, data) for path, data in files if lines[path] not in kept]
        compare(["--resume", report, many], due_of(rest))
        expect(read(report), b"".join(kept) + report_of(rest))
        expect(sorted(read(report).splitlines(True)), sorted(whole.splitlines(True)))
        bad = [(path, data) for path, data in files if not is_good(lines[path])]
        compare(["--resume", report, many], due_of(bad))
        check_resumed_in_part(report, many, files, lines)


def check_resumed_in_part(report, many, files, lines):
    """A report of all is resumed over a part of the folders, and over none: each file has its line still, once."""
    empty = os.path.join(many, b"zz empty")
    os.makedirs(empty, exist_ok=True)
    compare(["--resume", report, empty], due_of([]))
    expect(sorted(read(report).splitlines(True)), sorted(lines.values()))
    before = read(report).splitlines(True)
    for number in (0, 7, 20):
        place = os.path.join(many, sorted(os.listdir(many))[number])
        met = [(path, data) for path, data in files if path.startswith(place + b"/") and not is_good(lines[path])]
        compare(["--resume", report, place], due_of(met))
        again = [lines[path] for path, _ in met]
        before = [line for line in before if line not in again] + again
        expect(read(report), b"".join(before))
    # a run that is killed takes no line away
    run = subprocess.Popen([program.PROGRAM, "verify", "--resume", report, many], stdout=subprocess.DEVNULL, stderr=subprocess.DEVNULL)
    while run.poll() is None and read(report).count(b"\n") == len(before):
        time.sleep(0.0005)
    run.send_signal(signal.SIGKILL)
    run.wait()
    expect(set(lines.values()) - set(read(report).splitlines(True)), set())
    compare(["--resume", report, many], due_of([(path, data) for path, data in files if not is_good(lines[path])]))
    before = read(report).splitlines(True)
    expect(sorted(before), sorted(lines.values()))
    # a file that comes twice has one line
    path, data = next(it for it in files if it[1] is not None and not is_good(lines[it[0]]))
    compare(["--resume", report, path, path], due_of([(path, data)] * 2))
    expect(read(report), b"".join([line for line in before if line != lines[path]] + [lines[path]]))


def is_good(line):
    """Whether a line of a report has its file as good."""
    return b'","status":"ok",' in line


def word_of_change(old, path, data):
    """The word of a file after its line: `old` is what the line of an older report says of it, None if there is no line."""
    now = dict(members_of(path, data, False, True))
    if old is None:
        return b" new"
    was, still = old["status"] == "ok", now["status"] == "ok"
    if was != still:
        return b" worse" if was else b" better"
    if not was:
        return b" same"
    if any(old.get(name) != now.get(name) for name in ("md5", "samples", "rate", "channels", "depth")):
        return b" audio"
    return b" same" if all(old.get(name) == now.get(name) for name in ("bytes", "modified", "nanoseconds")) else b" tags"


def due_against(files, report):
    """The status and the texts that are due for these files, compared with a report."""
    lines = [json.loads(line) for line in report.splitlines()]
    older = {line["path"].encode(): line for line in lines}
    status, out, err = 0, b"", b""
    for path, data in files:
        word = word_of_change(older.get(path), path, data)
        good, bad = line_of(path, data, False)
        out += good and good[:-1] + word + b"\n"
        err += bad and bad[:-1] + word + b"\n"
        status |= not good or word in (b" audio", b" worse")
    count = sum(bool(line_of(path, data, False)[0]) for path, data in files)
    out += b"verified %d ok %d bad %d\n" % (len(files), count, len(files) - count)
    gone = sorted(older.keys() - {path for path, _ in files})
    return int(status or bool(gone)), out, err + b"".join(b"gone " + shown(path) + b"\n" for path in gone)


def change_tree(folder, many, chance):
    """Changes some of the files of a tree: tags, time, container, audio, damage; some go and some come."""
    short = [encoded_short(folder, samples, words) for samples in (1, 700, 5000) for words in ([], ["--ogg"], ["-0"])]
    files = [path for path, data in walk(many) if data is not None and not os.path.islink(path)]
    for path in files:
        deed = chance.randrange(12)
        data = read(path)
        if deed == 0:
            os.remove(path)
        elif deed == 1:
            with open(path, "wb") as file:
                file.write(chance.choice(short))
        elif deed == 2:
            os.utime(path, ns=(10**18, chance.randrange(2 * 10**18)))
        elif deed == 3 and data[:4] == b"fLaC":
            subprocess.run(["metaflac", "--set-tag=TITLE=new", os.path.join(b".", path)], check=False, stderr=subprocess.DEVNULL)
        elif deed == 4 and len(data) > 60:
            at = chance.randrange(len(data))
            with open(path, "wb") as file:
                file.write(data[:at] + bytes([data[at] ^ 1 << chance.randrange(8)]) + data[at + 1:])
        elif deed == 5 and data[:4] == b"fLaC":
            with open(path, "wb") as file:
                file.write(changed(data, 26, bytes(16)))
        elif deed == 6:
            with open(path + b" new.flac", "wb") as file:
                file.write(chance.choice(short))


def check_against(folder, count):
    """A tree is compared with a report of it, changed, and compared again; then with a report of what it became."""
    place = os.path.join(folder, "changes")
    os.makedirs(place)
    many = make_many(place, count, 8)
    chance = random.Random(9)
    old, new = (os.path.join(place, name) for name in ("old.jsonl", "new.jsonl"))
    files = list(walk(many))
    compare(["--report", old, many], due_of(files))
    compare(["--against", old, many], due_against(files, read(old)))
    change_tree(folder, many, chance)
    files = list(walk(many))
    due = due_against(files, read(old))
    expect(all(word in due[1] + due[2] for word in (b" same\n", b" tags\n", b" audio\n", b" new\n", b" better\n", b" worse\n", b"\ngone ")), True)
    compare(["--against", old, "--report", new, many], due)
    expect(read(new), report_of(files))
    # (who names a pipe waits for its other end)
    part = [it for it in files if it[1] is not None][: count // 2]
    compare(["--against", new, *(path for path, _ in part)], due_against(part, read(new)))
    compare(["--against", os.devnull, *(path for path, _ in part)], due_against(part, b""))
    # lines of a path that come again: the last one counts
    with open(new, "ab") as file:
        file.write(read(old))
    compare(["--against", new, many], due_against(files, read(new)))


def check_bad_against(folder, good):
    """Older reports that are none: nothing is verified, and no report is begun."""
    nowhere = os.path.join(folder.encode(), b"nowhere.jsonl")
    report = os.path.join(folder.encode(), b"never.jsonl")
    compare(["--against", nowhere, "--report", report, good], (1, b"", b"flac: " + nowhere + b": cannot be opened\n"))
    compare(["--against", folder, good], (1, b"", b"flac: " + folder.encode() + b": cannot be opened\n"))
    compare(["--against", good, good], (1, b"", b"flac: " + good + b": line 1: cannot be read\n"))
    compare(["--against", "/dev/zero", good], (1, b"", b"flac: /dev/zero: line 1: cannot be read\n"))
    line = entry_of(good, read(good))
    texts = [(b"notes\n", 1), (b"\n", 1), (line + b"notes\n", 2), (line + b"\n", 2), (line + line[:-1], 2), (line + line[:30], 2), (b'{"path":"a"}\n', 1),
             (b'{"path":"a","status":"fine"}\n', 1), (b'{"path":"a","status":"ok"}\n', 1), (b'{"path":"\\q","status":"bad"}\n', 1)]
    for text, number in texts:
        old = os.path.join(folder.encode(), b"bad.jsonl")
        with open(old, "wb") as file:
            file.write(text)
        compare(["--against", old, "--report", report, good], (1, b"", b"flac: " + old + b": line %d: cannot be read\n" % number))
        expect(read(old), text)
    expect(os.path.exists(report), False)
    compare(["--against", old, "--resume", report, good], (2, b"", b"flac: command: --against with --resume\n"))
    expect(os.path.exists(report), False)


def check_parallel(folder, count):
    """Many files on four processors by GNU parallel, as in docs/using.md: the reports, joined, are that of all files."""
    if not shutil.which("parallel"):
        print("verify: no GNU parallel: not tried")
        return
    place = os.path.join(folder, "parts")
    os.makedirs(place)
    many = make_many(place, count, 7)
    files = [(path, data) for path, data in walk(many) if os.path.isfile(path)]
    names = b"".join(path + b"\0" for path, _ in files)
    run = subprocess.run(["parallel", "-0", "-j", "4", "-n", "100", program.PROGRAM, "verify", "--report", "part{#}.jsonl", "{}"], input=names, cwd=place,
                         stdout=subprocess.DEVNULL, stderr=subprocess.DEVNULL, timeout=3600, check=False)
    lines = b"".join(read(os.path.join(place, name)) for name in os.listdir(place) if name.endswith(".jsonl")).splitlines(True)
    expect(sorted(lines), sorted(report_of(files).splitlines(True)))
    expect(run.returncode > 0, True)


def check_held_reports(folder, good):
    """While a verification writes a report, another one with that report is refused."""
    for word in ("--report", "--resume"):
        report = os.path.join(folder, "held.jsonl").encode()
        called = [program.PROGRAM, "verify", word, report, "-"]
        with subprocess.Popen(called, stdin=subprocess.PIPE, stdout=subprocess.PIPE, stderr=subprocess.PIPE) as first:
            ends = time.time() + 20
            while not os.path.exists(report) and time.time() < ends:
                time.sleep(0.01)
            time.sleep(0.1)
            compare(["--report", report, good], (1, b"", b"flac: " + report + b": cannot be created\n"))
            compare(["--resume", report, good], (1, b"", b"flac: " + report + b": cannot be resumed\n"))
            out, err = first.communicate(read(good), 60)
            expect((first.returncode, out, err), due_of([(b"-", read(good))]))
        expect(read(report).count(b"\n"), 1)
        os.remove(report)


def check_unlooked(folder, good):
    """A folder whose files and folders cannot be looked at: each has a line."""
    if os.getuid() != 0:
        print("verify: not root: no other user is asked")
        return
    with tempfile.TemporaryDirectory(prefix="flac-unlooked-") as place:
        os.chmod(place, 0o755)
        music = os.path.join(place.encode(), b"music")
        for name in (b"one", b"two"):
            os.makedirs(os.path.join(music, name))
            shutil.copy(good, os.path.join(music, name, b"a.flac"))
        shutil.copy(good, os.path.join(music, b"b.flac"))
        os.chmod(music, 0o644)
        due = due_of([(os.path.join(music, name), None) for name in (b"b.flac", b"one", b"two")])
        found = subprocess.run([program.PROGRAM, "verify", music], capture_output=True, timeout=60, check=False, user=65534, group=65534, extra_groups=[])
        expect((found.returncode, found.stdout, found.stderr), due)


def check_unshortened(good):
    """A resumed report in a folder without rights, which cannot be replaced: it keeps all lines, until it can be."""
    if os.getuid() != 0:
        print("verify: not root: no other user is asked")
        return
    with tempfile.TemporaryDirectory(prefix="flac-unshortened-") as place:
        os.chmod(place, 0o755)
        bad, report = (os.path.join(place.encode(), name) for name in (b"bad.flac", b"r.jsonl"))
        data = read(good)[:500]
        for path, text in ((bad, data), (report, b"")):
            with open(path, "wb") as file:
                file.write(text)
            os.chmod(path, 0o666)
        line, due = entry_of(bad, data), due_of([(bad, data)])
        compare(["--resume", report, bad], due)
        expect(read(report), line)
        found = subprocess.run([program.PROGRAM, "verify", "--resume", report, bad], capture_output=True, timeout=60, check=False, user=65534, group=65534, extra_groups=[])
        expect((found.returncode, found.stdout, found.stderr), (1, due[1], due[2] + b"flac: " + report + b": cannot be replaced\n"))
        expect(read(report), 2 * line)
        compare(["--resume", report, bad], due)
        expect(read(report), line)


def check_failing_reports(folder, good):
    """Reports that cannot be created or written, and files that are no report."""
    files = [(good, read(good))]
    status, out, err = due_of(files)
    compare(["--report", "/dev/full", good], (1, out, err + b"flac: /dev/full: 39 Write\n"))
    compare(["--report", "/dev/null", good], (status, out, err))
    compare(["--resume", "/dev/full", good], (1, out, err + b"flac: /dev/full: 39 Write\n"))
    nowhere = os.path.join(folder.encode(), b"nowhere", b"r.jsonl")
    compare(["--report", nowhere, good], (1, b"", b"flac: " + nowhere + b": cannot be created\n"))
    compare(["--resume", nowhere, good], (1, b"", b"flac: " + nowhere + b": cannot be resumed\n"))
    compare(["--report", good, good], (1, b"", b"flac: " + good + b": cannot be created\n"))
    for text in (read(good), b"notes\n", b"notes", b'{"path":"a","status":"ok"}\nnotes\n', b'{"path":"a"}\n', b"\n"):
        notes = os.path.join(folder.encode(), b"notes")
        with open(notes, "wb") as file:
            file.write(text)
        compare(["--report", notes, good], (1, b"", b"flac: " + notes + b": cannot be created\n"))
        compare(["--resume", notes, good], (1, b"", b"flac: " + notes + b": cannot be resumed\n"))
        expect(read(notes), text)
    compare(["--report", notes, "--resume", notes, good], (2, b"", b"flac: command: --report with --resume\n"))
    run = subprocess.run(["sh", "-c", '"$0" verify --report r.jsonl "$1" | true', program.PROGRAM, good], cwd=folder, stderr=subprocess.PIPE,
                         check=False)
    expect(run.stderr in (b"", b"flac: standard output: 39 Write\n"), True)
    expect(read(os.path.join(folder, "r.jsonl")), report_of(files))


def check_standard_input(folder, good):
    data = read(good)
    report = os.path.join(folder, "standard.jsonl")
    found = subprocess.run([program.PROGRAM, "verify", "--report", report, "-"], input=data, capture_output=True, timeout=600, check=False)
    line = line_of(b"-", data, False, False)
    expect((found.returncode, found.stdout, found.stderr), (0, line[0] + b"verified 1 ok 1 bad 0\n", b""))
    expect(read(report), entry_of(b"-", data, False, False))


class Search(model_frames.Reader):
    """Whole frames among other bytes: each is judged by its own bytes and STREAMINFO alone."""

    def __init__(self, data, info):
        self.profile, self.info, self.bits = model.LAX, info, model_bits.Bits(data)
        self.places, self.first, self.before, self.header = [], None, None, None

    def judge(self, header):
        super().judge(header)
        self.header = header

    def at(self, place):
        """The frame that is whole at a place: where it begins and ends, its first sample and how many it has; None if there is none."""
        self.bits.place, self.first, self.before = 8 * place, None, None
        try:
            self.frame()
        except model.Fault:
            return None
        size, number = self.header["size"], self.header["number"]
        return place, self.bits.place >> 3, number if self.header["variable"] else number * self.info["greatest_block"], size

    def frames(self, place):
        """All of them from a place on."""
        data, found = self.bits.data, []
        while (place := data.find(b"\xff", place)) >= 0:
            frame = self.at(place) if data[place + 1:place + 2] in (b"\xf8", b"\xf9") else None
            if frame:
                found.append(frame)
            place = frame[1] if frame else place + 1
        return found


def best_chain(frames, limit):
    """Those whose samples rise up to the limit, as many samples as can be; of two such chains the one with the earlier frame."""
    most = [0] * (len(frames) + 1)

    def after(index, sample):
        return max((most[i] for i in range(index, len(frames)) if frames[i][2] >= sample), default=0)

    for index in reversed(range(len(frames))):
        _, _, first, size = frames[index]
        most[index] = size + after(index + 1, first + size) if first + size <= limit else 0
    chain, sample = [], 0
    for index, frame in enumerate(frames):
        if most[index] and frame[2] >= sample and most[index] >= after(index + 1, sample):
            chain.append(frame)
            sample = frame[2] + frame[3]
    return chain


def time_of(sample, rate):
    return b"%d:%02d.%03d" % (sample // rate // 60, sample // rate % 60, sample % rate * 1000 // rate)


def gap_line(start, end, first, following, rate):
    """The line of bytes that are of no frame, and of samples that no frame has."""
    where = b"bytes %d to %d" % (start, end - 1) if start < end else b"byte %d" % start
    if first < following:
        times = (time_of(first, rate), time_of(following - 1, rate))
        return where + b": samples %d to %d missing, %s to %s" % (first, following - 1, *times)
    return where + b": no frame, no sample is missing" if start < end else b""


def missing_lines(path, data):
    """What `--all` says of a file that is refused: lines about its stream, or one that there are none."""
    begin = b"flac: " + shown(path) + b": "
    try:
        blocks = model.Metadata(data)
    except model.Fault:
        return begin + b"what is missing cannot be listed\n"
    info, at, first, lines = blocks.blocks[0][2], blocks.bits.place >> 3, 0, []
    found = Search(data, info).frames(at)
    kept = best_chain(found, info["total"] or 2**64 - 1)
    for start, end, number, size in kept:
        lines.append(gap_line(at, start, first, number, info["rate"]))
        at, first = end, number + size
    lines.append(gap_line(at, len(data), first, info["total"] or first, info["rate"]))
    lines += [b"frame at byte %d: out of order, %d samples from %d" % (it[0], it[3], it[2]) for it in found if it not in kept]
    lines = [line for line in lines if line]
    if lines:
        total = b" of %d" % info["total"] if info["total"] else b""
        lines.append(b"found %d%s samples in %d frames" % (sum(it[3] for it in kept), total, len(kept)))
    return b"".join(begin + line + b"\n" for line in lines)


def due_of_all(files):
    """The status and the texts that are due with `--all`; a file is its path, its bytes, and those between tags."""
    status, out, _ = due_of([(path, inner) for path, _, inner in files], False, {path for path, data, inner in files if data != inner})
    err = b""
    for path, _, inner in files:
        line = line_of(path, inner, False)[1]
        err += line + (missing_lines(path, inner) if line and inner is not None else b"")
    return status, out, err


def damaged_copies(data, front, frames, chance, count):
    """Copies of a stream, each with damage of one kind after its metadata: the kind and the bytes."""
    def place():
        return chance.randrange(front, len(data))

    for number in range(count):
        kind = ("bits", "holes", "insertions", "zeros", "cut", "swapped", "twice", "another", "blocks")[number % 9]
        copy = bytearray(data)
        if kind == "bits":
            for _ in range(chance.randrange(1, 8)):
                copy[place()] ^= 1 << chance.randrange(8)
        elif kind == "holes":
            for _ in range(chance.randrange(1, 4)):
                at = chance.randrange(front, len(copy))
                del copy[at:at + chance.randrange(1, 3000)]
        elif kind == "insertions":
            at = place()
            copy[at:at] = chance.randbytes(chance.randrange(1, 2000))
        elif kind == "zeros":
            at = place()
            length = min(chance.randrange(1, 3000), len(copy) - at)
            copy[at:at + length] = bytes(length)
        elif kind == "cut":
            del copy[place():]
        elif kind == "swapped":
            one, other = sorted(chance.sample(range(len(frames)), 2))
            (a, b), (c, d) = frames[one][:2], frames[other][:2]
            copy = bytearray(data[:a] + data[c:d] + data[b:c] + data[a:b] + data[d:])
        elif kind == "twice":
            a, b = chance.choice(frames)[:2]
            copy[a:a] = data[a:b]
        elif kind == "another":
            a, b = chance.choice(frames)[:2]
            c, d = chance.choice(frames)[:2]
            copy[a:b] = data[c:d]
        else:
            copy[chance.randrange(front)] ^= 1 << chance.randrange(8)
        yield kind, bytes(copy)


def check_all(folder, count):
    """What is missing of damaged streams: of many files at once, in order, some of them good or between tags."""
    place = os.path.join(folder, "damaged").encode()
    os.makedirs(place)
    chance, files = random.Random(11), []
    id3, tag = b"ID3\4\0\0\0\0\1\0" + bytes(128), b"TAG" + bytes(125)
    for words in (["-b", "512"], ["-b", "1024", "-8"], ["-b", "4096", "-0"]):
        data = encoded(folder, *words)
        if words[-1] == "-0":
            data = changed(data, 21, bytes([data[21] & 0xF0]) + bytes(4))  # no total
        head = model.Metadata(data)
        front = head.bits.place >> 3
        frames = Search(data, head.blocks[0][2]).frames(front)
        expect((frames[0][0], frames[-1][1]), (front, len(data)))
        copies = [("whole", data), *damaged_copies(data, front, frames, chance, count)]
        for number, (kind, copy) in enumerate(copies):
            name = os.path.join(place, f"{words[1]}{chance.choice(ODD)}{number:03d} {kind}.flac".encode())
            before, after = (id3 if number % 4 == 1 else b""), (tag if number % 3 == 0 else b"")
            files.append((name, before + copy + after, copy))
    ogg = encoded(folder, "--ogg")
    # (what is missing of damaged Ogg streams is in salvage.py)
    files += [(os.path.join(place, name), data, data) for name, data in ((b"good.oga", ogg), (b"none.flac", b""))]
    for path, data, _ in files:
        with open(path, "wb") as file:
            file.write(data)
    os.symlink("nowhere", os.path.join(place, b"unopened.flac"))
    files.append((os.path.join(place, b"unopened.flac"), None, None))
    files.sort(key=lambda it: it[0])
    due = due_of_all(files)
    expect(all(text in due[2] for text in (b": out of order, ", b"no frame, no sample", b" missing, ", b"cannot be listed", b" of 20000 samples")), True)
    compare(["--all", place], due)
    compare([place], (due[0], due[1], b"".join(line_of(path, inner, False)[1] for path, _, inner in files)))
    report = os.path.join(folder, "all.jsonl")
    compare(["--all", "--report", report, place], due)
    expect(read(report).count(b"\n"), len(files))
    chosen = chance.sample(files, min(12, len(files)))
    compare(["--all", *(path for path, _, _ in chosen)], due_of_all(chosen))
    # a pipe is read once
    path, data, inner = next(it for it in files if it[0].endswith(b"bits.flac"))
    found = subprocess.run([program.PROGRAM, "verify", "--all", "-"], input=data, capture_output=True, timeout=600, check=False)
    due = line_of(b"-", inner, False, False)[1] + b"flac: -: what is missing cannot be listed\n"
    expect((found.returncode, found.stdout, found.stderr), (1, b"verified 1 ok 0 bad 1\n", due))


def rows(folder):
    music = make_tree(folder)
    one, good, lax = (os.path.join(music, name) for name in (b"one", b"one/01.flac", b"one/13.flac"))
    yield "a folder", [music], due_of(walk(music))
    yield "a folder, the subset alone", ["--subset", music], due_of(walk(music), True)
    yield "a folder inside of it, with a slash", [one + b"/"], due_of(walk(one + b"/"))
    yield "a good file", [good], due_of([(good, read(good))])
    text = os.path.join(one, b"08.txt")
    yield "a file of another name", [text], due_of([(text, read(text))])
    yield "files in the order that is given", [lax, good, lax], due_of([(lax, read(lax)), (good, read(good)), (lax, read(lax))])
    missing = os.path.join(one, b"missing.flac")
    yield "a file that is not there", [missing, good], due_of([(missing, None), (good, read(good))])
    link = os.path.join(one, b"17 folder.flac")
    yield "a link to a folder that is named", [link], due_of(walk(link))
    empty = os.path.join(music, b"three")
    yield "an empty folder", [empty], due_of([])
    odd = os.path.join(folder.encode(), b"odd")
    os.makedirs(odd)
    shutil.copy(good, os.path.join(odd, b"a.flac"))
    shutil.copy(good, os.path.join(odd, b"b\xff.flac"))
    yield "a name that is no UTF-8", [odd], due_of([(odd, None), (os.path.join(odd, b"a.flac"), read(good))])


def tries(folder, count):
    """What is tried: a name and a call."""
    for name, words, due in rows(folder):
        yield name, lambda words=words, due=due: compare(words, due)
    music = os.path.join(folder.encode(), b"music")
    files = list(walk(music))
    good = os.path.join(music, b"one/01.flac")
    yield "the report of a tree", lambda: compare_report(folder, [music], files, due_of(files))
    yield "the report of a tree, the subset alone", lambda: compare_report(folder, ["--subset", music], files, due_of(files, True), True)
    yield "what is missing", lambda: check_all(folder, 9 if count <= 200 else 45)
    yield "many files", lambda: check_many(folder, count)
    yield "runs that are resumed", lambda: check_resumed(folder, count // 4)
    yield "files against an older report", lambda: check_against(folder, count)
    yield "older reports that are none", lambda: check_bad_against(folder, good)
    yield "many files by GNU parallel", lambda: check_parallel(folder, 5 * count)
    yield "reports that fail", lambda: check_failing_reports(folder, good)
    yield "reports that are written", lambda: check_held_reports(folder, good)
    yield "a folder that cannot be searched", lambda: check_unlooked(folder, good)
    yield "a report that cannot be replaced", lambda: check_unshortened(good)
    yield "standard input", lambda: check_standard_input(folder, good)


def main():
    wrong = count = 0
    quick = "--quick" in sys.argv[1:]
    with tempfile.TemporaryDirectory() as folder:
        for name, call in tries(folder, 200 if quick else 2000):
            count += 1
            try:
                call()
            except Wrong as fault:
                wrong += 1
                print(f"verify: {name}: {fault}")
    print(f"verify: {count} rows, {wrong} wrong")
    return 1 if wrong else 0


if __name__ == "__main__":
    sys.exit(main())
