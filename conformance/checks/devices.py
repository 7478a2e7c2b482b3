#!/usr/bin/env python3
"""Gives each job of the program devices and files that fail by themselves: full, closed, not there, without rights, no files.

usage: conformance/checks/devices.py [--only TEXT]

What has to hold: the status and the line, that no signal ends the program, and that no file is destroyed. FLAC names the program,
JOBS how many runs at once. Status 1 if an answer is not the one that is due.
"""
import argparse
import os
import shutil
import subprocess
import sys
import tempfile
import time
from concurrent.futures import ThreadPoolExecutor

import folders  # noqa: F401  (the path of the modules below)
import program
import streams
from program import Wrong, expect, read

JOBS = int(os.environ.get("JOBS", os.cpu_count() or 1))
ENCODE = ["--rate", "44100", "--channels", "2", "--bits", "16", "--block", "16"]
LISTED = [*ENCODE, "--predictors", "LIST"]
NATIVE, OGG = streams.native().data, streams.ogg().data
RAW = b"".join((n * 401 % 65536).to_bytes(2, "little") for n in range(2 * 41))
LIST = b"# a straight line\n3 0 2 -1\n1 0 -1\n"
"""A list of linear predictors."""
READING = [("test", ["test", "IN"], NATIVE), ("test of Ogg", ["test", "IN"], OGG), ("list", ["list", "IN"], NATIVE)]
WRITING = [("decode", ["decode", "IN", "OUT"], NATIVE), ("decode of Ogg", ["decode", "IN", "OUT"], OGG),
           ("retag", ["retag", "IN", "OUT", "A=b"], NATIVE), ("encode", ["encode", "IN", "OUT", *ENCODE], RAW),
           ("encode in Ogg", ["encode", "IN", "OUT", *ENCODE, "--ogg"], RAW),
           ("encode outside the subset", ["encode", "IN", "OUT", *(word.replace("44100", "700001") for word in ENCODE), "--lax"], RAW),
           ("encode with a list", ["encode", "IN", "OUT", *LISTED], RAW)]
BEFORE = b"what is in OUT before\n" * 30
"""What OUT has before; of a retagging, which replaces a stream of the same STREAMINFO alone, NATIVE."""
NOBODY = 65534


class Place:
    """A folder of one case, in which the program is called."""

    def __init__(self, folder, binary):
        self.folder, self.binary = folder, binary
        os.chmod(folder, 0o755)

    def path(self, name):
        return os.path.join(self.folder, name)

    def put(self, name, data):
        with open(self.path(name), "wb") as file:
            file.write(data)
        return self.path(name)

    def call(self, words, names, before=(), **more):
        """Status, standard output and standard error. `before` are words of a command that calls the program."""
        if "LIST" in words and "LIST" not in names:
            names = names | {"LIST": self.put("list", LIST)}
        more = {"stdin": subprocess.DEVNULL, "stdout": subprocess.PIPE, "stderr": subprocess.PIPE, "timeout": 60, "check": False} | more
        try:
            result = subprocess.run([*before, self.binary, *(names.get(word, word) for word in words)], **more)
        except subprocess.TimeoutExpired:
            raise Wrong("took over 60 seconds") from None
        if result.returncode not in (0, 1, 2):
            raise Wrong(f"status {result.returncode}: {(result.stderr or b'')[-200:]!r}")
        return result.returncode, result.stdout, (result.stderr or b"").decode()

    def refused(self, words, names, line, before=(), **more):
        status, printed, error = self.call(words, names, before, **more)
        expect((status, printed or b"", error), (1, b"", f"flac: {line}\n"))


def writing_fault(name):
    """What is due if OUT takes nothing."""
    return "frame 0: 30 Sink" if name.startswith("decode") else "39 Write"


def before_of(words):
    """What OUT has before."""
    return NATIVE if words[0] == "retag" else BEFORE


def due_of(place, words, source):
    """What a run without failure writes to OUT."""
    names = {"IN": place.put("due.in", source), "OUT": place.path("due.out")}
    expect(place.call(words, names)[0], 0)
    return read(names["OUT"])


def input_cases():
    """IN is no file that can be read."""
    def refused(words, path, line, place):
        names = {"IN": path, "OUT": place.put("out", BEFORE)}
        place.refused(words, names, f"{path}: {line}")
        expect(read(names["OUT"]), BEFORE)
        expect([it for it in os.listdir(place.folder) if it.startswith("out.")], [])

    for name, words, _ in READING + WRITING:
        at = "" if name.startswith("encode") else "marker: "
        yield f"{name}: IN is a folder", lambda p, w=words, a=at: refused(w, p.folder, f"{a}1 Read", p)
        yield f"{name}: IN cannot be read", lambda p, w=words, a=at: refused(w, "/proc/self/mem", f"{a}1 Read", p)
        yield f"{name}: IN is not there", lambda p, w=words: refused(w, p.path("absent"), "cannot be opened", p)
        yield f"{name}: IN is an empty word", lambda p, w=words: refused(w, "", "cannot be opened", p)
        yield f"{name}: IN is below a file", lambda p, w=words: refused(w, p.put("a", b"") + "/b", "cannot be opened", p)
        if not name.startswith("encode"):
            yield f"{name}: IN is an empty device", lambda p, w=words: refused(w, "/dev/null", "marker: 3 Truncated", p)
            yield f"{name}: IN is a device of zeros", lambda p, w=words: refused(w, "/dev/zero", "marker: 4 BadMarker", p)
        yield f"{name}: IN without rights", lambda p, w=words, n=name: no_rights_to_read(p, w)
        yield f"{name}: IN is a pipe", lambda p, w=words, n=name: piped(p, w)


def standard_cases():
    """IN `-` is standard input, OUT `-` standard output; files of that name are `./-`."""
    for name, words, source in READING + WRITING:
        yield f"{name}: IN is -", lambda p, w=words, s=source: standard_input(p, w, s)
        yield f"{name}: IN is -, a file that was read in part", lambda p, w=words, s=source: read_on(p, w, s)
        yield f"{name}: IN is -, refused by this name", lambda p, w=words: refused_by_name(p, w)
        yield f"{name}: IN is ./-", lambda p, w=words, s=source: named_so(p, w, s)
    for name, words, source in WRITING:
        yield f"{name}: OUT is -", lambda p, w=words, s=source: standard_output(p, w, s, {"IN": p.put("in", s)})
        yield f"{name}: IN and OUT are -", lambda p, w=words, s=source: standard_output(p, w, s, {"IN": "-"}, stdin=None, input=s)
        yield f"{name}: OUT is -, to which is added", lambda p, w=words, s=source: standard_is_added_to(p, w, s)
        yield f"{name}: OUT is -, which is full", lambda p, w=words, s=source, n=name: standard_is_full(p, w, s, f"-: {writing_fault(n)}")
        yield f"{name}: IN is -, which is OUT", lambda p, w=words, s=source: standard_is_output(p, w, s)


def standard_input(place, words, source):
    names = {"IN": "-", "OUT": place.path("out")}
    found = place.call(words, names, stdin=None, input=source)
    expect(found, place.call(words, {"IN": place.put("in", source), "OUT": place.path("due")}))
    expect(found[::2], (0, ""))
    if "OUT" in words:
        expect(read(names["OUT"]), read(place.path("due")))


def read_on(place, words, source):
    """Reading goes on where another program stopped."""
    due = place.call(words, {"IN": place.put("in", source), "OUT": place.path("due")})
    with open(place.put("more", b"before" + source), "rb", buffering=0) as file:
        file.seek(6)
        expect(place.call(words, {"IN": "-", "OUT": place.path("out")}, stdin=file), due)
    if "OUT" in words:
        expect(read(place.path("out")), read(place.path("due")))


def refused_by_name(place, words):
    line = "-: 48 RawLength" if words[0] == "encode" else "-: marker: 4 BadMarker"
    place.refused(words, {"IN": "-", "OUT": place.path("out")}, line, stdin=None, input=b"fLa" if words[0] == "encode" else b"fLaD")


def named_so(place, words, source):
    place.put("-", source)
    found = place.call(words, {"IN": "./-", "OUT": place.path("out")}, cwd=place.folder)
    expect(found, place.call(words, {"IN": place.put("in", source), "OUT": place.path("due")}))


def standard_output(place, words, source, names, **more):
    """The bytes of OUT are all that goes to standard output."""
    due = due_of(place, words, source)
    before = set(os.listdir(place.folder)) | {"list"}
    expect(place.call(words, {**names, "OUT": "-"}, cwd=place.folder, **more), (0, due, ""))
    expect(set(os.listdir(place.folder)) - before, set())


def standard_is_added_to(place, words, source):
    due = due_of(place, words, source)
    with open(place.put("all", BEFORE), "ab") as out:
        expect(place.call(words, {"IN": place.put("in", source), "OUT": "-"}, stdout=out)[::2], (0, ""))
    expect(read(place.path("all")), BEFORE + due)


def standard_is_full(place, words, source, line):
    with open("/dev/full", "wb") as device:
        place.refused(words, {"IN": place.put("in", source), "OUT": "-"}, line, stdout=device)


def standard_is_output(place, words, source):
    """The file that is standard input is not written."""
    path = place.put("in", source)
    with open(path, "rb") as file:
        place.refused(words, {"IN": "-", "OUT": path}, f"{path}: cannot be created", stdin=file)
    with open(path, "rb") as file, open(path, "ab") as out:
        place.refused(words, {"IN": "-", "OUT": "-"}, "-: cannot be created", stdin=file, stdout=out)
    expect(read(path), source)


def no_rights_to_read(place, words):
    names = {"IN": place.put("in", NATIVE), "OUT": place.path("out")}
    os.chmod(names["IN"], 0)
    place.refused(words, names, f"{names['IN']}: cannot be opened", **other_user())
    expect(os.path.exists(names["OUT"]), False)


def piped(place, words):
    """A pipe gives what it has, and the run is as with a file."""
    source = next(data for _, its, data in READING + WRITING if its == words)
    names = {"IN": "/dev/stdin", "OUT": place.path("out")}
    found = place.call(words, names, stdin=None, input=source)
    expect(found, place.call(words, {"IN": place.put("in", source), "OUT": place.path("due")}))
    expect(found[::2], (0, ""))
    if "OUT" in words:
        expect(read(names["OUT"]), read(place.path("due")))


def other_user():
    """Root may read everything: then another user is asked."""
    return {"user": NOBODY, "group": NOBODY, "extra_groups": []} if os.getuid() == 0 else {}


def output_cases():
    """OUT is no file that can be written."""
    def refused(words, source, path, line, place):
        names = {"IN": place.put("in", source), "OUT": path}
        place.refused(words, names, f"{path}: {line}")
        expect(read(names["IN"]), source)

    for name, words, source in WRITING:
        yield f"{name}: OUT is full", lambda p, w=words, s=source, n=name: refused(w, s, "/dev/full", writing_fault(n), p)
        yield f"{name}: OUT is a folder", lambda p, w=words, s=source: refused(w, s, p.folder, "cannot be created", p)
        yield f"{name}: OUT in no folder", lambda p, w=words, s=source: refused(w, s, p.path("absent/out"), "cannot be created", p)
        yield f"{name}: OUT below a file", lambda p, w=words, s=source: refused(w, s, p.path("in/out"), "cannot be created", p)
        yield f"{name}: OUT is an empty word", lambda p, w=words, s=source: refused(w, s, "", "cannot be created", p)
        yield f"{name}: OUT without rights", lambda p, w=words, s=source: no_rights_to_write(p, w, s)
        yield f"{name}: OUT in a folder without rights", lambda p, w=words, s=source: no_rights_to_create(p, w, s)
        yield f"{name}: OUT is a closed pipe", lambda p, w=words, s=source, n=name: closed_pipe(p, w, s, f"/dev/stdout: {writing_fault(n)}")
        yield f"{name}: OUT is a link to nothing", lambda p, w=words, s=source: broken_link(p, w, s)
        yield f"{name}: OUT may not grow", lambda p, w=words, s=source, n=name: limited(p, w, s, n)
        for how in ("stdin", "stdout", "a third file"):
            yield f"{name}: OUT is IN, open already as {how}", lambda p, w=words, s=source, h=how: open_twice(p, w, s, h)


def kept_cases():
    """OUT is a file that has bytes: they stay until the job is done."""
    for name, words, source in WRITING:
        yield f"{name}: OUT is replaced", lambda p, w=words, s=source: replaced(p, w, s)
        yield f"{name}: OUT is replaced behind a link", lambda p, w=words, s=source: replaced(p, w, s, linked=True)
        yield f"{name}: OUT stays, since it may not grow", lambda p, w=words, s=source, n=name: kept(p, w, s, n)
        yield f"{name}: OUT stays, in a folder without rights", lambda p, w=words, s=source: kept_without_rights(p, w, s)
        yield f"{name}: standard output is added to", lambda p, w=words, s=source: added(p, w, s, "ab")
        yield f"{name}: standard output goes on where it is", lambda p, w=words, s=source: added(p, w, s, "wb")
    for name, words, source in (WRITING[0], WRITING[1]):
        yield f"{name}: OUT stays, what was decoded is beside it", lambda p, w=words, s=source: kept_beside(p, w, s)


def replaced(place, words, source, linked=False):
    """The file has the new bytes and its old permissions, and nothing is left beside it."""
    names, due = {"IN": place.put("in", source), "OUT": place.put("out", before_of(words))}, due_of(place, words, source)
    os.chmod(names["OUT"], 0o640)
    if linked:
        os.symlink("out", place.path("link"))
        names["OUT"] = place.path("link")
    expect(place.call(words, names), (0, b"", ""))
    expect((read(place.path("out")), os.stat(place.path("out")).st_mode & 0o7777), (due, 0o640))
    expect(os.path.islink(names["OUT"]), linked)
    expect([it for it in os.listdir(place.folder) if ".part" in it], [])


def in_passes(words):
    """Whether it is an encoding in two passes: its first bytes are written last, so that a part of it is no stream, and is not kept."""
    return words[0] == "encode"


def kept(place, words, source, name):
    """A full disk: what found room is beside OUT, each time in another file; but no part of an encoding in two passes."""
    due, names = due_of(place, words, source), {"IN": place.put("in", source), "OUT": place.put("out", before_of(words))}
    for part in ("out.part", "out.part2"):
        place.refused(words, names, f"{names['OUT']}: {writing_fault(name)}", ["env", "--ignore-signal=XFSZ", "prlimit", "--fsize=30"])
        left = read(place.path(part)) if os.path.exists(place.path(part)) else None
        expect((read(names["OUT"]), left), (before_of(words), None if in_passes(words) else due[:30]))


def kept_without_rights(place, words, source):
    os.mkdir(place.path("below"))
    names = {"IN": place.put("in", source), "OUT": place.put("below/out", before_of(words))}
    os.chmod(names["OUT"], 0o666)
    os.chmod(place.path("below"), 0o555)
    place.refused(words, names, f"{names['OUT']}: cannot be created", **other_user())
    expect((read(names["OUT"]), os.listdir(place.path("below"))), (before_of(words), ["out"]))


def kept_beside(place, words, source):
    """An error after some frames: OUT is as it was, and the frames before are beside it."""
    names, due = {"IN": place.put("in", source[:-1]), "OUT": place.put("out", BEFORE)}, due_of(place, words, source)
    status, printed, _ = place.call(words, names)
    found = read(place.path("out.part"))
    expect((status, printed, read(names["OUT"]), 0 < len(found) < len(due), found), (1, b"", BEFORE, True, due[: len(found)]))


def added(place, words, source, mode):
    """What standard output has already stays there, before the bytes of the job."""
    names, due = {"IN": place.put("in", source), "OUT": "/dev/stdout"}, due_of(place, words, source)
    place.put("all", BEFORE if mode == "ab" else b"")
    with open(place.path("all"), mode) as out:
        if mode == "wb":
            out.write(BEFORE)
            out.flush()
        expect(place.call(words, names, stdout=out)[::2], (0, ""))
    expect(read(place.path("all")), BEFORE + due)


def no_rights_to_write(place, words, source):
    names = {"IN": place.put("in", source), "OUT": place.put("out", before_of(words))}
    os.chmod(names["OUT"], 0o444)
    place.refused(words, names, f"{names['OUT']}: cannot be created", **other_user())
    expect(read(names["OUT"]), before_of(words))


def no_rights_to_create(place, words, source):
    names = {"IN": place.put("in", source), "OUT": place.path("below/out")}
    os.mkdir(place.path("below"), 0o555)
    place.refused(words, names, f"{names['OUT']}: cannot be created", **other_user())
    expect(os.listdir(place.path("below")), [])


def closed_pipe(place, words, source, line):
    names = {"IN": place.put("in", source), "OUT": "/dev/stdout"}
    reading, writing = os.pipe()
    os.close(reading)
    try:
        place.refused(words, names, line.replace("IN:", names["IN"] + ":"), stdout=writing)
    finally:
        os.close(writing)


def broken_link(place, words, source):
    """The file that the link names is made."""
    os.symlink(place.path("target"), place.path("link"))
    names = {"IN": place.put("in", source), "OUT": place.path("link")}
    expect(place.call(words, names)[::2], (0, ""))
    expect(read(place.path("target")), due_of(place, words, source))


def limited(place, words, source, name):
    """A limit on the size of files, as of a full disk: the bytes that found room begin the right output; none in two passes."""
    due, names = due_of(place, words, source), {"IN": place.put("in", source), "OUT": place.path("out")}
    before = ["env", "--ignore-signal=XFSZ", "prlimit", "--fsize=30"]
    place.refused(words, names, f"{names['OUT']}: {writing_fault(name)}", before)
    expect(read(names["OUT"]), b"" if in_passes(words) else due[:30])


def open_twice(place, words, source, how):
    """IN or OUT is given by a file that the caller has opened: it is the other, so IN keeps its bytes."""
    path = place.put("in", source)
    number = os.open(path, os.O_RDWR)
    try:
        if how == "stdin":
            place.refused(words, {"IN": "/dev/stdin", "OUT": path}, f"{path}: cannot be created", stdin=number)
        elif how == "stdout":
            place.refused(words, {"IN": path, "OUT": "/dev/stdout"}, "/dev/stdout: cannot be created", stdout=number)
        else:
            out = f"/proc/self/fd/{number}"
            place.refused(words, {"IN": path, "OUT": out}, f"{out}: cannot be created", pass_fds=[number])
    finally:
        os.close(number)
    expect(read(path), source)


def list_cases():
    """LIST is no file that can be read, or is one of the job's other files."""
    words = ["encode", "IN", "OUT", *LISTED]

    def refused(place, path, line, **more):
        """Neither IN nor OUT is touched."""
        names = {"IN": place.put("in", RAW), "OUT": place.put("out", BEFORE), "LIST": path(place)}
        place.refused(words, names, f"{names['LIST']}: {line}", **more)
        expect((read(names["IN"]), read(names["OUT"]), os.path.exists(place.path("out.part"))), (RAW, BEFORE, False))

    rows = [("a folder", lambda p: p.folder, "cannot be read"), ("not to be read", lambda p: "/proc/self/mem", "cannot be read"),
            ("without an end", lambda p: "/dev/zero", "cannot be read"), ("not there", lambda p: p.path("absent"), "cannot be opened"),
            ("an empty word", lambda p: "", "cannot be opened"), ("below a file", lambda p: p.put("a", b"") + "/b", "cannot be opened"),
            ("of a wrong line", lambda p: p.put("list", LIST + b"x"), "line 4: 53 PredictorLine")]
    for name, path, line in rows:
        yield f"encode: LIST is {name}", lambda p, a=path, t=line: refused(p, a, t)
    yield "encode: LIST without rights", lambda p: refused(p, no_rights, "cannot be opened", **other_user())
    yield "encode: LIST is an empty device", lambda p: listed(p, words, "/dev/null", b"")
    yield "encode: LIST is a pipe", lambda p: listed(p, words, "/dev/stdin", LIST)
    for how in ("path", "link", "stdin", "stdout"):
        yield f"encode: OUT is LIST, by {how}", lambda p, h=how: out_is_list(p, words, h)


def no_rights(place):
    path = place.put("list", LIST)
    os.chmod(path, 0)
    return path


def listed(place, words, path, text):
    """A list that comes from a device is as one in a file."""
    names, due = {"IN": place.put("in", RAW), "OUT": place.path("out")}, place.path("due")
    expect(place.call(words, names | {"LIST": path}, stdin=None, input=text), (0, b"", ""))
    expect(place.call(words, names | {"OUT": due, "LIST": place.put("list", text)}), (0, b"", ""))
    expect(read(names["OUT"]), read(due))


def out_is_list(place, words, how):
    """Refused, and LIST keeps its bytes."""
    path = place.put("list", LIST)
    names = {"IN": place.put("in", RAW), "LIST": path, "OUT": path}
    number = os.open(path, os.O_RDWR)
    try:
        if how == "link":
            os.symlink(path, place.path("link"))
            names["OUT"] = place.path("link")
        names |= {"stdin": {"LIST": "/dev/stdin"}, "stdout": {"OUT": "/dev/stdout"}}.get(how, {})
        place.refused(words, names, f"{names['OUT']}: cannot be created", **({how: number} if how in ("stdin", "stdout") else {}))
    finally:
        os.close(number)
    expect((read(path), read(names["IN"])), (LIST, RAW))


def print_cases():
    """Standard output and standard error take nothing."""
    def full(words, source, line, place):
        path = place.put("in", source)
        with open("/dev/full", "wb") as device:
            place.refused(words, {"IN": path}, f"{path}: {line}", stdout=device)

    for name, words, source in READING:
        line = "block 0: 30 Sink" if name == "list" else "39 Write"
        yield f"{name}: standard output is full", lambda p, w=words, s=source, t=line: full(w, s, t, p)
        yield f"{name}: standard output is a closed pipe", lambda p, w=words, s=source, t=line: closed_pipe(p, w, s, f"IN: {t}")
        yield f"{name}: standard output is closed", lambda p, w=words, s=source, t=line: without(p, w, s, [1], t)
    for name, words, source in READING + WRITING:
        yield f"{name}: standard error is full", lambda p, w=words: error_is_full(p, w)
        for closed in ([0], [2], [0, 1], [0, 1, 2], [1, 2], [0, 2]):
            yield f"{name}: files {closed} are closed", lambda p, w=words, c=closed: closed_files(p, w, c)
    for words in (["--help"], ["encode", "--help"]):
        yield f"{' '.join(words)}: standard output is full", lambda p, w=words: help_is_not_printed(p, w)


def closing(numbers):
    """A command that closes files and calls the program."""
    return ["sh", "-c", "".join(f"exec {number}>&-; " for number in numbers) + 'exec "$@"', "sh"]


def without(place, words, source, closed, line):
    path = place.put("in", source)
    place.refused(words, {"IN": path}, f"{path}: {line}", closing(closed))


def error_is_full(place, words):
    """The line is lost, the status is not."""
    names = {"IN": place.put("in", b"fLaD" + b"\0"), "OUT": place.path("out")}
    with open("/dev/full", "wb") as device:
        expect(place.call(words, names, stderr=device), (1, b"", ""))


def closed_files(place, words, closed):
    """A refused run without standard files: status 1, IN keeps its bytes, and no line of text goes into OUT."""
    refused = NATIVE + b"\0" if words[0] in ("test", "list", "decode") else b"fLaD\0"
    names = {"IN": place.put("in", refused), "OUT": place.path("out")}
    expect(place.call(words, names, closing(closed))[0], 1)
    expect(read(names["IN"]), refused)
    expect(os.path.exists(names["OUT"]), words[0] not in ("test", "list"))
    if words[0] == "decode" and b"flac: " in read(names["OUT"]):
        raise Wrong("the line of the fault is written into OUT, which got the number of standard error")


def help_is_not_printed(place, words):
    with open("/dev/full", "wb") as device:
        status, _, error = place.call(words, {}, stdout=device)
    expect((status, error), (1, "flac: command: 39 Write\n"))


def memory_cases():
    """Memory that ends, with input that does not."""
    def endless(words, line, place):
        names = {"IN": "/dev/zero", "OUT": place.path("out")}
        place.refused(words, names, line, ["prlimit", "--as=67108864"])
        expect(read(names["OUT"]), b"")

    for name, words, _ in WRITING:
        if name.startswith("encode"):
            yield f"{name}: IN does not end", lambda p, w=words: endless(w, "/dev/zero: 2 Memory", p)


def outcome(case, folder, binary):
    name, call = case
    with tempfile.TemporaryDirectory(dir=folder) as own:
        try:
            call(Place(own, binary))
            return "passed", ""
        except (Wrong, OSError, subprocess.SubprocessError) as reason:
            return "failed", f"FAILED {name}: {reason if isinstance(reason, Wrong) else repr(reason)}"


def main():
    parser = argparse.ArgumentParser(description=__doc__, formatter_class=argparse.RawDescriptionHelpFormatter)
    parser.add_argument("--quick", action="store_true", help="the same: it takes seconds")
    parser.add_argument("--only", default="", help="only the cases whose name has this text")
    words, began = parser.parse_args(), time.time()
    with tempfile.TemporaryDirectory() as folder, ThreadPoolExecutor(JOBS) as pool:
        os.chmod(folder, 0o755)
        binary = shutil.copy(program.BINARY, os.path.join(folder, "flac"))
        groups = (input_cases, standard_cases, output_cases, kept_cases, list_cases, print_cases, memory_cases)
        every = [case for group in groups for case in group() if words.only in case[0]]
        found = list(pool.map(lambda case: outcome(case, folder, binary), every))
    for _, line in found:
        print(line, end="\n" if line else "")
    count = {state: sum(1 for one, _ in found if one == state) for state in ("passed", "failed")}
    print(f"devices: {len(every)} cases, {count['passed']} passed, {count['failed']} failed, {time.time() - began:.0f} seconds")
    return 1 if count["failed"] or not every else 0


if __name__ == "__main__":
    sys.exit(main())
