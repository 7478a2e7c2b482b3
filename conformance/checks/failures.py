#!/usr/bin/env python3
"""Lets each request for memory, each read, each write and each opening of a file fail, one at a time, in each job of the program.

usage: conformance/checks/failures.py [--quick] [--only TEXT]

--quick takes every 29th failure, --only those whose name has this text. `failing.c` is compiled, and loaded before the C library.
FLAC names the program, JOBS how many runs at once. Status 1 if an answer is not the one that is due.
"""
import argparse
import itertools
import os
import re
import struct
import subprocess
import sys
import tempfile
import time
from concurrent.futures import ThreadPoolExecutor

import folders  # noqa: F401  (the path of the modules below)
import model
import program
import streams
from program import Wrong, expect, read

HERE = os.path.dirname(os.path.abspath(__file__))
JOBS = int(os.environ.get("JOBS", os.cpu_count() or 1))
BEFORE = b"what is in OUT before\n" * 30
ERRNO = {"EIO": 5, "EINTR": 4}
LIST = b"# a straight line\n3 0 2 -1\n1 0 -1\n"
"""A list of linear predictors."""
ENCODE = ["encode", "IN", "OUT", "--rate", "44100", "--channels", "2", "--bits", "16", "--block", "16"]


class Job:
    """Words of the program, with IN, OUT and LIST for its files, and the bytes of IN and of LIST, if there is one."""

    def __init__(self, name, words, layout=None, source=b"", listed=None):
        self.name, self.words, self.layout, self.listed = name, words, layout, listed
        self.source = layout.data if layout else source
        self.kind, self.writes = words[0], "OUT" in words
        reader = model.reader_of(self.source) if layout else None
        self.pieces = []
        """What is written while each item is handed out: (place, bytes), if that is known."""
        if self.kind == "decode":
            self.pieces = [(f"frame {i}", data) for i, data in enumerate(reader.raw)]
        if self.kind == "list":
            lines = "".join(line + "\n" for line in model.listing(reader))
            starts = [at for at in range(len(lines)) if lines[at:].startswith("block ")] + [len(lines)]
            self.pieces = [(f"block {i}", lines[a:b].encode()) for i, (a, b) in enumerate(zip(starts, starts[1:]))]

    def place_of(self, written):
        """The item that is being handed out after so many bytes."""
        for place, data in self.pieces:
            if written < len(data):
                return place
            written -= len(data)
        raise Wrong("more is written than is due")


class Other(Job):
    """A job of which no place is judged: it does all of its work, or says what failed."""

    def __init__(self, name, words, source):
        super().__init__(name, ["test"], source=source)
        self.words, self.kind, self.writes = words, words[0], True


class Ran:
    """What comes of a run: status, standard output and error, OUT, the file beside it if there is one, and the lines of `failing.c` by their first word."""

    def __init__(self, result, path, files):
        self.status, self.printed, self.error = result.returncode, result.stdout, result.stderr
        self.files, source, out = files, files["IN"], files["OUT"]
        self.source, self.out, self.file, self.input = source, out, read(out), read(source)
        self.part = read(out + ".part") if os.path.exists(out + ".part") else None
        self.at = {}
        for line in read(path).decode().splitlines():
            when, *counts = line.split()
            self.at[when] = {name: int(count) for name, count in (pair.split("=") for pair in counts)}
        os.remove(path)


class Runner:
    def __init__(self, folder):
        self.bench, self.library = program.Bench(folder), os.path.join(folder, "failing.so")
        subprocess.run(["cc", "-O1", "-shared", "-fPIC", "-o", self.library, os.path.join(HERE, "failing.c")], check=True)

    def run(self, job, same=False, **failing):
        """One run, in which OUT is a file that has bytes; with `same` it is a hard link to IN."""
        source, out, report = self.bench.put(job.source), self.bench.path(".out"), self.bench.path(".report")
        if same:
            os.link(source, out)
        else:
            with open(out, "wb") as file:
                file.write(BEFORE)
        files = {"IN": source, "OUT": out} | ({} if job.listed is None else {"LIST": self.bench.put(job.listed, ".txt")})
        words = [files.get(word, word) for word in job.words]
        variables = {f"FAILING_{name.upper()}": str(value) for name, value in failing.items()}
        try:
            result = subprocess.run([program.BINARY, *words], stdin=subprocess.DEVNULL, capture_output=True, timeout=60, check=False,
                                    env={"LD_PRELOAD": self.library, "FAILING_REPORT": report, **variables})
        except subprocess.TimeoutExpired:
            raise Wrong("took over 60 seconds") from None
        if result.returncode not in (0, 1, 2):
            raise Wrong(f"status {result.returncode}: {result.stderr[-200:]!r}")
        ran = Ran(result, report, files)
        expect((ran.input, "LIST" in files and read(files["LIST"])), (job.source, "LIST" in files and job.listed))
        for path in (*files.values(), *([out + ".part"] if ran.part is not None else [])):
            os.remove(path)
        return ran


def jobs():
    native, longer = streams.native(), streams.native(frames=300)
    raw = [b"".join((n * 401 % 65536).to_bytes(2, "little") for n in range(2 * length)) for length in (41, 9000)]
    for name, layout in (("native", native), ("long native", longer), ("Ogg", streams.ogg()), ("long Ogg", streams.ogg(long=True))):
        for kind in ("test", "list", "decode"):
            yield Job(f"{kind}, {name}", [kind, "IN", *(["OUT"] if kind == "decode" else [])], layout)
    for name, layout in (("retag", native), ("retag, long", longer)):
        yield Job(name, ["retag", "--force", "IN", "OUT", "TITLE=y", "A=b"], layout)
    for name, source in zip(("", ", long"), raw):
        yield Job(f"encode{name}", [*ENCODE, "--seek-every", "20", "TITLE=y"], source=source)
        yield Job(f"encode in Ogg{name}", [*ENCODE, "--ogg", "--serial", "7", "TITLE=y"], source=source)
    words = ["700001" if word == "44100" else word for word in ENCODE]
    yield Job("encode outside the subset", [*words, "--lax", "TITLE=y"], source=raw[0])
    yield Job("encode with a list", [*ENCODE, "--predictors", "LIST", "TITLE=y"], source=raw[0], listed=LIST)
    yield Job("help", ["--help"])
    yield Job("help of encode", ["encode", "--help"])


def wave_of(width, channels, frames):
    """A WAV file with a chunk after its samples."""
    samples = bytes(n * 401 % 256 for n in range(width * channels * frames))
    head = struct.pack("<4sIHHIIHH4sI", b"fmt ", 16, 1, channels, 44100, 44100 * width * channels, width * channels, 8 * width, b"data", len(samples))
    chunks = b"WAVE" + head + samples + b"\0" * (len(samples) % 2) + b"note\x04\0\0\0song"
    return b"RIFF" + struct.pack("<I", len(chunks)) + chunks


def other_jobs():
    native, damaged = streams.native().data, streams.native(frames=300)
    lost = bytearray(damaged.data)
    lost[len(lost) // 2] ^= 1
    for name, form in (("", (2, 2, 41)), (", long", (2, 2, 9000)), (" of 8 bits", (1, 1, 9001)), (" of 24 bits", (3, 2, 3000))):
        yield Other(f"encode a WAV file{name}", ["encode", "IN", "OUT", "TITLE=y"], wave_of(*form))
        yield Other(f"encode a WAV file in Ogg{name}", ["encode", "IN", "OUT", "--ogg", "TITLE=y"], wave_of(*form))
    for name, source in (("", native), (", long", damaged.data)):
        yield Other(f"decode to a WAV file{name}", ["decode", "--wav", "IN", "OUT"], source)
        yield Other(f"decode a part{name}", ["decode", "--from", "1", "--to", "17", "IN", "OUT"], source)
        yield Other(f"decode a part to a WAV file{name}", ["decode", "--wav", "--from", "1", "IN", "OUT"], source)
        yield Other(f"recode{name}", ["recode", "IN", "OUT"], source)
    yield Other("salvage", ["salvage", "IN", "OUT"], bytes(lost))
    yield Other("salvage with gaps", ["salvage", "--gap", "IN", "OUT"], bytes(lost))


TOLD = {
    "memory": r"(IN: .*2 Memory|OUT: cannot be created|IN: cannot be opened|command: 2 Memory)",
    "read": r"(IN: .*1 Read|OUT: cannot be created)",
    "write": r"(OUT: (.*: )?(39 Write|30 Sink))",
}
"""What may be said of a failure of these calls; of others that a file cannot be used."""


def unnamed(ran):
    text = ran.error.decode()
    for name, path in ran.files.items():
        text = text.replace(f"flac: {path}:", f"flac: {name}:")
    return text


def told_case(job, due, runner, call, number, how, **more):
    """One failing call of a job whose places are not judged: all is done, or one line says why not, and OUT keeps its bytes."""
    ran = runner.run(job, call=call, number=number, how=ERRNO.get(how, how), **more)
    if "fails" not in ran.at:
        raise Wrong("the call that is to fail is not made")
    if ran.status == 0 or how == "short":
        # what is told of a job that is done is lost if that cannot be written
        expect((ran.status, call == "write" and unnamed(due).startswith(unnamed(ran)) or unnamed(ran) == unnamed(due)), (0, True))
        return expect((ran.printed, ran.file, ran.part), (due.printed, due.file, None))
    said = TOLD.get(call, "(IN|OUT): cannot be (opened|created|replaced|stored)")
    silent = call == "write" and "on" in more
    if ran.status != 1 or not re.fullmatch("" if silent else f"({re.escape(unnamed(due))})?flac: {said}\n", unnamed(ran)):
        raise Wrong(f"status {ran.status}, {ran.error!r}")
    expect((ran.printed, ran.file), (b"", BEFORE))
    written = ran.part or b""
    return expect(written, due.file[:len(written)])


def told_of(job, counts, runner):
    """Every failure of such a job."""
    due = runner.run(job)
    for number, more in itertools.product(range(1, counts["memory"] + 1), ({}, {"on": 1})):
        yield f"memory {number}{' on' if more else ''}", lambda n=number, m=more: told_case(job, due, runner, "memory", n, "12", **m)
    for call, hows in (("read", ("EIO", "EINTR", "short")), ("write", ("EIO", "EINTR", "short", "none"))):
        for number, how in itertools.product(range(1, counts[call] + 1), hows):
            yield f"{call} {number}, {how}", lambda c=call, n=number, h=how: told_case(job, due, runner, c, n, h)
    for number in range(1, counts["write"] + 1):
        yield f"write from {number} on", lambda n=number: told_case(job, due, runner, "write", n, "EIO", on=1)
    for call in ("open", "statx", "realpath", "fchmod", "fsync", "rename"):
        for number in range(1, counts[call] + 1):
            yield f"{call} {number}", lambda c=call, n=number: told_case(job, due, runner, c, n, "EIO")


def listed_line(job, call, at):
    """What is due if LIST, which is opened after IN and before OUT, is not opened or read. Otherwise None."""
    # the system is asked what LIST is before it is read, and what IN is afterwards
    is_of_list = call in ("open", "read") or call == "statx" and at["read"] == 0
    if job.listed is None or at["open"] != 2 or not is_of_list:
        return None
    return f"flac: LIST: cannot be {'opened' if call == 'open' else 'read'}"


def opened_line(job, call, at):
    """What is due if IN or OUT is not opened, or an empty line if the failure does no harm. None in the midst of a job."""
    if at["open"] == 0:
        # (an encoding asks whether IN is a regular file; else it is one in one pass)
        return "" if call == "statx" and in_passes(job) else "flac: command: 2 Memory"
    if listed_line(job, call, at):
        return listed_line(job, call, at)
    if job.listed is not None and at["open"] > 1:
        at = at | {"open": at["open"] - 1}
    if call == "open":
        return "flac: OUT: cannot be created" if at["open"] > 1 else "flac: IN: cannot be opened"
    # the paths are compared before OUT is opened; the file beside it gets its permissions if there are any
    if call == "fchmod" or at["open"] < 2 and (call == "realpath" or call == "memory" and job.writes):
        return ""
    if call in ("fsync", "rename"):
        return "flac: OUT: cannot be replaced"
    # OUT is opened again, for what it begins with, unless any file may be replaced; then the file beside it
    is_begun = at["open"] > (2 if "--force" in job.words else 3) or not job.writes
    return "flac: OUT: cannot be created" if call in ("statx", "realpath") or call == "memory" and not is_begun else None


def line_of(job, call, at):
    """The line that is due on standard error after a failure."""
    line = opened_line(job, call, at)
    if line is not None:
        return line
    if call == "write":
        if job.pieces:
            return f"flac: {'OUT' if job.writes else 'IN'}: {job.place_of(at['written'])}: 30 Sink"
        return f"flac: {'OUT' if job.writes else 'IN'}: 39 Write"
    name, taken = {"memory": "2 Memory", "read": "1 Read"}[call], at["taken"]
    if job.kind == "encode" or job.kind == "retag" and call == "memory" and taken == 0:
        return f"flac: IN: {name}"
    return f"flac: IN: {place_of(job, call, taken)}: {name}"


def place_of(job, call, taken):
    """The place of a failed request for memory or read, if so many bytes were read before: one at a time, or as many as are needed."""
    layout = job.layout
    if call == "read":
        place = "marker" if taken == 0 else layout.part_at(taken)
        return "frame 0" if job.kind == "retag" and taken >= layout.first_frame() else place
    if job.kind == "retag" and taken == layout.first_frame():
        return "frame 0"
    return "marker" if taken <= (1 if layout.ogg else 0) else layout.item_at(taken - 1)


def in_passes(job):
    """Whether it is an encoding in two passes, whose first bytes are written last: what it wrote is no stream, and is not kept."""
    return job.kind == "encode"


def files_are_right(job, ran, due, line):
    """OUT keeps its bytes, and what was written is beside it, and begins what is due; but of an encoding in two passes nothing is left."""
    written = ran.at["exit"]["written"]
    expect(ran.file, BEFORE)
    if in_passes(job) and not line.endswith(("stored", "replaced")):
        return expect((ran.part, ran.printed), (None, b""))
    expect(ran.part, due.file[:written] if job.writes and written else None)
    expect(ran.printed, b"" if job.writes else due.printed[:written])
    if job.kind in ("encode", "retag") and line.endswith(("Memory", "created")) and written:
        raise Wrong(f"{written} bytes are written before memory runs out")


def names_of(line, ran):
    for name, path in ran.files.items():
        line = line.replace(f"flac: {name}:", f"flac: {path}:")
    return line


def same_as(due, ran):
    expect((ran.status, ran.error), (due.status, due.error))
    expect((ran.printed, ran.file, ran.part), (due.printed, due.file, None))


def failure_case(job, due, runner, call, number, how, **more):
    """One failing call."""
    ran = runner.run(job, call=call, number=number, how=ERRNO.get(how, how), **more)
    if "fails" not in ran.at:
        raise Wrong("the call that is to fail is not made")
    if how == "short" or (job.name.startswith("help") and call == "write" and how == "EINTR"):
        return same_as(due, ran)
    if job.name.startswith("help") and call == "write":
        expect((ran.status, ran.error), (1, b"" if "on" in more else b"flac: command: 39 Write\n"))
        return expect(ran.printed, due.printed[:ran.at["exit"]["written"]])
    line = line_of(job, call, ran.at["fails"])
    if call == "memory" and job.listed is not None and ran.at["fails"]["open"] in (1, 2):
        return list_memory_case(job, ran, due)
    if how == "EINTR" and line.startswith("flac: LIST:") and ran.status == 0:
        return same_as(due, ran)
    if not line and call == "memory" and "on" in more:
        line = later_line(ran)
    # the standard library reserves room for the words ahead, and does without it
    if not line or (call == "memory" and ran.at["fails"]["open"] == 0 and ran.status == 0):
        return same_as(due, ran)
    silent = call == "write" and "on" in more
    expect((ran.status, ran.error.decode()), (1, "" if silent else names_of(line, ran) + "\n"))
    return files_are_right(job, ran, due, line)


def list_memory_case(job, ran, due):
    """Memory is refused while LIST is opened and read, or paths are compared: no harm, or OUT is not begun."""
    if ran.status == 0:
        return same_as(due, ran)
    texts = ("LIST: cannot be opened", "LIST: cannot be read", "OUT: cannot be created", "command: 2 Memory", "IN: 2 Memory")
    lines = [names_of(f"flac: {text}\n", ran) for text in texts]
    if ran.status != 1 or ran.error.decode() not in lines:
        raise Wrong(f"status {ran.status}, {ran.error!r}")
    return expect((ran.printed, ran.file, ran.part), (b"", BEFORE, None))


def later_line(ran):
    """The line of a job in which the first request to fail did no harm, and a later one did: its place is not judged."""
    found = ran.error.decode().strip()
    if found == f"flac: {ran.out}: cannot be created":
        return found
    if not found.startswith(f"flac: {ran.source}: ") or not found.endswith("2 Memory"):
        raise Wrong(f"answers {found}")
    return found


def linked_case(job, runner, call, number):
    """OUT is IN by another name: whatever fails, IN keeps its bytes, which `run` compares. The only write is the line of the fault."""
    ran = runner.run(job, same=True, call=call, number=number, how=12 if call == "memory" else 5)
    texts = ["OUT: cannot be created", "command: 2 Memory", "IN: cannot be opened"]
    texts += [] if job.listed is None else ["LIST: cannot be opened", "LIST: cannot be read"]
    lines = [names_of(f"flac: {text}\n", ran) for text in texts]
    if ran.status != 1 or ran.error.decode() not in (lines if call != "write" or number > 1 else [""]):
        raise Wrong(f"status {ran.status}, {ran.error!r}")


def later_memory_case(job, runner):
    """No request for memory after the last metadata block."""
    at = runner.run(job, cut=job.layout.first_frame()).at
    expect(at["exit"]["memory"], at["cut"]["memory"])


def early_memory_case(runner):
    """No request before `main`: each is the program's own."""
    expect(runner.run(Job("help", ["--help"])).at["main"]["memory"], 0)


def pieces_case(job, due, runner, piece):
    same_as(due, runner.run(job, piece=piece))


def is_due(job, due):
    """A run without failure does what the model says."""
    expect((due.status, due.error), (0, b""))
    if job.pieces:
        expect(due.file if job.writes else due.printed, b"".join(data for _, data in job.pieces))
    if job.kind == "test":
        expect(due.printed.decode().strip(), model.answer(job.source))


def refused_line_case(runner, number, how):
    """A refused stream, whose line of standard error is not written whole, or in pieces."""
    job = Job("test, refused", ["test", "IN"], source=b"fLaD")
    ran = runner.run(job, call="write", number=number, how=ERRNO.get(how, how), piece=5)
    whole = f"flac: {ran.source}: marker: 4 BadMarker\n"
    expect(ran.status, 1)
    expect(ran.error.decode(), whole if how == "short" else whole[:5 * (number - 1)])


def failures_of(job, due, counts, runner):
    """Every failure of a job: (name, call). Where places are judged, the input is read one byte at a time, or if it is long in large pieces."""
    slow = {"piece": 1} if job.kind != "encode" else {}
    small = slow if len(job.source) < 10000 else {}
    for number in range(1, runner.run(job, **slow).at["exit"]["memory"] + 1):
        yield f"memory {number}", lambda n=number: failure_case(job, due, runner, "memory", n, "12", **slow)
        yield f"memory from {number} on", lambda n=number: failure_case(job, due, runner, "memory", n, "12", on=1, **slow)
    single = runner.run(job, **small).at["exit"]
    for call in ("read", "write"):
        for number, how in itertools.product(range(1, single[call] + 1), ("EIO", "EINTR")):
            yield f"{call} {number}, {how}", lambda c=call, n=number, h=how: failure_case(job, due, runner, c, n, h, **small)
        for number in range(1, counts[call] + 1):
            yield f"{call} {number}, short", lambda c=call, n=number: failure_case(job, due, runner, c, n, "short")
    for number in range(1, counts["write"] + 1):
        yield f"write {number}, no byte", lambda n=number: failure_case(job, due, runner, "write", n, "none")
        yield f"write from {number} on", lambda n=number: failure_case(job, due, runner, "write", n, "EIO", on=1)
    for call in ("open", "statx", "realpath", "fchmod", "fsync", "rename"):
        for number in range(1, counts[call] + 1):
            yield f"{call} {number}", lambda c=call, n=number: failure_case(job, due, runner, c, n, "EIO")


def linked_of(job, counts, runner):
    for call in ("memory", "open", "statx", "realpath", "read", "write"):
        for number in range(1, counts[call] + 1):
            yield f"{call} {number}, OUT is IN", lambda c=call, n=number: linked_case(job, runner, c, n)


def cases(runner):
    yield "no request before main", lambda: early_memory_case(runner)
    for job in jobs():
        due = runner.run(job)
        counts = due.at["exit"]
        yield f"{job.name}: without failure", lambda j=job, d=due: is_due(j, d)
        for name, call in failures_of(job, due, counts, runner):
            yield f"{job.name}: {name}", call
        for piece in (1, 2, 3, 4096) if len(job.source) < 10000 else (3, 4096):
            yield f"{job.name}: pieces of {piece}", lambda j=job, d=due, p=piece: pieces_case(j, d, runner, p)
        if job.writes:
            for name, call in linked_of(job, counts, runner):
                yield f"{job.name}: {name}", call
        if job.layout and job.kind != "retag":
            yield f"{job.name}: memory after the blocks", lambda j=job: later_memory_case(j, runner)
    for job in other_jobs():
        due = runner.run(job)
        expect(due.status, 0)
        for name, call in told_of(job, due.at["exit"], runner):
            yield f"{job.name}: {name}", call
    for number, how in itertools.product(range(1, 8), ("EIO", "EINTR", "short")):
        yield f"test, refused: write {number}, {how}", lambda n=number, h=how: refused_line_case(runner, n, h)


def outcome(case):
    name, call = case
    try:
        call()
        return None
    except (Wrong, OSError, KeyError) as reason:
        return f"FAILED {name}: {reason if isinstance(reason, Wrong) else repr(reason)}"


def main():
    parser = argparse.ArgumentParser(description=__doc__, formatter_class=argparse.RawDescriptionHelpFormatter)
    parser.add_argument("--quick", action="store_true")
    parser.add_argument("--only", default="")
    words, began = parser.parse_args(), time.time()
    with tempfile.TemporaryDirectory() as folder, ThreadPoolExecutor(JOBS) as pool:
        every = [case for case in cases(Runner(folder)) if words.only in case[0]]
        every = every[::29] if words.quick else every
        bad = [line for line in pool.map(outcome, every) if line]
    print("\n".join(bad[:100]), end="\n" if bad else "")
    print(f"failures: {len(every)} cases, {len(every) - len(bad)} passed, {len(bad)} failed, {time.time() - began:.0f} seconds")
    return 1 if bad or not every else 0


if __name__ == "__main__":
    sys.exit(main())
