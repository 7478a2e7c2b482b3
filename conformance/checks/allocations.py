#!/usr/bin/env python3
"""Refuses each request for memory of the libraries' calls that read, one at a time, and compares how the call ends.

usage: conformance/checks/allocations.py [--only TEXT]

The calls are `decode`, `Decoder`, `decode_ogg`, `ogg_decoder` and `retag`, over small streams with a block of each kind and over one of
10000 samples. A call whose N-th request is refused, for every N from 1 until the call makes no more, has to end as `Memory` at the item
that is being read, which is the marker or a block, for `retag` also frame 0, with nothing written; once the last block is read there is
no request. The program that makes the calls is allocations.rattle; it is proved and built in a copy of the sources, over what was kept of
the libraries, unless ALLOCATIONS names one. `failing.c` is loaded before the C library. JOBS tells how many runs at once. Status 1 if an
answer is not the one that is due.
"""
import argparse
import os
import re
import shutil
import subprocess
import sys
import tempfile
import time
from concurrent.futures import ThreadPoolExecutor

import folders  # noqa: F401  (the path of the modules below)
import failures
import model
import program
import pushing
import streams
from program import Wrong, expect, read

HERE = os.path.dirname(os.path.abspath(__file__))
CALLS = {"d": "decode", "n": "Decoder", "o": "decode_ogg", "p": "ogg_decoder", "r": "retag"}
"""The calls by the byte that names them to the program."""


class Job:
    """A call over a stream; `kind` and `layout` are those of a job of the program."""

    def __init__(self, name, stream, layout):
        self.byte, self.name, self.layout = name, f"{CALLS[name]}, {stream}", layout
        self.kind = "retag" if name == "r" else "test"


def built(folder):
    """Proves and builds the program in a folder. Returns its path."""
    libraries = [name for name in pushing.LIBRARIES if name not in ("flac_predict", "flac_encoder")]
    lines = [line for line in read(os.path.join(program.ROOT, "crates.txt")).decode().splitlines() if line.split(":")[0] in libraries]
    subprocess.run(["git", "init", "-q", folder], check=True)
    with open(os.path.join(folder, "crates.txt"), "w", encoding="utf-8") as file:
        print(*lines, "allocations: flac_bits flac_meta flac_native flac_ogg", sep="\n", file=file)
    shutil.copy(os.path.join(program.ROOT, "HANDLES"), folder)
    for name in libraries:
        for part in ("src", "specs", "proofs", "out"):
            source = os.path.join(program.ROOT, "crates", name, part)
            if os.path.isdir(source):
                shutil.copytree(source, os.path.join(folder, "crates", name, part), symlinks=True)
    crate = os.path.join(folder, "crates", "allocations")
    os.makedirs(os.path.join(crate, "src"))
    shutil.copy(os.path.join(HERE, "allocations.rattle"), os.path.join(crate, "src", "main.rt"))
    ran = subprocess.run(["rt", "run"], cwd=crate, stdin=subprocess.DEVNULL, stdout=subprocess.PIPE, stderr=subprocess.STDOUT, check=False)
    found = os.path.join(crate, "out", "allocations")
    if not os.path.exists(found):
        sys.exit(f"allocations: the program is not built: {ran.stdout.decode(errors='replace')[-2000:]}")
    return found


def in_parts(data):
    """A native stream in its parts."""
    parts, at, places = [("marker", data[:4])], 4, model.reader_of(data).places
    while at < places[0]:
        end = at + 4 + int.from_bytes(data[at + 1:at + 4], "big")
        parts.append((f"block {len(parts) - 1}", data[at:end]))
        at = end
    ends = [*places[1:], len(data)]
    return streams.Layout([*parts, *((f"frame {i}", data[start:end]) for i, (start, end) in enumerate(zip(places, ends)))])


def ten_thousand():
    """The stream of 10000 samples in blocks of 4096 with a seek table, which the tests have in hex."""
    with open(os.path.join(program.ROOT, "crates", "test_vectors", "src", "lib.rt"), encoding="utf-8") as file:
        digits = re.search(r'TEN_THOUSAND: &str =\s*"([0-9a-fA-F\\\s]+)"', file.read())[1]
    return in_parts(bytes.fromhex(re.sub(r"\\\s+", "", digits)))


def jobs():
    native, ogg = streams.native(), [("Ogg", streams.ogg()), ("a block of three pages", streams.ogg(long=True))]
    for name in "dnr":
        yield Job(name, "native", native)
        yield Job(name, "10000 samples", ten_thousand())
    for name in "op":
        yield from (Job(name, stream, layout) for stream, layout in ogg)


class Runner:
    def __init__(self, folder, binary):
        self.bench, self.library, self.binary = program.Bench(folder), os.path.join(folder, "failing.so"), binary
        subprocess.run(["cc", "-O1", "-shared", "-fPIC", "-o", self.library, os.path.join(HERE, "failing.c")], check=True)

    def run(self, job, **failing):
        """What a call prints, and the counts of `failing.c` by when they were told."""
        source, report = self.bench.put(job.byte.encode() + job.layout.data), self.bench.path(".report")
        variables = {f"FAILING_{name.upper()}": str(value) for name, value in failing.items()}
        with open(source, "rb") as file:
            ran = subprocess.run([self.binary], stdin=file, capture_output=True, timeout=60, check=False,
                                 env={"LD_PRELOAD": self.library, "FAILING_REPORT": report, **variables})
        expect((ran.returncode, ran.stderr), (0, b""))
        at = {}
        for line in read(report).decode().splitlines():
            when, *counts = line.split()
            at[when] = {name: int(count) for name, count in (pair.split("=") for pair in counts)}
        for path in (source, report):
            os.remove(path)
        return ran.stdout.decode(), at


def whole_case(job, runner, requests):
    """Nothing is refused, and after so many requests none is made."""
    printed, at = runner.run(job, call="memory", number=requests + 1, how=12, piece=1)
    expect((printed, "fails" in at), ("done\n", False))


def refused_case(job, runner, number, **more):
    """One request is refused, or with `on` all from it on."""
    printed, at = runner.run(job, call="memory", number=number, how=12, piece=1, **more)
    if "fails" not in at:
        raise Wrong("the request that is to be refused is not made")
    # the first byte names the call
    taken = at["fails"]["taken"] - 1
    due = f"{failures.place_of(job, 'memory', taken)}: 2 Memory{', 0 bytes written' if job.kind == 'retag' else ''}\n"
    if job.kind == "retag" and taken == 0:
        return expect(printed in (due, "no comments\n"), True)
    return expect(printed, due)


def later_case(job, runner):
    """No request once the last block is read."""
    at = runner.run(job, cut=job.layout.first_frame() + 1)[1]
    return expect(at["exit"]["memory"], at["cut"]["memory"])


def cases(runner):
    for job in jobs():
        requests = runner.run(job, piece=1)[1]["exit"]["memory"]
        yield f"{job.name}: {requests} requests", lambda j=job, n=requests: whole_case(j, runner, n)
        for number in range(1, requests + 1):
            yield f"{job.name}: request {number}", lambda j=job, n=number: refused_case(j, runner, n)
            yield f"{job.name}: requests from {number} on", lambda j=job, n=number: refused_case(j, runner, n, on=1)
        if job.kind != "retag":
            yield f"{job.name}: after the blocks", lambda j=job: later_case(j, runner)


def main():
    parser = argparse.ArgumentParser(description=__doc__, formatter_class=argparse.RawDescriptionHelpFormatter)
    parser.add_argument("--only", default="")
    parser.add_argument("--quick", action="store_true", help="the same: it takes seconds")
    words, began = parser.parse_args(), time.time()
    with tempfile.TemporaryDirectory() as folder, ThreadPoolExecutor(failures.JOBS) as pool:
        binary = os.environ.get("ALLOCATIONS") or built(os.path.join(folder, "sources"))
        every = [case for case in cases(Runner(folder, os.path.abspath(binary))) if words.only in case[0]]
        bad = [line for line in pool.map(failures.outcome, every) if line]
    print(*(name for name, _ in every if name.endswith(" requests")), sep="\n")
    print("\n".join(bad[:100]), end="\n" if bad else "")
    print(f"allocations: {len(every)} cases, {len(every) - len(bad)} passed, {len(bad)} failed, {time.time() - began:.0f} seconds")
    return 1 if bad or not every else 0


if __name__ == "__main__":
    sys.exit(main())
