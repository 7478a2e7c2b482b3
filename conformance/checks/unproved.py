#!/usr/bin/env python3
"""Compares the unproved program with the model on the hand-made streams: a first look at sources that are not proved yet.

usage: conformance/checks/unproved.py [--top FOLDER] [--every N]

The sources are those of this repository, or of the one at --top; `rt try` builds them once, without any proof, and runs them on each
stream: those of `vectors.py` and `vectors_lax.py`, without --lax and with it, if they have it. --every takes each Nth. All of them take
a quarter of an hour, each eighth takes four minutes. No reference and no proved program is needed. Status 1 if an answer differs.
"""
import argparse
import os
import re
import subprocess
import sys
import tempfile
import time

import folders  # noqa: F401  (the path of the modules below)
import model
import program
import vectors
import vectors_lax
from model import LAX, SUBSET

FAULT = re.compile(rf"flac: case: ({program.PLACE}: \d+ \w+)")
END = re.compile(r"case=(\S+) run=(\S+) status=(\S+).*")


def answers(crate, profile, streams):
    """The answer of `test` to each stream: name and text. Nothing is answered where the program does not have the words."""
    with tempfile.TemporaryDirectory() as folder:
        for name, data in streams.items():
            with open(os.path.join(folder, name), "wb") as file:
                file.write(data)
        words = ["rt", "try", "--cases", folder, "--", "test", *profile.words, "{}"]
        ran = subprocess.run(words, cwd=crate, stdin=subprocess.DEVNULL, stdout=subprocess.PIPE, stderr=subprocess.STDOUT, check=False)
    said = []
    for line in ran.stdout.decode(errors="replace").splitlines():
        end = END.fullmatch(line)
        if not end:
            said.append(line)
            continue
        name, _, status = end.groups()
        if status != "2":
            yield name, answer_in(said, name, status)
        said = []
    if said[-1:] and not said[-1].startswith("cases="):
        print(*said[-20:], sep="\n")


def answer_in(said, name, status):
    """What the lines of one run say, as the model says it."""
    told = [line for line in said if line and line != f"== {name}"]
    fault = FAULT.fullmatch(told[0]) if len(told) == 1 else None
    if fault and status == "1":
        return fault[1]
    return told[0] if len(told) == 1 and status == "0" else f"status {status}: {told}"


def compared(crate, profile, streams):
    """How many streams the program answers, and the answers that differ from the model's."""
    count, bad = 0, []
    for name, found in answers(crate, profile, streams):
        due, count = model.answer(streams[name], profile), count + 1
        if found != due:
            bad.append(f"FAILED {' '.join((name + ',', *profile.words))}: answers '{found}', the model '{due}'")
    return count, bad


def main():
    parser = argparse.ArgumentParser(description=__doc__, formatter_class=argparse.RawDescriptionHelpFormatter)
    parser.add_argument("--top", default=program.ROOT, help="the top of the repository")
    parser.add_argument("--every", type=int, default=1, help="each Nth stream")
    words, began, failed = parser.parse_args(), time.time(), 0
    streams = [(name, data) for name, data, *_ in [*vectors.all_vectors(), *vectors_lax.all_vectors()]]
    asked = dict(streams[::words.every])
    for profile in (SUBSET, LAX):
        count, bad = compared(os.path.join(words.top, "crates", "flac"), profile, asked)
        print(*bad, sep="\n", end="\n" if bad else "")
        told = f"{count} streams of {len(asked)} answered, {len(bad)} failed"
        print(f"unproved, {' '.join(('test', *profile.words))}: {told}, {time.time() - began:.0f} seconds", flush=True)
        failed += len(bad) + len(asked) - count
    return 1 if failed else 0


if __name__ == "__main__":
    sys.exit(main())
