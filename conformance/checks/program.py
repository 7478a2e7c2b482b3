"""Calls of the program under test, and the lines in which it tells faults."""
import itertools
import os
import re
import subprocess

import folders  # noqa: F401  (the path of the modules below)
import model

ROOT = os.path.dirname(folders.TOP)
PROGRAM = os.path.abspath(os.environ.get("FLAC") or os.path.join(ROOT, "flac"))
BINARY = os.path.abspath(os.environ.get("FLAC") or os.path.join(ROOT, "crates", "flac", "out", "flac"))
"""The program itself, and not the script that builds it."""
PLACE = r"(?:marker|end|(?:block|frame|page) \d+)"


class NotCompared(Exception):
    """There is nothing to compare the program with; the text tells why."""


class Wrong(Exception):
    """The program did what it should not; the text tells what."""


def call(*words, limit=120):
    """The status, standard output and standard error; a crash or a run over `limit` seconds is wrong at once."""
    try:
        result = subprocess.run([PROGRAM, *words], stdout=subprocess.PIPE, stderr=subprocess.PIPE, timeout=limit, check=False)
    except subprocess.TimeoutExpired:
        raise Wrong(f"'{words[0]}' took over {limit} seconds") from None
    if result.returncode not in (0, 1, 2):
        raise Wrong(f"'{words[0]}' ended with status {result.returncode}: {result.stderr[-300:]!r}")
    return result.returncode, result.stdout, result.stderr


def succeeds(*words, limit=120):
    """Standard output of a call that has to succeed."""
    status, out, err = call(*words, limit=limit)
    if status != 0:
        raise Wrong(f"'{words[0]}' is refused: {err.decode(errors='replace').strip()}")
    if err:
        raise Wrong(f"'{words[0]}' succeeds and writes to standard error: {err[:200]!r}")
    return out


def fault_of(path, status, err):
    """The `PLACE: NUMBER NAME` of a refusal's one line; anything else is wrong."""
    if status != 1:
        raise Wrong(f"status {status} where a refusal is due")
    found = re.fullmatch(rb"flac: (.*?): (?:(" + PLACE.encode() + rb"): )?(\d+) (\w+)\n", err, re.S)
    if not found or found.group(1) != os.fsencode(path):
        raise Wrong(f"no line of a fault: {err[:200]!r}")
    place, number, name = found.group(2), int(found.group(3)), found.group(4).decode()
    if model.NAMES.get(number) != name:
        raise Wrong(f"no name of fault {number}: {name}")
    return f"{place.decode()}: {number} {name}" if place else f"{number} {name}"


def answer(path, profile=model.SUBSET, limit=120):
    """The answer of `test`: its line, or the fault."""
    status, out, err = call("test", *profile.words, path, limit=limit)
    if status == 0:
        if err or not re.fullmatch(rb"frames \d+ samples \d+\n", out):
            raise Wrong(f"no line of 'test': {out[:200]!r} {err[:200]!r}")
        return out.decode().strip()
    if out:
        raise Wrong(f"a refusal writes to standard output: {out[:200]!r}")
    return fault_of(path, status, err)


def expect(found, due):
    if found != due:
        raise Wrong(f"answers '{short(found)}', due is '{short(due)}'")


def short(value):
    text = str(value)
    return text if len(text) <= 300 else text[:300] + " .."


def read(path):
    with open(path, "rb") as file:
        return file.read()


class Bench:
    """A folder for files that one run makes and throws away."""

    def __init__(self, folder):
        self.folder, self.numbers = folder, itertools.count()

    def path(self, suffix=".flac"):
        return os.path.join(self.folder, f"{next(self.numbers)}{suffix}")

    def put(self, data, suffix=None):
        path = self.path(suffix or (".oga" if data[:1] == b"O" else ".flac"))
        with open(path, "wb") as file:
            file.write(data)
        return path
