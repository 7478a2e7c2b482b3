#!/usr/bin/env python3
"""Encodes sounds by pushing blocks, as a recorder does, and compares the files with what was pushed.

usage: conformance/checks/pushing.py [--quick]

What has to hold of each file, native and Ogg, without a search for predictors and with each: the reference's test passes, both decoders
give back the samples, the frames are those of `flac encode` with the same search, and the total and the digest are stated as unknown. The program that pushes is recorder.rattle; it is proved and built
in a copy of the sources, over what was kept of the libraries, unless RECORDER names one. FLAC names the program, CORPUS where the
sounds are kept, JOBS how many runs at once. Status 1 if something does not hold.
"""
import argparse
import os
import shutil
import subprocess
import sys
import tempfile
import time
from concurrent.futures import ThreadPoolExecutor
from functools import partial

import folders  # noqa: F401  (the path of the modules below)
import corpus
import encoding
import model
import program
import reference
from program import Bench, Wrong, expect, read

HERE = os.path.dirname(os.path.abspath(__file__))
FOLDER = os.environ.get("CORPUS", "/tmp/flac-corpus")
JOBS = int(os.environ.get("JOBS", os.cpu_count() or 1))
LIBRARIES = [
    *("flac_bits", "flac_info", "flac_meta", "flac_header", "flac_subframe", "flac_frame", "flac_native", "flac_pages", "flac_ogg"),
    "flac_predict", "flac_encoder",
]
BLOCKS = [16, 256, 4096]
SEARCHES = ["none", "quick", "full"]


def built(folder):
    """Proves and builds the recorder in a folder. Returns its path."""
    lines = [line for line in read(os.path.join(program.ROOT, "crates.txt")).decode().splitlines() if line.split(":")[0] in LIBRARIES]
    subprocess.run(["git", "init", "-q", folder], check=True)
    with open(os.path.join(folder, "crates.txt"), "w", encoding="utf-8") as file:
        print(*lines, "recorder: flac_bits flac_meta flac_native flac_encoder byteorder", sep="\n", file=file)
    shutil.copy(os.path.join(program.ROOT, "HANDLES"), folder)
    for name in LIBRARIES:
        for part in ("src", "specs", "proofs", "out"):
            source = os.path.join(program.ROOT, "crates", name, part)
            if os.path.isdir(source):
                shutil.copytree(source, os.path.join(folder, "crates", name, part), symlinks=True)
    crate = os.path.join(folder, "crates", "recorder")
    os.makedirs(os.path.join(crate, "src"))
    shutil.copy(os.path.join(HERE, "recorder.rattle"), os.path.join(crate, "src", "main.rt"))
    ran = subprocess.run(["rt", "run"], cwd=crate, stdin=subprocess.DEVNULL, stdout=subprocess.PIPE, stderr=subprocess.STDOUT, check=False)
    found = os.path.join(crate, "out", "recorder")
    if not os.path.exists(found):
        sys.exit(f"pushing: the recorder is not built: {ran.stdout.decode(errors='replace')[-2000:]}")
    return found


def pushed(recorder, sound, raw, out, block, kind, search):
    """What the recorder makes of a sound."""
    form = [out, sound.rate, sound.channels, sound.bits, block, kind, *([] if search == "none" else [search])]
    with open(raw, "rb") as file:
        ran = subprocess.run([recorder, *map(str, form)], stdin=file, stdout=subprocess.PIPE, stderr=subprocess.STDOUT, timeout=120, check=False)
    if ran.returncode or ran.stdout:
        raise Wrong(f"status {ran.returncode}: {ran.stdout[-200:]!r}")


def pushed_case(recorder, sound, raw, bench, block, kind, search):
    container, suffix = (["--ogg", "--serial", "77"], ".oga") if kind == "ogg" else ([], ".flac")
    out = bench.path(suffix)
    pushed(recorder, sound, raw, out, block, kind, search)
    if not reference.accepts(out):
        raise Wrong("the reference's test of what was pushed fails")
    if sound.length and reference.decoded(out, sound.bits) != read(raw):
        raise Wrong("the reference decodes other samples than those pushed")
    expect(program.answer(out), f"frames {-(-sound.length // block)} samples {sound.length}")
    back = bench.path(".raw")
    program.succeeds("decode", out, back)
    expect(read(back) == read(raw), True)
    info = dict(model.metadata_of(read(out)).blocks[0][2])
    expect([info[name] for name in ("least_frame", "greatest_frame", "total", "digest")], [0, 0, 0, bytes(16)])
    whole = encoding.encode(sound, raw, bench, "--block", str(block), "--search", search, *container, suffix=suffix)
    if frames(out, kind) != frames(whole, kind):
        raise Wrong("the frames are not those of 'encode'")
    for path in (out, back, whole):
        os.remove(path)


def frames(path, kind):
    """What follows the metadata: the frames, in Ogg the pages after those of the mapping and of the comments."""
    data, at = read(path), 0
    if kind == "native":
        return data[model.Metadata(data).bits.place // 8:]
    for _ in range(2):
        segments = data[at + 26]
        at += 27 + segments + sum(data[at + 27:at + 27 + segments])
    return data[at:]


def cases(recorder, made, bench):
    for sound in [*made.sounds, *made.real]:
        for block in BLOCKS:
            for kind in ("native", "ogg"):
                if encoding.has_code(sound.rate) and sound.bits in (8, 12, 16, 20, 24, 32) and sound.length // block < 4000:
                    raw = made.path(sound.name + ".raw")
                    for search in SEARCHES:
                        call = partial(pushed_case, recorder, sound, raw, bench, block, kind, search)
                        yield f"{sound.name}, blocks of {block}, {kind}, search {search}", call


def outcome(case):
    name, call = case
    try:
        call()
        return ""
    except (Wrong, OSError, subprocess.SubprocessError) as reason:
        return f"FAILED {name}: {reason if isinstance(reason, Wrong) else repr(reason)}"


def main():
    parser = argparse.ArgumentParser(description=__doc__, formatter_class=argparse.RawDescriptionHelpFormatter)
    parser.add_argument("--quick", action="store_true", help="fewer sounds")
    words, began = parser.parse_args(), time.time()
    made = corpus.Corpus(FOLDER, words.quick)
    with tempfile.TemporaryDirectory() as folder:
        recorder = os.environ.get("RECORDER") or built(os.path.join(folder, "built"))
        bench = Bench(folder)
        with ThreadPoolExecutor(JOBS) as pool:
            every = list(cases(recorder, made, bench))
            failed = [line for line in pool.map(outcome, every) if line]
    print(*failed, sep="\n", end="\n" if failed else "")
    print(f"pushing: {len(every)} cases, {len(every) - len(failed)} passed, {len(failed)} failed, {time.time() - began:.0f} seconds")
    return 1 if failed else 0


if __name__ == "__main__":
    sys.exit(main())
