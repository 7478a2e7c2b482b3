#!/usr/bin/env python3
"""Cases of streams outside the streamable subset: refused as such, and read with `--lax`. `check.py` asks the program for them.

usage: conformance/checks/lax.py [--quick]

By itself it compares the model with the reference, without the program: every file outside the subset has to hold, by the model, the
samples that were put in, in the frames that the reference finds, and be refused in the subset alone; and the reference has to take just
the vectors that are read with `--lax`, but for the known differences. Then it prints which limits the files leave. CORPUS names a folder for files that are kept. Status 1 if something differs.
"""
import argparse
import collections
import os
import sys
import tempfile
import time

import folders  # noqa: F401  (the path of the modules below)
import corpus
import damaged
import differences
import model
import outside
import program
import reference
import vectors_lax
from model import LAX, SUBSET
from program import Wrong, expect, read
from reading import decode_before_fault, decode_case, difference_case, list_before_fault, list_case, test_case, vector_case

PROFILES = (SUBSET, LAX)
GROUP = "outside the subset"


def model_agrees(entry):
    """The model reads a file as the reference does, and refuses it in the subset only at a limit of the subset."""
    reader = model.reader_of(read(entry.path), LAX)
    expect(reader.result(), f"frames {len(reference.frame_places(entry.path))} samples {entry.length}")
    if b"".join(reader.raw) != read(entry.raw):
        raise Wrong("the model decodes other samples than those that were encoded")
    if reference.decoded(entry.path, entry.bits) != read(entry.raw):
        raise Wrong("the reference decodes other samples than those that were encoded")
    found = model.answer(read(entry.path))
    if found != reader.result() and not found.endswith(": 14 NotSubset"):
        raise Wrong(f"in the subset the model answers '{found}'")


def reference_agrees(name, data, due, bench):
    """The reference takes a vector where it is read with `--lax`, and, but for the known differences, only there."""
    path = bench.put(data)
    expect(reference.accepts(path), due.startswith("frames ") or name in differences.LAX_CASES)
    os.remove(path)


def subset_case(entry):
    """Without `--lax` the file is refused where the model finds that it leaves the subset, while the reference takes it."""
    if not reference.accepts(entry.path):
        raise Wrong("the reference refuses it")
    expect(program.answer(entry.path), model.answer(read(entry.path)))


def file_cases(made, bench):
    for entry in made.lax:
        name = os.path.basename(entry.path)
        yield f"{GROUP}: model", name, lambda e=entry: model_agrees(e)
        yield f"{GROUP}: without --lax", name, lambda e=entry: subset_case(e)
        yield f"{GROUP}: test", name, lambda e=entry: test_case(e, LAX)
        yield f"{GROUP}: decode", name, lambda e=entry: decode_case(e, bench, LAX)
        yield f"{GROUP}: list", name, lambda e=entry: list_case(e, LAX)


def inside_cases(made, bench):
    """Files of the subset are read the same with `--lax`."""
    for entry in made.entries[::6]:
        name = os.path.basename(entry.path)
        yield "inside the subset, --lax: test", name, lambda e=entry: test_case(e, LAX)
        yield "inside the subset, --lax: decode", name, lambda e=entry: decode_case(e, bench, LAX)


def vector_cases(bench):
    """Each vector in each profile; what `list` and `decode` do before a fault; those of the subset with `--lax`."""
    known = {name: (data, due) for name, data, *due in vectors_lax.all_vectors()}
    for name, (data, due) in known.items():
        yield f"{GROUP}: vectors, reference", name, lambda n=name, d=data, a=due[1]: reference_agrees(n, d, a, bench)
        for profile, answer in zip(PROFILES, due):
            yield f"{GROUP}: vectors{', --lax' * len(profile.words)}", name, lambda d=data, a=answer, p=profile: vector_case(d, a, bench, p)
    for name, (data, due) in known.items():
        yield f"{GROUP}: vectors, list", name, lambda d=data: list_before_fault(d, bench, LAX)
        yield f"{GROUP}: vectors, decode", name, lambda d=data: decode_before_fault(d, bench, LAX)
    for name in differences.LAX_CASES:
        data, (_, due) = known[name]
        yield "known differences, --lax", name, lambda d=data, a=due: difference_case(d, a, bench, LAX)
    for name, data, due in vectors_lax.of_the_subset():
        yield "vectors of the subset, --lax", name, lambda d=data, a=due: vector_case(d, a, bench, LAX)


def partition_cases(made, bench):
    for entry in made.empty_partitions:
        data = read(entry.path)
        for profile in PROFILES:
            yield (f"{GROUP}: first partition of no values", f"{os.path.basename(entry.path)}, {profile.name}",
                   lambda d=data, p=profile: difference_case(d, partition_answer(d, p), bench, p))


def partition_answer(data, profile):
    """What is due for a predictor of as many samples as the first partition has: the format forbids it, the subset such an order too."""
    due = model.answer(data, profile)
    if not due.endswith(": 22 BadPartition" if profile is LAX else ": 14 NotSubset"):
        raise Wrong(f"the model answers '{due}'")
    return due


def small(made):
    """Files outside the subset that are small enough for the model to read many copies: native and Ogg."""
    rows = [("music", 700001, 2, 13, 700, ["-5", "-b", "192"]), ("tone", 44100, 1, 5, 900, ["-8", "-l", "32", "-b", "256", "-P", "9"]),
            ("speech", 12345, 2, 27, 500, ["-8", "-b", "100", "-T", "A=b"]), ("clicks", 44100, 1, 16, 3000, ["-5", "-b", "1024", "-r", "9,9", "-l", "0"]),
            ("noise", 1048575, 3, 4, 60, ["-0", "-b", "16"]), ("music", 44100, 1, 8, 9000, ["-3", "-b", "8192"])]
    into = []
    for kind, rate, channels, bits, length, settings in rows:
        sound = made.prepare(outside.sound(kind, rate, channels, bits, length))
        for ogg in (False, True):
            made.reference("outside the subset, small", sound, settings, into=into, ogg=ogg, lax=True)
    return into


def damage_cases(made, quick, bench):
    for entry in small(made):
        for profile in PROFILES:
            more = f"{', --lax' * len(profile.words)}"
            if entry.path.endswith(".oga"):
                yield from damaged.pages_by_the_model(entry.path, 3 if quick else 12, bench, profile, f"{GROUP}: damage, Ogg{more}")
            else:
                yield from damaged.by_the_model(entry.path, 8 if quick else 60, bench, profile, f"{GROUP}: damage{more}")


def cases(made, quick, bench):
    """All cases."""
    yield from file_cases(made, bench)
    yield from vector_cases(bench)
    yield from partition_cases(made, bench)
    yield from damage_cases(made, quick, bench)
    yield from inside_cases(made, bench)


def coverage(entries):
    """What the reference's analysis finds in the files: the values of each limit that occur."""
    found = collections.defaultdict(collections.Counter)
    for entry in entries:
        for name, value in [*reference.limits(entry.path), ("rate", entry.rate), ("depth", entry.bits), ("channels", entry.channels)]:
            found[name][value] += 1
    for name, counts in sorted(found.items()):
        print(f"{name}: {', '.join(f'{value} ({count})' for value, count in sorted(counts.items()))}")


def agreed(made, bench):
    """Compares the model with the reference; how many files and vectors differ."""
    entries, rows, bad = [*made.lax, *small(made)], list(vectors_lax.all_vectors()), 0
    asked = [(os.path.basename(entry.path), lambda e=entry: model_agrees(e)) for entry in entries]
    asked += [(name, lambda n=name, d=data, a=due: reference_agrees(n, d, a, bench)) for name, data, _, due in rows]
    for name, call in asked:
        try:
            call()
        except Wrong as reason:
            bad += 1
            print(f"FAILED {name}: {reason}")
    outer = sum(model.answer(read(entry.path)).endswith(": 14 NotSubset") for entry in entries)
    print(f"{len(entries)} files, {outer} outside the subset, and {len(rows)} vectors; of {bad} model and reference differ")
    return bad


def main():
    parser = argparse.ArgumentParser(description=__doc__, formatter_class=argparse.RawDescriptionHelpFormatter)
    parser.add_argument("--quick", action="store_true", help="fewer files")
    words, began = parser.parse_args(), time.time()
    made = corpus.Corpus(corpus.folder_for(os.environ.get("CORPUS", "/tmp/flac-corpus")), words.quick)
    outside.build(made, words.quick)
    with tempfile.TemporaryDirectory() as folder:
        bad = agreed(made, program.Bench(folder))
    coverage(made.lax)
    print(f"{time.time() - began:.0f} seconds")
    return 1 if bad else 0


if __name__ == "__main__":
    sys.exit(main())
