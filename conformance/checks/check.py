#!/usr/bin/env python3
"""Compares the program with the reference and with the model, case by case, and prints a table. `run` starts it."""
import argparse
import collections
import os
import sys
import tempfile
import time
from concurrent.futures import ThreadPoolExecutor

import folders  # noqa: F401  (the path of the modules below)
import command_line
import corpus
import damaged
import differences
import encoding
import granules
import lax
import lax_encoding
import mend
import predicting
import program
import reference
import vectors
import vectors_ogg
from program import Bench, NotCompared, Wrong, read
from reading import decode_before_fault, decode_case, difference_case, list_before_fault, list_case, test_case, vector_case

FOLDER = os.environ.get("CORPUS", "/tmp/flac-corpus")
JOBS = int(os.environ.get("JOBS", os.cpu_count() or 1))


def corpus_cases(made, bench):
    for entry in made.entries:
        name = os.path.basename(entry.path)
        yield f"{entry.group}: test", name, lambda e=entry: test_case(e)
        yield f"{entry.group}: decode", name, lambda e=entry: decode_case(e, bench)
        yield f"{entry.group}: list", name, lambda e=entry: list_case(e)
    for entry in made.old_variable:
        data = read(entry.path)
        places = [offset for offset, _, _ in reference.frame_places(entry.path)]
        stated = mend.least_block(data)
        yield from mended_cases("variable blocks of before 2007", entry, [(data, "block 0: 8 BadStreamInfo"), (stated, "frame 1: 18 Sequence")],
                                mend.strategy(stated, places), bench)
    for entry in made.unended:
        name = os.path.basename(entry.path)
        yield "Ogg without samples, no last page", name, lambda d=read(entry.path): vector_case(d, "end: 36 NoEndPage", bench)
    for entry in made.empty_packets:
        data = read(entry.path)
        due = f"frame {len(reference.frame_places(entry.path))}: 35 PacketLength"
        yield from mended_cases("packet of no bytes at the end", entry, [(data, due)], mend.empty_packet(data), bench)


def mended_cases(group, entry, refused, mended, bench):
    """A file as its encoder wrote it is refused; mended, it is read as any other."""
    name = os.path.basename(entry.path)
    for data, due in refused:
        yield f"{group}: refused", name, lambda d=data, a=due: vector_case(d, a, bench)
    copy = entry._replace(path=bench.put(mended, os.path.splitext(name)[1]))
    yield f"{group}: mended, test", name, lambda: test_case(copy)
    yield f"{group}: mended, decode", name, lambda: decode_case(copy, bench)
    yield f"{group}: mended, list", name, lambda: list_case(copy)


def vector_cases(quick, bench):
    known = {name: (data, due) for name, data, due in vectors.all_vectors()}
    for name, (data, due) in known.items():
        yield "vectors", name, lambda d=data, a=due: vector_case(d, a, bench)
        yield "vectors, list", name, lambda d=data: list_before_fault(d, bench)
        yield "vectors, decode", name, lambda d=data: decode_before_fault(d, bench)
    for name in differences.CASES:
        data, due = known[name]
        yield "known differences", name, lambda d=data, a=due: difference_case(d, a, bench)
    for name, data, due in () if quick else [*vectors.large_vectors(), *vectors_ogg.large_vectors()]:
        yield "vectors, large", name, lambda d=data, a=due: vector_case(d, a, bench)


def all_cases(made, quick, bench):
    yield from vector_cases(quick, bench)
    yield from corpus_cases(made, bench)
    for name, call in command_line.cases(bench):
        yield "command line", name, call
    yield from encoding.cases(made, quick, bench)
    for name, call in granules.cases(bench):
        yield "long packets in Ogg", name, call
    yield from damaged.cases(made, quick, bench)
    yield from lax.cases(made, quick, bench)
    yield from lax_encoding.cases(made, quick, bench)
    yield from predicting.cases(made, quick, bench)


def outcome(case):
    group, name, call = case
    try:
        call()
        return group, name, "passed", ""
    except NotCompared as reason:
        return group, name, "not compared", str(reason)
    except (Wrong, OSError, ValueError, IndexError, KeyError, UnicodeDecodeError) as reason:
        return group, name, "failed", f"{reason}" if isinstance(reason, Wrong) else f"{type(reason).__name__}: {reason}"


def table(outcomes):
    counts = collections.OrderedDict()
    for group, _, state, _ in outcomes:
        counts.setdefault(group, collections.Counter())[state] += 1
    width = max(map(len, counts))
    print(f"{'case group':{width}}  files  passed  failed  not compared")
    for group, count in [*counts.items(), ("all", sum(counts.values(), collections.Counter()))]:
        print(f"{group:{width}}  {sum(count.values()):5}  {count['passed']:6}  {count['failed']:6}  {count['not compared']:12}")
    bad = [one for one in outcomes if one[2] == "failed"]
    for group, name, _, reason in bad:
        print(f"FAILED {group}: {name}: {reason}")
    return 1 if bad else 0


def main():
    parser = argparse.ArgumentParser(description=__doc__)
    parser.add_argument("--quick", action="store_true", help="fewer files, under two minutes")
    parser.add_argument("--only", default="", help="only the groups whose name has this text")
    words = parser.parse_args()
    began = time.time()
    if not os.path.exists(program.PROGRAM):
        sys.exit(f"{program.PROGRAM} is not there: build it, or name the program by FLAC=")
    with tempfile.TemporaryDirectory() as folder:
        bench = Bench(folder)
        made = corpus.Corpus(corpus.folder_for(FOLDER), words.quick).build()
        for name in made.missing:
            print(f"not made, the encoder refuses it: {name}")
        cases = [case for case in all_cases(made, words.quick, bench) if words.only in case[0]]
        with ThreadPoolExecutor(JOBS) as pool:
            outcomes = list(pool.map(outcome, cases))
    status = table(outcomes)
    print(f"{time.time() - began:.0f} seconds, {JOBS} at a time, program {program.PROGRAM}")
    return status


if __name__ == "__main__":
    sys.exit(main())
