#!/usr/bin/env python3
"""Prints how many nanoseconds a sample each part of the program takes when it verifies a file and when it encodes one, beside the reference, as
tables in Markdown. `kernels` starts it.

The program and the reference run in turn. A run of the program under Linux's perf tells the share of each function; the shares are of the seconds of the
runs without it. A sample is one of one channel. What the compiler made one function counts as its part.
"""
import argparse
import collections
import itertools
import os
import re
import statistics
import subprocess
import sys
import tempfile

import measure
import searching

# the program itself, without the script that builds it
PROGRAM = os.path.abspath(os.environ.get("FLAC") or os.path.join(os.path.dirname(measure.HERE), "crates", "flac", "out", "flac"))
# the functions of the compiled program that each part became, the first that fits; what is written inside of another counts as its part
DECODING = {
    "residual values": r"Held::values|rice|residual",
    "restoration": r"restoration::",
    "digest": r"^md5::",
    "joining, range, rows for the digest": r"flac_frame::(stereo|samples)::|digest::",
    "pulls and checks": r"Held::pull|BitReader::|crc_of_bytes::|crc_8_16_division::|crc_32_division::",
}
ENCODING = {
    "differences, widths, bounds, totals": r"choice::improve|(narrowed|leaving|folding|pruning|least_coding|widths|cost)::",
    "costs under a parameter": r"halves::",
    "first guess, range, copies": r"(choice|chosen|wasted)::|memmove|memset",
    "writing, checks": r"writing::|put_more|unsent::|BitWriter|crc_of_bytes::|crc_8_16_division::|crc_32_division::",
    "joining": r"flac_frame::",
    "raw input": r"flac_cli::",
    "digest": r"^md5::",
}


def part_of(name, parts):
    for part, pattern in parts.items():
        if re.search(pattern, name):
            return part
    return "the rest"


def watched(words, folder):
    """How often each function of the program was met while it ran."""
    data = os.path.join(folder, "perf.data")
    subprocess.run(["perf", "record", "-q", "-e", "task-clock", "-F", "9000", "-o", data, *words],
                   stdout=subprocess.DEVNULL, stderr=subprocess.DEVNULL, check=True)
    text = subprocess.run(["perf", "script", "-i", data, "-F", "ip,sym"], stdout=subprocess.PIPE, stderr=subprocess.DEVNULL, check=True).stdout.decode()
    return collections.Counter(line.split(None, 1)[1] for line in text.splitlines() if len(line.split(None, 1)) == 2)


def kernels(label, commands, samples, parts, runs, folder, every):
    """A row of the table for the program's words and the reference's."""
    words, reference = commands
    ours, theirs, met = [], [], collections.Counter()
    for _ in range(runs):
        ours.append(measure.once(words))
        theirs.append(measure.once(reference))
        met += watched(words, folder)
    nanoseconds = statistics.median(ours) * 1e9 / samples
    if every:
        for name, count in met.most_common(25):
            print(f"{nanoseconds * count / met.total():6.2f} {part_of(name, parts):24} {name}")
    shares = collections.Counter()
    for name, count in met.items():
        shares[part_of(name, parts)] += count
    cells = [f"{nanoseconds * shares[part] / met.total():.1f}" for part in [*parts, "the rest"]]
    measure.row(label, f"{nanoseconds:.1f}", *cells, f"{statistics.median(theirs) * 1e9 / samples:.1f}")
    return shares


def met_in(rows, parts):
    """Reports the parts of which no row met a function: what they are found by is of an earlier program."""
    for part in parts:
        if not any(shares[part] for shares in rows):
            print(f"bench/kernels: no function of '{part}' was met: mend its pattern in bench/kernels.py", file=sys.stderr)


def decoding(seconds, runs, folder, every):
    measure.head("`flac test`", "program", *DECODING, "the rest", "`flac -t`")
    rows = []
    for form, level in itertools.product(measure.FORMS, measure.LEVELS):
        path = measure.encoded(form, seconds, level)
        commands = [PROGRAM, "test", path], [measure.REFERENCE, "-t", "-s", path]
        rows.append(kernels(f"{form.label}, level {level}", commands, form.channels * form.rate * seconds, DECODING, runs, folder, every))
    met_in(rows, DECODING)


def encoding(seconds, runs, folder, every):
    measure.head("`flac encode`", "program", *ENCODING, "the rest", "`flac`")
    rows = []
    for form in measure.FORMS:
        words, reference = measure.encode_commands(form, seconds, folder)[2].values()
        rows.append(kernels(form.label, ([PROGRAM, *words[1:]], reference), form.channels * form.rate * seconds, ENCODING, runs, folder, every))
    met_in(rows, ENCODING)


def main():
    parser = argparse.ArgumentParser(description=__doc__, formatter_class=argparse.RawDescriptionHelpFormatter)
    parser.add_argument("--quick", action="store_true", help="20 seconds of audio and 3 runs instead of 180 and 7")
    parser.add_argument("--runs", type=int, default=None)
    parser.add_argument("--functions", action="store_true", help="the functions too, each with the part that it counts to")
    parser.add_argument("--encoding", action="store_true", help="the table of encoding alone")
    parser.add_argument("--predictors", action="store_true", help="the table of linear predictors alone")
    words = parser.parse_args()
    if not words.predictors:
        subprocess.run([measure.PROGRAM, "--help"], stdout=subprocess.DEVNULL, check=True)
    os.makedirs(measure.FOLDER, exist_ok=True)
    seconds, runs = (20, words.runs or 3) if words.quick else (180, words.runs or 7)
    print(f"Nanoseconds a sample; {measure.machine()}; {seconds} seconds of audio a row, {runs} runs in turn, load {os.getloadavg()[0]:.1f}")
    with tempfile.TemporaryDirectory() as folder:
        if words.predictors:
            return searching.table(folder, seconds, runs)
        if not words.encoding:
            decoding(seconds, runs, folder, words.functions)
        encoding(seconds, runs, folder, words.functions)
    return 0


if __name__ == "__main__":
    sys.exit(main())
