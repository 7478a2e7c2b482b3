#!/usr/bin/env python3
"""Compares docs/errors.md with the errors in the sources. usage: conformance/checks/errors_page.py

The page has to list each number once, with the name that the sources give it. The numbers are those of `Why`
(flac_bits), `SetupFault` (flac_frame), `EncodeFault` (flac_native), `WaveWhy` (flac_wave), of `flac_draft` and `flac_raw`, and of the program (flac_cli, flac_jobs, flac_words). The status is 1 if
something differs."""
import pathlib
import re
import sys

TOP = pathlib.Path(__file__).resolve().parents[2]
CRATES = TOP / "crates"
PAGE = TOP / "docs" / "errors.md"


def source(path):
    """A source file's text, without comments."""
    return re.sub(r"//[^\n]*", "", (CRATES / path).read_text())


def variants(text, name):
    """The names of an enum's variants, in their order."""
    body = re.search(rf"\benum {name} \{{(.*?)\n\}}", text, re.S)
    if body is None:
        raise SystemExit(f"errors_page: enum {name} is not found")
    return re.findall(r"^    (\w+),$", body[1], re.M)


def counted(text, name):
    """An enum whose variants are numbered in their order: `number` is `self as u8 + FIRST`. None if it is not so."""
    first = re.search(r"self as u8 \+ (\d+)", text)
    return first and list(enumerate(variants(text, name), int(first[1])))


def printed(path, name):
    """An enum whose variants print as `NUMBER NAME`: the arms of `as_str`."""
    text = source(path)
    found = re.findall(rf'\b{name}::(\w+) => "(\d+) (\w+)"', text)
    if [variant for variant, _, _ in found] != variants(text, name):
        raise SystemExit(f"errors_page: a variant of {name} has no text")
    wrong = [variant for variant, _, shown in found if shown != variant]
    if wrong:
        raise SystemExit(f"errors_page: of {name} these print another name: {', '.join(wrong)}")
    found = [(int(number), shown) for _, number, shown in found]
    if (counted(text, name) or found) != found:
        raise SystemExit(f"errors_page: {name}::number and its text differ")
    return found


def numbered():
    """`EncodeFault::number`: the arms of its `match`."""
    text = source("flac_native/src/fault.rt")
    return [(int(number), name) for name, number in re.findall(r"EncodeFault::(\w+) => (\d+)", text)]


def own():
    """What the program, `flac_draft` and `flac_raw` add: texts `NUMBER NAME` in its sources, also after a place."""
    found = []
    paths = [*sorted((CRATES / "flac_cli" / "src").glob("*.rt")), *sorted((CRATES / "flac_words" / "src").rglob("*.rt"))]
    for path in [*paths, CRATES / "flac_jobs" / "src" / "line_faults.rt", CRATES / "flac_draft" / "src" / "draft_fault.rt",
                 CRATES / "flac_raw" / "src" / "raw_fault.rt"]:
        found += re.findall(r'"(?:[^"]*: )?(\d+) (\w+)(?:\\n)?"', source(path.relative_to(CRATES)))
    if not found:
        raise SystemExit("errors_page: flac_cli has no number of its own")
    return [(int(number), name) for number, name in found]


def due():
    """The name of each number in the sources. A number that occurs in several has one name."""
    names = {}
    encode = printed("flac_native/src/fault.rt", "EncodeFault")
    if encode != numbered():
        raise SystemExit("errors_page: EncodeFault::number and its text differ")
    reasons = printed("flac_bits/src/why.rt", "Why")
    others = printed("flac_frame/src/setup.rt", "SetupFault") + printed("flac_wave/src/why.rt", "WaveWhy")
    for number, name in reasons + others + encode + own():
        if names.setdefault(number, name) != name:
            raise SystemExit(f"errors_page: {number} is {names[number]} and {name} in the sources")
    return names


def page():
    """The rows of the page: number and name."""
    rows = re.findall(r"^\| (\d+) \| (\w+) \|(.*)\|$", PAGE.read_text(), re.M)
    for number, name, rest in rows:
        cells = [cell.strip() for cell in rest.split("|")]
        if len(cells) != 3 or not all(cells):
            raise SystemExit(f"errors_page: row {number} {name} has not five filled cells")
    return [(int(number), name) for number, name, _ in rows]


def main():
    names, rows, wrong = due(), page(), []
    for number, name in rows:
        if [listed for listed, _ in rows].count(number) > 1:
            wrong.append(f"{number} {name}: more than one row")
        if names.get(number) != name:
            wrong.append(f"{number} {name}: the sources have {names.get(number, 'no such number')}")
    listed = {number for number, _ in rows}
    wrong += [f"{number} {name}: no row" for number, name in sorted(names.items()) if number not in listed]
    for line in wrong:
        print(f"errors_page: {line}")
    if not wrong:
        print(f"errors_page: {len(rows)} errors, as in the sources")
    return 1 if wrong else 0


if __name__ == "__main__":
    sys.exit(main())
