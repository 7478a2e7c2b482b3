#!/usr/bin/env python3
"""Compares the calls for C (crates/flac_c) with the program, stream by stream and sound by sound.

usage: conformance/checks/c_door.py [--quick] [--library FILE] [--no-valgrind]
--library names libflac_c.a, otherwise it is proved and built. --quick takes fewer sounds and damages. The program is that of
`run` (FLAC), and files are made in a folder that is thrown away. Without the reference encoder only the streams that are made bit
by bit, and copies of them, are compared. Status 1 if a case failed.

Of each stream: verify is `test`, the information, vendor and comments are `list`, the samples are `decode`; a native stream frame by
frame, and from some samples on, has the same samples and ends for the same reason. Of each sound: the stream is that of `encode`,
byte by byte, and has at most the bytes of the bound. The calls that take a profile are compared with `--lax`, and in the subset with those
that take none; the metadata blocks with what a model of its own reads of the bytes. wav2flac and flac2wav give the same WAV file again. Some run under valgrind and
under the sanitizers, and with each allocation refused.
"""
import argparse
import array
import importlib.util
import itertools
import os
import random
import shutil
import subprocess
import sys
import tempfile
import zlib

import folders  # noqa: F401  (the path of the modules below)
import corpus
import damage
import model
import model_bits
import model_pages
import program
import vectors
import vectors_lax
import wave_files

EXAMPLES = os.path.join(program.ROOT, "examples", "c")
HEAP = "/opt/rattle/c/liblibc_c.a"
STRICT = ["-Wall", "-Wextra", "-std=c99", "-pedantic", "-Werror"]
SANITIZED = ["-g", "-O1", "-fsanitize=address,undefined", "-fno-sanitize-recover=all"]
VALGRIND = ["valgrind", "-q", "--error-exitcode=77", "--leak-check=full", "--errors-for-leak-kinds=all"]
COMMENTS = ["TITLE=a", "ARTIST=\u00e9", "EMPTY="]
WRAPPED = ["-Wl,--wrap=malloc", "-Wl,--wrap=realloc", "-Wl,--wrap=free"]


def ran(*words, limit=600):
    return subprocess.run(words, stdout=subprocess.PIPE, stderr=subprocess.PIPE, timeout=limit, check=False)


def must(*words):
    result = ran(*words)
    if result.returncode:
        sys.exit(f"c_door: {' '.join(words[:3])}: {(result.stdout + result.stderr).decode(errors='replace')[-2000:]}")
    return result.stdout


class Door:
    """The C programs over the library."""

    def __init__(self, library, folder):
        self.folder, self.failed, self.passed = folder, [], 0
        self.library = library
        self.plain, self.checked = (self.built(name, flags, ["door.c"], WRAPPED) for name, flags in (("door", ["-O2"]), ("door_checked", SANITIZED)))

    def built(self, name, flags, sources, more=()):
        path = os.path.join(self.folder, name)
        must("cc", *flags, *STRICT, "-o", path, *[os.path.join(EXAMPLES, source) for source in sources], self.library, HEAP, *more)
        return path

    def expect(self, name, found, due):
        if found == due:
            self.passed += 1
        else:
            self.failed.append(name)
            print(f"FAILED {name}: {program.short(found)}; due is {program.short(due)}", flush=True)

    def quiet(self, name, *words, limit=600):
        """A run without a word to standard error."""
        result = ran(*words, limit=limit)
        self.expect(name, (result.returncode, result.stderr), (0, b""))
        return result.stdout

    def lines(self, paths, word="lines"):
        """What the calls answer of each file: its lines."""
        told = []
        for first in range(0, len(paths), 200):
            part = paths[first:first + 200]
            result = ran(self.plain, word, *part)
            lines = result.stdout.decode().splitlines()
            if result.returncode or result.stderr:
                sys.exit(f"c_door: status {result.returncode} at {lines[-5:]}: {result.stderr[-500:]!r}")
            for line in lines:
                if line.startswith(" "):
                    told[-1].append(line[1:])
                else:
                    told.append([])
        return told


def due_lines(path, folder, profile=model.SUBSET):
    """What the program says of a stream: `test`, `list` and `decode`."""
    answer, raw = program.answer(path, profile), os.path.join(folder, "decoded.raw")
    yield "verify " + ("ok" if answer.startswith("frames ") else answer)
    listed = program.call("list", *profile.words, path)[1].decode().splitlines()
    info = [line[2:] for line in listed if line.startswith(("  blocks ", "  md5 "))]
    vendor = [line[2:] for line in listed if line.startswith("  vendor ")]
    yield from info + (vendor or ["vendor "]) if info else ["info " + answer]
    yield from [line[2:] for line in listed if line.startswith("  comment ")] if info else []
    # a file that is there would be replaced at the end, and what a refused job has written would stay beside it
    if os.path.exists(raw):
        os.remove(raw)
    status, _, err = program.call("decode", *profile.words, path, raw)
    if status:
        yield "decode " + program.fault_of(path, status, err)
    else:
        data = program.read(raw)
        yield f"decode {len(data)} {zlib.crc32(data):08x}"


def parts_of(kind, body):
    """How many comments, seek points or tracks a block has (RFC 9639, sections 8.5 to 8.7)."""
    if kind == 3:
        return len(body) // 18
    if kind == 4:
        return int.from_bytes(body[4 + int.from_bytes(body[:4], "little"):][:4], "little")
    return body[395] if kind == 5 else 0


def due_blocks(data):
    """The lines of the metadata blocks of a native stream, read from its bytes (RFC 9639, sections 8.1 and 8.8)."""
    at, last = 4, False
    while not last:
        last, kind, size = data[at] >= 128, data[at] & 127, int.from_bytes(data[at + 1:at + 4], "big")
        body = data[at + 4:at + 4 + size]
        yield f"block {at} {size} {parts_of(kind, body)} {kind} {int(last)}"
        if kind == 6:
            fields, where = [], 0
            for width in ("number", "text", "text", "number", "number", "number", "number", "text"):
                value, where = int.from_bytes(body[where:where + 4], "big"), where + 4
                if width == "text":
                    value, where = body[where:where + value], where + value
                fields.append(value)
            kind_of, media, words, *sizes, content = fields
            yield f"picture {kind_of} {' '.join(map(str, sizes))} {zlib.crc32(content):08x}"
            yield "media " + shown(media)
            yield "description " + shown(words)
        at += 4 + size


def shown(text):
    return "".join(chr(c) if 0x20 <= c <= 0x7e and c != 0x5c else f"\\x{c:02x}" for c in text)


def blocks(door, paths):
    """The metadata blocks of each stream, or why there are none: where the program finds a fault in the marker or in a block."""
    for path, told in zip(paths, door.lines(paths, "blocks")):
        answer, data = program.answer(path, model.LAX), program.read(path)
        if data[:1] == b"O":
            due = ["refused marker: " + ("4 BadMarker" if len(data) > 3 else "3 Truncated")]
        else:
            due = ["refused " + answer] if answer.startswith(("marker", "block")) else [*due_blocks(data)]
        door.expect("blocks of " + os.path.basename(path), told, due)


def native_of(data):
    """The native stream in an Ogg stream (RFC 3533, section 6; RFC 9639, section 10.1): all bytes of packets from the marker on, or why there is
    none."""
    pages, packed = model_pages.Pages(data), b""
    try:
        while not pages.last:
            pages.load()
            packed, pages.parts = packed + b"".join(part for part, _ in pages.parts), []
        pages.finish()
    except model_bits.Fault as fault:
        return str(fault)
    return packed[9:] if packed[:7] == b"\x7fFLAC\1\0" and packed[9:13] == b"fLaC" else "marker: 37 BadMapping"


def natives(door, paths):
    """The native stream in each Ogg stream is what a model reads of the pages; of a stream it is one, with the same samples."""
    raw, other = (os.path.join(door.folder, name) for name in ("ogg.raw", "native.raw"))
    count = 0
    for path, told in zip(paths, door.lines(paths, "native")):
        data, name = program.read(path), os.path.basename(path)
        due = native_of(data)
        door.expect(f"native stream of {name}", told, [f"refused {due}" if isinstance(due, str) else f"native {len(due)} {zlib.crc32(due):08x}"])
        if data[:1] == b"O" and not isinstance(due, str):
            door.quiet(f"native {name}", door.checked, "native", path)
            count += 1
            door.expect(f"native bytes of {name}", program.read(path + ".native") == due, True)
            answer, native = program.answer(path, model.LAX), program.answer(path + ".native", model.LAX)
            if answer.startswith("frames "):
                door.expect(f"native, test of {name}", native, answer)
                for one, out in ((path, raw), (path + ".native", other)):
                    program.succeeds("decode", "--lax", "--force", one, out)
                door.expect(f"native, samples of {name}", program.read(raw) == program.read(other), True)
            os.remove(path + ".native")
    print(f"{count} native streams in Ogg streams", flush=True)


def profiles(door, paths, folder):
    """The calls that take a profile: in the subset they say what the others say, and of all streams what the program says with `--lax`. The
    streams are those at the limits of the subset too."""
    made = list(paths)
    for name, data, _, _ in vectors_lax.all_vectors():
        made.append(os.path.join(folder, f"lax-{name}"))
        with open(made[-1], "wb") as file:
            file.write(data)
    for path, plain, subset, lax in zip(made, *(door.lines(made, word) for word in ("lines", "subset", "lax"))):
        name = os.path.basename(path)
        door.expect(f"in the subset, {name}", subset, plain)
        extra = [line for line in lax if line.startswith("no frame at the seek point")]
        door.expect(f"of all streams, {name}", lax, [*due_lines(path, folder, model.LAX), *extra])
    return made


def no_frames(name):
    """The samples, of 0, 10, 20, 30 and 41, that no frame is found for: the table of `every-block` is made up, and says that sample 32 is at byte 70 after the first
    frame, where none begins."""
    return ["no frame at the seek point before 41"] if name == "every-block" else []


def listed(made):
    """The sounds of a run."""
    return made.sounds[:12] if made.quick else made.sounds


def streams(made):
    """Files: the streams made bit by bit, sounds by the reference, and damaged copies of small ones."""
    small, quick = [], made.quick
    for name, data, _ in vectors.all_vectors():
        yield name, data
        if len(data) < 300 and name in ("row-1", "ramp", "left-side", "ogg", "ogg-one-page"):
            small.append((name, data))
    if os.path.exists(corpus.REFERENCE):
        for index, sound in enumerate(listed(made)):
            for ogg in (False, True):
                made.reference("C", sound, corpus.LEVELS[index % 9], ogg=ogg)
        for entry in made.entries:
            yield os.path.basename(entry.path), program.read(entry.path)
    for name, data in small:
        count = 20 if quick else 200
        for damaged in (damage.cuts(data, count, 7), damage.flips(data, 2 * count, 7), damage.zeroed(data, count, 7), damage.appended(data)):
            for what, copy in damaged:
                yield f"{name}, {what}", copy


def checked_runs(door, paths, valgrind):
    """A handful of files under the sanitizers and valgrind, and with each allocation refused."""
    for words in ([door.checked, "lines"], [door.checked, "lax"], [door.checked, "blocks"], [door.checked, "refuse"], [door.plain, "refuse"]):
        out = door.quiet(" ".join([os.path.basename(words[0]), words[1]]), *words, *paths)
        if words[1] == "refuse":
            print(out.decode().strip().replace(door.folder + "/", ""), flush=True)
    if valgrind and shutil.which("valgrind"):
        door.quiet("valgrind", *VALGRIND, door.plain, "lines", *paths)
    elif valgrind:
        door.expect("valgrind", "not installed", "installed")


def encodings(door, made, listed):
    """Each sound as a native and as an Ogg stream: the bytes are the program's."""
    ours, theirs = (os.path.join(door.folder, name) for name in ("ours.flac", "theirs.flac"))
    for index, (sound, ogg) in enumerate(itertools.product(listed, (0, 1))):
        raw, block, seek = made.path(sound.name + ".raw"), (4096, 1152)[index // 2 % 2], (0 if ogg else 1000)
        door.quiet(f"encode {sound.name}", door.plain, "encode", raw, ours, str(sound.rate), str(sound.channels), str(sound.bits), str(block), str(seek), str(ogg),
                   "9", "flac profile 1", *COMMENTS)
        program.succeeds("encode", raw, theirs, *COMMENTS, f"--rate={sound.rate}", f"--channels={sound.channels}", f"--bits={sound.bits}", f"--block={block}",
                         *(["--ogg", "--serial=9"] if ogg else [f"--seek-every={seek}"]))
        door.expect(f"stream of {sound.name}, ogg {ogg}", program.read(ours) == program.read(theirs), True)


def lax_encodings(door):
    """Samples outside the streamable subset: the stream, or why there is none, is that of the program with `--lax`."""
    raw, ours, theirs = (os.path.join(door.folder, name) for name in ("lax.raw", "ours.flac", "theirs.flac"))
    with open(raw, "wb") as file:
        file.write(bytes(index * index % 13 for index in range(90000)))
    for rate, channels, bits, block, ogg in ((65537, 1, 5, 16, 0), (1048575, 2, 8, 40000, 0), (44100, 1, 7, 65535, 1), (1, 3, 6, 4609, 0), (1048576, 1, 8, 16, 0), (44100, 1, 3, 16, 0),
                                             (44100, 1, 8, 65536, 0), (44100, 9, 8, 16, 0), (44100, 1, 8, 4096, 0)):
        words = [str(it) for it in (rate, channels, bits, block, 0, ogg)]
        found = door.quiet("encode_lax", door.plain, "encode_lax", raw, ours, *words, "9", "flac profile 1", *COMMENTS).decode().strip()
        status, _, err = program.call("encode", raw, theirs, *COMMENTS, "--lax", f"--rate={rate}", f"--channels={channels}", f"--bits={bits}", f"--block={block}",
                                      *(["--ogg", "--serial=9"] if ogg else []))
        if status:
            door.expect(f"lax {words}", found, program.fault_of(raw, status, err))
        else:
            door.expect(f"lax {words}", (found, program.read(ours) == program.read(theirs)), ("", True))
            os.remove(theirs)


def searches(door, made, few):
    """Each sound with a search for predictors: the bytes are the program's, by the calls that take options, and without a search those of all calls."""
    ours, theirs = (os.path.join(door.folder, name) for name in ("ours.flac", "theirs.flac"))
    for index, sound in enumerate(few):
        raw = made.path(sound.name + ".raw")
        for word, options in (("encode_subset", []), ("encode_subset_1", ["--search=quick"]), ("encode_subset_2", ["--search=full"])):
            door.quiet(f"{word} {sound.name}", door.plain, word, raw, ours, str(sound.rate), str(sound.channels), str(sound.bits), "4096", "0", str(index % 2), "9",
                       "flac profile 1", *COMMENTS)
            program.succeeds("encode", raw, theirs, *COMMENTS, f"--rate={sound.rate}", f"--channels={sound.channels}", f"--bits={sound.bits}", "--block=4096",
                             *(["--ogg", "--serial=9"] if index % 2 else []), *options)
            door.expect(f"{word}, stream of {sound.name}", program.read(ours) == program.read(theirs), True)


def refusals(door):
    """Samples that are not encoded: the reason is the program's."""
    raw, out = (os.path.join(door.folder, name) for name in ("refused.raw", "refused.flac"))
    with open(raw, "wb") as file:
        file.write(bytes(range(200, 248)))
    for rate, channels, bits, block in ((0, 1, 16, 4096), (700000, 1, 16, 4096), (65537, 1, 16, 4096), (44100, 1, 17, 4096), (44100, 9, 8, 4096), (44100, 0, 8, 4096),
                                        (44100, 1, 12, 4096), (44100, 1, 16, 15), (44100, 1, 16, 4609), (96000, 1, 16, 16385)):
        found = door.quiet("refused", door.plain, "encode", raw, out, str(rate), str(channels), str(bits), str(block), "0", "0", "1", "x").decode().strip()
        status, _, err = program.call("encode", raw, out, f"--rate={rate}", f"--channels={channels}", f"--bits={bits}", f"--block={block}")
        door.expect(f"{rate} {channels} {bits} {block}", found, program.fault_of(raw, status, err))


def plain(path):
    """A WAV file as a plain head begins it: that of no samples states lengths that are not known, as the program's does."""
    data = program.read(path)
    return data if len(data) > 44 else data[:4] + b"\xff" * 4 + data[8:40] + b"\xff" * 4


def wav_programs(door, made, listed, valgrind):
    """Each sound from WAV and back, and a stream of the reference to WAV; two sounds also with sanitizers, valgrind and each allocation refused."""
    flags = {"": ["-O2"], "_checked": SANITIZED}
    tools = {name + end: door.built(name + end, flags[end], [name + ".c", "files.c"]) for name in ("wav2flac", "flac2wav") for end in flags}
    flac, back = (os.path.join(door.folder, name) for name in ("sound.flac", "back.wav"))

    def there_and_back(name, wav, first, second, *words):
        door.quiet(f"wav2flac {name}", *first, *words, wav, flac, *COMMENTS)
        door.quiet(f"flac2wav {name}", *second, flac, back)
        door.expect(f"back {name}", program.read(back) == plain(wav), True)
        door.expect(f"program reads {name}", program.answer(flac).startswith("frames "), True)

    for sound in listed:
        wav = made.path(sound.name + ".wav")
        for words in ((), ("--ogg",)):
            there_and_back(f"{sound.name} {words}", wav, [tools["wav2flac"]], [tools["flac2wav"]], *words)
    for entry in made.entries:
        answer, result = program.answer(entry.path), ran(tools["flac2wav"], entry.path, back)
        if answer.startswith("frames "):
            door.expect(f"flac2wav {entry.path}", (result.returncode, result.stderr), (0, b""))
            door.expect(f"reference's {entry.path}", program.read(back) == plain(entry.raw[:-4] + ".wav"), True)
        else:
            reason = answer.split(": ")[-1]
            door.expect(f"flac2wav {entry.path}", (result.returncode, result.stderr.decode()), (1, f"flac2wav: {entry.path}: {reason}\n"))
    for sound in sorted(listed, key=lambda sound: sound.length * sound.channels)[1:3]:
        wav = made.path(sound.name + ".wav")
        there_and_back(sound.name, wav, [tools["wav2flac_checked"]], [tools["flac2wav_checked"]])
        if valgrind and shutil.which("valgrind"):
            there_and_back(sound.name, wav, [*VALGRIND, tools["wav2flac"]], [*VALGRIND, tools["flac2wav"]])
        refuse_each(door, [tools["wav2flac"], wav, flac, *COMMENTS], flac)
        refuse_each(door, [tools["flac2wav"], flac, back], back)


def refuse_each(door, words, out):
    """Refuses each allocation of a program in turn: it says so and leaves no file, or does what it does without."""
    preloaded, report = os.path.join(door.folder, "failing.so"), os.path.join(door.folder, "report")
    if not os.path.exists(preloaded):
        must("cc", "-O1", "-shared", "-fPIC", "-o", preloaded, os.path.join(os.path.dirname(__file__), "failing.c"), "-ldl")
    counted = dict(os.environ, LD_PRELOAD=preloaded, FAILING_REPORT=report)
    must(*words)
    due = program.read(out)
    subprocess.run(words, env=counted, check=True)
    counts = [int(line.rsplit(" memory=", 1)[1].split()[0]) for line in program.read(report).decode().splitlines() if line.startswith(("main ", "exit "))]
    os.remove(report)
    for number in range(counts[0] + 1, counts[-1] + 1):
        if os.path.exists(out):
            os.remove(out)
        result = subprocess.run(words, env=dict(counted, FAILING_CALL="memory", FAILING_NUMBER=str(number)), stdout=subprocess.PIPE, stderr=subprocess.PIPE, check=False)
        refused = result.returncode == 1 and result.stderr.count(b"\n") == 1 and not os.path.exists(out)
        done = result.returncode == 0 and not result.stderr and program.read(out) == due
        door.expect(f"{os.path.basename(words[0])}, request {number}", refused or done, True)
    must(*words)
    print(f"{os.path.basename(words[0])}: {counts[-1] - counts[0]} requests refused", flush=True)


def loaded(door):
    """The module for Python, and the library's calls by it."""
    shared = os.path.join(door.folder, "libflac_proved.so")
    must("cc", "-shared", "-o", shared, "-Wl,--whole-archive", door.library, "-Wl,--no-whole-archive", HEAP)
    spec = importlib.util.spec_from_file_location("flac_proved", os.path.join(EXAMPLES, "flac_proved.py"))
    flac_proved = importlib.util.module_from_spec(spec)
    spec.loader.exec_module(flac_proved)
    return flac_proved, flac_proved.load(shared)


def said_by(flac_proved, call, *words):
    """What a call returns, or the text of its error."""
    try:
        return call(*words)
    except flac_proved.Error as error:
        return str(error)


def waves(door, flac_proved, library, quick):
    """WAV files, made and generated ones: what they are, or why they are none, their samples as numbers and back; then numbers of each form, and
    the heads of plain files."""
    pick, counts = random.Random(7), {"files": 0, "refused": 0}
    for name, file in [*wave_files.made().items(), *((f"{number}", wave_files.generated(number)) for number in range(300 if quick else 3000))]:
        due, found = wave_files.judge(file), said_by(flac_proved, library.wave, file)
        if isinstance(due, str) and due != "40 BadRate":
            counts["refused"] += 1
            door.expect(f"WAV file {name}", found, due.split(": ")[-1])
        elif isinstance(due, str):
            door.expect(f"WAV file {name}, of another rate", isinstance(found, flac_proved.Wave), True)
        else:
            counts["files"] += 1
            told = (found.rate, found.channels, found.bits, found.width, bytes(found.of(file))) if isinstance(found, flac_proved.Wave) else found
            door.expect(f"WAV file {name}", told, (due.rate, due.channels, due.depth(), due.width, due.samples))
            numbers = library.wave_samples(due.samples, due.width, due.depth())
            door.expect(f"numbers of WAV file {name}", numbers, wave_numbers(due.samples, due.width, due.depth()))
            door.expect(f"samples of WAV file {name}", library.wave_bytes(numbers, due.width, due.depth()), due.samples)
    print(f"{counts['files']} WAV files, {counts['refused']} that are refused", flush=True)
    for width, bits in ((width, bits) for width in range(1, 5) for bits in range(1, 8 * width + 1)):
        samples = pick.randbytes(60 * width)
        numbers = library.wave_samples(samples, width, bits)
        door.expect(f"numbers of {width} bytes, {bits} bits", numbers, wave_numbers(samples, width, bits))
        raw = b"".join(number.to_bytes(4, "little", signed=True)[:(bits + 7) // 8] for number in numbers)
        if width == (bits + 7) // 8:
            door.expect(f"samples of {width} bytes, {bits} bits", library.wave_bytes(numbers, width, bits), wave_files.shifted(raw, width, bits))
            for channels in range(1, 9):
                total, rate = pick.randrange(1, 9), pick.choice([1, 8000, 44100, 192000, 655350, 1048575])
                part = raw[:total * channels * width]
                head = library.wave_head(rate, channels, bits, total) + library.wave_bytes(numbers[:total * channels], width, bits)
                door.expect(f"plain file of {channels} channels, {bits} bits", head + bytes(len(head) % 2), wave_files.plain(rate, channels, bits, total, part))
                door.expect(f"head of {channels} channels, {bits} bits, of any number", library.wave_head(rate, channels, bits), wave_files.plain(rate, channels, bits, 0, b""))
                for total in (2**31 // channels // width, 2**32 // channels // width - 9, 2**32 // channels // width + 9, 2**36 - 1):
                    due = wave_files.plain(rate, channels, bits, total, b"")
                    pad = total * channels * width % 2
                    door.expect(f"head of {channels} channels, {bits} bits, {total} samples", library.wave_head(rate, channels, bits, total), due[:len(due) - pad])
    for call, words, due in ((library.wave_samples, (b"ab", 0, 1), "67 FormatFields"), (library.wave_samples, (bytes(5), 5, 8), "67 FormatFields"),
                             (library.wave_samples, (b"ab", 2, 0), "67 FormatFields"), (library.wave_samples, (b"ab", 2, 17), "67 FormatFields"),
                             (library.wave_samples, (b"abc", 2, 16), "70 PartSample"), (library.wave_bytes, ([1], 0, 1), "67 FormatFields"),
                             (library.wave_bytes, ([1], 4, 33), "67 FormatFields"), (library.wave_head, (44100, 0, 16, 1), "42 BadChannels"),
                             (library.wave_head, (44100, 9, 16, 1), "42 BadChannels"), (library.wave_head, (2**27, 1, 16, 1), "40 BadRate"),
                             (library.wave_head, (44100, 1, 0, 1), "41 BadDepth"), (library.wave_head, (44100, 1, 33, 1), "41 BadDepth"),
                             (library.wave_head, (44100, 1, 16, 2**36), "45 TooLong")):
        door.expect(f"refused: {call.__name__} {words}", said_by(flac_proved, call, *words), due)


def wave_numbers(samples, width, bits):
    """The samples of a WAV file as numbers: those of a byte are unsigned, and the highest bits count."""
    values = (samples[at] - 128 if width == 1 else int.from_bytes(samples[at:at + width], "little", signed=True) for at in range(0, len(samples), width))
    return array.array("i", [value >> (8 * width - bits) for value in values])


def module(door, flac_proved, library, made, listed, paths):
    """The module for Python: what it says of some streams is the program's."""
    raw = os.path.join(door.folder, "decoded.raw")
    for path in paths:
        answer, stream = program.answer(path), program.read(path)
        try:
            library.verify(stream)
            found = "ok"
        except flac_proved.Error as refused:
            found = str(refused)
        door.expect(f"module {os.path.basename(path)}", found, "ok" if answer.startswith("frames ") else answer)
        if found == "ok":
            program.succeeds("decode", path, raw)
            door.expect(f"module {os.path.basename(path)}", library.decode(stream), program.read(raw))
    for sound in listed[:4]:
        data = program.read(made.path(sound.name + ".wav"))
        native = library.encode(sounds_of(made, sound), sound.rate, sound.channels, sound.bits, seek_every=1000, comments=COMMENTS)
        samples, stepped, cursor = library.samples(native), array.array("i"), library.start(native)
        door.expect(f"module {sound.name}", (samples, len(data) > 0), (sounds_of(made, sound), True))
        for frame in library.frames(native, cursor):
            stepped.extend(frame)
        door.expect(f"module, frames of {sound.name}", (stepped, cursor.offset, cursor.sample), (samples, len(native), sound.length))
        cursor = library.seek(native, sound.length // 2)
        first = cursor.sample
        rest = array.array("i", [sample for frame in library.frames(native, cursor) for sample in frame])
        door.expect(f"module, sought in {sound.name}", (first <= sound.length // 2, rest), (True, samples[first * sound.channels:]))
        stream = library.encode(samples, sound.rate, sound.channels, sound.bits, serial=5, vendor="x", comments=COMMENTS)
        info = library.info(stream)
        door.expect(f"module, info of {sound.name}", (info.total, info.rate, info.channels, info.bits), (sound.length, sound.rate, sound.channels, sound.bits))
        door.expect(f"module, comments of {sound.name}", (library.vendor(stream), library.comments(stream)), (b"x", [text.encode() for text in COMMENTS]))
    try:
        library.encode([0], 44100, 2, 16)
        said = "encoded"
    except flac_proved.Error as reason:
        said = str(reason)
    door.expect("module, reason", said, "43 LengthsDiffer")
    streams_of(door, flac_proved, library)


def picture_block(kind, media, words, sizes, data, last):
    """A block with a picture (RFC 9639, section 8.8)."""
    parts = [kind.to_bytes(4, "big")]
    for text in (media, words):
        parts += [len(text).to_bytes(4, "big"), text]
    body = b"".join([*parts, *(size.to_bytes(4, "big") for size in sizes), len(data).to_bytes(4, "big"), data])
    return bytes([6 | 128 * last]) + len(body).to_bytes(3, "big") + body


def streams_of(door, flac_proved, library):
    """The module's streams: information, tags, pictures, frames and samples of one that was just encoded, and errors."""
    flac_proved.LOADED = library
    sound = array.array("i", [index * 37 % 2001 - 1000 for index in range(20001 * 2)])
    plain = flac_proved.encode(sound, rate=44100, channels=2, comments=["TITLE=a", "artist=b", "Artist=c=d"], block_size=1152, seek_every=5000)
    # a picture as the block before the last one, which is the seek table
    first = [block for block in library.blocks(plain) if block.kind == 3][0].offset
    data = bytes(range(200))
    stream = plain[:first] + picture_block(3, b"image/png", b"front", (2, 3, 24, 0), data, False) + plain[first:]
    path = os.path.join(door.folder, "module.flac")
    with open(path, "wb") as file:
        file.write(stream)
    found = flac_proved.open(path)
    found.verify()
    door.expect("stream, information", (found.info.rate, found.info.channels, found.info.bits, found.info.total, found.is_ogg), (44100, 2, 16, 20001, False))
    door.expect("stream, tags", (found.vendor, found.tags), ("flac_proved.py", {"TITLE": ["a"], "ARTIST": ["b", "c=d"]}))
    picture = found.pictures[0]
    door.expect("stream, picture", (len(found.pictures), picture[:7], bytes(picture.data)), (1, (3, "image/png", "front", 2, 3, 24, 0), data))
    door.expect("stream, blocks", ([block.kind for block in found.blocks], found.seek_points[0]), ([0, 4, 6, 3], (0, 0, 1152)))
    numbers, places = array.array("i"), []
    for frame in found:
        places.append(frame.first)
        numbers.frombytes(frame.samples.tobytes())
    door.expect("stream, frames", (numbers, places), (sound, list(range(0, 20001, 1152))))
    door.expect("stream, samples", (found.samples().shape, found.samples().tobytes()), ((20001, 2), sound.tobytes()))
    later = next(found.frames(12000))
    door.expect("stream, from a sample on", (later.first <= 12000, later.first % 1152, later.samples.tobytes()[:8]), (True, 0, sound[later.first * 2:later.first * 2 + 2].tobytes()))
    for number, sample in ((0, 0), (0, 1151), (1, 1152), (9, 9 * 1152 + 7), (17, 20000)):
        for what, frame in (("number", found.frame(number)), ("sample", found.frame_of(sample))):
            door.expect(f"stream, frame by {what} {number}", (frame.first, frame.samples.tobytes()), (number * 1152, sound[number * 2304:number * 2304 + 2304].tobytes()))
    # a table that names a frame of other samples for its second point
    table = [block for block in found.blocks if block.kind == 3][0].offset + 4
    wrong = bytearray(stream)
    wrong[table + 18 + 8:table + 18 + 16] = bytes(8)
    wrong = flac_proved.Stream(bytes(wrong))
    door.expect("stream, a wrong table", (wrong.frame_of(5100).first, wrong.frame_of(100).first), (4608, 0))
    ogg = flac_proved.Stream(flac_proved.encode(sound, rate=44100, channels=2, serial=7, comments=["TITLE=a"]))
    door.expect("stream, Ogg", (ogg.is_ogg, b"".join(frame.samples.tobytes() for frame in ogg)), (True, sound.tobytes()))
    door.expect("stream, blocks of Ogg", ([block.kind for block in ogg.blocks], ogg.tags), ([0, 4], {"TITLE": ["a"]}))
    door.expect("stream, frames of Ogg", (ogg.frame(2).first, ogg.frame_of(20000).samples.tobytes()[-8:], ogg.native[:4]), (8192, sound[-2:].tobytes(), b"fLaC"))
    narrow = flac_proved.encode([1, -2, 3], rate=65537, bits=5, channels=1, lax=True)
    door.expect("stream, lax", flac_proved.Stream(narrow, lax=True).samples().tolist(), [[1], [-2], [3]])
    for what, call, due in (("subset", lambda: flac_proved.Stream(narrow).samples(), (14, "NotSubset", "frame", 0)),
                            ("cut", lambda: list(flac_proved.Stream(stream[:-1])), (3, "Truncated", "frame", 17)),
                            ("bad", lambda: flac_proved.Stream(b"RIFF"), (4, "BadMarker", "marker", 0)),
                            ("depth", lambda: flac_proved.encode(sound, rate=44100, channels=2, bits=17), (41, "BadDepth", None, 0)),
                            ("native", lambda: library.native(stream), (31, "BadPage", "page", 0)),
                            ("blocks", lambda: library.blocks(ogg.data), (4, "BadMarker", "marker", 0))):
        try:
            call()
            said = None
        except flac_proved.Error as error:
            said = error.number, error.name, error.place, error.index
        door.expect(f"stream, error {what}", said, due)
    if importlib.util.find_spec("numpy"):
        import numpy
        all_samples = numpy.array(sound, dtype="int32").reshape(-1, 2)
        door.expect("numpy, the same stream", flac_proved.encode(all_samples, rate=44100, comments=["TITLE=a", "artist=b", "Artist=c=d"], block_size=1152, seek_every=5000) == plain, True)
        frame = next(iter(found))
        seen = numpy.asarray(frame)
        door.expect("numpy, a frame", (seen.shape, str(seen.dtype), bool((seen == all_samples[:1152]).all())), ((1152, 2), "int32", True))
        door.expect("numpy, without a copy", seen.__array_interface__["data"][0], numpy.asarray(frame.samples).__array_interface__["data"][0])
        door.expect("numpy, all samples", bool((numpy.asarray(found.samples()) == all_samples).all()), True)
        turned = numpy.asfortranarray(all_samples)
        door.expect("numpy, with gaps", flac_proved.encode(turned, rate=44100) == flac_proved.encode(all_samples, rate=44100), True)
    else:
        print("numpy is not installed: its cases are left out", flush=True)


def sounds_of(made, sound):
    """The samples of a sound, interleaved."""
    width, data = (sound.bits + 7) // 8, program.read(made.path(sound.name + ".raw"))
    return array.array("i", [int.from_bytes(data[at:at + width], "little", signed=True) for at in range(0, len(data), width)])


def main():
    parser = argparse.ArgumentParser(usage=__doc__.split("usage: ")[1].split("\n")[0])
    parser.add_argument("--quick", action="store_true")
    parser.add_argument("--no-valgrind", action="store_true")
    parser.add_argument("--library", default=os.path.join(program.ROOT, "crates", "flac_c", "out", "libflac_c.a"))
    given, _ = parser.parse_known_args()
    if given.library == parser.get_default("library"):
        subprocess.run(["rt", "lib"], cwd=os.path.join(program.ROOT, "crates", "flac_c"), stdout=subprocess.DEVNULL, check=True)
    with tempfile.TemporaryDirectory(prefix="flac-c-") as folder:
        door, paths, seen = Door(given.library, folder), [], set()
        made = corpus.Corpus(os.path.join(folder, "corpus"), given.quick)
        for name, data in streams(made):
            if data not in seen:
                seen.add(data)
                paths.append(os.path.join(folder, "".join(c if c.isalnum() or c in "-._" else "_" for c in f"{len(paths)}-{name}")))
                with open(paths[-1], "wb") as file:
                    file.write(data)
        for path, told in zip(paths, door.lines(paths)):
            name = os.path.basename(path)
            door.expect(name, told, [*due_lines(path, folder), *no_frames(name.partition("-")[2])])
        made_lax = profiles(door, paths[::8], folder)
        blocks(door, made_lax)
        natives(door, paths)
        few = [path for path in paths if os.path.getsize(path) < 20000]
        few = few[::max(1, len(few) // 12)]
        checked_runs(door, few, not given.no_valgrind)
        encodings(door, made, listed(made))
        refusals(door)
        lax_encodings(door)
        searches(door, made, listed(made)[:12])
        wav_programs(door, made, listed(made), not given.no_valgrind)
        flac_proved, library = loaded(door)
        waves(door, flac_proved, library, given.quick)
        module(door, flac_proved, library, made, listed(made), few)
    print(f"{len(paths)} streams, {door.passed} comparisons passed, {len(door.failed)} failed")
    return 1 if door.failed else 0


if __name__ == "__main__":
    sys.exit(main())
