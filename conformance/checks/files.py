#!/usr/bin/env python3
"""Which files the program replaces and which it keeps, what it takes as raw samples, and how it stores what it writes.

usage: conformance/checks/files.py [--quick] [--only TEXT]

A file of sound is one that begins with `fLaC`, `OggS`, `RIFF`, `RF64`, `BW64`, `FORM` or `ID3`. What has to hold: the status and the
line, that a file that is kept has its bytes, and that no file is left beside it. `failing.c` is compiled, and loaded before the C
library. FLAC names the program, JOBS how many runs at once. Status 1 if an answer is not the one that is due.
"""
import argparse
import os
import shutil
import struct
import subprocess
import sys
import tempfile
import time
from concurrent.futures import ThreadPoolExecutor

import folders  # noqa: F401  (the path of the modules below)
import devices
import model
import program
from devices import BEFORE, ENCODE, NATIVE, OGG, RAW, due_of
from program import Wrong, expect, read

HERE = os.path.dirname(os.path.abspath(__file__))
STREAMS, WAVES, OTHERS = (b"fLaC", b"OggS"), (b"RIFF", b"RF64", b"BW64"), (b"FORM", b"ID3")
KINDS = STREAMS + WAVES + OTHERS
PLAIN = (b"", b"f", b"fLa", b"fLaD", b"ID", b"RIF", b"riff", b"FORN", b" RIFF", b"\0")
"""No file of sound begins so, if other bytes follow."""
WAVE = b"".join([b"RIFF", struct.pack("<I", 36 + len(RAW)), b"WAVEfmt ", struct.pack("<IHHIIHH", 16, 1, 2, 44100, 176400, 4, 16), b"data",
                 struct.pack("<I", len(RAW)), RAW])
"""The samples of RAW as a WAV file."""
DECODE, DECODE_WAVE, RETAG = ["decode", "IN", "OUT"], ["decode", "--wav", "IN", "OUT"], ["retag", "IN", "OUT", "A=b"]
WRITING = [("decode", DECODE, NATIVE), ("retag", [*RETAG, "--force"], NATIVE), ("encode", ["encode", "IN", "OUT", *ENCODE], RAW),
           ("encode of a WAV file", ["encode", "IN", "OUT"], WAVE)]
NAMES = {b"\0": "zeros", b"": "a line of text"}


def named(text):
    return NAMES.get(text, repr(text.decode()))


def forced(words):
    return words if "--force" in words else [*words, "--force"]


def source_of(place, words):
    """What IN is: a stream, one that keeps a WAV file, a WAV file or raw samples."""
    if words[0] == "retag" or words == DECODE:
        return NATIVE
    if words[0] == "encode":
        return RAW if "--rate" in words else WAVE
    names = {"IN": place.put("kept.wav", WAVE), "OUT": place.path("kept.flac")}
    expect(place.call(["encode", "IN", "OUT"], names), (0, b"", ""))
    return read(names["OUT"])


def kept(place, words, old, source=None, name="out", before=(), **more):
    """OUT is not replaced: it and IN have their bytes, and no other file is there."""
    names = {"IN": place.put("in", source_of(place, words) if source is None else source), "OUT": place.put(name, old)}
    given, found = read(names["IN"]), set(os.listdir(place.folder))
    more_of_it = ": it may be another song, which --force replaces" if words[0] in ("recode", "salvage") else ""
    place.refused(words, names, f"{names['OUT']}: cannot be created{more_of_it}", before, **more)
    expect((read(names["IN"]), read(names["OUT"]), set(os.listdir(place.folder))), (given, old, found))


def replaced(place, words, old, source=None, name="out", due=None):
    """OUT has what the job writes into a new file, and no other file is there."""
    source = source_of(place, words) if source is None else source
    due, names = due_of(place, words, source) if due is None else due, {"IN": place.put("in", source), "OUT": place.put(name, old)}
    found = set(os.listdir(place.folder))
    expect(place.call(words, names), (0, b"", ""))
    expect((read(names["OUT"]), set(os.listdir(place.folder))), (due, found))


JOBS_OF_KINDS = [("decode", DECODE, ()), ("decode --wav", DECODE_WAVE, WAVES), ("encode", ["encode", "IN", "OUT", *ENCODE], STREAMS),
                 ("encode --ogg", ["encode", "IN", "OUT", *ENCODE, "--ogg"], STREAMS), ("encode of a WAV file", ["encode", "IN", "OUT"], STREAMS)]
"""A job, its words, and the files of sound that it may replace."""


def kind_cases():
    """A file of sound is replaced by its own kind alone, any other file by each job."""
    for name, words, own in JOBS_OF_KINDS:
        for text in KINDS:
            old = text + bytes(60)
            call = replaced if text in own else kept
            yield f"{name}: OUT begins with {named(text)}", lambda p, c=call, w=words, o=old: c(p, w, o)
            yield f"{name}: OUT is {named(text)} alone", lambda p, c=call, w=words, o=text: c(p, w, o)
            yield f"{name} --force: OUT begins with {named(text)}", lambda p, w=words, o=old: replaced(p, [*w, "--force"], o)
        for text in PLAIN:
            yield f"{name}: OUT begins with {named(text)}, no file of sound", lambda p, w=words, o=text + BEFORE: replaced(p, w, o)
        yield f"{name}: OUT is a whole stream", lambda p, w=words, c=replaced if STREAMS == own else kept: c(p, w, NATIVE)
        yield f"{name}: OUT is a whole Ogg stream", lambda p, w=words, c=replaced if STREAMS == own else kept: c(p, w, OGG)
        yield f"{name}: OUT is a whole WAV file", lambda p, w=words, c=replaced if WAVES == own else kept: c(p, w, WAVE)
    yield "decode: OUT is a WAV file by its name", lambda p: replaced(p, DECODE, WAVE + b"\0", source_of(p, DECODE_WAVE), "out.wav", WAVE)
    yield "decode: OUT is a stream, its name that of a WAV file", lambda p: kept(p, DECODE, NATIVE, source_of(p, DECODE_WAVE), "out.wav")
    yield "decode: OUT is not to be read", lambda p: not_to_be_read(p)
    yield "decode *.flac: the second song stays", lambda p: kept(p, DECODE, NATIVE + b"\0", name="second.flac")
    yield "encode *.wav: the second song stays", lambda p: kept(p, ["encode", "IN", "OUT"], WAVE + b"\0", name="second.wav")
    yield "standard output is added to, whatever it is", lambda p: added(p)


def not_to_be_read(place):
    """It may be a song: it is not replaced, but with --force."""
    names = {"IN": place.put("in", NATIVE), "OUT": place.put("out", OGG)}
    os.chmod(place.folder, 0o777)
    os.chmod(names["OUT"], 0o222)
    place.refused(DECODE, names, f"{names['OUT']}: cannot be created", **devices.other_user())
    expect((read(names["OUT"]), set(os.listdir(place.folder))), (OGG, {"in", "out"}))
    expect(place.call([*DECODE, "--force"], names, **devices.other_user()), (0, b"", ""))
    expect(os.stat(names["OUT"]).st_size > 0 and read(names["OUT"]) != OGG, True)


def added(place):
    names, due = {"IN": place.put("in", NATIVE), "OUT": "/dev/stdout"}, due_of(place, DECODE, NATIVE)
    with open(place.put("all", OGG), "ab") as out:
        expect(place.call(DECODE, names, stdout=out)[::2], (0, ""))
    expect(read(place.path("all")), OGG + due)


def with_flag(data):
    """The stream's STREAMINFO with the other flag, after which nothing is right."""
    return data[:4] + bytes([data[4] ^ 0x80]) + data[5:]


def retag_cases():
    """A retagging replaces a native stream of the same STREAMINFO alone."""
    other = NATIVE[:30] + bytes([NATIVE[30] ^ 1]) + NATIVE[31:]
    for name, old in [("a copy of IN", NATIVE), ("IN with another flag of the last block", with_flag(NATIVE)), ("what IN begins with", NATIVE[:42]),
                      ("IN and more", NATIVE + BEFORE)]:
        yield f"retag: OUT is {name}", lambda p, o=old: replaced(p, RETAG, o)
        yield f"retag: OUT is {name}, IN is a pipe", lambda p, o=old: piped(p, RETAG, o)
    changed = [(f"IN with byte {at} changed", NATIVE[:at] + bytes([NATIVE[at] ^ 0x40]) + NATIVE[at + 1:]) for at in range(42)]
    for name, old in [("another song", other), ("cut in STREAMINFO", NATIVE[:41]), ("an Ogg stream", OGG), ("a WAV file", WAVE), ("text", BEFORE),
                      ("one byte", b"f"), *changed, *((named(text), text + bytes(60)) for text in KINDS)]:
        yield f"retag: OUT is {name}", lambda p, o=old: kept(p, RETAG, o)
        yield f"retag --force: OUT is {name}", lambda p, o=old: replaced(p, [*RETAG, "--force"], o)
    yield "retag: OUT is another song, IN is a pipe", lambda p: piped(p, RETAG, other)
    yield "retag: OUT is new, IN is a pipe", lambda p: piped_into(p, RETAG, None)
    yield "retag: OUT is empty, IN is a pipe", lambda p: piped_into(p, RETAG, b"")
    yield "retag --force: OUT is another song, IN is a pipe", lambda p: piped_into(p, [*RETAG, "--force"], other)
    for name, source, line in [("no stream", b"fLaD" + bytes(60), "marker: 4 BadMarker"), ("cut", NATIVE[:41], "block 0: 3 Truncated"),
                               ("empty", b"", "marker: 3 Truncated"), ("an Ogg stream", OGG, "marker: 4 BadMarker")]:
        yield f"retag: IN is {name}, OUT is another song", lambda p, s=source, t=line: input_refused(p, s, other, t)


def piped(place, words, old):
    """IN is a pipe, which cannot be compared: OUT is not replaced."""
    names = {"IN": "/dev/stdin", "OUT": place.put("out", old)}
    place.refused(words, names, f"{names['OUT']}: cannot be created", stdin=None, input=NATIVE)
    expect((read(names["OUT"]), os.listdir(place.folder)), (old, ["out"]))


def piped_into(place, words, old):
    due, names = due_of(place, words, NATIVE), {"IN": "/dev/stdin", "OUT": place.path("out")}
    if old is not None:
        place.put("out", old)
    expect(place.call(words, names, stdin=None, input=NATIVE), (0, b"", ""))
    expect(read(names["OUT"]), due)


def input_refused(place, source, old, line):
    """IN is refused by its own line, and OUT stays."""
    names = {"IN": place.put("in", source), "OUT": place.put("out", old)}
    place.refused(RETAG, names, f"{names['IN']}: {line}")
    expect((read(names["OUT"]), set(os.listdir(place.folder))), (old, {"in", "out"}))


def forced_cases():
    """Also with --force no file is replaced that the job reads."""
    for name, words, source in WRITING:
        for how in ("path", "link", "hard link"):
            yield f"{name} --force: OUT is IN, by {how}", lambda p, w=forced(words), s=source, h=how: itself(p, w, s, h)
    yield "encode --force: OUT is LIST", lambda p: list_itself(p)


def itself(place, words, source, how):
    path = place.put("in", source)
    out = path if how == "path" else place.path("link")
    if how != "path":
        (os.symlink if how == "link" else os.link)(path, out)
    place.refused(words, {"IN": path, "OUT": out}, f"{out}: cannot be created")
    expect(read(path), source)


def list_itself(place):
    path = place.put("list", devices.LIST)
    names = {"IN": place.put("in", RAW), "OUT": path, "LIST": path}
    place.refused(["encode", "IN", "OUT", *devices.LISTED, "--force"], names, f"{path}: cannot be created")
    expect(read(path), devices.LIST)


def raw_cases():
    """A file of sound is no raw samples, but with --raw."""
    words = ["encode", "IN", "OUT", *ENCODE]
    for text in KINDS:
        source = text + bytes(-len(text) % 4) + RAW
        for how in ("file", "pipe"):
            yield f"encode: IN begins with {named(text)}, a {how}", lambda p, s=source, h=how: not_raw(p, words, s, h)
            yield f"encode --raw: IN begins with {named(text)}, a {how}", lambda p, s=source, h=how: comes_back(p, [*words, "--raw"], s, h)
        yield f"encode: IN is {named(text)} alone", lambda p, s=text: not_raw(p, words, s, "file")
    for text in PLAIN:
        source = text + bytes(-len(text) % 4) + RAW
        yield f"encode: IN begins with {named(text)}, no file of sound", lambda p, s=source: comes_back(p, words, s, "file")
    yield "encode: IN is a stream", lambda p: not_raw(p, words, NATIVE, "file")
    yield "encode: IN is a WAV file", lambda p: not_raw(p, words, WAVE, "pipe")
    yield "encode: IN is one of part of a sample", lambda p: refused_as(p, words, b"fLa", "48 RawLength")
    yield "encode --raw: IN is one of part of a sample", lambda p: refused_as(p, [*words, "--raw"], b"ID3", "48 RawLength")
    yield "encode: the format goes before", lambda p: refused_as(p, ["2000000" if word == "44100" else word for word in words], NATIVE, "40 BadRate")
    yield "encode: a line of the list goes before", lambda p: bad_line(p)


def given(place, source, how):
    """The name of IN, and the words of a call that gives it."""
    return ("/dev/stdin", {"stdin": None, "input": source}) if how == "pipe" else (place.put("in", source), {})


def not_raw(place, words, source, how):
    """Refused, and nothing is written: a new OUT is empty, one with bytes stays."""
    path, more = given(place, source, how)
    place.refused(words, {"IN": path, "OUT": place.path("out")}, f"{path}: 56 NotRaw", **more)
    expect(read(place.path("out")), b"")
    place.refused(words, {"IN": path, "OUT": place.put("out", BEFORE)}, f"{path}: 56 NotRaw", **more)
    expect((read(place.path("out")), os.path.exists(place.path("out.part"))), (BEFORE, False))


def comes_back(place, words, source, how):
    path, more = given(place, source, how)
    expect(place.call(words, {"IN": path, "OUT": place.path("out.flac")}, **more), (0, b"", ""))
    expect(place.call(DECODE, {"IN": place.path("out.flac"), "OUT": place.path("back")}), (0, b"", ""))
    expect(read(place.path("back")), source)


def refused_as(place, words, source, line):
    path = place.put("in", source)
    place.refused(words, {"IN": path, "OUT": place.path("out")}, f"{path}: {line}")


def bad_line(place):
    names = {"IN": place.put("in", NATIVE), "OUT": place.path("out"), "LIST": place.put("list", b"x")}
    place.refused(["encode", "IN", "OUT", *devices.LISTED], names, f"{names['LIST']}: line 1: 53 PredictorLine")


def word_cases():
    """An OUT of `retag` that has the form of a comment is none; some but not all options of raw samples are no command line."""
    for out in ("TITLE=New", "A=b/c", "=", "=b", "A="):
        yield f"retag IN {out}", lambda p, o=out: no_path(p, ["retag", "IN", o], o)
        yield f"retag IN {out} A=b --force", lambda p, o=out: no_path(p, ["retag", "--force", "IN", o, "A=b"], o)
        yield f"encode IN {out}", lambda p, o=out: no_path(p, ["encode", "IN", o, "A=b", "--force"], o)
        yield f"encode IN {out}, raw samples", lambda p, o=out: no_path(p, ["encode", "IN", o, *ENCODE], o)
    for out in ("./TITLE=New", "below/A=b", "./below=/A=b"):
        yield f"retag IN {out}", lambda p, o=out: taken(p, o)
    for words in (ENCODE[:2], ENCODE[:4], ENCODE[2:6], ["--raw"], ["--raw", *ENCODE[:4]]):
        yield f"encode IN OUT {' '.join(words)}", lambda p, w=words: missing(p, w)
    for words in (["test", "IN", "--force"], ["list", "IN", "--force"], ["decode", "IN", "OUT", "--raw"], ["retag", "IN", "OUT", "--raw"]):
        yield " ".join(words), lambda p, w=words: expect(p.call(w, {"IN": p.put("in", NATIVE), "OUT": p.path("out")})[0], 2)
    for command, options in (("decode", ["--force"]), ("encode", ["--force", "--raw"]), ("retag", ["--force"])):
        for option in options:
            yield f"{command}: help on {option}", lambda p, c=command, o=option: expect(o in p.call([c, "--help"], {})[1].decode(), True)


def long_name_cases():
    """A name of up to 255 bytes is replaced as any other, by a new file with a shorter name beside it, which is gone then."""
    for name, words, _ in WRITING:
        for length in (1, 249, 250, 251, 252, 255):
            yield f"{name}: OUT has a name of {length} bytes", lambda p, w=words, n=length: replaced(p, w, devices.before_of(w), name="a" * n)
        yield f"{name}: OUT has a name of 255 bytes, in letters of two", lambda p, w=words: replaced(p, w, devices.before_of(w), name="é" * 127 + "a")
    yield "decode: the new file beside a long name has what was written", lambda p: long_part(p)


def long_part(place):
    """If the job fails, the new file stays; its name is the first 250 bytes and .part."""
    name = "b" * 255
    names = {"IN": place.put("in", NATIVE + b"\0"), "OUT": place.put(name, BEFORE)}
    expect(place.call(DECODE, names)[0], 1)
    expect((read(names["OUT"]), len(read(place.path(name[:250] + ".part"))) > 0), (BEFORE, True))


def no_path(place, words, out):
    names = {"IN": place.put("in", NATIVE)}
    line = f"flac: command: OUT has the form of a comment; a file of that name is ./{out}\n"
    expect(place.call(words, names, cwd=place.folder), (2, b"", line))
    expect(os.listdir(place.folder), ["in"])


def taken(place, out):
    for folder in ("below", "below="):
        os.mkdir(place.path(folder))
    due = due_of(place, RETAG[:3], NATIVE)
    expect(place.call(["retag", "IN", out], {"IN": place.put("in", NATIVE)}, cwd=place.folder), (0, b"", ""))
    expect(read(place.path(out)), due)


def missing(place, words):
    names = {"IN": place.put("in", RAW), "OUT": place.path("out")}
    expect(place.call(["encode", "IN", "OUT", *words], names), (2, b"", "flac: command: raw samples need --rate, --channels and --bits\n"))
    expect(os.path.exists(names["OUT"]), False)


RECODE, EXPORT = ["recode", "IN", "OUT"], ["export", "IN", "0", "OUT"]
WHOLE = [("recode", RECODE), ("export", EXPORT)]
"""Jobs of which OUT is of use only as a whole."""


def whole_cases(library):
    """OUT of these jobs is there when all of it is: before, and after a job that failed, there is no new file."""
    cut = NATIVE[:-1]
    lacks = [("recode", RECODE, cut, answer_of(cut)), ("recode", RECODE, NATIVE + b"\0", answer_of(NATIVE + b"\0")), ("recode", RECODE, b"", "marker: 3 Truncated"),
             ("export", ["export", "IN", "99", "OUT"], NATIVE, None), ("export", EXPORT, b"fLaD", "marker: 4 BadMarker")]
    for number, (name, words, source, line) in enumerate(lacks):
        for old in (None, b"", BEFORE):
            what = "new" if old is None else "replaced" if old else "empty"
            yield f"{name} of input {number} is refused, OUT is {what}", lambda p, w=words, s=source, t=line, o=old: not_made(p, w, s, t, o, o)
    for name, words in WHOLE:
        for old in (None, b"", BEFORE):
            what = "new" if old is None else "replaced" if old else "empty"
            yield f"{name}: OUT is {what}", lambda p, w=words, o=old: made_whole(p, w, o)
            yield f"{name}: OUT is {what}, and cannot be written", lambda p, w=words, o=old: not_written(p, library, w, o)
            yield f"{name}: OUT is {what}, and cannot be stored", lambda p, w=words, o=old: not_stored_whole(p, library, w, o)
        yield f"{name}: OUT is a link that leads nowhere", lambda p, w=words: through_link(p, w)
        yield f"{name}: OUT.part is taken", lambda p, w=words: part_taken(p, w)
        yield f"{name}: another program makes OUT meanwhile", lambda p, w=words: came_meanwhile(p, w)
        yield f"{name}: a folder that is not there", lambda p, w=words: no_folder(p, w)
        yield f"{name}: a folder without rights", lambda p, w=words: no_rights(p, w)
        for mask in (0, 0o22, 0o77):
            yield f"{name}: a new OUT under the mask {mask:o}", lambda p, w=words, m=mask: masked(p, w, m)
        for length in (249, 250, 251, 255):
            yield f"{name}: a new OUT with a name of {length} bytes", lambda p, w=words, n=length: made_whole(p, w, None, "a" * n)
        yield f"{name}: OUT is a device", lambda p, w=words: expect(p.call(w, {"IN": p.put("in", NATIVE), "OUT": "/dev/null"}), (0, b"", ""))
        yield f"{name}: OUT is -", lambda p, w=words: expect(p.call(w, {"IN": p.put("in", NATIVE), "OUT": "-"})[::2], (0, ""))


def came_meanwhile(place, words):
    """While the job writes, another program makes a file of the name OUT: that stays, and nothing is beside it."""
    names, part = {"IN": "-", "OUT": place.path("out")}, place.path("out.part")
    called = [place.binary, *(names.get(word, word) for word in words)]
    with subprocess.Popen(called, stdin=subprocess.PIPE, stdout=subprocess.DEVNULL, stderr=subprocess.PIPE) as job:
        job.stdin.write(NATIVE[:8])
        job.stdin.flush()
        ends = time.time() + 20
        while not os.path.exists(part) and time.time() < ends:
            time.sleep(0.01)
        place.put("out", BEFORE)
        job.stdin.write(NATIVE[8:])
        job.stdin.close()
        line = f"flac: {names['OUT']}: cannot be stored: another program made a file of that name meanwhile\n"
        expect((job.wait(60), job.stderr.read().decode()), (1, line))
    expect((read(names["OUT"]), os.listdir(place.folder)), (BEFORE, ["out"]))


NOTHING = [("decode", DECODE, b"no stream", "marker: 4 BadMarker"), ("decode --wav", DECODE_WAVE, b"", "marker: 3 Truncated"),
           ("decode --from", ["decode", "IN", "OUT", "--from", "1"], b"no stream", "marker: 4 BadMarker"),
           ("decode of its first frame", DECODE, NATIVE[:60], None), ("retag", RETAG, OGG, "marker: 4 BadMarker"),
           ("encode", ["encode", "IN", "OUT", *ENCODE], b"odd", "48 RawLength"), ("encode of a WAV file", ["encode", "IN", "OUT"], b"no WAV file", None),
           ("encode of a WAV file that is cut", ["encode", "IN", "OUT"], WAVE[:-1], "chunk 1: 69 DataCut"), ("encode --ogg", ["encode", "IN", "OUT", "--ogg"], b"", None)]
"""Jobs that are refused before anything is written."""


def nothing_cases():
    """A new OUT to which a job of a WAV file wrote nothing is removed; one of another job stays, empty, and so does a file that was there, and a link,
    whatever it leads to."""
    for name, words, source, line in NOTHING:
        new = None if is_of_wave(words) else b""
        yield f"{name}: nothing is written to a new OUT", lambda p, w=words, s=source, t=line, n=new: not_made(p, w, s, t, None, n)
        yield f"{name}: nothing is written to an empty OUT", lambda p, w=words, s=source, t=line: not_made(p, w, s, t, b"", b"")
        yield f"{name}: nothing is written to a link to an empty file", lambda p, w=words, s=source: link_stays(p, w, s)
        yield f"{name}: nothing is written to a pipe", lambda p, w=words, s=source: pipe_stays(p, w, s)
    yield "decode: what was written to a new OUT stays", lambda p: part_stays(p)


def link_stays(place, words, source):
    names = {"IN": place.put("in", source), "OUT": place.path("out")}
    os.symlink(place.put("target", b""), names["OUT"])
    expect(place.call(words, names)[:2], (1, b""))
    expect((os.path.islink(names["OUT"]), read(names["OUT"]), set(os.listdir(place.folder))), (True, b"", {"in", "out", "target"}))


def pipe_stays(place, words, source):
    names = {"IN": place.put("in", source), "OUT": place.path("out")}
    os.mkfifo(names["OUT"])
    with subprocess.Popen(["cat", names["OUT"]], stdout=subprocess.PIPE) as reader:
        expect(place.call(words, names)[:2], (1, b""))
        expect(reader.communicate(timeout=60)[0], b"")
    expect(set(os.listdir(place.folder)), {"in", "out"})


def part_stays(place):
    names, due = {"IN": place.put("in", NATIVE + b"\0"), "OUT": place.path("out")}, due_of(place, DECODE, NATIVE)
    expect(place.call(DECODE, names)[:2], (1, b""))
    expect(read(names["OUT"]), due)


MISNAMED = [("recode", ["recode", "IN", "OUT"]), ("salvage", ["salvage", "IN", "OUT"])]
"""Jobs that write streams alone, and none to a name of a WAV file."""


def name_cases():
    """A job makes no file whose name is that of something else; with --force it does."""
    for name, words in MISNAMED:
        for out in ("a.wav", "a.WAV", ".wav"):
            yield f"{name}: OUT is {out}", lambda p, w=words, o=out: misnamed(p, w, o)
        for out in ("flac", "a.flacc", "wav", "a.wave", "a.flac.raw", "a.wav.bin"):
            yield f"{name}: OUT is {out}, no such name", lambda p, w=words, o=out: well_named(p, w, o)
    yield "decode: OUT has the name of a stream", lambda p: well_named(p, DECODE, "a.flac")
    yield "export: OUT has the name of a stream", lambda p: well_named(p, EXPORT, "a.flac")
    yield "encode: OUT has the name of a WAV file", lambda p: well_named(p, ["encode", "IN", "OUT", *ENCODE], "a.wav", RAW)
    yield "retag: OUT has the name of a WAV file", lambda p: well_named(p, RETAG, "a.wav")


def misnamed(place, words, out):
    line = "flac decode writes WAV files"
    names = {"IN": place.put("in", NATIVE), "OUT": place.path(out)}
    place.refused(words, names, f"{names['OUT']}: cannot be created: {line}; --force writes a stream all the same")
    expect(os.listdir(place.folder), ["in"])
    absent = os.path.join(place.folder, "absent", out)
    place.refused(words, names | {"OUT": absent}, f"{absent}: cannot be created")
    well_named(place, [*words, "--force"], out)
    # a file that is there, and is no other song, is replaced as any other
    for old in (b"", BEFORE):
        place.put(out, old)
        well_named(place, words, out)


def well_named(place, words, out, source=NATIVE):
    names = {"IN": place.put("in", source), "OUT": place.path(out)}
    expect(place.call(words, names), (0, b"", ""))
    expect((os.path.getsize(names["OUT"]) > 0, set(os.listdir(place.folder))), (True, {"in", out}))


def held_file(place, words, source, later, begun):
    """While a job writes a new OUT, another job with that OUT is refused; the first one ends as if it were alone."""
    names = {"IN": place.put("in", later), "OUT": place.path("out")}
    called = [place.binary, *({"IN": "-", "OUT": names["OUT"]}.get(word, word) for word in words)]
    first = subprocess.Popen(called, stdin=subprocess.PIPE, stdout=subprocess.DEVNULL, stderr=subprocess.PIPE)
    with first:
        first.stdin.write(source[:begun])
        first.stdin.flush()
        ends = time.time() + 20
        while not os.path.exists(names["OUT"]) and time.time() < ends:
            time.sleep(0.01)
        place.refused(words, names, f"{names['OUT']}: cannot be created")
        first.stdin.write(source[begun:])
        first.stdin.close()
        expect((first.wait(60), first.stderr.read()), (0, b""))
    alone = {"IN": place.put("alone.in", source), "OUT": place.path("alone")}
    expect(place.call(words, alone)[::2], (0, ""))
    expect(read(names["OUT"]), read(alone["OUT"]))


def held_cases():
    """Two jobs with one new OUT."""
    for name, words, source in (("decode", DECODE, NATIVE), ("encode", ["encode", "IN", "OUT", *ENCODE], RAW), ("encode of a WAV file", ["encode", "IN", "OUT"], WAVE)):
        yield f"{name}: another job writes to OUT", lambda p, w=words, s=source: held_file(p, w, s, s, 8)


def recoded_cases():
    """A stream that is encoded anew replaces no other song, whatever the container; --force lets it."""
    other, unknown = NATIVE[:26] + bytes([NATIVE[26] ^ 1]) + NATIVE[27:], NATIVE[:26] + bytes(16) + NATIVE[42:]
    for name in ("recode", "salvage"):
        words = [name, "IN", "OUT"]
        yield f"{name} *.flac: the second song stays", lambda p, w=words: kept(p, w, other, NATIVE, "second.flac")
        for what, old in (("an Ogg stream", OGG), ("a WAV file", WAVE), ("begun as an ID3 tag", b"ID3" + bytes(60)), ("the marker alone", b"fLaC")):
            yield f"{name}: OUT is {what}", lambda p, w=words, o=old: kept(p, w, o, NATIVE)
        yield f"{name}: OUT is the same song", lambda p, w=words: anew(p, w, NATIVE, NATIVE)
        yield f"{name}: neither has a digest", lambda p, w=words: kept(p, w, unknown, unknown)
        for what, old in (("another song", other), ("an Ogg stream", OGG), ("a WAV file", WAVE)):
            yield f"{name} --force: OUT is {what}", lambda p, w=words, o=old: anew(p, [*w, "--force"], o, NATIVE)
        yield f"{name}: OUT is no file of sound", lambda p, w=words: anew(p, w, BEFORE, NATIVE)
        yield f"{name}: OUT has no name", lambda p, w=words: no_name(p, w)
    yield "recode of an Ogg stream: OUT is a stream", lambda p: kept(p, RECODE, NATIVE, OGG)
    yield "export: OUT has no name", lambda p: no_name(p, EXPORT)


def anew(place, words, old, source):
    """OUT has a new stream of the samples of IN, and no other file is there."""
    names = {"IN": place.put("in", source), "OUT": place.put("out", old)}
    expect(place.call(words, names), (0, b"", ""))
    expect(set(os.listdir(place.folder)), {"in", "out"})
    expect(place.call(["same", "IN", "OUT"], names)[0], 0)


def no_name(place, words):
    names = {"IN": place.put("in", NATIVE), "OUT": ""}
    expect(place.call(words, names, cwd=place.folder), (1, b"", "flac: : cannot be created\n"))
    expect(os.listdir(place.folder), ["in"])


def answer_of(data):
    return model.answer(data, model.LAX)


def is_of_wave(words):
    return words in (DECODE_WAVE, ["encode", "IN", "OUT"], ["encode", "IN", "OUT", "--ogg"])


def not_made(place, words, source, line, old, due):
    names = names_of(place, source, old)
    status, out, error = place.call(words, names)
    expect((status, out, error.startswith(f"flac: {names['IN']}: ")), (1, b"", True))
    if line is not None:
        expect(error, f"flac: {names['IN']}: {line}\n")
    expect(set(os.listdir(place.folder)), {"in"} | ({"out"} if due is not None else set()))
    expect(read(names["OUT"]) if due is not None else None, due)


def made_whole(place, words, old, name="out"):
    """All of it is written to the file in place if there is an empty one, and else to a new file."""
    names = {"IN": place.put("in", NATIVE), "OUT": place.path(name)}
    if old is not None:
        place.put(name, old)
    before = os.stat(names["OUT"]).st_ino if old == b"" else None
    expect(place.call(words, names), (0, b"", ""))
    expect(set(os.listdir(place.folder)), {"in", name})
    expect(len(read(names["OUT"])) > 33, True)
    if old == b"":
        expect(os.stat(names["OUT"]).st_ino, before)


def not_written(place, library, words, old):
    """A write that fails leaves no new file, and a file that has bytes as it was."""
    names = names_of(place, NATIVE, old)
    found, _ = calls(place, library, words, names, "write")
    expect((found[0], found[1], found[2].startswith("flac: ")), (1, b"", True))
    expect(set(os.listdir(place.folder)), {"in"} | ({"out"} if old is not None else set()))
    if old:
        expect(read(names["OUT"]), old)


def not_stored_whole(place, library, words, old):
    """All was written, so it stays, beside OUT if that may be another file."""
    names = names_of(place, NATIVE, old)
    found, _ = calls(place, library, words, names, "fsync")
    expect(found, (1, b"", f"flac: {names['OUT']}: cannot be {'replaced' if old else 'stored'}\n"))
    left = {None: {"out.part"}, b"": {"out"}, BEFORE: {"out", "out.part"}}[old]
    expect(set(os.listdir(place.folder)), {"in"} | left)


def through_link(place, words):
    names = {"IN": place.put("in", NATIVE), "OUT": place.path("out")}
    os.symlink("nowhere", names["OUT"])
    expect(place.call(words, names), (0, b"", ""))
    expect((os.path.islink(names["OUT"]), set(os.listdir(place.folder))), (True, {"in", "out", "nowhere"}))


def part_taken(place, words):
    names = {"IN": place.put("in", NATIVE), "OUT": place.path("out")}
    place.put("out.part", BEFORE)
    expect(place.call(words, names), (0, b"", ""))
    expect((read(place.path("out.part")), set(os.listdir(place.folder))), (BEFORE, {"in", "out", "out.part"}))


def no_folder(place, words):
    names = {"IN": place.put("in", NATIVE), "OUT": place.path("absent/out")}
    place.refused(words, names, f"{names['OUT']}: cannot be created")
    expect(os.listdir(place.folder), ["in"])


def no_rights(place, words):
    names = {"IN": place.put("in", NATIVE), "OUT": place.path("below/out")}
    os.mkdir(place.path("below"), 0o555)
    place.refused(words, names, f"{names['OUT']}: cannot be created", **devices.other_user())
    expect(os.listdir(place.path("below")), [])


def masked(place, words, mask):
    """A new file has the permissions that any new file has."""
    names = {"IN": place.put("in", NATIVE), "OUT": place.path("out")}
    expect(place.call(words, names, umask=mask), (0, b"", ""))
    expect(os.stat(names["OUT"]).st_mode & 0o7777, 0o666 & ~mask)


def stored_cases(library):
    """A regular OUT is stored before status 0, no other; a new file beside OUT never has more permissions than OUT."""
    for name, words, source in WRITING:
        for old in (None, b"", BEFORE):
            what = "new" if old is None else "replaced" if old else "empty"
            yield f"{name}: OUT is {what}, and stored", lambda p, w=words, s=source, o=old: stored(p, library, w, s, o)
            yield f"{name}: OUT is {what}, and cannot be stored", lambda p, w=words, s=source, o=old: not_stored(p, library, w, s, o)
        for out in ("/dev/null", "/dev/stdout", "a pipe"):
            yield f"{name}: OUT is {out}, which is not stored", lambda p, w=words, s=source, o=out: not_regular(p, library, w, s, o)
        for mode in (0o600, 0o640, 0o666, 0o200):
            yield f"{name}: the new file beside OUT is created with mode {mode:o}", lambda p, w=words, s=source, m=mode: created(p, library, w, s, m)


def calls(place, library, words, names, failing=None, **more):
    """What comes of a call in which the first request of this kind fails, and how often each kind was asked for."""
    report = place.path("report")
    env = {"LD_PRELOAD": library, "FAILING_REPORT": report, "FAILING_CALL": failing or "", "FAILING_NUMBER": "1", "FAILING_HOW": "5"}
    found = place.call(words, names, env=env, **more)
    last = read(report).decode().splitlines()[-1].split()
    os.remove(report)
    return found, {name: int(count) for name, count in (pair.split("=") for pair in last[1:])}


def names_of(place, source, old):
    if old is not None:
        place.put("out", old)
    return {"IN": place.put("in", source), "OUT": place.path("out")}


def stored(place, library, words, source, old):
    names = names_of(place, source, old)
    found, count = calls(place, library, words, names)
    expect((found, count["fsync"]), ((0, b"", ""), 1))


def not_stored(place, library, words, source, old):
    names, due = names_of(place, source, old), due_of(place, words, source)
    found, _ = calls(place, library, words, names, "fsync")
    expect(found, (1, b"", f"flac: {names['OUT']}: cannot be {'replaced' if old else 'stored'}\n"))
    expect((read(names["OUT"]), read(place.path("out.part")) if old else None), (old, due) if old else (due, None))


def not_regular(place, library, words, source, out):
    path = place.path("pipe") if out == "a pipe" else out
    if out == "a pipe":
        os.mkfifo(path)
        reader = subprocess.Popen(["cat", path], stdout=subprocess.PIPE)
    found, count = calls(place, library, words, {"IN": place.put("in", source), "OUT": path})
    if out == "a pipe":
        # a program that did not open the pipe would leave its reader waiting
        if found[0]:
            reader.kill()
        expect(reader.communicate()[0], due_of(place, words, source))
    expect((found[0], found[2], count["fsync"]), (0, "", 0))


def created(place, library, words, source, mode):
    """The permissions are not set afterwards: the new file has those with which it was created."""
    names = names_of(place, source, BEFORE)
    os.chmod(names["OUT"], mode)
    found, count = calls(place, library, forced(words), names, "fchmod", umask=0)
    expect((found, count["fchmod"], os.stat(names["OUT"]).st_mode & 0o7777), ((0, b"", ""), 1, mode))


def main():
    parser = argparse.ArgumentParser(description=__doc__, formatter_class=argparse.RawDescriptionHelpFormatter)
    parser.add_argument("--quick", action="store_true", help="the same: it takes seconds")
    parser.add_argument("--only", default="", help="only the cases whose name has this text")
    words, began = parser.parse_args(), time.time()
    with tempfile.TemporaryDirectory() as folder, ThreadPoolExecutor(devices.JOBS) as pool:
        os.chmod(folder, 0o755)
        binary, library = shutil.copy(program.BINARY, os.path.join(folder, "flac")), os.path.join(folder, "failing.so")
        subprocess.run(["cc", "-O1", "-shared", "-fPIC", "-o", library, os.path.join(HERE, "failing.c")], check=True)
        groups = (kind_cases(), retag_cases(), forced_cases(), raw_cases(), word_cases(), long_name_cases(), whole_cases(library), held_cases(), recoded_cases(), nothing_cases(), name_cases(),
                  stored_cases(library))
        every = [case for group in groups for case in group if words.only in case[0]]
        found = list(pool.map(lambda case: devices.outcome(case, folder, binary), every))
    for _, line in found:
        print(line, end="\n" if line else "")
    count = {state: sum(1 for one, _ in found if one == state) for state in ("passed", "failed")}
    print(f"files: {len(every)} cases, {count['passed']} passed, {count['failed']} failed, {time.time() - began:.0f} seconds")
    return 1 if count["failed"] or not every else 0


if __name__ == "__main__":
    sys.exit(main())
