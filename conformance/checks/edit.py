#!/usr/bin/env python3
"""Edits of metadata blocks by `flac edit`, and what `flac export` writes, against a model of the edits, metaflac and mutagen.

usage: conformance/checks/edit.py [--quick] [--seed N]

Cue sheets of several formats have to give the block that metaflac --import-cuesheet-from gives, and be exported as by metaflac
--export-cuesheet-to. They differ on purpose in a stream with the format of a CD that is no whole number of frames of 588 samples:
its sheet is that of no CD here (lead-out 255, lead-in 0, places as numbers of samples), where metaflac keeps lead-out 170 and
lead-in 88200; and in where a new sheet is put, before comments and padding. Seek tables have to be those of metaflac
--add-seekpoint for the same samples, in the place of the old ones. Layouts of blocks are those of tag.py. What has to hold
of each edit: the file is the marker, the blocks of the model, and the frames byte for byte. Pictures by pnmtopng, pngquant and
cjpeg have to give the block that metaflac --import-picture-from gives, and come back by metaflac --export-picture-to and `flac
export`. A file that is refused stays as it was, and the next one is edited. FLAC names the program. Status 1 if anything is wrong.
"""
import argparse
import os
import random
import resource
import shutil
import signal
import stat
import struct
import subprocess
import sys
import tempfile

import folders  # noqa: F401  (the path of the modules below)
from other_readers import read_by_others
from program import PROGRAM, Wrong, expect, read
from tag import COMMENTS, PADDING, blocks_of, content_of, layout, stream_of

PICTURE, APPLICATION, CUESHEET, SEEKTABLE = 6, 2, 5, 3
NAMES = {1: "padding", 2: "application", 3: "seektable", 4: "vorbis_comment", 5: "cuesheet", 6: "picture"}


def run(*words, limit=None):
    """The status, standard output and standard error; with a limit no file may grow above so many bytes."""
    def limited():
        signal.signal(signal.SIGXFSZ, signal.SIG_IGN)
        resource.setrlimit(resource.RLIMIT_FSIZE, (limit, limit))
    done = subprocess.run([PROGRAM, *words], stdout=subprocess.PIPE, stderr=subprocess.PIPE, timeout=120, check=False,
                          preexec_fn=limited if limit is not None else None)
    return done.returncode, done.stdout, done.stderr


# ---- the model

def picture_body(kind, media, sizes, data):
    width, height, depth, colours = sizes
    return struct.pack(">II", kind, len(media)) + media + struct.pack(">IIIII", 0, width, height, depth, colours) \
        + struct.pack(">I", len(data)) + data


def is_meant(removal, number, block):
    kind, body = block
    if isinstance(removal, int):
        return number == removal
    name, _, identifier = removal.partition(":")
    if identifier:
        due = bytes.fromhex(identifier[2:]) if identifier.startswith("0x") else identifier.encode()
        return kind == APPLICATION and body[:4] == due
    return name.lower() == NAMES.get(kind, f"type_{kind}")


def edited(blocks, removals, pictures, padding, sheets=(), tables=None):
    gone = [PADDING] * (padding is not None) + [CUESHEET] * bool(sheets) + [SEEKTABLE] * (tables is not None)
    kept = [b for i, b in enumerate(blocks) if i == 0 or not (any(is_meant(r, i, b) for r in removals) or b[0] in gone)]
    at = next((i for i, b in enumerate(kept) if b[0] in (PADDING, COMMENTS)), len(kept))
    new = [(SEEKTABLE, body) for body in tables or ()] + [(CUESHEET, body) for body in sheets] + [(PICTURE, body) for body in pictures]
    kept = kept[:at] + new + kept[at:]
    return kept + ([(PADDING, bytes(padding))] if padding else [])


# ---- random layouts

def one(rng, folder, info, frames, number):
    path, cover = os.path.join(folder, f"{number}.flac"), os.path.join(folder, "any.bin")
    old = stream_of(layout(rng, info, number % 40 == 39), frames)
    with open(path, "wb") as file:
        file.write(old)
    os.chmod(path, 0o600 if number % 2 else 0o644)
    mode = stat.S_IMODE(os.stat(path).st_mode)
    blocks, _ = blocks_of(old)
    removals = []
    for _ in range(rng.randrange(3)):
        kind = rng.choice([1, 2, 3, 4, 5, 6, 9])
        name = NAMES.get(kind, f"type_{kind}")
        removals.append(rng.choice([name, name.upper(), "application:test", "application:0x74657374", "application:none"]))
    if len(blocks) > 1 and rng.random() < 0.5:
        removals.append(rng.randrange(1, len(blocks)))
    data, sizes, kind = rng.randbytes(rng.choice([0, 7, 20000])), [rng.randrange(5000) for _ in range(4)], rng.choice([0, 3, 4, 20])
    pictures = rng.choice([0, 0, 1, 2])
    padding = rng.choice([None, None, 0, 1, 4096])
    words = [w for r in removals for w in ("--remove-block", str(r))]
    if padding is not None:
        words += ["--padding", str(padding)]
    if pictures:
        with open(cover, "wb") as file:
            file.write(data)
        words += ["--picture", f"{kind}:image/x:{sizes[0]}x{sizes[1]}x{sizes[2]}/{sizes[3]}:{cover}"] * pictures
    if not words:
        words, padding = ["--padding", "77"], 77
    due = stream_of(edited(blocks, removals, [picture_body(kind, b"image/x", sizes, data)] * pictures, padding), frames)
    times, before = rng.choice([[], ["--keep-times"]]), os.stat(path)
    what = "same" if due == old else "rewritten"
    expect(run("edit", "-v", *times, *words, path), (0, f"{path}: {what}\n".encode(), b""))
    expect(read(path), due)
    if due == old:
        expect((os.stat(path).st_ino, os.stat(path).st_mtime_ns), (before.st_ino, before.st_mtime_ns))
    if times:
        expect(os.stat(path).st_mtime_ns, before.st_mtime_ns)
    expect(stat.S_IMODE(os.stat(path).st_mode), mode)
    read_by_others(path, blocks_of(due)[0])
    os.remove(path)


# ---- pictures of other programs

def made_pictures(folder):
    """Pictures of several kinds, and the words by which each is known."""
    ppm = os.path.join(folder, "a.ppm")
    with open(ppm, "wb") as file:
        file.write(b"P6\n31 17\n255\n" + bytes((7 * i * i) % 251 for i in range(31 * 17 * 3)))
    pgm = os.path.join(folder, "a.pgm")
    with open(pgm, "wb") as file:
        file.write(b"P5\n40 9\n255\n" + bytes(i % 256 for i in range(360)))
    pgm16 = os.path.join(folder, "b.pgm")
    with open(pgm16, "wb") as file:
        file.write(b"P5\n4 3\n65535\n" + bytes(range(24)))
    pbm = os.path.join(folder, "a.pbm")
    with open(pbm, "wb") as file:
        file.write(b"P4\n16 2\n" + bytes([1, 2, 3, 4]))
    kinds = {
        "colour.png": ["pnmtopng", ppm], "grey.png": ["pnmtopng", pgm], "deep.png": ["pnmtopng", pgm16], "bits.png": ["pnmtopng", pbm],
        "alpha.png": ["pnmtopng", "-force", f"-alpha={pgm}", pgm], "laced.png": ["pnmtopng", "-interlace", ppm],
        "colour.jpg": ["cjpeg", ppm], "grey.jpg": ["cjpeg", "-grayscale", ppm], "progressive.jpg": ["cjpeg", "-progressive", ppm],
        "restart.jpg": ["cjpeg", "-restart", "1", ppm], "arithmetic.jpg": ["cjpeg", "-arithmetic", ppm],
    }
    found = []
    for name, words in kinds.items():
        if shutil.which(words[0]) is None:
            continue
        done = subprocess.run(words, capture_output=True, check=False)
        if done.returncode == 0 and done.stdout:
            path = os.path.join(folder, name)
            with open(path, "wb") as file:
                file.write(done.stdout)
            found.append(path)
    colour = os.path.join(folder, "colour.png")
    if shutil.which("pngquant") and colour in found:
        for n in (2, 5, 256):
            path = os.path.join(folder, f"indexed{n}.png")
            if subprocess.run(["pngquant", "--force", "--output", path, str(n), colour], capture_output=True, check=False).returncode == 0:
                found.append(path)
    return found


def by_metaflac(folder, stream, kind, path):
    """The content of the picture block that metaflac makes of a file."""
    other = os.path.join(folder, "by_metaflac.flac")
    with open(other, "wb") as file:
        file.write(stream)
    subprocess.run(["metaflac", f"--import-picture-from={kind}||||{path}", other], check=True)
    return [body for k, body in blocks_of(read(other))[0] if k == PICTURE]


def pictures(folder, stream):
    """Each picture gives the block of metaflac, and comes back."""
    files = made_pictures(folder)
    if len(files) < 5:
        print("edit: fewer than five pictures: install netpbm, pngquant and libjpeg-turbo-progs")
    path, out = os.path.join(folder, "pictured.flac"), os.path.join(folder, "out.bin")
    for i, picture in enumerate(files):
        with open(path, "wb") as file:
            file.write(stream)
        kind = (0, 3, 4, 8, 20, 17)[i % 6]
        word = picture if kind == 3 else f"{kind}:{picture}"
        expect(run("edit", "--picture", word, path), (0, b"", b""))
        found = [body for k, body in blocks_of(read(path))[0] if k == PICTURE]
        expect(found, by_metaflac(folder, stream, kind, picture))
        expect(blocks_of(read(path))[1], blocks_of(stream)[1])
        if os.path.exists(out):
            os.remove(out)
        subprocess.run(["metaflac", f"--export-picture-to={out}", path], check=True)
        expect(read(out), read(picture))
        os.remove(out)
        exported(path, picture, out)
        by_mutagen(path, kind, picture)
    return len(files)


def exported(path, picture, out):
    """`flac export` gives the picture, the comments as lines, and the content of each block."""
    expect(run("export", path, "picture", out), (0, b"", b""))
    expect(read(out), read(picture))
    expect(run("export", path, "picture", "-"), (0, read(picture), b""))
    for number, (kind, body) in enumerate(blocks_of(read(path))[0]):
        expect(run("export", path, str(number), "-"), (0, body, b""))
        if kind == COMMENTS:
            expect(run("export", path, "tags", "-")[0], 0)
    os.remove(out)


def by_mutagen(path, kind, picture):
    try:
        from mutagen.flac import FLAC
    except ImportError:
        return
    expect([(p.type, p.data) for p in FLAC(path).pictures], [(kind, read(picture))])


# ---- cue sheets

FORMATS = [(44100, 2, 16, 588 * 400), (44100, 1, 16, 588 * 90), (44100, 2, 16, 588 * 400 + 1), (44100, 2, 24, 588 * 400),
           (48000, 2, 16, 100000), (8000, 1, 8, 44444), (96000, 6, 24, 50000)]


def song(folder, sound, name="song.flac"):
    """A stream of zeros by the reference."""
    rate, channels, bits, total = sound
    path = os.path.join(folder, name)
    subprocess.run(["flac", "-s", "-f", "--force-raw-format", "--sign=signed", "--endian=little", f"--channels={channels}", f"--bps={bits}",
                    f"--sample-rate={rate}", "--lax", "-o", path, "-"], input=bytes(total * channels * bits // 8), check=True)
    return path


def is_like_cd(sound):
    """It has the format of a CD; so metaflac takes only times."""
    return sound[0] == 44100 and sound[1] <= 2 and sound[2] == 16


def is_cd(sound):
    return is_like_cd(sound) and sound[3] % 588 == 0


def time_of(frames):
    return f"{frames // 4500:02d}:{frames // 75 % 60:02d}:{frames % 75:02d}"


def sheet_text(rng, sound):
    """A cue sheet of this audio, as CD tools write it."""
    rate, _, _, total = sound
    timed = is_like_cd(sound) or rate % 75 == 0 and rng.random() < 0.5
    unit = rate // 75 if timed else 1
    end, lines = "\r\n" if rng.random() < 0.3 else "\n", []
    tracks = [(1 if rng.random() < 0.5 else rng.randrange(1, 4), rng.random() < 0.5) for _ in range(rng.randrange(1, 20))]
    while sum(n + pre for n, pre in tracks) > total // unit:
        tracks.pop()
    points = sorted(rng.sample(range(1, total // unit), sum(n + pre for n, pre in tracks) - 1))
    places = iter([0] + points)
    if rng.random() < 0.5:
        lines.append(rng.choice(["REM GENRE x", "PERFORMER \"a b\"", "TITLE \"INDEX 01\"", ""]))
    if rng.random() < 0.5:
        lines.append(rng.choice(["CATALOG 1234567890123", "catalog \"0000000000000\""]))
    lines.append('FILE "x y.wav" WAVE')
    for number, (count, pregap) in enumerate(tracks, 1):
        lines.append(f"  TRACK {number:02d} " + rng.choice(["AUDIO", "AUDIO", "MODE1/2352", "CDG"]))
        if rng.random() < 0.3:
            lines.append('    TITLE "x"')
        if rng.random() < 0.3:
            lines.append("    FLAGS " + rng.choice(["PRE", "DCP", "DCP PRE", "4CH SCMS"]))
        if rng.random() < 0.3:
            lines.append("    ISRC ABCDE" + "".join(rng.choice("0123456789") for _ in range(7)))
        if rng.random() < 0.2:
            lines.append("    PREGAP 00:02:00")
        for index in range(0 if pregap else 1, count + 1):
            at = next(places)
            lines.append(f"    INDEX {index:02d} " + (time_of(at) if timed else str(at)))
    return end.join(lines) + end


def without_sheets(path):
    return [block for block in blocks_of(read(path))[0] if block[0] != CUESHEET]


def sheets_in(path):
    return [body for kind, body in blocks_of(read(path))[0] if kind == CUESHEET]


def of_no_disc(body):
    """What metaflac makes of a stream with the format of a CD that is no whole number of frames, as a sheet of no CD."""
    at = 396
    for _ in range(body[395] - 1):
        at += 36 + 12 * body[at + 35]
    return body[:128] + bytes(8) + body[136:at + 8] + b"\xff" + body[at + 9:]


def one_sheet(rng, folder, path, sound):
    """A sheet goes in as metaflac puts it in, and comes out as metaflac writes it."""
    cue, other = os.path.join(folder, "s.cue"), os.path.join(folder, "other.flac")
    with open(cue, "w", newline="") as file:
        file.write(sheet_text(rng, sound))
    shutil.copyfile(path, other)
    before = read(path)
    done = subprocess.run(["metaflac", f"--import-cuesheet-from={cue}", other], capture_output=True, check=False)
    if done.returncode != 0:
        raise Wrong(f"metaflac refuses {read(cue)!r}: {done.stderr!r}")
    due = sheets_in(other)
    is_odd = is_like_cd(sound) and not is_cd(sound)
    if is_odd:
        due = [of_no_disc(body) for body in due]
    expect(run("edit", "-v", "--cuesheet", cue, path), (0, f"{path}: rewritten\n".encode(), b""))
    expect(sheets_in(path), due)
    expect((without_sheets(path), blocks_of(read(path))[1]), blocks_of(before))
    blocks = [kind for kind, _ in blocks_of(read(path))[0]]
    expect(blocks[blocks.index(CUESHEET) + 1] in (COMMENTS, PADDING), True)
    expect(run("edit", "-v", "--cuesheet", cue, path), (0, f"{path}: same\n".encode(), b""))
    if rng.random() < 0.3:
        expect(subprocess.run(["flac", "-s", "-t", path], capture_output=True, check=False).returncode, 0)
    written = subprocess.run(["metaflac", "--export-cuesheet-to=-", path], capture_output=True, check=True).stdout
    expect(run("export", path, "cuesheet", "-"), (0, written, b""))
    text = os.path.join(folder, "exported.cue")
    expect(run("export", path, "cuesheet", text), (0, b"", b""))
    expect(run("edit", "-v", "--cuesheet", text, path), (0, f"{path}: same\n".encode(), b""))
    if not is_odd:
        with open(other, "wb") as file:
            file.write(before)
        subprocess.run(["metaflac", f"--import-cuesheet-from={text}", other], capture_output=True, check=True)
        expect(sheets_in(other), due)
    with open(path, "wb") as file:
        file.write(before)


WRONG_SHEETS = [
    ("CATALOG 123", 1, "80 CueCatalogue"), ("CATALOG 1234567890123\nCATALOG 1234567890123", 2, "80 CueCatalogue"),
    ("TRACK 01", 1, "81 CueTrack"), ("TRACK 00 AUDIO", 1, "81 CueTrack"), ("TRACK 100 AUDIO", 1, "81 CueTrack"),
    ("TRACK 01 AUDIO\nINDEX 01 00:00:00\nTRACK 03 AUDIO", 3, "81 CueTrack"), ("TRACK 01 AUDIO\nTRACK 02 AUDIO", 2, "82 CueNoIndex"),
    ("TRACK 01 AUDIO\n", 2, "82 CueNoIndex"), ("FLAGS PRE", 1, "83 CueFlags"), ("TRACK 01 AUDIO\nINDEX 01 00:00:00\nFLAGS PRE", 3, "83 CueFlags"),
    ("TRACK 01 AUDIO\nISRC abc", 2, "84 CueIsrc"), ("TRACK 01 AUDIO\nISRC ABCDE1234567\nISRC ABCDE1234567", 3, "84 CueIsrc"),
    ("INDEX 01 00:00:00", 1, "85 CueIndex"), ("TRACK 01 AUDIO\nINDEX 02 00:00:00", 2, "85 CueIndex"),
    ("TRACK 01 AUDIO\nINDEX 01 00:00:00\nINDEX 03 00:00:01", 3, "85 CueIndex"), ("TRACK 01 AUDIO\nINDEX 01", 2, "86 CueOffset"),
    ("TRACK 01 AUDIO\nINDEX 01 588", 2, "86 CueOffset"), ("TRACK 01 AUDIO\nINDEX 01 00:05:25", 2, "86 CueOffset"),
    ("TRACK 01 AUDIO\nINDEX 00 00:00:01\nINDEX 01 00:00:01", 3, "86 CueOffset"), ("TRACK 01 AUDIO\nINDEX 01 00:60:00", 2, "86 CueOffset"),
    ("REM FLAC__lead-in x", 1, "87 CueLeadIn"), ("REM FLAC__lead-out 170 5", 1, "88 CueLeadOut"), ("", 1, "89 CueNoTrack"),
    ("REM x\nTITLE y\n", 3, "89 CueNoTrack"),
]


def cue_sheets(rng, folder, rounds):
    """Sheets that are taken, and sheets and streams that are refused."""
    songs = [(song(folder, sound, f"song{i}.flac"), sound) for i, sound in enumerate(FORMATS)]
    for number in range(rounds):
        path, sound = songs[number % len(songs)]
        try:
            one_sheet(rng, folder, path, sound)
        except Wrong as wrong:
            raise Wrong(f"cue sheet {number}, {sound}: {wrong}") from None
    path, cue, cd = os.path.join(folder, "refused.flac"), os.path.join(folder, "wrong.cue"), read(songs[0][0])

    def put(where, data):
        with open(where, "wb") as file:
            file.write(data)

    put(path, cd)
    for text, line, name in WRONG_SHEETS:
        put(cue, text.encode())
        expect(run("edit", "-v", "--cuesheet", cue, path), (1, b"", f"flac: {cue}: line {line}: {name}\n".encode()))
        expect(read(path), cd)
    # the sheet fits one of two streams
    good = b"\xef\xbb\xbfTRACK 01 AUDIO\nINDEX 01 00:00:00\nTRACK 02 AUDIO\nINDEX 01 00:05:24\n"
    put(cue, good)
    short = songs[1][0]
    status, out, err = run("edit", "-v", "--cuesheet", cue, short, path)
    expect((status, out), (1, f"{path}: rewritten\n".encode()))
    expect(err, f"flac: {cue}: line 4: 86 CueOffset\n".encode())
    # other sheets go, by themselves or with what else is edited
    blocks, frames = blocks_of(read(path))
    sheet = next(body for kind, body in blocks if kind == CUESHEET)
    rest = [block for block in blocks if block[0] != CUESHEET]
    put(path, stream_of([rest[0], (CUESHEET, sheet[:128] + bytes(8) + sheet[136:]), *rest[1:], (CUESHEET, sheet)], frames))
    expect(run("edit", "--cuesheet", cue, path), (0, b"", b""))
    expect(read(path), stream_of(edited(rest, [], [], None, [sheet]), frames))
    body = picture_body(3, b"image/x", (1, 2, 3, 4), b"data")
    put(os.path.join(folder, "any.bin"), b"data")
    done = subprocess.run([PROGRAM, "edit", "--remove-block", "cuesheet", "--cuesheet", "-", "--picture", f"3:image/x:1x2x3/4:{folder}/any.bin",
                           "--padding", "9", path], input=good, capture_output=True, check=False)
    expect((done.returncode, done.stdout, done.stderr), (0, b"", b""))
    expect(read(path), stream_of(edited(rest, [], [body], 9, [sheet]), frames))
    # a stream that does not say how long it is, and a file that is not there
    info = rest[0][1]
    put(path, stream_of([(0, info[:13] + bytes([info[13] & 0xF0]) + bytes(4) + info[18:]), *rest[1:]], frames))
    unknown = read(path)
    expect(run("edit", "--cuesheet", cue, path), (1, b"", f"flac: {path}: 90 NoTotal\n".encode()))
    for bad, what in ((os.path.join(folder, "absent.cue"), "opened"), (folder, "read")):
        expect(run("edit", "--cuesheet", bad, path), (1, b"", f"flac: {bad}: cannot be {what}\n".encode()))
    put(cue, good + b"REM\n" * 4194304)
    expect(run("edit", "--cuesheet", cue, path), (1, b"", f"flac: {cue}: cannot be read\n".encode()))
    expect(run("export", path, "cuesheet", "-"), (1, b"", f"flac: {path}: 91 NoCueSheet\n".encode()))
    expect(read(path), unknown)


# ---- seek tables

def tables_in(path):
    return [body for kind, body in blocks_of(read(path))[0] if kind == SEEKTABLE]


def without_placeholders(body):
    """The points of a table; metaflac leaves a placeholder in place of a second point of a frame."""
    points = [body[at:at + 18] for at in range(0, len(body), 18)]
    return b"".join(point for point in points if point[:8] != b"\xff" * 8)


def table_by_metaflac(path, other, every, total):
    """The seek table that metaflac makes for the samples that are multiples of `every`."""
    shutil.copyfile(path, other)
    subprocess.run(["metaflac", "--remove", "--block-type=SEEKTABLE", "--dont-use-padding", other], check=True)
    if total > 0:
        subprocess.run(["metaflac", "--dont-use-padding", *(f"--add-seekpoint={k}" for k in range(0, total, every)), other], check=True)
    return [without_placeholders(body) for body in tables_in(other)]


def one_table(rng, folder):
    """A table takes the place of those that are there; its points are those of metaflac."""
    path, other, raw = (os.path.join(folder, name) for name in ("points.flac", "points_other.flac", "points.raw"))
    rate, channels, bits = rng.choice([(8000, 1, 8), (44100, 2, 16), (48000, 3, 16), (96000, 2, 24)])
    size, total = rng.choice([16, 192, 1152, 4096, 4608]), rng.choice([1, 15, rng.randrange(20000), rng.randrange(100000)])
    with open(raw, "wb") as file:
        file.write(b"".join(rng.randbytes(n) + bytes(n) for n in [total * channels * bits // 16 // 10 + 1] * 10)[:total * channels * bits // 8])
    words = rng.choice([["--no-seektable"], ["-S", "3x"], ["-S", "2s"], ["-S", "5x", "-S", "X"], ["--no-seektable", "--no-padding"]])
    subprocess.run(["flac", "-s", "-f", "--force-raw-format", "--sign=signed", "--endian=little", f"--channels={channels}", f"--bps={bits}", "--lax",
                    f"--sample-rate={rate}", "-b", str(size), *words, "-o", path, raw], check=True)
    every = rng.choice([max(1, total // 300), size, 3 * size + 1, rate, total + 1])
    every = max(every, total // 1000 + 1)
    due = table_by_metaflac(path, other, every, total)
    blocks, frames = blocks_of(read(path))
    whole = stream_of(edited(blocks, [], [], None, (), due), frames)
    same = "same" if whole == read(path) else "rewritten"
    expect(run("edit", "-v", "--seek-every", str(every), path), (0, f"{path}: {same}\n".encode(), b""))
    expect(read(path), whole)
    expect(run("edit", "-v", "--seek-every", str(every), path), (0, f"{path}: same\n".encode(), b""))
    if due:
        expect(len(due), 1)
        expect(int.from_bytes(due[0][:8], "big"), 0)
    return path, frames


def seek_tables(rng, folder, rounds):
    """Tables that are put in and taken out, and streams that are refused."""
    for number in range(rounds):
        try:
            path, frames = one_table(rng, folder)
        except Wrong as wrong:
            raise Wrong(f"seek table {number}: {wrong}") from None
    path = song(folder, (44100, 2, 16, 100000), "points.flac")
    subprocess.run(["metaflac", "--remove", "--block-type=SEEKTABLE", "--dont-use-padding", path], check=True)
    expect(run("edit", "--seek-every", "44100", "--padding", "7", "--remove-block", "padding", path), (0, b"", b""))
    blocks, frames = blocks_of(read(path))
    expect([kind for kind, _ in blocks], [0, 3, 4, 1])
    expect(len(tables_in(path)[0]), 3 * 18)
    expect(run("edit", "-v", "--seek-every", "0", path), (0, f"{path}: rewritten\n".encode(), b""))
    without = [block for block in blocks if block[0] != SEEKTABLE]
    expect(read(path), stream_of(without, frames))
    # a damaged stream is refused by the line of `test`, and stays as it was
    whole = read(path)
    for data in (whole[:-1], whole + b"\0", whole[:-3] + bytes([whole[-3] ^ 1]) + whole[-2:], whole[:len(whole) - len(frames)] + frames[9:]):
        with open(path, "wb") as file:
            file.write(data)
        status, out, line = run("test", "--lax", path)
        expect((status, out), (1, b""))
        expect(run("edit", "-v", "--seek-every", "9", path), (1, b"", line))
        expect(read(path), data)
    for word in ("", "-1", "x", "4294967296"):
        expect(run("edit", "--seek-every", word, path)[0], 2)


# ---- words and files

def fixed(folder, info, frames):
    vendor = content_of(b"some vendor", [b"TITLE=a", b"RAW=\xff\\\n"])
    stream = stream_of([(0, info), (APPLICATION, b"test1"), (COMMENTS, vendor), (PADDING, bytes(400))], frames)
    blocks, _ = blocks_of(stream)

    def put(name, data, mode=0o644):
        path = os.path.join(folder, name)
        if os.path.lexists(path):
            os.remove(path)
        with open(path, "wb") as file:
            file.write(data)
        os.chmod(path, mode)
        return path

    def refused(path, text, *words, limit=None):
        before = read(path) if os.path.isfile(path) else None
        expect(run("edit", *words, path, limit=limit), (1, b"", f"flac: {path}: {text}\n".encode()))
        if before is not None:
            expect(read(path), before)

    path = put("song.flac", stream)
    # words
    name = b"flac: command: --remove-block takes a number from 1 on, or a type other than STREAMINFO\n"
    for word in ("0", "streaminfo", "STREAMINFO", "", "pic", "application:", "application:abcde", "application:0x1234", "type_0",
                 "type_6", "type_127", "picture:3", "-1", "4294967296"):
        expect(run("edit", f"--remove-block={word}", path), (2, b"", name))
    for word in ("21:cover.png", "4294967295:x", "3:image/png:64x64:cover.png", "3:image/png:64x64x/2:cover.png"):
        expect(run("edit", "--picture", word, path), (2, b"", b"flac: command: --picture takes [TYPE:]FILE or TYPE:MEDIA:WIDTHxHEIGHTxDEPTH:FILE, the type 0 to 20\n"))
    expect(run("edit", path), (2, b"", b"flac: command: edit needs --remove-block, --picture, --cuesheet, --seek-every or --padding\n"))
    expect(run("edit", "--padding", "1")[0], 2)
    expect(run("edit", "--padding", "x", path)[0], 2)
    expect(read(path), stream)

    # blocks that are not there, too long, or there twice
    refused(path, "block 4: 57 NoBlock", "--remove-block", "4")
    refused(path, "block 9: 57 NoBlock", "--remove-block", "1", "--remove-block", "9", "--padding", "3")
    refused(path, "7 BlockLength", "--padding", "16777216")
    icon = put("icon.bin", b"x" * 10)
    for kind in (1, 2):
        word = f"{kind}:image/png:32x32x24:{icon}"
        refused(path, "58 SecondPicture", "--picture", word, "--picture", word)
        twice = put("twice.flac", stream)
        expect(run("edit", "--picture", word, twice), (0, b"", b""))
        refused(twice, "58 SecondPicture", "--picture", word)
        expect(run("edit", "--remove-block", "picture", "--picture", word, twice), (0, b"", b""))
        expect([k for k, _ in blocks_of(read(twice))[0]], [0, 2, 6, 4, 1])
    for bad, text in ((icon, f"flac: {icon}: cannot be added: it is no PNG or JPEG picture\n"),
                      (os.path.join(folder, "absent.png"), f"flac: {folder}/absent.png: cannot be opened\n"),
                      (folder, f"flac: {folder}: cannot be read\n")):
        expect(run("edit", "--picture", bad, path), (1, b"", text.encode()))
    long = put("long.bin", bytes(16777184))
    expect(run("edit", "--picture", long, path), (1, b"", f"flac: {long}: cannot be added: a block has no room for it\n".encode()))
    full = put("full.bin", bytes(16777183))
    refused(path, "7 BlockLength", "--picture", f"3:image/x:1x1x1:{full}")
    expect(read(path), stream)

    # twice
    for _ in range(2):
        expect(run("edit", "--padding", "1000", path), (0, b"", b""))
        expect(read(path), stream_of(edited(blocks, [], [], 1000), frames))
        expect(run("edit", "--remove-block", "seektable", path), (0, b"", b""))
        expect(read(path), stream_of(edited(blocks, [], [], 1000), frames))

    # several files, and files that are refused
    good, other = put("good.flac", stream), put("other.flac", stream)
    wave, ogg, cut = put("song.wav", b"RIFF\x04\0\0\0WAVE"), put("song.oga", b"OggS" + bytes(60)), put("cut.flac", stream[:70])
    absent = os.path.join(folder, "absent")
    status, out, err = run("edit", "-v", "--remove-block", "padding", good, wave, ogg, cut, folder, absent, other)
    expect((status, out), (1, f"{good}: rewritten\n{other}: rewritten\n".encode()))
    lines = [f"flac: {wave}: marker: 4 BadMarker", f"flac: {ogg}: page 0: 32 PageCheck", f"flac: {cut}: block 2: 3 Truncated",
             f"flac: {folder}: cannot be opened", f"flac: {absent}: cannot be opened"]
    expect(err.decode().splitlines(), lines)
    for path, data in ((wave, b"RIFF\x04\0\0\0WAVE"), (ogg, b"OggS" + bytes(60)), (cut, stream[:70])):
        expect(read(path), data)
    for path in (good, other):
        expect(read(path), stream_of(edited(blocks, ["padding"], [], None), frames))
    device = os.path.join(folder, "device")
    os.symlink("/dev/null", device)
    refused(device, "cannot be edited: it is no regular file", "--padding", "1")
    if os.getuid() != 0:
        locked = put("locked.flac", stream, 0o444)
        refused(locked, "cannot be opened", "--padding", "1")

    # a full disk: the file stays, and nothing is left beside it
    disk = put("disk.flac", stream)
    refused(disk, "39 Write", "--padding", "5000", limit=600)
    # links
    soft = os.path.join(folder, "soft.flac")
    os.symlink(disk, soft)
    expect(run("edit", "--padding", "5", soft), (0, b"", b""))
    expect((os.path.islink(soft), read(disk)), (True, stream_of(edited(blocks, [], [], 5), frames)))
    expect([n for n in os.listdir(folder) if ".part" in n], [])
    exports(put, folder, stream, blocks)


def exports(put, folder, stream, blocks):
    """Words, files and errors of `flac export`."""
    path, out = put("exported.flac", stream), os.path.join(folder, "exported.txt")
    lines = b"TITLE=a\nRAW=\\xff\\x5c\\x0a\n"
    expect(run("export", path, "tags", out), (0, b"", b""))
    expect(read(out), lines)
    expect(run("export", path, "tags", "-"), (0, lines, b""))
    for number, (_, body) in enumerate(blocks):
        expect(run("export", path, str(number), "-"), (0, body, b""))
    expect(run("export", path, "4", "-"), (1, b"", f"flac: {path}: block 4: 57 NoBlock\n".encode()))
    expect(run("export", path, "picture", "-"), (1, b"", f"flac: {path}: 59 NoPicture\n".encode()))
    expect(run("export", path, "cuesheet", "-"), (1, b"", f"flac: {path}: 91 NoCueSheet\n".encode()))
    for word in ("", "pictures", "-1", "tag", "cue"):
        expect(run("export", path, word, "-")[0], 2)
    before = read(path)
    expect(run("export", path, "tags", path), (1, b"", f"flac: {path}: cannot be created\n".encode()))
    song = put("a_song.flac", stream)
    expect(run("export", path, "tags", song), (1, b"", f"flac: {song}: cannot be created\n".encode()))
    expect((read(path), read(song)), (before, stream))
    expect(run("export", "--force", path, "tags", song), (0, b"", b""))
    expect(read(song), lines)
    wave = put("b.wav", b"RIFF\x04\0\0\0WAVE")
    expect(run("export", wave, "tags", "-"), (1, b"", f"flac: {wave}: marker: 4 BadMarker\n".encode()))
    expect(run("export", folder, "tags", "-"), (1, b"", f"flac: {folder}: marker: 1 Read\n".encode()))
    ogg = put("exported.oga", b"OggS" + bytes(60))
    expect(run("export", ogg, "tags", out + "2"), (1, b"", f"flac: {ogg}: page 0: 32 PageCheck\n".encode()))
    expect(os.path.exists(out + "2"), False)
    expect(run("export", path, "tags", "/dev/full"), (1, b"", b"flac: /dev/full: 39 Write\n"))


def main():
    parser = argparse.ArgumentParser()
    parser.add_argument("--quick", action="store_true")
    parser.add_argument("--seed", type=int, default=1)
    asked = parser.parse_args()
    rng = random.Random(asked.seed)
    rounds = 40 if asked.quick else 1000
    with tempfile.TemporaryDirectory() as folder:
        raw, path = os.path.join(folder, "a.raw"), os.path.join(folder, "a.flac")
        with open(raw, "wb") as file:
            file.write(rng.randbytes(4000))
        subprocess.run(["flac", "-s", "--force-raw-format", "--sign=signed", "--endian=little", "--channels=1", "--bps=16", "--sample-rate=44100",
                        "--no-padding", "--no-seektable", "-o", path, raw], check=True)
        blocks, frames = blocks_of(read(path))
        fixed(folder, blocks[0][1], frames)
        count = pictures(folder, read(path))
        cue_sheets(rng, folder, rounds // 5)
        seek_tables(rng, folder, rounds // 5)
        for number in range(rounds):
            try:
                one(rng, folder, blocks[0][1], frames, number)
            except Wrong as wrong:
                raise Wrong(f"layout {number}: {wrong}") from None
    print(f"edit: {rounds} layouts, {count} pictures, {rounds // 5} cue sheets and seek tables, words, files and exports are right")


if __name__ == "__main__":
    try:
        main()
    except Wrong as wrong:
        print(f"edit: {wrong}")
        sys.exit(1)
