#!/usr/bin/env python3
"""Encodes sounds with `--search` and judges each frame by a model of its own; or prints tables of size and time.

usage: conformance/checks/search.py [--quick] [--only TEXT]
       conformance/checks/search.py --sizes [--turns N] [NAME..]

Each file is read by `flac -t`, by ffmpeg and by the program, and has the samples. The model, search_model.c, takes from each frame the
predictors that its subframes name, each for its plane, and counts the bits of each coding of the family over these: each subframe has the
bits that are counted, none of its plane is shorter, and the channel code is the first of the shortest. No frame is longer than without
`--search`, nor than with less of it; in Ogg the frames are the same. Files of `flac -8` are counted too, so that the model is tried by
another encoder.

With --sizes: bytes and processor time of whole files beside `flac -5` and `-8`, each the least of N turns (default 3), of made sounds and
of those of Debian packages, which are downloaded once into SOUNDS (default /tmp/flac-search); with NAMEs those whose name has one of them.
FLAC names the program, JOBS how many files run at once. Status 1 if a case is wrong.
"""
import argparse
import filecmp
import glob
import math
import os
import statistics
import subprocess
import sys
import tempfile
from collections import Counter, namedtuple
from concurrent.futures import ThreadPoolExecutor

sys.dont_write_bytecode = True
import folders  # noqa: F401  (the path of the modules below)
import corpus
import encoding
import program
import reference
import sounds
from model import LAX, SUBSET
from program import NotCompared, Wrong, expect, read

JOBS = int(os.environ.get("JOBS", os.cpu_count() or 1))
HERE = os.path.dirname(os.path.abspath(__file__))
FOLDER = os.environ.get("SOUNDS", "/tmp/flac-search")
"""Where the sounds of the tables are kept."""
LEAST_BLOCK = 64
"""A block of fewer samples is not searched."""
MOST_ORDER = 12
SEARCHES = ("none", "quick", "full")
LIST = b"3 0 2 -1\n10 8 500 -250\n12 10 1900 -900 20\n"
"""A list of predictors, none of which is a fixed one."""

Frame = namedtuple("Frame", "number size code bits least least_code linear order priced")
"""A line of the model: the block size, the channel code and the bits of the subframes; the fewest bits, and the smallest channel code that
takes these; how many subframes are linear, their greatest order, and whether the bits of each are those that are counted for its coding."""


# ---- sounds

def clipped(random_source, rate, channels, peak, length):
    """Music that is too loud by a half, cut off at full scale."""
    loud = sounds.music(random_source, rate, channels, 3 * peak // 2, length)
    return [[max(-peak - 1, min(peak, sample * 2)) for sample in channel] for channel in loud]


def late(random_source, rate, channels, peak, length):
    """Silence, and a few samples at the end."""
    return [[0] * max(0, length - 9) + [random_source.randint(-peak, peak) for _ in range(min(9, length))] for _ in range(channels)]


def rough(random_source, rate, channels, peak, length):
    """Each channel another: a tone, noise, a square, silence, and so on."""
    kinds = (sounds.tone, sounds.noise, sounds.square, sounds.silence)
    return [kinds[channel % 4](random_source, rate, 1, peak >> channel // 4, length)[0] for channel in range(channels)]


sounds.KINDS.update((call.__name__, call) for call in (clipped, late, rough))


def sound(kind, rate=44100, channels=2, bits=16, length=9000):
    return sounds.Sound(f"{kind}-{rate}-{channels}x{bits}-{length}", kind, rate, channels, bits, length)


def rows(quick):
    """Sounds, block sizes and more words: each kind, depth, number of channels, block size and length of the last block."""
    kinds = list(sounds.KINDS)
    found = [(sound(kind, channels=channels), 4096, []) for kind in kinds for channels in (1, 2)]
    found += [(sound(kind, (44100, 96000)[index % 2], 1 + index % 2, bits, 5000), 4096, [])
              for bits in (8, 12, 20, 24, 32) for index, kind in enumerate(kinds) if kind != "wasted" or bits > 8]
    found += [(sound("music", channels=channels, length=5000), 4096, []) for channels in (3, 4, 5, 6, 7, 8)]
    found += [(sound("rough", channels=channels, bits=24, length=3000), 1152, []) for channels in (3, 8)]
    found += [(sound(kind, channels=1 + block % 2, length=2000), block, [])
              for kind in ("speech", "noise", "tone") for block in (16, 17, 63, 64, 65, 192, 1000, 4608)]
    found += [(sound("music", 44100, 1 + tail % 2, (16, 24)[tail // 2 % 2], 256 + tail), 256, []) for tail in range(1, 41)]
    found += [(sound("tone", 8000, 1 + length % 2, 16, length), 4096, []) for length in [*range(0, 41, 4), 63, 64, 65]]
    found += [(sound("music", 96000, 2, 24, 40000), 16384, []), (sound("tone", 192000, 1, 24, 20000), 16384, []),
              (sound("tone", 12345, 1, 13, 900), 300, ["--lax"]), (sound("clicks", 700001, 2, 27, 3000), 512, ["--lax"]),
              (sound("tone", 44100, 2, 16, 20000), 8192, ["--lax"]), (sound("speech", 48000, 2, 32, 66000), 65535, ["--lax"])]
    return found[::5] if quick else found


# ---- the model

def modelled(path, tool, profile, bench):
    """The model's lines of a file; an Ogg stream is made a native one first."""
    data = read(path)
    if data[:1] == b"O":
        first, *rest = encoding.packets(data)
        path = bench.put(first[9:] + b"".join(rest))
    done = subprocess.run([tool, path, str(profile.partition_order)], stdout=subprocess.PIPE, text=True, timeout=600, check=False)
    if done.returncode != 0:
        raise Wrong(f"the model does not read it: {done.stdout[-100:].strip()}")
    return [Frame(*map(int, line.split())) for line in done.stdout.splitlines()]


def judged(path, tool, profile, bench):
    """Each frame of a file of the program is a shortest one; returns the model's lines."""
    frames = modelled(path, tool, profile, bench)
    for frame in frames:
        if not frame.priced:
            raise Wrong(f"frame {frame.number} has not the bits that are counted")
        if (frame.bits, frame.code) != (frame.least, frame.least_code):
            raise Wrong(f"frame {frame.number} takes {frame.bits} bits under code {frame.code}, and {frame.least} under {frame.least_code} are enough")
    return frames


def decoded_by_ffmpeg(path, bits):
    """The samples as raw bytes, each in its own width, or None if ffmpeg has no such depth."""
    words = ["ffmpeg", "-v", "error", "-i", path, "-f", "s32le", "-c:a", "pcm_s32le", "-"]
    done = subprocess.run(words, stdin=subprocess.DEVNULL, stdout=subprocess.PIPE, stderr=subprocess.PIPE, timeout=120, check=False)
    if done.returncode != 0 or done.stderr:
        return None
    values = memoryview(done.stdout).cast("i")
    return sounds.packed([value >> (32 - bits) for value in values], (bits + 7) // 8)


# ---- cases

def is_read(path, raw, one, block, bench, profile):
    """All three read the file and find the samples, and STREAMINFO has its fields."""
    encoding.given_back(path, raw, one, profile)
    if path.endswith(".flac"):
        encoding.is_stated(path, one, block)
    encoding.decoded_by_both(path, raw, one, bench, profile)
    # (ffmpeg 5 has no depth of 32, and no blocks of fewer than 16 samples alone)
    if one.length >= 16 and one.bits in (8, 12, 16, 20, 24):
        expect(decoded_by_ffmpeg(path, one.bits) == read(raw), True)


def no_longer(frames, before, what):
    """No frame takes more bits than another encoding's."""
    for frame, other in zip(frames, before, strict=True):
        if frame.bits > other.bits:
            raise Wrong(f"frame {frame.number} takes {frame.bits} bits, and {other.bits} {what}")


def search_case(one, block, more, made, tool, bench):
    """The file of each search is read, and shortest; those of more searches are no longer. Returns how many subframes are linear."""
    profile, raw = LAX if more else SUBSET, made.path(one.name + ".raw")
    before, linear = None, 0
    for search in SEARCHES:
        path = encoding.encode(one, raw, bench, "--block", str(block), "--search", search, *more)
        is_read(path, raw, one, block, bench, profile)
        frames = judged(path, tool, profile, bench)
        if before is not None:
            no_longer(frames, before, "with less search")
        for frame in frames:
            linear += frame.linear
            if frame.linear and (search == "none" or frame.size < LEAST_BLOCK or frame.order > MOST_ORDER):
                raise Wrong(f"frame {frame.number} of {frame.size} samples has a predictor of order {frame.order}, with --search {search}")
        before = frames
        os.remove(path)
    return linear


def listed_case(one, block, more, made, tool, bench):
    """With a list beside, no frame is longer than with the list alone, nor than with the search alone."""
    profile, raw, words = LAX if more else SUBSET, made.path(one.name + ".raw"), ["--block", str(block), *more]
    listed = ["--predictors", bench.put(LIST, ".txt")]
    for search in SEARCHES[1:]:
        both, alone, found = (encoding.encode(one, raw, bench, *words, *some) for some in (["--search", search, *listed], listed, ["--search", search]))
        is_read(both, raw, one, block, bench, profile)
        frames = judged(both, tool, profile, bench)
        no_longer(frames, modelled(alone, tool, profile, bench), "with the list alone")
        no_longer(frames, modelled(found, tool, profile, bench), "with the search alone")
        for path in (both, alone, found):
            os.remove(path)


def ogg_case(one, block, more, made, tool, bench):
    """The Ogg file has the frames of the native one, which the model finds shortest there too."""
    profile, raw = LAX if more else SUBSET, made.path(one.name + ".raw")
    for search in SEARCHES[1:]:
        words = ["--block", str(block), "--search", search, *more]
        native = encoding.encode(one, raw, bench, *words)
        path = encoding.encode(one, raw, bench, *words, "--ogg", "A=b", suffix=".oga")
        is_read(path, raw, one, block, bench, profile)
        judged(path, tool, profile, bench)
        expect(encoding.frames_of(path), encoding.frames_of(native))
        os.remove(path)
        os.remove(native)


def wav_case(one, made, bench):
    """A WAV file is encoded by `--search quick` if no other is asked for, raw samples by none."""
    raw, wav = made.path(one.name + ".raw"), made.path(one.name + ".wav")

    def frames(source, *words):
        out = bench.path()
        program.succeeds("encode", source, out, *words)
        return encoding.frames_of(out)

    plain, quick = frames(wav, "--search", "none"), frames(wav, "--search", "quick")
    expect(frames(wav) == quick, True)
    expect(frames(raw, *encoding.form(one)) == plain, True)
    expect(plain == quick, False)


def reference_case(one, settings, made, tool, bench):
    """The model counts the bits of each frame of the reference as they are, and no more than these are enough."""
    path = bench.path()
    if corpus.run(corpus.REFERENCE, "-s", "-f", *settings, "-o", path, made.path(one.name + ".wav")).returncode != 0:
        raise NotCompared("the reference does not take this sound")
    frames = modelled(path, tool, SUBSET, bench)
    for frame in frames:
        if not frame.priced or frame.bits < frame.least:
            raise Wrong(f"frame {frame.number} of {' '.join(settings)} takes {frame.bits} bits, the model counts {frame.least}")
    expect(sum(frame.size for frame in frames), one.length)


def refused_rows():
    """Words that are no search."""
    for text in ("", "1", "2", "Quick", "best", "quick,full", " quick"):
        yield text, ["--search", text]


def refused_case(words, made, bench):
    """Refused with status 2, and nothing is written."""
    out = bench.path()
    status, printed, _ = program.call("encode", bench.put(bytes(64), ".raw"), out, "--rate", "44100", "--channels", "1", "--bits", "16", *words)
    expect((status, printed, os.path.exists(out)), (2, b"", False))


def cases(made, quick, tool, bench):
    every = [(made.prepare(one), block, more) for one, block, more in rows(quick)]
    for one, block, more in every:
        name = f"{one.name}, block {block}"
        yield "search", name, lambda row=(one, block, more): search_case(*row, made, tool, bench)
    for row in every[::4]:
        yield "search and a list", f"{row[0].name}, block {row[1]}", lambda row=row: listed_case(*row, made, tool, bench)
    for row in every[1::4]:
        yield "search, Ogg", f"{row[0].name}, block {row[1]}", lambda row=row: ogg_case(*row, made, tool, bench)
    for kind in ("music", "tone"):
        yield "search of WAV files", kind, lambda one=made.prepare(sound(kind)): wav_case(one, made, bench)
    for name, words in refused_rows():
        yield "no search", repr(name), lambda words=words: refused_case(words, made, bench)
    yield from model_cases(made, quick, tool, bench)


def model_cases(made, quick, tool, bench):
    """Those that need no program."""
    for index, (one, _, more) in enumerate(rows(quick)):
        if one.length >= 16 and not more:
            for settings in (["-8"], ["-5", "-l", "12", "-b", "1152"], ["-8", "-e", "-p"])[index % 3:][:1]:
                yield "model, by the reference", one.name, lambda one=made.prepare(one), s=settings: reference_case(one, s, made, tool, bench)


def outcome(case):
    try:
        return *case[:2], "passed", case[2]()
    except NotCompared as reason:
        return *case[:2], "not compared", str(reason)
    except (Wrong, OSError, ValueError) as reason:
        return *case[:2], "failed", f"{type(reason).__name__}: {reason}"


def run(words):
    with tempfile.TemporaryDirectory() as folder:
        bench, tool = program.Bench(folder), built(folder)
        made = Made(os.path.join(folder, "sounds"))
        chosen = [case for case in cases(made, words.quick, tool, bench) if words.only in case[0]]
        with ThreadPoolExecutor(JOBS) as pool:
            outcomes = list(pool.map(outcome, chosen))
    for group in dict.fromkeys(one[0] for one in outcomes):
        counts = Counter(one[2] for one in outcomes if one[0] == group)
        print(f"{group}: {', '.join(f'{count} {state}' for state, count in counts.items())}")
    wrong = [one for one in outcomes if one[2] == "failed"]
    for group, name, _, reason in wrong:
        print(f"FAILED {group}: {name}: {reason}")
    linear = sum(one[3] or 0 for one in outcomes if one[0] == "search" and one[2] == "passed")
    print(f"search: {len(outcomes)} cases, {len(wrong)} wrong, {linear} linear subframes in the files of `search`")
    return 1 if wrong or not outcomes else 0


class Made:
    """The sounds of a run, as raw and as WAV files."""

    def __init__(self, folder):
        self.folder = folder
        os.makedirs(folder)

    def path(self, name):
        return os.path.join(self.folder, name)

    def prepare(self, one):
        if not os.path.exists(self.path(one.name + ".wav")):
            channels = sounds.samples(one)
            corpus.save(self.path(one.name + ".raw"), sounds.raw(channels, one.bits))
            corpus.save(self.path(one.name + ".wav"), sounds.wav(channels, one.bits, one.rate))
        return one


def built(folder):
    """The model, compiled."""
    tool = os.path.join(folder, "search_model")
    subprocess.run(["gcc", "-O3", "-march=native", "-o", tool, os.path.join(folders.TOP, "model", "search_model.c")], check=True)
    return tool


# ---- tables of size and time

Piece = namedtuple("Piece", "package rate channels seconds count pattern")
PIECES = [
    Piece("hydrogen-data", 44100, 1, 2, 60, "hydrogen/data/drumkits/*/*.[wf]*"),
    Piece("hydrogen-data", 44100, 2, 2, 60, "hydrogen/data/drumkits/*/*.[wf]*"),
    Piece("lmms-common", 44100, 2, 4, 15, "lmms/samples/*/*.ogg"),
    Piece("alsa-utils", 48000, 1, 5, 9, "sounds/alsa/*.wav"),
    Piece("pocketsphinx-testdata", 16000, 1, 20, 5, "pocketsphinx/test/data/librivox/*.wav"),
    Piece("asterisk-core-sounds-en-wav", 8000, 1, 2, 100, "asterisk/sounds/en_US_f_Allison/*.wav"),
    Piece("sound-theme-freedesktop", 44100, 2, 4, 20, "sounds/freedesktop/stereo/*"),
    Piece("sonic-pi-samples", 44100, 2, 3, 60, "sonic-pi/samples/*.flac"),
    Piece("wesnoth-1.16-music", 44100, 2, 10, 12, "games/wesnoth/*/data/core/music/*.ogg"),
]
"""Sounds of packages: so many seconds from the middle of each of so many files of one format, joined, at 16 bits."""


def shell(*words, folder=None):
    """What a command prints; nothing if it fails."""
    done = subprocess.run(words, cwd=folder, stdin=subprocess.DEVNULL, capture_output=True, check=False)
    return b"" if done.returncode else done.stdout


def unpacked(package):
    """The folder /usr/share of a package, which is downloaded and unpacked once, and not installed."""
    place = os.path.join(FOLDER, package)
    if not os.path.isdir(place):
        os.makedirs(place + ".part", exist_ok=True)
        shell("apt-get", "download", package, folder=place + ".part")
        for file in glob.glob(os.path.join(place + ".part", "*.deb")):
            shell("dpkg-deb", "-x", file, place + ".part")
            os.remove(file)
        os.rename(place + ".part", place)
    return os.path.join(place, "usr", "share")


def joined(piece, path):
    """Writes a WAV file of a piece; False if there are no such files."""
    found, parts = sorted(glob.glob(os.path.join(unpacked(piece.package), piece.pattern))), b""
    for source in found[::max(1, len(found) // piece.count)][:piece.count]:
        shown = shell("ffprobe", "-v", "error", "-show_entries", "stream=sample_rate,channels:format=duration", "-of", "csv=p=0", source).decode().split()
        if shown and shown[0] == f"{piece.rate},{piece.channels}":
            start = max(0.0, (float(shown[1]) - piece.seconds) / 2) if len(shown) > 1 and shown[1] != "N/A" else 0.0
            parts += shell("ffmpeg", "-v", "error", "-ss", f"{start:.3f}", "-t", str(piece.seconds), "-i", source, "-f", "s16le", "-")
    if len(parts) < 2 * piece.channels * 4096:
        return False
    values = memoryview(parts[:len(parts) // (2 * piece.channels) * 2 * piece.channels]).cast("h")
    corpus.save(path, sounds.wav([list(values[channel::piece.channels]) for channel in range(piece.channels)], 16, piece.rate))
    return True


def pieces():
    """Names and WAV files, which are made once."""
    for kind, rate, channels, bits, length in (("music", 44100, 2, 16, 1200000), ("music", 96000, 2, 24, 1000000), ("speech", 16000, 1, 16, 600000)):
        one = sound(kind, rate, channels, bits, length)
        path = os.path.join(FOLDER, one.name + ".wav")
        if not os.path.exists(path):
            corpus.save(path, sounds.wav(sounds.samples(one), bits, rate))
        yield f"made: {kind}, {bits} bits", path
    for piece in PIECES:
        name = f"{piece.package}, {piece.channels} x {piece.rate}"
        path = os.path.join(FOLDER, name.replace(" ", "") + ".wav")
        if os.path.exists(path) or joined(piece, path):
            yield name, path


def seconds(words):
    process = subprocess.Popen(words, stdout=subprocess.DEVNULL)
    _, status, usage = os.wait4(process.pid, 0)
    process.returncode = status
    if status != 0:
        raise Wrong(f"{' '.join(words)} fails")
    return usage.ru_utime + usage.ru_stime


def measured(wav, folder, turns):
    """Bytes and the least seconds of each encoder; what the program writes is decoded by the reference to the same samples."""
    theirs = [corpus.REFERENCE, "-s", "-f", "--no-padding", "--no-seektable"]
    calls = {"-5": [*theirs, "-5", wav, "-o"], "-8": [*theirs, "-8", wav, "-o"],
             **{search: [program.BINARY, "encode", wav, "--search", search] for search in SEARCHES}}
    size, times, again = {}, {}, os.path.join(folder, "again.wav")
    for turn in range(turns):
        for name, words in calls.items():
            out = os.path.join(folder, f"out{name}.flac")
            if os.path.exists(out):
                os.remove(out)
            line = [*words, out] if name[0] == "-" else [*words[:3], out, *words[3:]]
            times[name] = min(times.get(name, math.inf), seconds(line))
            size[name] = os.path.getsize(out)
            if turn == 0 and name[0] != "-":
                subprocess.run([corpus.REFERENCE, "-s", "-f", "-d", out, "-o", again], check=True)
                expect(filecmp.cmp(again, wav, shallow=False), True)
    return size, times


def tables(words):
    os.makedirs(FOLDER, exist_ok=True)
    heads = ["-5", "-8", *SEARCHES]
    print("| Sound | `-5` bytes | `-8` bytes | -8 : -5 | " + " | ".join(f"{s} : -5 | {s} : -8" for s in SEARCHES) + " | ns a sample: " + ", ".join(heads) + " |")
    print("|---|" + "---|" * (4 + 2 * len(SEARCHES)))
    shares, speeds = [], []
    with tempfile.TemporaryDirectory() as folder:
        for name, wav in pieces():
            if words.names and not any(word in name for word in words.names):
                continue
            size, times = measured(wav, folder, words.turns)
            # (a WAV file has 44 bytes or a few more before its samples)
            width = int.from_bytes(read(wav)[32:34], "little")
            samples = (os.path.getsize(wav) - 44) / (width / int.from_bytes(read(wav)[22:24], "little"))
            shares.append([size["-8"] / size["-5"], *(size[s] / size[of] for s in SEARCHES for of in heads[:2])])
            speeds.append([times[one] * 1e9 / samples for one in heads])
            print(f"| {name} | {size['-5']} | {size['-8']} | " + " | ".join(f"{share:.4f}" for share in shares[-1])
                  + " | " + ", ".join(f"{speed:.1f}" for speed in speeds[-1]) + " |", flush=True)

    def mean(column, of):
        return math.exp(statistics.mean(math.log(row[column]) for row in of))

    print("| geometric mean | | | " + " | ".join(f"{mean(i, shares):.4f}" for i in range(len(shares[0]))) + " | "
          + ", ".join(f"{mean(i, speeds):.1f}" for i in range(len(heads))) + " |")
    return 0


def main():
    parser = argparse.ArgumentParser(description=__doc__.split("\n", maxsplit=1)[0])
    parser.add_argument("--quick", action="store_true", help="fewer sounds")
    parser.add_argument("--only", default="", help="only the groups whose name has this text")
    parser.add_argument("--sizes", action="store_true", help="tables of size and time")
    parser.add_argument("--turns", type=int, default=3, help="how many times each encoder runs")
    parser.add_argument("names", nargs="*", help="the sounds of the table")
    words = parser.parse_args()
    subprocess.run([os.path.join(folders.TOP, "install"), "flac", "ffmpeg", "gcc"], check=True)
    return tables(words) if words.sizes else run(words)


if __name__ == "__main__":
    sys.exit(main())
