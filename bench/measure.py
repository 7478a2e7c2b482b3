#!/usr/bin/env python3
"""Times the program beside other FLAC tools and prints tables in Markdown. `run` starts it.

Every figure is the median of several runs, half as many with lists of linear predictors; the programs that are compared run
in turn, so that what else the machine does falls on all of them alike. Seconds are those of the processor (user and system),
ratios are of these. Sizes and memory are exact. The audio is made by a fixed seed, ten seconds at a time.

A virtual machine may share each processor with others, which makes a program take up to twice as long, by turns. With --quiet a
turn of the programs counts only if a fixed loop took no longer than usual before, between and after them, on one processor.
"""
import argparse
import collections
import datetime
import os
import platform
import random
import re
import statistics
import subprocess
import sys
import tempfile
import time
import wave

HERE = os.path.dirname(os.path.abspath(__file__))
sys.path.insert(0, os.path.join(os.path.dirname(HERE), "conformance", "vectors"))
sys.path += [os.path.join(os.path.dirname(HERE), name) for name in ("predictors", "tools")]

import lists
import pace
import sounds

REFERENCE = "/usr/bin/flac"
PROGRAM = os.path.abspath(os.environ.get("FLAC") or os.path.join(os.path.dirname(HERE), "flac"))
# the program's build for newer processors, if it stands beside the default one (FLAC_CPU=x86-64-v3 ./flac makes it)
NEWER = next((it for it in [os.environ.get("FLAC_NEWER") or f"{PROGRAM}.x86-64-v3"] if os.path.exists(it)), None)
NEWER_HEAD = ["program, x86-64-v3 s"] if NEWER else []
NEWER_RATIO = ["x86-64-v3 : flac"] if NEWER else []
FOLDER = os.environ.get("SOUNDS", "/tmp/flac-bench")
RAW = ["--force-raw-format", "--endian=little", "--sign=signed"]
LEAST = ["-l", "0", "-m", "-r", "8", "-e"]
LEVELS = {"0": ["-0"], "5": ["-5"], "8": ["-8"], "fixed": LEAST}

# What is measured: the block size is the reference's own if it is None, and 4096 for fixed predictors alone.
Form = collections.namedtuple("Form", "label rate bits channels sound block", defaults=[None])
STEREO = Form("16 bits 44.1 kHz stereo", 44100, 16, 2, "music")
FORMS = [STEREO, Form("24 bits 96 kHz stereo", 96000, 24, 2, "music")]
OTHER_FORMS = [
    Form("16 bits 48 kHz, 8 channels", 48000, 16, 8, "music"),
    Form("16 bits 16 kHz, mono speech", 16000, 16, 1, "speech"),
    STEREO._replace(label="16 bits 44.1 kHz stereo, blocks of 256", block=256),
]


def keep(path):
    """Keeps a file that was made, and waits until it is stored, which would else go on while programs are timed."""
    os.rename(path + ".part", path)
    os.sync()


def audio(form, seconds):
    """A raw file of so many seconds of sound."""
    more = "" if form.channels == 2 else f"-{form.channels}"
    path = os.path.join(FOLDER, f"{form.sound}-{form.rate}-{form.bits}{more}-{seconds}.raw")
    if not os.path.exists(path):
        make = getattr(sounds, form.sound)
        with open(path + ".part", "wb") as file:
            for start in range(0, seconds, 10):
                source = random.Random(f"bench {form.rate} {form.bits} {start}")
                length = form.rate * min(10, seconds - start)
                file.write(sounds.raw(make(source, form.rate, form.channels, (1 << (form.bits - 1)) - 1, length), form.bits))
        keep(path)
    return path


def raw_words(form):
    return [*RAW, f"--channels={form.channels}", f"--bps={form.bits}", f"--sample-rate={form.rate}"]


def level_words(form, level):
    """The reference's words for a level, with the block size of the form."""
    block = form.block or (4096 if level == "fixed" else None)
    stereo_only = ["-m"] if form.channels != 2 else []
    return [*(it for it in LEVELS[level] if it not in stereo_only), *(["-b", str(block)] if block else [])]


def encoded(form, seconds, level, ogg=False):
    """A stream by the reference, native or with the same frames in Ogg."""
    raw = audio(form, seconds)
    block = f".{form.block}" if form.block else ""
    path = raw.replace(".raw", f"{block}.{level}.oga" if ogg else f"{block}.{level}.flac")
    if not os.path.exists(path):
        words = ["--ogg", "--serial-number=1"] if ogg else []
        subprocess.run([REFERENCE, "-s", "-f", *words, *level_words(form, level), *raw_words(form), "-o", path + ".part", raw], check=True)
        keep(path)
    return path


class Refused(Exception):
    """A command did not succeed; the text tells how."""


def once(words):
    """The processor's seconds of one run."""
    with tempfile.TemporaryFile() as err:
        process = subprocess.Popen(words, stdout=subprocess.DEVNULL, stderr=err)
        _, status, usage = os.wait4(process.pid, 0)
        process.returncode = os.waitstatus_to_exitcode(status)
        err.seek(0)
        text = err.read().decode(errors="replace").strip()
    if process.returncode == 2:
        raise Refused("not yet")
    if process.returncode != 0:
        raise Refused(f"status {process.returncode}: {text[:200]}")
    return usage.ru_utime + usage.ru_stime


class Quiet:
    """Tells whether something else has a part of the processor, by a fixed loop: one that is shared takes 1.4 times as long and more."""

    LONGEST = 1.07
    TRIES = 30

    def __init__(self):
        self.processors = sorted(os.sched_getaffinity(0))
        self.usual = min(pace.loop() for processor in self.processors for _ in range(40) if os.sched_setaffinity(0, {processor}) is None)
        self.counted, self.left_out = 0, 0

    def is_quiet(self):
        found = sorted(pace.loop() for _ in range(3))
        # the machine may have been busy at the start
        self.usual = min(self.usual, found[0])
        return found[1] <= self.LONGEST * self.usual

    def finds_processor(self):
        for processor in self.processors:
            os.sched_setaffinity(0, {processor})
            if self.is_quiet():
                return True
        return False

    def turn(self, commands):
        """The seconds of each command in a turn on one processor, all of it quiet; nothing if there is none in many tries."""
        for _ in range(self.TRIES):
            found = {}
            if self.finds_processor():
                for name, words in commands.items():
                    found[name] = once(words)
                    if not self.is_quiet():
                        break
                else:
                    self.counted += 1
                    return found
            self.left_out += 1
            time.sleep(0.3)
        return {}


# what --quiet sets
QUIET = None


def quiet_medians(commands, runs):
    """For each command the median of its seconds in the quiet turns, of which there are so many, or fewer if the machine is never quiet."""
    try:
        turns = [it for it in (QUIET.turn(commands) for _ in range(runs)) if it]
    except Refused as reason:
        return {name: str(reason) for name in commands}
    return {name: statistics.median(it[name] for it in turns) if turns else "never quiet" for name in commands}


def medians(commands, runs):
    """For each command the median of its seconds, the commands running in turn; a text where it is refused."""
    if QUIET:
        return quiet_medians(commands, runs)
    seconds, refused = {name: [] for name in commands}, {}
    for _ in range(runs):
        for name, words in commands.items():
            if name not in refused:
                try:
                    seconds[name].append(once(words))
                except Refused as reason:
                    refused[name] = str(reason)
    return {name: refused.get(name) or statistics.median(seconds[name]) for name in commands}


def memory(words):
    """The greatest memory of one run in KiB."""
    result = subprocess.run(["/usr/bin/time", "-v", *words], stdout=subprocess.DEVNULL, stderr=subprocess.PIPE, check=False)
    found = re.search(rb"Maximum resident set size \(kbytes\): (\d+)", result.stderr)
    return int(found.group(1)) if found and result.returncode == 0 else None


def shown(value):
    return value if isinstance(value, str) else f"{value:.3f}"


def ratio(one, other):
    return "" if isinstance(one, str) or isinstance(other, str) or not other else f"{one / other:.2f}"


def row(*cells):
    print("| " + " | ".join(str(cell) for cell in cells) + " |", flush=True)


def head(*cells):
    print()
    row(*cells)
    row(*["---"] * len(cells))


def per_sample(seconds, form, length):
    """Nanoseconds for each sample of each channel."""
    return seconds if isinstance(seconds, str) else f"{seconds * 1e9 / (form.rate * form.channels * length):.1f}"


def with_newer(commands):
    """The commands, with the program's build for newer processors behind the default one, if there is one."""
    newer = {} if NEWER is None else {"newer": [NEWER, *commands["program"][1:]]}
    return {"program": commands["program"], **newer, **commands}


def decoding(forms, levels, seconds, runs):
    head("test", "program s", *NEWER_HEAD, "flac -t s", "ffmpeg s", "program : flac", *NEWER_RATIO, "program : ffmpeg",
         "program ns a sample", "flac ns a sample")
    for form in forms:
        for level in levels:
            path = encoded(form, seconds, level)
            found = medians(with_newer({
                "program": [PROGRAM, "test", path], "flac": [REFERENCE, "-t", "-s", path],
                "ffmpeg": ["ffmpeg", "-v", "error", "-threads", "1", "-i", path, "-f", "null", "-"]}), runs)
            row(f"{form.label}, level {level}", *map(shown, found.values()), ratio(found["program"], found["flac"]),
                *([ratio(found["newer"], found["flac"])] if NEWER else []), ratio(found["program"], found["ffmpeg"]),
                per_sample(found["program"], form, seconds), per_sample(found["flac"], form, seconds))


def containers(seconds, runs):
    """The same frames in pages and as a native stream."""
    newer_head = ["Ogg, x86-64-v3 s", "x86-64-v3, Ogg : native", "Ogg, x86-64-v3 : flac"] if NEWER else []
    head("test", "native s", "Ogg s", "Ogg : native", "flac -t, native s", "flac -t, Ogg s", "Ogg, program : flac", *newer_head)
    for form in FORMS:
        native, ogg = encoded(form, seconds, "5"), encoded(form, seconds, "5", ogg=True)
        newer = {"newer": [NEWER, "test", native], "newer ogg": [NEWER, "test", ogg]} if NEWER else {}
        found = medians({"native": [PROGRAM, "test", native], "ogg": [PROGRAM, "test", ogg], **newer,
                         "flac": [REFERENCE, "-t", "-s", native], "flac ogg": [REFERENCE, "-t", "-s", ogg]}, runs)
        cells = [shown(found["newer ogg"]), ratio(found["newer ogg"], found["newer"]), ratio(found["newer ogg"], found["flac ogg"])] if NEWER else []
        row(f"{form.label}, level 5", shown(found["native"]), shown(found["ogg"]), ratio(found["ogg"], found["native"]),
            shown(found["flac"]), shown(found["flac ogg"]), ratio(found["ogg"], found["flac ogg"]), *cells)


def encode_commands(form, seconds, folder, ogg=False):
    """The files that the program and the reference write of a sound, and the commands."""
    raw, block = audio(form, seconds), str(form.block or 4096)
    ours, theirs = os.path.join(folder, "ours"), os.path.join(folder, "theirs")
    numbers = ["--rate", str(form.rate), "--channels", str(form.channels), "--bits", str(form.bits), "--block", block]
    words = [*level_words(form, "fixed"), "--no-padding", "--no-seektable", *raw_words(form)]
    return ours, theirs, {
        "program": [PROGRAM, "encode", raw, ours, *numbers, *(["--ogg"] if ogg else [])],
        "flac": [REFERENCE, "-s", "-f", *words, *(["--ogg", "--serial-number=1"] if ogg else []), "-o", theirs, raw]}


def encoding(seconds, runs):
    head("encode", "program s", *NEWER_HEAD, "flac s", "program : flac", *NEWER_RATIO, "program bytes", "flac bytes",
         "bytes, program : flac", "program ns a sample", "flac ns a sample")
    cases = [(form, False) for form in [*FORMS, *OTHER_FORMS]] + [(form, True) for form in FORMS]
    with tempfile.TemporaryDirectory() as folder:
        for form, ogg in cases:
            ours, theirs, commands = encode_commands(form, seconds, folder, ogg)
            found = medians(with_newer(commands), runs)
            sizes = ["" if isinstance(found[name], str) else os.path.getsize(path) for name, path in (("program", ours), ("flac", theirs))]
            share = f"{sizes[0] / sizes[1]:.4f}" if all(sizes) else ""
            row(f"{form.label}{', Ogg' if ogg else ''}", *map(shown, found.values()), ratio(found["program"], found["flac"]),
                *([ratio(found["newer"], found["flac"])] if NEWER else []), *sizes, share,
                per_sample(found["program"], form, seconds), per_sample(found["flac"], form, seconds))


def own_list(form, seconds):
    """A list of 64 linear predictors that predictors/make makes of a sound, once. Its last line has the processor's seconds."""
    raw = audio(form, seconds)
    path, sound = raw.replace(".raw", ".own.txt"), raw.replace(".raw", ".wav")
    if not os.path.exists(path):
        with wave.open(sound, "wb") as file, open(raw, "rb") as samples:
            file.setparams((form.channels, form.bits // 8, form.rate, 0, "NONE", ""))
            file.writeframes(samples.read())
        taken = once(lists.making(path + ".part", sound))
        with open(path + ".part", "a", encoding="ascii") as file:
            file.write(f"# made in {taken:.0f} s\n")
        keep(path)
        os.remove(sound)
    return path


def lists_for(form, seconds, folder):
    """The lists of linear predictors with which a sound is encoded, and the searches for them: names, and words of the program."""
    first = os.path.join(folder, "first.txt")
    with open(lists.SHIPPED, encoding="ascii") as file, open(first, "w", encoding="ascii") as out:
        out.writelines([line for line in file if line.split("#")[0].strip()][:8])
    own = own_list(form, seconds)
    with open(own, encoding="ascii") as file:
        made = file.readlines()[-1].strip("# \n")
    yield "no list", []
    for name, path in (("8 lines of music.txt", first), ("music.txt", lists.SHIPPED), (f"a list of its own, {made}", own)):
        yield name, ["--predictors", path]
    for search in ("quick", "full"):
        yield f"--search {search}", ["--search", search]
    yield "music.txt, --search full", ["--predictors", lists.SHIPPED, "--search", "full"]


def list_commands(form, seconds, folder):
    """The reference at three levels, and the program with each list or search: for each name the command, and the file that it writes."""
    raw, commands = audio(form, seconds), {}
    for level in ("0", "5", "8"):
        words = ["--no-padding", "--no-seektable", *level_words(form, level), *raw_words(form)]
        commands[f"flac -{level}"] = [REFERENCE, "-s", "-f", *words, "-o", os.path.join(folder, level), raw], os.path.join(folder, level)
    numbers = ["--rate", str(form.rate), "--channels", str(form.channels), "--bits", str(form.bits)]
    for name, words in lists_for(form, seconds, folder):
        for label, program in [("program", PROGRAM), *([("x86-64-v3", NEWER)] if NEWER else [])]:
            out = os.path.join(folder, f"{label} {name}")
            commands[f"{label}, {name}"] = [program, "encode", raw, out, *numbers, *words], out
    return commands


def with_lists(seconds, runs):
    """Bytes and time of encoding with lists of linear predictors and with searches, beside the reference's levels 0, 5 and 8."""
    for form in (*FORMS, OTHER_FORMS[1]):
        head(f"encode, {form.label}", "s", "s : flac -5", "ns a sample", "bytes", "bytes : flac -0", "bytes : flac -5", "bytes : flac -8")
        with tempfile.TemporaryDirectory() as folder:
            commands = list_commands(form, seconds, folder)
            found = medians({name: words for name, (words, _) in commands.items()}, runs)
            sizes = {name: os.path.getsize(out) for name, (_, out) in commands.items() if not isinstance(found[name], str)}
            for name, taken in found.items():
                size = sizes.get(name)
                shares = [f"{size / sizes[f'flac -{level}']:.4f}" if size else "" for level in ("0", "5", "8")]
                row(name, shown(taken), ratio(taken, found["flac -5"]), per_sample(taken, form, seconds), size or "", *shares)


def growth(base, folds, runs):
    """How time and memory grow with length, at 16 bits and 44.1 kHz."""
    head("length", "test s", "test KiB", "flac -t s", "flac -t KiB", "encode s", "encode KiB", "flac encode s", "flac encode KiB")
    with tempfile.TemporaryDirectory() as folder:
        for fold in folds:
            path = encoded(STEREO, base * fold, "5")
            commands = {"a": [PROGRAM, "test", path], "b": [REFERENCE, "-t", "-s", path]}
            commands.update(encode_commands(STEREO, base * fold, folder)[2])
            found = medians(commands, runs)
            cells = [cell for name, words in commands.items() for cell in (shown(found[name]), memory(words) or "")]
            row(f"{base * fold} s of audio", *cells)


def machine():
    with open("/proc/cpuinfo", encoding="utf-8") as file:
        model = re.search(r"model name\s*: (.*)", file.read())
    return f"{model.group(1) if model else platform.machine()}, {os.cpu_count()} processors, {platform.system()} {platform.release()}"


def main():
    parser = argparse.ArgumentParser(description=__doc__, formatter_class=argparse.RawDescriptionHelpFormatter)
    parser.add_argument("--quick", action="store_true", help="20 seconds of audio and 3 runs instead of 180 and 5")
    parser.add_argument("--runs", type=int, default=None)
    parser.add_argument("--seconds", type=int, default=None, help="how long the audio of a row is")
    parser.add_argument("--lists", action="store_true", help="the tables with lists of linear predictors, and with searches for them, alone")
    parser.add_argument("--quiet", action="store_true", help="only turns in which nothing else had a part of the processor; without lists")
    words = parser.parse_args()
    if not os.path.exists(PROGRAM):
        sys.exit(f"{PROGRAM} is not there: build it, or name the program by FLAC=")
    os.makedirs(FOLDER, exist_ok=True)
    seconds, runs = (20, words.runs or 3) if words.quick else (180, words.runs or 5)
    seconds = words.seconds or seconds
    version = subprocess.run([REFERENCE, "--version"], stdout=subprocess.PIPE, check=True).stdout.decode().strip()
    print(f"{datetime.date.today()}, {machine()}; {version}; {seconds} seconds of audio a row, medians of {runs} runs, load {os.getloadavg()[0]:.1f}")
    if words.lists:
        with_lists(seconds, max(1, runs // 2))
        return 0
    if words.quiet:
        global QUIET
        QUIET = Quiet()
    decoding(FORMS, LEVELS, seconds, runs)
    decoding(OTHER_FORMS, ["5"], seconds, runs)
    containers(seconds, runs)
    encoding(seconds, runs)
    if words.quiet:
        print(f"\n{QUIET.counted} turns counted, {QUIET.left_out} were not quiet; the loop took {QUIET.usual * 1e3:.1f} ms at least.")
        return 0
    with_lists(seconds, max(1, runs // 2))
    growth(2, (1, 10) if words.quick else (1, 10, 100), runs)
    return 0


if __name__ == "__main__":
    sys.exit(main())
