"""Cases of the command line: files that are not there, refused words."""
import os

import folders  # noqa: F401  (the path of the modules below)
import program
import vectors
import vectors_lax
from program import Wrong, expect, read


def spellings(bench, path):
    """The ways in which OUT can name the file at `path`: (name, word)."""
    folder, name = os.path.split(path)
    below = bench.path("")
    os.mkdir(below)
    symbolic, of_folder, hard = bench.path(), bench.path(""), bench.path()
    os.symlink(path, symbolic)
    os.symlink(folder, of_folder)
    os.link(path, hard)
    yield "same path", path
    yield "./", os.path.join(folder, ".", name)
    yield "..", os.path.join(below, "..", name)
    yield "relative path", os.path.relpath(path)
    yield "symbolic link", symbolic
    yield "symbolic link to its folder", os.path.join(of_folder, name)
    yield "hard link", hard


def output_is_input(bench, data, words):
    """A job whose OUT is its IN, however it is spelled, is refused, and the file keeps its bytes."""
    path = bench.put(data)
    for name, out in spellings(bench, path):
        for given, written in ((path, out), (out, path)):
            found, printed, err = program.call(words[0], given, written, *words[1:])
            if (found, printed, err) != (1, b"", f"flac: {written}: cannot be created\n".encode()):
                raise Wrong(f"{name}: status {found}, {err[:200]!r}")
            if read(path) != data:
                raise Wrong(f"{name}: the file lost its bytes")


def output_is_another(bench, data, words):
    """A longer file that is there already is written anew, also through a symbolic link, and IN keeps its bytes. Of `retag` it has IN's STREAMINFO."""
    path, out, link = bench.put(data), bench.put(data[:42] * (words[0] == "retag") + bytes(100000)), bench.path()
    os.symlink(out, link)
    program.succeeds(words[0], path, link, *words[1:])
    due = bench.path(".raw" if words[0] == "decode" else ".flac")
    program.succeeds(words[0], path, due, *words[1:])
    expect(read(out), read(due))
    expect(read(path), data)


def said_in_help(command, due="OUT has to be another file than IN"):
    text = " ".join(program.succeeds(command, "--help").decode().split())
    if due not in text:
        raise Wrong(f"--help does not say '{due}'")


def lax_anywhere(bench, command, due):
    """`--lax` has the same meaning before and after the files, and without it the stream is refused."""
    path, out = bench.put(vectors_lax.ROW), bench.path(".raw")
    files = [path] + [out] * (command == "decode")
    for words in (["--lax", *files], [*files, "--lax"], [files[0], "--lax", *files[1:]]):
        expect(program.succeeds(command, *words).decode(), due)
        expect(read(out) if command == "decode" else bytes(16), bytes(16))
    status, _, err = program.call(command, *files)
    expect(program.fault_of(path, status, err), "frame 0: 14 NotSubset")


def lax_cases(bench):
    lines = "block 0 STREAMINFO 34\n  blocks 16 16 frames 0 0 rate 65537 channels 1 depth 5 samples 0\n  md5 " + "0" * 32 + "\n"
    for command, due in (("test", "frames 1 samples 16\n"), ("decode", ""), ("list", lines)):
        yield f"{command}, --lax before and after the files", lambda c=command, d=due: lax_anywhere(bench, c, d)
        yield f"{command}, help on --lax", lambda c=command: said_in_help(c, "--lax")
    yield "decode --lax, OUT is IN", lambda: output_is_input(bench, vectors_lax.ROW, ["decode", "--lax"])
    yield "decode --lax, OUT is another file", lambda: output_is_another(bench, vectors_lax.ROW, ["decode", "--lax"])


def printed(words, due):
    expect(program.succeeds(*words).decode(), due)


def listed(bench, good, absent):
    """Each file has a line with its path and its lines; one that is refused has its line on standard error, and the others go on."""
    bad = bench.put(b"fLaD")
    alone = program.succeeds("list", good)
    for options in ([], ["--head"], ["--lax"]):
        expect(program.succeeds("list", *options, good), alone)
        expect(program.succeeds("list", *options, good, good), 2 * (good.encode() + b"\n" + alone))
        found = program.call("list", *options, good, bad, absent, good)
        due = good.encode() + b"\n" + alone + bad.encode() + b"\n" + absent.encode() + b"\n" + good.encode() + b"\n" + alone
        expect(found, (1, due, f"flac: {bad}: marker: 4 BadMarker\nflac: {absent}: cannot be opened\n".encode()))


def heads(bench):
    """The lines of the blocks, whatever comes after them; refused as without --head in the marker and the blocks."""
    for stream in (vectors.ROW_1, vectors_lax.ROW):
        due, end = program.succeeds("list", "--lax", bench.put(stream)), 42
        for rest in (b"", b"\0", bytes(100), b"\xff\xf8", stream[end:-1], stream[end:] + b"\xff" * 9):
            expect(program.succeeds("list", "--head", bench.put(stream[:end] + rest)), due)
        for length in range(end):
            path = bench.put(stream[:length])
            expect(program.call("list", "--head", path), program.call("list", path))


def cases(bench):
    def line(words, status, due):
        found, _, err = program.call(*words)
        if found != status or (due is not None and err != due.encode()):
            raise Wrong(f"status {found}, {err[:200]!r}; due is status {status}, {due!r}")

    good, absent = bench.put(vectors.ROW_1), "/nonexistent/a.flac"
    encode = ["--rate", "44100", "--channels", "2", "--bits", "16"]
    yield "no words", lambda: line([], 2, None)
    yield "no such command", lambda: line(["listen"], 2, None)
    yield "no file given", lambda: line(["test"], 2, None)
    yield "a word too many", lambda: line(["test", good, good], 2, None)
    yield "help", lambda: line(["--help"], 0, "")
    yield "no such file", lambda: line(["test", absent], 1, f"flac: {absent}: cannot be opened\n")
    yield "no such folder for OUT", lambda: line(["decode", good, absent], 1, f"flac: {absent}: cannot be created\n")
    yield "encode without rate", lambda: line(["encode", good, bench.path(), *encode[2:]], 2, "flac: command: raw samples need --rate, --channels and --bits\n")
    yield "encode with a word for a rate", lambda: line(["encode", good, bench.path(), "--rate", "x", *encode[2:]], 2, None)
    yield "comment without =", lambda: line(["encode", good, bench.path(), *encode, "TITLE"], 2, "flac: command: comment without =\n")
    yield "retag without =", lambda: line(["retag", good, bench.path(), "TITLE"], 2, "flac: command: comment without =\n")
    yield "Ogg and seek table", lambda: line(["encode", good, bench.path(), *encode, "--ogg", "--seek-every", "5"], 2,
                                              "flac: command: --ogg with --seek-every\n")
    yield "--version", lambda: printed(["--version"], "flac (proved) 1.0.0\n")
    for word, command in (("-t", "test"), ("--test", "test"), ("-d", "decode"), ("--decode", "decode")):
        words = "IN" if command == "test" else "IN OUT"
        yield f"{word} as first word", lambda w=word, c=command, o=words: line([w, good], 2, f"flac: command: to {c} a stream: flac {c} {o}\n")
    for number in (1, 2, 3):
        words = ["decode", good, bench.path()][:number - 1] + ["a\udcff"]
        yield f"word {number} is not text", lambda w=words, n=number: line(w, 2, f"flac: command: word {n} is not text\n")
    yield "a long word that is not text", lambda: line(["encode", "a" * 131070 + "\udcff"], 2, "flac: command: word 2 is not text\n")
    yield "list of several files", lambda: listed(bench, good, absent)
    yield "list --head", lambda: heads(bench)
    yield "list, no such file", lambda: line(["list", absent], 1, f"flac: {absent}: cannot be opened\n")
    jobs = [("decode", vectors.ROW_1, ["decode"]), ("retag", vectors.ROW_1, ["retag", "A=b"]), ("encode", bytes(400), ["encode", *encode])]
    for name, data, words in jobs:
        yield f"{name}, OUT is IN", lambda data=data, words=words: output_is_input(bench, data, words)
        yield f"{name}, OUT is another file", lambda data=data, words=words: output_is_another(bench, data, words)
        yield f"{name}, OUT is no file", lambda data=data, words=words: program.succeeds(words[0], bench.put(data), "/dev/null", *words[1:])
        yield f"{name}, help on OUT", lambda words=words: said_in_help(words[0])
    yield "retag --lax", lambda: line(["retag", "--lax", good, bench.path(), "A=b"], 2, None)
    yield from lax_cases(bench)
    for words in (["--lax"], ["--predictors", os.devnull]):
        yield f"encode, help on {words[0]}", lambda w=words: said_in_help("encode", w[0])
        yield f"encode {words[0]}, OUT is IN", lambda w=words: output_is_input(bench, bytes(400), ["encode", *encode, *w])
        yield f"encode {words[0]}, OUT is another file", lambda w=words: output_is_another(bench, bytes(400), ["encode", *encode, *w])
    yield "test --predictors", lambda: line(["test", good, "--predictors", os.devnull], 2, None)
