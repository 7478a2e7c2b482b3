"""Cases of `encode --predictors`: frames with linear predictors of a list, and lists that are refused.

The lists are the shipped one, one made of the sound itself by predictors/make, and some small ones. How many bytes the frames have is
counted by predictors/price, which shares no code with the program.
"""
import os
import subprocess
import sys

import folders  # noqa: F401  (the path of the modules below)
import damage
import encoding
import model
import outside
import program
import vectors
from command_line import spellings
from lax_encoding import price
from model import LAX, SUBSET
from program import Wrong, expect, read
from reading import model_case
from sounds import LENGTH

sys.path.append(os.path.join(program.ROOT, "predictors"))
import lists  # noqa: E402

GROUP = "encode --predictors"
MOST_BYTES = 1 << 20
"""The most bytes of a list."""
SMALL = b"# a straight line\n3 0 2 -1\n\n12 10 2047 -1024 # nearly\n1 0 -1\n"
LONG = b"13 11 " + b" ".join(b"%d" % (2000 - 130 * at) for at in range(32)) + b"\n3 0 " + b"-1 2 " * 8 + b"\n"
"""Predictors of order 32 and 16."""
FULL = b"15 15 16383 -16384\n1 0 0\n1 15 -1\n15 0 -16384\n2 0 1 -2 1\n"
"""The greatest and the smallest fields."""
SPELLINGS = [("tabs and spaces", b"\t3\t0  2 -1 \n"), ("no end of line", b"3 0 2 -1"), ("a comment in the line", b"3 0 2 -1# x"),
             ("zeros ahead", b"0000003 -0 02 -01\n"), ("lines as Windows ends them", b"# x\r\n\r\n3 0 2 -1\r\n"),
             ("comments of any bytes", b"#\xff\0\x0b\n3 0 2 -1 #\xe9#\r\n")]
"""The list `3 0 2 -1` in other words."""
FORM = ["--rate", "44100", "--channels", "1", "--bits", "16"]


def sounds(made, quick):
    """A handful of sounds, with block sizes: (sound, block, more words)."""
    of = outside.sound
    found = [(of("music", length=LENGTH), 4096, []), (of("speech", length=LENGTH), 1152, []), (of("tone", length=20000), 4608, []),
             (of("wasted", length=LENGTH), 4096, []), (of("music", 96000, 2, 24, 40000), 4096, []), (of("square", bits=32, length=4000), 1000, []),
             (of("music", channels=8, length=6000), 4096, []), (of("silence", length=LENGTH), 4096, []), (of("noise", length=LENGTH), 192, []),
             *((of("speech", length=length, channels=1 + length % 2), 16, []) for length in (0, 1, 2, 15, 16, 17, 4097)),
             (of("tone", 12345, 1, 13, 900), 300, ["--lax"]), (of("clicks", 700001, 2, 27, 2000), 512, ["--lax"]),
             (of("tone", 44100, 2, 16, 20000), 8192, ["--lax"])]
    return [(made.prepare(sound), block, more) for sound, block, more in (found[::3] if quick else found)] + [
        (sound, 4096, []) for sound in made.real[:1 if quick else 6]]


def lists_for(sound, more, bench):
    """Lists that this sound may have: names and paths."""
    yield "shipped", lists.SHIPPED
    yield "small", bench.put(SMALL, ".txt")
    yield "full", bench.put(FULL, ".txt")
    if more or sound.rate > 48000:
        yield "long", bench.put(LONG, ".txt")


def own_list(wav, bench):
    """A list made of the sound itself."""
    path = bench.path(".txt")
    done = subprocess.run(lists.making(path, wav, count=8, candidates=40, frames=8), capture_output=True, text=True, check=False)
    if done.returncode != 0:
        raise Wrong(f"predictors/make makes no list: {done.stderr[-200:]}")
    return path


def list_case(sound, block, more, listed, made, bench):
    """Both read the file, its frames have the bytes that are counted, and none is longer than without the list."""
    profile, raw, words = LAX if more else SUBSET, made.path(sound.name + ".raw"), ["--block", str(block), *more]
    listed = listed or own_list(made.path(sound.name + ".wav"), bench)
    path, plain = encoding.encode(sound, raw, bench, *words, "--predictors", listed), encoding.encode(sound, raw, bench, *words)
    encoding.given_back(path, raw, sound, profile)
    encoding.is_stated(path, sound, block)
    encoding.decoded_by_both(path, raw, sound, bench, profile)
    sizes, without = ([len(frame) for frame in encoding.frames_of(one)] for one in (path, plain))
    expect(sum(sizes), price(made.path(sound.name + ".wav"), block, listed, bool(more)))
    if any(size > before for size, before in zip(sizes, without, strict=True)):
        raise Wrong("a frame is longer than without the list")
    for one in (path, plain):
        os.remove(one)


def ogg_case(sound, block, more, made, bench):
    """The Ogg file has the frames of the native one."""
    profile, raw, words = LAX if more else SUBSET, made.path(sound.name + ".raw"), ["--block", str(block), *more, "--predictors", lists.SHIPPED]
    native = encoding.encode(sound, raw, bench, *words)
    path = encoding.encode(sound, raw, bench, *words, "--ogg", "A=b", suffix=".oga")
    encoding.given_back(path, raw, sound, profile)
    expect(encoding.frames_of(path), encoding.frames_of(native))
    for one in (path, native):
        os.remove(one)


def saves_case(made, bench):
    """A pure tone is written in fewer bytes by a list made of it."""
    sound = made.prepare(outside.sound("tone", length=20000))
    raw, listed = made.path(sound.name + ".raw"), own_list(made.path(sound.name + ".wav"), bench)
    path, plain = encoding.encode(sound, raw, bench, "--predictors", listed), encoding.encode(sound, raw, bench)
    if os.path.getsize(path) >= os.path.getsize(plain):
        raise Wrong(f"{os.path.getsize(path)} bytes with the list, {os.path.getsize(plain)} without")


def empty_case(text, made, bench):
    """A list without a predictor changes nothing."""
    sound = made.prepare(outside.sound("music", length=LENGTH))
    raw, listed = made.path(sound.name + ".raw"), bench.put(text, ".txt")
    for more in ([], ["--ogg"], ["--seek-every", "5000", "A=b"]):
        expect(read(encoding.encode(sound, raw, bench, *more, "--predictors", listed)), read(encoding.encode(sound, raw, bench, *more)))


def same_case(text, due, bench):
    """Two lists that have the same predictors give the same bytes."""
    raw, outs = bench.put(b"".join((n * n % 3001).to_bytes(2, "little") for n in range(400)), ".raw"), [bench.path(), bench.path()]
    for out, one in zip(outs, (text, due)):
        program.succeeds("encode", raw, out, *FORM, "--predictors", bench.put(one, ".txt"))
    expect(read(outs[0]), read(outs[1]))


def upside_down_case(bench):
    """1001, -1001 and so on: `1 0 -1` leaves zeros, in a subframe of 49 bits (RFC 9639, section 9.2.6)."""
    samples = b"".join((1001 * (-1) ** n).to_bytes(2, "little", signed=True) for n in range(16))
    path = bench.path()
    program.succeeds("encode", bench.put(samples, ".raw"), path, *FORM, "--block", "16", "--predictors", bench.put(b"1 0 -1\n", ".txt"))
    # type 32, no wasted bits, warm-up 1001, precision 1, shift 0, coefficient -1; the residual is escaped with no bits
    body = "0 100000 0" + f"{1001:016b}" + "0000 00000 1" + vectors.ESCAPED
    expect([frame.hex() for frame in encoding.frames_of(path)], [vectors.frame(body).hex()])


BAD_LINES = [b"0 0 0", b"16 0 1", b"12 -1 1", b"12 16 1", b"12 5", b"12", b"4 0 8", b"4 0 -9", b"4 0 x", b"4 0 1.5", b"4,0,1", b"1 0 1", b"4 0" + 33 * b" 1",
             b"4 0 --1", b"4 0 -", b"15 0 16384", b"15 0 -16385", b"15 0 1000000", b"x", b"4 0 1 x", b"4 0 0x1", b"-4 0 1", b"4 0 \0", b"4 0 \xff",
             b"4 0 +1", b"4 0\x0b1", b"4\x0c0 1", b"4 0 1\xa0",
             b"4 0 99999999999999999999999999", b"99999999999999999999 0 1", b"4 -99999999999999999999 1"]


def orders(count, order=1):
    """A list of so many predictors of one order."""
    return (b"4 0" + order * b" 1" + b"\n") * count


def line_rows():
    """Lists with a wrong line, and its number."""
    for bad in BAD_LINES:
        yield f"{bad[:20]!r} in line 3", b"# a comment\n3 0 2 -1\n" + bad + b"\n3 0 2 -1\n", 3
    yield "line 1", b"x\n", 1
    yield "line 1, without an end", b"16 0 1", 1
    yield "after empty lines", b"\n\n \t\n# x\nx", 5
    yield "the first of two", b"4 0 1\nx\ny\n", 2
    yield "before a comment", b"4 0 1\n4 0 # 1\n", 2
    yield "after 65 predictors", orders(65) + b"x\n", 66
    yield "line 1000", b"\n" * 999 + b"4 0 8", 1000


def fault_rows():
    """What is refused: name, list, raw samples, words, whose path the line has, its text."""
    def words(rate=44100, bits=16, block=4096, *more):
        return ["--rate", str(rate), "--channels", "1", "--bits", str(bits), "--block", str(block), *more]

    bad = "line 1: 53 PredictorLine"
    for name, text, number in line_rows():
        yield name, text, bytes(8), words(), "LIST", f"line {number}: 53 PredictorLine"
    yield "a wrong line, rate 0", b"x", bytes(8), words(0), "LIST", bad
    yield "a wrong line, 3 bytes", b"x", bytes(3), words(), "LIST", bad
    yield "a wrong line, --lax", b"x", bytes(3), words(1048576, 3, 4096, "--lax"), "LIST", bad
    yield "65 predictors", orders(65), bytes(8), words(), "LIST", "52 TooManyPredictors"
    yield "65 predictors, --lax", orders(65), bytes(8), words(700001, 16, 4096, "--lax"), "LIST", "52 TooManyPredictors"
    yield "65 predictors of order 13", orders(65, 13), bytes(8), words(), "LIST", "52 TooManyPredictors"
    yield "65 predictors, no samples", orders(65), b"", words(), "LIST", "52 TooManyPredictors"
    yield "order 13", orders(1, 13), bytes(8), words(), "LIST", "51 PredictorOrder"
    yield "order 13 at 48000 Hz", orders(1, 12) + orders(1, 13), bytes(8), words(48000), "LIST", "51 PredictorOrder"
    yield "order 32 in Ogg, no samples", orders(1, 32), b"", words(44100, 16, 4096, "--ogg"), "LIST", "51 PredictorOrder"
    for name, text in (("65 predictors", orders(65)), ("order 13", orders(1, 13))):
        yield f"{name}, rate 65537", text, bytes(8), words(65537), "IN", "40 BadRate"
        yield f"{name}, 3 bytes", text, bytes(3), words(), "IN", "48 RawLength"
        yield f"{name}, sample too large", text, bytes.fromhex("0008"), words(44100, 12), "IN", "44 SampleTooLarge"
        yield f"{name}, block 15", text, bytes(8), words(44100, 16, 15), "IN", "46 BadBlockSize"


def fault_case(text, samples, words, of, due, bench):
    """Refused with the line that is due. OUT keeps its bytes, and nothing is beside it."""
    names = {"IN": bench.put(samples, ".raw"), "LIST": bench.put(text, ".txt"), "OUT": bench.put(b"what is in OUT before")}
    found = program.call("encode", names["IN"], names["OUT"], *words, "--predictors", names["LIST"])
    expect(found, (1, b"", f"flac: {names[of]}: {due}\n".encode()))
    expect((read(names["OUT"]), read(names["LIST"]), os.path.exists(names["OUT"] + ".part")), (b"what is in OUT before", text, False))


def taken_rows():
    """Lists at the limits that are taken: name, list, words."""
    def words(rate, *more):
        return ["--rate", str(rate), "--channels", "1", "--bits", "16", *more]

    yield "64 predictors", orders(64), words(44100)
    yield "64 predictors and comments", b"# x\n" + orders(64) + b"\n# y", words(44100)
    yield "order 12 at 8000 Hz", orders(1, 12), words(8000)
    yield "order 13 at 48001 Hz", orders(1, 13), words(48001)
    yield "order 32 at 96000 Hz", LONG, words(96000)
    yield "order 16 at 44100 Hz, --lax", orders(1, 16), words(44100, "--lax")
    yield "order 32 at 1 Hz, --lax", LONG, words(1, "--lax")
    yield "the greatest fields", FULL, words(44100)


def taken_case(text, words, bench):
    """What is written is read, and has the samples."""
    raw, path, back = bench.put(bytes(range(256)) * 2, ".raw"), bench.path(), bench.path(".raw")
    program.succeeds("encode", raw, path, *words, "--predictors", bench.put(text, ".txt"))
    program.succeeds("decode", *(["--lax"] if "--lax" in words else []), path, back)
    expect(read(back), read(raw))


def damage_case(made, bench, container):
    """What is written is damaged in many ways: the program answers as the model."""
    sound = made.prepare(outside.sound("tone", length=900))
    path = encoding.encode(sound, made.path(sound.name + ".raw"), bench, "--block", "256", "--predictors", lists.SHIPPED, *container,
                           suffix=".oga" if container else ".flac")
    data = read(path)
    for _, copy in damage.pages(data) if container else damage.everything(data, model.reader_of(data, LAX).places, sound.name, 20):
        model_case(copy, bench)


def path_rows():
    """Lists that are no files to be read: name, path or None for one that is not there, what is due."""
    yield "not there", "/nonexistent/list.txt", "cannot be opened"
    yield "an empty word", "", "cannot be opened"
    yield "a folder", "/usr", "cannot be read"
    yield "a device without an end", "/dev/zero", "cannot be read"


def path_case(listed, due, bench):
    """Refused before OUT is created: a folder of OUT that is not there is not reported."""
    raw, out = bench.put(bytes(8), ".raw"), bench.path()
    for path in (out, "/nonexistent/a.flac"):
        expect(program.call("encode", raw, path, *FORM, "--predictors", listed), (1, b"", f"flac: {listed}: {due}\n".encode()))
    expect(os.path.exists(out), False)


def size_case(size, bench):
    """A list of this many bytes: at most 1 MiB is read."""
    raw, listed, out = bench.put(bytes(8), ".raw"), bench.put(b"4 0 1\n#" + b"x" * (size - 7), ".txt"), bench.path()
    found = program.call("encode", raw, out, *FORM, "--predictors", listed)
    expect(found, (0, b"", b"") if size <= MOST_BYTES else (1, b"", f"flac: {listed}: cannot be read\n".encode()))


def out_is_list_case(bench):
    """OUT is LIST, however it is spelled: refused, and LIST keeps its bytes."""
    raw, listed = bench.put(bytes(8), ".raw"), bench.put(SMALL, ".txt")
    for name, out in spellings(bench, listed):
        found = program.call("encode", raw, out, *FORM, "--predictors", listed)
        if found != (1, b"", f"flac: {out}: cannot be created\n".encode()) or read(listed) != SMALL:
            raise Wrong(f"{name}: {found}")


def in_is_list_case(bench):
    """LIST and IN may be one file, of which nothing is written."""
    text = b"4 0 1\n# 34567890"
    both, out = bench.put(text, ".txt"), bench.path()
    program.succeeds("encode", both, out, *FORM, "--predictors", both)
    expect((program.answer(out), read(both)), ("frames 1 samples 8", text))


def words_case(bench, *words):
    """Words that are refused with status 2."""
    found = program.call("encode", bench.put(bytes(8), ".raw"), bench.path(), *FORM, *words)
    expect((found[0], found[1]), (2, b""))


def file_cases(made, quick, bench):
    for index, (sound, block, more) in enumerate(sounds(made, quick)):
        name = f"{sound.name}, block {block}{', --lax' * len(more)}"
        own = [("own", None)] if sound.length >= 4096 and sound.bits < 32 else []
        for kind, listed in [*lists_for(sound, more, bench), *own]:
            yield GROUP, f"{name}, list {kind}", lambda s=sound, b=block, m=more, p=listed: list_case(s, b, m, p, made, bench)
        if index % 3 == 0:
            yield f"{GROUP}, Ogg", name, lambda s=sound, b=block, m=more: ogg_case(s, b, m, made, bench)
    yield f"{GROUP}, bytes", "a list of its own saves", lambda: saves_case(made, bench)
    yield f"{GROUP}, bytes", "samples upside down", lambda: upside_down_case(bench)
    for name, text in (("empty", b""), ("comments", b"# 4 0 1\n#\n"), ("spaces and tabs", b" \t\n\n\t"), ("a comment without an end", b"#")):
        yield f"{GROUP}, nothing in the list", name, lambda t=text: empty_case(t, made, bench)
    for name, text in SPELLINGS:
        yield f"{GROUP}, spellings", name, lambda t=text: same_case(t, b"3 0 2 -1\n", bench)
    for container in ([], ["--ogg"]):
        yield f"{GROUP}, damage", f"tone{', Ogg' * len(container)}", lambda o=container: damage_case(made, bench, o)


def cases(made, quick, bench):
    """All cases."""
    yield from file_cases(made, quick, bench)
    for name, text, samples, words, of, due in fault_rows():
        yield f"{GROUP}, refusals", name, lambda t=text, s=samples, w=words, o=of, d=due: fault_case(t, s, w, o, d, bench)
    for name, text, words in taken_rows():
        yield f"{GROUP}, at the limits", name, lambda t=text, w=words: taken_case(t, w, bench)
    for name, listed, due in path_rows():
        yield f"{GROUP}, no list", name, lambda p=listed, d=due: path_case(p, d, bench)
    for size in (MOST_BYTES - 1, MOST_BYTES, MOST_BYTES + 1, 3 * MOST_BYTES):
        yield f"{GROUP}, no list", f"{size} bytes", lambda n=size: size_case(n, bench)
    yield f"{GROUP}, same files", "OUT is LIST", lambda: out_is_list_case(bench)
    yield f"{GROUP}, same files", "IN is LIST", lambda: in_is_list_case(bench)
    yield f"{GROUP}, words", "no path", lambda: words_case(bench, "--predictors")
