"""Cases of the program's `encode` and `retag`."""
import os

import folders  # noqa: F401  (the path of the modules below)
import corpus
import model
import program
import reference
import vectors
from model import SUBSET
from program import NotCompared, Wrong, expect, read
from reading import decode_case

LEAST = ["-l", "0", "-b", "4096", "-m", "-r", "8", "-e"]
"""The reference's settings for fixed predictors: its frames are in the family of which the program writes the least."""
RATE_CODES = {88200, 176400, 192000, 8000, 16000, 22050, 24000, 32000, 44100, 48000, 96000}


def has_code(rate):
    return rate in RATE_CODES or rate <= 65535 or (rate % 1000 == 0 and rate <= 255000) or (rate % 10 == 0 and rate <= 655350)


def form(sound):
    return ["--rate", str(sound.rate), "--channels", str(sound.channels), "--bits", str(sound.bits)]


def encode(sound, raw, bench, *more, suffix=".flac"):
    out = bench.path(suffix)
    if program.succeeds("encode", raw, out, *form(sound), *more):
        raise Wrong("'encode' prints something")
    return out


def given_back(path, raw, sound, profile=SUBSET):
    """The reference's test passes and both give back the samples."""
    if not reference.accepts(path):
        raise Wrong("the reference's test of what 'encode' wrote fails")
    if sound.length and reference.decoded(path, sound.bits) != read(raw):
        raise Wrong("the reference decodes other samples than those encoded")
    places = reference.frame_places(path)
    expect(program.answer(path, profile), f"frames {len(places)} samples {sound.length}")
    return places


def frames_of(path):
    """The bytes of each frame of a good stream. In a native one the reference finds where they begin."""
    data = read(path)
    if data[:1] == b"O":
        return [packet for packet in packets(data) if packet[:1] == b"\xff"]
    starts = [offset for offset, _, _ in reference.frame_places(path)]
    return [data[a:b] for a, b in zip(starts, [*starts[1:], len(data)])]


def packets(data):
    """The packets of a good Ogg stream, by the lacing values of its pages (RFC 3533, section 6)."""
    at, begun = 0, b""
    while at < len(data):
        lacing = data[at + 27:at + 27 + data[at + 26]]
        at += 27 + len(lacing)
        for value in lacing:
            begun, at = begun + data[at:at + value], at + value
            if value < 255:
                yield begun
                begun = b""


def decoded_by_both(path, raw, sound, bench, profile):
    """The program and the reference decode a file to the samples."""
    if sound.length:
        decode_case(corpus.Entry("", path, raw, *sound[2:]), bench, profile)


def plain_case(sound, raw, bench, block):
    path = encode(sound, raw, bench, "--block", str(block))
    places = given_back(path, raw, sound)
    expect(len(places), -(-sound.length // block))
    is_stated(path, sound, block)
    os.remove(path)


def is_stated(path, sound, block):
    """STREAMINFO of a native file has its fields, and one comment block follows it."""
    sizes, reader = [len(frame) for frame in frames_of(path)], model.Metadata(read(path))
    info = dict(reader.blocks[0][2])
    told = [info[name] for name in ("least_block", "greatest_block", "least_frame", "greatest_frame", "rate", "channels", "depth", "total")]
    expect(told, [block, block, min(sizes, default=0), max(sizes, default=0), sound.rate, sound.channels, sound.bits, sound.length])
    if not any(info["digest"]):
        raise Wrong("no digest is stated")
    expect([(kind, fields[0], fields[1]) for _, kind, _, fields in [(0, *b) for b in reader.blocks[1:]]], [(4, b"flac profile 1", [])])


def ogg_case(sound, raw, bench):
    path = encode(sound, raw, bench, "--ogg", "--serial", "77", "A=b", suffix=".oga")
    given_back(path, raw, sound)
    data = read(path)
    expect(int.from_bytes(data[14:18], "little"), 77)
    lines = program.succeeds("list", path).decode("ascii").splitlines()
    expect(reference.same_lines(lines, reference.listing(path)), None)
    os.remove(path)


def seek_case(sound, raw, bench, every):
    """Every point names a frame's first sample, its offset and its length, and each multiple lies in one of them."""
    path = encode(sound, raw, bench, "--block", "1152", "--seek-every", str(every), "ARTIST=c", "B=")
    places = given_back(path, raw, sound)
    firsts = [(index * 1152, offset - places[0][0], size) for index, (offset, _, size) in enumerate(places)]
    due = [firsts[index] for index in sorted({sample // 1152 for sample in range(0, sound.length, every)})]
    tables = [fields for kind, _, fields in model.Metadata(read(path)).blocks if kind == 3]
    expect(tables, [due])
    os.remove(path)


def least_case(sound, raw, bench, made):
    """The program's frames are together no longer than the reference's with the same choices."""
    ours = encode(sound, raw, bench, "--block", "4096")
    theirs = made.path(f"{sound.name}.least.flac")
    if not corpus.made(theirs, corpus.REFERENCE, "-s", "-f", *LEAST, "-o", corpus.OUT, made.path(sound.name + ".wav")):
        raise NotCompared("the reference does not take this sound")
    sizes = [os.path.getsize(path) - reference.frame_places(path)[0][0] for path in (ours, theirs)]
    if sizes[0] > sizes[1]:
        raise Wrong(f"{sizes[0]} bytes of frames, the reference writes {sizes[1]}")
    os.remove(ours)


def bytes_case(samples, form_words, due, bench):
    """The frames written for a few samples, byte by byte."""
    raw, out = bench.put(samples, ".raw"), bench.path()
    program.succeeds("encode", raw, out, *form_words)
    data = read(out)
    reader = model.Metadata(data)
    expect(data[reader.bits.place >> 3:].hex(), due.hex())


def fault_case(samples, words, due, bench):
    raw, out = bench.put(samples, ".raw"), bench.path()
    status, _, err = program.call("encode", raw, out, *words)
    expect(program.fault_of(raw, status, err), due)


def retag_case(entry, bench):
    """New comments stand after STREAMINFO, the other blocks and every byte of the frames stay."""
    out, comments = bench.path(), [b"TITLE=x", b"EMPTY=", "NAME=\u00e9".encode()]
    if program.succeeds("retag", entry.path, out, *[os.fsdecode(comment) for comment in comments]):
        raise Wrong("'retag' prints something")
    before, after = (model.Metadata(read(path)) for path in (entry.path, out))
    kept = [block for block in before.blocks if block[0] != 4]
    due = [(kind, fields) for kind, _, fields in kept]
    due.insert(1, (4, (b"flac profile 1", comments)))
    expect([(kind, fields) for kind, _, fields in after.blocks], due)
    expect(read(out)[after.bits.place >> 3:], read(entry.path)[before.bits.place >> 3:])
    if not reference.accepts(out):
        raise Wrong("the reference's test of what 'retag' wrote fails")
    os.remove(out)


def byte_rows():
    """Samples, the words of the format, and the frames due."""
    def row(channels, bits, block):
        return ["--rate", "44100", "--channels", str(channels), "--bits", str(bits), "--block", str(block)]

    ramp = b"".join(value.to_bytes(2, "little") for value in range(16))
    both = b"".join(value.to_bytes(2, "little") * 2 for value in range(16))
    yield "one sample of two channels", bytes.fromhex("F463B028"), row(2, 16, 4096), bytes.fromhex("FFF869180000BF0158FD01128B5AB2")
    yield "no sample", b"", row(2, 16, 4096), b""
    yield "a ramp", ramp, row(1, 16, 16), vectors.RAMP
    yield "zeros", bytes(32), row(1, 16, 16), vectors.ZEROS
    yield "two equal ramps", both, row(2, 16, 16), vectors.LEFT_SIDE


def fault_rows():
    def words(rate=44100, channels=1, bits=16, block=4096, *more):
        return ["--rate", str(rate), "--channels", str(channels), "--bits", str(bits), "--block", str(block), *more]

    yield "rate 0", bytes(8), words(rate=0), "40 BadRate"
    yield "rate 65537", bytes(8), words(rate=65537), "40 BadRate"
    yield "rate and depth", bytes(8), words(rate=65537, bits=17), "40 BadRate"
    yield "depth 17", bytes(8), words(bits=17, channels=9), "41 BadDepth"
    yield "no channels", bytes(8), words(channels=0), "42 BadChannels"
    yield "9 channels", bytes(9), words(channels=9), "42 BadChannels"
    yield "odd bytes", bytes(9), words(), "48 RawLength"
    yield "half a column", bytes(6), words(channels=2), "48 RawLength"
    yield "sample too large", bytes.fromhex("0008"), words(bits=12), "44 SampleTooLarge"
    yield "sample too small", bytes.fromhex("FFF7"), words(bits=12, block=15), "44 SampleTooLarge"
    yield "block 15", bytes(8), words(block=15), "46 BadBlockSize"
    yield "block 4609", bytes(8), words(block=4609), "46 BadBlockSize"
    yield "block 16385", bytes(8), words(96000, 1, 16, 16385), "46 BadBlockSize"


def cases(made, quick, bench):
    taken = [sound for sound in made.sounds if has_code(sound.rate)] + made.real
    for index, sound in enumerate(taken):
        raw = made.path(sound.name + ".raw")
        blocks = [4096] if quick else [4096, 16384 if sound.rate > 48000 else (16, 192, 1000, 4608, 256)[index % 5]]
        for block in blocks:
            yield "encode", f"{sound.name}, block {block}", lambda s=sound, r=raw, b=block: plain_case(s, r, bench, b)
        if not quick or index % 3 == 0:
            yield "encode, Ogg", sound.name, lambda s=sound, r=raw: ogg_case(s, r, bench)
        if sound.length > 4000 and (not quick or index % 4 == 0):
            yield "encode, seek table", sound.name, lambda s=sound, r=raw: seek_case(s, r, bench, 700 + 1000 * (len(s.name) % 4))
        if sound.length > 16 and (not quick or index % 3 == 1):
            yield "encode, least frames", sound.name, lambda s=sound, r=raw: least_case(s, r, bench, made)
    for name, samples, words, due in byte_rows():
        yield "encode, bytes", name, lambda s=samples, w=words, d=due: bytes_case(s, w, d, bench)
    for name, samples, words, due in fault_rows():
        yield "encode, refusals", name, lambda s=samples, w=words, d=due: fault_case(s, w, d, bench)
    for entry in [e for e in made.entries if not e.path.endswith(".oga")][::9 if quick else 3]:
        yield "retag", os.path.basename(entry.path), lambda e=entry: retag_case(e, bench)
    for entry in [e for e in made.entries if e.group == "metadata"]:
        yield "retag", os.path.basename(entry.path), lambda e=entry: retag_case(e, bench)
