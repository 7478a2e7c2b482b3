"""Cases of `encode --lax`: streams that may leave the streamable subset are written.

The sounds and block sizes are those with which the reference encodes outside the subset (`outside.py`): every depth, rates that frame
headers cannot state, blocks to 65535 samples, 1 to 8 channels. The reference reads all of them.
"""
import os
import subprocess

import folders  # noqa: F401  (the path of the modules below)
import corpus
import damage
import encoding
import model
import outside
import program
import reference
import vectors_lax
from model import LAX, SUBSET
from program import NotCompared, Wrong, expect, read
from reading import model_case

GROUP = "encode --lax"
PRICE = os.path.join(program.ROOT, "predictors", "price")
LEAST = ["--lax", "-l", "0", "-m", "-r", "15", "-e"]
"""The reference's settings for fixed predictors with every partition order."""
DEPTHS = (8, 12, 16, 20, 24, 32)


def rows(quick):
    """Sounds and block sizes, each once."""
    every = [*outside.alone(), *outside.depths(), *outside.mixed(30 if quick else 200)]
    found = {(sound, int(settings[settings.index("-b") + 1]) if "-b" in settings else 4096) for _, sound, settings in every}
    return sorted(found)[::9 if quick else 1]


def has_codes(sound):
    """Whether frame headers can state rate and depth."""
    return encoding.has_code(sound.rate) and sound.bits in DEPTHS


def most_samples(sound):
    """The largest block of the subset at this rate."""
    return SUBSET.slow_block if sound.rate <= 48000 else SUBSET.block


def subset_answer(path, sound, block):
    """What is due from `test` without `--lax`, by the sound and the partition orders that the reference finds."""
    orders = reference.partition_orders(path)
    if orders and (not has_codes(sound) or min(block, sound.length) > most_samples(sound)):
        return "frame 0: 14 NotSubset"
    first = next((index for index, order in enumerate(orders) if order > SUBSET.partition_order), None)
    return f"frames {len(orders)} samples {sound.length}" if first is None else f"frame {first}: 14 NotSubset"


def lax_case(sound, block, made, bench):
    """Both read the file; without `--lax` the program reads it if it is of the subset; STREAMINFO has its fields."""
    raw = made.path(sound.name + ".raw")
    path = encoding.encode(sound, raw, bench, "--lax", "--block", str(block))
    places = encoding.given_back(path, raw, sound, LAX)
    expect(len(places), -(-sound.length // block))
    encoding.is_stated(path, sound, block)
    expect(program.answer(path), subset_answer(path, sound, block))
    encoding.decoded_by_both(path, raw, sound, bench, LAX)
    os.remove(path)


def ogg_case(sound, block, made, bench):
    """The Ogg file has the frames of the native one, and is read by both."""
    raw = made.path(sound.name + ".raw")
    native = encoding.encode(sound, raw, bench, "--lax", "--block", str(block))
    path = encoding.encode(sound, raw, bench, "--lax", "--block", str(block), "--ogg", "--serial", "9", "A=b", suffix=".oga")
    encoding.given_back(path, raw, sound, LAX)
    expect(encoding.frames_of(path), encoding.frames_of(native))
    expect(program.answer(path), program.answer(native))
    encoding.decoded_by_both(path, raw, sound, bench, LAX)
    os.remove(native)
    os.remove(path)


def seek_case(sound, block, made, bench):
    """A seek table has the points that the frames have."""
    raw = made.path(sound.name + ".raw")
    path = encoding.encode(sound, raw, bench, "--lax", "--block", str(block), "--seek-every", "1000")
    places = encoding.given_back(path, raw, sound, LAX)
    held = sorted({sample // block for sample in range(0, sound.length, 1000)})
    due = [(index * block, places[index][0] - places[0][0], places[index][2]) for index in held]
    expect([fields for kind, _, fields in model.Metadata(read(path)).blocks if kind == 3], [due])
    os.remove(path)


def price(wav, block, listed="-", lax=False):
    """The bytes of all frames, as predictors/price counts them."""
    words = [PRICE, "--block", str(block), *(["--lax"] if lax else []), listed, wav]
    done = subprocess.run(words, capture_output=True, text=True, check=False)
    if done.returncode != 0:
        raise Wrong(f"predictors/price does not count: {done.stderr[-200:]}")
    return int(done.stdout.split()[0])


def counted_case(sound, block, made, bench):
    """The frames have as many bytes as predictors/price counts."""
    path = encoding.encode(sound, made.path(sound.name + ".raw"), bench, "--lax", "--block", str(block))
    expect(sum(map(len, encoding.frames_of(path))), price(made.path(sound.name + ".wav"), block, lax=True))
    os.remove(path)


def longer_case(sound, block, made, bench):
    """No frame is longer than without `--lax`; frames whose partition orders stay below 9 are as long."""
    raw = made.path(sound.name + ".raw")
    lax, subset = (encoding.encode(sound, raw, bench, *words, "--block", str(block)) for words in (["--lax"], []))
    orders = reference.partition_orders(lax)
    for index, (ours, before, order) in enumerate(zip(*map(encoding.frames_of, (lax, subset)), orders, strict=True)):
        if len(ours) > len(before) or (order <= SUBSET.partition_order and len(ours) < len(before)):
            raise Wrong(f"frame {index} has {len(ours)} bytes, and {len(before)} without --lax; its partition order is {order}")
    os.remove(lax)
    os.remove(subset)


def gain_case(sound, block, made, bench):
    """Bursts that are best coded in more than 256 partitions: these are chosen, and fewer bytes are written."""
    raw = made.path(sound.name + ".raw")
    lax, subset = (encoding.encode(sound, raw, bench, *words, "--block", str(block)) for words in (["--lax"], []))
    if max(reference.partition_orders(lax)) <= SUBSET.partition_order or os.path.getsize(lax) >= os.path.getsize(subset):
        raise Wrong("no partition order above 8 is chosen")
    longer_case(sound, block, made, bench)
    os.remove(lax)
    os.remove(subset)


def least_case(sound, block, made, bench):
    """The frames are no longer than those of the reference with fixed predictors and every partition order."""
    ours = encoding.encode(sound, made.path(sound.name + ".raw"), bench, "--lax", "--block", str(block))
    theirs, wav = made.path(f"{sound.name}.{block}.least_lax.flac"), made.path(sound.name + ".wav")
    settings = [word for word in LEAST if word != "-m" or sound.channels == 2]
    if not corpus.made(theirs, corpus.REFERENCE, "-s", "-f", *settings, "-b", str(block), "-o", corpus.OUT, wav):
        raise NotCompared("the reference does not take this sound")
    sizes = [sum(map(len, encoding.frames_of(path))) for path in (ours, theirs)]
    if sizes[0] > sizes[1]:
        raise Wrong(f"{sizes[0]} bytes of frames, the reference writes {sizes[1]}")
    os.remove(ours)


def damage_case(sound, block, made, bench, container):
    """What is written is damaged in many ways: the program answers as the model, with and without `--lax`."""
    suffix = ".oga" if container else ".flac"
    path = encoding.encode(sound, made.path(sound.name + ".raw"), bench, "--lax", "--block", str(block), *container, suffix=suffix)
    data = read(path)
    copies = damage.pages(data) if container else damage.everything(data, model.reader_of(data, LAX).places, sound.name, 12)
    for _, copy in copies:
        for profile in (SUBSET, LAX):
            model_case(copy, bench, profile)
    os.remove(path)


def zeros_case(bench):
    """Sixteen zeros of 65537 Hz and 5 bits, which the header does not state: the bytes, and refused without `--lax`."""
    form = ["--rate", "65537", "--channels", "1", "--bits", "5", "--block", "16"]
    encoding.bytes_case(bytes(16), [*form, "--lax"], vectors_lax.ZEROS_OF_5_BITS, bench)
    path = bench.path()
    program.succeeds("encode", bench.put(bytes(16), ".raw"), path, *form, "--lax")
    expect((program.answer(path), program.answer(path, LAX)), ("frame 0: 14 NotSubset", "frames 1 samples 16"))


def fault_rows():
    """Samples, the words of the format, and the fault. Without `--lax` in the last rows."""
    def words(rate=44100, channels=1, bits=16, block=4096, lax=True):
        form = ["--rate", str(rate), "--channels", str(channels), "--bits", str(bits), "--block", str(block)]
        return form + ["--lax"] * lax

    yield "rate 0", bytes(8), words(rate=0), "40 BadRate"
    yield "rate 1048576", bytes(8), words(rate=1048576), "40 BadRate"
    yield "rate and depth", bytes(8), words(rate=1048576, bits=3), "40 BadRate"
    yield "depth 3", bytes(8), words(bits=3), "41 BadDepth"
    yield "depth 33", bytes(10), words(bits=33, channels=9), "41 BadDepth"
    yield "9 channels", bytes(9), words(channels=9), "42 BadChannels"
    yield "two bytes of 17 bits", bytes(2), words(bits=17), "48 RawLength"
    yield "half a column of 5 bits", bytes(3), words(bits=5, channels=2), "48 RawLength"
    yield "sample 16 of 5 bits", bytes([15, 16]), words(bits=5), "44 SampleTooLarge"
    yield "sample -17 of 5 bits", bytes([0xF0, 0xEF]), words(bits=5, block=15), "44 SampleTooLarge"
    yield "sample of 25 bits", bytes.fromhex("FFFFFF00 00000001"), words(bits=25), "44 SampleTooLarge"
    yield "block 15", bytes(8), words(block=15), "46 BadBlockSize"
    yield "block 65536", bytes(8), words(block=65536), "46 BadBlockSize"
    for name, more, due in (("rate 65537", dict(rate=65537), "40 BadRate"), ("depth 5", dict(bits=5), "41 BadDepth"),
                            ("block 4609", dict(block=4609), "46 BadBlockSize"), ("block 65535", dict(rate=96000, block=65535), "46 BadBlockSize")):
        yield f"{name}, without --lax", bytes(8), words(**more, lax=False), due


def gains():
    """Sounds of the subset that are shorter with partition orders above 8, and their block sizes."""
    yield outside.sound("clicks", channels=1, length=33000), 4096
    yield outside.sound("clicks", channels=1, length=33000), 4608
    yield outside.sound("clicks", 96000, 2, 24, 17000), 8192


def cases(made, quick, bench):
    """All cases."""
    for index, (sound, block) in enumerate(rows(quick)):
        made.prepare(sound)
        for group, call, wanted in (
                ("", lax_case, True), (", Ogg", ogg_case, index % 4 == 0), (", seek table", seek_case, sound.length > 4000 and index % 5 == 1),
                (", bytes counted", counted_case, sound.length < 12000 and index % 2 == 0),
                (", least frames", least_case, sound.length > 16 and index % 3 == 0),
                (", beside the subset", longer_case, has_codes(sound) and block <= most_samples(sound))):
            if wanted:
                yield GROUP + group, f"{sound.name}, block {block}", lambda c=call, s=sound, b=block: c(s, b, made, bench)
    for sound, block in gains():
        made.prepare(sound)
        yield f"{GROUP}, beside the subset", f"{sound.name}, block {block}, gains", lambda s=sound, b=block: gain_case(s, b, made, bench)
    for bits, block in ((5, 100), (27, 256)):
        sound = made.prepare(outside.sound("music", 700001, 2, bits, 300))
        for container in ([], ["--ogg"]):
            yield f"{GROUP}, damage", f"{sound.name}{', Ogg' * len(container)}", lambda s=sound, b=block, o=container: damage_case(s, b, made, bench, o)
    yield f"{GROUP}, bytes", "sixteen zeros of 5 bits", lambda: zeros_case(bench)
    for name, samples, words, due in fault_rows():
        yield f"{GROUP}, refusals", name, lambda s=samples, w=words, d=due: encoding.fault_case(s, w, d, bench)
