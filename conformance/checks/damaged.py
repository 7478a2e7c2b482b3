"""Cases of damaged copies. Small files are compared with the model, larger ones by what any damage must do."""
import os

import folders  # noqa: F401  (the path of the modules below)
import corpus
import damage
import model
import program
import reference
from model import SUBSET
from program import Wrong, read
from reading import model_case, vector_case


def frame_damage_case(data, places, changed, bench):
    """A changed bit of a frame is found in that frame."""
    path = bench.put(data)
    found = program.answer(path)
    os.remove(path)
    index = max(i for i, place in enumerate(places) if place <= changed)
    if not found.startswith(f"frame {index}: "):
        raise Wrong(f"answers '{found}', due is a fault at frame {index}")


def refused_case(data, places, bench):
    """Refused, at one of the kinds of place that are possible."""
    path = bench.put(data)
    found = program.answer(path)
    os.remove(path)
    if found.startswith("frames ") or not found.startswith(places):
        raise Wrong(f"answers '{found}'")


def spliced_case(first, other, bench):
    """Good frames that are not those of the stated digest."""
    paths = bench.put(first), bench.put(other)
    heads = [reference.frame_places(path)[0][0] for path in paths]
    vector_case(first[:heads[0]] + other[heads[1]:], "end: 29 Md5Mismatch", bench)


def small_files(made):
    """Some frames of music, small enough for the model to read many copies."""
    sound = next(s for s in made.sounds if s.name.startswith("music-44100-2x16"))
    raw, sheet, picture = made.path("small.raw"), made.path("sheet.cue"), made.path("picture.png")
    corpus.save(raw, read(made.path(sound.name + ".raw"))[:4 * 1000])
    form = ["--force-raw-format", "--endian=little", "--sign=signed", "--channels=2", "--bps=16", "--sample-rate=44100"]
    for name, *settings in (("plain", "-5", "-b", "256", "-P", "20"), ("fixed", "-2", "-b", "192", "--no-padding"),
                            ("blocks", "-8", "-b", "400", "-P", "30", "-S", "200x", "-T", "A=b", f"--cuesheet={sheet}", f"--picture=3||||{picture}")):
        path = made.path(f"small_{name}.flac")
        corpus.made(path, corpus.REFERENCE, "-s", "-f", *form, *settings, "-o", corpus.OUT, raw)
        yield path


def by_the_model(path, count, bench, profile=SUBSET, group="damage, by the model"):
    """Every kind of damage to a small native file."""
    data, name = read(path), os.path.basename(path)
    for what, copy in damage.everything(data, model.reader_of(data, model.LAX).places, path, count):
        yield group, f"{name}, {what}", lambda d=copy: model_case(d, bench, profile)


def pages_by_the_model(path, count, bench, profile=SUBSET, group="damage, Ogg, by the model"):
    """Every kind of damage to a small Ogg file, and whole pages out of order."""
    data, name = read(path), os.path.basename(path)
    copies = [*damage.cuts(data, count, path), *damage.flips(data, 10 * count // 6, path), *damage.zeroed(data, 4 * count // 6, path),
              *damage.appended(data), *damage.pages(data)]
    for what, copy in copies:
        yield group, f"{name}, {what}", lambda d=copy: model_case(d, bench, profile)


def frame_cases(entry, bench):
    """Damage to a larger native file: it is refused, and a changed bit of a frame at that frame."""
    data, name = read(entry.path), os.path.basename(entry.path)
    places = [offset for offset, _, _ in reference.frame_places(entry.path)]
    if not places:
        return
    for what, copy in damage.flips(data, 6, entry.path, start=places[0]):
        changed = int(what.split()[4])
        yield f"{name}, {what}", lambda d=copy, p=places, c=changed: frame_damage_case(d, p, c, bench)
    for what, copy in [*damage.zeroed(data, 4, entry.path, start=places[0]), *damage.appended(data)]:
        yield f"{name}, {what}", lambda d=copy: refused_case(d, "frame ", bench)
    for what, copy in damage.cuts(data, 4, entry.path):
        yield f"{name}, {what}", lambda d=copy: refused_case(d, ("marker", "block ", "frame ", "end"), bench)


def digest_cases(made, bench):
    first, other = (read(e.path) for e in [e for e in made.entries if e.path.endswith("ref_1.flac") and e.group == "reference, settings"][:2])
    yield "frames of one file after the metadata of another", lambda: spliced_case(first, other, bench)
    for name, at, due in (("digest", 30, "end: 29 Md5Mismatch"), ("total", 25, "end: 28 TotalMismatch")):
        copy = bytearray(first)
        copy[at] ^= 1
        yield f"{name} changed", lambda d=bytes(copy), a=due: vector_case(d, a, bench)


def cases(made, quick, bench):
    for path in small_files(made):
        yield from by_the_model(path, 15 if quick else 150, bench)
    native = [e for e in made.entries if e.group in ("reference, settings", "ffmpeg", "flake", "reference, every sound")]
    for entry in native[::40 if quick else 8]:
        for name, call in frame_cases(entry, bench):
            yield "damage, frames", name, call
    page = [e for e in made.entries if e.path.endswith(".oga") and 0 < e.length < 13000]
    for entry in page[::9 if quick else 3]:
        yield from pages_by_the_model(entry.path, 6, bench)
    for name, call in digest_cases(made, bench):
        yield "damage, digest", name, call
