"""Damaged copies of a stream: cuts, changed bits, zeroed parts, bytes after the end, frames out of order."""
import random


def cuts(data, count, seed):
    source = random.Random(seed)
    places = {0, 1, 3, 4, 7, 8, 41, 42, len(data) - 1, len(data) - 2} | {source.randrange(len(data)) for _ in range(count)}
    for place in sorted(place for place in places if place < len(data)):
        yield f"cut at {place}", data[:place]


def flips(data, count, seed, start=0):
    source = random.Random(seed)
    for place in sorted(source.sample(range(8 * start, 8 * len(data)), min(count, 8 * (len(data) - start)))):
        copy = bytearray(data)
        copy[place >> 3] ^= 128 >> (place & 7)
        yield f"bit {place & 7} of byte {place >> 3} changed", bytes(copy)


def zeroed(data, count, seed, start=0):
    """Parts of zeros that were not all zero before."""
    source = random.Random(seed)
    for _ in range(count):
        place, length = source.randrange(start, len(data)), source.randrange(1, 40)
        if any(data[place:place + length]):
            copy = bytearray(data)
            copy[place:place + length] = bytes(len(data[place:place + length]))
            yield f"{length} bytes from {place} zeroed", bytes(copy)


def appended(data):
    for tail in (b"\0", b"\xff", b"\0\0", b"\xff\xf8", b"fLaC", bytes(100)):
        yield f"bytes {tail[:4].hex()} appended, {len(tail)} in all", data + tail


def reordered(data, places):
    """Whole frames left out, repeated or exchanged; `places` are the frames' offsets."""
    frames = [data[a:b] for a, b in zip(places, places[1:] + [len(data)])]
    head = data[:places[0]]
    if len(frames) < 3:
        return
    yield "frame 1 left out", head + b"".join(frames[:1] + frames[2:])
    yield "last frame left out", head + b"".join(frames[:-1])
    yield "frame 1 repeated", head + b"".join(frames[:2] + frames[1:])
    yield "frames 0 and 1 exchanged", head + b"".join([frames[1], frames[0]] + frames[2:])
    yield "all frames left out", head


def pages(data):
    """Whole Ogg pages left out, repeated or exchanged."""
    starts = [at for at in range(len(data)) if data[at:at + 5] == b"OggS\0"]
    parts = [data[a:b] for a, b in zip(starts, starts[1:] + [len(data)])]
    for index in range(len(parts)):
        yield f"page {index} left out", b"".join(parts[:index] + parts[index + 1:])
        yield f"page {index} repeated", b"".join(parts[:index + 1] + parts[index:])
    if len(parts) > 2:
        yield "the last two pages exchanged", b"".join(parts[:-2] + [parts[-1], parts[-2]])


def everything(data, places, seed, count):
    yield from cuts(data, count, seed)
    yield from flips(data, 2 * count, seed)
    yield from zeroed(data, count // 2, seed)
    yield from appended(data)
    yield from reordered(data, places)
