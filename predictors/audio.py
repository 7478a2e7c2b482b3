"""Samples of WAV files, and their blocks."""
import struct
from collections import namedtuple

import numpy

from lists import Refused

Sound = namedtuple("Sound", "rate depth samples")
"""`samples` is an array of int32: a row for each channel."""
DEPTHS = range(4, 33)


def chunks(data):
    """The parts of a RIFF file, the last one as far as it goes."""
    if data[:4] != b"RIFF" or data[8:12] != b"WAVE":
        raise Refused("no WAV file")
    at, found = 12, {}
    while at + 8 <= len(data):
        name, size = data[at:at + 4], struct.unpack_from("<I", data, at + 4)[0]
        found.setdefault(name, data[at + 8:at + 8 + size])
        at += 8 + size + size % 2
    return found


def form_of(head):
    """Channels, rate, bits of a place and bits of a sample, of whole numbers alone."""
    if len(head) < 16:
        raise Refused("no format")
    kind, channels, rate, _, _, bits = struct.unpack_from("<HHIIHH", head)
    valid = bits
    if kind == 0xFFFE and len(head) >= 26:
        valid, kind = struct.unpack_from("<H", head, 18)[0] or bits, struct.unpack_from("<H", head, 24)[0]
    if kind != 1 or valid not in DEPTHS or bits % 8 or not valid <= bits <= 32 or not 1 <= channels <= 8 or rate == 0:
        raise Refused(f"format {kind}, {channels} channels, {rate} Hz, {valid} of {bits} bits")
    return channels, rate, bits, valid


def whole_numbers(data, width):
    """Signed numbers of so many bytes each."""
    places = numpy.frombuffer(data[:len(data) // width * width], numpy.uint8).reshape(-1, width)
    wide = numpy.zeros((len(places), 4), numpy.uint8)
    wide[:, 4 - width:] = places
    if width == 1:
        wide[:, 3] ^= 0x80
    return wide.view("<i4")[:, 0]


def of_wav(data):
    """The sound of a WAV file."""
    found = chunks(data)
    channels, rate, bits, depth = form_of(found.get(b"fmt ", b""))
    values = whole_numbers(found.get(b"data", b""), bits // 8) >> 32 - depth
    rows = values[:len(values) // channels * channels].reshape(-1, channels)
    return Sound(rate, depth, numpy.ascontiguousarray(rows.T))


def read(path):
    """The sound of a file."""
    try:
        with open(path, "rb") as file:
            return of_wav(file.read())
    except Refused as reason:
        raise Refused(f"{path}: {reason}") from None


def block(sound, start, size):
    """A block of a sound: an array of int64 with a row for each channel."""
    return sound.samples[:, start:start + size].astype(numpy.int64)


def blocks(sound, size=4096):
    """The blocks of a sound, of which the last may be shorter."""
    return (block(sound, start, size) for start in range(0, sound.samples.shape[1], size))


def kept(block, depth):
    """What a frame may keep of a block, with its depths: left, right, side and middle, or each channel."""
    if len(block) != 2:
        return [(row, depth) for row in block]
    left, right = block
    return [(left, depth), (right, depth), (left - right, depth + 1), (left + right >> 1, depth)]
