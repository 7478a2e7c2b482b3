"""What the encoder's family costs, with linear predictors of a list beside it: subframes by cost.c, and frames."""
import ctypes
import os
import subprocess

import numpy

import audio
import lists

HERE = os.path.dirname(os.path.abspath(__file__))
SOURCE, LIBRARY = os.path.join(HERE, "cost.c"), os.path.join(HERE, "out", "cost.so")
NONE = 1 << 62
"""What a form costs that cannot be used."""
PAIRS = ((0, 1), (0, 2), (2, 1), (3, 2))
"""What the four channel codes of two channels keep, of left, right, side and middle."""
SIZES = (192, 576, 1152, 2304, 4608, 256, 512, 1024, 2048, 4096, 8192, 16384, 32768)
RATES = (88200, 176400, 192000, 8000, 16000, 22050, 24000, 32000, 44100, 48000, 96000)
DEPTHS = (8, 12, 16, 20, 24, 32)
"""Block sizes, rates in Hz and depths that have a code in frame headers."""


def built():
    """The library that cost.c is compiled to, if it is not there or is older."""
    if not os.path.exists(LIBRARY) or os.path.getmtime(LIBRARY) < os.path.getmtime(SOURCE):
        os.makedirs(os.path.dirname(LIBRARY), exist_ok=True)
        part = f"{LIBRARY}.{os.getpid()}"
        subprocess.run(["gcc", "-O3", "-march=native", "-shared", "-fPIC", "-o", part, SOURCE], check=True)
        os.replace(part, LIBRARY)
    library = ctypes.CDLL(LIBRARY)
    library.subframe_costs.restype = None
    library.subframe_costs.argtypes = [
        ctypes.c_void_p, ctypes.c_size_t, ctypes.c_uint, ctypes.c_void_p, ctypes.c_size_t, ctypes.c_uint, ctypes.c_void_p]
    return library


COUNTS = built()


def table(predictors):
    """A list as cost.c reads it: order, precision, shift and 32 coefficients in each row."""
    rows = numpy.zeros((len(predictors), 35), numpy.int32)
    for row, one in zip(rows, predictors):
        row[:3] = len(one.coefficients), one.precision, one.shift
        row[3:3 + len(one.coefficients)] = one.coefficients
    return rows


def greatest_partition_order(lax):
    """The greatest partition order in the streamable subset (RFC 9639, section 7), or of all streams."""
    return 15 if lax else 8


def subframe_costs(samples, depth, rows, most=greatest_partition_order(False)):
    """The bits of the cheapest subframe without a linear predictor, and then those by each predictor of a table, with
    partition orders up to `most`."""
    samples = numpy.ascontiguousarray(samples, numpy.int64)
    costs = numpy.zeros(len(rows) + 1, numpy.uint64)
    COUNTS.subframe_costs(samples.ctypes.data, len(samples), depth, rows.ctypes.data, len(rows), most, costs.ctypes.data)
    return costs.astype(numpy.int64)


def costs(sound, predictors, block=4096, lax=False):
    """For each block and each of what a frame may keep of it, the costs of subframes. Predictors above the greatest order that
    the rate allows cannot be used."""
    rows, most = table(predictors), greatest_partition_order(lax)
    result = numpy.array([[subframe_costs(samples, depth, rows, most) for samples, depth in audio.kept(one, sound.depth)]
                          for one in audio.blocks(sound, block)])
    for place, one in enumerate(predictors, 1):
        if len(one.coefficients) > lists.greatest_order(sound.rate, lax) and len(result):
            result[:, :, place] = NONE
    return result


def subframes_bits(least, stereo):
    """The bits of a frame's subframes: `least` has in its last axis those of all that a frame may keep."""
    if not stereo:
        return least.sum(axis=-1)
    return numpy.min([least[..., one] + least[..., other] for one, other in PAIRS], axis=0)


def number_bytes(number):
    """How many bytes a frame number takes (RFC 9639, section 9.1.5)."""
    return 1 if number < 0x80 else (number.bit_length() + 3) // 5


def header_bytes(size, rate, number):
    """How many bytes the header of a frame takes with its check (RFC 9639, section 9.1)."""
    return 5 + number_bytes(number) + (0 if size in SIZES else 1 if size <= 256 else 2) + (rate_bytes(rate) or 0)


def rate_bytes(rate):
    """In how many bytes a frame header states a rate (RFC 9639, section 9.1.2). None: only STREAMINFO can."""
    if rate in RATES:
        return 0
    if rate % 1000 == 0 and rate <= 255000:
        return 1
    return 2 if rate <= 65535 or rate % 10 == 0 and rate <= 655350 else None


def has_codes(sound):
    """Whether frame headers can state rate and depth, as the streamable subset asks (RFC 9639, section 7)."""
    return sound.depth in DEPTHS and rate_bytes(sound.rate) is not None


def frames(sound, least, block=4096):
    """The bytes of each frame, of the bits of the cheapest subframes of all that it may keep."""
    bits, length = subframes_bits(least, len(sound.samples) == 2), sound.samples.shape[1]
    sizes = [min(block, length - start) for start in range(0, length, block)]
    return [header_bytes(size, sound.rate, number) + (int(one) + 7) // 8 + 2 for number, (size, one) in enumerate(zip(sizes, bits))]


def priced(sound, predictors, block=4096, lax=False):
    """The bytes of each frame of a sound that is encoded with a list, in the streamable subset or with `--lax`."""
    found = costs(sound, predictors, block, lax)
    return frames(sound, found.min(axis=2), block) if len(found) else []
