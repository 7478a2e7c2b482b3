"""Frames of the model, and whole native streams, in the streamable subset and outside it."""
import hashlib
from collections import namedtuple

from model_bits import FRAME_LIMIT, Fault, crc
from model_blocks import Metadata

Profile = namedtuple("Profile", "name words from_info slow_block block slow_order partition_order")
"""Which streams are accepted. `words` ask the program for it; `from_info` allows a header to leave rate and depth to STREAMINFO; then the
greatest block size and linear order up to 48000 Hz, block size above, and partition order. No profile limits a linear order above."""
SUBSET = Profile("the streamable subset", (), False, 4608, 16384, 12, 8)
LAX = Profile("all streams", ("--lax",), True, 65535, 65535, 32, 15)
SLOW = 48000
"""The greatest rate for which the subset has limits of its own."""

BLOCK_SIZES = {1: 192, 2: 576, 3: 1152, 4: 2304, 5: 4608, 8: 256, 9: 512, 10: 1024, 11: 2048, 12: 4096, 13: 8192,
               14: 16384, 15: 32768}
RATES = {1: 88200, 2: 176400, 3: 192000, 4: 8000, 5: 16000, 6: 22050, 7: 24000, 8: 32000, 9: 44100, 10: 48000, 11: 96000}
DEPTHS = {1: 8, 2: 12, 4: 16, 5: 20, 6: 24, 7: 32}


def read_number(bits, longest):
    """A coded number of at most `longest` bytes, in its shortest form."""
    lead = bits.take(8)
    if lead < 0x80:
        return lead
    length = 0
    while length < 8 and lead >> (7 - length) & 1:
        length += 1
    if not 2 <= length <= longest:
        raise Fault(15)
    value = lead & ((1 << (7 - length)) - 1)
    for _ in range(length - 1):
        byte = bits.take(8)
        if byte >> 6 != 2:
            raise Fault(15)
        value = value << 6 | byte & 63
    least = 0x80 if length == 2 else 1 << (5 * length - 4)
    if value < least:
        raise Fault(15)
    return value


def read_header(bits):
    """The frame header up to its check byte; the rules that ask for the whole header are judged by `Reader.judge`."""
    start = bits.place >> 3
    if bits.take(15) != 0x7FFC:
        raise Fault(12)
    header = {"variable": bits.take(1)}
    size_code = bits.take(4)
    if size_code == 0:
        raise Fault(13)
    rate_code = bits.take(4)
    if rate_code == 15:
        raise Fault(13)
    channel_code = bits.take(4)
    if channel_code > 10:
        raise Fault(13)
    depth_code = bits.take(3)
    if depth_code == 3:
        raise Fault(13)
    if bits.take(1):
        raise Fault(13)
    header["number"] = read_number(bits, 7 if header["variable"] else 6)
    if size_code in (6, 7):
        stored = bits.take(8 if size_code == 6 else 16)
        if stored == 65535:
            raise Fault(13)
        header["size"] = stored + 1
    else:
        header["size"] = BLOCK_SIZES[size_code]
    if rate_code in (12, 13, 14):
        header["rate"] = bits.take(8 if rate_code == 12 else 16) * {12: 1000, 13: 1, 14: 10}[rate_code]
    else:
        header["rate"] = RATES.get(rate_code, 0)
    header["depth"] = DEPTHS.get(depth_code, 0)
    header["rate_code"], header["channel_code"], header["depth_code"] = rate_code, channel_code, depth_code
    header["channels"] = channel_code + 1 if channel_code < 8 else 2
    end = bits.place >> 3
    if bits.take(8) != crc(8, bits.data[start:end]):
        raise Fault(16)
    return header


def read_residual(bits, order, size, greatest):
    """The residual after a predictor of this order, with at most 2^greatest partitions."""
    method = bits.take(2)
    if method > 1:
        raise Fault(22)
    partition_order = bits.take(4)
    if partition_order > greatest:
        raise Fault(14)
    each = size >> partition_order
    if each << partition_order != size or each <= order:
        raise Fault(22)
    values = []
    width = 4 + method
    for partition in range(1 << partition_order):
        count = each - order if partition == 0 else each
        parameter = bits.take(width)
        if parameter == (1 << width) - 1:
            escape = bits.take(5)
            values.extend(bits.take_signed(escape) for _ in range(count))
            continue
        limit = (2**32 - 2) >> parameter
        for _ in range(count):
            folded = bits.unary(limit, 23) << parameter | bits.take(parameter)
            if folded > 2**32 - 2:
                raise Fault(23)
            values.append(-(folded + 1) // 2 if folded & 1 else folded // 2)
    return values


def restore(warm_up, residual, coefficients, shift, depth):
    """The samples, or None where one does not fit; coefficients stand for the nearest sample first."""
    samples, least, greatest = list(warm_up), -(1 << (depth - 1)), (1 << (depth - 1)) - 1
    order = len(coefficients)
    weights = coefficients[::-1]
    for value in residual:
        recent = samples[len(samples) - order:]
        sample = (sum(w * s for w, s in zip(weights, recent)) >> shift) + value
        if not least <= sample <= greatest:
            return None
        samples.append(sample)
    return samples


FIXED = [[], [1], [2, -1], [3, -3, 1], [4, -6, 4, -1]]


def read_subframe(bits, depth, size, rate, profile):
    head = bits.take(8)
    zero, kind, flag = head >> 7, head >> 1 & 63, head & 1
    if zero or 2 <= kind < 8 or 13 <= kind < 32:
        raise Fault(20)
    order = kind - 8 if 8 <= kind < 13 else kind - 31 if kind >= 32 else 0
    if kind >= 32 and order > profile.slow_order and rate <= SLOW:
        raise Fault(14)
    if order >= size:
        raise Fault(22)
    wasted = bits.unary(depth - 2, 20) + 1 if flag else 0
    depth -= wasted
    if kind == 0:
        samples = [bits.take_signed(depth)] * size
    elif kind == 1:
        samples = [bits.take_signed(depth) for _ in range(size)]
    else:
        warm_up = [bits.take_signed(depth) for _ in range(order)]
        coefficients, shift = FIXED[order] if kind < 13 else [], 0
        if kind >= 32:
            precision = bits.take(4) + 1
            if precision == 16:
                raise Fault(21)
            shift = bits.take_signed(5)
            if shift < 0:
                raise Fault(21)
            coefficients = [bits.take_signed(precision) for _ in range(order)]
        samples = restore(warm_up, read_residual(bits, order, size, profile.partition_order), coefficients, shift, depth)
    return samples and [sample << wasted for sample in samples]


def join(code, first, second):
    """Left and right of two subframes."""
    if code == 8:
        return first, [a - b for a, b in zip(first, second)]
    if code == 9:
        return [a + b for a, b in zip(first, second)], second
    left = [(2 * mid + (side & 1) + side) >> 1 for mid, side in zip(first, second)]
    return left, [a - side for a, side in zip(left, second)]


class Reader(Metadata):
    """Reads a whole stream. `blocks` and `frames` hold what came before a fault, `fault` the fault or None.

    `places` are the bytes where the frames begin, in Ogg in their packets, and also that of a refused one.
    """

    def __init__(self, data, profile=SUBSET):
        self.profile = profile
        self.frames, self.samples, self.raw, self.places = 0, 0, [], []
        self.first, self.before, self.fault = None, None, None
        try:
            super().__init__(data)
            self.read_frames()
        except Fault as fault:
            self.fault = fault

    def read_frames(self):
        self.info = self.blocks[0][2]
        while not self.bits.at_end():
            self.decode_into(self.at(f"frame {self.frames}", self.frame))
        self.finish()

    def decode_into(self, channels):
        """A frame whose bytes are all there and good."""
        width = (self.info["depth"] + 7) // 8
        self.raw.append(b"".join(s.to_bytes(width, "little", signed=True) for column in zip(*channels) for s in column))
        self.frames += 1
        self.samples += len(channels[0])

    def finish(self):
        if self.info["total"] not in (0, self.samples):
            raise Fault(28, "end")
        if any(self.info["digest"]) and hashlib.md5(b"".join(self.raw)).digest() != self.info["digest"]:
            raise Fault(29, "end")

    def judge(self, header):
        """What a whole header has to meet, in the order of rank."""
        info, size, first, before = self.info, header["size"], self.first, self.before
        if 0 in (header["rate_code"], header["depth_code"]) and not self.profile.from_info:
            raise Fault(14)
        if size > (self.profile.slow_block if header["rate"] <= SLOW else self.profile.block):
            raise Fault(14)
        for name in ("rate", "depth"):
            header[name] = header[name] if header[f"{name}_code"] else info[name]
        if any(header[name] != info[name] for name in ("rate", "channels", "depth")):
            raise Fault(17)
        if before:
            step = before["size"] if header["variable"] else 1
            if header["variable"] != before["variable"] or header["number"] != before["number"] + step:
                raise Fault(18)
        if size > info["greatest_block"]:
            raise Fault(19)
        if before and before["size"] < info["least_block"]:
            raise Fault(19)
        if before and not header["variable"] and (before["size"] != first["size"] or size > first["size"]):
            raise Fault(19)

    def frame(self):
        """The channels' samples of one frame."""
        bits, info = self.bits, self.info
        start = bits.place >> 3
        self.places.append(start)
        bits.fence = start + FRAME_LIMIT
        header = read_header(bits)
        self.judge(header)
        self.first, self.before = self.first or header, header
        code, size, depth = header["channel_code"], header["size"], info["depth"]
        side = {8: 1, 9: 0, 10: 1}.get(code)
        channels = [read_subframe(bits, depth + (index == side), size, info["rate"], self.profile) for index in range(info["channels"])]
        if bits.take(-bits.place % 8):
            raise Fault(24)
        end = bits.place >> 3
        if bits.take(16) != crc(16, bits.data[start:end]):
            raise Fault(26)
        if None in channels:
            raise Fault(27)
        if code > 7:
            channels = join(code, *channels)
        least, greatest = -(1 << (depth - 1)), (1 << (depth - 1)) - 1
        if any(not least <= min(channel) <= max(channel) <= greatest for channel in channels):
            raise Fault(27)
        bits.fence = None
        return channels

    def result(self):
        return str(self.fault) if self.fault else f"frames {self.frames} samples {self.samples}"
