#!/usr/bin/env python3
"""Small streams at the limits of the streamable subset and outside it, each with its answers in the subset and without its limits.

usage: vectors_lax.py        asks the model for each, and for those of `vectors.py`, and prints where it answers otherwise
       vectors_lax.py DIR    writes them into DIR, as NAME.flac or NAME.oga
"""
import hashlib
import os
import struct
import sys

sys.path.append(os.path.join(os.path.dirname(os.path.dirname(os.path.abspath(__file__))), "model"))
import model
import vectors
import vectors_ogg
from vectors import fixed, frame, hexed, linear, stream, stream_info

OUTSIDE = "frame 0: 14 NotSubset"
ZEROS_OF_5_BITS = hexed("FFF86000000FC700000572")
"""Sixteen zeros of 65537 Hz and 5 bits, neither of which the header states."""
ROW = stream(ZEROS_OF_5_BITS, info=stream_info(16, 16, rate=65537, depth=5))


def constant(value, depth):
    return "0 000000 0" + f"{value % 2**depth:0{depth}b}"


def partitions(order, method=0, count=None):
    """A residual of zeros in 2^order partitions: each value is one bit."""
    return f"0{method} {order:04b}" + ("0" * (4 + method) + "1" * count) * 2**order


def one(body, answers, size=16, info=None, **more):
    """A stream of one frame, and its answers: a pair, or the one of both."""
    info = info or stream_info(16, 65535)
    return (stream(frame(body, size, **more), info=info), *(answers if isinstance(answers, tuple) else (answers,) * 2))


def taken(size=16):
    """Refused in the subset, and else read."""
    return OUTSIDE, f"frames 1 samples {size}"


def code_vectors():
    """Rate and depth that the header leaves to STREAMINFO."""
    silence, narrow = vectors.SILENCE, stream_info(16, 16, rate=65537, depth=5)
    both = dict(rate_code=0, depth_code=0)
    yield "codes-0", ROW, *taken()
    yield "codes-0-built", *one(constant(0, 5), taken(), info=narrow, **both)
    yield "codes-0-twice", stream(*[frame(constant(n, 5), number=n, **both) for n in (0, 1)], info=narrow), OUTSIDE, "frames 2 samples 32"
    yield "rate-0", *one(silence, taken(), rate_code=0)
    yield "depth-0", *one(silence, taken(), depth_code=0)
    yield "codes-0-of-coded", *one(silence, taken(), **both)
    for rate in (1, 44101, 65535, 655350, 700001, 1048575):
        yield f"rate-0-of-{rate}", *one(silence, taken(), info=stream_info(16, 16, rate=rate), rate_code=0)
    yield "rate-stated-1", *one(silence, "frames 1 samples 16", info=stream_info(16, 16, rate=1), rate_code=13, rate=b"\0\1")
    yield "rate-stated-0", *one(silence, "frame 0: 17 HeaderMismatch", rate_code=13, rate=b"\0\0")
    yield "depth-0-other-rate", *one(silence, (OUTSIDE, "frame 0: 17 HeaderMismatch"), rate_code=10, depth_code=0)
    yield "rate-0-other-depth", *one(silence, (OUTSIDE, "frame 0: 17 HeaderMismatch"), rate_code=0, depth_code=5)
    yield "codes-0-other-channels", *one(silence * 2, (OUTSIDE, "frame 0: 17 HeaderMismatch"), channel_code=1, **both)
    yield "codes-0-wrong-check", stream(ZEROS_OF_5_BITS[:6] + b"\0" + ZEROS_OF_5_BITS[7:], info=narrow), *["frame 0: 16 HeaderCheck"] * 2
    later = frame(silence), frame(silence, number=1, rate_code=0)
    yield "rate-0-at-last", stream(*later, info=stream_info(16, 16)), "frame 1: 14 NotSubset", "frames 2 samples 32"
    yield "codes-0-gap", stream(*[frame(silence, number=n, **both) for n in (0, 2)], info=stream_info(16, 16)), OUTSIDE, "frame 1: 18 Sequence"
    yield "rate-code-15", *one(silence, "frame 0: 13 ReservedCode", rate_code=15, depth_code=0)
    yield "depth-code-3", *one(silence, "frame 0: 13 ReservedCode", rate_code=0, depth_code=3)


def depth_vectors():
    """Every depth, with its least and greatest samples, alone and beside each other."""
    for depth in range(4, 33):
        least, greatest, info = -(1 << depth - 1), (1 << depth - 1) - 1, dict(least=16, greatest=16, depth=depth)
        samples = [least, greatest] * 8
        body = "0 000001 0" + "".join(f"{value % 2**depth:0{depth}b}" for value in samples)
        digest = hashlib.md5(b"".join(value.to_bytes((depth + 7) // 8, "little", signed=True) for value in samples)).digest()
        yield f"depth-{depth}-verbatim", *one(body, taken(), info=stream_info(total=16, digest=digest, **info), depth_code=0)
        stereo = stream_info(channels=2, **info)
        for code, first, second in ((8, greatest, greatest - least), (10, -1, greatest - least)):
            body = constant(first, depth) + constant(second, depth + 1)
            yield f"depth-{depth}-stereo-{code}", *one(body, taken(), info=stereo, channel_code=code, depth_code=0)
        body = constant(least - greatest, depth + 1) + constant(greatest, depth)
        yield f"depth-{depth}-stereo-9", *one(body, taken(), info=stereo, channel_code=9, depth_code=0)
        body = constant(0, depth) + constant(greatest - least, depth + 1)
        yield f"depth-{depth}-mid-too-large", *one(body, (OUTSIDE, "frame 0: 27 SampleRange"), info=stereo, channel_code=10, depth_code=0)
        body = fixed(1, "00 0000 1111 00001", "0" * 14 + "1", depth=depth)
        body = body[:8] + f"{least % 2**depth:0{depth}b}" + body[8 + depth:]
        yield f"depth-{depth}-too-small", *one(body, (OUTSIDE, "frame 0: 27 SampleRange"), info=stream_info(**info), depth_code=0)
    narrow, zeros = stream_info(16, 16, depth=4), "0 000000 1 "
    yield "depth-4-wasted-3", *one(zeros + "001 1", taken(), info=narrow, depth_code=0)
    yield "depth-4-wasted-4", *one(zeros + "0001" + "0" * 9, (OUTSIDE, "frame 0: 20 BadSubframe"), info=narrow, depth_code=0)
    beside = stream_info(16, 16, channels=2, depth=4)
    yield "depth-4-side-wasted-4", *one(constant(0, 4) + zeros + "0001 0", taken(), info=beside, channel_code=8, depth_code=0)


def size_vectors():
    """Long blocks."""
    silence = vectors.SILENCE

    def sized(sizes, answers, variable=0, greatest=65535, least=16, **more):
        first, parts = 0, []
        for index, size in enumerate(sizes):
            parts.append(frame(silence, size, first if variable else index, variable, **more))
            first += size
        return stream(*parts, info=stream_info(least, greatest)), *answers

    yield "size-8192", *sized([8192], taken(8192), size_code=13)
    yield "size-8192-over-greatest", *sized([8192], (OUTSIDE, "frame 0: 19 BlockSize"), greatest=8191, size_code=13)
    yield "size-8192-is-greatest", *sized([8192], taken(8192), greatest=8192, size_code=13)
    yield "size-4608", *sized([4608], ["frames 1 samples 4608"] * 2)
    yield "size-4609", *sized([4609], taken(4609))
    yield "size-32768", *sized([32768], taken(32768), size_code=15)
    yield "size-65535", *sized([65535], taken(65535))
    yield "size-65536", *sized([16], ["frame 0: 13 ReservedCode"] * 2, size_code=7, size_field=hexed("FFFF"))
    yield "sizes-65535-and-1", *sized([65535, 1], (OUTSIDE, "frames 2 samples 65536"))
    yield "sizes-long-longer", *sized([8192, 8193], (OUTSIDE, "frame 1: 19 BlockSize"))
    yield "sizes-long-after", *sized([16, 8192], ("frame 1: 14 NotSubset", "frame 1: 19 BlockSize"))
    yield "sizes-long-short-inside", *sized([8192, 16, 8192], (OUTSIDE, "frame 2: 19 BlockSize"))
    yield "sizes-long-below-least", *sized([8192] * 2, (OUTSIDE, "frame 1: 19 BlockSize"), least=8193)
    yield "sizes-variable", *sized([16, 65535, 8192, 3], ("frame 1: 14 NotSubset", "frames 4 samples 73746"), variable=1)
    fast = stream_info(16, 65535, rate=96000)
    yield "size-16385-fast", *one(silence, taken(16385), 16385, fast, rate_code=11)
    yield "size-16384-fast-rate-0", *one(silence, taken(16384), 16384, fast, rate_code=0)


def subframe_vectors():
    """Long predictors and many partitions."""
    zeros, wrong = vectors.ESCAPED, (OUTSIDE, "frame 0: 22 BadPartition")
    fast = dict(info=stream_info(16, 65535, rate=96000), rate_code=11)

    def predicted(order, precision=1, residual=zeros):
        return linear(order, f"{precision - 1:04b} 00000" + "1" * precision * order + residual)

    for order in (13, 31, 32):
        yield f"linear-{order}", *one(predicted(order), taken(order + 1), order + 1)
        yield f"linear-{order}-is-block", *one(predicted(order), wrong, order)
        yield f"linear-{order}-fast", *one(predicted(order), f"frames 1 samples {order + 1}", order + 1, **fast)
    yield "linear-12", *one(predicted(12), "frames 1 samples 16")
    yield "linear-32-precision-15", *one(predicted(32, 15), taken(33), 33)
    yield "linear-32-precision-16", *one(linear(32, "1111"), (OUTSIDE, "frame 0: 21 BadPredictor"), 33)
    yield "linear-32-shift", *one(linear(32, "0000 10000"), (OUTSIDE, "frame 0: 21 BadPredictor"), 33)
    yield "linear-32-too-long", *one(predicted(32, residual=zeros + "0" * 9), (OUTSIDE, "frame 0: 26 FrameCheck"), 33)
    yield "partition-8", *one(fixed(0, partitions(8, count=1)), "frames 1 samples 256", 256)
    yield "partition-9-of-16", *one(fixed(0, "00 1001", "1111 00000"), wrong)
    for order in range(9, 16):
        size = 2**order
        yield f"partition-{order}", *one(fixed(0, partitions(order, count=1)), taken(size), size)
        yield f"partition-{order}-fast", *one(fixed(0, partitions(order, 1, 1)), taken(size), size, **fast)
        yield f"partition-{order}-of-half", *one(fixed(0, partitions(order, count=1)), wrong, size // 2)
        yield f"partition-{order}-first-empty", *one(fixed(1, f"00 {order:04b} 0000" + "0000 1" * (size - 1)), wrong, size)
    yield "partition-14-of-32768-order-1", *one(fixed(1, "00 1110 0000 1" + "0000 11" * (2**14 - 1)), taken(32768), 32768)
    yield "partition-15-of-65535", *one(fixed(0, partitions(15, count=1)), wrong, 65535)
    yield "partition-15-method-2", *one(fixed(0, "10 1111"), wrong, 32768)
    cut = frame(fixed(0, partitions(15, count=1)), 32768)[:-3]
    yield "partition-15-cut", stream(cut, info=stream_info(16, 65535)), OUTSIDE, "frame 0: 3 Truncated"
    escaped = "1111 00000" * 511
    yield "partition-9-escapes", *one(fixed(0, "00 1001", escaped, "1111 10001", "1" * 17), taken(512), 512)
    yield "partition-9-too-large", *one(fixed(0, "00 1001", escaped, "1111 10001", "0" + "1" * 16), (OUTSIDE, "frame 0: 27 SampleRange"), 512)
    yield "partition-9-quotient", *one(fixed(0, "00 1001", escaped, "1110", "0" * 262144 + "1"), (OUTSIDE, "frame 0: 23 ResidualRange"), 512)
    yield "partition-9-padding", *one(fixed(0, "00 1001", escaped, "1111 00000 1"), (OUTSIDE, "frame 0: 24 NonzeroPadding"), 512)
    yield "type-13-long", *one("0 001101 0" + "0" * 16, (OUTSIDE, "frame 0: 20 BadSubframe"), 8192)


NARROW = [[(n + 3 * i) % 16 - 8 for i in range(16)] for n in (0, 1)]
"""The samples of two frames of 4 bits."""
FRAMES = [frame("0 000001 0" + "".join(f"{value % 16:04b}" for value in row), number=n, rate_code=0, depth_code=0) for n, row in enumerate(NARROW)]
DIGEST = hashlib.md5(b"".join(struct.pack("b", value) for row in NARROW for value in row)).digest()


def info_of_narrow(**more):
    return stream_info(16, 16, rate=1048575, depth=4, **{"total": 32, "digest": DIGEST, **more})


def whole_vectors():
    """Blocks beside frames, digests and totals."""
    tags = [(4, bytes(8)), (3, bytes(16) + b"\0\20"), (1, bytes(9))]
    yield "whole", stream(*FRAMES, info=info_of_narrow(), blocks=tags), OUTSIDE, "frames 2 samples 32"
    yield "whole-digest", stream(*FRAMES, info=info_of_narrow(digest=DIGEST[::-1])), OUTSIDE, "end: 29 Md5Mismatch"
    yield "whole-total", stream(*FRAMES, info=info_of_narrow(total=33, digest=DIGEST[::-1])), OUTSIDE, "end: 28 TotalMismatch"
    yield "whole-no-frame", stream(info=info_of_narrow(total=0, digest=bytes(16))), *["frames 0 samples 0"] * 2
    yield "whole-no-frame-total", stream(info=info_of_narrow()), *["end: 28 TotalMismatch"] * 2
    yield "whole-depth-3", stream(info=stream_info(16, 16, depth=3)), *["block 0: 8 BadStreamInfo"] * 2
    yield "whole-rate-0", stream(info=stream_info(16, 16, rate=0)), *["block 0: 8 BadStreamInfo"] * 2


def ogg_vectors():
    """Frames outside the subset in Ogg, one of them on several pages."""
    comment = vectors.block(4, bytes(8))

    def paged(*frames, **more):
        return vectors_ogg.paged(vectors_ogg.mapping(info_of_narrow(**more)), comment, *frames)

    pages = paged(*FRAMES)
    yield "ogg", b"".join(pages), OUTSIDE, "frames 2 samples 32"
    yield "ogg-one-page", pages[0] + vectors_ogg.page(1, comment, *FRAMES, flags=4), OUTSIDE, "frames 2 samples 32"
    yield "ogg-bad-page", b"".join(pages[:3]) + pages[3][:-1] + b"\0", OUTSIDE, "page 3: 32 PageCheck"
    yield "ogg-frame-goes-on", b"".join(paged(FRAMES[0] + b"\0")), OUTSIDE, "frame 0: 35 PacketLength"
    yield "ogg-not-last", b"".join(pages[:3]), OUTSIDE, "end: 36 NoEndPage"
    yield "ogg-digest", b"".join(paged(*FRAMES, digest=bytes(15) + b"\1")), OUTSIDE, "end: 29 Md5Mismatch"
    packet = frame(fixed(0, partitions(15, count=1)), 32768)
    pieces = [packet[at:at + 255 * 30] for at in range(0, len(packet), 255 * 30)]
    parts = [vectors_ogg.page(0, vectors_ogg.mapping(stream_info(16, 65535)), flags=2), vectors_ogg.page(1, comment)]
    for n, piece in enumerate(pieces):
        ends = n == len(pieces) - 1
        parts.append(vectors_ogg.page(2 + n, piece, flags=(1 if n else 0) | (4 if ends else 0), ended=ends))
    yield "ogg-partition-15", b"".join(parts), *taken(32768)
    parts[-2] = parts[-2][:-1] + b"\0"
    yield "ogg-partition-15-bad-page", b"".join(parts), OUTSIDE, f"page {len(parts) - 2}: 32 PageCheck"


def all_vectors():
    """Name, stream, answer in the streamable subset, and answer without its limits."""
    for source in (code_vectors, depth_vectors, size_vectors, subframe_vectors, whole_vectors, ogg_vectors):
        for name, *rest in source():
            yield f"lax-{name}", *rest


def of_the_subset():
    """The vectors of `vectors.py` that are not refused as outside the subset: without its limits they have the same answer."""
    for name, data, due in vectors.all_vectors():
        if not due.endswith(": 14 NotSubset"):
            yield name, data, due


def differing():
    """Where the model answers otherwise: name, answer, and the one that is due."""
    for name, data, *due in all_vectors():
        for profile, answer in zip((model.SUBSET, model.LAX), due):
            yield f"{name}, {profile.name}", model.answer(data, profile), answer
    for name, data, due in of_the_subset():
        yield f"{name}, {model.LAX.name}", model.answer(data, model.LAX), due


SWEPT = ("lax-codes-0-twice", "lax-depth-4-stereo-10", "lax-size-65535", "lax-linear-32", "lax-whole")
SWEPT_OGG = ("lax-ogg-one-page",)
"""The streams that `sweep` changes."""


def main(words):
    for name, data, *_ in all_vectors() if words else ():
        with open(os.path.join(words[0], name + (".oga" if data[:1] == b"O" else ".flac")), "wb") as file:
            file.write(data)
    asked = list(differing())
    bad = [f"{name}: the model answers '{found}', due is '{due}'" for name, found, due in asked if found != due]
    print("\n".join(bad), end="\n" if bad else "")
    print(f"{len(asked)} answers, {len(bad)} otherwise by the model")
    return 1 if bad else 0


if __name__ == "__main__":
    sys.exit(main(sys.argv[1:]))
