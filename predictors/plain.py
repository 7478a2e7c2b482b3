"""The encoder's family once more, in plain Python: the shortest frames are written bit by bit, slowly, as text of 0 and 1. `check`
compares their lengths with what cost.c counts, and lets decoders read them."""
import family

SIZE_CODES = {size: code for size, code in zip(family.SIZES, (1, 2, 3, 4, 5, 8, 9, 10, 11, 12, 13, 14, 15))}
RATE_CODES = {rate: code for code, rate in enumerate(family.RATES, 1)}
DEPTH_CODES = {8: 1, 12: 2, 16: 4, 20: 5, 24: 6, 32: 7}
FIXED = ([], [1], [2, -1], [3, -3, 1], [4, -6, 4, -1])


def number(width, value):
    """The lowest bits of a number in two's complement."""
    return f"{value & (1 << width) - 1:0{width}b}" if width else ""


def rice_length(folds, k):
    return sum((one >> k) + 1 + k for one in folds)


def partition(values, parameter_bits):
    """The shortest coding of a partition: a Rice parameter or an escape."""
    folds = [2 * one if one >= 0 else -2 * one - 1 for one in values]
    k = min(range((1 << parameter_bits) - 1), key=lambda it: rice_length(folds, it))
    width = max((one.bit_length() for one in folds), default=0)
    if width < 32 and 5 + width * len(values) < rice_length(folds, k):
        return "1" * parameter_bits + number(5, width) + "".join(number(width, one) for one in values)
    return number(parameter_bits, k) + "".join("0" * (one >> k) + "1" + number(k, one) for one in folds)


def residual(values, order, parameter_bits, partition_order):
    """A residual by one method and partition order."""
    size = len(values) + order >> partition_order
    ends = [size * part - order for part in range(1, (1 << partition_order) + 1)]
    parts = [values[start:end] for start, end in zip([0, *ends], ends)]
    return number(2, parameter_bits - 4) + number(4, partition_order) + "".join(partition(part, parameter_bits) for part in parts)


def residuals(values, order, most):
    """A residual by each method and each partition order, up to the greatest, that the block allows."""
    length = len(values) + order
    for partition_order in range(most + 1):
        if length % (1 << partition_order) == 0 and order < length >> partition_order:
            for parameter_bits in (4, 5):
                yield residual(values, order, parameter_bits, partition_order)


def predicted(samples, depth, coefficients, shift, fields, most):
    """The shortest body by a predictor, or None if it cannot be used."""
    order = len(coefficients)
    guesses = [sum(c * samples[at - 1 - j] for j, c in enumerate(coefficients)) >> shift for at in range(order, len(samples))]
    values = [one - guess for one, guess in zip(samples[order:], guesses)]
    if order >= len(samples) or any(abs(one) >= 1 << 31 for one in values):
        return None
    return "".join(number(depth, one) for one in samples[:order]) + fields + min(residuals(values, order, most), key=len)


def bodies(samples, depth, predictors, most):
    """The type and the body of each form, None if it cannot be used: constant, verbatim, five fixed ones, and those of a list."""
    yield 0, number(depth, samples[0]) if len(set(samples)) == 1 else None
    yield 1, "".join(number(depth, one) for one in samples)
    for order, coefficients in enumerate(FIXED):
        yield 8 + order, predicted(samples, depth, coefficients, 0, "", most)
    for precision, shift, coefficients in predictors:
        fields = number(4, precision - 1) + number(5, shift) + "".join(number(precision, one) for one in coefficients)
        yield 31 + len(coefficients), predicted(samples, depth, coefficients, shift, fields, most)


def forms(samples, depth, predictors, most=8):
    """The subframe of each form, with partition orders up to `most`, or None."""
    wasted = 0
    while any(samples) and not any(one >> wasted & 1 for one in samples):
        wasted += 1
    head = "1" + "0" * (wasted - 1) + "1" if wasted else "0"
    found = bodies([one >> wasted for one in samples], depth - wasted, predictors, most)
    return [None if body is None else f"0{kind:06b}{head}{body}" for kind, body in found]


def subframe(samples, depth, predictors, most):
    """The shortest subframe."""
    return min(filter(None, forms(samples, depth, predictors, most)), key=len)


def subframes(block, depth, predictors, most):
    """The channel code and the subframes of a frame, of lists of samples."""
    if len(block) != 2:
        return len(block) - 1, "".join(subframe(row, depth, predictors, most) for row in block)
    left, right = block
    side, middle = [a - b for a, b in zip(left, right)], [a + b >> 1 for a, b in zip(left, right)]
    made = [subframe(row, depth + (row is side), predictors, most) for row in (left, right, side, middle)]
    pairs = zip((1, 8, 9, 10), family.PAIRS)
    return min(((code, made[one] + made[other]) for code, (one, other) in pairs), key=lambda it: len(it[1]))


def rate_field(rate):
    """The code of a rate, and the bytes in which the header states it (RFC 9639, section 9.1.2)."""
    width = family.rate_bytes(rate)
    if width == 0 or width is None:
        return RATE_CODES.get(rate, 0), b""
    if width == 1:
        return 12, bytes([rate // 1000])
    return (13, rate.to_bytes(2, "big")) if rate <= 65535 else (14, (rate // 10).to_bytes(2, "big"))


def frame(vectors, sound, block, place, predictors, lax=False):
    """A frame, by the writer of vectors.py."""
    code, body = subframes(block, sound.depth, predictors, family.greatest_partition_order(lax))
    size = len(block[0])
    size_code = SIZE_CODES.get(size, 6 if size <= 256 else 7)
    field = b"" if size in SIZE_CODES else (size - 1).to_bytes(size_code - 5, "big")
    rate_code, rated = rate_field(sound.rate)
    return vectors.frame(body, number=place, rate_code=rate_code, channel_code=code, depth_code=DEPTH_CODES.get(sound.depth, 0),
                         size_code=size_code, size_field=field, rate=rated)
