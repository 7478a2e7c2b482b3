"""Lists of linear predictors, and their text: a predictor a line, `PRECISION SHIFT C1 C2 ..`, the coefficient for the nearest
sample first. `#` starts a comment. README.md has the rules."""
import os
import re
from collections import namedtuple

Predictor = namedtuple("Predictor", "precision shift coefficients")
MOST = 64
"""The most predictors of a list."""
HERE = os.path.dirname(os.path.abspath(__file__))
SHIPPED = os.path.join(HERE, "music.txt")
"""The list that comes with the program."""


class Refused(Exception):
    """A text is no list of predictors, or a file no sound that can be read; the text says why."""


def greatest_order(rate, lax=False):
    """The greatest order at a sample rate in Hz, in the streamable subset (RFC 9639, section 7) or with `--lax`."""
    return 12 if rate <= 48000 and not lax else 32


def checked(predictor):
    """The predictor, if a subframe can have it (RFC 9639, section 9.2.6)."""
    precision, shift, coefficients = predictor
    if not 1 <= precision <= 15:
        raise Refused(f"precision {precision}: 1 to 15")
    if not 0 <= shift <= 15:
        raise Refused(f"shift {shift}: 0 to 15")
    if not 1 <= len(coefficients) <= 32:
        raise Refused(f"{len(coefficients)} coefficients: 1 to 32")
    for one in coefficients:
        if not -(1 << precision - 1) <= one < 1 << precision - 1:
            raise Refused(f"coefficient {one}: {precision} bits")
    return predictor


def number(word):
    """A whole number: digits, and a sign before them if it is negative."""
    digits = word.removeprefix("-")
    if not (digits.isascii() and digits.isdigit() and len(digits.lstrip("0")) <= 5):
        raise Refused(f"no number: {word}")
    return int(word)


def of_line(line):
    """The predictor of a line, or None if it has none."""
    numbers = [number(word) for word in re.split("[ \t\r]", line.split("#")[0]) if word]
    return checked(Predictor(numbers[0], numbers[1] if numbers[1:] else -1, tuple(numbers[2:]))) if numbers else None


def parsed(text):
    """The predictors of a text, in its order."""
    result = []
    for place, line in enumerate(text.split("\n"), 1):
        try:
            result.extend(one for one in [of_line(line)] if one)
        except Refused as reason:
            raise Refused(f"line {place}: {reason}") from None
    if len(result) > MOST:
        raise Refused(f"{len(result)} predictors: at most {MOST}")
    return result


def read(path):
    """The predictors of a file, none for `-`."""
    if path == "-":
        return []
    try:
        with open(path, "rb") as file:
            return parsed(file.read().decode("latin-1"))
    except Refused as reason:
        raise Refused(f"{path}: {reason}") from None


def line_of(predictor):
    return " ".join(map(str, (predictor.precision, predictor.shift, *predictor.coefficients)))


def text_of(predictors, comments=()):
    """The text of a list, after comments."""
    return "".join(f"{line}\n" for line in [*(f"# {one}" for one in comments), *map(line_of, predictors)])


def making(path, sound, **options):
    """The command that makes a list of a sound, a WAV file, by `make` with these options."""
    return [os.path.join(HERE, "make"), *(word for name, value in options.items() for word in (f"--{name}", str(value))), path, sound]
