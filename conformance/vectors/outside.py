"""Files outside the streamable subset: the reference's with `--lax`, and other encoders' by settings that leave the subset.

Each limit of the subset is left alone (block size, linear order, partition order, rate, depth), and many are left at once by settings
from a fixed seed. Some of the files are inside the subset after all: the model tells which.
"""
import random

from sounds import Sound

SIZES = (4609, 5000, 8191, 8192, 10000, 16384, 16385, 32767, 32768, 65535)
ORDERS = (13, 14, 16, 19, 20, 24, 27, 28, 31, 32)
RATES = (1, 7, 12345, 48001, 65535, 65536, 65537, 96001, 255001, 655350, 655351, 700001, 1000000, 1048575)
PARTITIONS = (("9,9", "4608"), ("9", "8192"), ("10,10", "4096"), ("11,13", "8192"), ("12,12", "16384"), ("0,15", "32768"), ("0,15", "65535"),
              ("14,14", "32768"), ("15,15", "32768"))
"""Least and greatest partition order, and block size."""
KINDS = ("music", "speech", "noise", "square", "wasted", "clicks", "tone")
FFMPEG = [["-frame_size", "32768"], ["-frame_size", "65535"], ["-min_prediction_order", "32", "-max_prediction_order", "32"],
          ["-min_prediction_order", "13", "-max_prediction_order", "20", "-frame_size", "8192"], ["-max_prediction_order", "32", "-lpc_type", "cholesky"]]
FLAKE = [["-8", "-b", "16384"], ["-5", "-b", "65535"], ["-8", "-l", "1,32"], ["-12"]]
FLAKE_EMPTY = ["-11"]
"""Long predictors whose first partition has no value: its size is the predictor's order."""


def sound(kind, rate=44100, channels=2, bits=16, length=5000):
    return Sound(f"{kind}-{rate}-{channels}x{bits}-{length}", kind, rate, channels, bits, length)


def alone():
    """Sounds and settings that leave one limit each: (group, sound, settings)."""
    long, tone, fine = sound("music", channels=1, length=70000), sound("tone", length=20000), sound("tone", 48000, bits=24, length=9000)
    for level in range(9):
        yield "levels", tone, [f"-{level}", "-b", "8192"]
        yield "levels", sound("speech", 700001, bits=24), [f"-{level}"]
    for size in SIZES:
        yield "block sizes", long, ["-5", "-b", str(size)]
        yield "block sizes", sound("speech", 96000, length=70000), ["-2", "-b", str(size)]
    for order in ORDERS:
        yield "linear orders", fine, ["-8", "-l", str(order)]
        yield "linear orders", tone, ["-5", "-l", str(order), "-r", "0"]
    for settings in (["-e"], ["-p"], ["-e", "-p"], ["-q", "15"], ["-q", "5"], ["-M"], ["--no-mid-side"]):
        yield "linear orders", sound("tone"), ["-8", "-l", "32", *settings]
    for kind in ("speech", "clicks", "noise", "tone"):
        for orders, size in PARTITIONS:
            yield "partition orders", sound(kind, channels=1, length=33000), ["-5", "-l", "0", "-r", orders, "-b", size]
    for rate in RATES:
        for settings in (["-0"], ["-5"], ["-8"]):
            yield "rates", sound("music", rate, 1 + rate % 2, length=3000), settings


def depths():
    """Every depth, by several kinds of sound, and every number of channels."""
    for bits in range(4, 33):
        for index, kind in enumerate(KINDS):
            if kind != "wasted" or bits > 8:
                yield "depths", sound(kind, (44100, 96000, 12345)[index % 3], 1 + (index + bits) % 2, bits, 2000), [f"-{(bits + 2 * index) % 9}"]
    for channels in range(1, 9):
        for bits in (5, 13, 27):
            yield "channels", sound("music", 700001, channels, bits, 9000 if bits == 13 else 1000), ["-5", "-b", "8192" if bits == 13 else "16"]
    for length in (1, 2, 15, 16, 17, 8192, 8193):
        yield "lengths", sound("speech", 65537, 1, 7, length), ["-6", "-b", "8192"]


def mixed(count):
    """Everything at once, by a fixed seed."""
    source = random.Random("outside the subset")
    for _ in range(count):
        bits, channels, length = source.randrange(4, 33), source.choice((1, 1, 2, 2, 2, 3, 8)), source.choice((40, 700, 5000, 9000))
        kind = source.choice([kind for kind in KINDS if kind != "wasted" or bits > 3 + channels + 4])
        settings = [f"-{source.randrange(9)}", "-b", str(source.choice((16, 100, 1000, 4608, 8192, 65535)))]
        settings += ["-l", str(source.randrange(33))] if int(settings[2]) > 32 and source.randrange(2) else []
        settings += ["-r", f"{source.randrange(5)},{source.randrange(5, 16)}"] if source.randrange(2) else []
        settings += [source.choice(("-e", "-p", "--no-padding", "--no-seektable"))] if length < 5000 else []
        yield "mixed", sound(kind, source.choice((*RATES, 8000, 44100, 96000)), channels, bits, length), settings


def in_ogg():
    every = [*alone(), *depths(), *mixed(24)]
    yield from every[::11]
    yield "whole packets of many pages", sound("noise", 700001, 2, 27, 70000), ["-2", "-b", "65535"]


def others(made):
    """Other encoders, none of which is asked whether it leaves the subset."""
    tone, fine = (made.prepare(sound("tone", bits=bits, length=20000)) for bits in (16, 24))
    for one in (tone, fine):
        for settings in FFMPEG:
            made.ffmpeg("outside the subset, ffmpeg", one, settings, into=made.lax)
    for settings in FLAKE:
        made.flake("outside the subset, flake", tone, "".join(settings).strip("-"), settings, into=made.lax)
    made.flake("outside the subset, flake", made.prepare(sound("tone", length=40000)), "empty", FLAKE_EMPTY, into=made.empty_partitions)
    for rate in (65537, 700001):
        made.sox("outside the subset, sox", made.prepare(sound("music", rate, 2, 16, 3000)), "5", into=made.lax)


def build(made, quick):
    """Makes the files: they are `made.lax`."""
    native = [*alone(), *depths(), *mixed(30 if quick else 200)]
    for ogg, rows in ((False, native[::5] if quick else native), (True, [*in_ogg()][::4] if quick else in_ogg())):
        for group, one, settings in rows:
            made.reference(f"outside the subset, {group}", made.prepare(one), settings, into=made.lax, ogg=ogg, lax=True)
    others(made)
