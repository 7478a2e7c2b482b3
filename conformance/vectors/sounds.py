"""Synthetic audio by fixed seeds, and raw and WAV files of it.

A sound is a list of samples for each channel. Raw files hold the samples interleaved, signed, little-endian, each
sign-extended to whole bytes: the form that the program under test reads and writes.
"""
import math
import random
import struct
from collections import namedtuple

Sound = namedtuple("Sound", "name kind rate channels bits length")
LENGTH = 12000
"""Samples per channel where a case asks for no other length."""


def music(random_source, rate, channels, peak, length):
    """Notes of a few sines each, with a little noise; the channels hold the same notes at other strengths."""
    pans = [0.35 + 0.65 * random_source.random() for _ in range(channels)]
    result = [[] for _ in range(channels)]
    note = max(rate // 6, 64)
    for start in range(0, length, note):
        tones = [(110 * 2 ** (random_source.randrange(36) / 12) * k, 0.5 ** k) for k in (1, 2, 3)]
        steps = [(2 * math.pi * f / rate, strength) for f, strength in tones]
        for index in range(min(note, length - start)):
            fade = math.exp(-3 * index / note)
            value = sum(strength * math.sin(step * index) for step, strength in steps) * fade * 0.75
            for channel, pan in zip(result, pans):
                channel.append(int(peak * (value * pan + random_source.uniform(-0.002, 0.002))))
    return result


def speech(random_source, rate, channels, peak, length):
    """Pulses through a resonator, in words with pauses of silence between them."""
    one, before, last, pitch, sample = [], 0.0, 0.0, max(rate // 120, 2), 0
    while len(one) < length:
        word, pause = max(rate // 8 + random_source.randrange(rate // 8 + 1), 1), random_source.randrange(rate // 10 + 1)
        turn = 2 * math.pi * (400 + random_source.randrange(900)) / rate
        for index in range(word):
            pulse = 0.2 if index % pitch == 0 else random_source.uniform(-0.004, 0.004)
            before, last = last, pulse + 1.94 * math.cos(turn) * last - 0.9409 * before
            one.append(int(peak * max(-1, min(1, last))))
        one.extend([0] * pause)
        before = last = 0.0
    one = one[:length]
    return [one if channel % 2 == 0 else [(s * 3) >> 2 for s in one] for channel in range(channels)]


def noise(random_source, rate, channels, peak, length):
    return [[random_source.randint(-peak - 1, peak) for _ in range(length)] for _ in range(channels)]


def silence(random_source, rate, channels, peak, length):
    return [[0] * length for _ in range(channels)]


def square(random_source, rate, channels, peak, length):
    """Full scale, each channel against the one before it, so that differences need one bit more."""
    return [[peak if (index // 25 + channel) % 2 else -peak - 1 for index in range(length)] for channel in range(channels)]


def wasted(random_source, rate, channels, peak, length):
    """Music whose lowest bits are zero: three in the first channel, then four, and so on."""
    return [[(s >> 3 + n) << 3 + n for s in channel]
            for n, channel in enumerate(music(random_source, rate, channels, peak, length))]


def clicks(random_source, rate, channels, peak, length):
    """Silence with single samples of full scale: quotients of residual values become long."""
    return [[0 if random_source.randrange(200) else random_source.choice((peak, -peak - 1)) for _ in range(length)]
            for _ in range(channels)]


def constant(random_source, rate, channels, peak, length):
    return [[peak >> (channel + 1)] * length for channel in range(channels)]


def tone(random_source, rate, channels, peak, length):
    """Pure sines, which long linear predictors gain from."""
    return [[int(peak * sum(0.12 * math.sin(index * k * 0.11 + channel) for k in range(1, 9))) for index in range(length)]
            for channel in range(channels)]


KINDS = {call.__name__: call for call in (music, speech, noise, silence, square, wasted, clicks, constant, tone)}


def samples(sound):
    random_source = random.Random(f"{sound.kind} {sound.rate} {sound.channels} {sound.bits} {sound.length}")
    return KINDS[sound.kind](random_source, sound.rate, sound.channels, (1 << (sound.bits - 1)) - 1, sound.length)


def interleave(channels):
    result = [0] * (len(channels) * len(channels[0]))
    for index, channel in enumerate(channels):
        result[index::len(channels)] = channel
    return result


def packed(values, width):
    if width in (1, 2, 4):
        return struct.pack(f"<{len(values)}{' bh i'[width]}", *values)
    wide = struct.pack(f"<{len(values)}i", *values)
    thin = bytearray(3 * len(values))
    for place in range(3):
        thin[place::3] = wide[place::4]
    return bytes(thin)


def raw(channels, bits):
    return packed(interleave(channels), (bits + 7) // 8)


def wav(channels, bits, rate):
    """A WAV file whose samples stand in the upper bits of whole bytes, as that format wants depths 12 and 20."""
    width = (bits + 7) // 8
    values = interleave(channels)
    shift = 8 * width - bits
    values = [value << shift for value in values] if shift else values
    data = packed(values, width)
    if width == 1:
        data = bytes(byte ^ 0x80 for byte in data)
    count = len(channels)
    plain = bits in (8, 16) and count <= 2
    kind = 1 if plain else 0xFFFE
    form = struct.pack("<HHIIHH", kind, count, rate, rate * count * width, count * width, 8 * width)
    if not plain:
        mask = {1: 4, 2: 3, 3: 7, 4: 0x33, 5: 0x37, 6: 0x3F, 7: 0x70F, 8: 0x63F}[count]
        form += struct.pack("<HHI", 22, bits, mask) + bytes.fromhex("0100000000001000800000AA00389B71")
    data_chunk = b"data" + struct.pack("<I", len(data)) + data + b"\0" * (len(data) % 2)
    body = b"WAVEfmt " + struct.pack("<I", len(form)) + form + data_chunk
    return b"RIFF" + struct.pack("<I", len(body)) + body


def standard(quick):
    """The sounds of a run. Names are unique: they name files."""
    def sound(kind, rate=44100, channels=2, bits=16, length=LENGTH):
        return Sound(f"{kind}-{rate}-{channels}x{bits}-{length}", kind, rate, channels, bits, length)

    result = [sound(kind) for kind in KINDS]
    result += [sound("music", bits=bits) for bits in (8, 12, 20, 24, 32)]
    result += [sound("music", channels=channels, length=6000) for channels in (1, 3, 4, 5, 6, 7, 8)]
    result += [sound("speech", length=length, channels=1 + length % 2) for length in (0, 1, 2, 15, 16, 17, 4095, 4096, 4097)]
    result += [sound("square", bits=bits, length=4000) for bits in (8, 24, 32)]
    result += [sound("noise", bits=bits, length=4000) for bits in (8, 24, 32)]
    result += [sound("clicks", bits=bits, length=5000) for bits in (12, 32)]
    result += [sound("wasted", bits=bits, length=5000) for bits in (20, 24)]
    rates = (8000, 655350, 96000, 12345) if quick else (
        8000, 11025, 16000, 22050, 24000, 32000, 48000, 88200, 96000, 176400, 192000, 7000, 37000, 12345, 65535, 384000, 655350)
    result += [sound("music", rate=rate, channels=1 + index % 2, length=7000) for index, rate in enumerate(rates)]
    result += [sound("music", rate=96000, bits=24, length=40000)]
    if not quick:
        result += [sound(kind, length=100000) for kind in ("music", "speech")]
        result += [sound("music", rate=192000, bits=24, length=100000), sound("tone", rate=96000, bits=24, length=50000)]
        result += [sound("speech", channels=8, bits=24, length=20000), sound("noise", channels=8, bits=8)]
    unique = {one.name: one for one in result}
    return list(unique.values())
