"""WAV files that are made, and what is due of each. What is told here shares nothing with the program.

`made` are files by name, `generated` the file of a number, each field random within and outside the rules. `judge` reads a file as
docs/definitions.md says, and `plain` makes the file of samples of which none is kept.
"""
import functools
import math
import random
import struct

GUID = bytes.fromhex("000000001000800000aa00389b71")
"""The GUID of an extensible format after its first two bytes, which are the coding."""
MOST = 16777211
"""The longest chunk that a metadata block keeps."""
DEPTHS = (8, 12, 16, 20, 24, 32)
"""The bits of a sample that a frame header states (RFC 9639, section 9.1.4)."""
SPEAKERS = (0, 4, 3, 7, 0x33, 0x37, 0x3F, 0x70F, 0x63F)
"""Of 1 to 8 channels, in the order of RFC 9639, section 9.1.3."""
FULL = 0xFFFFFFFF


# ---- parts of files

def chunk(name, body, size=None, pad=b"\0"):
    """A chunk; `size` is the length that it states, `pad` the byte after content of odd length."""
    return name + struct.pack("<I", len(body) if size is None else size) + body + (pad if len(body) % 2 else b"")


def form(tag, channels, rate, bits, align=None, speed=None, more=b""):
    """The content of a chunk `fmt `; `align` and `speed` are the bytes of an inter-channel sample and of a second."""
    align = channels * ((bits + 7) // 8) % 65536 if align is None else align
    speed = rate * align % 2**32 if speed is None else speed
    return struct.pack("<HHIIHH", tag, channels, rate, speed, align, bits) + more


def wide(channels, rate, bits, valid, mask, coding=1):
    """The content of an extensible chunk `fmt `."""
    return form(0xFFFE, channels, rate, bits, more=struct.pack("<HHIH", 22, valid, mask, coding) + GUID)


def riff(*chunks, size=None, name=b"RIFF", tail=b""):
    body = b"WAVE" + b"".join(chunks)
    return name + struct.pack("<I", len(body) if size is None else size) + body + tail


def rf64(*chunks, long, count, more=b"", name=b"RF64"):
    """A file whose chunk `ds64` states the length of the samples."""
    body = b"".join(chunks)
    sizes = struct.pack("<QQQI", 4 + 36 + len(more) + len(body), long, count, len(more) // 12) + more
    return riff(chunk(b"ds64", sizes), body, size=FULL, name=name)


def sound(rows, channels, width, bits=None):
    """Interleaved samples of `width` bytes, of which the highest `bits` vary."""
    bits, noise, out = bits or 8 * width, random.Random(rows * channels * width), bytearray()
    top = 2 ** (bits - 1)
    for row in range(rows):
        for channel in range(channels):
            value = int((top - 1) * 0.5 * math.sin(row * 0.05 * (channel + 1))) + noise.randint(-3, 3)
            value = max(-top, min(top - 1, value)) << (8 * width - bits)
            out += bytes([value + 128 & 255]) if width == 1 else (value % 2 ** (8 * width)).to_bytes(width, "little")
    return bytes(out)


# ---- made ones

@functools.cache
def made():
    """The made files by name."""
    stereo, mono, odd = sound(3000, 2, 2), sound(3000, 1, 1), sound(3001, 1, 1)
    basic, byte = form(1, 2, 44100, 16), form(1, 1, 22050, 8)
    fmt, data = chunk(b"fmt ", basic), chunk(b"data", stereo)
    artist, info = chunk(b"LIST", b"INFOIART\4\0\0\0joe\0"), chunk(b"LIST", b"INFO")
    maker = chunk(b"LIST", b"INFOISFT\x0e\0\0\0Lavf58.76.100\0")
    long = {"long": len(stereo), "count": 3000}
    unknown = chunk(b"data", stereo, size=FULL)

    def of(content, samples):
        return riff(chunk(b"fmt ", content), chunk(b"data", samples))

    return {
        "pcm16": riff(fmt, data), "pcm8mono": of(byte, mono), "pcm8mono_odd_padded": of(byte, odd),
        "pcm8mono_odd_padded_then_list": riff(chunk(b"fmt ", byte), chunk(b"data", odd), chunk(b"LIST", b"INFOISFT\4\0\0\0abcd")),
        "pcm8mono_odd_nopad": riff(chunk(b"fmt ", byte), chunk(b"data", odd, pad=b"")),
        "pcm8mono_odd_pad_nonzero": riff(chunk(b"fmt ", byte), chunk(b"data", odd, pad=b"\7")),
        "pcm24": of(form(1, 2, 48000, 24), sound(3000, 2, 3)), "pcm32": of(form(1, 2, 48000, 32), sound(3000, 2, 4)),
        "fmt18": of(basic + b"\0\0", stereo), "fmt20_extra": of(basic + b"\2\0\x11\x22", stereo),
        "ext16": of(wide(2, 44100, 16, 16, 3), stereo), "ext16_mask0": of(wide(2, 44100, 16, 16, 0), stereo),
        "ext16_mask_odd": of(wide(2, 44100, 16, 16, 0x600), stereo),
        "ext24_in24_valid20": of(wide(2, 44100, 24, 20, 3), sound(3000, 2, 3, 20)),
        "ext24_valid20_dirty": of(wide(2, 44100, 24, 20, 3), sound(3000, 2, 3)),
        "ext16_valid12": of(wide(2, 44100, 16, 12, 3), sound(3000, 2, 2, 12)),
        "ext32_valid24": of(wide(2, 44100, 32, 24, 3), sound(3000, 2, 4, 24)),
        "ext8_mono": of(wide(1, 44100, 8, 8, 4), mono),
        "pcm12_fmt1": of(form(1, 2, 44100, 12), sound(3000, 2, 2, 12)), "pcm20_fmt1": of(form(1, 2, 44100, 20), sound(3000, 2, 3, 20)),
        "ext51": of(wide(6, 48000, 16, 16, 0x3F), sound(500, 6, 2)), "ext51side": of(wide(6, 48000, 16, 16, 0x60F), sound(500, 6, 2)),
        "pcm6ch_fmt1": of(form(1, 6, 48000, 16), sound(500, 6, 2)),
        "float32": of(form(3, 2, 44100, 32), sound(3000, 2, 4)), "extfloat": of(wide(2, 44100, 32, 32, 3, coding=3), sound(3000, 2, 4)),
        "adpcm": of(form(2, 2, 44100, 4, align=2048), stereo[:4096]), "alaw": of(form(6, 1, 8000, 8), mono),
        "list_before": riff(artist, fmt, data), "list_between": riff(fmt, artist, data), "list_after": riff(fmt, data, artist),
        "bext_before": riff(chunk(b"bext", bytes(range(200)) * 3 + b"\1\2"), fmt, data),
        "many": riff(chunk(b"bext", b"b" * 602), fmt, chunk(b"fact", struct.pack("<I", 3000)), maker, data, chunk(b"cue ", b"\0" * 28),
                     chunk(b"LIST", b"adtllabl\x08\0\0\0\1\0\0\0abc\0"), chunk(b"id3 ", b"ID3\3\0\0\0\0\0\0z")),
        "odd_list_before": riff(fmt, chunk(b"odd1", b"abc"), data),
        "odd_list_before_padFF": riff(fmt, chunk(b"odd1", b"abc", pad=b"\xff"), data),
        "odd_list_after": riff(fmt, data, chunk(b"odd2", b"abcde")), "odd_last_nopad": riff(fmt, data, chunk(b"odd2", b"abcde", pad=b"")),
        "odd_between_nopad": riff(fmt, chunk(b"odd1", b"abc", pad=b""), data), "junk": riff(chunk(b"JUNK", b"\0" * 28), fmt, data),
        "trailing_garbage": riff(fmt, data, tail=b"garbage bytes"), "trailing_after_riff": riff(fmt, data, tail=info),
        "riffsize0": riff(fmt, data, size=0), "riffsizeFF": riff(fmt, data, size=FULL),
        "riff_wrong_plus": riff(fmt, data, size=136 + len(stereo)), "riff_wrong_minus": riff(fmt, data, size=len(stereo) - 64),
        "pipe_sizes_FF": riff(fmt, unknown, size=FULL), "pipe_sizes_0": riff(fmt, chunk(b"data", stereo, size=0), size=0),
        "pipe_sox": riff(fmt, chunk(b"data", stereo, size=0x7FFFF000), size=0x7FFFF024),
        "pipe_ffmpeg": riff(fmt, maker, unknown, size=FULL),
        "truncated": riff(fmt, data)[:-1001], "truncated_whole": riff(fmt, data)[:-1000],
        "data_not_whole": riff(fmt, chunk(b"data", stereo[:-1])), "data_not_whole2": riff(fmt, chunk(b"data", stereo[:-2])),
        "data_empty": riff(fmt, chunk(b"data", b"")), "data_empty_list": riff(fmt, chunk(b"data", b""), info),
        "data_empty_cut_list": riff(fmt, chunk(b"data", b""), artist)[:-2], "data_empty_zeros": riff(fmt, chunk(b"data", b""), tail=bytes(12)),
        "data_empty_no_name": riff(fmt, chunk(b"data", b""), chunk(b"\x1fIST", b"INFO")), "data_empty_few": riff(fmt, chunk(b"data", b""), tail=b"LIST"),
        "unended": riff(fmt, chunk(b"data", stereo, size=0), size=36), "unended_silence": riff(fmt, chunk(b"data", bytes(4000) + stereo, size=0), size=36),
        "unended_part": riff(fmt, chunk(b"data", stereo[:-2], size=0), size=36), "unended_byte": riff(chunk(b"fmt ", byte), chunk(b"data", odd, size=0)),
        "unended_rf64": rf64(fmt, unknown, long=0, count=0), "unended_later": riff(fmt, chunk(b"data", stereo, size=4000), size=4036),
        "two_data": riff(fmt, data, chunk(b"data", stereo[:400])), "two_fmt": riff(fmt, fmt, data),
        "no_fmt": riff(data), "no_data": riff(fmt), "fmt_after_data": riff(data, fmt), "fmt14": of(basic[:14], stereo),
        "bad_block_align": of(form(1, 2, 44100, 16, align=8), stereo), "bad_byte_rate": of(form(1, 2, 44100, 16, speed=12345), stereo),
        "ch0": of(form(1, 0, 44100, 16), b""), "ch9": of(form(1, 9, 44100, 16), sound(100, 9, 2)),
        "rate0": of(form(1, 2, 0, 16), stereo), "rate700001": of(form(1, 2, 700001, 16), stereo), "rifx": b"RIFX" + riff(fmt, data)[4:],
        "rf64": rf64(fmt, unknown, **long), "rf64_list_after": rf64(fmt, unknown, artist, **long),
        "rf64_table": rf64(fmt, unknown, **long, more=b"LIST" + struct.pack("<Q", 4)), "rf64_extra": rf64(fmt, unknown, **long, more=b"\0" * 4),
        "rf64_datasize_real": rf64(fmt, data, **long), "bw64": rf64(fmt, unknown, **long, name=b"BW64"),
        "rf64_chna": rf64(fmt, chunk(b"chna", b"\0" * 44), unknown, **long),
        "long_chunk": riff(chunk(b"JUNK", bytes(MOST - 9)), fmt, data), "long_chunk_over": riff(fmt, chunk(b"JUNK", bytes(MOST - 7)), data),
        "long_chunk_after": riff(fmt, data, chunk(b"JUNK", bytes(MOST + 100000))),
    }


# ---- generated ones

def magic(pick, name):
    """These four bytes, or others: one changed, or of another case."""
    if pick.random() < 0.985:
        return name
    at = pick.randrange(4)
    return pick.choice([name.lower(), name[:at] + pick.randbytes(1) + name[at + 1:], pick.randbytes(4)])


def noise(pick, channels, width, valid):
    """Samples of a kind, of which the highest `valid` bits vary; a few of them may have lower bits too."""
    rows, low = pick.choice([0, 1, 2, 3, 7, pick.randint(8, 300)]), max(0, 8 * width - valid)
    kind, top, out = pick.randrange(5), 2 ** (8 * width), bytearray()
    value = pick.randrange(top)
    for index in range(rows * channels):
        if kind == 0:
            value = pick.randrange(top)
        elif kind == 1:
            value = (value + pick.randint(-3, 3) * 2**low) % top
        elif kind == 2:
            value = int((math.sin(index * 0.07) + 1) * (top // 2 - 1))
        elif kind == 3:
            value = pick.choice([0, top - 1, top // 2, top // 2 - 1])
        out += (value >> low << low).to_bytes(width, "little")
    if low and out and pick.random() < 0.3:
        out[pick.randrange(len(out))] ^= 1
    return bytes(out)


def format_chunk(pick, channels, bits):
    """A chunk `fmt ` of one of both forms."""
    def often(value, others):
        return value if pick.random() < 0.97 else pick.choice(others)

    width = (bits + 7) // 8
    rate = often(pick.choice([8000, 11025, 44100, 48000, 96000, 192000, pick.randint(1, 65535), 10 * pick.randint(1, 65535)]), [0, 1, 700001, 2**20, FULL])
    align = often(channels * width % 65536, [0, 1, 4, pick.randrange(65536)])
    speed = pick.choice([None, None, None, pick.randrange(2**32)])
    if pick.random() < 0.5:
        content = form(often(1, [0, 2, 3, 6, 0xFFFE, pick.randrange(65536)]), channels, rate, bits, align, speed,
                       more=pick.choice([b"", b"", b"\0\0", b"\2\0ab", pick.randbytes(pick.randint(0, 30))]))
    else:
        valid = pick.choice([bits, bits, 12, 20, 24, 16, 8, 0, pick.randrange(65536)]) % 65536
        guid = often(GUID, [GUID[:-1] + b"r", pick.randbytes(14)])
        more = struct.pack("<HHIH", pick.choice([22, 22, 0]), valid, pick.choice([0, pick.randint(0, 0x7FF), FULL]), often(1, [3, 0, 0xFFFE])) + guid
        content = form(0xFFFE, channels, rate, bits, align, speed, more=more + pick.choice([b"", b"", b"x"]))
    content = often(content, [content[:pick.randint(0, 41)]])
    return chunk(magic(pick, b"fmt "), content, pad=often(b"\0", [b"\7"]))


def other_chunk(pick):
    name = pick.choice([b"LIST", b"JUNK", b"bext", b"id3 ", b"DATA", b"fact", b"cue ", b"\0\0\0\0", b"RIFF", pick.randbytes(4)])
    body = pick.randbytes(pick.choice([0, 1, 2, 3, pick.randint(4, 60)]))
    size = len(body) if pick.random() < 0.985 else pick.choice([0, len(body) + 1, len(body) + 2, 2**31, FULL])
    return chunk(name, body, size=size, pad=pick.choice([b"\0", b"\0", b"\0", b"\7", b""] if size != len(body) else [b"\0", b"\0", b"\0", b"\7"]))


def long_sizes(pick, size):
    """A chunk `ds64`, which mostly states the length of the samples."""
    stated = pick.choice([size, size, size, 0, 1, size + 1, 2**40, 2**64 - 1])
    body = struct.pack("<QQQI", pick.choice([0, size, 2**33]), stated, pick.randrange(2**64), 0)
    return chunk(b"ds64", body[:pick.choice([28, 28, 28, 28, 24, 27, 16])] + pick.choice([b"", b"", b"\0" * 12]))


def generated(number):
    """A file of which each field is random, mostly within the rules."""
    pick = random.Random(number)

    def often(value, others):
        return value if pick.random() < 0.96 else pick.choice(others)

    channels = often(pick.randint(1, 8), [0, 9, 255, 65535])
    bits = often(pick.choice([8, 8, 16, 16, 24, 32, 12, 20, pick.randint(1, 32)]), [0, 33, 64, 65535])
    width = min((bits + 7) // 8, 4) or 1
    valid = pick.choice([8 * width, 8 * width, bits, 12, 20, 24])
    samples = noise(pick, min(channels, 8) or 1, width, valid)
    samples = often(samples, [samples[:-1], samples + b"x"])
    size = often(len(samples), [0, len(samples) + 1, 0x7FFFF000, FULL, FULL, max(0, len(samples) - channels * width), pick.randrange(2**32)])
    middle = [format_chunk(pick, channels, bits)] * often(1, [0, 2])
    if pick.random() < 0.15:
        middle.insert(0, long_sizes(pick, len(samples)))
    last = chunk(magic(pick, b"data"), samples, size=size, pad=often(b"\0", [b"", b"\1"]))
    chunks = [*(other_chunk(pick) for _ in range(pick.choice([0, 0, 0, 1, 2]))), *middle, *(other_chunk(pick) for _ in range(pick.choice([0, 0, 0, 1])))]
    after = [other_chunk(pick) for _ in range(pick.choice([0, 0, 1, 2]))]
    name = magic(pick, pick.choice([b"RIFF", b"RIFF", b"RF64", b"BW64"]))
    file = riff(*chunks, last, *after, size=often(None, [0, 1, FULL, pick.randrange(2**32)]), name=name, tail=often(b"", [b"t", pick.randbytes(9)]))
    file = file[:8] + magic(pick, b"WAVE") + file[12:]
    return file[:pick.randint(0, len(file))] if pick.random() < 0.05 else file


# ---- what is due

def format_fault(body):
    """Why the content of a chunk `fmt ` is refused, or None."""
    if len(body) < 16:
        return "65 FormatLength"
    tag, channels, _, _, align, bits = struct.unpack_from("<HHIIHH", body)
    extensible = tag == 0xFFFE and len(body) >= 40
    if tag != 1 and not (extensible and body[24:40] == b"\1\0" + GUID):
        return "66 Coding"
    if not (1 <= channels <= 8 and 1 <= bits <= 32 and align == channels * ((bits + 7) // 8)):
        return "67 FormatFields"
    return None


class Found:
    """What a file has: the content of `fmt `, the samples, and whether a zero follows these if one is due."""

    def __init__(self, body, samples, after):
        self.tag, self.channels, self.rate, _, self.row, self.bits = struct.unpack_from("<HHIIHH", body)
        extensible = self.tag == 0xFFFE and len(body) >= 40
        self.valid, self.mask = struct.unpack_from("<HI", body, 18) if extensible else (self.bits, None)
        self.samples, self.padded = samples, len(samples) % 2 == 0 or after[:1] == b"\0"
        self.width = (self.bits + 7) // 8

    def depth(self):
        """The bits of a stream's samples: those that count, if a frame header states them and all bits below them are zeros."""
        low = 8 * self.width - self.valid
        if self.valid not in DEPTHS or low <= 0:
            return 8 * self.width
        values = (int.from_bytes(self.samples[i:i + self.width], "little") for i in range(0, len(self.samples), self.width))
        return 8 * self.width if any(value % 2**low for value in values) else self.valid


def is_chunk(rest):
    """Whether these bytes begin with a whole chunk, whose name is four printing characters."""
    return len(rest) >= 8 and all(32 <= byte <= 126 for byte in rest[:4]) and struct.unpack_from("<I", rest, 4)[0] <= len(rest) - 8


def judge(file, to_end=False):
    """The line that is due of a file that is refused; or what it has, if it is one of the streamable subset. With `to_end`, samples
    that are longer than the file go to its end, and so do those of which 0 bytes are stated, if no chunk follows."""
    if len(file) < 12 or file[:4] not in (b"RIFF", b"RF64", b"BW64") or file[8:12] != b"WAVE":
        return "60 NotWave"
    whole, at, number, found, long = struct.unpack_from("<I", file, 4)[0], 12, 0, None, None
    while True:
        left = len(file) - at
        if left < 8:
            return f"chunk {number}: " + ("68 NoData" if left == 0 else "61 ChunkCut")
        name, size = file[at:at + 4], struct.unpack_from("<I", file, at + 4)[0]
        if name == b"data":
            break
        total = 8 + size + size % 2
        if total > left or total > MOST:
            return f"chunk {number}: " + ("61 ChunkCut" if total > left else "62 ChunkLength")
        body = file[at + 8:at + 8 + size]
        if name == b"fmt ":
            fault = "64 RepeatedFormat" if found else format_fault(body)
            if fault:
                return f"chunk {number}: {fault}"
            found = body
        if name == b"ds64" and size >= 28:
            long = struct.unpack_from("<Q", body, 8)[0]
        at, number = at + total, number + 1
    if not found:
        return f"chunk {number}: 63 NoFormat"
    room, (rate, row) = left - 8, (struct.unpack_from("<I", found, 4)[0], struct.unpack_from("<H", found, 12)[0])
    if size == FULL:
        size = room if long is None else long
    elif size == 0x7FFFF000 or (size == 0 and whole in (0, FULL)):
        size = room
    if size == 0 and room > 0 and not is_chunk(file[at + 8:]):
        if not to_end:
            return f"chunk {number}: 92 DataUnstated"
        size = room
    if to_end and size > room:
        size = room
    if size > room or size % row:
        return f"chunk {number}: " + ("69 DataCut" if size > room else "70 PartSample")
    subset = 1 <= rate <= 65535 or rate <= 655350 and rate % 10 == 0 or rate <= 255000 and rate % 1000 == 0
    body = file[at + 8:]
    return Found(found, body[:size], body[size:]) if rate and subset else "40 BadRate"


# ---- plain files

def plain(rate, channels, bits, total, raw):
    """The file of `total` inter-channel samples of a stream that keeps none; 0 if their number is unknown. `raw` are the samples."""
    width, extensible = (bits + 7) // 8, channels > 2 or bits > 16 or bits % 8 != 0
    content = wide(channels, rate, 8 * width, bits, SPEAKERS[channels]) if extensible else form(1, channels, rate, bits)
    samples = shifted(raw, width, bits)
    if total == 0:
        return riff(chunk(b"fmt ", content), chunk(b"data", samples, size=FULL, pad=b""), size=FULL)
    size = total * channels * width
    middle, pad = chunk(b"fmt ", content), b"\0" * (size % 2)
    length = 4 + len(middle) + 8 + size + len(pad)
    if length < FULL:
        return b"RIFF" + struct.pack("<I", length) + b"WAVE" + middle + b"data" + struct.pack("<I", size) + samples + pad
    sizes = chunk(b"ds64", struct.pack("<QQQI", length + 36, size, total, 0))
    return b"RF64" + struct.pack("<I", FULL) + b"WAVE" + sizes + middle + b"data" + struct.pack("<I", FULL) + samples + pad


def shifted(raw, width, bits):
    """Raw samples as those of a file: their bits are the highest, and those of one byte are unsigned."""
    out = bytearray()
    for at in range(0, len(raw), width):
        value = int.from_bytes(raw[at:at + width], "little") << (8 * width - bits)
        out += ((value + 128 * (width == 1)) % 2 ** (8 * width)).to_bytes(width, "little")
    return bytes(out)
