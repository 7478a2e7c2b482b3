"""Ogg streams whose packets fill several pages: what `encode` writes, byte for byte, and what other readers say of it.

The bytes that are due are put together here from the rules of the two formats alone: pages and lacing values (RFC 3533,
section 6), the packets of FLAC and the positions of their pages (RFC 9639, section 10.1), blocks (section 8) and frames
(section 9). A page of a header packet has position 0, also where the packet goes on after it. A page on which a frame ends
has the number of samples so far; a page on which none ends has all ones.
"""
import hashlib
import os
import subprocess

import folders  # noqa: F401  (the path of the modules below)
import program
import reference
from program import Wrong, read

SERIAL = 0x12345678
NO_POSITION = 2**64 - 1
VENDOR = b"flac profile 1"
UNENDED_HEADER = "granulepos 0 on page with no completed packets, must be -1"
"""The one thing that `oggz-validate` says of a page on which a header packet goes on: it keeps to RFC 3533, section 6, and so does the reference's encoder."""


def remainder(width, polynomial, data):
    """The remainder of the data's bits, the highest of a byte first, without reflection or a final mask."""
    value, top = 0, 1 << (width - 1)
    for byte in data:
        value ^= byte << (width - 8)
        for _ in range(8):
            value = ((value << 1) ^ polynomial if value & top else value << 1) & ((1 << width) - 1)
    return value


def page(number, flags, position, lacing, body):
    front = b"OggS" + bytes([0, flags]) + position.to_bytes(8, "little") + SERIAL.to_bytes(4, "little") + number.to_bytes(4, "little")
    behind = bytes([len(lacing)]) + bytes(lacing) + body
    return front + remainder(32, 0x04C11DB7, front + bytes(4) + behind).to_bytes(4, "little") + behind


def packet_pages(number, packet, position, unended, first=False, last=False):
    """The pages of a packet that begins a page: of 255 segments of 255 bytes, as long as it goes on."""
    lacing = [255] * (len(packet) // 255) + [len(packet) % 255]
    count = -(-len(lacing) // 255)
    for index in range(count):
        ends = index == count - 1
        flags = (1 if index else 0) | (2 if first and not index else 0) | (4 if last and ends else 0)
        values = lacing[255 * index:255 * index + 255]
        yield page(number + index, flags, position if ends else unended, values, packet[65025 * index:65025 * index + sum(values)])


def block(kind, content, last):
    return bytes([kind | (128 if last else 0)]) + len(content).to_bytes(3, "big") + content


def comments(*texts):
    content = len(VENDOR).to_bytes(4, "little") + VENDOR + len(texts).to_bytes(4, "little")
    return content + b"".join(len(text).to_bytes(4, "little") + text for text in texts)


def frame(size, channels, subframes):
    """Frame 0 of a fixed block size, 44100 Hz and 16 bits, every channel coded by itself."""
    head = b"\xFF\xF8" + (bytes([0x59]) if size == 4608 else bytes([0x69])) + bytes([channels - 1 << 4 | 4 << 1, 0])
    head += b"" if size == 4608 else bytes([size - 1])
    head += bytes([remainder(8, 0x07, head)])
    whole = head + subframes
    return whole + remainder(16, 0x8005, whole).to_bytes(2, "big")


def stream(raw, size, channels, texts, frame_bytes):
    """One frame of 16 bits after STREAMINFO and the comments."""
    bits = size << 16 | size
    bits = bits << 48 | len(frame_bytes) << 24 | len(frame_bytes)
    bits = bits << 64 | 44100 << 44 | channels - 1 << 41 | 15 << 36 | size
    info = bits.to_bytes(18, "big") + hashlib.md5(raw).digest()
    packets = [
        (b"\x7FFLAC\1\0" + (1).to_bytes(2, "big") + b"fLaC" + block(0, info, False), 0, 0),
        (block(4, comments(*texts), True), 0, 0),
        (frame_bytes, size, NO_POSITION),
    ]
    pages = []
    for index, (packet, position, unended) in enumerate(packets):
        pages += packet_pages(len(pages), packet, position, unended, index == 0, index == len(packets) - 1)
    return b"".join(pages)


def long_comment(length):
    """16 zeros, and a comment of so many bytes. The least subframe is of a fixed predictor of order 0, with one partition of no bits for a residual value."""
    raw, text = bytes(32), b"TITLE=" + b"x" * (length - 6)
    return raw, 16, 1, [text], frame(16, 1, (0b00010000_00_0000_1111_00000_0).to_bytes(3, "big"))


def long_frame():
    """A frame of 8 channels of which each is spelled as it is, since its samples are noise: of more bytes than a page has."""
    noise, state = bytearray(), 1
    for _ in range(4608 * 8 * 2):
        state = (1103515245 * state + 12345) % 2**31
        noise.append(state >> 16 & 255)
    samples = [noise[at:at + 2][::-1] for at in range(0, len(noise), 2)]
    subframes = b"".join(b"\x02" + b"".join(samples[channel::8]) for channel in range(8))
    return bytes(noise), 4608, 8, [], frame(4608, 8, subframes)


def complaints(path):
    """What `oggz-validate` says against a file, each once."""
    said = subprocess.run(["oggz-validate", path], stdout=subprocess.PIPE, stderr=subprocess.STDOUT, check=False)
    lines = said.stdout.decode(errors="replace").splitlines()
    if (said.returncode != 0) != bool(lines):
        raise Wrong(f"'oggz-validate' ends with status {said.returncode} and says {lines[:5]}")
    return {line.partition(": ")[2] for line in lines if not line.startswith(path)}


def written_case(raw, size, channels, texts, frame_bytes, bench):
    """What `encode` writes is what is due, and other readers take it."""
    samples, out = bench.put(raw, ".raw"), bench.path(".oga")
    words = ["--rate", "44100", "--channels", str(channels), "--bits", "16", "--block", str(size)]
    program.succeeds("encode", samples, out, "--ogg", "--serial", str(SERIAL), *words, *map(os.fsdecode, texts))
    found, due = read(out), stream(raw, size, channels, texts, frame_bytes)
    if found != due:
        place = next((at for at, (a, b) in enumerate(zip(found, due)) if a != b), min(len(found), len(due)))
        raise Wrong(f"{len(found)} bytes, due are {len(due)}; they differ at byte {place}")
    if not reference.accepts(out):
        raise Wrong("the reference's test of what 'encode' wrote fails")
    if reference.decoded(out, 16) != raw:
        raise Wrong("the reference decodes other samples than those encoded")
    program.expect(complaints(out), {UNENDED_HEADER} if len(comments(*texts)) + 4 >= 65025 else set())
    program.expect(program.answer(out), f"frames 1 samples {size}")
    os.remove(samples)
    os.remove(out)


def cases(bench):
    """Comments whose packet is of 70030 bytes, and of as many as one page or two pages have, or one less or more; and a frame of two pages."""
    for length in (70000, 64994, 64995, 64996, 130019, 130020, 130021):
        yield f"a comment of {length} bytes", lambda n=length: written_case(*long_comment(n), bench)
    yield "a frame of 73744 bytes", lambda: written_case(*long_frame(), bench)
