"""Small streams of which it is known where each item begins: for cases that are judged by the place of a failure."""
import hashlib
import struct

import vectors
import vectors_ogg

TEXTS = [b"TITLE=x", b"NO=" + bytes([0, 92, 200])]


class Layout:
    """A stream in parts, each (place, bytes). In Ogg the parts are pages, and `items` has the place of what each page ends or goes on with."""

    def __init__(self, parts, items=None):
        self.parts, self.items, self.ogg = parts, items or [place for place, _ in parts], items is not None
        self.data = b"".join(data for _, data in parts)

    def index(self, offset):
        """The number of the part that has this byte; the number of parts after the last byte."""
        for index, (_, data) in enumerate(self.parts):
            if offset < len(data):
                return index
            offset -= len(data)
        return len(self.parts)

    def next_place(self, after):
        """The place after the last part."""
        return f"{after} {sum(name.startswith(after) for name, _ in self.parts)}"

    def part_at(self, offset):
        index = self.index(offset)
        return self.parts[index][0] if index < len(self.parts) else self.next_place("page" if self.ogg else "frame")

    def item_at(self, offset):
        return self.items[min(self.index(offset), len(self.items) - 1)]

    def first_frame(self):
        """Where the first part with a frame begins."""
        first = next(index for index, item in enumerate(self.items) if item.startswith("frame"))
        return sum(len(data) for _, data in self.parts[:first])


def little(*numbers):
    return struct.pack(f"<{len(numbers)}I", *numbers)


def comments(*texts):
    return little(4) + b"test" + little(len(texts)) + b"".join(little(len(text)) + text for text in texts)


def picture():
    return struct.pack(">II", 3, 9) + b"image/png" + struct.pack(">I", 5) + b"Front" + struct.pack(">IIIII", 1, 2, 24, 0, 4) + b"data"


def cue_sheet():
    point = bytes(7) + b"\10\1" + bytes(3)
    track = bytes(8) + b"\1" + b"ABCDE1234567" + bytes(14) + b"\2" + bytes(8) + b"\0" + bytes(3) + point
    return b"1234567890123".ljust(128, b"\0") + struct.pack(">Q", 88200) + b"\x80" + bytes(258) + b"\2" + track + bytes(8) + b"\xaa" + bytes(12) + bytes(15)


def seek_table():
    return struct.pack(">QQH", 0, 0, 16) + struct.pack(">QQH", 32, 70, 16) + b"\xff" * 8 + bytes(10)


KINDS = [(4, comments(*TEXTS)), (1, bytes(9)), (2, b"abcdsix by"), (3, seek_table()), (5, cue_sheet()), (6, picture()), (9, b"unknown")]
"""A block of each kind but STREAMINFO, and one of an unknown kind: (type, content)."""


def wide_frame(number, values):
    """Two channels: verbatim samples, and a constant."""
    body = "0 000001 0" + "".join(f"{value & 0xFFFF:016b}" for value in values) + "0 000000 0" + f"{number + 5:016b}"
    return vectors.frame(body, len(values), number, channel_code=1)


def whole(frames=3, kinds=KINDS):
    """Frames of 16 samples, of which the last has 9: (content of STREAMINFO, other blocks, frames)."""
    sizes = [16] * (frames - 1) + [9]
    values = [[31 * n - 700 + i * i for i in range(size)] for n, size in enumerate(sizes)]
    made = [wide_frame(n, row) for n, row in enumerate(values)]
    digest = hashlib.md5(b"".join(struct.pack("<hh", v, n + 5) for n, row in enumerate(values) for v in row)).digest()
    info = vectors.stream_info(16, 16, channels=2, total=sum(sizes), digest=digest)
    return info, kinds, made


def native(**more):
    info, kinds, frames = whole(**more)
    blocks = [vectors.block(kind, content, index == len(kinds)) for index, (kind, content) in enumerate([(0, info), *kinds])]
    return Layout([("marker", b"fLaC"), *[(f"block {i}", data) for i, data in enumerate(blocks)],
                   *[(f"frame {i}", data) for i, data in enumerate(frames)]])


def ogg(long=False, **more):
    """Each packet on pages of its own. With `long` one block fills three pages."""
    info, kinds, frames = whole(**more)
    if long:
        kinds = [*kinds[:1], (1, bytes(65025 + 65025 + 3)), *kinds[1:]]
    packets = [(vectors_ogg.mapping(info, len(kinds)), "block 0")]
    packets += [(vectors.block(kind, content, index == len(kinds)), f"block {index}") for index, (kind, content) in enumerate(kinds, 1)]
    packets += [(data, f"frame {index}") for index, data in enumerate(frames)]
    parts, items = [], []
    for index, (packet, place) in enumerate(packets):
        pieces = [packet[at:at + 65025] for at in range(0, len(packet), 65025)]
        for number, piece in enumerate(pieces):
            ended = number == len(pieces) - 1
            flags = (2 if index == 0 else 0) | (4 if index == len(packets) - 1 and ended else 0) | (1 if number else 0)
            parts.append((f"page {len(parts)}", vectors_ogg.page(len(parts), piece, flags=flags, ended=ended)))
            items.append(place)
    return Layout(parts, items)
