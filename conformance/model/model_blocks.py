"""Metadata blocks of the model, and the lines in which they are listed."""
from model_bits import Bits, Content, Fault

PLACEHOLDER = 2**64 - 1
BLOCK_NAMES = ["STREAMINFO", "PADDING", "APPLICATION", "SEEKTABLE", "VORBIS_COMMENT", "CUESHEET", "PICTURE"]


def read_stream_info(content):
    word = int.from_bytes(content.bytes(18), "big")
    info = {"digest": content.bytes(16)}
    for name, width in (("total", 36), ("depth", 5), ("channels", 3), ("rate", 20), ("greatest_frame", 24),
                        ("least_frame", 24), ("greatest_block", 16), ("least_block", 16)):
        info[name] = word & ((1 << width) - 1)
        word >>= width
    info["channels"] += 1
    info["depth"] += 1
    if not 16 <= info["least_block"] <= info["greatest_block"] or info["depth"] < 4 or info["rate"] == 0:
        raise Fault(8)
    return info


def read_seek_table(content):
    points = []
    while content.left:
        point = tuple(content.number(size) for size in (8, 8, 2))
        if points and points[-1][0] >= point[0] and not points[-1][0] == point[0] == PLACEHOLDER:
            raise Fault(10)
        points.append(point)
    return points


def read_comments(content):
    vendor = content.text("little")
    count = content.number(4, "little")
    if 4 * count > content.left:
        raise Fault(7)
    comments = [content.text("little") for _ in range(count)]
    content.finish()
    return vendor, comments


def read_cue_sheet(content):
    def flags_and_reserved(size, flags):
        """Some flag bits, then a reserved field up to the end of `size` bytes, which is judged whole at its end."""
        word, width = content.number(size), 8 * size - flags
        if word & ((1 << width) - 1):
            raise Fault(11)
        return word >> width

    catalogue, lead_in = content.field(128), content.number(8)
    cd = flags_and_reserved(259, 1)
    count = content.number(1)
    if count == 0:
        raise Fault(11)
    if 36 * count > content.left:
        raise Fault(7)
    tracks = []
    for _ in range(count):
        offset, number, isrc = content.number(8), content.number(1), content.field(12)
        flags = flags_and_reserved(14, 2)
        indices = content.number(1)
        if 12 * indices > content.left:
            raise Fault(7)
        found = []
        for _ in range(indices):
            at, index = content.number(8), content.number(1)
            if content.number(3):
                raise Fault(11)
            found.append((at, index))
        tracks.append((offset, number, isrc, flags >> 1, flags & 1, found))
    content.finish()
    return catalogue, lead_in, cd, tracks


def read_picture(content):
    kind = content.number(4)
    media, text = content.text("big"), content.text("big")
    width, height, depth, colours = (content.number(4) for _ in range(4))
    data = content.text("big")
    content.finish()
    return kind, media, text, width, height, depth, colours, data


def read_block(bits, index, seen):
    """One metadata block: whether it is marked last, its type, its length and its fields."""
    head = bits.take(32)
    last, kind, length = head >> 31, head >> 24 & 127, head & 0xFFFFFF
    if index == 0 and kind != 0:
        raise Fault(5)
    if kind == 127:
        raise Fault(6)
    if kind in (0, 3, 4) and kind in seen:
        raise Fault(9)
    if (kind == 0 and length != 34) or (kind == 2 and length < 4) or (kind == 3 and length % 18):
        raise Fault(7)
    seen.add(kind)
    readers = {0: read_stream_info, 3: read_seek_table, 4: read_comments, 5: read_cue_sheet, 6: read_picture}
    content = Content(bits, length)
    fields = readers[kind](content) if kind in readers else content.bytes(length)
    return last, kind, length, fields


class Metadata:
    """Reads marker and blocks only; a fault is raised. `bits` stands at the first frame."""

    def __init__(self, data):
        self.blocks = []
        self.open(data)
        self.read_blocks()

    def open(self, data):
        self.bits = Bits(data)

    def at(self, place, call, *arguments):
        try:
            return call(*arguments)
        except Fault as fault:
            raise Fault(fault.number, fault.place or place) from None

    def read_blocks(self):
        if self.at("marker", self.bits.take, 32) != int.from_bytes(b"fLaC", "big"):
            raise Fault(4, "marker")
        seen, last = set(), 0
        while not last:
            index = len(self.blocks)
            last, *block = self.at(f"block {index}", read_block, self.bits, index, seen)
            self.blocks.append(block)


def shown(text):
    return "".join(chr(b) if 0x20 <= b <= 0x7E and b != 0x5C else f"\\x{b:02x}" for b in text)


def block_lines(index, kind, length, fields):
    name = BLOCK_NAMES[kind] if kind < 7 else f"TYPE_{kind}"
    yield f"block {index} {name} {length}"
    if kind == 0:
        yield ("  blocks {least_block} {greatest_block} frames {least_frame} {greatest_frame} rate {rate} "
               "channels {channels} depth {depth} samples {total}").format(**fields)
        yield f"  md5 {fields['digest'].hex()}"
    elif kind == 2:
        yield f"  id {fields[:4].hex()}"
    elif kind == 3:
        for sample, offset, size in fields:
            yield "  placeholder" if sample == PLACEHOLDER else f"  point {sample} {offset} {size}"
    elif kind == 4:
        yield f"  vendor {shown(fields[0])}"
        for comment in fields[1]:
            yield f"  comment {shown(comment)}"
    elif kind == 5:
        catalogue, lead_in, cd, tracks = fields
        text = shown(catalogue.rstrip(b"\0"))
        yield f"  catalogue {text} lead_in {lead_in} cd {cd}"
        for offset, number, isrc, data, pre, indices in tracks:
            text = shown(isrc.rstrip(b"\0"))
            yield f"  track {number} offset {offset} isrc {text} type {'data' if data else 'audio'} pre {pre}"
            for at, index in indices:
                yield f"  index {index} offset {at}"
    elif kind == 6:
        picture, media, text, width, height, depth, colours, data = fields
        yield (f"  type {picture} media {shown(media)} text {shown(text)} size {width}x{height} depth {depth} "
               f"colours {colours} data {len(data)}")


def listing(reader):
    return [line for index, block in enumerate(reader.blocks) for line in block_lines(index, *block)]
