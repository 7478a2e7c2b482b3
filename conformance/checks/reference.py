"""What the reference tools say of a file: frames, samples and metadata, in the forms of the program under test."""
import os
import re
import struct
import tempfile

import folders  # noqa: F401  (the path of the modules below)
import sounds
from corpus import REFERENCE, run

ANY = "\0any"
"""Stands in a line for what the reference does not tell."""


def accepts(path):
    """Whether the reference's own test of a file passes."""
    words = [REFERENCE, "-t", "-s", path] + (["--ogg"] if path.endswith(".oga") else [])
    return run(*words).returncode == 0


def analysis(path):
    """The reference's own words for each frame and subframe."""
    with tempfile.TemporaryDirectory() as folder:
        out = os.path.join(folder, "out.ana")
        run(REFERENCE, "-a", "-s", "-f", "-o", out, path)
        with open(out, encoding="ascii", errors="replace") as file:
            return file.read()


def frame_places(path):
    """For each frame: its offset from the start of the file, its bits and its block size, by the reference's analysis."""
    lines = re.findall(r"^frame=\d+\toffset=(\d+)\tbits=(\d+)\tblocksize=(\d+)", analysis(path), re.M)
    return [tuple(map(int, line)) for line in lines]


def partition_orders(path):
    """For each frame the greatest partition order of its subframes, 0 if none has partitions."""
    frames = re.split(r"^frame=", analysis(path), flags=re.M)[1:]
    return [max(map(int, re.findall(r"partition_order=(\d+)", text)), default=0) for text in frames]


def limits(path):
    """Which block sizes, orders of linear predictors and partition orders occur in a file: pairs of name and value."""
    text = analysis(path)
    rows = (("block size", r"^frame=.*\tblocksize=(\d+)"), ("linear order", r"type=LPC\torder=(\d+)"), ("partition order", r"partition_order=(\d+)"))
    return {(name, int(value)) for name, pattern in rows for value in re.findall(pattern, text, re.M)}


def decoded(path, bits):
    """The samples as raw bytes, or None where the reference refuses. Depths 12 and 20 go by a WAV file."""
    with tempfile.TemporaryDirectory() as folder:
        out = os.path.join(folder, "out")
        raw = bits in (8, 16, 24, 32)
        form = ["--force-raw-format", "--endian=little", "--sign=signed"] if raw else []
        if run(REFERENCE, "-d", "-s", "-f", *form, "-o", out, path).returncode != 0:
            return None
        with open(out, "rb") as file:
            data = file.read()
    if raw:
        return data
    at = 12
    while data[at:at + 4] != b"data":
        at += 8 + struct.unpack("<I", data[at + 4:at + 8])[0]
    return unshifted(data[at + 8:at + 8 + struct.unpack("<I", data[at + 4:at + 8])[0]], bits)


def unshifted(data, bits):
    """Samples that stand in the upper bits of whole bytes, put into the lower ones."""
    width = (bits + 7) // 8
    if width == 1:
        data = bytes(byte ^ 0x80 for byte in data)
    values = [int.from_bytes(data[at:at + width], "little", signed=True) >> (8 * width - bits) for at in range(0, len(data), width)]
    return sounds.packed(values, width)


def shown(text):
    """A text as the program shows it: every byte outside printable ASCII, and the backslash, as `\\x` and two digits."""
    return "".join(chr(b) if 0x20 <= b <= 0x7E and b != 0x5C else f"\\x{b:02x}" for b in text)


def listing(path):
    """The lines of the program's `list`, made of what `metaflac --list` prints."""
    text = run("metaflac", "--list", "--no-utf8-convert", path).stdout
    result = []
    for part in re.split(rb"METADATA block #(?=\d+\n  type: )", text)[1:]:
        lines = part.split(b"\n")
        index = lines[0].decode()
        head = dict(re.findall(rb"^  (type|length): (.*)$", part, re.M)[:2])
        number, name = re.match(rb"(\d+) \((\w+)\)", head[b"type"]).groups()
        label = f"TYPE_{number.decode()}" if int(number) > 6 else name.decode()
        result.append(f"block {index} {label} {head[b'length'].decode()}")
        result.extend(LINES.get(int(number), lambda body: [])(part))
    return result


def field(part, name, default=ANY):
    found = re.search(rb"^ +" + name + rb": ?(.*)$", part, re.M)
    return found.group(1) if found else default.encode()


def number(part, name):
    return re.match(rb"\d*", field(part, name)).group().decode() or ANY


def stream_info_lines(part):
    names = (b"minimum blocksize", b"maximum blocksize", b"minimum framesize", b"maximum framesize", b"sample_rate", b"channels",
             b"bits-per-sample", b"total samples")
    yield "  blocks {} {} frames {} {} rate {} channels {} depth {} samples {}".format(*(number(part, name) for name in names))
    yield f"  md5 {field(part, b'MD5 signature').decode()}"


def application_lines(part):
    yield f"  id {field(part, b'application ID').decode()}"


def seek_lines(part):
    for line in re.findall(rb"^ +point \d+: (.*)$", part, re.M):
        found = re.match(rb"sample_number=(\d+), stream_offset=(\d+), frame_samples=(\d+)", line)
        yield "  point " + " ".join(g.decode() for g in found.groups()) if found else "  placeholder"


def comment_lines(part):
    yield "  vendor " + shown(field(part, b"vendor string"))
    for line in re.findall(rb"^    comment\[\d+\]: (.*)$", part, re.M):
        yield "  comment " + shown(line)


def sheet_lines(part):
    head, *tracks = re.split(rb"^    track\[\d+\]$", part, flags=re.M)
    truth = {b"true": "1", b"false": "0"}
    cd = truth[field(head, b"is CD")]
    yield f"  catalogue {shown(field(head, b'media catalog number'))} lead_in {number(head, b'lead-in')} cd {cd}"
    for track in tracks:
        top, *indices = re.split(rb"^        index\[\d+\]$", track, flags=re.M)
        isrc = field(top, b"ISRC")
        kind = {b"AUDIO": "audio", b"DATA": "data"}.get(field(top, b"type"), ANY)
        told = ANY if isrc == ANY.encode() else shown(isrc)
        pre = truth.get(field(top, b"pre-emphasis"), ANY)
        yield f"  track {number(top, b'number')} offset {number(top, b'offset')} isrc {told} type {kind} pre {pre}"
        for index in indices:
            yield f"  index {number(index, b'number')} offset {number(index, b'offset')}"


def picture_lines(part):
    kind = re.findall(rb"^  type: (\d+)", part, re.M)[1].decode()
    size = f"{number(part, b'width')}x{number(part, b'height')}"
    yield (f"  type {kind} media {shown(field(part, b'MIME type'))} text {shown(field(part, b'description'))} size {size} "
           f"depth {number(part, b'depth')} colours {number(part, b'colors')} data {number(part, b'data length')}")


LINES = {0: stream_info_lines, 2: application_lines, 3: seek_lines, 4: comment_lines, 5: sheet_lines, 6: picture_lines}


def same_lines(found, due):
    """The first difference of two listings, or None; `ANY` in what is due stands for any word."""
    for index, line in enumerate(due):
        if index >= len(found):
            return f"line '{line}' is missing"
        pattern = re.escape(line).replace(re.escape(ANY), ".*")
        if not re.fullmatch(pattern, found[index]):
            return f"line '{found[index]}', the reference tells '{line.replace(ANY, '?')}'"
    return f"line '{found[len(due)]}' is too much" if len(found) > len(due) else None
