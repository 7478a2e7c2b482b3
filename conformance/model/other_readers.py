"""What the reference, metaflac and mutagen read of the blocks of a native file, beside what the blocks are."""
import re
import struct
import subprocess

from program import expect

PADDING, SEEK_TABLE, COMMENTS, PICTURE = 1, 3, 4, 6
# (after the dump of an APPLICATION block there is no line end)
HEAD = re.compile(rb"METADATA block #(\d+)\n  type: (\d+) \(.*\)\n  is last: (true|false)\n  length: (\d+)$", re.MULTILINE)


def comments_in(body):
    """The vendor and the comments of a block."""
    (size,) = struct.unpack_from("<I", body)
    vendor, at = body[4:4 + size], 8 + size
    (count,) = struct.unpack_from("<I", body, at - 4)
    found = []
    for _ in range(count):
        (size,) = struct.unpack_from("<I", body, at)
        found.append(body[at + 4:at + 4 + size])
        at += 4 + size
    return vendor, found


def by_metaflac(path, blocks):
    """metaflac reads these blocks: their numbers, types and lengths, which is the last; and the comments, byte for byte."""
    listed = subprocess.run(["metaflac", "--list", "--no-utf8-convert", path], capture_output=True, check=True).stdout
    found = [(int(n), int(kind), last == b"true", int(size)) for n, kind, last, size in HEAD.findall(listed)]
    expect(found, [(n, kind, n == len(blocks) - 1, len(body)) for n, (kind, body) in enumerate(blocks)])
    texts = [text for kind, body in blocks if kind == COMMENTS for text in comments_in(body)[1]]
    if any(kind == COMMENTS for kind, _ in blocks):
        done = subprocess.run(["metaflac", "--no-utf8-convert", "--export-tags-to=-", path], capture_output=True, check=True)
        expect(done.stdout, b"".join(text + b"\n" for text in texts))


def by_mutagen(path, blocks):
    """mutagen reads these blocks: their types in order; comments as names and values; of padding the length, and of every other block
    the bytes that it would write again."""
    from mutagen.flac import FLAC
    read = FLAC(path)
    expect([it.code for it in read.metadata_blocks], [kind for kind, _ in blocks])
    for it, (kind, body) in zip(read.metadata_blocks, blocks):
        if kind == PADDING:
            expect(it.length, len(body))
        elif kind == COMMENTS:
            vendor, texts = comments_in(body)
            pairs = [text.partition(b"=")[::2] for text in texts]
            expect(it.vendor, vendor.decode("utf-8", "replace"))
            expect([*it], [(name.decode("utf-8", "replace"), value.decode("utf-8", "replace")) for name, value in pairs])
        else:
            expect(it.write(), body)


def read_by_others(path, blocks):
    """The reference tests the file, and both read these blocks."""
    expect(subprocess.run(["flac", "-s", "-t", path], capture_output=True, check=False).returncode, 0)
    by_metaflac(path, blocks)
    by_mutagen(path, blocks)
