#!/usr/bin/env python3
"""A plain reader of FLAC streams, native and Ogg (RFC 9639), written to be compared with.

usage: model.py [--lax] FILE                prints `frames F samples S`, or the first fault as `PLACE: NUMBER NAME`
       model.py [--lax] --list FILE         prints the metadata in the lines of `flac list`, then the fault, if there is one
       model.py [--lax] --decode FILE OUT   writes the samples, interleaved, little-endian, each in whole bytes

With --lax all streams are read, otherwise those of the streamable subset (section 7). It goes through the bits from the front and
stops at the first field that breaks a rule. Where one field breaks several rules at its last bit, the rules are asked in a fixed
order, which is the order of the `if`s below. It is no fast reader.
Status: 0 for a good stream, 1 for a fault, 2 for a wrong command line.
"""
import sys

from model_bits import FRAME_LIMIT, NAMES, Fault, crc
from model_blocks import Metadata, listing
from model_frames import LAX, SUBSET, Reader
from model_pages import OggReader

__all__ = ["FRAME_LIMIT", "LAX", "NAMES", "SUBSET", "Fault", "Metadata", "crc", "listing", "metadata_of", "reader_of", "answer"]


def reader_of(data, profile=SUBSET):
    """A stream whose first byte is `O` is read as Ogg, any other as native."""
    return OggReader(data, profile) if data[:1] == b"O" else Reader(data, profile)


def metadata_of(data):
    """The blocks of a stream whose metadata is good, native or Ogg."""
    return OggReader(data) if data[:1] == b"O" else Metadata(data)


def answer(data, profile=SUBSET):
    return reader_of(data, profile).result()


def main(words):
    profile = LAX if words[:1] == ["--lax"] else SUBSET
    words = words[len(profile.words):]
    mode = words.pop(0) if words and words[0].startswith("--") else ""
    if mode not in ("", "--list", "--decode") or len(words) != (2 if mode == "--decode" else 1):
        print(__doc__, file=sys.stderr)
        return 2
    with open(words[0], "rb") as file:
        reader = reader_of(file.read(), profile)
    if mode == "--list":
        print("\n".join(listing(reader)))
    if mode == "--decode":
        with open(words[1], "wb") as file:
            file.write(b"".join(reader.raw))
    if reader.fault or not mode:
        print(reader.result())
    return 1 if reader.fault else 0


if __name__ == "__main__":
    sys.exit(main(sys.argv[1:]))
