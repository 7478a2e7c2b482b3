"""Cases about reading: what `test`, `decode` and `list` say of a stream, in the subset or, by `--lax`, outside it too."""
import os

import folders  # noqa: F401  (the path of the modules below)
import model
import program
import reference
from model import SUBSET
from program import Wrong, expect, read


def test_case(entry, profile=SUBSET):
    """`test` tells the frames that the reference finds and the samples that were put in."""
    expect(program.answer(entry.path, profile), f"frames {len(reference.frame_places(entry.path))} samples {entry.length}")


def decode_case(entry, bench, profile=SUBSET):
    """`decode` gives the samples that were put in, and those that the reference gives."""
    out = bench.path(".raw")
    program.succeeds("decode", *profile.words, entry.path, out)
    found = read(out)
    os.remove(out)
    if found != read(entry.raw):
        raise Wrong("decoded samples differ from those that were encoded")
    if found != reference.decoded(entry.path, entry.bits):
        raise Wrong("decoded samples differ from those that the reference decodes")


def list_case(entry, profile=SUBSET):
    """`list` tells the metadata as the reference's tool does."""
    found = program.succeeds("list", *profile.words, entry.path).decode("ascii").splitlines()
    difference = reference.same_lines(found, reference.listing(entry.path))
    if difference:
        raise Wrong(difference)
    expect(found, model.listing(model.metadata_of(read(entry.path))))


def vector_case(data, due, bench, profile=SUBSET):
    path = bench.put(data)
    expect(program.answer(path, profile), due)
    os.remove(path)


def model_case(data, bench, profile=SUBSET):
    vector_case(data, model.answer(data, profile), bench, profile)


def expect_ending(path, status, err, reader):
    """A job that prints no answer of its own ends as the model says: without a word, or with the fault's line."""
    due = reader.result()
    expect(program.fault_of(path, status, err) if status or err else "accepted", "accepted" if due.startswith("frames ") else due)


def list_before_fault(data, bench, profile=SUBSET):
    """`list` prints the blocks before a fault, and the fault is that of `test`."""
    path, reader = bench.put(data), model.reader_of(data, profile)
    status, out, err = program.call("list", *profile.words, path)
    expect(out.decode("ascii").splitlines(), model.listing(reader))
    expect_ending(path, status, err, reader)
    os.remove(path)


def decode_before_fault(data, bench, profile=SUBSET):
    """`decode` writes no sample of the frame that is refused or of later ones. OUT is there, though it may be empty."""
    path, out, reader = bench.put(data), bench.path(".raw"), model.reader_of(data, profile)
    status, _, err = program.call("decode", *profile.words, path, out)
    expect_ending(path, status, err, reader)
    found, due = read(out), b"".join(reader.raw)
    if not due.startswith(found) or (status == 0 and found != due):
        raise Wrong(f"'decode' writes {found[:40].hex()}, the model {due[:40].hex()}")
    os.remove(path)
    os.remove(out)


def difference_case(data, due, bench, profile=SUBSET):
    """The reference takes a stream that the program refuses."""
    path = bench.put(data)
    if not reference.accepts(path):
        raise Wrong("the reference refuses it too: the table of differences is out of date")
    expect(program.answer(path, profile), due)
