"""Streams that the reference takes and the program refuses: the vector, and why in plain words; then those that it refuses with `--lax`.

The other way round no case is known. Each case is asked of both, so that this table stays true.
"""
STRICT_INFO = "STREAMINFO outside the standard's limits is refused; the reference reads on"
STRICT_CONTENT = "the content of every block is read to its last byte; the reference's test skips blocks that it does not need"
ONE_FORM = "a coded number has its shortest form only, and 31 bits with fixed blocking; the reference takes longer ones"
SUBSET = "outside the streamable subset"
IN_ORDER = "frames follow one another without a gap and keep their blocking; the reference does not compare numbers"
SIZES = "blocks keep the sizes that STREAMINFO and the first frame state; the reference does not compare them"
PAGES = "every page is read and judged; the reference skips pages that it cannot use and goes on after them"
MARKS = "page marks, numbers and the serial number are judged; the reference does not compare them"
ENDING = "the last page is marked last and nothing follows it; the reference does not ask for that"
ONE_EACH = "a packet holds one block or one frame, to its last byte, and no packet is empty; the reference does not ask for that"

CASES = {
    "info-least-15": STRICT_INFO, "info-least-over": STRICT_INFO,
    "info-rate-0": "a rate of 0 states no audio; the reference takes it",
    "forbidden-type": "block type 127 is forbidden; the reference skips the block",
    "comments-twice": "a second comment block is refused; the reference keeps both",
    "comments-left-over": STRICT_CONTENT, "comments-3": STRICT_CONTENT, "comments-0": STRICT_CONTENT,
    "placeholder-first": "seek points rise and placeholders stand last; the reference does not ask for that",
    "points-equal": "seek points rise; the reference does not ask for that",
    "sheet-count": STRICT_CONTENT, "sheet-no-track": STRICT_CONTENT, "sheet-short": STRICT_CONTENT,
    "sheet-short-reserved": STRICT_CONTENT, "sheet-reserved": STRICT_CONTENT, "sheet-track-reserved": STRICT_CONTENT,
    "sheet-index-reserved": STRICT_CONTENT, "sheet-indices": STRICT_CONTENT, "sheet-left-over": STRICT_CONTENT,
    "picture-media": STRICT_CONTENT, "picture-left-over": STRICT_CONTENT,
    "number-long": ONE_FORM, "number-3-long": ONE_FORM, "number-4-long": ONE_FORM, "number-lead-FE-fixed": ONE_FORM,
    "size-65536": "a stored block size of 65535, which stands for 65536, is forbidden",
    "rate-as-stated": SUBSET, "depth-as-stated": SUBSET, "size-8192-at-44100": SUBSET, "size-16385-at-96000": SUBSET,
    "size-over-greatest": SIZES, "sizes-short-inside": SIZES, "sizes-longer": SIZES, "sizes-below-least": SIZES,
    "variable-short-inside": SIZES,
    "numbers-gap": IN_ORDER, "variable-wrong-first": IN_ORDER, "variable-then-fixed": IN_ORDER,
    "tag-before": "only the stream itself is read, no tag before it; the reference skips an ID3 tag",
    "ogg-capture": PAGES, "ogg-version": PAGES, "ogg-sum": PAGES, "ogg-sum-and-serial": PAGES, "ogg-long-lacing-cut": PAGES,
    "ogg-serial": MARKS, "ogg-serial-and-number": MARKS, "ogg-number": MARKS, "ogg-continued": MARKS, "ogg-first-again": MARKS,
    "ogg-not-first": MARKS, "ogg-page-left-out": MARKS, "ogg-packet-not-continued": MARKS,
    "ogg-two-lacings": "the first page holds the first packet alone; the reference does not ask for that",
    "ogg-last-too-early": ENDING, "ogg-byte-after": ENDING, "ogg-not-last": ENDING, "ogg-page-cut-off": ENDING,
    "ogg-magic": "the mapping's version is 1.0; the reference does not compare it",
    "ogg-block-due": ONE_EACH, "ogg-no-bytes-for-frame": ONE_EACH, "ogg-no-bytes-at-end": ONE_EACH,
    "ogg-no-bytes-for-block": ONE_EACH, "ogg-block-and-frame": ONE_EACH,
}

EMPTY = "the first partition has a value at least; the reference takes one of as many samples as the predictor's order"
DEEP = "samples that the depth cannot hold are refused; the reference lets them through at depths of 31 and 32 bits"
LAX_CASES = {
    "lax-codes-0-gap": IN_ORDER, "lax-size-65536": "a stored block size of 65535, which stands for 65536, is forbidden",
    "lax-size-8192-over-greatest": SIZES, "lax-sizes-long-longer": SIZES, "lax-sizes-long-after": SIZES, "lax-sizes-long-short-inside": SIZES,
    "lax-sizes-long-below-least": SIZES, "lax-whole-rate-0": "a rate of 0 states no audio; the reference takes it",
    "lax-depth-31-mid-too-large": DEEP, "lax-depth-32-mid-too-large": DEEP, "lax-depth-32-too-small": DEEP,
    "lax-ogg-partition-15-bad-page": PAGES, **{f"lax-partition-{order}-first-empty": EMPTY for order in range(9, 16)},
}
"""Names of `vectors_lax.py`."""
