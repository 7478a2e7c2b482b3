/* FLAC streams in memory: verified, described, decoded and encoded by code that is proved; and WAV files of their samples.
 *
 * The calls of version 0.5, for C99 and C++ on x86-64. docs/c.md has a worked example.
 *
 * Link with libflac_c.a, which tools/build --library makes in crates/flac_c/out, and with liblibc_c.a of the toolchain, which passes allocations on
 * to malloc, realloc and free. The Makefile beside this file has the lines.
 *
 * What is proved holds if the caller keeps to these rules, which nothing checks:
 * - No pointer is null, also if its length is 0.
 * - A pointer and its length are memory of the caller's that stays in place for the call: readable, and writable if it is not const.
 *   No two pointers of a call name overlapping memory that the call writes.
 * - The length of a buffer in bytes is at most 2^63 - 1.
 * - malloc, realloc and free are of one allocator, and malloc aligns as C wants it. No call is made in a signal handler.
 *
 * Memory: each call frees what it allocates before it returns, and keeps no pointer. If an allocation fails, the call returns 2.
 * Threads: there is no state but the caller's memory, so that calls may run at once in several threads.
 *
 * Numbers: each call that reads or encodes returns 0, or the number of a reason (docs/errors.md); flac_proved_strerror has its text.
 * flac_proved_bound, flac_proved_strerror and flac_proved_place return a number of bytes.
 *
 * Profiles: a call whose name ends in _in takes a profile, or options with one: 0 stands for the streamable subset (RFC 9639, section 7), any
 * other number for all streams. The call without _in does the same for the subset. Metadata is the same in both.
 *
 * Buffers: a call that fills a buffer of `room` elements stores in *len how many elements there are in all. It writes them to the front of
 * the buffer, as far as there is room, and nothing after that; the rest of the buffer stays as it is. So *len > room means that the buffer
 * was too small. If the call returns another number than 0, the buffer and *len are as they were.
 */
#ifndef FLAC_PROVED_H
#define FLAC_PROVED_H

#include <stddef.h>
#include <stdint.h>

#ifdef __cplusplus
extern "C" {
#endif

/* Where and why a stream was refused; all 0 if it was not. */
struct flac_proved_fault {
    uint32_t number; /* the number of the reason, as it was returned */
    uint32_t place;  /* 1 the marker, 2 a metadata block, 3 a frame, 4 a page of an Ogg stream, 5 the end */
    uint64_t index;  /* which block, frame or page, counted from 0 */
};

/* Copies number and name of a reason, as `26 FrameCheck`, to the front of a buffer, as far as there is room, and returns the length
 * of this text. No byte 0 is added; the rest of the buffer stays as it is. A number that is no reason has the empty text. */
size_t flac_proved_strerror(uint32_t number, uint8_t *out, size_t room);

/* The same of a kind of place: `marker`, `block`, `frame`, `page` or `end`. */
size_t flac_proved_place(uint32_t place, uint8_t *out, size_t room);

/* ---- Reading a stream: `bytes` and `size` are all of it, native or Ogg (RFC 9639, sections 6 and 10.1). */

/* Verifies that bytes are one whole stream: its layout, its checks, and the number and the MD5 of its samples.
 * Returns 0, or the number of the first fault, and fills in the fault. */
uint32_t flac_proved_verify(const uint8_t *bytes, size_t size, struct flac_proved_fault *fault);
uint32_t flac_proved_verify_in(const uint8_t *bytes, size_t size, uint32_t profile, struct flac_proved_fault *fault);

/* What a stream says of itself: STREAMINFO (RFC 9639, section 8.2), and how many comments it has (section 8.6). */
struct flac_proved_stream_info {
    uint64_t total;          /* samples of each channel, 0 if unknown */
    uint64_t comments;       /* how many comments there are */
    uint32_t rate;           /* samples a second */
    uint32_t channels;       /* how many channels there are, 1 to 8 */
    uint32_t bits;           /* bits a sample, 4 to 32 */
    uint32_t least_block;    /* the smallest block size in samples */
    uint32_t greatest_block; /* the greatest block size in samples */
    uint32_t least_frame;    /* the smallest frame size in bytes, 0 if unknown */
    uint32_t greatest_frame; /* the greatest frame size in bytes, 0 if unknown */
    uint8_t digest[16];      /* the MD5 of all samples, zeros if unknown */
};

/* Reads the metadata at the beginning of a stream. Frames are not verified, and `bytes` may be a prefix of the stream.
 * Returns 0, or the number of the fault for which there is no STREAMINFO; `info` is then as it was. */
uint32_t flac_proved_info(const uint8_t *bytes, size_t size, struct flac_proved_stream_info *info, struct flac_proved_fault *fault);

/* Copies the comment of an index, counted from 0, to a buffer: `NAME=VALUE` in UTF-8 without a byte 0 at its end. It is empty if there is
 * no such comment. Returns 0, or the number of the fault for which there is no STREAMINFO. Nothing judges whether it is UTF-8. */
uint32_t flac_proved_comment(const uint8_t *bytes, size_t size, size_t index, uint8_t *out, size_t room, size_t *len,
                             struct flac_proved_fault *fault);

/* Copies the name of the program that wrote a stream, in the same way; it is empty if the stream has no comments. */
uint32_t flac_proved_vendor(const uint8_t *bytes, size_t size, uint8_t *out, size_t room, size_t *len, struct flac_proved_fault *fault);

/* Decodes a stream, and copies its samples to a buffer: those of each channel at the first index, then those at the next, and so on.
 * Returns 0 only if the bytes are one whole stream, as flac_proved_verify does; otherwise the number of the first fault.
 * flac_proved_info tells before how many samples there are: total * channels, unless total is 0. */
uint32_t flac_proved_samples(const uint8_t *bytes, size_t size, int32_t *out, size_t room, size_t *len, struct flac_proved_fault *fault);
uint32_t flac_proved_samples_in(const uint8_t *bytes, size_t size, uint32_t profile, int32_t *out, size_t room, size_t *len,
                                struct flac_proved_fault *fault);

/* The same as bytes: each sample has `width` bytes, 1 to 4, the lowest first, in two's complement. If width is 0 it has the fewest bytes
 * that hold its bits; these are the bytes that `flac decode` writes. If width is smaller than that, the higher bytes are left out. A width
 * above 4 stands for 4. */
uint32_t flac_proved_decode(const uint8_t *bytes, size_t size, uint32_t width, uint8_t *out, size_t room, size_t *len,
                            struct flac_proved_fault *fault);
uint32_t flac_proved_decode_in(const uint8_t *bytes, size_t size, uint32_t width, uint32_t profile, uint8_t *out, size_t room, size_t *len,
                               struct flac_proved_fault *fault);

/* ---- The native stream in an Ogg stream, for the calls that read native streams alone. */

/* Copies the native stream that is in the packets of an Ogg stream to a buffer: the bytes of all packets from the marker in the mapping on
 * (RFC 9639, section 10.1). It is shorter than the Ogg stream. Of a stream it is one of the same metadata blocks and frames; pages and the
 * mapping are judged, and blocks and frames by the calls that read them.
 * Returns 0, or the number of the fault of a page or of the mapping: 31 if the bytes are no Ogg stream. */
uint32_t flac_proved_native(const uint8_t *bytes, size_t size, uint8_t *out, size_t room, size_t *len, struct flac_proved_fault *fault);

/* ---- The metadata blocks of a native stream. An Ogg stream is refused at the marker: flac_proved_native gives the native stream in it. */

/* Some bytes of a stream, which are not copied: `len` bytes from bytes + offset on. */
struct flac_proved_span {
    uint64_t offset;
    uint64_t len;
};

/* A picture (RFC 9639, section 8.8). */
struct flac_proved_picture {
    uint32_t kind;    /* what it shows, by the numbers of section 8.8: 3 is the front cover */
    uint32_t width;   /* in pixels, 0 if unknown */
    uint32_t height;  /* in pixels, 0 if unknown */
    uint32_t depth;   /* bits a pixel, 0 if unknown */
    uint32_t colours; /* how many colours an indexed picture uses, 0 for others */
    struct flac_proved_span media;       /* the media type, as image/png, or --> if the data is a URI */
    struct flac_proved_span description; /* in UTF-8; nothing judges whether it is */
    struct flac_proved_span data;        /* the data of the picture */
};

/* A metadata block (RFC 9639, section 8.1). */
struct flac_proved_block {
    uint64_t offset; /* bytes from the first byte of the stream to its header of 4 bytes; its content begins at offset + 4 */
    uint64_t length; /* bytes of its content */
    uint64_t parts;  /* how many comments, seek points of 18 bytes each (section 8.5), or tracks of a cue sheet it has; 0 for other types */
    uint32_t kind;   /* 0 STREAMINFO, 1 padding, 2 an application, 3 a seek table, 4 comments, 5 a cue sheet, 6 a picture; to 126 reserved */
    uint32_t last;   /* 1 if it is the last block, else 0 */
    struct flac_proved_picture picture; /* of type 6; zeros for other types */
};

/* Lists all metadata blocks of a native stream in their order. Each was read and keeps the rules of its type. Frames are not read, and
 * `bytes` may be a prefix of the stream that has all blocks.
 * Returns 0, or the number of the fault of the marker or of a block. */
uint32_t flac_proved_blocks(const uint8_t *bytes, size_t size, struct flac_proved_block *out, size_t room, size_t *len,
                            struct flac_proved_fault *fault);

/* ---- Reading a native stream frame by frame. An Ogg stream is refused at the marker: flac_proved_native gives the native stream in it. */

/* Where the next frame begins, and what frames are read by: plain numbers, which the caller may copy and keep. No memory belongs to it.
 * A cursor is made by flac_proved_start or flac_proved_seek, and is used with the same bytes. */
struct flac_proved_cursor {
    uint64_t offset;                     /* bytes from the first byte of the stream to the next frame; `size` at the end */
    uint64_t frames;                     /* how many frames were read since the cursor was made */
    uint64_t sample;                     /* the number of the first sample of the next frame, counted in each channel */
    struct flac_proved_stream_info info; /* what the stream says of itself */
};

/* Reads the metadata of a native stream, and makes a cursor at its first frame.
 * Returns 0, or the number of the fault for which there is none; the cursor is then as it was. */
uint32_t flac_proved_start(const uint8_t *bytes, size_t size, struct flac_proved_cursor *cursor, struct flac_proved_fault *fault);

/* The same, but the cursor is where the seek table says that a frame begins: that of the last point at or before `sample` (RFC 9639,
 * section 8.5), or the first frame if there is no such point. A table may be wrong: whether a frame is there is found by flac_proved_next.
 * The frame that holds the sample is this one or a later one: read on while cursor->sample is at most `sample`. */
uint32_t flac_proved_seek(const uint8_t *bytes, size_t size, uint64_t sample, struct flac_proved_cursor *cursor,
                          struct flac_proved_fault *fault);

/* Reads the frame at a cursor, and copies its samples to a buffer in the order of flac_proved_samples. *len is how many it has, at most
 * info.greatest_block * info.channels. If there is room for all of them the cursor goes to the next frame; if not, nothing is written, and
 * the cursor stays: call again with a larger buffer. At the end, if cursor->offset is `size`, *len is 0.
 * Returns 0, or the number of the fault, at the place of the frame, counted from where the cursor was made; the cursor is then as it was.
 * It is 8 if info is not as flac_proved_start or flac_proved_seek left it, and breaks a rule of STREAMINFO; and 2 if an allocation fails.
 * A frame is judged by itself and by STREAMINFO: that frames are numbered one after another, and the number and the MD5 of all samples, are
 * judged by the calls that read the whole stream. */
uint32_t flac_proved_next(const uint8_t *bytes, size_t size, struct flac_proved_cursor *cursor, int32_t *out, size_t room, size_t *len,
                          struct flac_proved_fault *fault);
uint32_t flac_proved_next_in(const uint8_t *bytes, size_t size, uint32_t profile, struct flac_proved_cursor *cursor, int32_t *out, size_t room,
                             size_t *len, struct flac_proved_fault *fault);

/* Passes frames from a cursor on, which goes to the frame after them: at most `count` of them, and none that ends after the sample of the
 * number `sample`, which is counted in each channel. With UINT64_MAX for either the other one decides: after flac_proved_start the cursor
 * goes to the frame of the number `count`, and after flac_proved_seek to the frame that holds `sample`; to the end, if there is none. If a
 * seek table named a frame after the sample, the cursor stays there.
 * Returns 0, or what flac_proved_next returns of the first frame that is refused; the cursor is then as it was. */
uint32_t flac_proved_pass(const uint8_t *bytes, size_t size, uint64_t count, uint64_t sample, struct flac_proved_cursor *cursor,
                          struct flac_proved_fault *fault);
uint32_t flac_proved_pass_in(const uint8_t *bytes, size_t size, uint32_t profile, uint64_t count, uint64_t sample,
                             struct flac_proved_cursor *cursor, struct flac_proved_fault *fault);

/* ---- Writing a stream. */

/* What samples are, and how they are encoded. */
struct flac_proved_settings {
    uint32_t rate;       /* samples a second: 1 to 65535, or a multiple of 10 up to 655350 */
    uint32_t channels;   /* how many channels there are, 1 to 8 */
    uint32_t bits;       /* bits a sample: 8, 12, 16, 20, 24 or 32 */
    uint32_t block_size; /* samples of each channel in a frame: 16 to 4608, or to 16384 above 48000 Hz */
    uint32_t seek_every; /* samples from one point of the seek table to the next; 0: no seek table */
    uint32_t ogg;        /* 0: a native stream; otherwise an Ogg stream, which has no seek table */
    uint32_t serial;     /* the serial number of an Ogg stream */
};

/* A text: bytes of UTF-8, without a byte 0 at its end. Nothing judges whether it is UTF-8. */
struct flac_proved_text {
    const uint8_t *bytes;
    size_t len;
};

/* The comments that a stream gets (RFC 9639, section 8.6). */
struct flac_proved_tags {
    struct flac_proved_text vendor;      /* the name of the program that writes the stream */
    const struct flac_proved_text *list; /* the comments, each NAME=VALUE */
    size_t count;                        /* how many comments there are */
};

/* Encodes `count` samples, which stand in the order of flac_proved_samples, and copies the stream to a buffer: STREAMINFO, the comments,
 * the seek table if one is asked for, and the frames, each the shortest of the forms that the encoder knows. Before it is copied the stream
 * is decoded again.
 * If *len > room, call again with a buffer of *len bytes: the stream is the same each time.
 * Returns 0, or the number of the first reason of these:
 *   42 channels is 0 or above 8               43 count is no multiple of channels
 *   40 no frame header has a code for rate    41 bits is none of the above
 *   44 a sample does not fit its bits         45 2^36 samples of each channel or more
 *   46 block_size is out of its range         45 more than 2^31 frames
 *   47 more than 932067 points in the seek table
 *   7  the comments have more than 2^24 - 1 bytes
 *   37 seek_every and ogg are both not 0
 * or 2 if an allocation fails. */
uint32_t flac_proved_encode(const struct flac_proved_settings *settings, const int32_t *samples, size_t count,
                            const struct flac_proved_tags *tags, uint8_t *out, size_t room, size_t *len);

/* In which profile samples are encoded, and with how much effort. */
struct flac_proved_options {
    uint32_t profile; /* 0: the streamable subset; otherwise all streams: rate is 1 to 1048575, bits are 4 to 32, block_size is 16 to 65535 */
    uint32_t effort;  /* 0: the fixed predictors alone; 1: and the linear ones that a quick search finds for each block; 2: a longer search */
};

/* The same by options; with zeros it writes the stream of flac_proved_encode. A search makes no stream longer. */
uint32_t flac_proved_encode_in(const struct flac_proved_settings *settings, const struct flac_proved_options *options, const int32_t *samples,
                               size_t count, const struct flac_proved_tags *tags, uint8_t *out, size_t room, size_t *len);

/* A number of bytes that is enough for the buffer of flac_proved_encode: no stream of `count` samples with these settings and these comments
 * has more, in either profile and by any search. It is computed by plain arithmetic: the bytes of the samples as they are, and of what is around them. Settings that are refused
 * may have any bound; it stops at 2^64 - 1. */
uint64_t flac_proved_bound(const struct flac_proved_settings *settings, size_t count, const struct flac_proved_tags *tags);

/* ---- WAV files. Nothing of them is in a stream that the calls above write: only their samples are. */

/* A WAV file of PCM samples: their format, and where they are. */
struct flac_proved_wave {
    uint64_t offset;   /* bytes from the first byte of the file to the first sample */
    uint64_t len;      /* bytes of all samples */
    uint32_t rate;     /* samples a second */
    uint32_t channels; /* how many channels there are, 1 to 8 */
    uint32_t bits;     /* bits a sample of a stream has: the bits that count, if they are 8, 12, 16, 20, 24 or 32 and all bits below them are zeros;
                        * otherwise all bits of a sample's bytes */
    uint32_t width;    /* bytes of a sample in the file, 1 to 4 */
};

/* Takes a WAV file apart that is in memory as a whole: RIFF, RF64 or BW64, of PCM samples of 1 to 32 bits in 1 to 8 channels.
 * Returns 0, or the number of the reason for which the bytes are none: 60 to 70, or 2 if an allocation fails; `wave` is then as it was. */
uint32_t flac_proved_wave(const uint8_t *bytes, size_t size, struct flac_proved_wave *wave);

/* Copies samples of a WAV file as numbers to a buffer, in the order of flac_proved_samples. `bytes` and `size` are all of them, or some, one after
 * another: each has `width` bytes, 1 to 4, the lowest first, of which the highest `bits` bits count; the bits below them are dropped. They are in
 * two's complement, but a sample of one byte is unsigned, with 128 as silence. *len is how many samples there are.
 * Returns 0, or 67 if width is none of 1 to 4 or bits none of 1 to 8 * width, 70 if the last sample is not whole, or 2 if an allocation fails. */
uint32_t flac_proved_wave_samples(const uint8_t *bytes, size_t size, uint32_t width, uint32_t bits, int32_t *out, size_t room, size_t *len);

/* Copies `count` numbers as samples of a WAV file to a buffer, as flac_proved_wave_samples reads them: the bits of a sample below its highest `bits`
 * bits are zeros. Of a number the lowest `bits` bits count. *len is how many bytes there are, count * width.
 * Returns 0, or 67 if width is none of 1 to 4 or bits none of 1 to 8 * width, or 2 if an allocation fails. */
uint32_t flac_proved_wave_bytes(const int32_t *samples, size_t count, uint32_t width, uint32_t bits, uint8_t *out, size_t room, size_t *len);

/* Copies the head of a plain WAV file to a buffer: all that comes before `total` samples of each channel, of (bits + 7) / 8 bytes each; *len is at
 * most 104. It is that of an RF64 file if one of RIFF would have 4294967303 bytes or more. After the samples comes a byte 0, if they have an odd
 * number of bytes. If total is 0, it is unknown: the lengths in the head are FFFFFFFF, the samples go to the end of the file, and no byte 0 follows
 * them.
 * Returns 0, or the number of the first reason of these:
 *   42 channels is 0 or above 8    40 rate is 2^27 or above    41 bits is 0 or above 32    45 total is 2^36 or above
 * or 2 if an allocation fails. */
uint32_t flac_proved_wave_head(uint32_t rate, uint32_t channels, uint32_t bits, uint64_t total, uint8_t *out, size_t room, size_t *len);

#ifdef __cplusplus
}
#endif

#endif
