/* Streams and samples through the calls of flac_proved.h, for conformance/checks/c_door.py, which links it with --wrap for malloc, realloc and free.
 *
 * usage: door lines FILE..     lines for each file: its path; what verifying it answers; its information, vendor and comments, or why there
 *                              are none; the number and the CRC-32 of its samples as bytes and as numbers, or why they are refused
 *        door subset FILE..    the same lines by the calls that take a profile, in the streamable subset; `door lax FILE..` of all streams
 *        door blocks FILE..    lines for each file: its path; of each metadata block where it is and what it is; or why there are none
 *        door native FILE..    lines for each file: its path; the number and the CRC-32 of the bytes of the native stream in an Ogg stream, or
 *                              why there is none; of one file its bytes are written to FILE.native
 *        door refuse FILE..    refuses the first allocation of each call, then the second, and so on
 *        door encode RAW OUT RATE CHANNELS BITS BLOCK SEEK OGG SERIAL VENDOR COMMENT..
 *                              encodes raw samples, each of whole bytes, the lowest first, and writes the stream; encode_subset,
 *                              encode_subset_1, encode_subset_2 and encode_lax do so by the call that takes options
 *        door time CALL N FILE the seconds of N calls: verify, decode or samples */
#include "flac_proved.h"

#include <stdio.h>
#include <stdlib.h>
#include <string.h>
#include <time.h>

void *__real_malloc(size_t size);
void *__real_realloc(void *block, size_t size);
void __real_free(void *block);
void *__wrap_malloc(size_t size);
void *__wrap_realloc(void *block, size_t size);
void __wrap_free(void *block);

/* The bytes of a stream's information without those that only fill it up. */
#define INFO_BYTES (offsetof(struct flac_proved_stream_info, digest) + 16)

/* Stands for a buffer without room. */
static uint8_t nothing[1];
static int32_t no_numbers[1];

/* The request of this number is refused, none if it is 0. `live` is how many blocks are allocated. */
static unsigned long refused, asked;
static long live;

/* By which calls streams are read: without a profile, with that of the streamable subset, or with that of all streams. */
static enum { PLAIN, BY_SUBSET, BY_LAX } way = PLAIN;

/* How much is searched: encode_subset_1 and encode_subset_2 search. */
static uint32_t effort;

void *__wrap_malloc(size_t size) {
    void *block;
    asked++;
    block = asked == refused ? NULL : __real_malloc(size);
    live += block != NULL;
    return block;
}

void *__wrap_realloc(void *block, size_t size) {
    asked++;
    return asked == refused ? NULL : __real_realloc(block, size);
}

void __wrap_free(void *block) {
    live -= block != NULL;
    __real_free(block);
}

/* Ends the program if something does not hold; the status tells where. */
static void must(int holds, int status) {
    if (!holds) {
        exit(status);
    }
}

/* Memory just as large as is asked for, so that a byte written or read after it is found. */
static void *room_for(size_t count, size_t size) {
    void *block = __real_malloc(count > 0 ? count * size : 1);
    must(block != NULL, 3);
    memset(block, 0xA5, count > 0 ? count * size : 1);
    return block;
}

struct file {
    uint8_t *bytes;
    size_t len;
};

static struct file read_file(const char *path) {
    struct file file = {NULL, 0};
    FILE *in = fopen(path, "rb");
    long end = -1;
    must(in != NULL && fseek(in, 0, SEEK_END) == 0 && (end = ftell(in)) >= 0 && fseek(in, 0, SEEK_SET) == 0, 3);
    file.bytes = room_for((size_t)end, 1);
    file.len = (size_t)end;
    must(fread(file.bytes, 1, file.len, in) == file.len, 3);
    fclose(in);
    return file;
}

/* ---- the calls, with a profile or without */

static uint32_t verify(struct file file, struct flac_proved_fault *fault) {
    return way == PLAIN ? flac_proved_verify(file.bytes, file.len, fault) : flac_proved_verify_in(file.bytes, file.len, way == BY_LAX ? 7 : 0, fault);
}

static uint32_t decode(struct file file, uint32_t width, uint8_t *out, size_t room, size_t *len, struct flac_proved_fault *fault) {
    return way == PLAIN ? flac_proved_decode(file.bytes, file.len, width, out, room, len, fault)
                        : flac_proved_decode_in(file.bytes, file.len, width, way == BY_LAX ? 7 : 0, out, room, len, fault);
}

static uint32_t samples_of(struct file file, int32_t *out, size_t room, size_t *len, struct flac_proved_fault *fault) {
    return way == PLAIN ? flac_proved_samples(file.bytes, file.len, out, room, len, fault)
                        : flac_proved_samples_in(file.bytes, file.len, way == BY_LAX ? 7 : 0, out, room, len, fault);
}

static uint32_t next(struct file file, struct flac_proved_cursor *cursor, int32_t *out, size_t room, size_t *len, struct flac_proved_fault *fault) {
    return way == PLAIN ? flac_proved_next(file.bytes, file.len, cursor, out, room, len, fault)
                        : flac_proved_next_in(file.bytes, file.len, way == BY_LAX ? 7 : 0, cursor, out, room, len, fault);
}

/* ---- lines */

static uint32_t crc(const uint8_t *bytes, size_t len) {
    uint32_t table[256], sum = 0xFFFFFFFFU, value;
    size_t i;
    int k;
    for (value = 0; value < 256; value++) {
        table[value] = value;
        for (k = 0; k < 8; k++) {
            table[value] = table[value] & 1 ? table[value] >> 1 ^ 0xEDB88320U : table[value] >> 1;
        }
    }
    for (i = 0; i < len; i++) {
        sum = table[(sum ^ bytes[i]) & 255] ^ sum >> 8;
    }
    return ~sum;
}

static void put_fault(const struct flac_proved_fault *fault) {
    uint8_t place[16] = {0}, reason[64] = {0};
    size_t a = flac_proved_place(fault->place, place, sizeof place);
    size_t b = flac_proved_strerror(fault->number, reason, sizeof reason);
    must(a == strlen((char *)place) && b == strlen((char *)reason), 4);
    printf("%s", (char *)place);
    if (fault->place >= 2 && fault->place <= 4) {
        printf(" %llu", (unsigned long long)fault->index);
    }
    printf(": %s\n", (char *)reason);
}

/* A text as `flac list` prints it. */
static void put_text(const char *word, const uint8_t *text, size_t len) {
    size_t i;
    printf(" %s ", word);
    for (i = 0; i < len; i++) {
        printf(text[i] < 0x20 || text[i] > 0x7E || text[i] == '\\' ? "\\x%02x" : "%c", text[i]);
    }
    printf("\n");
}

static void put_info(struct file file) {
    struct flac_proved_stream_info info;
    struct flac_proved_fault fault;
    uint8_t *text;
    size_t i, len, again;
    uint32_t number = flac_proved_info(file.bytes, file.len, &info, &fault);
    must(number == fault.number, 7);
    if (number != 0) {
        printf(" info ");
        put_fault(&fault);
        len = 99;
        must(flac_proved_comment(file.bytes, file.len, 0, nothing, 0, &len, &fault) == number && len == 99, 7);
        must(flac_proved_vendor(file.bytes, file.len, nothing, 0, &len, &fault) == number && len == 99, 7);
        return;
    }
    printf(" blocks %u %u frames %u %u rate %u channels %u depth %u samples %llu\n md5 ", info.least_block, info.greatest_block, info.least_frame,
           info.greatest_frame, info.rate, info.channels, info.bits, (unsigned long long)info.total);
    for (i = 0; i < 16; i++) {
        printf("%02x", info.digest[i]);
    }
    printf("\n");
    must(flac_proved_vendor(file.bytes, file.len, nothing, 0, &again, &fault) == 0, 7);
    text = room_for(again, 1);
    must(flac_proved_vendor(file.bytes, file.len, text, again, &len, &fault) == 0 && len == again, 7);
    put_text("vendor", text, len);
    __real_free(text);
    for (i = 0; i <= info.comments; i++) {
        must(flac_proved_comment(file.bytes, file.len, i, nothing, 0, &again, &fault) == 0, 7);
        text = room_for(again, 1);
        must(flac_proved_comment(file.bytes, file.len, i, text, again, &len, &fault) == 0 && len == again, 7);
        /* after the last one there is none */
        i < info.comments ? put_text("comment", text, len) : must(len == 0, 7);
        __real_free(text);
    }
}

/* The samples as bytes of this width: 0, or 4 to be compared with the numbers. */
static struct file decoded(struct file file, uint32_t width, uint32_t due) {
    struct flac_proved_fault fault;
    struct file half, all = {NULL, 0};
    size_t len = 99;
    uint32_t number = decode(file, width, nothing, 0, &len, &fault);
    must(number == fault.number && number == due && (number == 0 || len == 99), 8);
    if (number != 0) {
        return all;
    }
    all.bytes = room_for(len, 1);
    must(decode(file, width, all.bytes, len, &all.len, &fault) == 0 && all.len == len, 8);
    /* half the room: nothing is written after it, and what is written is the same */
    half.bytes = room_for(len / 2, 1);
    must(decode(file, width, half.bytes, len / 2, &half.len, &fault) == 0 && half.len == len, 8);
    must(memcmp(half.bytes, all.bytes, len / 2) == 0, 8);
    __real_free(half.bytes);
    return all;
}

static void put_samples(struct file file, uint32_t due) {
    struct flac_proved_fault fault;
    int32_t *samples;
    struct file bytes = decoded(file, 0, due), wide = decoded(file, 4, due);
    size_t len = 99;
    uint32_t number = samples_of(file, no_numbers, 0, &len, &fault);
    must(number == fault.number && number == due && (number == 0 || len == 99), 8);
    if (number != 0) {
        printf(" decode ");
        put_fault(&fault);
        return;
    }
    samples = room_for(len + 1, sizeof *samples);
    must(4 * len == wide.len && samples_of(file, samples, len + 1, &len, &fault) == 0, 8);
    /* with more room than is needed the rest stays as it is */
    must(memcmp(samples, wide.bytes, wide.len) == 0 && (uint32_t)samples[len] == 0xA5A5A5A5U, 8);
    printf(" decode %llu %08x\n", (unsigned long long)bytes.len, crc(bytes.bytes, bytes.len));
    __real_free(samples);
    __real_free(wide.bytes);
    __real_free(bytes.bytes);
}

/* Whether a cursor stayed. */
static int is_there(const struct flac_proved_cursor *a, const struct flac_proved_cursor *b) {
    return a->offset == b->offset && a->frames == b->frames && a->sample == b->sample && memcmp(&a->info, &b->info, INFO_BYTES) == 0;
}

/* The frame at a cursor: first with no room, then with as much as is needed and a sample more. Its samples are in a block of its own. */
static int32_t *stepped(struct file file, struct flac_proved_cursor *cursor, size_t *len, struct flac_proved_fault *fault) {
    struct flac_proved_cursor before = *cursor;
    int32_t *samples = NULL;
    size_t again = 98;
    uint32_t number;
    *len = 99;
    number = next(file, cursor, no_numbers, 0, len, fault);
    must(number == fault->number && is_there(&before, cursor) && (number == 0 || *len == 99), 13);
    if (number != 0) {
        return NULL;
    }
    must((*len == 0) == (cursor->offset == file.len), 13);
    samples = room_for(*len + 1, sizeof *samples);
    must(next(file, cursor, samples, *len + 1, &again, fault) == 0 && again == *len, 13);
    must((uint32_t)samples[*len] == 0xA5A5A5A5U && (*len == 0) == is_there(&before, cursor), 13);
    return samples;
}

/* Where frames begin, and the end, as they were found one after another. */
struct starts {
    uint64_t *offsets;
    size_t len, room;
};

static void add_start(struct starts *starts, uint64_t offset) {
    if (starts->len == starts->room) {
        size_t i;
        uint64_t *more = room_for(2 * starts->room + 16, sizeof *more);
        for (i = 0; i < starts->len; i++) {
            more[i] = starts->offsets[i];
        }
        __real_free(starts->offsets);
        starts->offsets = more;
        starts->room = 2 * starts->room + 16;
    }
    starts->offsets[starts->len++] = offset;
}

static int is_start(const struct starts *starts, uint64_t offset) {
    size_t i;
    for (i = 0; i < starts->len; i++) {
        if (starts->offsets[i] == offset) {
            return 1;
        }
    }
    return 0;
}

static uint32_t pass(struct file file, uint64_t count, uint64_t sample, struct flac_proved_cursor *cursor, struct flac_proved_fault *fault) {
    return way == PLAIN ? flac_proved_pass(file.bytes, file.len, count, sample, cursor, fault)
                        : flac_proved_pass_in(file.bytes, file.len, way == BY_LAX ? 7 : 0, count, sample, cursor, fault);
}

/* The frames of some numbers are where they begin, and the end comes after the last one. */
static void numbered(struct file file, const struct flac_proved_cursor *first, const struct starts *starts) {
    struct flac_proved_cursor cursor;
    struct flac_proved_fault fault;
    size_t i, frames = starts->len - 1;
    for (i = 0; i <= frames + 1; i += 1 + frames / 4) {
        cursor = *first;
        must(pass(file, i, UINT64_MAX, &cursor, &fault) == 0 && fault.number == 0 && live == 0, 16);
        must(cursor.offset == starts->offsets[i < frames ? i : frames] && cursor.frames == (i < frames ? i : frames), 16);
    }
}

/* Seeks a sample: the frame that holds it is found, and is that of all samples. A seek table may be wrong, which is told. */
static void sought(struct file file, uint64_t sample, const int32_t *all, size_t count, const struct starts *starts) {
    struct flac_proved_cursor cursor, passed;
    struct flac_proved_fault fault;
    size_t len, channels;
    must(flac_proved_seek(file.bytes, file.len, sample, &cursor, &fault) == 0 && cursor.sample <= sample, 14);
    passed = cursor;
    if (!is_start(starts, cursor.offset)) {
        printf(" no frame at the seek point before %lu\n", (unsigned long)sample);
        return;
    }
    channels = cursor.info.channels;
    must(pass(file, UINT64_MAX, sample, &passed, &fault) == 0, 16);
    while (cursor.offset < file.len) {
        uint64_t first = cursor.sample;
        int is_passed = is_there(&passed, &cursor);
        int32_t *samples = stepped(file, &cursor, &len, &fault);
        must(samples != NULL && cursor.sample == first + len / channels, 14);
        must(is_passed == (sample < cursor.sample), 16);
        if (sample < cursor.sample) {
            must(memcmp(samples, all + first * channels, len * sizeof *samples) == 0, 14);
            __real_free(samples);
            return;
        }
        __real_free(samples);
    }
    must(sample >= count / channels && is_there(&passed, &cursor), 14);
}

/* The samples of a stream that is whole. */
static int32_t *all_samples(struct file file, size_t *count) {
    struct flac_proved_fault fault;
    int32_t *all;
    must(samples_of(file, no_numbers, 0, count, &fault) == 0, 8);
    all = room_for(*count, sizeof *all);
    must(samples_of(file, all, *count, count, &fault) == 0, 8);
    return all;
}

/* Reads a native stream frame by frame: what is given, and where and why it ends, is what the other calls say. */
static void step_through(struct file file, const struct flac_proved_fault *due) {
    struct flac_proved_cursor cursor, first;
    struct flac_proved_stream_info info;
    struct flac_proved_fault fault;
    struct starts starts = {NULL, 0, 0};
    int32_t *all = NULL, *samples;
    size_t len, count = 0, done = 0, i;
    int is_numbered = 1;
    uint32_t number = flac_proved_start(file.bytes, file.len, &cursor, &fault);
    must(number == fault.number && live == 0, 13);
    if (file.len > 3 && memcmp(file.bytes, "OggS", 4) == 0) {
        must(number == 4 && fault.place == 1, 13);
        return;
    }
    if (due->place == 1 || due->place == 2) {
        must(number == due->number && fault.place == due->place && fault.index == due->index, 13);
        return;
    }
    if (number != 0) {
        must(file.bytes[0] == 'O', 13);
        return;
    }
    must(flac_proved_info(file.bytes, file.len, &info, &fault) == 0 && memcmp(&info, &cursor.info, INFO_BYTES) == 0, 13);
    if (due->number == 0) {
        all = all_samples(file, &count);
    }
    add_start(&starts, cursor.offset);
    first = cursor;
    while ((samples = stepped(file, &cursor, &len, &fault)) != NULL && len > 0) {
        if (due->number == 0) {
            must(len <= count - done && memcmp(samples, all + done, len * sizeof *samples) == 0, 13);
        }
        done += len;
        add_start(&starts, cursor.offset);
        /* headers may number frames from any number on, and may be numbered by another block size than that of the frames */
        is_numbered &= cursor.sample == done / cursor.info.channels;
        __real_free(samples);
    }
    /* that a number or a size does not follow on is judged by the other calls alone */
    if (due->place == 3 && due->number != 18 && due->number != 19) {
        must(fault.number == due->number && fault.place == 3 && fault.index == due->index && cursor.frames == due->index, 13);
        must(pass(file, UINT64_MAX, UINT64_MAX, &first, &fault) == due->number && fault.place == 3 && fault.index == due->index && first.frames == 0, 16);
    } else if (due->place != 3) {
        must(fault.number == 0 && cursor.offset == file.len, 13);
    }
    __real_free(samples);
    if (due->number == 0) {
        must(done == count, 13);
        numbered(file, &first, &starts);
        for (i = 0; is_numbered && i < 5; i++) {
            sought(file, i * count / info.channels / 4, all, count, &starts);
        }
        __real_free(all);
    }
    __real_free(starts.offsets);
}

static void put_lines(const char *path) {
    struct file file = read_file(path);
    struct flac_proved_fault fault;
    uint32_t number = verify(file, &fault);
    must(number == fault.number && live == 0, 7);
    printf("%s\n verify ", path);
    number == 0 ? (void)printf("ok\n") : put_fault(&fault);
    put_info(file);
    put_samples(file, number);
    step_through(file, &fault);
    must(live == 0, 7);
    __real_free(file.bytes);
}

/* ---- the native stream in an Ogg stream */

static void put_native(const char *path, int is_kept) {
    struct file file = read_file(path), native = {NULL, 0};
    struct flac_proved_fault fault;
    size_t len = 99, again = 98;
    uint32_t number = flac_proved_native(file.bytes, file.len, nothing, 0, &len, &fault);
    must(number == fault.number && live == 0 && (number == 0 || len == 99), 17);
    printf("%s\n", path);
    if (number != 0) {
        printf(" refused ");
        put_fault(&fault);
    } else {
        native.bytes = room_for(len + 1, 1);
        native.len = len;
        must(len < file.len && flac_proved_native(file.bytes, file.len, native.bytes, len / 2, &again, &fault) == 0 && again == len, 17);
        must(native.bytes[len / 2] == 0xA5, 17);
        must(flac_proved_native(file.bytes, file.len, native.bytes, len + 1, &again, &fault) == 0 && again == len && native.bytes[len] == 0xA5, 17);
        printf(" native %llu %08x\n", (unsigned long long)len, crc(native.bytes, len));
        if (is_kept) {
            char name[4096];
            FILE *out;
            must(strlen(path) < 4000, 17);
            sprintf(name, "%s.native", path);
            out = fopen(name, "wb");
            must(out != NULL && fwrite(native.bytes, 1, len, out) == len && fclose(out) == 0, 17);
        }
        __real_free(native.bytes);
    }
    must(live == 0, 17);
    __real_free(file.bytes);
}

/* ---- blocks */

static void put_block(struct file file, const struct flac_proved_block *block) {
    const struct flac_proved_picture *p = &block->picture;
    printf(" block %llu %llu %llu %u %u\n", (unsigned long long)block->offset, (unsigned long long)block->length, (unsigned long long)block->parts,
           block->kind, block->last);
    if (block->kind != 6) {
        must(p->kind == 0 && p->width == 0 && p->height == 0 && p->depth == 0 && p->colours == 0 && p->media.offset == 0 && p->media.len == 0, 15);
        must(p->description.offset == 0 && p->description.len == 0 && p->data.offset == 0 && p->data.len == 0, 15);
        return;
    }
    must(p->data.offset <= file.len && p->data.len <= file.len - p->data.offset && p->data.offset + p->data.len == block->offset + 4 + block->length, 15);
    printf(" picture %u %u %u %u %u %08x\n", p->kind, p->width, p->height, p->depth, p->colours, crc(file.bytes + p->data.offset, p->data.len));
    put_text("media", file.bytes + p->media.offset, p->media.len);
    put_text("description", file.bytes + p->description.offset, p->description.len);
}

static void put_blocks(const char *path) {
    struct file file = read_file(path);
    struct flac_proved_cursor cursor;
    struct flac_proved_fault fault, other;
    struct flac_proved_block none[1], *blocks;
    size_t len = 99, again = 98, i;
    uint32_t number = flac_proved_blocks(file.bytes, file.len, none, 0, &len, &fault);
    must(number == fault.number && live == 0 && (number == 0 || len == 99), 15);
    printf("%s\n", path);
    if (number != 0) {
        must(flac_proved_start(file.bytes, file.len, &cursor, &other) == number && other.place == fault.place && other.index == fault.index, 15);
        printf(" refused ");
        put_fault(&fault);
    } else {
        blocks = room_for(len + 1, sizeof *blocks);
        must(flac_proved_blocks(file.bytes, file.len, blocks, len + 1, &again, &fault) == 0 && again == len && live == 0, 15);
        must(((uint8_t *)&blocks[len])[0] == 0xA5 && blocks[len].kind == 0xA5A5A5A5U, 15);
        for (i = 0; i < len; i++) {
            put_block(file, &blocks[i]);
        }
        __real_free(blocks);
    }
    __real_free(file.bytes);
}

/* ---- refuse */

static const char *const names[] = {"verify", "info", "comment", "vendor", "decode", "samples", "encode", "encode_ogg", "start", "seek", "next", "blocks",
                                    "native", "pass"};

/* What the calls fill in. */
static struct {
    uint8_t text[100000];
    int32_t numbers[25000];
    struct flac_proved_stream_info info;
    struct flac_proved_cursor cursor;
    struct flac_proved_block blocks[8];
    size_t len;
} given;

/* One of the calls. Its length is 99 if the call has not changed it. */
static uint32_t call(size_t which, struct file file) {
    static const struct flac_proved_text list[2] = {{(const uint8_t *)"TITLE=a", 7}, {(const uint8_t *)"ARTIST=b", 8}};
    const struct flac_proved_tags tags = {{(const uint8_t *)"door", 4}, list, 2};
    struct flac_proved_settings settings = {44100, 2, 16, 64, 100, 0, 0};
    struct flac_proved_fault fault;
    int32_t samples[200];
    uint32_t number;
    int i;
    memset(&given, 0, sizeof given);
    given.len = 99;
    switch (which) {
    case 0: return flac_proved_verify(file.bytes, file.len, &fault);
    case 1: return flac_proved_info(file.bytes, file.len, &given.info, &fault);
    case 2: return flac_proved_comment(file.bytes, file.len, 0, given.text, sizeof given.text, &given.len, &fault);
    case 3: return flac_proved_vendor(file.bytes, file.len, given.text, sizeof given.text, &given.len, &fault);
    case 4: return flac_proved_decode(file.bytes, file.len, 0, given.text, sizeof given.text, &given.len, &fault);
    case 5: return flac_proved_samples(file.bytes, file.len, given.numbers, 25000, &given.len, &fault);
    case 8: return flac_proved_start(file.bytes, file.len, &given.cursor, &fault);
    case 9: return flac_proved_seek(file.bytes, file.len, 1000, &given.cursor, &fault);
    case 10:
        number = flac_proved_start(file.bytes, file.len, &given.cursor, &fault);
        return number != 0 ? number : flac_proved_next(file.bytes, file.len, &given.cursor, given.numbers, 25000, &given.len, &fault);
    }
    if (which == 11) {
        return flac_proved_blocks(file.bytes, file.len, given.blocks, 8, &given.len, &fault);
    }
    if (which == 12) {
        return flac_proved_native(file.bytes, file.len, given.text, sizeof given.text, &given.len, &fault);
    }
    if (which == 13) {
        number = flac_proved_start(file.bytes, file.len, &given.cursor, &fault);
        return number != 0 ? number : flac_proved_pass(file.bytes, file.len, 3, UINT64_MAX, &given.cursor, &fault);
    }
    for (i = 0; i < 200; i++) {
        samples[i] = i * i % 1000 - 17 * i;
    }
    settings.ogg = which == 7;
    settings.seek_every = which == 7 ? 0 : 100;
    return flac_proved_encode(&settings, samples, 200, &tags, given.text, sizeof given.text, &given.len);
}

static uint64_t mixed(uint64_t sum, const void *from, size_t len) {
    const uint8_t *bytes = from;
    size_t i;
    for (i = 0; i < len; i++) {
        sum = (sum ^ bytes[i]) * 1099511628211u;
    }
    return sum;
}

/* A sum of all that a call has filled in, but for the bytes that only fill it up. */
static uint64_t sum_given(void) {
    const uint64_t places[4] = {given.cursor.offset, given.cursor.frames, given.cursor.sample, given.len};
    uint64_t sum = mixed(mixed(14695981039346656037u, given.text, sizeof given.text), given.numbers, sizeof given.numbers);
    size_t i;
    sum = mixed(mixed(mixed(sum, places, sizeof places), &given.info, INFO_BYTES), &given.cursor.info, INFO_BYTES);
    for (i = 0; i < 8; i++) {
        const struct flac_proved_block *block = &given.blocks[i];
        const uint64_t numbers[5] = {block->offset, block->length, block->parts, block->kind, block->picture.data.offset};
        sum = mixed(sum, numbers, sizeof numbers);
    }
    return sum;
}

/* Refuses each request of each call: the call answers 2 and frees all, or it answers and fills in what it does without a refusal. */
static void refuse_each(const char *path) {
    struct file file = read_file(path);
    size_t which;
    printf("%s refused", path);
    for (which = 0; which < sizeof names / sizeof *names; which++) {
        unsigned long cases = 0, memory = 0;
        uint64_t sum;
        uint32_t due, found;
        refused = 0;
        due = call(which, file);
        sum = sum_given();
        must(due != 2, 9);
        for (refused = 1;; refused++) {
            asked = 0;
            found = call(which, file);
            must(live == 0 && ((found == due && sum_given() == sum) || (found == 2 && given.len == 99)), 9);
            if (asked < refused) {
                break;
            }
            cases++;
            memory += found == 2;
        }
        refused = 0;
        printf(" %s %lu/%lu", names[which], memory, cases);
    }
    printf("\n");
    __real_free(file.bytes);
}

/* ---- encode */

static uint32_t encoded(const struct flac_proved_settings *settings, const int32_t *samples, size_t count, const struct flac_proved_tags *tags,
                        uint8_t *out, size_t room, size_t *len) {
    struct flac_proved_options options;
    options.profile = way == BY_LAX ? 7 : 0;
    options.effort = effort;
    return way == PLAIN ? flac_proved_encode(settings, samples, count, tags, out, room, len)
                        : flac_proved_encode_in(settings, &options, samples, count, tags, out, room, len);
}

static void encode(int count, char **words) {
    struct file raw = read_file(words[2]), stream = {NULL, 0};
    struct flac_proved_settings settings = {(uint32_t)atol(words[4]), (uint32_t)atol(words[5]), (uint32_t)atol(words[6]), (uint32_t)atol(words[7]),
                                            (uint32_t)atol(words[8]), (uint32_t)atol(words[9]), (uint32_t)atol(words[10])};
    size_t width = (settings.bits + 7) / 8, samples = raw.len / width, i, k, len = 99;
    int32_t *list = room_for(samples, sizeof *list);
    struct flac_proved_text *texts = room_for((size_t)count - 12, sizeof *texts);
    struct flac_proved_tags tags = {{(const uint8_t *)words[11], strlen(words[11])}, texts, (size_t)count - 12};
    FILE *out;
    uint32_t number;
    for (i = 0; i < samples; i++) {
        uint32_t value = 0;
        for (k = width; k-- > 0;) {
            value = value << 8 | raw.bytes[i * width + k];
        }
        /* to the upper bytes, and back with the sign */
        value <<= 8 * (4 - width);
        memcpy(&list[i], &value, sizeof value);
        list[i] /= 1 << 8 * (4 - width);
    }
    for (i = 0; i < tags.count; i++) {
        texts[i].bytes = (const uint8_t *)words[12 + i];
        texts[i].len = strlen(words[12 + i]);
    }
    number = encoded(&settings, list, samples, &tags, nothing, 0, &len);
    must(live == 0 && (number == 0 || len == 99), 10);
    if (number != 0) {
        uint8_t reason[64] = {0};
        flac_proved_strerror(number, reason, sizeof reason);
        printf("%s\n", (char *)reason);
    } else {
        must(len <= flac_proved_bound(&settings, samples, &tags), 12);
        stream.bytes = room_for(len, 1);
        must(encoded(&settings, list, samples, &tags, stream.bytes, len, &stream.len) == 0 && stream.len == len, 10);
        out = fopen(words[3], "wb");
        must(out != NULL && fwrite(stream.bytes, 1, len, out) == len && fclose(out) == 0, 3);
        __real_free(stream.bytes);
    }
    __real_free(texts);
    __real_free(list);
    __real_free(raw.bytes);
}

/* ---- time */

static void time_calls(const char *which, long n, const char *path) {
    struct file file = read_file(path);
    struct flac_proved_fault fault;
    size_t len = 0, room;
    uint8_t *out;
    clock_t start;
    long i;
    must(flac_proved_decode(file.bytes, file.len, 4, nothing, 0, &room, &fault) == 0, 11);
    out = room_for(room, 1);
    start = clock();
    for (i = 0; i < n; i++) {
        must((*which == 'v'   ? flac_proved_verify(file.bytes, file.len, &fault)
              : *which == 'd' ? flac_proved_decode(file.bytes, file.len, 0, out, room, &len, &fault)
                              : flac_proved_samples(file.bytes, file.len, (int32_t *)(void *)out, room / 4, &len, &fault)) == 0, 11);
    }
    printf("%.4f\n", (double)(clock() - start) / CLOCKS_PER_SEC / (double)n);
    __real_free(out);
    __real_free(file.bytes);
}

int main(int count, char **words) {
    int i;
    if (count >= 2 && strstr(words[1], "lax") != NULL) {
        way = BY_LAX;
    } else if (count >= 2 && strstr(words[1], "subset") != NULL) {
        way = BY_SUBSET;
    }
    if (count >= 12 && strncmp(words[1], "encode", 6) == 0) {
        const char *end = words[1] + strlen(words[1]) - 1;
        effort = *end == '1' || *end == '2' ? (uint32_t)(*end - '0') : 0;
        encode(count, words);
        return 0;
    }
    if (count == 5 && strcmp(words[1], "time") == 0) {
        time_calls(words[2], atol(words[3]), words[4]);
        return 0;
    }
    for (i = 2; i < count; i++) {
        if (strcmp(words[1], "refuse") == 0) {
            refuse_each(words[i]);
        } else if (strcmp(words[1], "native") == 0) {
            put_native(words[i], count == 3);
        } else if (strcmp(words[1], "blocks") == 0) {
            put_blocks(words[i]);
        } else {
            put_lines(words[i]);
        }
    }
    return 0;
}
