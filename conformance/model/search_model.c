/* Reads a native FLAC stream and counts, for each frame, the fewest bits that its subframes could take. search.py builds and calls it.

   usage: search_model FILE GREATEST_PARTITION_ORDER

   The family is that of docs/definitions.md: constant, verbatim and fixed predictors, and for each plane (left, right, side and middle of two
   channels, else each channel) the linear predictor that its subframe of the same frame names, if it is stored; every partition order up to the
   greatest, both residual methods, every Rice parameter and escape, as many wasted bits as all samples lack; and, of two channels, left, right,
   side and middle as RFC 9639 (section 4.2) allows them. A plane's predictor is counted for no other plane. It shares no code with the program,
   nor with predictors/cost.c, and trusts the stream: others test whether it is one.

   A line for each frame: number, block size, channel code, bits of the subframes, the fewest bits, the smallest channel code that takes
   these, how many subframes are linear, the greatest order, and 1 if each subframe takes the bits that the same counting gives to its own coding. */
#include <stdint.h>
#include <stdio.h>
#include <stdlib.h>
#include <string.h>

#define MOST 65536
#define NONE (UINT64_MAX / 4)

struct predictor {
    unsigned linear, order, precision, shift, plane;
    int64_t coefficients[32];
};

/* A part of a residual: how many values, the greatest folded value, and the sum of the quotients under each Rice parameter. */
struct part {
    uint64_t count, greatest, sums[31];
};

static const struct predictor FIXED[5] = {
    {0, 0, 0, 0, 0, {0}}, {0, 1, 0, 0, 0, {1}}, {0, 2, 0, 0, 0, {2, -1}}, {0, 3, 0, 0, 0, {3, -3, 1}}, {0, 4, 0, 0, 0, {4, -6, 4, -1}},
};

static const uint8_t *data;
static size_t length, at; /* `at` counts bits */

static void stop(const char *why) {
    printf("stop at byte %zu: %s\n", at / 8, why);
    exit(1);
}

static uint64_t take(unsigned n) {
    uint64_t value = 0;
    if (at + n > 8 * length) stop("the stream ends");
    for (; n > 0; n--, at++) value = value << 1 | (data[at / 8] >> (7 - at % 8) & 1);
    return value;
}

static int64_t take_signed(unsigned n) {
    if (n == 0) return 0;
    uint64_t value = take(n);
    return value >> (n - 1) & 1 ? (int64_t)(value - ((uint64_t)1 << n)) : (int64_t)value;
}

static uint64_t unary(void) {
    uint64_t n = 0;
    while (take(1) == 0) n++;
    return n;
}

static uint64_t fold(int64_t v) { return v < 0 ? (uint64_t)(-2 * v - 1) : (uint64_t)(2 * v); }

static unsigned width(uint64_t v) {
    unsigned n = 0;
    for (; v > 0; v >>= 1) n++;
    return n;
}

/* ---- the price of a residual */

static struct part parts[1 << 15];

static struct part part_of(const int64_t *values, size_t count) {
    struct part p = {count, 0, {0}};
    for (size_t i = 0; i < count; i++) {
        uint64_t f = fold(values[i]);
        if (f > p.greatest) p.greatest = f;
        for (unsigned k = 0; k < 31; k++) p.sums[k] += f >> k;
    }
    return p;
}

static uint64_t rice(const struct part *p, unsigned k) { return p->count * (k + 1) + p->sums[k]; }

static uint64_t escaped(const struct part *p, unsigned bits) { return 5 + bits * p->count; }

/* The fewest bits of a part, with a parameter of so many bits. */
static uint64_t part_cost(const struct part *p, unsigned parameter) {
    uint64_t best = width(p->greatest) < 32 ? escaped(p, width(p->greatest)) : NONE;
    for (unsigned k = 0; k + 1 < 1u << parameter; k++)
        if (rice(p, k) < best) best = rice(p, k);
    return best + parameter;
}

/* The fewest bits of a residual, whose first value is for the sample after the warm-up. */
static uint64_t residual_cost(const int64_t *values, size_t size, unsigned order, unsigned greatest) {
    unsigned finest = 0;
    while (finest < greatest && size % ((size_t)2 << finest) == 0 && size >> (finest + 1) > order) finest++;
    size_t each = size >> finest;
    for (size_t i = 0; i < (size_t)1 << finest; i++)
        parts[i] = i == 0 ? part_of(values, each - order) : part_of(values + i * each - order, each);
    uint64_t best = NONE;
    for (unsigned o = finest;; o--) {
        for (unsigned parameter = 4; parameter <= 5; parameter++) {
            uint64_t sum = 2 + 4;
            for (size_t i = 0; i < (size_t)1 << o; i++) sum += part_cost(&parts[i], parameter);
            if (sum < best) best = sum;
        }
        if (o == 0) return best;
        for (size_t i = 0; i < (size_t)1 << (o - 1); i++) {
            struct part a = parts[2 * i], b = parts[2 * i + 1];
            for (unsigned k = 0; k < 31; k++) a.sums[k] += b.sums[k];
            a.count += b.count;
            if (b.greatest > a.greatest) a.greatest = b.greatest;
            parts[i] = a;
        }
    }
}

/* ---- the price of a subframe */

static int64_t prediction(const struct predictor *p, const int64_t *samples, size_t i) {
    int64_t sum = 0;
    for (unsigned j = 0; j < p->order; j++) sum += p->coefficients[j] * samples[i - 1 - j];
    return sum >> p->shift;
}

static uint64_t fields_cost(const struct predictor *p, unsigned depth) {
    return p->order * (uint64_t)depth + (p->linear ? 4 + 5 + p->precision * p->order : 0);
}

/* The bits after the subframe's header by a predictor, or NONE if it cannot be used. */
static uint64_t predicted_cost(const struct predictor *p, const int64_t *samples, size_t size, unsigned depth, unsigned greatest) {
    static int64_t left[MOST];
    if (p->order >= size) return NONE;
    for (size_t i = p->order; i < size; i++) {
        left[i - p->order] = samples[i] - prediction(p, samples, i);
        if (left[i - p->order] <= -((int64_t)1 << 31) || left[i - p->order] >= (int64_t)1 << 31) return NONE;
    }
    return fields_cost(p, depth) + residual_cost(left, size, p->order, greatest);
}

static unsigned wasted_bits(const int64_t *samples, size_t size) {
    uint64_t bits = 0;
    for (size_t i = 0; i < size; i++) bits |= (uint64_t)samples[i];
    unsigned n = 0;
    while (bits != 0 && (bits >> n & 1) == 0) n++;
    return n;
}

static struct predictor named[8];
static size_t names;

/* The fewest bits of the subframe of a plane. */
static uint64_t least_cost(const int64_t *given, unsigned plane, size_t size, unsigned depth, unsigned greatest) {
    static int64_t samples[MOST];
    unsigned wasted = wasted_bits(given, size), equal = 1;
    for (size_t i = 0; i < size; i++) {
        samples[i] = given[i] >> wasted;
        equal &= given[i] == given[0];
    }
    depth -= wasted;
    uint64_t best = size * (uint64_t)depth;
    if (equal) best = depth;
    for (size_t i = 0; i < 5 + names; i++) {
        if (i >= 5 && named[i - 5].plane != plane) continue;
        uint64_t cost = predicted_cost(i < 5 ? &FIXED[i] : &named[i - 5], samples, size, depth, greatest);
        if (cost < best) best = cost;
    }
    return 8 + wasted + best;
}

/* ---- reading */

/* Reads a residual, and returns the bits that the counting above gives to its own codings. */
static uint64_t read_residual(int64_t *values, size_t size, unsigned order) {
    unsigned parameter = 4 + (unsigned)take(2);
    unsigned partition_order = (unsigned)take(4);
    uint64_t cost = 2 + 4;
    for (size_t i = 0, done = 0; i < (size_t)1 << partition_order; i++) {
        size_t count = (size >> partition_order) - (i == 0 ? order : 0);
        uint64_t k = take(parameter), bits = k + 1 == 1u << parameter ? take(5) : 0;
        for (size_t j = 0; j < count; j++) {
            if (k + 1 == 1u << parameter) {
                values[done + j] = take_signed((unsigned)bits);
            } else {
                uint64_t f = unary() << k;
                f |= take((unsigned)k);
                values[done + j] = f & 1 ? -(int64_t)(f / 2) - 1 : (int64_t)(f / 2);
            }
        }
        struct part p = part_of(values + done, count);
        cost += parameter + (k + 1 == 1u << parameter ? escaped(&p, (unsigned)bits) : rice(&p, (unsigned)k));
        done += count;
    }
    return cost;
}

/* Reads the subframe of a plane; returns whether it takes the bits that its own coding is counted to take. */
static int read_subframe(int64_t *samples, unsigned plane, size_t size, unsigned depth) {
    static int64_t left[MOST];
    size_t start = at;
    unsigned kind = (unsigned)take(7), wasted = take(1) ? (unsigned)unary() + 1 : 0;
    uint64_t cost;
    depth -= wasted;
    if (kind == 0) {
        int64_t value = take_signed(depth);
        for (size_t i = 0; i < size; i++) samples[i] = value;
        cost = depth;
    } else if (kind == 1) {
        for (size_t i = 0; i < size; i++) samples[i] = take_signed(depth);
        cost = size * (uint64_t)depth;
    } else {
        if (kind < 8 || (kind > 12 && kind < 32) || kind > 63) stop("no type of a subframe");
        struct predictor p = kind < 32 ? FIXED[kind - 8] : (struct predictor){1, kind - 31, 0, 0, plane, {0}};
        for (unsigned i = 0; i < p.order; i++) samples[i] = take_signed(depth);
        if (p.linear) {
            p.precision = (unsigned)take(4) + 1;
            p.shift = (unsigned)take(5);
            for (unsigned i = 0; i < p.order; i++) p.coefficients[i] = take_signed(p.precision);
            named[names++] = p;
        }
        cost = fields_cost(&p, depth) + read_residual(left, size, p.order);
        for (size_t i = p.order; i < size; i++) samples[i] = left[i - p.order] + prediction(&p, samples, i);
    }
    for (size_t i = 0; i < size; i++) samples[i] *= (int64_t)1 << wasted;
    return at - start == 8 + wasted + cost;
}

struct format {
    unsigned channels, bits;
};

/* STREAMINFO, and past the other blocks. */
static struct format read_head(void) {
    struct format format = {0, 0};
    if (take(32) != 0x664C6143) stop("no marker");
    for (unsigned last = 0; !last;) {
        last = (unsigned)take(1);
        unsigned kind = (unsigned)take(7);
        size_t bytes = take(24), start = at;
        if (kind == 0) {
            at += 80 + 20;
            format.channels = (unsigned)take(3) + 1;
            format.bits = (unsigned)take(5) + 1;
        }
        at = start + 8 * bytes;
    }
    return format;
}

static size_t read_number(void) {
    unsigned more = 0;
    uint64_t lead = take(8), value;
    while (more < 8 && lead >> (7 - more) & 1) more++;
    value = more == 0 ? lead : lead & ((1u << (7 - more)) - 1);
    for (unsigned i = 1; i < more; i++) value = value << 6 | (take(8) & 63);
    return value;
}

/* Reads a frame header up to its check; returns the block size. */
static size_t read_frame_header(unsigned *code, size_t *number) {
    if (take(15) != 0x7FFC) stop("no frame");
    take(1);
    unsigned size = (unsigned)take(4), rate = (unsigned)take(4);
    *code = (unsigned)take(4);
    take(4);
    *number = read_number();
    size_t found = size == 6 ? take(8) + 1 : size == 7 ? take(16) + 1 : size == 1 ? 192 : size < 6 ? 576u << (size - 2) : 256u << (size - 8);
    take(rate == 12 ? 8 : rate > 12 ? 16 : 0);
    take(8);
    return found;
}

static int64_t planes[8][MOST]; /* of two channels: left, right, side and middle */

/* The plane of a channel under a code. */
static unsigned plane_of(unsigned code, unsigned channel) {
    static const unsigned STORED[3][2] = {{0, 2}, {2, 1}, {3, 2}};
    return code < 8 ? channel : STORED[code - 8][channel];
}

/* Left, right, side and middle, from the two channels that a code stores. */
static void part_planes(unsigned code, size_t size) {
    for (size_t i = 0; i < size; i++) {
        int64_t a = planes[0][i], b = planes[1][i], left = a, right = b;
        if (code == 8) right = a - b;
        if (code == 9) left = a + b;
        if (code == 10) {
            left = (2 * a + (b & 1) + b) >> 1;
            right = left - b;
        }
        planes[0][i] = left;
        planes[1][i] = right;
        planes[2][i] = left - right;
        planes[3][i] = (left + right) >> 1;
    }
}

static void read_frame(struct format format, unsigned greatest) {
    static const unsigned CODES[4][3] = {{1, 0, 1}, {8, 0, 2}, {9, 2, 1}, {10, 3, 2}};
    unsigned code, priced = 1, least_code = 0;
    size_t number, size = read_frame_header(&code, &number), start = at;
    names = 0;
    for (unsigned c = 0; c < format.channels; c++)
        priced &= (unsigned)read_subframe(planes[c], plane_of(code, c), size, format.bits + (c == (code != 9) && code > 7));
    uint64_t bits = at - start, least = 0, costs[8];
    if (format.channels == 2) part_planes(code, size);
    for (unsigned c = 0; c < (format.channels == 2 ? 4 : format.channels); c++) {
        costs[c] = least_cost(planes[c], c, size, format.bits + (format.channels == 2 && c == 2), greatest);
        least += costs[c];
        least_code = c;
    }
    for (unsigned i = 0; format.channels == 2 && i < 4; i++) {
        uint64_t sum = costs[CODES[i][1]] + costs[CODES[i][2]];
        if (i == 0 || sum < least) {
            least = sum;
            least_code = CODES[i][0];
        }
    }
    unsigned order = 0;
    for (size_t i = 0; i < names; i++)
        if (named[i].order > order) order = named[i].order;
    printf("%zu %zu %u %llu %llu %u %zu %u %u\n", number, size, code, (unsigned long long)bits, (unsigned long long)least, least_code, names, order, priced);
    at = (at + 7) / 8 * 8 + 16;
}

int main(int count, char **words) {
    if (count != 3) stop("two words are due");
    FILE *file = fopen(words[1], "rb");
    if (file == NULL) stop("no file");
    fseek(file, 0, SEEK_END);
    length = (size_t)ftell(file);
    rewind(file);
    uint8_t *bytes = malloc(length + 1);
    if (bytes == NULL || fread(bytes, 1, length, file) != length) stop("it cannot be read");
    data = bytes;
    struct format format = read_head();
    while (at < 8 * length) read_frame(format, (unsigned)atoi(words[2]));
    return 0;
}
