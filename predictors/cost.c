/* Counts how many bits a block of samples takes in the forms of the encoder's family. family.py builds and calls it.

   A cost is that of a whole subframe: header, wasted bits and body (RFC 9639, section 9.2). The family is that of
   docs/definitions.md: constant, verbatim and fixed predictors, every partition order up to a greatest that the block
   allows (8 in the streamable subset, 15 outside), both residual methods, every Rice parameter and escape, as many wasted bits as all samples lack. A linear predictor
   adds its own form. */
#include <stddef.h>
#include <stdint.h>

#define NONE ((uint64_t)1 << 62) /* what a form costs that cannot be used */
#define MOST_SAMPLES 65535
#define MOST_PARTITIONS (1 << 15)
#define PARAMETERS 31 /* Rice parameters of the second method: 0 to 30 */
#define FIRST_METHOD 15 /* and of the first: 0 to 14 */
#define LAG 32 /* the most coefficients */

struct predictor {
    int32_t order, precision, shift, coefficients[LAG];
};

/* What is known of one partition: the sum of the quotients under each Rice parameter, how many values it has, and the
   bits that occur in them. */
struct partition {
    uint64_t sums[PARAMETERS], length;
    uint32_t bits;
};

static const struct predictor FIXED[5] = {
    {0, 0, 0, {0}}, {1, 0, 0, {1}}, {2, 0, 0, {2, -1}}, {3, 0, 0, {3, -3, 1}}, {4, 0, 0, {4, -6, 4, -1}},
};

static int64_t shortened[MOST_SAMPLES]; /* the samples without their wasted bits */
static uint32_t folds[MOST_SAMPLES]; /* the residual, folded */
static struct partition parts[MOST_PARTITIONS];

static uint64_t least(uint64_t a, uint64_t b) { return a < b ? a : b; }

static unsigned width_of(uint64_t bits) { return bits == 0 ? 0 : 64 - (unsigned)__builtin_clzll(bits); }

/* Writes the samples without the lowest bits that all of them lack, and returns how many these are, 0 for silence. */
static unsigned drop_wasted(const int64_t *samples, size_t n) {
    uint64_t bits = 0;
    for (size_t i = 0; i < n; i++) bits |= (uint64_t)samples[i];
    unsigned wasted = bits == 0 ? 0 : (unsigned)__builtin_ctzll(bits);
    for (size_t i = 0; i < n; i++) shortened[i] = samples[i] >> wasted;
    return wasted;
}

/* Writes the predictions for a stretch of samples from index `start` on. */
static void predict(const struct predictor *p, size_t start, size_t count, int64_t *sums) {
    for (size_t i = 0; i < count; i++) sums[i] = 0;
    for (int32_t j = 0; j < p->order; j++) {
        const int64_t *before = shortened + start - 1 - j, c = p->coefficients[j];
        for (size_t i = 0; i < count; i++) sums[i] += c * before[i];
    }
    for (size_t i = 0; i < count; i++) sums[i] >>= p->shift;
}

/* Writes what a predictor leaves, folded. Returns 0 if a value is not above -2^31 and below 2^31. */
static int leave(const struct predictor *p, size_t n) {
    int64_t sums[256], outside = 0;
    for (size_t start = p->order; start < n; start += 256) {
        size_t count = n - start < 256 ? n - start : 256;
        predict(p, start, count, sums);
        for (size_t i = 0; i < count; i++) {
            int64_t value = shortened[start + i] - sums[i];
            outside |= (value >= INT64_C(1) << 31) | (value <= -(INT64_C(1) << 31));
            folds[start + i] = (uint32_t)((uint64_t)value << 1 ^ (uint64_t)(value >> 63));
        }
    }
    return !outside;
}

/* The sum of the quotients of 16 values, which have fewer than 29 bits: the most frequent length of a partition. */
static inline uint64_t sum_of_16(const uint32_t *values, unsigned k) {
    uint32_t sum = 0;
    for (int i = 0; i < 16; i++) sum += values[i] >> k;
    return sum;
}

static uint64_t sum_of(const uint32_t *values, size_t length, unsigned k) {
    uint64_t sum = 0;
    for (size_t i = 0; i < length; i++) sum += values[i] >> k;
    return sum;
}

/* Counts one partition under the Rice parameters 0 to `top`. */
static void count_one(struct partition *part, const uint32_t *values, size_t length, unsigned top) {
    unsigned k = 0;
    part->length = length;
    part->bits = 0;
    for (size_t i = 0; i < length; i++) part->bits |= values[i];
    unsigned width = width_of(part->bits);
    if (length == 16 && width < 29)
        for (; k < width && k <= top; k++) part->sums[k] = sum_of_16(values, k);
    for (; k <= top; k++) part->sums[k] = k < width ? sum_of(values, length, k) : 0;
}

/* Counts 2^partition_order partitions; the first lacks the warm-up samples. Above the parameter that is returned none is better. */
static unsigned count_parts(size_t n, size_t order, unsigned partition_order) {
    size_t size = n >> partition_order;
    uint32_t bits = 0;
    for (size_t i = order; i < n; i++) bits |= folds[i];
    unsigned top = (unsigned)least(width_of(bits), PARAMETERS - 1);
    count_one(parts, folds + order, size - order, top);
    for (size_t j = 1; j < (size_t)1 << partition_order; j++) count_one(parts + j, folds + j * size, size, top);
    return top;
}

/* Makes one partition of each two. */
static void merge(unsigned partition_order, unsigned top) {
    for (size_t j = 0; j < (size_t)1 << (partition_order - 1); j++) {
        const struct partition one = parts[2 * j], *two = parts + 2 * j + 1;
        for (unsigned k = 0; k <= top; k++) parts[j].sums[k] = one.sums[k] + two->sums[k];
        parts[j].length = one.length + two->length;
        parts[j].bits = one.bits | two->bits;
    }
}

/* Adds what the best coding of a partition costs by either method. */
static void add_best(const struct partition *part, unsigned top, uint64_t *first, uint64_t *second) {
    unsigned width = width_of(part->bits);
    uint64_t best = width < 32 ? 5 + width * part->length : NONE;
    for (unsigned k = 0; k <= top && k < FIRST_METHOD; k++) best = least(best, part->sums[k] + part->length * (k + 1));
    *first += 4 + best;
    for (unsigned k = FIRST_METHOD; k <= top; k++) best = least(best, part->sums[k] + part->length * (k + 1));
    *second += 5 + best;
}

/* What the residual of an order costs in its cheapest coding, with partition orders up to `most`. */
static uint64_t residual_cost(size_t n, size_t order, unsigned most) {
    unsigned partition_order = 0;
    uint64_t best = NONE;
    while (partition_order < most && (n >> partition_order) % 2 == 0 && order < n >> (partition_order + 1)) partition_order++;
    unsigned top = count_parts(n, order, partition_order);
    for (;; partition_order--) {
        uint64_t first = 6, second = 6;
        for (size_t j = 0; j < (size_t)1 << partition_order; j++) add_best(parts + j, top, &first, &second);
        best = least(best, least(first, second));
        if (partition_order == 0) return best;
        merge(partition_order, top);
    }
}

/* What a predictor's form costs without the header: warm-up samples of `depth` bits, its own fields, and the residual. */
static uint64_t predicted_cost(const struct predictor *p, size_t n, unsigned depth, unsigned most) {
    if ((size_t)p->order >= n || !leave(p, n)) return NONE;
    uint64_t fields = p->precision == 0 ? 0 : 9 + (uint64_t)p->precision * p->order;
    return least(NONE, (uint64_t)depth * p->order + fields + residual_cost(n, p->order, most));
}

/* What the cheapest form without a linear predictor costs, without the header. */
static uint64_t plain_cost(size_t n, unsigned depth, unsigned most) {
    size_t equal = 1;
    while (equal < n && shortened[equal] == shortened[0]) equal++;
    uint64_t best = equal == n ? depth : (uint64_t)depth * n;
    for (int order = 0; order < 5; order++) best = least(best, predicted_cost(FIXED + order, n, depth, most));
    return best;
}

/* The cost of the cheapest subframe without a linear predictor, and then that of each predictor's form, or NONE. There
   are 1 to 65535 samples of a depth of 1 to 33 bits, and partition orders of up to `most`, at most 15. */
void subframe_costs(const int64_t *samples, size_t n, unsigned depth, const struct predictor *list, size_t count, unsigned most,
                    uint64_t *costs) {
    unsigned wasted = drop_wasted(samples, n);
    costs[0] = 8 + wasted + plain_cost(n, depth - wasted, most);
    for (size_t i = 0; i < count; i++) costs[i + 1] = least(NONE, 8 + wasted + predicted_cost(list + i, n, depth - wasted, most));
}
