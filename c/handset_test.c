/* The C entries over the header: worked examples, refusals, tolerances, and the story of set 17.
 * Returns 0, or prints what failed and returns 1. */
#include "handset.h"
#include "patterns.h"

#include <float.h>
#include <stdio.h>
#include <stdlib.h>
#include <string.h>

enum { BYTES = HANDSET_ELEMENT_BYTES, FILL = 0xa5, TIME = 10 };

typedef struct {
    double values[11];
} element;

static const element A = {{1, 2, 3, 1, 0, 0, 0, 4, 0, 0, 0.5}};
static const element B = {{1, 1, 1, 1, 0, 0, 0, 0, 2, 0, 2}};
static const element IDENTITY = {{0, 0, 0, 1, 0, 0, 0, 0, 0, 0, 0}};

static int failures;

#define CHECK(condition) check((condition), #condition, __LINE__)

static void check(int holds, const char *condition, int line) {
    if (!holds) {
        printf("handset_test.c:%d: not so: %s\n", line, condition);
        failures += 1;
    }
}

/* The neighbours of a number: further from zero, and nearer to it. */
static double further(double value) { return of_pattern(pattern(value) + 1); }
static double nearer(double value) { return of_pattern(pattern(value) - 1); }

static void put_pattern(uint8_t *at, uint64_t bits) {
    int i;
    for (i = 0; i < 8; i += 1) {
        at[i] = (uint8_t)(bits >> (8 * i));
    }
}

static uint64_t pattern_at(const uint8_t *at) {
    uint64_t bits = 0;
    int i;
    for (i = 0; i < 8; i += 1) {
        bits |= (uint64_t)at[i] << (8 * i);
    }
    return bits;
}

static void put(uint8_t *at, element e) {
    int i;
    for (i = 0; i < 11; i += 1) {
        put_pattern(at + 8 * i, pattern(e.values[i]));
    }
}

/* Whether the bytes are those of an element, bit for bit. */
static int holds(const uint8_t *bytes, element e) {
    uint8_t expected[BYTES];
    put(expected, e);
    return memcmp(bytes, expected, BYTES) == 0;
}

/* A with another value at a place. */
static element with(int place, double value) {
    element e = A;
    e.values[place] = value;
    return e;
}

/* ---- refused calls: the number, or 0 where the call answers or an output isn't as it was */

static uint8_t *filled(size_t len) {
    uint8_t *out = malloc(len + 1);
    if (out == NULL) {
        printf("out of memory\n");
        exit(1);
    }
    memset(out, FILL, len + 1);
    return out;
}

static uint32_t unless_changed(uint32_t number, uint8_t *out, size_t len) {
    size_t i;
    for (i = 0; i < len + 1; i += 1) {
        if (out[i] != FILL) {
            number = 0;
        }
    }
    free(out);
    return number;
}

static uint32_t compose_refused(const uint8_t *left, size_t left_len, const uint8_t *right,
                                size_t right_len, size_t out_len) {
    uint8_t *out = filled(out_len);
    uint32_t number = sgal3_compose(left, left_len, right, right_len, out, out_len);
    return unless_changed(number, out, out_len);
}

static uint32_t in_place_refused(const uint8_t *left, size_t left_len, const uint8_t *right,
                                 size_t right_len) {
    uint8_t *held = filled(left_len);
    uint32_t number;
    memcpy(held, left, left_len);
    number = sgal3_compose_in_place(held, left_len, right, right_len);
    if (memcmp(held, left, left_len) != 0) {
        number = 0;
    }
    memset(held, FILL, left_len);
    return unless_changed(number, held, left_len);
}

static uint32_t inverse_refused(const uint8_t *block, size_t len, size_t out_len) {
    uint8_t *out = filled(out_len);
    uint32_t number = sgal3_inverse(block, len, out, out_len);
    return unless_changed(number, out, out_len);
}

static uint32_t chain_refused(const uint8_t *blocks, size_t len, size_t out_len) {
    uint8_t *out = filled(out_len);
    uint32_t number = sgal3_chain(blocks, len, out, out_len);
    return unless_changed(number, out, out_len);
}

/* Whether a block is refused as a number by each entry, beside a good one. */
static int refused_everywhere(const uint8_t *block, uint32_t number) {
    uint8_t good[BYTES];
    uint8_t blocks[2 * BYTES];
    put(good, A);
    memcpy(blocks, good, BYTES);
    memcpy(blocks + BYTES, block, BYTES);
    return compose_refused(block, BYTES, good, BYTES, BYTES) == number &&
           compose_refused(good, BYTES, block, BYTES, BYTES) == number &&
           in_place_refused(block, BYTES, good, BYTES) == number &&
           in_place_refused(good, BYTES, block, BYTES) == number &&
           inverse_refused(block, BYTES, BYTES) == number &&
           chain_refused(blocks, sizeof blocks, BYTES) == number;
}

/* ---- the same at a tolerance */

static uint32_t compose_within_refused(const uint8_t *left, size_t left_len, const uint8_t *right,
                                       size_t right_len, double tolerance, size_t out_len) {
    uint8_t *out = filled(out_len);
    uint32_t number =
        sgal3_compose_within(left, left_len, right, right_len, tolerance, out, out_len);
    return unless_changed(number, out, out_len);
}

static uint32_t in_place_within_refused(const uint8_t *left, size_t left_len, const uint8_t *right,
                                        size_t right_len, double tolerance) {
    uint8_t *held = filled(left_len);
    uint32_t number;
    memcpy(held, left, left_len);
    number = sgal3_compose_in_place_within(held, left_len, right, right_len, tolerance);
    if (memcmp(held, left, left_len) != 0) {
        number = 0;
    }
    memset(held, FILL, left_len);
    return unless_changed(number, held, left_len);
}

static uint32_t inverse_within_refused(const uint8_t *block, size_t len, double tolerance,
                                       size_t out_len) {
    uint8_t *out = filled(out_len);
    uint32_t number = sgal3_inverse_within(block, len, tolerance, out, out_len);
    return unless_changed(number, out, out_len);
}

static uint32_t chain_within_refused(const uint8_t *blocks, size_t len, double tolerance,
                                     size_t out_len) {
    uint8_t *out = filled(out_len);
    uint32_t number = sgal3_chain_within(blocks, len, tolerance, out, out_len);
    return unless_changed(number, out, out_len);
}

/* Whether a block is refused as a number by each entry that takes a tolerance, beside a good one. */
static int refused_within(const uint8_t *block, double tolerance, uint32_t number) {
    uint8_t good[BYTES];
    uint8_t blocks[2 * BYTES];
    put(good, A);
    memcpy(blocks, good, BYTES);
    memcpy(blocks + BYTES, block, BYTES);
    return compose_within_refused(block, BYTES, good, BYTES, tolerance, BYTES) == number &&
           compose_within_refused(good, BYTES, block, BYTES, tolerance, BYTES) == number &&
           in_place_within_refused(block, BYTES, good, BYTES, tolerance) == number &&
           in_place_within_refused(good, BYTES, block, BYTES, tolerance) == number &&
           inverse_within_refused(block, BYTES, tolerance, BYTES) == number &&
           chain_within_refused(blocks, sizeof blocks, tolerance, BYTES) == number;
}

/* Whether each entry that takes a tolerance answers a block beside A, and compose in place and the
 * chain say the same as compose. */
static int answered_within(const uint8_t *block, double tolerance) {
    uint8_t blocks[2 * BYTES];
    uint8_t one[BYTES];
    uint8_t other[BYTES];
    int same;
    memcpy(blocks, block, BYTES);
    put(blocks + BYTES, A);
    same = sgal3_compose_within(blocks, BYTES, blocks + BYTES, BYTES, tolerance, one, BYTES) == 0 &&
           sgal3_chain_within(blocks, sizeof blocks, tolerance, other, BYTES) == 0 &&
           memcmp(one, other, BYTES) == 0 &&
           sgal3_compose_in_place_within(blocks, BYTES, blocks + BYTES, BYTES, tolerance) == 0 &&
           memcmp(one, blocks, BYTES) == 0;
    put(blocks, A);
    memcpy(blocks + BYTES, block, BYTES);
    return same &&
           sgal3_compose_within(blocks, BYTES, blocks + BYTES, BYTES, tolerance, one, BYTES) == 0 &&
           sgal3_compose_in_place_within(blocks, BYTES, block, BYTES, tolerance) == 0 &&
           memcmp(one, blocks, BYTES) == 0 &&
           sgal3_inverse_within(block, BYTES, tolerance, other, BYTES) == 0;
}

/* ---- the tests */

static void worked_examples(void) {
    const element a_then_b = {{10, 3, 4, 1, 0, 0, 0, 4, 2, 0, 2.5}};
    const element inverse_a = {{1, -2, -3, 1, -0.0, -0.0, -0.0, -4, -0.0, -0.0, -0.5}};
    uint8_t blocks[2 * BYTES];
    uint8_t out[BYTES];
    put(blocks, A);
    put(blocks + BYTES, B);
    CHECK(sgal3_compose(blocks, BYTES, blocks + BYTES, BYTES, out, BYTES) == HANDSET_DONE);
    CHECK(holds(out, a_then_b));
    CHECK(sgal3_inverse(blocks, BYTES, out, BYTES) == HANDSET_DONE);
    CHECK(holds(out, inverse_a));
    CHECK(sgal3_chain(blocks, sizeof blocks, out, BYTES) == HANDSET_DONE);
    CHECK(holds(out, a_then_b));
    CHECK(sgal3_chain(blocks, 0, out, BYTES) == HANDSET_DONE);
    CHECK(holds(out, IDENTITY));
    memcpy(out, blocks, BYTES);
    CHECK(sgal3_compose_in_place(out, BYTES, blocks + BYTES, BYTES) == HANDSET_DONE);
    CHECK(holds(out, a_then_b));
    CHECK(sgal3_compose_within(blocks, BYTES, blocks + BYTES, BYTES, 1e-4, out, BYTES) ==
          HANDSET_DONE);
    CHECK(holds(out, a_then_b));
    CHECK(sgal3_inverse_within(blocks, BYTES, 1e-4, out, BYTES) == HANDSET_DONE);
    CHECK(holds(out, inverse_a));
    CHECK(sgal3_chain_within(blocks, sizeof blocks, 1e-4, out, BYTES) == HANDSET_DONE);
    CHECK(holds(out, a_then_b));
    CHECK(sgal3_chain_within(blocks, 0, 1e-4, out, BYTES) == HANDSET_DONE);
    CHECK(holds(out, IDENTITY));
    memcpy(out, blocks, BYTES);
    CHECK(sgal3_compose_in_place_within(out, BYTES, blocks + BYTES, BYTES, 1e-4) == HANDSET_DONE);
    CHECK(holds(out, a_then_b));
    /* the inputs may be one buffer */
    CHECK(sgal3_compose(blocks, BYTES, blocks, BYTES, out, BYTES) == HANDSET_DONE);
    CHECK(pattern_at(out + 8 * TIME) == pattern(1.0));
}

static void length(void) {
    static const size_t wrong[] = {0, 1, 80, 87, 89, 176};
    static uint8_t chain[(HANDSET_CHAIN_MOST + 1) * BYTES];
    const size_t most = (size_t)HANDSET_CHAIN_MOST * BYTES;
    uint8_t out[BYTES];
    uint8_t a[2 * BYTES];
    uint8_t b[BYTES];
    size_t i;
    put(a, A);
    put(a + BYTES, A);
    put(b, B);
    for (i = 0; i < sizeof wrong / sizeof wrong[0]; i += 1) {
        CHECK(compose_refused(a, wrong[i], b, BYTES, BYTES) == HANDSET_LENGTH);
        CHECK(compose_refused(b, BYTES, a, wrong[i], BYTES) == HANDSET_LENGTH);
        CHECK(compose_refused(a, BYTES, b, BYTES, wrong[i]) == HANDSET_LENGTH);
        CHECK(in_place_refused(a, wrong[i], b, BYTES) == HANDSET_LENGTH);
        CHECK(in_place_refused(b, BYTES, a, wrong[i]) == HANDSET_LENGTH);
        CHECK(inverse_refused(a, wrong[i], BYTES) == HANDSET_LENGTH);
        CHECK(inverse_refused(a, BYTES, wrong[i]) == HANDSET_LENGTH);
        CHECK(chain_refused(a, BYTES, wrong[i]) == HANDSET_LENGTH);
    }
    CHECK(chain_refused(a, 87, BYTES) == HANDSET_LENGTH);
    CHECK(chain_refused(a, 175, BYTES) == HANDSET_LENGTH);

    for (i = 0; i <= HANDSET_CHAIN_MOST; i += 1) {
        put(chain + i * BYTES, IDENTITY);
    }
    CHECK(chain_refused(chain, sizeof chain, BYTES) == HANDSET_LENGTH);
    CHECK(chain_refused(chain, most + 1, BYTES) == HANDSET_LENGTH);
    CHECK(chain_refused(chain, most - 1, BYTES) == HANDSET_LENGTH);
    CHECK(sgal3_chain(chain, most, out, BYTES) == HANDSET_DONE);
    CHECK(holds(out, IDENTITY));
}

static void not_finite(void) {
    static const uint64_t patterns[] = {0x7ff0000000000000, 0x7ff0000000000001, 0x7ff7ffffffffffff,
                                        0x7ff8000000000000, 0x7fffffffffffffff};
    const uint64_t sign = (uint64_t)1 << 63;
    uint8_t block[BYTES];
    size_t i;
    int place;
    for (place = 0; place < 11; place += 1) {
        for (i = 0; i < sizeof patterns / sizeof patterns[0]; i += 1) {
            put(block, A);
            put_pattern(block + 8 * place, patterns[i]);
            CHECK(refused_everywhere(block, HANDSET_NOT_FINITE));
            put_pattern(block + 8 * place, patterns[i] | sign);
            CHECK(refused_everywhere(block, HANDSET_NOT_FINITE));
        }
    }
    put(block, with(3, 0x1p512)); /* the norm overflows */
    CHECK(refused_everywhere(block, HANDSET_NOT_FINITE));
}

static void not_unit(void) {
    static const double wrong[] = {1 + 0x1p-19, 1 - 0x1p-19, 2, 0, 0x1p511};
    uint8_t block[BYTES];
    uint8_t out[BYTES];
    size_t i;
    for (i = 0; i < sizeof wrong / sizeof wrong[0]; i += 1) {
        put(block, with(3, wrong[i]));
        CHECK(refused_everywhere(block, HANDSET_NOT_UNIT));
    }
    put(block, with(3, 1 + 0x1p-20));
    CHECK(sgal3_inverse(block, BYTES, out, BYTES) == HANDSET_DONE);
}

static void overflow(void) {
    element late = IDENTITY;
    element fast = IDENTITY;
    uint8_t blocks[3 * BYTES];
    late.values[TIME] = DBL_MAX;
    fast.values[7] = DBL_MAX;
    fast.values[TIME] = 2;
    put(blocks, late);
    put(blocks + BYTES, late);
    late.values[TIME] = -DBL_MAX;
    put(blocks + 2 * BYTES, late);
    CHECK(compose_refused(blocks, BYTES, blocks + BYTES, BYTES, BYTES) == HANDSET_OVERFLOW);
    CHECK(in_place_refused(blocks, BYTES, blocks + BYTES, BYTES) == HANDSET_OVERFLOW);
    CHECK(chain_refused(blocks, sizeof blocks, BYTES) == HANDSET_OVERFLOW);
    put(blocks, fast);
    CHECK(inverse_refused(blocks, BYTES, BYTES) == HANDSET_OVERFLOW);
}

/* 1 comes before 2, 2 before 3 and 3 before 5, wherever their blocks stand. */
static void order(void) {
    element late = IDENTITY;
    uint8_t blocks[4 * BYTES];
    uint8_t *const third = blocks + 2 * BYTES;
    uint8_t *const fourth = blocks + 3 * BYTES;
    late.values[TIME] = DBL_MAX;
    put(blocks, late);
    put(blocks + BYTES, late);
    put(third, with(3, 2));
    put(fourth, A);
    CHECK(chain_refused(blocks, sizeof blocks, BYTES) == HANDSET_NOT_UNIT);
    put_pattern(fourth + 8 * TIME, 0x7ff8000000000000);
    CHECK(chain_refused(blocks, sizeof blocks, BYTES) == HANDSET_NOT_FINITE);
    CHECK(chain_refused(blocks, sizeof blocks - 1, BYTES) == HANDSET_LENGTH);
    CHECK(chain_refused(blocks, sizeof blocks, BYTES - 1) == HANDSET_LENGTH);
    CHECK(compose_refused(third, BYTES, fourth, BYTES, BYTES) == HANDSET_NOT_FINITE);
    CHECK(compose_refused(fourth, BYTES, third, BYTES, BYTES) == HANDSET_NOT_FINITE);
    CHECK(compose_refused(fourth, BYTES, third, 80, BYTES) == HANDSET_LENGTH);
}

static const double MOST = 1.0 / 1024;

/* Above 0 and at most 1/1024. */
static void tolerance_range(void) {
    const double least = of_pattern(1);
    const double permitted[] = {least,   further(least), nearer(DBL_MIN), DBL_MIN,
                                0x1p-60, 1e-6,           nearer(MOST),    MOST};
    const double others[] = {0.0,  -0.0, -least,  -1e-6,    -MOST, further(MOST), 2 * MOST,
                             1e-3, 1.0,  DBL_MAX, -DBL_MAX};
    static const uint64_t patterns[] = {0x7ff0000000000000, 0x7ff0000000000001, 0x7ff7ffffffffffff,
                                        0x7ff8000000000000, 0x7ff8000000001234, 0x7fffffffffffffff};
    const uint64_t sign = (uint64_t)1 << 63;
    uint8_t block[BYTES];
    uint8_t out[BYTES];
    size_t i;
    put(block, B);
    for (i = 0; i < sizeof permitted / sizeof permitted[0]; i += 1) {
        CHECK(answered_within(block, permitted[i]));
        CHECK(sgal3_chain_within(block, 0, permitted[i], out, BYTES) == HANDSET_DONE);
        CHECK(holds(out, IDENTITY));
    }
    for (i = 0; i < sizeof others / sizeof others[0]; i += 1) {
        CHECK(refused_within(block, others[i], HANDSET_TOLERANCE));
        CHECK(chain_within_refused(block, 0, others[i], BYTES) == HANDSET_TOLERANCE);
    }
    for (i = 0; i < sizeof patterns / sizeof patterns[0]; i += 1) {
        CHECK(refused_within(block, of_pattern(patterns[i]), HANDSET_TOLERANCE));
        CHECK(refused_within(block, of_pattern(patterns[i] | sign), HANDSET_TOLERANCE));
        CHECK(chain_within_refused(block, 0, of_pattern(patterns[i]), BYTES) == HANDSET_TOLERANCE);
    }
}

/* A norm may be as far from 1 as the tolerance, and no further: that of (w, 0, 0, 0) is w. */
static void norm_at_the_tolerance(void) {
    static const double tolerances[] = {0x1p-10, 0x1p-11, 0x1p-20, 0x1p-21, 0x1p-35, 0x1p-52};
    uint8_t block[BYTES];
    size_t i;
    for (i = 0; i < sizeof tolerances / sizeof tolerances[0]; i += 1) {
        const double tolerance = tolerances[i];
        put(block, with(3, 1 + tolerance));
        CHECK(answered_within(block, tolerance));
        CHECK(refused_within(block, nearer(tolerance), HANDSET_NOT_UNIT));
        put(block, with(3, further(1 + tolerance)));
        CHECK(refused_within(block, tolerance, HANDSET_NOT_UNIT));
        put(block, with(3, -(1 - tolerance)));
        CHECK(answered_within(block, tolerance));
        put(block, with(3, nearer(1 - tolerance)));
        CHECK(refused_within(block, tolerance, HANDSET_NOT_UNIT));
    }
}

/* 7 is tried after 1 and 2, and before 3 and 5. */
static void tolerance_order(void) {
    const double wrong[] = {0, -1e-6, further(MOST), of_pattern(0x7ff8000000000000)};
    const uint32_t seven = HANDSET_TOLERANCE;
    const uint32_t one = HANDSET_LENGTH;
    element late = IDENTITY;
    element fast = with(7, DBL_MAX);
    uint8_t blocks[2 * BYTES];
    uint8_t bad[BYTES];
    size_t i;
    late.values[TIME] = DBL_MAX;
    fast.values[TIME] = 2;
    put(blocks, late);
    put(blocks + BYTES, late);
    CHECK(chain_within_refused(blocks, sizeof blocks, MOST, BYTES) == HANDSET_OVERFLOW);
    put(bad, fast);
    CHECK(inverse_within_refused(bad, BYTES, MOST, BYTES) == HANDSET_OVERFLOW);
    for (i = 0; i < sizeof wrong / sizeof wrong[0]; i += 1) {
        const double t = wrong[i];
        CHECK(compose_within_refused(blocks, BYTES, blocks, BYTES, t, BYTES) == seven);
        CHECK(in_place_within_refused(blocks, BYTES, blocks, BYTES, t) == seven);
        CHECK(chain_within_refused(blocks, sizeof blocks, t, BYTES) == seven);
        put(bad, fast);
        CHECK(inverse_within_refused(bad, BYTES, t, BYTES) == seven);
        put(bad, with(3, 2));
        CHECK(refused_within(bad, t, seven));
        put(bad, with(3, 0x1p512)); /* the norm overflows */
        CHECK(refused_within(bad, t, HANDSET_NOT_FINITE));
        put(bad, A);
        put_pattern(bad + 8 * TIME, 0x7ff8000000000000);
        CHECK(refused_within(bad, t, HANDSET_NOT_FINITE));
        CHECK(compose_within_refused(bad, 87, bad, BYTES, t, BYTES) == one);
        CHECK(compose_within_refused(bad, BYTES, bad, 87, t, BYTES) == one);
        CHECK(compose_within_refused(bad, BYTES, bad, BYTES, t, 87) == one);
        CHECK(in_place_within_refused(bad, 87, bad, BYTES, t) == one);
        CHECK(in_place_within_refused(bad, BYTES, bad, 87, t) == one);
        CHECK(inverse_within_refused(bad, 87, t, BYTES) == one);
        CHECK(inverse_within_refused(bad, BYTES, t, 87) == one);
        CHECK(chain_within_refused(bad, 87, t, BYTES) == one);
        CHECK(chain_within_refused(bad, 0, t, 87) == one);
    }
}

/* A partial element of a chain isn't held to the tolerance; handed in, it is. */
static void partial_elements(void) {
    static const double quaternions[][4] = {{0.6, 0, 0.8, 0}, {0.8, 0.6, 0, 0}};
    enum { STEPS = 50 };
    uint8_t steps[STEPS * BYTES];
    uint8_t whole[BYTES];
    uint8_t within[BYTES];
    uint8_t held[BYTES];
    int refused = 0;
    int i;
    put(held, IDENTITY);
    for (i = 0; i < STEPS; i += 1) {
        element e = A;
        memcpy(e.values + 3, quaternions[i % 2], 4 * sizeof(double));
        put(steps + i * BYTES, e);
        refused += in_place_within_refused(held, BYTES, steps + i * BYTES, BYTES, 0x1p-60) ==
                   HANDSET_NOT_UNIT;
        CHECK(sgal3_compose_in_place(held, BYTES, steps + i * BYTES, BYTES) == HANDSET_DONE);
    }
    CHECK(refused > 0);
    CHECK(sgal3_chain(steps, sizeof steps, whole, BYTES) == HANDSET_DONE);
    CHECK(sgal3_chain_within(steps, sizeof steps, 0x1p-60, within, BYTES) == HANDSET_DONE);
    CHECK(memcmp(whole, within, BYTES) == 0);
    CHECK(memcmp(whole, held, BYTES) == 0);
}

/* Takes a step: what a set holds changes only where the call answers. */
static uint32_t take(uint8_t *held, const uint8_t *step) {
    uint8_t next[BYTES];
    uint32_t number = sgal3_compose(held, BYTES, step, BYTES, next, BYTES);
    if (number == HANDSET_DONE) {
        memcpy(held, next, BYTES);
    }
    return number;
}

/* Two sets follow the same search. Set 17 is handed a step whose time is a NaN, and set 12 is not. At
 * the end the composed time, which opens the listening slot, is the same in both. */
static void set_17_keeps_its_slot(void) {
    static const double quaternions[][4] = {
        {1, 0, 0, 0}, {0.5, 0.5, 0.5, 0.5}, {0.6, 0, 0.8, 0}, {2.0 / 7, 4.0 / 7, 5.0 / 7, 2.0 / 7}};
    enum { STEPS = 40 };
    uint8_t set_17[BYTES];
    uint8_t set_12[BYTES];
    uint8_t before[BYTES];
    uint8_t steps[STEPS * BYTES];
    uint8_t bad[BYTES];
    uint8_t whole[BYTES];
    double time = 0;
    int i;
    put(set_17, IDENTITY);
    put(set_12, IDENTITY);
    for (i = 0; i < STEPS; i += 1) {
        const double *q = quaternions[(i + 1) % 4];
        const double k = i + 1;
        uint8_t *step = steps + i * BYTES;
        element e = {{0.1 * k, 0.2, -0.3, 0, 0, 0, 0, 0.7, -0.1 * k, 0.4, 0.1 + 0.01 * k}};
        memcpy(e.values + 3, q, 4 * sizeof *q);
        put(step, e);
        time += e.values[TIME];

        CHECK(sgal3_compose_in_place(set_12, BYTES, step, BYTES) == HANDSET_DONE);
        if (i == STEPS / 2) {
            memcpy(before, set_17, BYTES);
            memcpy(bad, step, BYTES);
            put_pattern(bad + 8 * TIME, 0x7ff8000000000000);
            CHECK(take(set_17, bad) == HANDSET_NOT_FINITE);
            CHECK(sgal3_compose_in_place(set_17, BYTES, bad, BYTES) == HANDSET_NOT_FINITE);
            CHECK(memcmp(set_17, before, BYTES) == 0);
        }
        CHECK(take(set_17, step) == HANDSET_DONE);
    }
    CHECK(pattern_at(set_17 + 8 * TIME) == pattern_at(set_12 + 8 * TIME));
    CHECK(pattern_at(set_17 + 8 * TIME) == pattern(time));
    CHECK(memcmp(set_17, set_12, BYTES) == 0);
    CHECK(!holds(set_17, IDENTITY));
    CHECK(sgal3_chain(steps, sizeof steps, whole, BYTES) == HANDSET_DONE);
    CHECK(memcmp(whole, set_17, BYTES) == 0);
}

int main(void) {
    worked_examples();
    length();
    not_finite();
    not_unit();
    overflow();
    order();
    tolerance_range();
    norm_at_the_tolerance();
    tolerance_order();
    partial_elements();
    set_17_keeps_its_slot();
    if (failures != 0) {
        printf("%d failed\n", failures);
        return 1;
    }
    printf("handset_test: all as expected\n");
    return 0;
}
