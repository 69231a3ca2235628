/* Calls of the eight entries on blocks and at tolerances that are drawn by a fixed generator, the
 * same on every processor. Prints a digest of what was asked, a digest of what was answered (each
 * number, and each byte of the output and beside it) and how often each entry returned each number.
 *
 *     answers CALLS
 *
 * makes so many calls of each entry. Returns 0, or 1 where an entry never returns one of the
 * numbers that it can return, or returns another. */
#include "handset.h"
#include "../c/patterns.h"

#include <inttypes.h>
#include <stdio.h>
#include <stdlib.h>
#include <string.h>

enum {
    BYTES = HANDSET_ELEMENT_BYTES,
    MOST = HANDSET_CHAIN_MOST,
    VALUES = 11,
    QUATERNION = 3,
    VELOCITY = 7,
    OFFSETS = 8,
    FILL = 0xa5
};

enum entry {
    COMPOSE,
    IN_PLACE,
    INVERSE,
    CHAIN,
    COMPOSE_WITHIN,
    IN_PLACE_WITHIN,
    INVERSE_WITHIN,
    CHAIN_WITHIN,
    ENTRIES
};
enum { NUMBERS = HANDSET_TOLERANCE + 1 };

static const char *const names[ENTRIES] = {
    "sgal3_compose",        "sgal3_compose_in_place",        "sgal3_inverse",
    "sgal3_chain",          "sgal3_compose_within",          "sgal3_compose_in_place_within",
    "sgal3_inverse_within", "sgal3_chain_within"};

static int takes_tolerance(int entry) { return entry >= COMPOSE_WITHIN; }

static int can_return(int entry, int number) {
    switch (number) {
    case HANDSET_DONE:
    case HANDSET_LENGTH:
    case HANDSET_NOT_FINITE:
    case HANDSET_NOT_UNIT:
    case HANDSET_OVERFLOW:
        return 1;
    case HANDSET_TOLERANCE:
        return takes_tolerance(entry);
    default:
        return 0;
    }
}

static const uint64_t SIGN = 0x8000000000000000u;
static const uint64_t FRACTION = 0x000fffffffffffffu;
static const uint64_t INFINITE = 0x7ff0000000000000u;
static const uint64_t ONE = 0x3ff0000000000000u;
/* The tolerances 1e-6 and 1/1024, the largest. */
static const uint64_t MILLIONTH = 0x3eb0c6f7a0b5ed8du;
static const uint64_t LARGEST = 0x3f50000000000000u;

/* ---- the generator: never drawn from twice in an expression, whose order is the compiler's */

static uint64_t drawn(void) {
    static uint64_t state = 88172645463325252u;
    state ^= state << 13;
    state ^= state >> 7;
    state ^= state << 17;
    return state * 0x2545f4914f6cdd1du;
}

static uint32_t below(uint32_t bound) { return (uint32_t)((drawn() >> 32) * bound >> 32); }

/* ---- values, as patterns */

/* Any sign and fraction, and one of `count` exponents from `lowest` on. */
static uint64_t number(uint32_t lowest, uint32_t count) {
    const uint64_t exponent = lowest + below(count);
    return (drawn() & (SIGN | FRACTION)) | exponent << 52;
}

static uint64_t special(void) {
    static const uint64_t patterns[] = {
        0x0000000000000000, 0x0000000000000001, 0x0000000000000002, 0x000fffffffffffff,
        0x0010000000000000, 0x0010000000000001, 0x3ca0000000000000, 0x3feffffffffffffe,
        0x3fefffffffffffff, 0x3ff0000000000000, 0x3ff0000000000001, 0x5fe0000000000000,
        0x6000000000000000, 0x7fe0000000000000, 0x7fefffffffffffff, 0x7ff0000000000000,
        0x7ff0000000000001, 0x7ff7ffffffffffff, 0x7ff8000000000000, 0x7fffffffffffffff};
    const uint64_t sign = drawn() & SIGN;
    return sign | patterns[below(sizeof patterns / sizeof patterns[0])];
}

static uint64_t quotient(int64_t a, int64_t b) { return pattern((double)a / (double)b); }

/* Mostly one that is permitted, of any size. */
static uint64_t draw_tolerance(void) {
    switch (below(12)) {
    case 0:
        return special();
    case 1:
        return drawn();
    case 2:
        return LARGEST - 2 + below(5);
    case 3:
    case 4:
    case 5: /* from 2^-20 to the largest */
        return number(1003, 10) & ~SIGN;
    case 6:
        return number(969, 50) & ~SIGN;
    case 7:
        return number(0, 969) & ~SIGN;
    case 8:
        return below(2) == 0 ? MILLIONTH | SIGN : drawn() & SIGN;
    default:
        return MILLIONTH;
    }
}

static int permitted(uint64_t tolerance) { return tolerance != 0 && tolerance <= LARGEST; }

/* The square of a quaternion of whole numbers over its squared norm is a unit, but for the rounding
 * of the four quotients. */
static void draw_unit(uint64_t *q) {
    const int64_t w = (int64_t)below(2000) + 1;
    const int64_t x = (int64_t)below(4001) - 2000;
    const int64_t y = (int64_t)below(4001) - 2000;
    const int64_t z = (int64_t)below(4001) - 2000;
    const int64_t norm = w * w + x * x + y * y + z * z;
    q[0] = quotient(w * w - x * x - y * y - z * z, norm);
    q[1] = quotient(2 * w * x, norm);
    q[2] = quotient(2 * w * y, norm);
    q[3] = quotient(2 * w * z, norm);
}

/* A quaternion whose norm is w's: w is 1 or beside it, and the rest is too small to count. */
static void draw_w_alone(uint64_t *q, uint64_t w) {
    q[0] = w | (drawn() & SIGN);
    q[1] = number(900, 90);
    q[2] = number(0, 900);
    q[3] = special() & (SIGN | FRACTION);
}

/* Moves a norm away from 1, by no more than a tolerance of 2^-20 or more: so many units in the last
 * place of each value are at most as many 2^-52 of the norm. */
static void stretch(uint64_t *q, uint64_t tolerance) {
    const uint32_t bits = (uint32_t)(tolerance >> 52) - 971;
    const uint64_t units = drawn() >> (64 - bits);
    const int down = below(2) == 0;
    int i;
    for (i = 0; i < 4; i += 1) {
        if (!down) {
            q[i] += units;
        } else if ((q[i] & ~SIGN) > units) {
            q[i] -= units;
        }
    }
}

static int in_quaternion(int place) { return place >= QUATERNION && place < VELOCITY; }

/* Translation, velocity and time. */
static void draw_the_rest(uint64_t *v, uint32_t lowest, uint32_t count) {
    int i;
    for (i = 0; i < VALUES; i += 1) {
        if (!in_quaternion(i)) {
            v[i] = number(lowest, count);
        }
    }
}

/* ---- elements */

/* One that every call takes, and that overflows nothing. */
static void draw_tame(uint64_t *v) {
    int i;
    draw_the_rest(v, 1013, 20);
    draw_unit(v + QUATERNION);
    switch (below(14)) {
    case 0: /* products that are subnormal, or vanish */
        draw_the_rest(v, 400, 240);
        break;
    case 1: /* subnormal values, or nearly so */
        draw_the_rest(v, 0, 3);
        break;
    case 2: /* subnormal values in the quaternion too */
        draw_the_rest(v, 0, 3);
        v[QUATERNION] = ONE;
        for (i = QUATERNION + 1; i < VELOCITY; i += 1) {
            v[i] = number(0, 2);
        }
        break;
    case 3:
        draw_w_alone(v + QUATERNION, ONE - 1 + below(3));
        break;
    case 4:
    case 5: /* sums of numbers that are far apart, many of them powers of two */
        draw_the_rest(v, 993, 60);
        for (i = 0; i < VALUES; i += 1) {
            if (!in_quaternion(i) && below(2) == 0) {
                v[i] &= ~FRACTION;
            }
        }
        break;
    case 6:
    case 7:
    case 8: /* a quaternion some units in the last place off */
        for (i = QUATERNION; i < VELOCITY; i += 1) {
            v[i] += below(9);
        }
        break;
    default:
        break;
    }
}

/* The pattern of 1 plus or minus a distance of at most 1/1024, cut off, by whole numbers: a processor
 * without a floating-point unit would add by libgcc's function, which TARGETS.md is about. */
static uint64_t beside_one(uint64_t distance, int above) {
    const uint64_t exponent = distance >> 52;
    const uint64_t significand = (distance & 0x000fffffffffffffu) | 0x0010000000000000u;
    const uint64_t halves = exponent < 970 ? 0 : significand >> (1022 - exponent); /* of 2^-52 */
    return above ? ONE + halves / 2 : ONE - halves;
}

/* Any: half of them are tame, and the others may be refused. */
static void draw_wild(uint64_t *v, uint64_t tolerance) {
    /* 1 + tolerance and 1 - tolerance, beyond which a norm is refused */
    const uint64_t limit = beside_one(permitted(tolerance) ? tolerance : MILLIONTH, below(2) == 0);
    const uint32_t shift = 31 - below(11);
    const uint32_t place = below(VALUES);
    int i;
    draw_tame(v);
    switch (below(16)) {
    case 0: /* a norm some units in the last place from a limit */
        draw_w_alone(v + QUATERNION, limit - 4 + below(9));
        break;
    case 1: /* a norm about as far from 1 as a limit at 1e-6, or up to 1/1024 */
        for (i = QUATERNION; i < VELOCITY; i += 1) {
            v[i] += drawn() >> shift;
        }
        break;
    case 2: /* a quaternion of any size: its norm may overflow, or vanish */
        for (i = QUATERNION; i < VELOCITY; i += 1) {
            v[i] = number(below(2) * 500, 1500);
        }
        break;
    case 3: /* large values: the answer may overflow */
        draw_the_rest(v, 1500, 547);
        break;
    case 4: /* some of them */
        for (i = 0; i < VALUES; i += 1) {
            if (!in_quaternion(i) && below(2) == 0) {
                v[i] = number(1500, 547);
            }
        }
        break;
    case 5:
        v[place] = special();
        break;
    case 6: /* a NaN */
        v[place] = drawn() | INFINITE;
        break;
    case 7:
        v[place] = drawn();
        break;
    default:
        break;
    }
}

static void put(uint8_t *at, const uint64_t *v) {
    int i;
    int j;
    for (i = 0; i < VALUES; i += 1) {
        for (j = 0; j < 8; j += 1) {
            at[8 * i + j] = (uint8_t)(v[i] >> (8 * j));
        }
    }
}

/* ---- what is asked, and what is answered */

/* Both start as FNV-1a does. */
static uint64_t asked = 14695981039346656037u;
static uint64_t answered = 14695981039346656037u;

static void digest(uint64_t *state, const uint8_t *bytes, size_t count) {
    size_t i;
    for (i = 0; i < count; i += 1) {
        *state = (*state ^ bytes[i]) * 1099511628211u;
    }
}

static void digest_word(uint64_t *state, uint64_t word) {
    uint8_t bytes[8];
    int i;
    for (i = 0; i < 8; i += 1) {
        bytes[i] = (uint8_t)(word >> (8 * i));
    }
    digest(state, bytes, sizeof bytes);
}

static void draw_blocks(uint8_t *at, uint32_t count, int tame, uint64_t tolerance) {
    const int wide = tolerance > MILLIONTH && permitted(tolerance);
    uint64_t v[VALUES];
    uint32_t i;
    for (i = 0; i < count; i += 1) {
        uint8_t *block = at + (size_t)BYTES * i;
        if (tame) {
            draw_tame(v);
        } else {
            draw_wild(v, tolerance);
        }
        if (wide && below(2) == 0) {
            stretch(v + QUATERNION, tolerance);
        }
        put(block, v);
        if (!tame && below(40) == 0) { /* a damaged bit */
            const uint32_t bit = below(8 * BYTES);
            block[bit / 8] ^= (uint8_t)(1u << bit % 8);
        }
    }
    digest(&asked, at, (size_t)BYTES * count);
}

/* The length, or one time in 50 another. Some of these have the lower 32 bits of the right one, and
 * promise more bytes than there are: such a call has to be refused before it reads any. */
static uint64_t draw_length(uint64_t right) {
    static const uint64_t others[] = {0, 1, 80, 87, 89, 176, (uint64_t)1 << 32, UINT64_MAX};
    uint64_t length = right;
    if (below(50) == 0) {
        switch (below(3)) {
        case 0:
            length += (uint64_t)1 << 32;
            break;
        case 1:
            length += (uint64_t)1 << (32 + below(32));
            break;
        default:
            length = others[below(sizeof others / sizeof others[0])];
            break;
        }
    }
    digest_word(&asked, length);
    return length;
}

/* Mostly short; now and then about as long as a chain may be, or too long by a block. */
static uint32_t draw_chain_blocks(void) {
    if (below(4000) == 0) {
        return MOST - 1 + below(3);
    }
    return below(below(50) == 0 ? 60 : 7);
}

/* ---- the calls */

static uint32_t call(enum entry entry) {
    static uint8_t first[OFFSETS + (MOST + 1) * BYTES];
    static uint8_t second[OFFSETS + 2 * BYTES];
    static uint8_t output[OFFSETS + 2 * BYTES + OFFSETS];
    /* blocks stand at any address */
    uint8_t *const left = first + below(OFFSETS);
    uint8_t *const right = second + below(OFFSETS);
    uint8_t *const out = output + below(OFFSETS);
    const int chain = entry == CHAIN || entry == CHAIN_WITHIN;
    const int inverse = entry == INVERSE || entry == INVERSE_WITHIN;
    const uint32_t blocks = chain ? draw_chain_blocks() : 1;
    const int tame = chain && below(4) != 0;
    const uint64_t tolerance = takes_tolerance(entry) ? draw_tolerance() : MILLIONTH;
    const double within = of_pattern(tolerance);
    uint64_t left_len;
    uint64_t right_len = 0;
    uint64_t out_len;
    uint32_t returned;
    digest_word(&asked, tolerance);
    draw_blocks(left, blocks, tame, tolerance);
    left_len = draw_length((uint64_t)BYTES * blocks);
    if (!chain && !inverse) {
        draw_blocks(right, 1, 0, tolerance);
        right_len = draw_length(BYTES);
    }
    out_len = draw_length(BYTES);
    memset(output, FILL, sizeof output);
    switch (entry) {
    case COMPOSE:
        returned = sgal3_compose(left, left_len, right, right_len, out, out_len);
        break;
    case IN_PLACE:
        memcpy(out, left, BYTES);
        returned = sgal3_compose_in_place(out, left_len, right, right_len);
        break;
    case INVERSE:
        returned = sgal3_inverse(left, left_len, out, out_len);
        break;
    case CHAIN:
        returned = sgal3_chain(left, left_len, out, out_len);
        break;
    case COMPOSE_WITHIN:
        returned = sgal3_compose_within(left, left_len, right, right_len, within, out, out_len);
        break;
    case IN_PLACE_WITHIN:
        memcpy(out, left, BYTES);
        returned = sgal3_compose_in_place_within(out, left_len, right, right_len, within);
        break;
    case INVERSE_WITHIN:
        returned = sgal3_inverse_within(left, left_len, within, out, out_len);
        break;
    default:
        returned = sgal3_chain_within(left, left_len, within, out, out_len);
        break;
    }
    digest_word(&answered, returned);
    digest(&answered, output, sizeof output);
    return returned;
}

int main(int count, char **words) {
    const uint32_t calls = count > 1 ? (uint32_t)strtoul(words[1], NULL, 10) : 1000;
    static uint32_t counts[ENTRIES][NUMBERS];
    int failed = 0;
    uint32_t k;
    int entry;
    int i;
    for (k = 0; k < calls; k += 1) {
        for (entry = 0; entry < ENTRIES; entry += 1) {
            const uint32_t returned = call((enum entry)entry);
            if (returned >= NUMBERS) {
                printf("%s returned %" PRIu32 "\n", names[entry], returned);
                return 1;
            }
            counts[entry][returned] += 1;
        }
    }
    printf("%" PRIu32 " calls of each entry: asked %016" PRIx64 ", answered %016" PRIx64 "\n",
           calls, asked, answered);
    for (entry = 0; entry < ENTRIES; entry += 1) {
        printf("%s returned", names[entry]);
        for (i = 0; i < NUMBERS; i += 1) {
            printf("%s %d: %" PRIu32, i == 0 ? "" : ",", i, counts[entry][i]);
            failed |= (counts[entry][i] != 0) != can_return(entry, i);
        }
        printf("\n");
    }
    if (failed) {
        printf("a number was never returned, or one that no entry has\n");
    }
    return failed;
}
