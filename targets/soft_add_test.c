/* soft_add.c beside the machine's addition: the sums and differences of pairs that are drawn by a
 * fixed generator. Returns 0, or prints the first few that differ and returns 1.
 *
 *     soft_add_test PAIRS
 *
 * Built for ARM without instructions for doubles it shows where libgcc rounds wrong. */
#include "../c/patterns.h"

#include <inttypes.h>
#include <stdio.h>
#include <stdlib.h>

unsigned long long handset_dadd(unsigned long long a, unsigned long long b);
unsigned long long handset_dsub(unsigned long long a, unsigned long long b);

enum { EXPONENTS = 2048, SHOWN = 5 };

static uint64_t differing;

static uint64_t drawn(void) {
    static uint64_t state = 88172645463325252u;
    state ^= state << 13;
    state ^= state >> 7;
    state ^= state << 17;
    return state * 0x2545f4914f6cdd1du;
}

static uint32_t below(uint32_t bound) { return (uint32_t)((drawn() >> 32) * bound >> 32); }

/* A fraction at random, or one with long runs of zeros and ones: these meet the ties. */
static uint64_t fraction(void) {
    const uint64_t ones = 0x000fffffffffffffu;
    const uint64_t bit = (uint64_t)1 << below(52);
    switch (below(6)) {
    case 0:
        return 0;
    case 1:
        return ones;
    case 2:
        return bit;
    case 3:
        return bit - 1;
    case 4:
        return ones & ~(bit - 1);
    default:
        return drawn() & ones;
    }
}

static uint64_t number(int exponent) {
    const uint64_t sign = drawn() & (uint64_t)1 << 63;
    return sign | (uint64_t)exponent << 52 | fraction();
}

/* An exponent up to 70 away from another one, where the smaller number still counts; or any. */
static int near(int exponent) {
    const int other = exponent + (int)below(141) - 70;
    return other < 0 || other >= EXPONENTS || below(8) == 0 ? (int)below(EXPONENTS) : other;
}

static void compare(char sign, uint64_t a, uint64_t b, uint64_t ours, double machine) {
    const int both_nan = machine != machine && of_pattern(ours) != of_pattern(ours);
    if (!both_nan && ours != pattern(machine)) {
        differing += 1;
        if (differing <= SHOWN) {
            printf("%016" PRIx64 " %c %016" PRIx64 ": %016" PRIx64 ", and not %016" PRIx64 "\n", a,
                   sign, b, pattern(machine), ours);
        }
    }
}

int main(int count, char **words) {
    const uint64_t pairs = count > 1 ? strtoull(words[1], NULL, 10) : 1000000;
    uint64_t k;
    for (k = 0; k < pairs; k += 1) {
        const int exponent = (int)below(below(8) == 0 ? 3 : EXPONENTS);
        const uint64_t a = number(exponent);
        const uint64_t b = number(near(exponent));
        compare('+', a, b, handset_dadd(a, b), of_pattern(a) + of_pattern(b));
        compare('-', a, b, handset_dsub(a, b), of_pattern(a) - of_pattern(b));
    }
    printf("soft_add_test: %" PRIu64 " pairs, %" PRIu64 " times not as the machine adds\n", pairs,
           differing);
    return differing != 0;
}
