/* The sum and the difference of two doubles, given as their patterns and rounded to nearest, ties
 * to even. For ARM without instructions for doubles, in place of libgcc's __aeabi_dadd and
 * __aeabi_dsub: those of libgcc 12.2 round some differences wrong, where the exponents are 33 apart
 * and the result is below the larger number's power of two.
 *
 * It includes no header, since the toolchain's compiler has none. */
typedef unsigned long long pattern;

#define SIGN 0x8000000000000000u
#define FRACTION 0x000fffffffffffffu
#define INFINITE 0x7ff0000000000000u
#define QUIET 0x0008000000000000u

/* A significand of 53 bits has SPARE more below its last place, and room for a carry above. */
enum { SPARE = 10, HIGHEST = 52 + SPARE, INFINITE_EXPONENT = 0x7ff };

static int exponent_field(pattern a) { return (int)(a >> 52) & INFINITE_EXPONENT; }

/* Subnormal numbers have the exponent of the smallest normal ones. */
static int exponent(pattern a) { return exponent_field(a) == 0 ? 1 : exponent_field(a); }

static pattern significand(pattern a) {
    const pattern leading = exponent_field(a) == 0 ? 0 : FRACTION + 1;
    return ((a & FRACTION) | leading) << SPARE;
}

/* Shifted to the right; the last bit is set if any bit is lost, which is all that rounding asks. */
static pattern shifted(pattern m, int places) {
    if (places == 0) {
        return m;
    }
    if (places > 63) {
        return m != 0;
    }
    return m >> places | (m << (64 - places) != 0);
}

/* The number m * 2^e of a sign, with m below 2^63: rounded, and infinite if it is too large. */
static pattern rounded(pattern sign, int e, pattern m) {
    const pattern half = (pattern)1 << (SPARE - 1);
    const pattern odd = m >> SPARE & 1;
    if (e >= INFINITE_EXPONENT) {
        return sign | INFINITE;
    }
    /* a carry out of the fraction raises the exponent by one, as it should */
    return sign | (((pattern)(e - 1) << 52) + ((m + half - 1 + odd) >> SPARE));
}

pattern handset_dadd(pattern a, pattern b) {
    pattern sign;
    pattern m;
    pattern n;
    int e;
    if (a << 1 < b << 1) { /* the larger one first; a NaN is the largest */
        const pattern larger = b;
        b = a;
        a = larger;
    }
    if ((a & ~SIGN) > INFINITE) {
        return a | QUIET;
    }
    if ((a & ~SIGN) == INFINITE) {
        return (a ^ b) == SIGN ? INFINITE | QUIET : a;
    }
    if (a << 1 == 0) { /* two zeros: below zero if both are */
        return a & b;
    }
    sign = a & SIGN;
    e = exponent(a);
    m = significand(a);
    n = shifted(significand(b), e - exponent(b));
    if (((a ^ b) & SIGN) == 0) {
        m += n;
        if (m >> HIGHEST > 1) {
            m = shifted(m, 1);
            e += 1;
        }
        return rounded(sign, e, m);
    }
    m -= n;
    if (m == 0) {
        return 0;
    }
    while (m >> HIGHEST == 0 && e > 1) {
        m <<= 1;
        e -= 1;
    }
    return rounded(sign, e, m);
}

pattern handset_dsub(pattern a, pattern b) {
    return handset_dadd(a, (b & ~SIGN) > INFINITE ? b : b ^ SIGN);
}
