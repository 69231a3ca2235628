/* A double and its bits, for the tests. */
#ifndef PATTERNS_H
#define PATTERNS_H

#include <stdint.h>
#include <string.h>

static inline uint64_t pattern(double value) {
    uint64_t bits;
    memcpy(&bits, &value, sizeof bits);
    return bits;
}

static inline double of_pattern(uint64_t bits) {
    double value;
    memcpy(&value, &bits, sizeof value);
    return value;
}

#endif
