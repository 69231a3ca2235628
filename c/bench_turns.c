/* Times the entries at 1e-6 beside those of another archive, whose names begin with old_: rounds of the two alternate in one process, and a ratio is
   the median of the rounds' ratios. */
#include "handset.h"

#include <math.h>
#include <stdio.h>
#include <stdlib.h>
#include <string.h>
#include <time.h>

uint32_t old_sgal3_compose(const uint8_t *, uint64_t, const uint8_t *, uint64_t, uint8_t *, uint64_t);
uint32_t old_sgal3_compose_in_place(uint8_t *, uint64_t, const uint8_t *, uint64_t);
uint32_t old_sgal3_inverse(const uint8_t *, uint64_t, uint8_t *, uint64_t);
uint32_t old_sgal3_chain(const uint8_t *, uint64_t, uint8_t *, uint64_t);

struct entries {
    uint32_t (*compose)(const uint8_t *, uint64_t, const uint8_t *, uint64_t, uint8_t *, uint64_t);
    uint32_t (*in_place)(uint8_t *, uint64_t, const uint8_t *, uint64_t);
    uint32_t (*inverse)(const uint8_t *, uint64_t, uint8_t *, uint64_t);
    uint32_t (*chain)(const uint8_t *, uint64_t, uint8_t *, uint64_t);
};
static const struct entries now = {sgal3_compose, sgal3_compose_in_place, sgal3_inverse, sgal3_chain};
static const struct entries old = {old_sgal3_compose, old_sgal3_compose_in_place, old_sgal3_inverse, old_sgal3_chain};

enum { BLOCKS = 1024, ROUNDS = 601, SIZE = HANDSET_ELEMENT_BYTES };
static uint8_t blocks[BLOCKS * SIZE], out[BLOCKS * SIZE];
static uint32_t refused;

static double between(double low, double high) { return low + (high - low) * rand() / RAND_MAX; }

/* Random elements whose quaternions have norms up to `off` away from 1, or no rotation. */
static void fill(int rotated, double off) {
    int i, k;
    for (i = 0; i < BLOCKS; i++) {
        double v[11], q[4] = {1, 0, 0, 0}, norm = 1;
        for (k = 0; k < 11; k++) v[k] = between(-1, 1);
        while (rotated) {
            for (k = 0; k < 4; k++) q[k] = between(-1, 1);
            norm = sqrt(q[0] * q[0] + q[1] * q[1] + q[2] * q[2] + q[3] * q[3]);
            if (norm > 0.3) break;
        }
        norm *= 1 + between(-off, off);
        for (k = 0; k < 4; k++) v[3 + k] = q[k] / norm;
        memcpy(blocks + i * SIZE, v, SIZE);
    }
}

static void compose(const struct entries *e) {
    int i;
    for (i = 0; i < BLOCKS; i++)
        refused |= e->compose(blocks + i * SIZE, SIZE, blocks + (i * 7 + 1) % BLOCKS * SIZE, SIZE, out + i * SIZE, SIZE);
}

static void in_place(const struct entries *e) {
    int i;
    memcpy(out, blocks, SIZE);
    for (i = 0; i < BLOCKS; i++) refused |= e->in_place(out, SIZE, blocks + i * SIZE, SIZE);
}

static void inverse(const struct entries *e) {
    int i;
    for (i = 0; i < BLOCKS; i++) refused |= e->inverse(blocks + i * SIZE, SIZE, out + i * SIZE, SIZE);
}

static void chain(const struct entries *e) { refused |= e->chain(blocks, sizeof blocks, out, SIZE); }

static double nanoseconds(void (*run)(const struct entries *), const struct entries *e) {
    struct timespec from, to;
    clock_gettime(CLOCK_MONOTONIC, &from);
    run(e);
    clock_gettime(CLOCK_MONOTONIC, &to);
    return ((to.tv_sec - from.tv_sec) * 1e9 + (to.tv_nsec - from.tv_nsec)) / BLOCKS;
}

static int by_size(const void *a, const void *b) {
    double x = *(const double *)a, y = *(const double *)b;
    return (x > y) - (x < y);
}

static double median(double *x) {
    qsort(x, ROUNDS, sizeof *x, by_size);
    return x[ROUNDS / 2];
}

int main(void) {
    static const struct { const char *name; void (*run)(const struct entries *); } calls[] = {
        {"compose", compose}, {"compose in place", in_place}, {"inverse", inverse}, {"chain, a step", chain}};
    static const struct { const char *name; int rotated; double off; } kinds[] = {
        {"norms near 1", 1, 0}, {"norms up to 1e-7 off", 1, 1e-7}, {"no rotation", 0, 0}};
    static double before[ROUNDS], after[ROUNDS], ratio[ROUNDS];
    unsigned k, c, i;
    printf("%-22s%-18s%8s%8s%8s\n", "", "", "old, ns", "now, ns", "ratio");
    for (k = 0; k < sizeof kinds / sizeof *kinds; k++) {
        fill(kinds[k].rotated, kinds[k].off);
        for (c = 0; c < sizeof calls / sizeof *calls; c++) {
            for (i = 0; i < ROUNDS; i++) {
                if (i % 2) before[i] = nanoseconds(calls[c].run, &old);
                after[i] = nanoseconds(calls[c].run, &now);
                if (i % 2 == 0) before[i] = nanoseconds(calls[c].run, &old);
                ratio[i] = after[i] / before[i];
            }
            printf("%-22s%-18s%8.1f%8.1f%8.2f\n", kinds[k].name, calls[c].name, median(before), median(after), median(ratio));
        }
    }
    if (refused) puts("A call was refused.");
    return refused != 0;
}
