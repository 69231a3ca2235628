/* Composes two steps onto the element held, and shows that a damaged step changes nothing. */
#include "handset.h"

#include <math.h>
#include <stdio.h>
#include <string.h>

/* Eleven values as the 88 bytes of an element; on a little-endian processor that is a copy. */
static void put(uint8_t *block, const double *values) {
    memcpy(block, values, HANDSET_ELEMENT_BYTES);
}

/* The composed time, which opens the listening slot. */
static double time_of(const uint8_t *block) {
    double seconds;
    memcpy(&seconds, block + HANDSET_TIME_OFFSET, sizeof seconds);
    return seconds;
}

int main(void) {
    /*                       translation, quaternion w x y z, velocity, time */
    const double identity[] = {0, 0, 0,  1, 0, 0, 0,  0, 0, 0,  0};
    const double first[] = {1, 2, 3,  1, 0, 0, 0,  4, 0, 0,  0.5};
    const double second[] = {1, 1, 1,  1, 0, 0, 0,  0, 2, 0,  2};
    const double damaged[] = {1, 1, 1,  1, 0, 0, 0,  0, 2, 0,  NAN};
    uint8_t held[HANDSET_ELEMENT_BYTES], step[HANDSET_ELEMENT_BYTES];
    uint32_t number;

    put(held, identity);
    put(step, first);
    sgal3_compose_in_place(held, sizeof held, step, sizeof step);
    put(step, second);
    sgal3_compose_in_place(held, sizeof held, step, sizeof step);
    printf("time %.1f\n", time_of(held)); /* time 2.5 */

    put(step, damaged);
    number = sgal3_compose_in_place(held, sizeof held, step, sizeof step);
    printf("refused %u, time %.1f\n", (unsigned)number, time_of(held)); /* refused 2, time 2.5 */
    return 0;
}
