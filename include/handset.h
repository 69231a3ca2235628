/* Galilean motion steps on byte blocks: compose, also in place, inverse and the chain, each at the
 * tolerance 1e-6 or at one of the caller's.
 *
 * An element is eleven binary64 values of IEEE 754, each little-endian: translation (3), quaternion
 * w, x, y, z, velocity (3), time. Each call returns 0 and stores its answer, or returns the number of
 * a refusal and leaves the output as it was.
 *
 * Lengths are 64 bits wide on every processor, also where a size_t has 32.
 *
 * The library keeps no state and allocates nothing: calls may run side by side. It relies on the
 * floating-point environment that C starts with: rounding to nearest, subnormal numbers kept,
 * exceptions masked.
 */
#ifndef HANDSET_H
#define HANDSET_H

#include <stdint.h>

#ifdef __cplusplus
extern "C" {
#endif

/* The library's version, as 0xMMmmpp: major, minor, patch. */
#define HANDSET_VERSION 0x000300

/* The bytes of an element. */
#define HANDSET_ELEMENT_BYTES 88

/* Where its parts begin: three values, four, three and one, of eight bytes each. */
#define HANDSET_TRANSLATION_OFFSET 0
#define HANDSET_ROTATION_OFFSET 24
#define HANDSET_VELOCITY_OFFSET 56
#define HANDSET_TIME_OFFSET 80

/* The most elements of a chain. */
#define HANDSET_CHAIN_MOST 4096

/* What a call returns. The numbers are tried in the order 1, 2, 7, 3, 5, each over all blocks from
 * left to right before the next. Later versions may have more. */
enum handset_number {
    HANDSET_DONE = 0,
    /* A block or the output is not 88 bytes, or a chain is not whole blocks or has too many. */
    HANDSET_LENGTH = 1,
    /* A value is a NaN or infinite, or the computed norm of a quaternion is. */
    HANDSET_NOT_FINITE = 2,
    /* The computed norm of a quaternion is further from 1 than the tolerance. */
    HANDSET_NOT_UNIT = 3,
    /* An angle is too large. None of the calls below returns it. */
    HANDSET_TURN = 4,
    /* A value of the answer, or of a partial element of a chain, is not finite. */
    HANDSET_OVERFLOW = 5,
    /* The tolerance is not finite, not above 0, or above 1/1024, which is 0.0009765625. It is tried
     * also where a chain is empty. Only the calls that take a tolerance return it. */
    HANDSET_TOLERANCE = 7
};

/* ---- at the tolerance 1e-6. A block that a call of this header has stored, at any tolerance, is
 * never refused as HANDSET_NOT_UNIT by one of these four. */

/* The step `right` taken after `left`. No pointer is null, whatever the length beside it; each is
 * that of as many bytes as its length says; `out` overlaps neither input. The inputs may overlap. */
uint32_t sgal3_compose(const uint8_t *left, uint64_t left_len, const uint8_t *right,
                       uint64_t right_len, uint8_t *out, uint64_t out_len);

/* The same, stored over the left block: `step` taken after the element held. A refusal leaves
 * `held` as it was. No pointer is null, whatever the length beside it; each is that of as many bytes
 * as its length says; `held` doesn't overlap `step`. */
uint32_t sgal3_compose_in_place(uint8_t *held, uint64_t held_len, const uint8_t *step,
                                uint64_t step_len);

/* The step that undoes `block`. No pointer is null, whatever the length beside it; each is that of
 * as many bytes as its length says; `out` doesn't overlap `block`. */
uint32_t sgal3_inverse(const uint8_t *block, uint64_t block_len, uint8_t *out, uint64_t out_len);

/* The steps of `blocks`, laid end to end, composed from the identity. No pointer is null, whatever
 * the length beside it: an empty chain has length 0 and any other pointer, and its answer is the
 * identity. Each pointer is that of as many bytes as its length says; `out` doesn't overlap
 * `blocks`. */
uint32_t sgal3_chain(const uint8_t *blocks, uint64_t blocks_len, uint8_t *out, uint64_t out_len);

/* ---- at a tolerance of the caller's: how far the norm of a quaternion handed in may be from 1. An
 * element made on the way, such as a partial element of a chain, isn't held to it. All else, what is
 * asked of the pointers too, is as above; at 1e-6 the answers are the same. At a tolerance far below
 * 1e-6 a stored block may be refused as HANDSET_NOT_UNIT. */

/* sgal3_compose at a tolerance. */
uint32_t sgal3_compose_within(const uint8_t *left, uint64_t left_len, const uint8_t *right,
                              uint64_t right_len, double tolerance, uint8_t *out, uint64_t out_len);

/* sgal3_compose_in_place at a tolerance: of the element in `held` as of the step. */
uint32_t sgal3_compose_in_place_within(uint8_t *held, uint64_t held_len, const uint8_t *step,
                                       uint64_t step_len, double tolerance);

/* sgal3_inverse at a tolerance. */
uint32_t sgal3_inverse_within(const uint8_t *block, uint64_t block_len, double tolerance,
                              uint8_t *out, uint64_t out_len);

/* sgal3_chain at a tolerance. An empty chain at one that isn't permitted is refused too. */
uint32_t sgal3_chain_within(const uint8_t *blocks, uint64_t blocks_len, double tolerance,
                            uint8_t *out, uint64_t out_len);

#ifdef __cplusplus
}
#endif

#endif
