/*
 * Vangprune: the check of a control loop's certificate, for a host in C.
 * Link target/staticlib/libhost.a; docs/HOST.md says how it is built and used.
 */
#ifndef VANGPRUNE_H
#define VANGPRUNE_H

#include <stddef.h>
#include <stdint.h>

#ifdef __cplusplus
extern "C" {
#endif

/*
 * Judges a law text with a case text directly after it: `len` bytes from
 * `text` on. They are only read, and no zero byte need follow them. A NULL
 * `text` with `len` 0 is the empty text.
 *
 * Answers 0 when the case is accepted with the law, else the cause of the
 * first fault. Every input has an answer:
 *
 *    0  accepted
 *    1  law or case text empty, or above 60,000 bytes
 *    2  line absent, without line feed, or not the names line due
 *    3  field malformed, lacking or surplus
 *    4  number outside its limit
 *    5  unknown law word
 *    6  low above high
 *    9  2 x leeway + 1 below the divisor
 *   11  law and case differ in their numbers of states or inputs
 *   12  no such region or face
 *   13  pair of region and face named before
 *   14  pair of region and face missing
 *   15  multipliers: unequal column
 *   16  multipliers: right side too large
 *
 * No other number is answered. docs/CAUSES.md gives the order of judging.
 *
 * It allocates nothing and keeps nothing between calls, so any number of
 * threads may call it at once. It does no input or output.
 * Stack: at most 13,312 bytes in a call, whatever the text (docs/HOST.md).
 */
uint32_t vangprune_verdict(const uint8_t *text, size_t len);

#ifdef __cplusplus
}
#endif

#endif
