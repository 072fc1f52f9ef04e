/*
 * The machine host: check a set of SCR mode tables and step it.
 *
 * Link with target/staticlib/libscrhost.a, which `./build scrhost` makes for x86-64 Linux. It needs memcpy and memset and nothing
 * else.
 *
 * A set is given as bytes: a pointer and the number of bytes. Four bytes are a word, the lowest byte first, on every machine; the bytes
 * need no alignment. The pointer must not be null, even where the number of bytes is 0, and so many bytes must be readable there; nothing
 * else is asked of a caller. Every content and every length has an answer. The bytes are only read, and not after the return.
 *
 * No state is kept between calls: both functions give the same answer for the same arguments, and threads may call them at the same time,
 * on the same bytes too as long as nobody writes to them. No heap is used; scr_check takes up to about 340 KiB of stack, scr_step about 24 KiB. Both
 * always return.
 *
 * Refusals, by their numbers:
 *
 *      1  the set has no words, more than 4,096 words, or a number of bytes that is not a multiple of four
 *      2  a word of a kind not allowed at its place, with spare bits that aren't zero, or missing at the end
 *      3  a field out of range
 *      4  one over a limit: variables, rows of a table, assertions, depth of a formula
 *      5  a table that does not fit its variable or its mode class
 *      6  a variable without a table
 *      7  the variable of a condition table with an initial value that isn't 0
 *      8  more than 65,536 states
 *      9  variables that depend on each other in a cycle
 *     10  gap: no row of a condition table holds
 *     11  overlap: two rows of a condition table hold together
 *     12  overlap: two rows of a mode or event table hold together in a step
 *     13  an assertion that is false initially (check only)
 *     14  an assertion that a step breaks (check only)
 *     15  no such state (step only)
 *     16  not an enabled event word (step only)
 *     21  a table that comes after one of a higher variable
 */
#ifndef SCR_H
#define SCR_H

#include <stddef.h>
#include <stdint.h>

#ifdef __cplusplus
extern "C" {
#endif

/* What scr_step adds to the number of a refusal: a state is always below it. */
#define SCR_REFUSED UINT32_C(0x80000000)

/*
 * Whether the set may be loaded: 0, or the number of the refusal, none of step's alone. All states and all steps of the set count. A set
 * of a machine's size takes some hundredths of a second, one made to be hard took 19 seconds (docs/SPEED.md); no time is promised.
 */
uint32_t scr_check(const uint8_t *bytes, size_t length);

/*
 * The state after an event: below SCR_REFUSED, or SCR_REFUSED plus the number of the refusal. A state is a number as document 01 counts
 * states; an event is a word of kind 11, with the variable in bits 27..20 and its new value in bits 7..0. The set is read again at each
 * call. One that scr_check refuses is stepped too, as far as it can be read.
 */
uint32_t scr_step(const uint8_t *bytes, size_t length, uint32_t state, uint32_t event);

#ifdef __cplusplus
}
#endif

#endif
