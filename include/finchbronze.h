/* Finchbronze for C: whether a plan of streams may run, and what a script
 * makes of it.
 *
 * Link target/staticlib/libfinchbronze.a, which tools/c-library builds, and
 * the archive of the kit whose path tools/c-library prints.
 *
 * Of both calls: `text` is not null, even if `length` is 0; the bytes need no
 * closing 0, are not changed, and are not kept after the call. Calls share
 * nothing, so threads may call at the same time, each with a buffer of its
 * own. Neither allocates: all memory is on the stack. docs/FORMAT.md has the
 * forms of text, docs/REFUSALS.md the numbers. */

#ifndef FINCHBRONZE_H
#define FINCHBRONZE_H

#include <stddef.h>
#include <stdint.h>

#ifdef __cplusplus
extern "C" {
#endif

/* Reads a plan and answers whether the worker can keep it, whatever comes.
 *
 * The plan is `length` bytes at `text`: lines of streams alone, sporadic ones
 * first, each ended by a newline, such as
 *
 *     (S H (2 4) (2 6) 6)
 *     (S L (3 0) (6 6) 6)
 *
 * Any length that an object can have is read.
 *
 * The answer is 0 if the plan may run. Else it is the number of the first
 * refusal:
 *
 *      1  a line is out of shape; a go line is, too
 *      2  a 33rd stream
 *      3  a sporadic line after a raster line
 *      4  a gap out of limits
 *      5  a deadline out of limits
 *      6  a budget out of limits
 *      7  a short deadline out of limits
 *      8  a phase out of limits
 *      9  no stream
 *     10  a horizon above 1,000,000
 *     11  a demand that exceeds a length of time */
int64_t check(const uint8_t *text, size_t length);

/* The longest text that replay reads, in bytes. */
#define FINCHBRONZE_LONGEST_TEXT 65536

/* C89 has no `inline`, and a compiler may warn of a function that nobody calls. */
#if defined(__cplusplus) || (defined(__STDC_VERSION__) && __STDC_VERSION__ >= 199901L)
#define FINCHBRONZE_INLINE static inline
#elif defined(__GNUC__)
#define FINCHBRONZE_INLINE static __inline__
#else
#define FINCHBRONZE_INLINE static
#endif

/* The room that replay wants for its answers: 80 bytes for each newline of the
 * text, and for two lines more. */
FINCHBRONZE_INLINE size_t replay_room(const uint8_t *text, size_t length)
{
    size_t lines = 2;
    size_t i;

    for (i = 0; i < length; i++)
        lines += text[i] == '\n';
    return 80 * lines;
}

/* Reads a plan, judges it and runs the script after its go line, and writes
 * the answers, one to a line, to the front of `buffer`, which has `room` bytes
 * and does not overlap the text.
 *
 * The answer is how many bytes were written, and the bytes after them keep
 * their values; no closing 0 is written. Or it is below 0, nothing was written,
 * and it says why, the first of
 *
 *    -22  a text above FINCHBRONZE_LONGEST_TEXT bytes
 *    -21  a buffer with less room than replay_room tells
 *
 * A plan that may not run and a call that is refused are told in the answers:
 * a line (refused ..) with number, layer and place. */
int64_t replay(const uint8_t *text, size_t length, uint8_t *buffer, size_t room);

#ifdef __cplusplus
}
#endif

#endif
