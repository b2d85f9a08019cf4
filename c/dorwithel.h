/*
 * Dorwithel's checker for C: one call that judges a captured DDR3 command
 * trace by a timing sheet.
 *
 * Link with target/staticlib/libchecker.a, which `c/build` makes.
 * Nothing else is needed. The script c/run does both.
 */
#ifndef DORWITHEL_H
#define DORWITHEL_H

#include <stddef.h>
#include <stdint.h>

#ifdef __cplusplus
extern "C" {
#endif

/*
 * Judges a trace.
 *
 * sheet_line, sheet_line_bytes: the sheet line, which gives the timings and
 *     the chip: 119 upper-case hexadecimal digits and a line feed, 120 bytes.
 * text, text_bytes: the trace, one command a line: 26 upper-case hexadecimal
 *     digits and a line feed, 27 bytes. At most 1,073,741,824 bytes are taken.
 *
 * Any bytes may be given, of any lengths: what is wrong with them is answered.
 * Neither has to end in a zero byte. Both pointers must be non-null, also for
 * a length of 0 (then nothing is read through them).
 *
 * The call only reads the two byte strings. It allocates nothing, keeps
 * nothing between calls, writes to no file and changes no global, so any
 * number of threads may call it at once.
 *
 * The answer is one number of three parts; take them apart by the three
 * functions below:
 *
 *     refusal x 2^56 + rule x 2^48 + low
 *
 *     refusal   rule      low             what it says
 *     0         0         count of lines  the trace passes
 *     1         0         0               the sheet's clock period is 0 or over 100,000 ps
 *     2         0         place, 0 to 12  this timing's length is over 10,000,000 ps
 *     3         0         place, 0 to 12  this timing's value is not 1 to 255 cycles
 *     4         0         0               WL is over RL
 *     5         0         0               a size of the chip is out of its limits
 *     16        0         line            this line is malformed
 *     18        1 to 16   line            the command at this line breaks this rule
 *     19        0         0               the trace is over 1,073,741,824 bytes
 *     20        0         0               the sheet line is malformed
 *
 * Lines and places are counted from 0. The first bad line is answered, and of
 * the rules that its command breaks the one with the smallest number. A trace
 * is cut every 27 bytes; a shorter last piece is a line too, and malformed.
 * Where several things are wrong, 19 comes first, then 20, then 1 to 5, then
 * the lines in order.
 */
uint64_t dorwithel_judge(const uint8_t *sheet_line, size_t sheet_line_bytes,
                         const uint8_t *text, size_t text_bytes);

/* The refusal's number, 0 where the trace passes. */
static inline unsigned dorwithel_refusal(uint64_t answer)
{
    return (unsigned)(answer >> 56);
}

/* The number of the rule that is broken, 0 where the refusal is not 18. */
static inline unsigned dorwithel_rule(uint64_t answer)
{
    return (unsigned)(answer >> 48) & 0xFF;
}

/* The count of lines where the trace passes; else the line or place, 0 where none is told. */
static inline uint64_t dorwithel_low(uint64_t answer)
{
    return answer & 0xFFFFFFFFFFFF;
}

#ifdef __cplusplus
}
#endif

#endif
