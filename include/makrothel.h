/*
 * Makrothel for C: reads catalogue tables, hands out their lines and solves them.
 *
 * Link with libmakrothel_c.a, which `rt lib` writes to out/ in the folder crates/makrothel_c (x86-64 Linux), and
 * tests/library to target/staticlib/libmakrothel.a. The archive needs memcpy and memset of the C library and nothing
 * else: no heap, no files, no state between calls. Calls from several threads at once are safe if they lend different
 * memory. The greatest stack that a call of makrothel_solve was seen to use is 7,632 bytes, with the kit that the file
 * KIT names. Earlier code used 9,304 with this kit, and 9,992 with an older one (docs/BENCHMARKS.md).
 *
 * Every byte string, every line number, every budget and every output length is answered: no call fails in another
 * way than by its number. What is answered is proved (crates/makrothel_c/src/lib.rt, crates/makrothel/specs/C.antt).
 * What is not proved is that a C caller does as follows, and that these declarations are those of the archive:
 *
 *   - No pointer is null, also where its length is 0. Any other address serves there.
 *   - A length is the number of bytes that may be read (table) or read and written (output) from its pointer on. It is
 *     at most half of what size_t can hold, as that of every object is.
 *   - An array of uint64_t has as many elements as its parameter says.
 *   - The memory that a call writes, which is the output and the array of uint64_t, overlaps nothing else that the
 *     same call is lent, and no other thread touches what is lent before the call returns.
 *
 * THE NUMBERS
 *
 *   number  meaning                                         count  place
 *        0  solved; of makrothel_read: readable             N      0
 *        1  the table ends early                            0      the table's length
 *        2  wrong mark                                      0      0
 *        3  the version is neither 1 nor 2                  0      3
 *        4  a count is over its bound                       0      its byte (c + e: 8)
 *        5  a code or role not declared or not allowed,     0      its byte
 *           role rows included
 *        6  bytes after the last line                       0      the first of them
 *        7  the output is shorter than 8v bytes             0      8v
 *        8  none: nothing solves the table                  N      0
 *        9  the budget b is spent                           b      0
 *
 *   makrothel_read returns 0 to 6, and makrothel_solve 0 to 9. N is how many nodes the walk examined, v how many
 *   variables the table has. The table's first byte is byte 0.
 *
 * THE BOUNDS
 *
 *   Constants c and restrictions e are at most 32 each and 56 together, roles r at most 16, variables v at most 24,
 *   lines m at most 64, the left entries p of a line at most 8, and role rows q at most 32. The counts are judged in
 *   this order: c at byte 5, r at 6, v at 7, e and then c + e at 8, m at 9, q at 10. The longest readable table has 714
 *   bytes in version 1 and 779 in version 2. No table needs more than 192 bytes of output.
 *
 * THE VERSIONS
 *
 *   In version 2, byte 10 is the count q of role rows, at most 32, and q role rows follow it, before the restriction
 *   rows: two roles each, the narrower and then the wider, both less than r. A restriction lies below another if its
 *   role reaches the other's over these rows in zero or more steps, and its filler lies below the other's. Circles of
 *   roles and repeated rows are allowed. In version 1 there are no role rows, and a role reaches itself alone.
 */
#ifndef MAKROTHEL_H
#define MAKROTHEL_H

/* The number types: from the C library's headers where there are any, else from the compiler. */
#ifdef __has_include
#if !__has_include(<stdint.h>) || !__has_include(<stddef.h>)
#define MAKROTHEL_NO_HEADERS
#endif
#endif

#ifdef MAKROTHEL_NO_HEADERS
typedef __UINT8_TYPE__ uint8_t;
typedef __UINT32_TYPE__ uint32_t;
typedef __UINT64_TYPE__ uint64_t;
typedef __SIZE_TYPE__ size_t;
#else
#include <stddef.h>
#include <stdint.h>
#endif

#ifdef __cplusplus
extern "C" {
#endif

/*
 * Reads a table, and returns 0 where it is readable and else a number of 1 to 6.
 *
 * Always writes all seven elements: numbers[0] is the place (0 where the table is readable), numbers[1] to numbers[5]
 * are the counts of constants c, roles r, variables v, restrictions e and lines m, and numbers[6] is the count q of role
 * rows (0 in version 1 and where the table is refused). The five counts, too, are 0 where the table is refused.
 */
uint32_t makrothel_read(const uint8_t *table, size_t table_length, uint64_t numbers[7]);

/*
 * Finds line n of a table, counted from 0, and returns 1 where there is one and 0 where there is none, because the
 * table is refused or because n is not less than its count of lines.
 *
 * Always writes both elements: span[0] is the byte where the line starts, and span[1] its length, p + 2 for a left
 * side of p entries. The line is the bytes table[span[0]] to table[span[0] + span[1] - 1]: its left count, its left
 * entries and its right code. Where there is no line both are 0.
 */
uint32_t makrothel_line(const uint8_t *table, size_t table_length, uint32_t n, uint64_t span[2]);

/*
 * Solves a table, and returns a number of 0 to 9.
 *
 * Always writes both elements: numbers[0] is the count and numbers[1] the place of the table above.
 *
 * Only under 0 is the output written: eight bytes for each variable k, from byte 8k on, its set number with the lowest
 * byte first. Bit i of a set number says that atom i is in the set: constant k is atom k, restriction k is atom c + k.
 * The bytes from 8v on stay as they were, and so does the whole output under every other number.
 */
uint32_t makrothel_solve(const uint8_t *table, size_t table_length, uint32_t budget, uint8_t *output,
                         size_t output_length, uint64_t numbers[2]);

#ifdef __cplusplus
}
#endif

#endif
