/* Standard input and output, and the stream of questions.

   A question is one byte for its kind; four bytes for a number, the line's of
   a line question or the budget of a solve question; two bytes for the length
   of the output; two bytes for the length of the table; and the table. All
   numbers are little-endian. The stream ends where a question would begin. */

#ifndef STREAM_H
#define STREAM_H

#include "base.h"

enum {
    KIND_READ = 1,
    KIND_LINE = 2,
    KIND_SOLVE = 3,
    MOST_OUTPUT = 1024, /* a larger length of output is taken as this */
    MOST_TABLE = 1024,  /* a longer table cuts the stream */
    FILL = 0xAA         /* what stands in the output before a call */
};

struct question {
    u32 kind;
    u32 number;
    u32 room;
    u32 length;
    u8 table[MOST_TABLE];
};

/* The next byte of standard input, or -1 at its end. */
int get_byte(void);

/* What comes next in the stream on standard input. */
enum { STREAM_ENDS, STREAM_CUT, QUESTION };

/* Reads the next question, with its room taken as at most MOST_OUTPUT, and
   answers which of the three it found. */
int get_question(struct question *question);

void put_byte(u32 byte);
void put_text(const char *text);
void put_number(u64 number);
void put_hex(const u8 *bytes, u32 length); /* `-` for no bytes */
void put_question(const struct question *question);
void flush(void);

/* Says on standard error what is wrong, and ends the run with status 2. */
_Noreturn void fail(const char *message);

/* A decimal number given as an argument. */
u64 number_of(const char *text);

#endif
