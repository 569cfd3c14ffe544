/* A second reader of OWL files, written in C from the specification alone: the table that a file makes, or why it makes none. */

#ifndef OWL_READER_H
#define OWL_READER_H

#include "second.h"

/* The bounds of a table. All that depends on them is written with these names. */
enum {
    MOST_CONSTANTS = 32,
    MOST_RESTRICTIONS = 32,
    MOST_ATOMS = 56, /* constants and restrictions together */
    MOST_ROLES = 16,
    MOST_VARIABLES = 24,
    MOST_LINES = 64,
    MOST_ENTRIES = 8, /* on the left of a line */
    LONGEST_TABLE = 10 + 2 * MOST_RESTRICTIONS + (MOST_ENTRIES + 2) * MOST_LINES
};

/* What a file is answered. Two of them have the number 11. */
enum owl_kind { OWL_MADE, OWL_SYNTAX, OWL_UNLISTED, OWL_UNDECLARED, OWL_BOUND, OWL_SHORT, OWL_KINDS };

struct owl_answer {
    enum owl_kind kind;
    unsigned number;       /* 0, 10, 11, 11, 12, 17 */
    uint64_t count, place; /* the table's length under 0, else 0; the place of a refusal */
};

/* Reads a file. Only under 0 is `out` written, and of its `room` bytes only those of the table. */
struct owl_answer owl_second(const unsigned char *text, size_t length, unsigned char *out, size_t room);

#endif
