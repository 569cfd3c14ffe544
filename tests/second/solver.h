/* What a solver of the tests is: three calls, and what they answer. */

#ifndef SOLVER_H
#define SOLVER_H

#include "base.h"

/* The numbers handed back. */
enum {
    SOLVED = 0,        /* the reader's 0 means: readable */
    ENDS_EARLY = 1,
    WRONG_MARK = 2,
    WRONG_VERSION = 3,
    COUNT_OVER_BOUND = 4,
    CODE_REFUSED = 5,
    BYTES_AFTER = 6,
    OUTPUT_SHORT = 7,
    NONE = 8,
    BUDGET = 9
};

/* What the reader answers: the counts are 0 where the table is refused, and q is
   0 in version 1. */
struct reading {
    u32 number, place;
    u32 c, r, v, e, m, q;
};

/* A part of a table: `length` bytes from byte `start` on. */
struct part {
    u32 start, length;
};

/* What the solver answers. */
struct answer {
    u32 number, count, place;
};

struct solver {
    struct reading (*read)(const u8 *bytes, u32 length);

    struct part (*line)(const u8 *bytes, u32 length, u32 line);

    /* Solves the table in `bytes` with a budget; `output` has `room` bytes, and
       only a solved table's sets are written to it. */
    struct answer (*solve)(const u8 *bytes, u32 length, u32 budget, u8 *output, u32 room);
};

#endif
