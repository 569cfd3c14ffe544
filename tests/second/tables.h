/* Readable tables by chance, of many makes: some are solved, some have no
   solution, some need long walks. */

#ifndef TABLES_H
#define TABLES_H

#include "draft.h"

/* Fills a draft with a readable table, of either version. `walk` is about how many
   nodes the walk of most tables may have. */
void make_table(struct chance *chance, u32 walk, struct draft *draft);

/* The same, of this version. */
void make_table_of(struct chance *chance, u32 walk, u32 version, struct draft *draft);

/* The same, with at least one row, in version 2 one role row, and a last line that
   has a left entry. */
void make_full_table(struct chance *chance, u32 walk, u32 version, struct draft *draft);

/* A ring of variables, entered from those before it: each variable's row leads to
   the next, and the last of the ring has one to its first. Each of them is below
   r.top, whose row is the last; those after the ring have no lines. So variable x
   has the sets 0 to 2^x, of which those between lead back to it; the last of the
   ring has one more row to go through. Solved, with N = 3 * 2^(n - 1) + n + after,
   where n is before + ring. */
void make_ring(struct draft *draft, u32 before, u32 ring, u32 after);

#endif
