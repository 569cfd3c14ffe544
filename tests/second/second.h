/* The second solver of Makrothel, for the tests: a reader, a line call and a
   solver for catalogue tables, written from the specification alone and in
   another language than the solver that is proved. It is also what the
   benchmark times. */

#ifndef SECOND_H
#define SECOND_H

#include "solver.h"

struct reading second_read(const u8 *bytes, u32 length);

struct part second_line(const u8 *bytes, u32 length, u32 line);

struct answer second_solve(const u8 *bytes, u32 length, u32 budget, u8 *output, u32 room);

/* The same under another relation between roles than the table's role rows say:
   bit t of wider[s], for each s < r, says that role s lies under role t. */
struct answer second_solve_over(const u32 *wider, const u8 *bytes, u32 length, u32 budget, u8 *output,
                                u32 room);

#endif
