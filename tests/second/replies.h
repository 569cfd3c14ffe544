/* The replies to a stream of questions, one line of text for each.

   read:  number place c r v e m q
   line:  the part's bytes in hex, `-` for an empty part
   solve: number count place, and the whole output afterwards in hex, `-` if it
          has no bytes; the output is filled with the byte AA before the call

   A question of unknown kind, a table longer than 1,024 bytes, or a stream that
   ends inside a question ends the replies with the line `cut`. */

#ifndef REPLIES_H
#define REPLIES_H

#include "solver.h"

/* Reads a stream of questions on standard input, and writes the solver's
   replies on standard output. */
void reply_to_stream(const struct solver *solver);

#endif
