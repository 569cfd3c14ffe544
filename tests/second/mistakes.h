/* Relations between roles that a solver might take by mistake for the one that
   the role rows say. */

#ifndef MISTAKES_H
#define MISTAKES_H

#include "base.h"

enum { MISTAKE_ROLES = 16 };

enum mistake {
    ROWS_DROPPED,  /* each role lies under itself alone */
    ONE_STEP,      /* at most one row is taken */
    TWO_STEPS,     /* at most two rows are taken */
    ONE_PASS,      /* the rows are gone through once, in order */
    TURNED_ROUND,  /* wider roles lie under narrower ones */
    BOTH_WAYS,     /* the order of the two roles in a row does not matter */
    NOT_ITSELF,    /* one row is taken at least */
    LAST_DROPPED,  /* the last row is not seen */
    MISTAKES
};

extern const char *const mistake_names[MISTAKES];

/* Enters the relation for the role rows of a readable table of version 2: bit t
   of wider[s] says that role s lies under role t, by this mistake. */
void mistaken(enum mistake mistake, const u8 *table, u32 wider[MISTAKE_ROLES]);

/* Whether the second solver answers a solve question otherwise by this mistake. */
int tells(enum mistake mistake, const u8 *table, u32 length, u32 budget, u32 room);

#endif
