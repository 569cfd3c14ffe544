/* Catalogue tables in the making, for the generators of questions: a draft is
   filled by chance, may go over every bound, and is then written as bytes. */

#ifndef DRAFT_H
#define DRAFT_H

#include "base.h"

enum {
    DRAFT_ROLE_ROWS = 40,
    DRAFT_ROWS = 40,
    DRAFT_LEFT = 12,
    DRAFT_LINES = 72,
    DRAFT_BYTES = 11 + 2 * DRAFT_ROLE_ROWS + 2 * DRAFT_ROWS + (2 + DRAFT_LEFT) * DRAFT_LINES
};

/* The bytes of a variable's set in the output of a solved table. */
enum { SET_BYTES = 8 };

/* Codes. */
enum {
    CODE_TOP = 0x00,
    CODE_CONSTANT = 0x20,
    CODE_RESTRICTION = 0x40,
    CODE_VARIABLE = 0x60
};

struct draft_role_row {
    u8 narrower, wider;
};

struct draft_row {
    u8 role, filler;
};

struct draft_line {
    u8 p;
    u8 left[DRAFT_LEFT];
    u8 right;
};

struct draft {
    u32 version;
    u32 c, r, v, e, m, q;
    struct draft_role_row role_row[DRAFT_ROLE_ROWS]; /* of version 2 */
    struct draft_row row[DRAFT_ROWS];
    struct draft_line line[DRAFT_LINES];
};

/* ---- Chance: a sequence of numbers, the same for the same seed */

struct chance {
    u64 state;
};

u64 draw(struct chance *chance);
u32 below_bound(struct chance *chance, u32 bound);            /* 0 to bound - 1; 0 for bound 0 */
u32 between(struct chance *chance, u32 least, u32 most);
int percent(struct chance *chance, u32 percentage);           /* 1 that often */

/* ---- Drafts */

/* Version 1, the counts, and no rows or lines: e, m and q are 0. */
void draft_start(struct draft *draft, u32 c, u32 r, u32 v);

/* The bytes before the first restriction row. */
u32 rows_start(const struct draft *draft);

/* Adds a role row, with which the draft has version 2. */
void add_role_row(struct draft *draft, u32 narrower, u32 wider);

void add_row(struct draft *draft, u32 role, u32 filler);

/* Puts so many variables before the others. They are in no row and no line. */
void add_variables_before(struct draft *draft, u32 variables);

void add_line(struct draft *draft, u32 p, const u8 *left, u32 right);

/* Codes by chance, allowed where they are meant to stand. There must be a
   constant, a row or a variable for an entry. */
u32 random_filler(struct chance *chance, const struct draft *draft);
u32 random_entry(struct chance *chance, const struct draft *draft);
int has_entries(const struct draft *draft);

/* Puts the role rows in any order. */
void shuffle_role_rows(struct chance *chance, struct draft *draft);

/* Makes the draft one of version 2, with role rows of a shape by chance: none, a
   chain or a circle over all roles, any rows, or as many as a readable table may
   have. Some stand twice, and some lead from a role to itself. */
void add_random_role_rows(struct chance *chance, struct draft *draft);

void add_random_rows(struct chance *chance, struct draft *draft, u32 rows);
void add_random_line(struct chance *chance, struct draft *draft, u32 most_left);

/* Adds lines that hold under any sets: each has its right entry on the left
   too. */
void add_easy_lines(struct chance *chance, struct draft *draft, u32 lines, u32 least_left,
                    u32 most_left);

/* Writes the table and answers its length. */
u32 write_draft(const struct draft *draft, u8 *bytes);

#endif
