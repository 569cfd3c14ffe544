/* Readable tables by chance. See tables.h. */

#include "tables.h"

#include "second.h"
#include "stream.h"

/* ---- Lines that make the walk longer */

static struct answer try_draft(const struct draft *draft, u32 walk)
{
    u8 bytes[DRAFT_BYTES], output[MOST_OUTPUT];
    u32 length = write_draft(draft, bytes);
    return second_solve(bytes, length, walk, output, sizeof output);
}

/* Whether a line is kept that has brought a table from one answer to another:
   mostly if the table is solved by a longer walk. */
static int keep_line(struct chance *chance, struct answer before, struct answer after)
{
    switch (after.number) {
    case NONE: return percent(chance, 8);
    case BUDGET: return percent(chance, 10);
    default: return after.count > before.count || percent(chance, 30);
    }
}

/* Adds up to so many lines, one at a time, and takes back those that are not
   kept. */
static void add_lines_by_trial(struct chance *chance, u32 walk, struct draft *draft, u32 lines,
                               u32 most_left)
{
    struct answer before = try_draft(draft, walk);
    u32 most = draft->m + lines;
    for (u32 i = 0; i < 3 * lines && draft->m < most && has_entries(draft); i++) {
        u32 m = draft->m;
        add_random_line(chance, draft, most_left);
        struct answer after = try_draft(draft, walk);
        if (keep_line(chance, before, after)) {
            before = after;
        } else {
            draft->m = m;
        }
    }
}

/* ---- Makes of tables */

/* Counts; half of the drafts have version 2, and then more roles. */
static void start(struct chance *chance, struct draft *draft, u32 c, u32 r, u32 v)
{
    draft_start(draft, c, r, v);
    if (percent(chance, 50)) {
        draft->r = between(chance, r, r < 12 ? r + 4 : 16);
        add_random_role_rows(chance, draft);
    }
}

/* Counts, with 1 to `atoms` constants and rows together, and the rows. */
static void start_by_chance(struct chance *chance, struct draft *draft, u32 atoms, u32 least_v,
                            u32 most_v)
{
    u32 all = between(chance, 1, atoms);
    u32 c = percent(chance, 50) ? below_bound(chance, 2) : below_bound(chance, all + 1);
    start(chance, draft, c, between(chance, 1, 2), between(chance, least_v, most_v));
    add_random_rows(chance, draft, all - c);
    if (draft->e + draft->q == 0 && percent(chance, 50)) {
        draft->r = 0;
    }
}

static void make_small(struct chance *chance, u32 walk, struct draft *draft)
{
    (void)walk;
    start_by_chance(chance, draft, 4, 0, 3);
    u32 lines = below_bound(chance, 5);
    for (u32 i = 0; i < lines && has_entries(draft); i++) {
        add_random_line(chance, draft, 3);
    }
}

static void make_by_trial(struct chance *chance, u32 walk, struct draft *draft)
{
    start_by_chance(chance, draft, 4, 1, 3);
    add_lines_by_trial(chance, walk, draft, between(chance, 3, 9), 4);
}

/* More variables over fewer atoms. */
static void make_deep(struct chance *chance, u32 walk, struct draft *draft)
{
    start_by_chance(chance, draft, 3, 3, 6);
    add_lines_by_trial(chance, walk, draft, between(chance, 3, 10), 3);
}

/* One variable over more atoms, and lines with long left sides. */
static void make_broad(struct chance *chance, u32 walk, struct draft *draft)
{
    start_by_chance(chance, draft, 9, 1, 1);
    add_lines_by_trial(chance, walk, draft, between(chance, 2, 8), 8);
}

/* No variables: the order alone. */
static void make_ground(struct chance *chance, u32 walk, struct draft *draft)
{
    start_by_chance(chance, draft, 12, 0, 0);
    add_lines_by_trial(chance, walk, draft, between(chance, 1, 12), 8);
}

/* A chain: each variable below a restriction on its neighbour, which is the
   next variable or the one before. */
static void make_chain(struct chance *chance, u32 walk, struct draft *draft)
{
    u32 up = (u32)percent(chance, 50);
    u32 v = between(chance, 2, up ? 3 : 6);
    start(chance, draft, between(chance, 0, 1), between(chance, 1, 2), v);
    for (u32 x = 0; x + 1 < v; x++) {
        u8 left = (u8)(CODE_VARIABLE + x + 1 - up);
        add_row(draft, below_bound(chance, draft->r), CODE_VARIABLE + x + up);
        add_line(draft, 1, &left, CODE_RESTRICTION + x);
    }
    if (percent(chance, 60)) {
        add_random_rows(chance, draft, 1);
    }
    add_lines_by_trial(chance, walk, draft, between(chance, 1, 4), 3);
}

/* One role for most rows, and the last role for some, more in version 2. */
static u32 mostly_first_role(struct chance *chance, const struct draft *draft)
{
    return percent(chance, draft->version == 1 ? 90 : 60) ? 0 : draft->r - 1;
}

/* A tower: variable x + 1 is below a restriction on variable x, so that the
   order between the high ones is decided only at the bottom. */
static void make_tower(struct chance *chance, u32 walk, struct draft *draft)
{
    u32 v = between(chance, 3, 12);
    start(chance, draft, below_bound(chance, 2), percent(chance, 80) ? 1 : 2, v);
    for (u32 x = 0; x + 1 < v; x++) {
        u8 higher = (u8)(CODE_VARIABLE + x + 1);
        add_row(draft, mostly_first_role(chance, draft), CODE_VARIABLE + x);
        add_line(draft, 1, &higher, CODE_RESTRICTION + x);
    }
    for (u32 i = 0; i < 2; i++) {
        u32 high = between(chance, draft->e / 2, draft->e - 1);
        u8 left = (u8)(CODE_RESTRICTION + high);
        add_line(draft, 1, &left, CODE_RESTRICTION + between(chance, high / 2, high));
    }
    add_lines_by_trial(chance, walk, draft, between(chance, 1, 4), 3);
}

/* Two towers side by side, on the same set or on different ones, and lines that
   compare them. */
static void make_two_towers(struct chance *chance, u32 walk, struct draft *draft)
{
    u32 height = between(chance, 2, 5);
    u8 bottom[2] = { CODE_VARIABLE, CODE_VARIABLE + 1 };
    start(chance, draft, between(chance, 1, 2), percent(chance, 80) ? 1 : 2, 2 * height);
    add_line(draft, 1, bottom, CODE_CONSTANT + below_bound(chance, draft->c));
    if (percent(chance, 70)) {
        add_line(draft, 1, bottom + 1, CODE_CONSTANT + below_bound(chance, draft->c));
    }
    for (u32 x = 0; x + 2 < 2 * height; x++) {
        u8 higher = (u8)(CODE_VARIABLE + x + 2);
        add_row(draft, mostly_first_role(chance, draft), CODE_VARIABLE + x);
        if (percent(chance, 90)) {
            add_line(draft, 1, &higher, CODE_RESTRICTION + x);
        }
    }
    add_lines_by_trial(chance, walk, draft, between(chance, 1, 5), 3);
}

void make_ring(struct draft *draft, u32 before, u32 ring, u32 after)
{
    u32 all = before + ring;
    draft_start(draft, 0, 1, all + after);
    for (u32 x = 0; x < all; x++) {
        add_row(draft, 0, CODE_VARIABLE + (x + 1 < all ? x + 1 : before));
    }
    add_row(draft, 0, CODE_TOP);
    for (u32 x = 0; x < all; x++) {
        u8 left = (u8)(CODE_VARIABLE + x);
        add_line(draft, 1, &left, CODE_RESTRICTION + all);
    }
}

/* Version 2 for a ring: some of its rows have another role. */
static void add_roles_to_ring(struct chance *chance, struct draft *draft)
{
    draft->r = between(chance, 2, 5);
    add_random_role_rows(chance, draft);
    for (u32 k = 0; k < draft->e; k++) {
        draft->row[k].role = (u8)(percent(chance, 60) ? 0 : below_bound(chance, draft->r));
    }
}

/* A ring, often with a way across it, a constant, or a row of another role. */
static void make_circles(struct chance *chance, u32 walk, struct draft *draft)
{
    make_ring(draft, below_bound(chance, 3), between(chance, 1, 5), below_bound(chance, 3));
    draft->c = (u32)percent(chance, 30);
    if (percent(chance, 50)) {
        draft->row[below_bound(chance, draft->e - 1)].filler = (u8)(CODE_VARIABLE + below_bound(chance, draft->v));
    }
    if (percent(chance, 40)) {
        add_roles_to_ring(chance, draft);
    } else if (percent(chance, 30)) {
        draft->r = 2;
        draft->row[below_bound(chance, draft->e)].role = 1;
    }
    if (percent(chance, 60)) {
        add_lines_by_trial(chance, walk, draft, between(chance, 1, 3), 3);
    }
}

/* A count of constants, where there are so many atoms: from the least that leaves no
   more than 32 rows. */
static u32 constants_among(struct chance *chance, u32 all)
{
    u32 least = all > 32 ? all - 32 : 0;
    u32 most = all < 32 ? all : 32;
    u32 few = least + 3 < most ? least + 3 : most;
    return between(chance, least, percent(chance, 30) ? most : few);
}

/* Counts up to the bounds, and a few lines that are easy to meet. */
static void make_wide(struct chance *chance, u32 walk, struct draft *draft)
{
    u32 all = between(chance, 5, percent(chance, 60) ? 24 : 56);
    u32 c = constants_among(chance, all);
    start(chance, draft, c, between(chance, 1, 16), between(chance, 1, percent(chance, 60) ? 12 : 24));
    add_random_rows(chance, draft, all - c);
    u32 lines = between(chance, 0, 3);
    for (u32 i = 0; i < lines; i++) {
        u8 left = (u8)(CODE_VARIABLE + below_bound(chance, draft->v));
        u32 atom = below_bound(chance, 5);
        add_line(draft, 1, &left, atom < c ? CODE_CONSTANT + atom : CODE_RESTRICTION + (atom - c));
    }
    if (percent(chance, 50)) {
        add_lines_by_trial(chance, walk, draft, between(chance, 1, 6), 8);
    }
}

/* Many lines, of which a few say something, at any place among the others. */
static void make_long(struct chance *chance, u32 walk, struct draft *draft)
{
    start_by_chance(chance, draft, 4, 1, 3);
    add_lines_by_trial(chance, walk, draft, between(chance, 2, 7), 4);
    add_easy_lines(chance, draft, between(chance, 12, 57), 1, percent(chance, 50) ? 2 : 8);
    for (u32 i = draft->m; i-- > 1;) {
        u32 other = below_bound(chance, i + 1);
        struct draft_line kept = draft->line[i];
        draft->line[i] = draft->line[other];
        draft->line[other] = kept;
    }
}

/* Adds what does not move the sets of a first solution: rows after the others, whose
   atoms have the highest numbers, and variables before the others. Then some lines,
   of the new rows too. */
static void widen(struct chance *chance, u32 walk, struct draft *draft)
{
    u32 rows = (draft->c > 24 ? 56 - draft->c : 32) - draft->e;
    if (draft->r > 0) {
        add_random_rows(chance, draft, percent(chance, 50) ? rows : below_bound(chance, rows + 1));
    }
    if (percent(chance, 60)) {
        add_variables_before(draft, percent(chance, 50) ? 24 - draft->v : below_bound(chance, 25 - draft->v));
    }
    if (draft->m < 60 && percent(chance, 60)) {
        add_lines_by_trial(chance, walk, draft, between(chance, 1, 3), 8);
    }
}

/* ---- */

struct make {
    u32 weight;
    void (*make)(struct chance *chance, u32 walk, struct draft *draft);
};

static const struct make makes[] = {
    { 10, make_small }, { 21, make_by_trial }, { 12, make_chain }, { 10, make_deep },
    { 8, make_broad },  { 8, make_wide },      { 7, make_tower },  { 8, make_two_towers },
    { 8, make_circles }, { 5, make_long },     { 3, make_ground },
};

void make_table(struct chance *chance, u32 walk, struct draft *draft)
{
    u32 lot = below_bound(chance, 100); /* the weights are percentages */
    u32 i = 0;
    while (lot >= makes[i].weight) {
        lot -= makes[i++].weight;
    }
    makes[i].make(chance, walk, draft);
    if (percent(chance, 10)) {
        widen(chance, walk < 600 ? walk : 600, draft);
    }
}

void make_table_of(struct chance *chance, u32 walk, u32 version, struct draft *draft)
{
    do {
        make_table(chance, walk, draft);
    } while (draft->version != version);
}

void make_full_table(struct chance *chance, u32 walk, u32 version, struct draft *draft)
{
    do {
        make_table_of(chance, walk, version, draft);
    } while (draft->e == 0 || draft->m == 0 || draft->line[draft->m - 1].p == 0
             || (version == 2 && draft->q == 0));
}
