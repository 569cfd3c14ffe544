/* Relations between roles that a solver might take by mistake. See mistakes.h. */

#include "mistakes.h"

#include "second.h"
#include "stream.h"

const char *const mistake_names[MISTAKES] = {
    "the role rows dropped",
    "at most one role row taken",
    "at most two role rows taken",
    "the role rows gone through once",
    "the role rows turned round",
    "the role rows taken both ways",
    "a role not under itself",
    "the last role row dropped",
};

/* The role rows of a table: byte 10 is their count. */
struct rows {
    u32 q;
    const u8 *row; /* two bytes each */
};

/* The roles to which one row leads from a role of `seen`: forth, from its narrower
   role to its wider one, or back. */
static u32 step(struct rows rows, u32 seen, int forth, int back)
{
    u32 more = 0;
    for (u32 i = 0; i < rows.q; i++) {
        u32 one = rows.row[2 * i], other = rows.row[2 * i + 1];
        more |= forth ? (seen >> one & 1) << other : 0;
        more |= back ? (seen >> other & 1) << one : 0;
    }
    return more;
}

/* `seen`, and all that so many steps or fewer lead to. */
static u32 steps(struct rows rows, u32 seen, u32 most, int forth, int back)
{
    for (u32 i = 0; i < most; i++) {
        seen |= step(rows, seen, forth, back);
    }
    return seen;
}

static u32 one_pass(struct rows rows, u32 seen)
{
    for (u32 i = 0; i < rows.q; i++) {
        struct rows row = { 1, rows.row + 2 * i };
        seen |= step(row, seen, 1, 0);
    }
    return seen;
}

static u32 mistaken_role(enum mistake mistake, struct rows rows, u32 s)
{
    u32 itself = 1u << s;
    switch (mistake) {
    case ONE_STEP: return steps(rows, itself, 1, 1, 0);
    case TWO_STEPS: return steps(rows, itself, 2, 1, 0);
    case ONE_PASS: return one_pass(rows, itself);
    case TURNED_ROUND: return steps(rows, itself, MISTAKE_ROLES, 0, 1);
    case BOTH_WAYS: return steps(rows, itself, MISTAKE_ROLES, 1, 1);
    case NOT_ITSELF: return steps(rows, step(rows, itself, 1, 0), MISTAKE_ROLES, 1, 0);
    case LAST_DROPPED: rows.q -= rows.q > 0; return steps(rows, itself, MISTAKE_ROLES, 1, 0);
    default: return itself;
    }
}

void mistaken(enum mistake mistake, const u8 *table, u32 wider[MISTAKE_ROLES])
{
    struct rows rows = { table[10], table + 11 };
    for (u32 s = 0; s < MISTAKE_ROLES; s++) {
        wider[s] = mistaken_role(mistake, rows, s);
    }
}

int tells(enum mistake mistake, const u8 *table, u32 length, u32 budget, u32 room)
{
    u8 output[MOST_OUTPUT] = { 0 }, other[MOST_OUTPUT] = { 0 };
    u32 wider[MISTAKE_ROLES];
    if (second_read(table, length).number != 0 || table[3] != 2) {
        return 0;
    }
    mistaken(mistake, table, wider);
    struct answer right = second_solve(table, length, budget, output, room);
    /* the right walk's nodes are budget enough to tell it from the wrong one */
    struct answer wrong = second_solve_over(wider, table, length, right.count, other, room);
    return right.number != wrong.number || right.count != wrong.count
        || memcmp(output, other, sizeof output) != 0;
}
