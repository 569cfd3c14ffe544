/* Catalogue tables in the making. See draft.h. */

#include "draft.h"

/* ---- Chance */

u64 draw(struct chance *chance)
{
    chance->state += 0x9E3779B97F4A7C15u;
    u64 x = chance->state;
    x = (x ^ x >> 30) * 0xBF58476D1CE4E5B9u;
    x = (x ^ x >> 27) * 0x94D049BB133111EBu;
    return x ^ x >> 31;
}

u32 below_bound(struct chance *chance, u32 bound)
{
    u64 number = draw(chance) >> 32;
    return (u32)(number * bound >> 32);
}

u32 between(struct chance *chance, u32 least, u32 most)
{
    return least + below_bound(chance, most - least + 1);
}

int percent(struct chance *chance, u32 percentage)
{
    return below_bound(chance, 100) < percentage;
}

/* ---- Drafts */

void draft_start(struct draft *draft, u32 c, u32 r, u32 v)
{
    memset(draft, 0, sizeof *draft);
    draft->version = 1;
    draft->c = c;
    draft->r = r;
    draft->v = v;
}

u32 rows_start(const struct draft *draft)
{
    return draft->version == 1 ? 10 : 11 + 2 * draft->q;
}

void add_role_row(struct draft *draft, u32 narrower, u32 wider)
{
    draft->version = 2;
    if (draft->q < DRAFT_ROLE_ROWS) {
        draft->role_row[draft->q].narrower = (u8)narrower;
        draft->role_row[draft->q].wider = (u8)wider;
        draft->q++;
    }
}

void add_row(struct draft *draft, u32 role, u32 filler)
{
    if (draft->e < DRAFT_ROWS) {
        draft->row[draft->e].role = (u8)role;
        draft->row[draft->e].filler = (u8)filler;
        draft->e++;
    }
}

/* Adds to the number of a variable's code. */
static void move_variable(u8 *code, u32 by)
{
    if (*code >= CODE_VARIABLE) {
        *code = (u8)(*code + by);
    }
}

void add_variables_before(struct draft *draft, u32 variables)
{
    draft->v += variables;
    for (u32 k = 0; k < draft->e; k++) {
        move_variable(&draft->row[k].filler, variables);
    }
    for (u32 i = 0; i < draft->m; i++) {
        struct draft_line *line = &draft->line[i];
        for (u32 k = 0; k < line->p; k++) {
            move_variable(&line->left[k], variables);
        }
        move_variable(&line->right, variables);
    }
}

void add_line(struct draft *draft, u32 p, const u8 *left, u32 right)
{
    if (draft->m < DRAFT_LINES && p <= DRAFT_LEFT) {
        struct draft_line *line = &draft->line[draft->m++];
        line->p = (u8)p;
        memcpy(line->left, left, p);
        line->right = (u8)right;
    }
}

/* One of two or three things by weight; a thing that there is none of has no
   weight. Answers its number. */
static u32 weigh(struct chance *chance, u32 first, u32 second, u32 third)
{
    u32 lot = below_bound(chance, first + second + third);
    return lot < first ? 0 : lot < first + second ? 1 : 2;
}

u32 random_filler(struct chance *chance, const struct draft *draft)
{
    switch (weigh(chance, draft->v ? 55 : 0, draft->c ? 30 : 0, 15)) {
    case 0: return CODE_VARIABLE + below_bound(chance, draft->v);
    case 1: return CODE_CONSTANT + below_bound(chance, draft->c);
    default: return CODE_TOP;
    }
}

int has_entries(const struct draft *draft)
{
    return draft->c + draft->e + draft->v > 0;
}

u32 random_entry(struct chance *chance, const struct draft *draft)
{
    switch (weigh(chance, draft->v ? 45 : 0, draft->e ? 35 : 0, draft->c ? 20 : 0)) {
    case 0: return CODE_VARIABLE + below_bound(chance, draft->v);
    case 1: return CODE_RESTRICTION + below_bound(chance, draft->e);
    default: return CODE_CONSTANT + below_bound(chance, draft->c);
    }
}

/* Each role's row to the next one, or to the one before, and for a circle one
   from the last to the first. */
static void add_role_chain(struct draft *draft, u32 up, u32 circle)
{
    for (u32 i = 0; i + 1 < draft->r + circle; i++) {
        u32 next = (i + 1) % draft->r;
        add_role_row(draft, up ? i : next, up ? next : i);
    }
}

static void add_any_role_rows(struct chance *chance, struct draft *draft, u32 rows)
{
    for (u32 i = 0; i < rows; i++) {
        add_role_row(draft, below_bound(chance, draft->r), below_bound(chance, draft->r));
    }
}

void shuffle_role_rows(struct chance *chance, struct draft *draft)
{
    for (u32 i = draft->q; i-- > 1;) {
        u32 other = below_bound(chance, i + 1);
        struct draft_role_row kept = draft->role_row[i];
        draft->role_row[i] = draft->role_row[other];
        draft->role_row[other] = kept;
    }
}

void add_random_role_rows(struct chance *chance, struct draft *draft)
{
    u32 lot = below_bound(chance, 100);
    draft->version = 2;
    if (draft->r == 0 || lot < 10) {
        return;
    }
    if (lot < 70) {
        add_role_chain(draft, (u32)percent(chance, 50), lot < 20);
    }
    if (lot >= 60) {
        add_any_role_rows(chance, draft, lot < 95 ? between(chance, 1, 5) : 32 - draft->q);
    }
    while (draft->q > 0 && draft->q < 32 && percent(chance, 20)) {
        struct draft_role_row again = draft->role_row[below_bound(chance, draft->q)];
        add_role_row(draft, again.narrower, percent(chance, 50) ? again.narrower : again.wider);
    }
    if (percent(chance, 60)) {
        shuffle_role_rows(chance, draft);
    }
}

void add_random_rows(struct chance *chance, struct draft *draft, u32 rows)
{
    for (u32 k = 0; k < rows; k++) {
        if (draft->e > 0 && percent(chance, 8)) {
            struct draft_row again = draft->row[below_bound(chance, draft->e)];
            add_row(draft, again.role, again.filler);
        } else {
            add_row(draft, below_bound(chance, draft->r), random_filler(chance, draft));
        }
    }
}

void add_random_line(struct chance *chance, struct draft *draft, u32 most_left)
{
    u8 left[DRAFT_LEFT];
    if (draft->m > 0 && percent(chance, 4)) {
        struct draft_line again = draft->line[below_bound(chance, draft->m)];
        add_line(draft, again.p, again.left, again.right);
        return;
    }
    u32 p = percent(chance, 4) ? 0 : percent(chance, 55) ? 1 : between(chance, 1, most_left);
    for (u32 i = 0; i < p; i++) {
        left[i] = i > 0 && percent(chance, 5) ? left[i - 1] : (u8)random_entry(chance, draft);
    }
    add_line(draft, p, left, random_entry(chance, draft));
}

void add_easy_lines(struct chance *chance, struct draft *draft, u32 lines, u32 least_left,
                    u32 most_left)
{
    u8 left[DRAFT_LEFT];
    for (u32 i = 0; i < lines && has_entries(draft); i++) {
        u32 p = between(chance, least_left, most_left);
        for (u32 k = 0; k < p; k++) {
            left[k] = (u8)random_entry(chance, draft);
        }
        add_line(draft, p, left, left[below_bound(chance, p)]);
    }
}

u32 write_draft(const struct draft *draft, u8 *bytes)
{
    const u8 header[11] = { 0x56, 0x4F, 0x43, (u8)draft->version, 0, (u8)draft->c, (u8)draft->r,
                            (u8)draft->v, (u8)draft->e, (u8)draft->m, (u8)draft->q };
    u32 length = draft->version == 1 ? 10 : 11;
    memcpy(bytes, header, length);
    for (u32 i = 0; i < draft->q; i++) {
        bytes[length++] = draft->role_row[i].narrower;
        bytes[length++] = draft->role_row[i].wider;
    }
    for (u32 k = 0; k < draft->e; k++) {
        bytes[length++] = draft->row[k].role;
        bytes[length++] = draft->row[k].filler;
    }
    for (u32 i = 0; i < draft->m; i++) {
        const struct draft_line *line = &draft->line[i];
        bytes[length++] = line->p;
        memcpy(bytes + length, line->left, line->p);
        length += line->p;
        bytes[length++] = line->right;
    }
    return length;
}
