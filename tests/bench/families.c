/* families NAME: writes a stream of solve questions on standard output, made
   from fixed seeds: tables that need long walks.

     chains        variables that depend on each other in chains and towers
     constants     many constants, one or two variables
     variables     many variables, few atoms
     lines         many lines with long left sides
     none          no solution, found only at the end of a long walk
     roles         chains of role rows, without which most answers are others
     atoms-40      40 atoms, of which the rows lead from variable to variable
     atoms-56      56 atoms, of which the rows are entries of lines
     variables-24  24 variables

   and for the measure of the stack:

     bounds        a tower of 12 variables, with the most lines, which are the longest
     role-bounds   the same with the most role rows
     wide-bounds   56 atoms, 24 variables, the most and the longest lines; both versions
     chain-24      a chain of 24 variables with the most rows, and a long walk

   families NAME short: the same tables with small budgets. */

#include "../second/draft.h"
#include "../second/stream.h"

static struct chance chance;
static u32 most = 0xFFFFFFFF; /* no budget is larger */

static void ask(const struct draft *draft, u32 budget)
{
    static struct question question;
    question.kind = KIND_SOLVE;
    question.number = budget < most ? budget : most;
    question.room = 8 * draft->v;
    question.length = write_draft(draft, question.table);
    put_question(&question);
}

static u8 variable(u32 x)
{
    return (u8)(CODE_VARIABLE + x);
}

/* The line: variable x below the code. */
static void below_code(struct draft *draft, u32 x, u32 right)
{
    u8 left = variable(x);
    add_line(draft, 1, &left, right);
}

/* ---- chains */

/* X0 below r X1, X1 below r X2, and so on; the last below the constant. The
   chain is known to hold only when all of it is chosen. */
static void chain_up(u32 v, u32 roles, u32 more_constants, u32 budget)
{
    struct draft draft;
    draft_start(&draft, 1 + more_constants, roles, v);
    for (u32 x = 0; x + 1 < v; x++) {
        add_row(&draft, below_bound(&chance, roles), variable(x + 1));
        below_code(&draft, x, CODE_RESTRICTION + x);
    }
    below_code(&draft, v - 1, CODE_CONSTANT + more_constants);
    ask(&draft, budget);
}

/* Two towers on variables 0 and 1, and lines that compare their tops. */
static void two_towers(u32 height, u32 constants, u32 budget)
{
    struct draft draft;
    draft_start(&draft, constants, 1, 2 * height);
    below_code(&draft, 0, CODE_CONSTANT);
    below_code(&draft, 1, CODE_CONSTANT + constants - 1);
    for (u32 x = 0; x + 2 < 2 * height; x++) {
        add_row(&draft, 0, variable(x));
        below_code(&draft, x + 2, CODE_RESTRICTION + x);
    }
    below_code(&draft, 2 * height - 1, CODE_RESTRICTION + 2 * height - 4);
    below_code(&draft, 2 * height - 2, variable(2 * height - 1));
    ask(&draft, budget);
}

static void chains(void)
{
    chain_up(4, 1, 0, 10000000);
    chain_up(4, 2, 1, 10000000);
    chain_up(5, 1, 0, 10000000);
    chain_up(5, 2, 0, 10000000);
    chain_up(6, 1, 0, 8000000);
    for (u32 height = 3; height < 7; height++) {
        two_towers(height, 2, 3000000);
        two_towers(height, 1, 3000000);
    }
}

/* ---- constants */

static void constants_of_one(u32 c, u32 lines)
{
    struct draft draft;
    draft_start(&draft, c, 0, 1);
    below_code(&draft, 0, CODE_CONSTANT + c - 1);
    for (u32 i = 0; i < lines; i++) {
        below_code(&draft, 0, CODE_CONSTANT + below_bound(&chance, c));
    }
    ask(&draft, 0xFFFFFFFF);
}

static void constants_of_two(u32 c)
{
    struct draft draft;
    u8 both[2] = { variable(0), variable(1) };
    draft_start(&draft, c, 0, 2);
    add_line(&draft, 2, both, CODE_CONSTANT + c - 1);
    add_line(&draft, 2, both, CODE_CONSTANT + c / 2);
    below_code(&draft, 0, variable(1));
    below_code(&draft, 1, CODE_CONSTANT + c - 2);
    ask(&draft, 0xFFFFFFFF);
}

static void constants(void)
{
    for (u32 c = 16; c < 25; c++) {
        constants_of_one(c, c - 14);
    }
    for (u32 c = 8; c < 13; c++) {
        constants_of_two(c);
    }
}

/* ---- variables */

/* Lines from the early variables to the late ones. */
static void far_lines(u32 v, u32 c, u32 rows, u32 lines)
{
    struct draft draft;
    draft_start(&draft, c, 1, v);
    add_random_rows(&chance, &draft, rows);
    below_code(&draft, v - 1, CODE_CONSTANT + c - 1);
    for (u32 i = 0; i < lines; i++) {
        u8 left[2] = { variable(below_bound(&chance, v / 2)),
                       variable(v / 2 + below_bound(&chance, v - v / 2)) };
        add_line(&draft, 1 + below_bound(&chance, 2), left, i % 2 ? random_entry(&chance, &draft) : variable(v - 1));
    }
    ask(&draft, 2000000);
}

static void variables(void)
{
    for (u32 i = 0; i < 24; i++) {
        far_lines(8 + i % 5, 1 + i % 2, 1, 2 + i % 6);
    }
}

/* ---- lines */

/* Lines that hold under any sets, and after them two that do not. */
static void many_lines(u32 c, u32 rows, u32 v, u32 budget)
{
    struct draft draft;
    draft_start(&draft, c, 2, v);
    add_random_rows(&chance, &draft, rows);
    add_easy_lines(&chance, &draft, 62, 4, 8);
    below_code(&draft, 0, CODE_RESTRICTION + rows - 1);
    below_code(&draft, v - 1, CODE_RESTRICTION + rows - 2);
    ask(&draft, budget);
}

static void lines(void)
{
    for (u32 i = 0; i < 24; i++) {
        many_lines(2 + i % 4, 5 + i % 5, 1 + i % 4, 1500000);
    }
}

/* ---- none */

/* Each variable below a restriction on the next one, around a ring. */
static void ring(u32 v, u32 more_constants)
{
    struct draft draft;
    draft_start(&draft, more_constants, 1, v);
    for (u32 x = 0; x < v; x++) {
        add_row(&draft, 0, variable((x + 1) % v));
        below_code(&draft, x, CODE_RESTRICTION + x);
    }
    ask(&draft, 0xFFFFFFFF);
}

/* The last variable is below A and B, and r A and r B are below r of it. */
static void torn(u32 v, u32 rows)
{
    struct draft draft;
    u8 left[2] = { CODE_RESTRICTION, CODE_RESTRICTION + 1 };
    draft_start(&draft, 2, 1, v);
    add_row(&draft, 0, CODE_CONSTANT);
    add_row(&draft, 0, CODE_CONSTANT + 1);
    add_row(&draft, 0, variable(v - 1));
    add_random_rows(&chance, &draft, rows);
    below_code(&draft, v - 1, CODE_CONSTANT);
    below_code(&draft, v - 1, CODE_CONSTANT + 1);
    add_line(&draft, 2, left, CODE_RESTRICTION + 2);
    ask(&draft, 0xFFFFFFFF);
}

/* A chain up to a variable that is below A, and that B is below. */
static void torn_chain(u32 v, u32 constants)
{
    struct draft draft;
    u8 left = CODE_CONSTANT + 1;
    draft_start(&draft, constants, 1, v);
    for (u32 x = 0; x + 1 < v; x++) {
        add_row(&draft, 0, variable(x + 1));
        below_code(&draft, x, CODE_RESTRICTION + x);
    }
    below_code(&draft, v - 1, CODE_CONSTANT);
    add_line(&draft, 1, &left, variable(v - 1));
    ask(&draft, 0xFFFFFFFF);
}

static void none(void)
{
    for (u32 c = 5; c < 11; c++) {
        ring(2, c);
    }
    ring(3, 2);
    ring(3, 3);
    ring(3, 4);
    torn(1, 17);
    torn(2, 5);
    torn(2, 6);
    torn(3, 1);
    torn(3, 2);
    torn(4, 0);
    torn_chain(3, 4);
    torn_chain(4, 2);
    torn_chain(4, 3);
    torn_chain(4, 4);
}

/* ---- roles */

/* Role rows from each role to the next, the last step first. */
static void chain_of_roles(struct draft *draft)
{
    for (u32 s = draft->r - 1; s-- > 0;) {
        add_role_row(draft, s, s + 1);
    }
}

/* X0 below s X1, X1 below s X2, and so on, where s is the widest role; the last
   below the constant. A row of a narrower role comes before each row of s. */
static void role_chain_up(u32 v, u32 roles, u32 more_constants, u32 budget)
{
    struct draft draft;
    draft_start(&draft, 1 + more_constants, roles, v);
    chain_of_roles(&draft);
    for (u32 x = 0; x + 1 < v; x++) {
        add_row(&draft, x % (roles - 1), variable(x + 1));
    }
    for (u32 x = 0; x + 1 < v; x++) {
        add_row(&draft, roles - 1, variable(x + 1));
        below_code(&draft, x, CODE_RESTRICTION + v - 1 + x);
    }
    below_code(&draft, v - 1, CODE_CONSTANT + more_constants);
    ask(&draft, budget);
}

/* Two towers, the one by the narrowest role and the other by the widest, and the
   top of the one below that of the other. */
static void role_towers(u32 height, u32 roles, u32 budget)
{
    struct draft draft;
    draft_start(&draft, 1, roles, 2 * height);
    chain_of_roles(&draft);
    below_code(&draft, 0, CODE_CONSTANT);
    below_code(&draft, 1, CODE_CONSTANT);
    for (u32 x = 0; x + 2 < 2 * height; x++) {
        add_row(&draft, x % 2 == 0 ? 0 : roles - 1, variable(x));
        below_code(&draft, x + 2, CODE_RESTRICTION + x);
    }
    below_code(&draft, 2 * height - 2, CODE_RESTRICTION + 2 * height - 3);
    below_code(&draft, 2 * height - 2, variable(2 * height - 1));
    ask(&draft, budget);
}

/* The last variable is below A and B, and r A and s B are below t of it, where t is
   wider than r and s: no solution. */
static void role_torn(u32 v, u32 roles, u32 rows)
{
    struct draft draft;
    u8 left[2] = { CODE_RESTRICTION, CODE_RESTRICTION + 1 };
    draft_start(&draft, 2, roles, v);
    chain_of_roles(&draft);
    add_row(&draft, 0, CODE_CONSTANT);
    add_row(&draft, roles / 2, CODE_CONSTANT + 1);
    add_row(&draft, roles - 1, variable(v - 1));
    add_random_rows(&chance, &draft, rows);
    below_code(&draft, v - 1, CODE_CONSTANT);
    below_code(&draft, v - 1, CODE_CONSTANT + 1);
    add_line(&draft, 2, left, CODE_RESTRICTION + 2);
    ask(&draft, 0xFFFFFFFF);
}

/* Each variable below the widest role of the next one, around a ring, with rows of
   the narrowest role too: no solution. */
static void role_ring(u32 v, u32 roles, u32 more_constants)
{
    struct draft draft;
    draft_start(&draft, more_constants, roles, v);
    chain_of_roles(&draft);
    for (u32 x = 0; x < v; x++) {
        add_row(&draft, 0, variable((x + 1) % v));
    }
    for (u32 x = 0; x < v; x++) {
        add_row(&draft, roles - 1, variable((x + 1) % v));
        below_code(&draft, x, CODE_RESTRICTION + v + x);
    }
    ask(&draft, 0xFFFFFFFF);
}

/* For each of three fillers a row of every role; lines that are tested at each full
   node and hold by the role of one entry; and after them two that do not hold by
   themselves. */
static void role_lines(u32 c, u32 roles, u32 v, u32 lines)
{
    static const u8 filler[3] = { CODE_TOP, CODE_VARIABLE, CODE_CONSTANT };
    struct draft draft;
    u8 left[8];
    draft_start(&draft, c, roles, v);
    chain_of_roles(&draft);
    for (u32 k = 0; k < 3 * roles; k++) {
        add_row(&draft, k % roles, filler[k / roles]);
    }
    for (u32 i = 0; i < lines; i++) {
        u32 of = below_bound(&chance, 3) * roles;
        for (u32 k = 0; k < 6; k++) {
            left[k] = (u8)(CODE_RESTRICTION + below_bound(&chance, 3 * roles));
        }
        left[6] = (u8)(CODE_RESTRICTION + of + below_bound(&chance, roles - 1));
        left[7] = variable(v - 1);
        add_line(&draft, 8, left, CODE_RESTRICTION + of + roles - 1);
    }
    below_code(&draft, 0, CODE_RESTRICTION + 3 * roles - 1);
    below_code(&draft, v - 1, CODE_RESTRICTION + 3 * roles - 2);
    ask(&draft, 1500000);
}

static void roles(void)
{
    role_chain_up(4, 3, 0, 10000000);
    role_chain_up(4, 4, 1, 10000000);
    role_chain_up(4, 16, 2, 10000000);
    role_chain_up(5, 5, 0, 10000000);
    for (u32 height = 3; height < 7; height++) {
        role_towers(height, 2 + height, 3000000);
        role_towers(height, 16, 3000000);
    }
    for (u32 i = 0; i < 12; i++) {
        role_lines(1 + i % 3, 4 + i % 4, 1 + i % 3, 62);
    }
    role_torn(1, 6, 17);
    role_torn(2, 3, 6);
    role_torn(3, 5, 2);
    role_ring(2, 4, 5);
    role_ring(2, 8, 6);
}

/* ---- atoms-40 */

/* A tower on the last variables, each below a restriction on the one before it, which are
   the first rows; then rows by chance, and lines between them that compare the
   variables. */
static void wide_tower(u32 c, u32 rows, u32 v, u32 height, u32 lines, u32 budget)
{
    struct draft draft;
    u32 bottom = v - height;
    draft_start(&draft, c, 2, v);
    below_code(&draft, bottom, CODE_CONSTANT + c - 1);
    for (u32 x = bottom; x + 1 < v; x++) {
        add_row(&draft, 0, variable(x));
        below_code(&draft, x + 1, CODE_RESTRICTION + x - bottom);
    }
    while (draft.e < rows) {
        add_row(&draft, draft.e % 2, variable(bottom + below_bound(&chance, height)));
    }
    for (u32 i = 0; i < lines; i++) {
        u32 row = CODE_RESTRICTION + height - 1 + below_bound(&chance, rows - height - 1);
        u8 left[3] = { (u8)row, variable(v - 1), (u8)(CODE_RESTRICTION + below_bound(&chance, rows)) };
        add_line(&draft, 3, left, row + 2); /* which has the same role */
    }
    ask(&draft, budget);
}

static void atoms_40(void)
{
    for (u32 i = 0; i < 6; i++) {
        wide_tower(8 + i % 2, 32 - i % 2, 7 + 3 * i, 5 + i % 4, 6 * i, 800000);
        many_lines(9 + i % 3, 31 - i % 3, 1 + i % 4, 150000);
    }
}

/* ---- atoms-56 */

/* The rows have the higher atom numbers, so the sets of a walk have constants alone. Lines
   between rows on neighbours compare their sets, by a row and by one of three entries in
   turn; the first variable and the last are below constants. */
static void compared(u32 c, u32 v, u32 first)
{
    struct draft draft;
    draft_start(&draft, c, 1, v);
    for (u32 x = 0; x < 56 - c; x++) {
        add_row(&draft, 0, variable(x % v));
    }
    below_code(&draft, 0, CODE_CONSTANT + first);
    below_code(&draft, v - 1, CODE_CONSTANT + first + 1);
    for (u32 x = 0; x + 1 < v; x++) {
        u8 left[3] = { (u8)(CODE_RESTRICTION + x), (u8)(CODE_RESTRICTION + v - 1), CODE_CONSTANT };
        add_line(&draft, 1 + 2 * (x % 2), left, CODE_RESTRICTION + x + 1);
    }
    add_easy_lines(&chance, &draft, 60 - draft.m, 4, 8);
    ask(&draft, 300000);
}

/* One variable below one constant, after lines that compare rows on it with others. */
static void late_constant(u32 c, u32 constant)
{
    struct draft draft;
    draft_start(&draft, c, 2, 1);
    add_random_rows(&chance, &draft, 56 - c);
    add_easy_lines(&chance, &draft, 12, 2, 4);
    below_code(&draft, 0, CODE_CONSTANT + constant);
    ask(&draft, 3000000);
}

static void atoms_56(void)
{
    for (u32 i = 0; i < 8; i++) {
        compared(24 + i, 2 + 2 * (i % 4), 4 + i % 3);
    }
    for (u32 i = 0; i < 6; i++) {
        many_lines(24 + i, 32 - i, 1 + i % 4, 100000);
    }
    late_constant(32, 19);
    late_constant(24, 20);
}

/* ---- variables-24 */

static void variables_24(void)
{
    for (u32 i = 0; i < 16; i++) {
        far_lines(24 - i % 3, 1 + i % 2, 1 + i % 3, 2 + i % 6);
    }
    two_towers(12, 2, 400000);
    role_towers(12, 16, 400000);
    wide_tower(2, 30, 24, 20, 20, 100000);
    wide_tower(4, 32, 24, 12, 30, 300000);
}

/* ---- bounds */

/* 12 variables, 24 atoms and 64 lines, most of them of 8 left entries: a tower of
   twelve variables on r.top, two restrictions on whose highest ones are compared
   down to the bottom. Solved with N = 4108, like the case tower-12. */
static void ask_bounds(struct draft draft)
{
    u8 left = CODE_RESTRICTION + 12;
    add_row(&draft, 0, CODE_TOP);
    for (u32 x = 0; x < 12; x++) {
        add_row(&draft, 0, variable(x));
        below_code(&draft, x, CODE_RESTRICTION + x);
    }
    add_line(&draft, 1, &left, CODE_RESTRICTION + 11);
    add_random_rows(&chance, &draft, 24 - draft.e);
    add_easy_lines(&chance, &draft, 64 - draft.m, 8, 8);
    ask(&draft, 0xFFFFFFFF);
}

static void bounds(void)
{
    struct draft draft;
    draft_start(&draft, 0, 16, 12);
    ask_bounds(draft);
}

/* The same with 32 role rows, of which 15 are a chain. */
static void role_bounds(void)
{
    struct draft draft;
    draft_start(&draft, 0, 16, 12);
    chain_of_roles(&draft);
    while (draft.q < 32) {
        add_role_row(&draft, 0, draft.q % 16);
    }
    ask_bounds(draft);
}

/* 56 atoms, 24 variables and 64 lines of 8 left entries. */
static void ask_wide_bounds(struct draft draft)
{
    add_random_rows(&chance, &draft, 56 - draft.c);
    add_easy_lines(&chance, &draft, 64, 8, 8);
    ask(&draft, 0xFFFFFFFF);
}

static void wide_bounds(void)
{
    struct draft draft;
    for (u32 c = 24; c <= 32; c += 8) {
        draft_start(&draft, c, 16, 24);
        ask_wide_bounds(draft);
        chain_of_roles(&draft);
        while (draft.q < 32) {
            add_role_row(&draft, 0, draft.q % 16);
        }
        ask_wide_bounds(draft);
    }
}

/* A chain of 24 variables, each to the next one and the last to top, with 32 rows: each
   variable is below r.top, and s of the first is below s of the second, which is asked
   down to the last. Solved with N = 2^24 + 24, whatever the budget is to be: a shorter
   chain asks less of the stack. */
static void chain_24(void)
{
    struct draft draft;
    u8 left = CODE_RESTRICTION + 24;
    draft_start(&draft, 0, 16, 24);
    for (u32 x = 0; x < 24; x++) {
        add_row(&draft, 0, x < 23 ? variable(x + 1) : CODE_TOP);
        below_code(&draft, x, CODE_RESTRICTION + 23);
    }
    add_row(&draft, 1, variable(0));
    add_row(&draft, 1, variable(1));
    add_line(&draft, 1, &left, CODE_RESTRICTION + 25);
    add_random_rows(&chance, &draft, 32 - draft.e);
    most = 0xFFFFFFFF;
    ask(&draft, most);
}

/* ---- */

struct family {
    const char *name;
    u64 seed;
    void (*ask)(void);
};

static const struct family families[] = {
    { "chains", 1, chains },       { "constants", 2, constants }, { "variables", 3, variables },
    { "lines", 4, lines },         { "none", 5, none },           { "bounds", 6, bounds },
    { "roles", 7, roles },         { "role-bounds", 8, role_bounds }, { "atoms-40", 9, atoms_40 },
    { "atoms-56", 10, atoms_56 },  { "variables-24", 11, variables_24 },
    { "wide-bounds", 12, wide_bounds }, { "chain-24", 13, chain_24 },
};

int main(int words, char **word)
{
    if (words == 3 && strcmp(word[2], "short") == 0) {
        most = 5000;
    } else if (words != 2) {
        fail("usage: families NAME [short]");
    }
    for (u32 i = 0; i < sizeof families / sizeof families[0]; i++) {
        if (strcmp(word[1], families[i].name) == 0) {
            chance.state = families[i].seed;
            families[i].ask();
            flush();
            return 0;
        }
    }
    fail("families: no family of this name");
}
