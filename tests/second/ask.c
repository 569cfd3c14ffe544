/* ask SEED COUNT [WALK]: writes a stream of COUNT questions, or some more, on
   standard output: the same for the same seed. There are tables that are
   solved, that have no solution and that go over the budget, of both versions;
   bounds and codes at and beyond their limits; many atoms and many variables; role
   rows of many shapes; and tables damaged, cut short and made too long.
   It asks the second solver for N, so that few walks are longer than WALK.

   ask stats SEED COUNT [WALK]: says instead how often each kind of question and
   each number is in that stream. */

#include "mistakes.h"
#include "second.h"
#include "stream.h"
#include "tables.h"

/* Enough for any table with 4 atoms and 3 variables. */
enum { USUAL_WALK = 4500 };

static const u32 largest = 0xFFFFFFFF;

static struct chance chance;
static u32 walk = USUAL_WALK;

/* ---- What has been asked */

static u64 asked;
static int only_stats;

static struct {
    u64 solve[10], read[7], lines, empty_parts, nodes, longest;
} stats;

static void count_solve(const struct question *question)
{
    u8 output[MOST_OUTPUT];
    u32 room = question->room > MOST_OUTPUT ? MOST_OUTPUT : question->room;
    struct answer answer = second_solve(question->table, question->length, question->number,
                                        output, room);
    stats.solve[answer.number]++;
    stats.nodes += answer.count;
    stats.longest = answer.count > stats.longest ? answer.count : stats.longest;
}

static void count_question(const struct question *question)
{
    switch (question->kind) {
    case KIND_READ:
        stats.read[second_read(question->table, question->length).number]++;
        break;
    case KIND_LINE:
        stats.lines++;
        stats.empty_parts += second_line(question->table, question->length, question->number).length == 0;
        break;
    default:
        count_solve(question);
        break;
    }
}

static void put_count(const char *before, u64 count, const char *after)
{
    put_text(before);
    put_number(count);
    put_text(after);
}

static void put_histogram(const char *name, const u64 *counts, u32 length)
{
    u64 all = 0;
    for (u32 i = 0; i < length; i++) {
        all += counts[i];
    }
    put_text(name);
    put_count(" questions: ", all, "\n");
    for (u32 i = 0; i < length && all > 0; i++) {
        u64 tenths = counts[i] * 1000 / all;
        put_count("  number ", i, ": ");
        put_count("", counts[i], ", ");
        put_count("", tenths / 10, ".");
        put_count("", tenths % 10, " percent\n");
    }
}

static void put_stats(void)
{
    put_histogram("solve", stats.solve, 10);
    put_count("  nodes: ", stats.nodes, ", ");
    put_count("longest walk: ", stats.longest, "\n");
    put_histogram("read", stats.read, 7);
    put_count("line questions: ", stats.lines, ", ");
    put_count("with an empty part: ", stats.empty_parts, "\n");
}

static void ask(const struct question *question)
{
    asked++;
    if (only_stats) {
        count_question(question);
    } else {
        put_question(question);
    }
}

/* ---- One question about a table */

/* A budget for a table that is answered with N nodes: often close to N. */
static u32 budget_near(u32 n)
{
    switch (below_bound(&chance, 12)) {
    case 0: case 1: return n - 1;
    case 2: case 3: case 4: return n;
    case 5: return n + 1;
    case 6: return largest;
    case 7: return percent(&chance, 40) ? 0 : between(&chance, 0, n);
    default: return n + below_bound(&chance, 10000);
    }
}

static u32 random_budget(const u8 *bytes, u32 length)
{
    u8 output[MOST_OUTPUT];
    u32 most = percent(&chance, 8) ? 4 * walk : walk;
    struct answer answer = second_solve(bytes, length, most, output, sizeof output);
    switch (answer.number) {
    case SOLVED: case NONE: return budget_near(answer.count);
    case BUDGET: return below_bound(&chance, percent(&chance, 90) ? 300 : most);
    default: return percent(&chance, 20) ? (u32)draw(&chance) : below_bound(&chance, 1000);
    }
}

/* A length of output, for a table of v variables: some would do for sets of four bytes
   each. */
static u32 random_room(u32 v)
{
    u32 need = SET_BYTES * v;
    u32 lot = below_bound(&chance, 1000);
    if (lot < 5) {
        return lot < 3 ? MOST_OUTPUT : between(&chance, MOST_OUTPUT + 1, 65535);
    }
    switch (lot % 16) {
    case 0: return need > 0 ? need - 1 : 0;
    case 1: return below_bound(&chance, need + 1);
    case 2: return percent(&chance, 30) ? 0 : need;
    case 3: return need - below_bound(&chance, need / 2 + 1);
    case 4: case 5: return need + 7;
    case 6: case 7: return need + below_bound(&chance, 20);
    default: return need;
    }
}

/* A line number, for a table of m lines. */
static u32 random_line_number(u32 m)
{
    switch (below_bound(&chance, 10)) {
    case 0: return m;
    case 1: return m > 0 ? m - 1 : 1;
    case 2: return percent(&chance, 50) ? largest : m + 1;
    case 3: return below_bound(&chance, m) + (256u << between(&chance, 0, 23));
    default: return below_bound(&chance, m);
    }
}

static void load(struct question *question, u32 kind, const u8 *bytes, u32 length)
{
    question->kind = kind;
    question->number = percent(&chance, 10) ? (u32)draw(&chance) : 0;
    question->room = percent(&chance, 10) ? below_bound(&chance, 65536) : 0;
    question->length = length;
    memcpy(question->table, bytes, length);
}

static void ask_read(const u8 *bytes, u32 length)
{
    struct question question;
    load(&question, KIND_READ, bytes, length);
    ask(&question);
}

static void ask_line_number(const u8 *bytes, u32 length, u32 number)
{
    struct question question;
    load(&question, KIND_LINE, bytes, length);
    question.number = number;
    ask(&question);
}

static void ask_line(const u8 *bytes, u32 length)
{
    u32 m = second_read(bytes, length).m;
    ask_line_number(bytes, length, random_line_number(m > 0 ? m : below_bound(&chance, 4)));
}

static void ask_solve_with(const u8 *bytes, u32 length, u32 budget, u32 room)
{
    struct question question;
    load(&question, KIND_SOLVE, bytes, length);
    question.number = budget;
    question.room = room;
    ask(&question);
}

static void ask_solve(const u8 *bytes, u32 length)
{
    struct reading reading = second_read(bytes, length);
    u32 budget = random_budget(bytes, length);
    ask_solve_with(bytes, length, budget, random_room(reading.number == 0 ? reading.v : below_bound(&chance, 4)));
}

/* A question of any kind about the table. */
static void ask_any(const u8 *bytes, u32 length)
{
    u32 lot = below_bound(&chance, 100);
    if (lot < 70) {
        ask_solve(bytes, length);
    } else if (lot < 88) {
        ask_read(bytes, length);
    } else {
        ask_line(bytes, length);
    }
}

/* ---- Groups of questions: tables as they are */

static u32 either_version(void)
{
    return between(&chance, 1, 2);
}

/* A readable table as bytes. Answers its length. */
static u32 make_bytes(u8 *bytes)
{
    struct draft draft;
    make_table(&chance, walk, &draft);
    return write_draft(&draft, bytes);
}

static void group_table(void)
{
    u8 bytes[DRAFT_BYTES];
    u32 length = make_bytes(bytes);
    u32 solves = between(&chance, 2, 4);
    u32 lines = below_bound(&chance, 3);
    for (u32 i = 0; i < solves; i++) {
        ask_solve(bytes, length);
    }
    for (u32 i = 0; i < lines; i++) {
        ask_line(bytes, length);
    }
    if (percent(&chance, 40)) {
        ask_read(bytes, length);
    }
}

/* Each budget about a table's N: 0, 1, N - 1, N, N + 1, one by chance, and the
   largest. `wanted` is the table's answer: SOLVED or NONE. */
static void ask_budgets(u32 version, u32 wanted)
{
    u8 bytes[DRAFT_BYTES], output[MOST_OUTPUT];
    u32 length;
    struct draft draft;
    struct answer answer;
    do {
        make_table_of(&chance, walk, version, &draft);
        length = write_draft(&draft, bytes);
        answer = second_solve(bytes, length, walk, output, sizeof output);
    } while (answer.number != wanted || answer.count < 2);
    u32 n = answer.count;
    u32 budgets[] = { 0, 1, n - 1, n, n + 1, below_bound(&chance, 2 * n), largest };
    u32 room = SET_BYTES * second_read(bytes, length).v + below_bound(&chance, 4);
    for (u32 i = 0; i < sizeof budgets / sizeof budgets[0]; i++) {
        ask_solve_with(bytes, length, budgets[i], room);
    }
}

static void group_budgets(void)
{
    ask_budgets(either_version(), percent(&chance, 60) ? SOLVED : NONE);
}

/* Each output length up to what a table needs, and some beyond it; of the lengths that are
   short by many bytes, every so many. */
static void group_outputs(void)
{
    u8 bytes[DRAFT_BYTES];
    u32 length = make_bytes(bytes);
    u32 need = SET_BYTES * second_read(bytes, length).v;
    for (u32 room = 0; room <= need + 4; room += room + 9 < need ? 1 + need / 24 : 1) {
        ask_solve_with(bytes, length, random_budget(bytes, length), room);
    }
    ask_solve_with(bytes, length, random_budget(bytes, length), need + below_bound(&chance, MOST_OUTPUT));
}

/* For each number of variables, an output that is just long enough, one that is a
   byte too short, one of four bytes each, and some that are far too long. */
static void ask_output_bounds(u32 version)
{
    u8 bytes[DRAFT_BYTES];
    struct draft draft;
    for (u32 v = 1; v <= 24; v++) {
        draft_start(&draft, below_bound(&chance, 2), 0, v);
        draft.version = version;
        u32 length = write_draft(&draft, bytes);
        u32 need = SET_BYTES * v;
        u32 rooms[] = { need, need - 1, need / 2, MOST_OUTPUT - 1 + v % 3, 65535 };
        for (u32 i = 0; i < (v <= 3 ? 5 : 3); i++) {
            ask_solve_with(bytes, length, v + 1, rooms[i]);
        }
    }
}

/* Each line of a table, the one after the last, and the first of a table that is
   refused. */
static void ask_lines(u32 version)
{
    u8 bytes[DRAFT_BYTES + 1];
    struct draft draft;
    make_full_table(&chance, walk, version, &draft);
    u32 length = write_draft(&draft, bytes);
    ask_read(bytes, length);
    for (u32 i = 0; i <= draft.m; i++) {
        ask_line_number(bytes, length, i);
    }
    bytes[length] = (u8)draw(&chance);
    ask_line_number(bytes, length + 1, 0);
    ask_line_number(bytes, length - 1, 0);
}

/* Rings of one to four variables, entered from another or not, with a variable
   open after them or none: every kind of circle that trees.c knows. */
static void group_circles(void)
{
    u8 bytes[DRAFT_BYTES];
    struct draft draft;
    for (u32 i = 0; i < 16; i++) {
        make_ring(&draft, i / 4 % 2, 1 + i % 4, i / 8);
        u32 length = write_draft(&draft, bytes);
        ask_solve_with(bytes, length, largest, SET_BYTES * draft.v);
    }
}

/* A set number beyond two bytes: the one long walk. The more atoms there are, the
   more sets come after it. There is none where walks are to be short. */
static void group_long_walk(void)
{
    u8 bytes[DRAFT_BYTES];
    u8 left = CODE_VARIABLE;
    struct draft draft;
    if (walk < USUAL_WALK) {
        return;
    }
    draft_start(&draft, between(&chance, 17, 32), 1, 1);
    add_random_rows(&chance, &draft, below_bound(&chance, 25));
    add_line(&draft, 1, &left, CODE_CONSTANT + 16);
    add_line(&draft, 1, &left, CODE_CONSTANT + below_bound(&chance, 12));
    u32 length = write_draft(&draft, bytes);
    ask_solve_with(bytes, length, 80000, SET_BYTES);
}

/* ---- Groups of questions: damage */

/* A byte to put in the place of another: one more or less, the first code of a
   range, another code of the same range, or any. */
static u8 damage(u8 kept)
{
    switch (below_bound(&chance, 5)) {
    case 0: return (u8)(kept + 1);
    case 1: return (u8)(kept - 1);
    case 2: return (u8)(32 * below_bound(&chance, 4));
    case 3: return (u8)(kept / 32 * 32 + below_bound(&chance, percent(&chance, 50) ? 8 : 32));
    default: return (u8)draw(&chance);
    }
}

/* A table damaged in each of its bytes. */
static void group_damage(void)
{
    u8 bytes[DRAFT_BYTES];
    u32 length = make_bytes(bytes);
    for (u32 i = 0; i < length; i++) {
        u8 kept = bytes[i];
        bytes[i] = damage(kept);
        ask_any(bytes, length);
        bytes[i] = kept;
    }
}

/* Every truncation of a table. */
static void group_truncation(void)
{
    u8 bytes[DRAFT_BYTES];
    u32 length = make_bytes(bytes);
    for (u32 i = 0; i < length; i++) {
        ask_any(bytes, i);
    }
}

/* A table with a damaged byte, cut short before or after it. */
static void group_both(void)
{
    u8 bytes[DRAFT_BYTES];
    u32 length = make_bytes(bytes);
    for (u32 i = 0; i < 12; i++) {
        u32 place = below_bound(&chance, length);
        u8 kept = bytes[place];
        bytes[place] = damage(kept);
        ask_any(bytes, between(&chance, place, length));
        bytes[place] = kept;
    }
}

/* Reads and solves a table with one byte changed. */
static void ask_changed(u8 *bytes, u32 length, u32 place, u32 value)
{
    u8 kept = bytes[place];
    bytes[place] = (u8)value;
    ask_read(bytes, length);
    ask_solve(bytes, length);
    bytes[place] = kept;
}

static void ask_cut(const u8 *bytes, u32 length)
{
    ask_read(bytes, length);
    ask_solve(bytes, length);
}

/* Each kind of refusal at the role rows, and at their count. */
static void ask_role_places(const struct draft *draft, u8 *bytes, u32 length)
{
    u32 row = 11 + 2 * below_bound(&chance, draft->q);
    u32 cuts[] = { 10, 11, row, row + 1 };
    for (u32 i = 0; i < sizeof cuts / sizeof cuts[0]; i++) {
        ask_cut(bytes, cuts[i]);
    }
    for (u32 i = 0; i < 2; i++) {
        ask_changed(bytes, length, row + i, draft->r);
        ask_changed(bytes, row + i + 1, row + i, draft->r);
        ask_changed(bytes, length, row + i, between(&chance, draft->r, 255));
    }
    ask_changed(bytes, length, 10, 33);
    ask_changed(bytes, 11, 10, 33);
    ask_changed(bytes, length, 10, between(&chance, 34, 255));
    ask_changed(bytes, length, 6, 0);
}

/* Each kind of refusal at each part at which it can stand. The table has a row,
   in version 2 a role row, and its last line a left entry. */
static void ask_places(const struct draft *draft)
{
    u8 bytes[DRAFT_BYTES + 1];
    u32 length = write_draft(draft, bytes);
    u32 row = rows_start(draft) + 2 * below_bound(&chance, draft->e);
    u32 line = length - draft->line[draft->m - 1].p - 2;
    u32 cuts[] = { below_bound(&chance, 10), row, row + 1, line, line + 1, length - 1 };
    u32 codes[] = { row, row + 1, line + 1, length - 1 };
    for (u32 i = 0; i < sizeof cuts / sizeof cuts[0]; i++) {
        ask_cut(bytes, cuts[i]);
    }
    for (u32 i = 0; i < sizeof codes / sizeof codes[0]; i++) {
        ask_changed(bytes, length, codes[i], between(&chance, 0x80, 0xFF));
    }
    ask_changed(bytes, length, below_bound(&chance, 3), 0x20);
    ask_changed(bytes, length, 3, between(&chance, 3, 255));
    ask_changed(bytes, length, 5, between(&chance, 33, 255));
    ask_changed(bytes, length, 6, between(&chance, 17, 255));
    ask_changed(bytes, length, 7, between(&chance, 25, 255));
    ask_changed(bytes, length, 8, between(&chance, 33, 255));
    ask_changed(bytes, length, 9, between(&chance, 65, 255));
    ask_changed(bytes, length, line, 9);
    ask_changed(bytes, length, line, between(&chance, 10, 255));
    bytes[length] = (u8)draw(&chance);
    ask_cut(bytes, length + 1);
    if (draft->version == 2) {
        ask_role_places(draft, bytes, length);
    }
}

static void ask_near_places(u32 version)
{
    struct draft draft;
    make_full_table(&chance, walk, version, &draft);
    ask_places(&draft);
}

static void group_places(void)
{
    ask_near_places(either_version());
}

/* The same of a table with the most rows and lines, and the longest lines. */
static void ask_far_places(u32 version)
{
    struct draft draft;
    draft_start(&draft, between(&chance, 0, 24), 16, 24);
    for (u32 i = 0; version == 2 && i < 32; i++) {
        add_role_row(&draft, below_bound(&chance, 16), below_bound(&chance, 16));
    }
    add_random_rows(&chance, &draft, 32);
    add_easy_lines(&chance, &draft, 64, 8, 8);
    ask_places(&draft);
}

static void group_far_places(void)
{
    ask_far_places(either_version());
}

/* Bytes after the last line: one, some, or as many as a question can have. */
static void group_after(void)
{
    u8 bytes[DRAFT_BYTES + MOST_TABLE];
    u32 length = make_bytes(bytes);
    for (u32 i = length; i < MOST_TABLE; i++) {
        bytes[i] = percent(&chance, 30) ? 0 : (u8)draw(&chance);
    }
    ask_solve(bytes, length + 1);
    ask_any(bytes, length + 1);
    ask_any(bytes, length + between(&chance, 2, 40));
    if (percent(&chance, 10)) {
        ask_any(bytes, between(&chance, length + 1, MOST_TABLE));
        ask_any(bytes, MOST_TABLE);
    }
}

/* Mark and version: bytes wrong alone and together, the version's more often. */
static void group_mark(void)
{
    u8 bytes[DRAFT_BYTES], wrong[DRAFT_BYTES];
    u32 length = make_bytes(bytes);
    for (u32 i = 0; i < 24; i++) {
        u32 which = percent(&chance, 60) ? 8 * between(&chance, 1, 3) : between(&chance, 1, 31);
        memcpy(wrong, bytes, length);
        for (u32 k = 0; k < 5; k++) {
            wrong[k] += (u8)((which >> k & 1) * between(&chance, 1, 255));
        }
        ask_any(wrong, percent(&chance, 80) ? length : below_bound(&chance, length + 1));
    }
}

/* Versions that are none, and the other one: bytes 3 and 4. */
static void group_versions(void)
{
    static const u32 versions[] = { 0, 1, 2, 3, 0x0100, 0x0101, 0x0102, 0x0200, 0x0201, 0x0202 };
    u8 bytes[DRAFT_BYTES];
    u32 length = make_bytes(bytes);
    for (u32 i = 0; i < sizeof versions / sizeof versions[0]; i++) {
        bytes[3] = (u8)versions[i];
        bytes[4] = (u8)(versions[i] >> 8);
        ask_cut(bytes, length);
        ask_line(bytes, length);
    }
}

/* Bytes by chance: all of them, or those after a good mark and version, or
   small counts and then bytes that are mostly codes. */
static void group_garbage(void)
{
    u8 bytes[100] = { 0x56, 0x4F, 0x43, (u8)either_version(), 0 };
    u32 lot = below_bound(&chance, 4);
    for (u32 i = lot == 0 ? 0 : 5; i < sizeof bytes; i++) {
        if (lot < 2) {
            bytes[i] = (u8)draw(&chance);
        } else if (i < 9u + bytes[3]) {
            bytes[i] = (u8)below_bound(&chance, 4);
        } else {
            bytes[i] = (u8)(below_bound(&chance, 3) + (percent(&chance, 50) ? 0 : 32 * below_bound(&chance, 4)));
        }
    }
    ask_any(bytes, below_bound(&chance, percent(&chance, 30) ? 14 : sizeof bytes));
}

/* ---- Groups of questions: bounds and codes */

/* A table of this version with these counts, at a bound or over it. */
static void ask_counts(u32 version, u32 c, u32 r, u32 v, u32 e, u32 m, u32 p)
{
    u8 bytes[DRAFT_BYTES];
    struct draft draft;
    draft_start(&draft, c, r, v);
    if (version == 2) {
        add_random_role_rows(&chance, &draft);
    }
    add_random_rows(&chance, &draft, e);
    add_easy_lines(&chance, &draft, m, p, p);
    u32 length = write_draft(&draft, bytes);
    length = length > MOST_TABLE ? MOST_TABLE : length;
    ask_read(bytes, length);
    ask_solve(bytes, length);
    if (percent(&chance, 30)) {
        ask_line(bytes, length);
    }
}

/* Each bound, and one over it. */
static void ask_bounds(u32 version)
{
    u32 some = between(&chance, 24, 32);
    ask_counts(version, 1, 1, 1, 1, 1, 8);
    ask_counts(version, 1, 1, 1, 1, 2, 9);
    ask_counts(version, 32, 0, 1, 0, 1, 2);
    ask_counts(version, 33, 0, 1, 0, 1, 2);
    ask_counts(version, 0, 1, 1, 32, 1, 2);
    ask_counts(version, 0, 1, 1, 33, 1, 2);
    ask_counts(version, 32, 1, 1, 24, 1, 2);
    ask_counts(version, 32, 1, 1, 25, 1, 2);
    ask_counts(version, 24, 1, 1, 32, 1, 2);
    ask_counts(version, 25, 1, 1, 32, 1, 2);
    ask_counts(version, some, 3, 1, 56 - some, 2, 3);
    ask_counts(version, some, 3, 1, 57 - some, 2, 3);
    ask_counts(version, 255, 1, 0, 1, 0, 1);
    ask_counts(version, between(&chance, 34, 255), 1, 1, below_bound(&chance, 20), 1, 1);
    ask_counts(version, 2, 1, 2, 1, 64, between(&chance, 1, 8));
    ask_counts(version, 2, 1, 2, 1, 65, 1);
    ask_counts(version, 1, 16, 1, 3, 1, 1);
    ask_counts(version, 1, 17, 1, 3, 1, 1);
    ask_counts(version, 1, 1, 24, 2, 3, 2);
    ask_counts(version, 1, 1, 25, 2, 3, 2);
    ask_counts(version, 0, 0, below_bound(&chance, 25), 0, 0, 1);
    ask_counts(version, 0, 0, 0, 0, 0, 1);
    ask_counts(version, 32, 16, 24, 24, 64, 8);
}

/* Several bounds passed at once, by one each: every pair of them, and then all from
   one on. */
static void ask_bounds_together(u32 version)
{
    static const u32 over[5] = { 33, 17, 25, 33, 65 };
    for (u32 i = 0; i < 5; i++) {
        u32 counts[5] = { 1, 1, 1, 1, 1 };
        counts[i] = over[i];
        for (u32 k = i + 1; k < 5; k++) {
            counts[k] = over[k];
            ask_counts(version, counts[0], counts[1], counts[2], counts[3], counts[4], 1);
            counts[k] = 1;
        }
        for (u32 k = i; k < 5; k++) {
            counts[k] = over[k];
        }
        ask_counts(version, counts[0], counts[1], counts[2], counts[3], counts[4], 1);
    }
    ask_counts(version, 32, 17, 24, 25, 1, 1);
    ask_counts(version, 32, 16, 25, 25, 1, 1);
    ask_counts(version, 32, 16, 24, 25, 65, 1);
}

static void group_bounds(void)
{
    u32 version = either_version();
    ask_bounds(version);
    ask_bounds_together(version);
}

/* Every value of one byte of a table. */
static void ask_every_value(u8 *bytes, u32 length, u32 place)
{
    u8 kept = bytes[place];
    for (u32 value = 0; value < 256; value++) {
        bytes[place] = (u8)value;
        ask_any(bytes, length);
    }
    bytes[place] = kept;
}

/* Every value of a filler, of a left entry and of a right one. */
static void group_codes(void)
{
    u8 bytes[DRAFT_BYTES];
    struct draft draft;
    make_full_table(&chance, walk, either_version(), &draft);
    u32 length = write_draft(&draft, bytes);
    ask_every_value(bytes, length, rows_start(&draft) + 2 * below_bound(&chance, draft.e) + 1);
    make_full_table(&chance, walk, either_version(), &draft);
    length = write_draft(&draft, bytes);
    ask_every_value(bytes, length, length - 2);
    make_full_table(&chance, walk, either_version(), &draft);
    length = write_draft(&draft, bytes);
    ask_every_value(bytes, length, length - 1);
}

/* Every value of the count of role rows, and of a role in them. */
static void group_role_codes(void)
{
    u8 bytes[DRAFT_BYTES];
    struct draft draft;
    make_full_table(&chance, walk, 2, &draft);
    u32 length = write_draft(&draft, bytes);
    ask_every_value(bytes, length, 10);
    ask_every_value(bytes, length, 11 + below_bound(&chance, 2 * draft.q));
}

/* Every value of any byte. */
static void group_values(void)
{
    u8 bytes[DRAFT_BYTES];
    u32 length = make_bytes(bytes);
    ask_every_value(bytes, length, below_bound(&chance, length));
}

/* ---- Groups of questions: many atoms and many variables

   Sets come in rising number, so no walk here meets a set with an atom of a high number.
   Such atoms are entries of lines; and of tables with many atoms some are solved at low
   sets, some have a line without variables that fails, and the others go over the
   budget. */

/* The counts of such a table. */
struct size {
    u32 version, c, e, v;
};

/* So many atoms, 32 or more: of them as many constants as there may be, or as few. */
static struct size size_of(u32 version, u32 atoms, int most_constants, u32 v)
{
    u32 c = most_constants ? 32 : atoms - 32;
    return (struct size){ version, c, atoms - c, v };
}

/* Starts a table of this size, with rows and two roles or more. */
static void start_wide(struct draft *draft, struct size size)
{
    draft_start(draft, size.c, between(&chance, 2, 15), size.v);
    if (size.version == 2) {
        add_random_role_rows(&chance, draft);
    }
    add_random_rows(&chance, draft, size.e);
}

/* One of the first so many constants. */
static u32 early_constant(const struct draft *draft, u32 most)
{
    return CODE_CONSTANT + below_bound(&chance, most < draft->c ? most : draft->c);
}

static u32 any_row(const struct draft *draft)
{
    return CODE_RESTRICTION + below_bound(&chance, draft->e);
}

static u32 last_code(u32 first, u32 count)
{
    return first + count - 1;
}

/* Asks for the answer under a budget, or under `walk` where that is less, with enough
   output, and with one that is enough for sets of four bytes each. */
static void ask_wide_budget(const struct draft *draft, u32 budget)
{
    u8 bytes[DRAFT_BYTES];
    u32 length = write_draft(draft, bytes);
    budget = budget < walk ? budget : walk;
    ask_read(bytes, length);
    ask_line(bytes, length);
    ask_solve_with(bytes, length, budget, SET_BYTES * draft->v + below_bound(&chance, 9));
    ask_solve_with(bytes, length, budget, SET_BYTES * draft->v - between(&chance, 1, SET_BYTES / 2 * draft->v));
}

/* Solved: three variables are below constants of low number; the last constant, the last
   row and the last variable are below themselves, by an entry among others. */
static void ask_wide_solved(struct size size)
{
    struct draft draft;
    u8 left[3];
    start_wide(&draft, size);
    for (u32 i = 0; i < 3; i++) {
        left[0] = (u8)(CODE_VARIABLE + below_bound(&chance, size.v));
        add_line(&draft, 1, left, early_constant(&draft, 6));
    }
    left[0] = (u8)last_code(CODE_CONSTANT, draft.c);
    left[1] = (u8)last_code(CODE_RESTRICTION, draft.e);
    left[2] = (u8)last_code(CODE_VARIABLE, draft.v);
    add_line(&draft, 3, left, left[0]);
    add_line(&draft, 3, left, left[1]);
    add_line(&draft, 3, left, left[2]);
    add_easy_lines(&chance, &draft, 4, 1, 8);
    ask_wide_budget(&draft, 1000);
}

/* Lines without variables: three by chance, which mostly fail, and one that does. */
static void ask_wide_none(struct size size)
{
    struct draft draft;
    u8 first = CODE_CONSTANT;
    start_wide(&draft, size);
    for (u32 k = 0; k < draft.e; k++) {
        draft.row[k].filler = (u8)(percent(&chance, 50) ? CODE_TOP : early_constant(&draft, 32));
    }
    for (u32 i = 0; i < 3; i++) {
        u8 left[2] = { (u8)early_constant(&draft, 32), (u8)any_row(&draft) };
        draft.m = 0;
        add_line(&draft, 2, left, percent(&chance, 50) ? any_row(&draft) : early_constant(&draft, 32));
        ask_wide_budget(&draft, 1 + below_bound(&chance, 200));
    }
    draft.m = 0;
    add_line(&draft, 1, &first, last_code(CODE_RESTRICTION, draft.e));
    ask_wide_budget(&draft, 1 + below_bound(&chance, 2));
}

/* Over any budget: a variable below constant 31 or the last row, whose role is no other's
   and in no role row. */
static void ask_wide_budgets(struct size size)
{
    struct draft draft;
    u8 left = (u8)(CODE_VARIABLE + below_bound(&chance, size.v));
    start_wide(&draft, size);
    draft.row[draft.e - 1].role = (u8)draft.r++;
    add_line(&draft, 1, &left, draft.c == 32 ? CODE_CONSTANT + 31 : last_code(CODE_RESTRICTION, draft.e));
    ask_wide_budget(&draft, below_bound(&chance, 400));
    ask_wide_budget(&draft, 1 + below_bound(&chance, 1000));
}

/* Two rows of the highest numbers, with the first and the last variable as fillers, the
   one below the other: so the one's set is below the other's. */
static void ask_wide_rows(struct size size)
{
    struct draft draft;
    start_wide(&draft, size);
    u32 last = draft.e - 1, turned = below_bound(&chance, 2);
    u8 first_variable = CODE_VARIABLE, left = (u8)(CODE_RESTRICTION + last - turned);
    draft.row[last].filler = CODE_VARIABLE;
    draft.row[last - 1].filler = (u8)last_code(CODE_VARIABLE, size.v);
    draft.row[last - 1].role = draft.row[last].role;
    add_line(&draft, 1, &first_variable, early_constant(&draft, 4));
    add_line(&draft, 1, &left, CODE_RESTRICTION + last - 1 + turned);
    ask_wide_budget(&draft, 2000);
}

/* The set of number 2 to the count of atoms beyond 32, and those before it. */
static void ask_wide_set(struct size size)
{
    struct draft draft;
    u8 left = CODE_VARIABLE;
    start_wide(&draft, size);
    add_line(&draft, 1, &left, CODE_CONSTANT + size.e);
    ask_wide_budget(&draft, (1u << size.e) + 1 + size.v);
}

/* The longest table of a version: without its last byte, as it is, and with a byte
   more. */
static void ask_longest(u32 version)
{
    u8 bytes[DRAFT_BYTES];
    struct draft draft;
    draft_start(&draft, below_bound(&chance, 25), 16, 24);
    while (version == 2 && draft.q < 32) {
        add_role_row(&draft, below_bound(&chance, 16), below_bound(&chance, 16));
    }
    add_random_rows(&chance, &draft, 32);
    add_easy_lines(&chance, &draft, 64, 8, 8);
    u32 length = write_draft(&draft, bytes);
    bytes[length] = (u8)draw(&chance);
    for (u32 i = 0; i < 3; i++) {
        ask_cut(bytes, length - 1 + i);
        ask_solve_with(bytes, length - 1 + i, 24 + i, SET_BYTES * draft.v);
        ask_line_number(bytes, length - 1 + i, 63);
    }
}

/* A table with one byte changed, and enough output. */
static void ask_code(u8 *bytes, u32 length, u32 place, u32 code)
{
    u8 kept = bytes[place];
    bytes[place] = (u8)code;
    ask_read(bytes, length);
    ask_solve_with(bytes, length, 30, SET_BYTES * bytes[7]);
    bytes[place] = kept;
}

/* Each code at the bounds and beyond them, as a filler and on both sides of a line. */
static void ask_wide_codes(u32 version)
{
    static const u8 codes[] = { 0x1F, 0x20, 0x37, 0x38, 0x3F, 0x40, 0x57,
                                0x58, 0x5F, 0x60, 0x77, 0x78, 0x7F, 0x80 };
    u8 bytes[DRAFT_BYTES];
    struct draft draft;
    for (u32 c = 24; c <= 32; c += 8) {
        draft_start(&draft, c, 1, 24);
        draft.version = version;
        add_random_rows(&chance, &draft, 56 - c);
        add_easy_lines(&chance, &draft, 1, 1, 1);
        u32 length = write_draft(&draft, bytes);
        for (u32 i = 0; i < sizeof codes; i++) {
            ask_code(bytes, length, rows_start(&draft) + 1, codes[i]);
            ask_code(bytes, length, length - 2, codes[i]);
            ask_code(bytes, length, length - 1, codes[i]);
        }
    }
}

static void ask_wide_of(struct size size)
{
    ask_wide_solved(size);
    ask_wide_none(size);
    ask_wide_budgets(size);
    ask_wide_rows(size);
}

/* Each of these with 56 atoms, with 40, and with numbers between and below; with 24
   variables, with 13, and with other numbers. */
static void ask_wide(u32 version)
{
    u32 atoms[] = { 56, 40, between(&chance, 41, 55), between(&chance, 34, 39) };
    u32 variables[] = { 24, 13, between(&chance, 14, 23), between(&chance, 2, 12) };
    for (u32 i = 0; i < 4; i++) {
        ask_wide_of(size_of(version, atoms[i], 0, variables[i]));
        ask_wide_of(size_of(version, atoms[i], 1, variables[i]));
    }
    ask_wide_set(size_of(version, 32, 1, 1));
    ask_wide_set(size_of(version, between(&chance, 33, 36), 1, 24));
    ask_wide_set(size_of(version, between(&chance, 37, 42), 1, between(&chance, 1, 23)));
    ask_longest(version);
    ask_wide_codes(version);
}

static void group_wide(void)
{
    u32 version = either_version();
    ask_wide_of(size_of(version, between(&chance, 34, 56), percent(&chance, 50), between(&chance, 2, 24)));
    ask_wide_set(size_of(version, between(&chance, 32, 42), 1, between(&chance, 1, 24)));
}

/* ---- Groups of questions: roles */

/* Finishes a table with rows and lines that hold under any sets, and asks about
   it: where it is readable, it is solved at the second node. */
static u32 ask_easy(struct draft *draft, u32 m, u8 *bytes)
{
    add_random_rows(&chance, draft, draft->r > 0 ? 2 : 0);
    add_easy_lines(&chance, draft, m, 1, 2);
    u32 length = write_draft(draft, bytes);
    ask_read(bytes, length);
    ask_line(bytes, length);
    ask_solve_with(bytes, length, 2, SET_BYTES * draft->v);
    return length;
}

/* A chain of steps over all of so many roles, in any order: a restriction of its
   first role is below one of its last by all of them, and not the other way. */
static void ask_role_chain(u32 r)
{
    u8 bytes[DRAFT_BYTES], left[2] = { CODE_RESTRICTION, CODE_RESTRICTION + 1 };
    struct draft draft;
    u32 first = below_bound(&chance, r), by = percent(&chance, 50) ? 1 : r - 1;
    for (u32 back = 0; back < 2; back++) {
        draft_start(&draft, 0, r, 0);
        for (u32 i = 0; i + 1 < r; i++) {
            add_role_row(&draft, (first + by * i) % r, (first + by * (i + 1)) % r);
        }
        shuffle_role_rows(&chance, &draft);
        add_row(&draft, first, CODE_TOP);
        add_row(&draft, (first + by * (r - 1)) % r, CODE_TOP);
        add_line(&draft, 1, left + back, left[1 - back]);
        ask_solve_with(bytes, write_draft(&draft, bytes), 1, 0);
    }
}

/* Role rows in a chain of four steps, with one of the others that closes it, stands
   twice, or leads from a role to itself; and long chains. */
static void group_role_shapes(void)
{
    static const struct draft_role_row more[] = { { 4, 0 }, { 0, 1 }, { 2, 2 } };
    for (u32 i = 0; i < sizeof more / sizeof more[0]; i++) {
        u8 bytes[DRAFT_BYTES];
        struct draft draft;
        draft_start(&draft, 1, 5, 1);
        for (u32 s = 0; s < 4; s++) {
            add_role_row(&draft, s, s + 1);
        }
        add_role_row(&draft, more[i].narrower, more[i].wider);
        ask_easy(&draft, 2, bytes);
    }
    ask_role_chain(16);
    ask_role_chain(between(&chance, 3, 16));
}

/* A table with so many role rows, whole and cut after their count. */
static void ask_role_count(u32 r, u32 q, u32 m)
{
    u8 bytes[DRAFT_BYTES];
    struct draft draft;
    draft_start(&draft, 1, r, 1);
    draft.version = 2;
    for (u32 i = 0; i < q; i++) {
        add_role_row(&draft, below_bound(&chance, r), below_bound(&chance, r));
    }
    u32 length = ask_easy(&draft, m, bytes);
    ask_cut(bytes, 11);
    ask_cut(bytes, 10);
    ask_solve(bytes, length);
}

/* Each bound of role rows, and one over it; no roles for them; and the counts
   before theirs broken too. */
static void group_role_counts(void)
{
    ask_role_count(3, 0, 2);
    ask_role_count(16, 1, 2);
    ask_role_count(16, 31, 2);
    ask_role_count(16, 32, 2);
    ask_role_count(16, 33, 2);
    ask_role_count(16, DRAFT_ROLE_ROWS, 2);
    ask_role_count(0, 0, 2);
    ask_role_count(0, 1, 2);
    ask_role_count(0, 33, 2);
    ask_role_count(17, 2, 2);
    ask_role_count(17, 33, 2);
    ask_role_count(2, 2, 65);
    ask_role_count(2, 33, 65);
}

/* A table that tells a mistake about roles, and is asked so that it does. */
static void ask_mistake(enum mistake mistake)
{
    u8 bytes[DRAFT_BYTES];
    struct draft draft;
    u32 length;
    do {
        make_table_of(&chance, walk, 2, &draft);
        length = write_draft(&draft, bytes);
    } while (!tells(mistake, bytes, length, walk, SET_BYTES * draft.v));
    ask_solve_with(bytes, length, walk, SET_BYTES * draft.v);
}

static void group_mistakes(void)
{
    for (u32 mistake = 0; mistake < MISTAKES; mistake++) {
        ask_mistake(mistake);
    }
}

/* ---- The stream */

struct group {
    u32 weight;
    void (*ask)(void);
};

static const struct group groups[] = {
    { 5600, group_table },    { 700, group_garbage }, { 550, group_after },   { 800, group_budgets },
    { 200, group_damage },    { 200, group_both },    { 150, group_outputs }, { 100, group_truncation },
    { 50, group_mark },       { 50, group_bounds },   { 30, group_values },   { 20, group_places },
    { 50, group_versions },   { 50, group_mistakes }, { 20, group_role_counts }, { 10, group_role_shapes },
    { 5, group_far_places },  { 2, group_long_walk }, { 50, group_wide },
};

static void group_by_chance(void)
{
    u32 all = 0;
    for (u32 i = 0; i < sizeof groups / sizeof groups[0]; i++) {
        all += groups[i].weight;
    }
    u32 lot = below_bound(&chance, all);
    u32 i = 0;
    while (lot >= groups[i].weight) {
        lot -= groups[i++].weight;
    }
    groups[i].ask();
}

/* Each group of limits, circles, roles and damage, and then groups by chance. What
   must not be missing (kinds.c, trees.c) is in the first ones, whatever the
   count. */
static void ask_all(u64 count)
{
    for (u32 version = 1; version <= 2; version++) {
        ask_near_places(version);
        ask_far_places(version);
        ask_budgets(version, SOLVED);
        ask_budgets(version, NONE);
        ask_output_bounds(version);
        ask_lines(version);
        ask_bounds(version);
        ask_bounds_together(version);
        ask_wide(version);
    }
    group_outputs();
    group_circles();
    group_mark();
    group_versions();
    group_role_counts();
    group_role_shapes();
    group_mistakes();
    group_damage();
    group_truncation();
    group_after();
    group_codes();
    group_role_codes();
    group_long_walk();
    while (asked < count) {
        group_by_chance();
    }
}

int main(int words, char **word)
{
    only_stats = words > 1 && strcmp(word[1], "stats") == 0;
    int first = only_stats ? 2 : 1;
    int given = words - first;
    if (given < 2 || given > 3) {
        fail("usage: ask [stats] SEED COUNT [WALK]");
    }
    chance.state = number_of(word[first]);
    walk = given == 3 ? (u32)number_of(word[first + 2]) : USUAL_WALK;
    ask_all(number_of(word[first + 1]));
    if (only_stats) {
        put_stats();
    }
    flush();
    return 0;
}
