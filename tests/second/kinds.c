/* kinds: reads a stream of questions on standard input, and the replies to it on
   descriptor 3. Ends with status 1 if one of the kinds below is not in it: each
   number of the reader and of the solver, with each part of a table at which it
   can be placed, in each version; each bound passed by one, and before another; tables
   with many atoms and many variables; role rows of each shape; and tables that tell
   each mistake about roles (mistakes.h). */

#include "mistakes.h"
#include "second.h"
#include "stream.h"

long read(int file, void *bytes, __SIZE_TYPE__ length);

/* ---- What must not be missing */

/* The version of a table, or neither, also where it has no ten bytes or another
   mark. */
enum version { NEITHER, ONE, TWO, VERSIONS };

static const char *const version_names[VERSIONS] = { "", "version 1, ", "version 2, " };

/* The parts of a table at which a refusal is placed. */
enum part_kind {
    HEADER, ROLE_ROW_COUNT, NARROWER, WIDER, ROLE, FILLER, LEFT_COUNT, LEFT_ENTRY, RIGHT_ENTRY, AFTER
};

/* Numbers 1 to 6, with the part (or, in the header, the byte) of their place. */
struct refusal {
    enum version from, to; /* the versions in which it can be */
    u32 number;
    enum part_kind part;
    u32 byte; /* in the header; ANY_BYTE where it does not matter */
    const char *name;
};

enum { ANY_BYTE = 255 };

static const struct refusal refusals[] = {
    { NEITHER, NEITHER, ENDS_EARLY, HEADER, ANY_BYTE, "1 in the header" },
    { TWO, TWO, ENDS_EARLY, ROLE_ROW_COUNT, ANY_BYTE, "1 at the count of role rows" },
    { TWO, TWO, ENDS_EARLY, NARROWER, ANY_BYTE, "1 at a narrower role" },
    { TWO, TWO, ENDS_EARLY, WIDER, ANY_BYTE, "1 at a wider role" },
    { ONE, TWO, ENDS_EARLY, ROLE, ANY_BYTE, "1 at a role" },
    { ONE, TWO, ENDS_EARLY, FILLER, ANY_BYTE, "1 at a filler" },
    { ONE, TWO, ENDS_EARLY, LEFT_COUNT, ANY_BYTE, "1 at a left count" },
    { ONE, TWO, ENDS_EARLY, LEFT_ENTRY, ANY_BYTE, "1 at a left entry" },
    { ONE, TWO, ENDS_EARLY, RIGHT_ENTRY, ANY_BYTE, "1 at a right entry" },
    { NEITHER, NEITHER, WRONG_MARK, HEADER, 0, "2 at 0" },
    { NEITHER, NEITHER, WRONG_VERSION, HEADER, 3, "3 at 3" },
    { ONE, TWO, COUNT_OVER_BOUND, HEADER, 5, "4 at 5" },
    { ONE, TWO, COUNT_OVER_BOUND, HEADER, 6, "4 at 6" },
    { ONE, TWO, COUNT_OVER_BOUND, HEADER, 7, "4 at 7" },
    { ONE, TWO, COUNT_OVER_BOUND, HEADER, 8, "4 at 8" },
    { ONE, TWO, COUNT_OVER_BOUND, HEADER, 9, "4 at 9" },
    { TWO, TWO, COUNT_OVER_BOUND, ROLE_ROW_COUNT, ANY_BYTE, "4 at the count of role rows" },
    { ONE, TWO, COUNT_OVER_BOUND, LEFT_COUNT, ANY_BYTE, "4 at a left count" },
    { TWO, TWO, CODE_REFUSED, NARROWER, ANY_BYTE, "5 at a narrower role" },
    { TWO, TWO, CODE_REFUSED, WIDER, ANY_BYTE, "5 at a wider role" },
    { ONE, TWO, CODE_REFUSED, ROLE, ANY_BYTE, "5 at a role" },
    { ONE, TWO, CODE_REFUSED, FILLER, ANY_BYTE, "5 at a filler" },
    { ONE, TWO, CODE_REFUSED, LEFT_ENTRY, ANY_BYTE, "5 at a left entry" },
    { ONE, TWO, CODE_REFUSED, RIGHT_ENTRY, ANY_BYTE, "5 at a right entry" },
    { ONE, TWO, BYTES_AFTER, AFTER, ANY_BYTE, "6 after the last line" },
};

enum { REFUSALS = sizeof refusals / sizeof refusals[0], MOST_VARIABLES = 24, SET_BYTES = 8 };

/* Versions that are refused, as the number that bytes 3 and 4 are. */
static const struct {
    u32 version;
    const char *name;
} refused_versions[] = {
    { 0, "0" }, { 3, "3" }, { 0x0100, "0x0100" }, { 0x0101, "0x0101" }, { 0x0102, "0x0102" },
    { 0x0200, "0x0200" }, { 0x0201, "0x0201" }, { 0x0202, "0x0202" },
};

enum { REFUSED_VERSIONS = sizeof refused_versions / sizeof refused_versions[0] };

/* What is bounded in the header, in the order in which it is judged. The sum is looked
   at only where c and e are within their bounds. */
enum bounded { C, R, V, E, SUM, M, BOUNDED };

static const struct {
    u32 most, place;
    const char *name;
} bounds[BOUNDED] = {
    { 32, 5, "c" }, { 16, 6, "r" }, { MOST_VARIABLES, 7, "v" },
    { 32, 8, "e" }, { 56, 8, "c + e" }, { 64, 9, "m" },
};

/* Tables with many atoms or variables, each of which is answered with 0, with 8 and with
   9. */
static const struct {
    u32 least_atoms, most_atoms, least_variables, least_c, least_e;
    const char *name;
} sizes[] = {
    { 33, 39, 0, 0, 0, "33 to 39 atoms" },
    { 40, 55, 0, 0, 0, "40 to 55 atoms" },
    { 56, 56, 0, 0, 0, "56 atoms" },
    { 0, 56, 13, 0, 0, "13 variables or more" },
    { 0, 56, 24, 0, 0, "24 variables" },
    { 56, 56, 24, 0, 0, "56 atoms and 24 variables" },
    { 0, 56, 0, 25, 0, "25 constants or more" },
    { 0, 56, 0, 32, 0, "32 constants" },
    { 0, 56, 0, 0, 25, "25 restrictions or more" },
    { 0, 56, 0, 0, 32, "32 restrictions" },
};

enum { SIZES = sizeof sizes / sizeof sizes[0], ANSWERS = 3 };

static const char *const answer_names[ANSWERS] = { "solve: 0, with ", "solve: 8, with ", "solve: 9, with " };

/* Other kinds at the bounds. */
enum limit {
    FOUR_EACH, HIGH_SET, HIGH_LEFT, HIGH_RIGHT, LAST_CONSTANT, FIRST_RESTRICTION, LAST_RESTRICTION,
    FIRST_VARIABLE, LAST_VARIABLE, CONSTANT_24, RESTRICTION_24, VARIABLE_24, RESTRICTION_FILLER, LONGEST,
    LONGEST_CUT, LONGEST_AND_ONE, LIMITS
};

static const char *const limit_names[LIMITS] = {
    "solve: 7, with four bytes for each variable or more",
    "solve: 0, with 32 atoms or more, and a set of 2^(c+e-32) or more",
    "solve: 0, with an atom of number 32 or more on the left of a line",
    "solve: 8, with an atom of number 32 or more on the right of a line",
    "an entry 0x3f",
    "an entry 0x40 where c is 32",
    "an entry 0x5f",
    "an entry 0x60 where e is 32",
    "an entry 0x77",
    "5 for an entry 0x38 where c is 24",
    "5 for an entry 0x58 where e is 24",
    "5 for an entry 0x78 where v is 24",
    "5 for a filler 0x40 where c is 32",
    "0, 8 or 9 for a table of the greatest length",
    "1 for a table of the greatest length but one",
    "6 for a table of the greatest length and a byte",
};

/* The other kinds of both versions. */
enum other {
    READABLE, SOLVED_BELOW_BUDGET, SOLVED_AT_BUDGET, NONE_BELOW_BUDGET, NONE_AT_BUDGET, BUDGET_0,
    BUDGET_OTHER, LINE_FOUND, LINE_BEYOND, LINE_OF_UNREADABLE, OTHERS
};

static const char *const other_names[OTHERS] = {
    "read: 0",
    "solve: 0, with N less than the budget",
    "solve: 0, with N the budget",
    "solve: 8, with N less than the budget",
    "solve: 8, with N the budget",
    "solve: 9, with budget 0",
    "solve: 9, with another budget",
    "line: a line",
    "line: a number of m or more",
    "line: a table that is refused",
};

/* Shapes of version 2: of tables that are solved or have no solution, and, where a
   number is named, of tables that are refused with it. */
enum shape {
    NO_ROLE_ROWS, MOST_ROLE_ROWS, ROLE_ROW_TWICE, ROLE_ROW_TO_ITSELF, ROLE_CIRCLE, ROLE_CHAIN_2,
    ROLE_CHAIN_3, ROLE_CHAIN_15, COUNT_33, COUNT_33_AT_END, COUNTS_BEFORE_IT, LINES_BEFORE_IT, NO_ROLES,
    ROLE_BEFORE_END, SHAPES
};

static const char *const shape_names[SHAPES] = {
    "q 0",
    "q 32",
    "a role row twice",
    "a role row from a role to itself",
    "a circle of two roles or more",
    "a role that reaches another in two steps and no fewer",
    "a role that reaches another in three steps or more, and no fewer",
    "a role that reaches another in fifteen steps and no fewer",
    "4 for q 33",
    "4 for q 33, and no byte after it",
    "4 for m, and q over its bound",
    "4 for m, and no byte for q",
    "5 for a role row where r is 0",
    "5 for a narrower role, and no byte after it",
};

/* ---- What there is */

static u64 of_read[VERSIONS][REFUSALS], of_solve[VERSIONS][REFUSALS], of_other[VERSIONS][OTHERS];
static u64 of_short[VERSIONS][MOST_VARIABLES + 1]; /* 7, by the number of variables */
static u64 of_bounds[VERSIONS][BOUNDED][BOUNDED]; /* the first passed, and another; itself for none */
static u64 of_size[VERSIONS][ANSWERS][SIZES], of_limit[VERSIONS][LIMITS];
static u64 of_refused_version[REFUSED_VERSIONS], of_shape[SHAPES], of_mistake[MISTAKES];

static enum version version_of(const struct question *question)
{
    const u8 *table = question->table;
    if (question->length < 10 || memcmp(table, "VOC", 3) != 0 || table[4] != 0 || table[3] > 2) {
        return NEITHER;
    }
    return (enum version)table[3];
}

/* The part of a table in which a byte stands, or would stand. The table is
   readable up to there. */
static enum part_kind part_of(const u8 *table, u32 place)
{
    u32 at = 10;
    if (place < at) {
        return HEADER;
    }
    if (table[3] == 2) {
        if (place == at) {
            return ROLE_ROW_COUNT;
        }
        at += 1 + 2 * (u32)table[10];
        if (place < at) {
            return place % 2 == 1 ? NARROWER : WIDER;
        }
    }
    at += 2 * (u32)table[8];
    if (place < at) {
        return (at - place) % 2 == 0 ? ROLE : FILLER;
    }
    for (u32 i = 0; i < table[9]; i++) {
        if (place == at) {
            return LEFT_COUNT;
        }
        u32 right = at + table[at] + 1;
        if (place <= right) {
            return place < right ? LEFT_ENTRY : RIGHT_ENTRY;
        }
        at = right + 1;
    }
    return AFTER;
}

static _Noreturn void unknown(const char *what, u32 number, u32 place)
{
    put_text("kinds: ");
    put_text(what);
    put_text(" answered with a number and place of no kind: ");
    put_number(number);
    put_byte(' ');
    put_number(place);
    put_byte('\n');
    flush();
    exit(1);
}

/* Counts a refusal for the shapes that name one. */
static void count_refused_shape(const struct question *question, u32 number, u32 place)
{
    const u8 *table = question->table;
    u32 length = question->length;
    if (version_of(question) != TWO) {
        return;
    }
    of_shape[COUNT_33] += number == COUNT_OVER_BOUND && place == 10 && table[10] == 33;
    of_shape[COUNT_33_AT_END] += number == COUNT_OVER_BOUND && place == 10 && table[10] == 33 && length == 11;
    of_shape[COUNTS_BEFORE_IT] += number == COUNT_OVER_BOUND && place == 9 && length > 10 && table[10] > 32;
    of_shape[LINES_BEFORE_IT] += number == COUNT_OVER_BOUND && place == 9 && length == 10;
    of_shape[NO_ROLES] += number == CODE_REFUSED && place == 11 && table[6] == 0;
    of_shape[ROLE_BEFORE_END] += number == CODE_REFUSED && part_of(table, place) == NARROWER && length == place + 1;
}

static void count_refused_version(const u8 *table)
{
    for (u32 i = 0; i < REFUSED_VERSIONS; i++) {
        of_refused_version[i] += refused_versions[i].version == table[3] + 256u * table[4];
    }
}

/* What is bounded, by the header of a table. */
static u32 bounded_in(const u8 *table, enum bounded what)
{
    static const u32 byte[BOUNDED] = { 5, 6, 7, 8, 0, 9 };
    u32 c = table[5], e = table[8];
    if (what == SUM) {
        return c <= bounds[C].most && e <= bounds[E].most ? c + e : 0;
    }
    return table[byte[what]];
}

/* Counts a table that is answered with 4 in its header: the first bound that it passes,
   with each that it passes besides, and by itself where that is one, by one. */
static void count_bounds(const struct question *question, u32 place)
{
    const u8 *table = question->table;
    enum version version = version_of(question);
    u32 first = BOUNDED, others = 0;
    for (u32 i = 0; i < BOUNDED; i++) {
        if (bounded_in(table, i) <= bounds[i].most) {
            continue;
        }
        if (first == BOUNDED) {
            first = i;
        } else {
            of_bounds[version][first][i]++;
            others++;
        }
    }
    if (first == BOUNDED || bounds[first].place != place) {
        unknown("a count", COUNT_OVER_BOUND, place);
    }
    of_bounds[version][first][first] += others == 0 && bounded_in(table, first) == bounds[first].most + 1;
}

/* The greatest length of a table. */
static u32 greatest_length(enum version version)
{
    return version == ONE ? 10 + 2 * 32 + 64 * 10 : 11 + 2 * 32 + 2 * 32 + 64 * 10;
}

/* Counts the refusals that stand for limits. */
static void count_refused_limits(const struct question *question, u32 number, u32 place)
{
    const u8 *table = question->table;
    enum version version = version_of(question);
    u64 *of = of_limit[version];
    u32 code = number == CODE_REFUSED ? table[place] : 0;
    int at_filler = number == CODE_REFUSED && part_of(table, place) == FILLER;
    int at_entry = number == CODE_REFUSED && !at_filler;
    of[CONSTANT_24] += at_entry && code == 0x38 && table[5] == 24;
    of[RESTRICTION_24] += at_entry && code == 0x58 && table[8] == 24;
    of[VARIABLE_24] += at_entry && code == 0x78 && table[7] == 24;
    of[RESTRICTION_FILLER] += at_filler && code == 0x40 && table[5] == 32;
    of[LONGEST_CUT] += number == ENDS_EARLY && question->length + 1 == greatest_length(version);
    of[LONGEST_AND_ONE] += number == BYTES_AFTER && place == greatest_length(version)
        && question->length == place + 1;
}

static void count_refusal(const struct question *question, u64 counts[VERSIONS][REFUSALS], u32 number,
                          u32 place)
{
    enum version version = version_of(question);
    enum part_kind part = part_of(question->table, place);
    if (number == WRONG_VERSION) {
        count_refused_version(question->table);
    }
    count_refused_shape(question, number, place);
    count_refused_limits(question, number, place);
    if (number == COUNT_OVER_BOUND && part == HEADER) {
        count_bounds(question, place);
    }
    for (u32 i = 0; i < REFUSALS; i++) {
        const struct refusal *refusal = &refusals[i];
        if (refusal->from <= version && version <= refusal->to && refusal->number == number
            && refusal->part == part && (refusal->byte == ANY_BYTE || refusal->byte == place)) {
            counts[version][i]++;
            return;
        }
    }
    unknown("a question", number, place);
}

static void count_short(const struct question *question, u32 place)
{
    enum version version = version_of(question);
    if (place == 0 || place % SET_BYTES != 0 || place / SET_BYTES > MOST_VARIABLES) {
        unknown("a short output", OUTPUT_SHORT, place);
    }
    of_short[version][place / SET_BYTES]++;
    of_limit[version][FOUR_EACH] += question->room >= place / 2;
}

/* ---- Tables that are walked */

/* Whether a set of a solved table has this number or a greater one. The replies that
   are counted have the sets in hex: the second solver is asked. */
static int has_set_from(const struct question *question, u64 least)
{
    u8 output[MOST_OUTPUT];
    second_solve(question->table, question->length, question->number, output, question->room);
    for (u32 x = 0; x < question->table[7]; x++) {
        u64 set = 0;
        for (u32 i = 0; i < SET_BYTES; i++) {
            set |= (u64)output[SET_BYTES * x + i] << 8 * i;
        }
        if (set >= least) {
            return 1;
        }
    }
    return 0;
}

/* What an entry of a line stands for among the limits. */
static void count_entry(const u8 *table, u32 code, int right, u32 number, u8 *seen)
{
    u32 c = table[5];
    int high = code >= 0x40 && code < 0x60 && c + (code - 0x40) >= 32;
    seen[HIGH_LEFT] |= high && !right && number == SOLVED;
    seen[HIGH_RIGHT] |= high && right && number == NONE;
    seen[LAST_CONSTANT] |= code == 0x3F;
    seen[FIRST_RESTRICTION] |= code == 0x40 && c == 32;
    seen[LAST_RESTRICTION] |= code == 0x5F;
    seen[FIRST_VARIABLE] |= code == 0x60 && table[8] == 32;
    seen[LAST_VARIABLE] |= code == 0x77;
}

/* A table that is answered with 0, 8 or 9. */
static void count_walk(const struct question *question, u32 number)
{
    const u8 *table = question->table;
    enum version version = version_of(question);
    u32 c = table[5], v = table[7], e = table[8];
    u32 at = (version == ONE ? 10 : 11 + 2 * (u32)table[10]) + 2 * e;
    u8 seen[LIMITS] = { 0 };
    for (u32 i = 0; i < SIZES; i++) {
        of_size[version][number == SOLVED ? 0 : number == NONE ? 1 : 2][i] +=
            c + e >= sizes[i].least_atoms && c + e <= sizes[i].most_atoms && v >= sizes[i].least_variables
            && c >= sizes[i].least_c && e >= sizes[i].least_e;
    }
    for (u32 i = 0; i < table[9]; i++) {
        u32 right = at + table[at] + 1;
        for (at++; at <= right; at++) {
            count_entry(table, table[at], at == right, number, seen);
        }
    }
    seen[HIGH_SET] = number == SOLVED && c + e >= 32 && has_set_from(question, (u64)1 << (c + e - 32));
    seen[LONGEST] = question->length == greatest_length(version);
    for (u32 i = 0; i < LIMITS; i++) {
        of_limit[version][i] += seen[i];
    }
}

/* In how many steps over the role rows a role reaches another, and no fewer; 0
   where it does not, or where they are one. */
static u32 steps_between(const u8 *table, u32 one, u32 other)
{
    u32 seen = 1u << one;
    for (u32 steps = 1; one != other && steps <= table[10]; steps++) {
        u32 before = seen;
        for (u32 i = 0; i < table[10]; i++) {
            seen |= (before >> table[11 + 2 * i] & 1) << table[12 + 2 * i];
        }
        if (seen >> other & 1) {
            return steps;
        }
    }
    return 0;
}

/* Whether a role row stands before this one, too. */
static int role_row_again(const u8 *table, u32 i)
{
    for (u32 k = 0; k < i; k++) {
        if (memcmp(table + 11 + 2 * i, table + 11 + 2 * k, 2) == 0) {
            return 1;
        }
    }
    return 0;
}

/* Counts the shapes of the role rows of a readable table. */
static void count_shapes(const u8 *table)
{
    int twice = 0, to_itself = 0, circle = 0;
    u32 longest = 0, two = 0;
    for (u32 i = 0; i < table[10]; i++) {
        u32 narrower = table[11 + 2 * i], wider = table[12 + 2 * i];
        twice |= role_row_again(table, i);
        to_itself |= narrower == wider;
        circle |= steps_between(table, wider, narrower) > 0;
    }
    for (u32 pair = 0; pair < 256; pair++) {
        u32 steps = steps_between(table, pair / 16, pair % 16);
        longest = steps > longest ? steps : longest;
        two |= steps == 2;
    }
    of_shape[NO_ROLE_ROWS] += table[10] == 0;
    of_shape[MOST_ROLE_ROWS] += table[10] == 32;
    of_shape[ROLE_ROW_TWICE] += twice;
    of_shape[ROLE_ROW_TO_ITSELF] += to_itself;
    of_shape[ROLE_CIRCLE] += circle;
    of_shape[ROLE_CHAIN_2] += two;
    of_shape[ROLE_CHAIN_3] += longest >= 3;
    of_shape[ROLE_CHAIN_15] += longest == 15;
}

/* A table of version 2 that is answered with 0 or 8. */
static void count_roles(const struct question *question)
{
    if (version_of(question) != TWO) {
        return;
    }
    count_shapes(question->table);
    for (u32 mistake = 0; mistake < MISTAKES; mistake++) {
        of_mistake[mistake] += (u64)tells(mistake, question->table, question->length, question->number, question->room);
    }
}

static void count_solve(const struct question *question, u32 number, u32 count, u32 place)
{
    int at_budget = count == question->number;
    enum version version = version_of(question);
    if (number == SOLVED || number == NONE || number == BUDGET) {
        count_walk(question, number);
    }
    switch (number) {
    case SOLVED:
        of_other[version][at_budget ? SOLVED_AT_BUDGET : SOLVED_BELOW_BUDGET]++;
        count_roles(question);
        break;
    case NONE:
        of_other[version][at_budget ? NONE_AT_BUDGET : NONE_BELOW_BUDGET]++;
        count_roles(question);
        break;
    case BUDGET: of_other[version][count == 0 ? BUDGET_0 : BUDGET_OTHER]++; break;
    case OUTPUT_SHORT: count_short(question, place); break;
    default: count_refusal(question, of_solve, number, place); break;
    }
}

static void count_read(const struct question *question, u32 number, u32 place)
{
    if (number == 0) {
        of_other[version_of(question)][READABLE]++;
    } else {
        count_refusal(question, of_read, number, place);
    }
}

/* A reply does not say why a line is empty: the second solver is asked. */
static void count_line(const struct question *question, int empty)
{
    int readable = second_read(question->table, question->length).number == 0;
    of_other[version_of(question)][!empty ? LINE_FOUND : readable ? LINE_BEYOND : LINE_OF_UNREADABLE]++;
}

/* ---- The replies */

static int reply_byte(void)
{
    static u8 bytes[65536];
    static u32 at, length;
    if (at == length) {
        long got = read(3, bytes, sizeof bytes);
        if (got <= 0) {
            return -1;
        }
        at = 0;
        length = (u32)got;
    }
    return bytes[at++];
}

enum { NUMBERS = 3 };

/* Reads a line of the replies: its first numbers, and whether it is the sign for
   no bytes. Answers 0 if there is none. */
static int get_reply(u32 *numbers, int *empty)
{
    u32 i = 0;
    int byte = reply_byte();
    memset(numbers, 0, NUMBERS * sizeof *numbers);
    *empty = byte == '-';
    for (; byte >= 0 && byte != '\n'; byte = reply_byte()) {
        if (byte == ' ') {
            i++;
        } else if (i < NUMBERS && byte >= '0' && byte <= '9') {
            numbers[i] = 10 * numbers[i] + (u32)(byte - '0');
        }
    }
    return byte == '\n';
}

static void count_question(const struct question *question)
{
    u32 numbers[NUMBERS];
    int empty;
    if (!get_reply(numbers, &empty)) {
        fail("kinds: a reply is missing");
    }
    switch (question->kind) {
    case KIND_READ: count_read(question, numbers[0], numbers[1]); break;
    case KIND_LINE: count_line(question, empty); break;
    default: count_solve(question, numbers[0], numbers[1], numbers[2]); break;
    }
}

/* ---- The verdict */

static u64 rarest = ~(u64)0;
static int missing;

static void judge(const char *version, const char *before, const char *name, u64 count)
{
    if (count == 0) {
        put_text("kinds: never asked: ");
        put_text(version);
        put_text(before);
        put_text(name);
        put_byte('\n');
        missing = 1;
    }
    rarest = count < rarest ? count : rarest;
}

static void judge_refusals(void)
{
    for (u32 i = 0; i < REFUSALS; i++) {
        for (u32 version = refusals[i].from; version <= refusals[i].to; version++) {
            judge(version_names[version], "read: ", refusals[i].name, of_read[version][i]);
            judge(version_names[version], "solve: ", refusals[i].name, of_solve[version][i]);
        }
    }
    for (u32 i = 0; i < REFUSED_VERSIONS; i++) {
        judge("", "version ", refused_versions[i].name, of_refused_version[i]);
    }
}

static void judge_others(enum version version)
{
    for (u32 i = 0; i < OTHERS; i++) {
        judge(version_names[version], "", other_names[i], of_other[version][i]);
    }
    for (u32 v = 1; v <= MOST_VARIABLES; v++) {
        const char number[] = { (char)('0' + v / 10), (char)('0' + v % 10), 0 };
        judge(version_names[version], "solve: 7, with v ", number, of_short[version][v]);
    }
}

/* Each bound alone, and each pair of which the first is told; c or e over its bound is no
   matter of the sum. */
static void judge_bounds(enum version version)
{
    for (u32 i = 0; i < BOUNDED; i++) {
        judge(version_names[version], "passed alone, by one: ", bounds[i].name, of_bounds[version][i][i]);
        for (u32 k = i + 1; k < BOUNDED; k++) {
            if (k != SUM || (i != C && i != E)) {
                judge(version_names[version], "passed after another: ", bounds[k].name, of_bounds[version][i][k]);
            }
        }
    }
}

static void judge_limits(enum version version)
{
    for (u32 i = 0; i < SIZES; i++) {
        for (u32 answer = 0; answer < ANSWERS; answer++) {
            judge(version_names[version], answer_names[answer], sizes[i].name, of_size[version][answer][i]);
        }
    }
    for (u32 i = 0; i < LIMITS; i++) {
        judge(version_names[version], "", limit_names[i], of_limit[version][i]);
    }
}

static void judge_roles(void)
{
    for (u32 i = 0; i < SHAPES; i++) {
        judge(version_names[TWO], "", shape_names[i], of_shape[i]);
    }
    for (u32 i = 0; i < MISTAKES; i++) {
        judge(version_names[TWO], "another answer with ", mistake_names[i], of_mistake[i]);
    }
}

static void judge_all(void)
{
    judge_refusals();
    for (u32 version = ONE; version <= TWO; version++) {
        judge_others(version);
        judge_bounds(version);
        judge_limits(version);
    }
    judge_roles();
}

int main(void)
{
    static struct question question;
    int got = get_question(&question);
    for (; got == QUESTION; got = get_question(&question)) {
        count_question(&question);
    }
    if (got == STREAM_CUT || reply_byte() >= 0) {
        fail("kinds: the questions and the replies do not end together");
    }
    judge_all();
    if (!missing) {
        put_text("every number, kind of place, bound, size and shape of role rows is among them (the rarest: ");
        put_number(rarest);
        put_text(")\n");
    }
    flush();
    return missing;
}
