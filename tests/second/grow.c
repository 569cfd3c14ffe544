/* grow SEED COUNT: writes a stream of COUNT pairs of solve questions. Of four
   pairs, one asks about a table and a table grown from it with new lines, one
   about a table and a table grown from it without new lines, one about the same
   table twice, the second time with a larger budget and a longer output, and one
   about a table of version 2 and the same with one more role row, which is no
   growth. The others are of both versions.

   grow check SEED COUNT: reads the lines of text that answer this stream, and
   holds them to what growth and larger budgets may change:
     a table without a solution: no growth of it is solved;
     a solved table: no growth of it without new lines has none;
     a table answered with 0 or 8: again with the same number, count and sets.
   By one more role row a table without a solution may be solved, and some must.
   Says how many pairs were decided. Ends with status 1 if one breaks this, if a
   grown table is none by its bytes, or if too few were decided. */

#include "draft.h"
#include "second.h"
#include "stream.h"

enum {
    WITH_LINES = 0,
    SAME_LINES = 1,
    AGAIN = 2,
    ONE_ROLE_ROW = 3,
    KINDS = 4,
    ENOUGH_BUDGET = 40000,
    WIDE_BUDGET = 4000, /* of a table that was grown to the bounds */
    LEAST_PERCENT = 5,
    LONGEST_TEXT = 2 * MOST_OUTPUT + 40
};

struct pair {
    u32 kind;
    struct question first, second;
};

/* ---- Pairs */

static void make_small(struct chance *chance, struct draft *draft, u32 version)
{
    u32 all = between(chance, 1, 4);
    u32 c = below_bound(chance, all / 2 + 1);
    u32 v = percent(chance, 10) ? below_bound(chance, 4) : between(chance, 1, 2);
    draft_start(draft, c, between(chance, 1, 2), v);
    if (version == 2) {
        draft->r += below_bound(chance, 3);
        add_random_role_rows(chance, draft);
    }
    add_random_rows(chance, draft, all - c);
    u32 lines = between(chance, 1, 4);
    for (u32 i = 0; i < lines; i++) {
        add_random_line(chance, draft, 3);
    }
}

/* A table grown from the draft: higher counts, and new rows and, if asked for,
   new lines after the old ones. The role rows stay as they are. */
static void grow(struct chance *chance, struct draft *draft, int with_lines)
{
    u32 atoms = below_bound(chance, 3);
    u32 constants = below_bound(chance, atoms + 1);
    draft->c += constants;
    draft->r += below_bound(chance, 2);
    draft->v += below_bound(chance, 2);
    add_random_rows(chance, draft, atoms - constants);
    u32 lines = with_lines ? between(chance, 1, 2) : 0;
    for (u32 i = 0; i < lines; i++) {
        add_random_line(chance, draft, 3);
    }
}

/* Grows the draft on, to the bounds of rows and variables. What is added comes after the
   rest, so the first solution moves by nothing but the new variables' empty sets. */
static void grow_wide(struct chance *chance, struct draft *draft)
{
    draft->v = between(chance, 13, 24);
    add_random_rows(chance, draft, (percent(chance, 50) ? 32 : between(chance, 25, 32)) - draft->e);
}

/* Adds two rows of roles between which there are no role rows, and the line that
   puts the first below the second: so there is no solution, but where a role row
   leads from the one role to the other. */
static void part(struct chance *chance, struct draft *draft)
{
    u32 filler = random_filler(chance, draft);
    u8 left = (u8)(CODE_RESTRICTION + draft->e);
    draft->r += 2;
    add_row(draft, draft->r - 2, filler);
    add_row(draft, draft->r - 1, percent(chance, 50) ? filler : CODE_TOP);
    add_line(draft, 1, &left, CODE_RESTRICTION + draft->e - 1);
}

/* A table, and the same with one more role row. */
static void make_one_role_row(struct chance *chance, struct draft *draft, struct draft *more)
{
    make_small(chance, draft, 2);
    draft->q -= draft->q == 32;
    int parted = percent(chance, 50);
    if (parted) {
        part(chance, draft);
    }
    *more = *draft;
    u32 roles = parted ? 2 : draft->r;
    u32 narrower = below_bound(chance, roles);
    u32 wider = parted ? 1 - narrower : below_bound(chance, roles);
    add_role_row(more, draft->r - roles + narrower, draft->r - roles + wider);
}

static void load(struct question *question, const struct draft *draft, u32 budget, u32 more_room)
{
    u8 bytes[DRAFT_BYTES];
    question->kind = KIND_SOLVE;
    question->number = budget;
    question->room = SET_BYTES * draft->v + more_room;
    question->length = write_draft(draft, bytes);
    memcpy(question->table, bytes, question->length);
}

/* A budget with which the table is mostly answered, and sometimes just not. */
static u32 close_budget(struct chance *chance, const struct draft *draft)
{
    u8 bytes[DRAFT_BYTES], output[MOST_OUTPUT];
    u32 length = write_draft(draft, bytes);
    struct answer answer = second_solve(bytes, length, ENOUGH_BUDGET, output, sizeof output);
    return percent(chance, 80) ? answer.count : answer.count - 1;
}

static void make_pair(struct chance *chance, struct pair *pair, u64 index)
{
    struct draft draft, more;
    pair->kind = (u32)(index % KINDS);
    if (pair->kind == ONE_ROLE_ROW) {
        make_one_role_row(chance, &draft, &more);
        load(&pair->first, &draft, ENOUGH_BUDGET, 0);
        load(&pair->second, &more, ENOUGH_BUDGET, 0);
        return;
    }
    make_small(chance, &draft, between(chance, 1, 2));
    if (pair->kind == AGAIN) {
        grow(chance, &draft, 1);
        u32 budget = close_budget(chance, &draft);
        u32 room = below_bound(chance, 3);
        load(&pair->first, &draft, budget, room);
        load(&pair->second, &draft, budget + between(chance, 1, ENOUGH_BUDGET),
             room + between(chance, 1, 9));
    } else {
        int wide = percent(chance, 8);
        load(&pair->first, &draft, ENOUGH_BUDGET, 0);
        grow(chance, &draft, pair->kind == WITH_LINES);
        if (wide) {
            grow_wide(chance, &draft);
        }
        load(&pair->second, &draft, wide ? WIDE_BUDGET : ENOUGH_BUDGET, 0);
    }
}

static void write_pairs(u64 seed, u64 count)
{
    static struct pair pair;
    struct chance chance = { seed };
    for (u64 i = 0; i < count; i++) {
        make_pair(&chance, &pair, i);
        put_question(&pair.first);
        put_question(&pair.second);
    }
}

/* ---- Growth, by the bytes of two readable tables */

/* Where the rows start, and where the lines do. */
static u32 start_of_rows(const u8 *table)
{
    return table[3] == 1 ? 10 : 11 + 2u * table[10];
}

static u32 start_of_lines(const u8 *table)
{
    return start_of_rows(table) + 2u * table[8];
}

/* The version and the role rows are the same, no count is less, and the rows and
   lines of the one stand first among the other's. */
static int grows(const struct question *one, const struct question *other)
{
    const u8 *small = one->table, *large = other->table;
    u32 rows = start_of_rows(small);
    u32 lines = one->length - start_of_lines(small);
    for (u32 i = 5; i < 10; i++) {
        if (small[i] > large[i]) {
            return 0;
        }
    }
    return memcmp(small, large, 5) == 0 && memcmp(small + 10, large + 10, rows - 10) == 0
        && memcmp(small + rows, large + rows, 2u * small[8]) == 0
        && other->length - start_of_lines(large) >= lines
        && memcmp(small + start_of_lines(small), large + start_of_lines(large), lines) == 0;
}

/* ---- Answers */

struct told {
    u32 number, count, place;
    char sets[LONGEST_TEXT]; /* the output in hex; empty for no bytes */
};

/* Reads a line of text without its newline. Answers 0 if there is none. */
static int get_line(char *text)
{
    u32 length = 0;
    int byte = get_byte();
    while (byte >= 0 && byte != '\n' && length < LONGEST_TEXT - 1) {
        text[length++] = (char)byte;
        byte = get_byte();
    }
    text[length] = 0;
    return byte == '\n';
}

/* Reads a decimal number and the space after it. Answers 0 if it is none. */
static int take_number(const char **text, u32 *number)
{
    const char *start = *text;
    *number = 0;
    while (**text >= '0' && **text <= '9') {
        *number = 10 * *number + (u32)(*(*text)++ - '0');
    }
    return *text > start && *(*text)++ == ' ';
}

static int get_told(struct told *told)
{
    char line[LONGEST_TEXT];
    const char *text = line;
    if (!get_line(line) || !take_number(&text, &told->number) || !take_number(&text, &told->count)
        || !take_number(&text, &told->place)) {
        return 0;
    }
    text += *text == '-';
    memcpy(told->sets, text, strlen(text) + 1);
    return 1;
}

static int decided(const struct told *told)
{
    return told->number == SOLVED || told->number == NONE;
}

/* Whether the second answer repeats the first, with the fill after its sets. */
static int same_answer(const struct told *first, const struct told *second)
{
    u32 length = (u32)strlen(first->sets);
    if (first->number != second->number || first->count != second->count
        || first->place != second->place || strlen(second->sets) < length
        || memcmp(first->sets, second->sets, length) != 0) {
        return 0;
    }
    for (const char *rest = second->sets + length; *rest != 0; rest++) {
        if (*rest != 'a') {
            return 0;
        }
    }
    return 1;
}

/* Whether the answers of a pair are as they must be. A solved table stays so by
   one more role row, as what held before holds. */
static int pair_holds(const struct pair *pair, const struct told *first, const struct told *second)
{
    if (pair->kind == AGAIN) {
        return !decided(first) || same_answer(first, second);
    }
    if (pair->kind != ONE_ROLE_ROW && !grows(&pair->first, &pair->second)) {
        return 0;
    }
    if (first->number == NONE) {
        return pair->kind == ONE_ROLE_ROW || second->number != SOLVED;
    }
    return !(first->number == SOLVED && pair->kind != WITH_LINES && second->number == NONE);
}

/* ---- The check */

/* How many pairs of each kind had both answers decided, by the first answer, and
   how many of them came to be solved by one more role row. */
struct tally {
    u64 pairs[KINDS], none[KINDS], solved[KINDS];
    u64 by_role_row;
};

static void put_tally(const struct tally *tally)
{
    static const char *const names[KINDS] = { "grown with new lines", "grown without new lines",
                                              "asked again", "one more role row" };
    for (u32 kind = 0; kind < KINDS; kind++) {
        put_text(names[kind]);
        put_text(": ");
        put_number(tally->pairs[kind]);
        put_text(" pairs, decided ");
        put_number(tally->none[kind]);
        put_text(" from none and ");
        put_number(tally->solved[kind]);
        put_text(" from solved\n");
    }
    put_text("solved by one more role row: ");
    put_number(tally->by_role_row);
    put_text("\n");
}

/* Whether each kind has enough pairs that were decided; with new lines a
   solved table may become anything, so there only none counts. */
static int enough(const struct tally *tally)
{
    for (u32 kind = 0; kind < KINDS; kind++) {
        u64 least = tally->pairs[kind] * LEAST_PERCENT;
        if (tally->none[kind] * 100 < least || (kind != WITH_LINES && tally->solved[kind] * 100 < least)) {
            return 0;
        }
    }
    return tally->by_role_row > 0;
}

static void put_broken(const struct pair *pair)
{
    put_text("grow: a pair breaks what growth allows:\n  ");
    put_hex(pair->first.table, pair->first.length);
    put_text("\n  ");
    put_hex(pair->second.table, pair->second.length);
    put_text("\n");
}

static int check_pairs(u64 seed, u64 count)
{
    static struct pair pair;
    static struct told first, second;
    struct chance chance = { seed };
    struct tally tally = { { 0 }, { 0 }, { 0 }, 0 };
    for (u64 i = 0; i < count; i++) {
        make_pair(&chance, &pair, i);
        if (!get_told(&first) || !get_told(&second)) {
            put_text("grow: an answer is missing\n");
            return 0;
        }
        if (!pair_holds(&pair, &first, &second)) {
            put_broken(&pair);
            return 0;
        }
        tally.pairs[pair.kind]++;
        tally.none[pair.kind] += first.number == NONE && decided(&second);
        tally.solved[pair.kind] += first.number == SOLVED && decided(&second);
        tally.by_role_row += pair.kind == ONE_ROLE_ROW && first.number == NONE && second.number == SOLVED;
    }
    if (get_byte() >= 0) {
        put_text("grow: there are more answers than questions\n");
        return 0;
    }
    put_tally(&tally);
    if (!enough(&tally)) {
        put_text("grow: too few pairs were decided\n");
        return 0;
    }
    return 1;
}

int main(int words, char **word)
{
    int check = words == 4 && strcmp(word[1], "check") == 0;
    int good = 1;
    if (words != 3 && !check) {
        fail("usage: grow [check] SEED COUNT");
    }
    if (check) {
        good = check_pairs(number_of(word[2]), number_of(word[3]));
    } else {
        write_pairs(number_of(word[1]), number_of(word[2]));
    }
    flush();
    return good ? 0 : 1;
}
