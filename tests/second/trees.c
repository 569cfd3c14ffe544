/* trees: replies to a stream of questions (replies.h), straight from the
   specification's words, and by another way than the proved solver and the
   second one. A table is read by a cursor that asks what follows. A set is a row
   of marks. A description is a tree, written out whole for each line at each
   node. Dependences are followed, and nothing is kept from one node to the next.

   So it is slow: a walk of more than MOST_NODES nodes, or a line whose
   descriptions have more than MOST_CONJUNCTS conjuncts, ends the run with
   status 2.

   trees circles: replies nothing, and says how often the walks of the stream
   ended a branch at a circle of the rarest kind. Ends with status 1 if there was
   none of a kind (below, "Circles that were met"). */

#include "replies.h"
#include "stream.h"

enum {
    MOST_NODES = 100000,
    MOST_CONJUNCTS = 1 << 18,
    FEW_ASSIGNMENTS = 12 /* 2 to this many are tried one by one, too */
};

/* Ends the run, with a reply for each question before the one at hand. */
static _Noreturn void give_up(const char *message)
{
    flush();
    fail(message);
}

/* "Constants and restrictions go up to 32 each, 56 together, variables to 24." "r at
   most 16", "m at most 64, p at most 8". "the count q of role rows, at most 32". "Sets
   become 64-bit numbers and the output eight bytes per variable". */
enum {
    MOST_CONSTANTS = 32,
    MOST_RESTRICTIONS = 32,
    MOST_ATOMS = 56,
    MOST_ROLES = 16,
    MOST_VARIABLES = 24,
    MOST_LINES = 64,
    MOST_LEFT = 8,
    MOST_ROLE_ROWS = 32,
    SET_BYTES = 8
};

/* ---- A table is its bytes, and where they stand */

struct table {
    const u8 *byte;
    u32 length;
    u32 version;
    u32 c, r, v, e, m, q;
    u32 role_rows;        /* the byte of the first role row */
    u32 rows;             /* the byte of the first restriction row */
    u32 line[MOST_LINES]; /* the byte of each line's left count */
    u8 reaches[MOST_ROLES][MOST_ROLES]; /* the first role reaches the second */
};

/* "Codes fall in four ranges": a code is 32 times its range, and a number. */
enum range { TOP, CONSTANT, RESTRICTION, VARIABLE };

static u32 range_of(u32 code)
{
    return code / 32;
}

static u32 number_in(u32 code)
{
    return code % 32;
}

static u32 code_of(enum range range, u32 number)
{
    return 32 * range + number;
}

/* "0x00 top; 0x20+k constant k, k < c; 0x40+k restriction k, k < e; 0x60+k
   variable k, k < v", and any other value is refused. */
static int declared(const struct table *table, u32 code)
{
    switch (range_of(code)) {
    case TOP: return number_in(code) == 0;
    case CONSTANT: return number_in(code) < table->c;
    case RESTRICTION: return number_in(code) < table->e;
    case VARIABLE: return number_in(code) < table->v;
    default: return 0;
    }
}

/* "q rows of two roles (narrower, then wider)" */
static u32 narrower_of(const struct table *table, u32 i)
{
    return table->byte[table->role_rows + 2 * i];
}

static u32 wider_of(const struct table *table, u32 i)
{
    return table->byte[table->role_rows + 2 * i + 1];
}

/* "Then e restriction rows of two bytes: a role, less than r, and a filler code." */
static u32 role_of(const struct table *table, u32 k)
{
    return table->byte[table->rows + 2 * k];
}

static u32 filler_of(const struct table *table, u32 k)
{
    return table->byte[table->rows + 2 * k + 1];
}

/* "each a left count p, p atom codes, and one right atom code" */
static u32 left_count(const struct table *table, u32 line)
{
    return table->byte[table->line[line]];
}

static u32 left_entry(const struct table *table, u32 line, u32 i)
{
    return table->byte[table->line[line] + 1 + i];
}

static u32 right_entry(const struct table *table, u32 line)
{
    return left_entry(table, line, left_count(table, line));
}

/* ---- The reader: what follows, in byte order */

struct cursor {
    struct table *table;
    u32 at;
    u32 number, place; /* of the refusal */
};

/* Ends the reading: what was asked for does not follow. */
static int refuse(struct cursor *cursor, u32 number, u32 place)
{
    cursor->number = number;
    cursor->place = place;
    return 0;
}

static u32 here(const struct cursor *cursor)
{
    return cursor->table->byte[cursor->at];
}

static int go_on(struct cursor *cursor)
{
    cursor->at++;
    return 1;
}

/* "a missing byte gives 1", and 1 has the input length as its place. */
static int byte_follows(struct cursor *cursor)
{
    u32 length = cursor->table->length;
    return cursor->at < length ? 1 : refuse(cursor, ENDS_EARLY, length);
}

/* "a count is over its bound", at its byte. */
static int count_follows(struct cursor *cursor, u32 most, u32 *count)
{
    if (!byte_follows(cursor)) {
        return 0;
    }
    *count = here(cursor);
    return *count <= most ? go_on(cursor) : refuse(cursor, COUNT_OVER_BOUND, cursor->at);
}

/* "code or role not declared or not allowed there", at its byte. */
static int code_follows(struct cursor *cursor, enum range barred)
{
    if (!byte_follows(cursor)) {
        return 0;
    }
    u32 code = here(cursor);
    if (!declared(cursor->table, code) || range_of(code) == barred) {
        return refuse(cursor, CODE_REFUSED, cursor->at);
    }
    return go_on(cursor);
}

static int role_follows(struct cursor *cursor)
{
    if (!byte_follows(cursor)) {
        return 0;
    }
    return here(cursor) < cursor->table->r ? go_on(cursor) : refuse(cursor, CODE_REFUSED, cursor->at);
}

/* "fewer than 10 bytes gives 1 before anything else" */
static int ten_bytes_follow(struct cursor *cursor)
{
    u32 length = cursor->table->length;
    return length >= 10 ? 1 : refuse(cursor, ENDS_EARLY, length);
}

/* "Bytes 0 to 2: the mark `VOC` (56 4F 43). Bytes 3 and 4: version, 1." "3 now
   means neither 1 nor 2". */
static int mark_and_version_follow(struct cursor *cursor)
{
    const u8 *byte = cursor->table->byte;
    if (byte[0] != 0x56 || byte[1] != 0x4F || byte[2] != 0x43) {
        return refuse(cursor, WRONG_MARK, 0);
    }
    cursor->table->version = byte[3] + 256u * byte[4];
    if (cursor->table->version == 0 || cursor->table->version > 2) {
        return refuse(cursor, WRONG_VERSION, 3);
    }
    cursor->at = 5;
    return 1;
}

/* "c + e is judged at byte 8" */
static int atoms_within(struct cursor *cursor)
{
    const struct table *table = cursor->table;
    return table->c + table->e <= MOST_ATOMS ? 1 : refuse(cursor, COUNT_OVER_BOUND, 8);
}

/* "counts in byte order", and "a c or e over 32 is 4 at its own byte, before the sum" */
static int counts_follow(struct cursor *cursor)
{
    struct table *table = cursor->table;
    return count_follows(cursor, MOST_CONSTANTS, &table->c) && count_follows(cursor, MOST_ROLES, &table->r)
        && count_follows(cursor, MOST_VARIABLES, &table->v)
        && count_follows(cursor, MOST_RESTRICTIONS, &table->e) && atoms_within(cursor)
        && count_follows(cursor, MOST_LINES, &table->m);
}

/* "In version 2 byte 10 is the count q of role rows, at most 32, and q rows of two
   roles (narrower, then wider) follow it." */
static int role_rows_follow(struct cursor *cursor)
{
    struct table *table = cursor->table;
    table->q = 0;
    if (table->version == 2 && !count_follows(cursor, MOST_ROLE_ROWS, &table->q)) {
        return 0;
    }
    table->role_rows = cursor->at;
    for (u32 i = 0; i < 2 * table->q; i++) {
        if (!role_follows(cursor)) {
            return 0;
        }
    }
    return 1;
}

/* "A filler is top, a constant or a variable." */
static int rows_follow(struct cursor *cursor)
{
    cursor->table->rows = cursor->at;
    for (u32 k = 0; k < cursor->table->e; k++) {
        if (!role_follows(cursor) || !code_follows(cursor, RESTRICTION)) {
            return 0;
        }
    }
    return 1;
}

/* "A left or right entry is a constant, a restriction or a variable." */
static int line_follows(struct cursor *cursor)
{
    u32 p;
    if (!count_follows(cursor, MOST_LEFT, &p)) {
        return 0;
    }
    for (u32 i = 0; i < p; i++) {
        if (!code_follows(cursor, TOP)) {
            return 0;
        }
    }
    return code_follows(cursor, TOP);
}

static int lines_follow(struct cursor *cursor)
{
    for (u32 i = 0; i < cursor->table->m; i++) {
        cursor->table->line[i] = cursor->at;
        if (!line_follows(cursor)) {
            return 0;
        }
    }
    return 1;
}

/* "Nothing follows." */
static int nothing_follows(struct cursor *cursor)
{
    return cursor->at == cursor->table->length ? 1 : refuse(cursor, BYTES_AFTER, cursor->at);
}

static int table_follows(struct cursor *cursor)
{
    return ten_bytes_follow(cursor) && mark_and_version_follow(cursor) && counts_follow(cursor)
        && role_rows_follow(cursor) && rows_follow(cursor) && lines_follow(cursor)
        && nothing_follows(cursor);
}

/* "The reader answers 0 to 6 with the same places, and the five counts (zeros
   when refused)." "The reader hands back q too (0 in version 1)". */
static struct reading read_table(struct table *table, const u8 *bytes, u32 length)
{
    struct cursor cursor = { table, 0, 0, 0 };
    table->byte = bytes;
    table->length = length;
    if (!table_follows(&cursor)) {
        return (struct reading){ cursor.number, cursor.place, 0, 0, 0, 0, 0, 0 };
    }
    return (struct reading){ 0, 0, table->c, table->r, table->v, table->e, table->m, table->q };
}

static struct reading trees_read(const u8 *bytes, u32 length)
{
    struct table table;
    return read_table(&table, bytes, length);
}

/* "from its left count to its right code, p + 2 bytes. An unreadable table or a
   line number of m or more gives an empty part." */
static struct part trees_line(const u8 *bytes, u32 length, u32 line)
{
    struct table table;
    if (read_table(&table, bytes, length).number != 0 || line >= table.m) {
        return (struct part){ 0, 0 };
    }
    return (struct part){ table.line[line], left_count(&table, line) + 2 };
}

/* ---- Roles */

/* Enters one more step over role row i, for each role that reaches its narrower
   one. Answers whether a role reaches more by it. */
static int one_more_step(struct table *table, u32 i)
{
    int more = 0;
    for (u32 s = 0; s < MOST_ROLES; s++) {
        u8 *wider = &table->reaches[s][wider_of(table, i)];
        if (table->reaches[s][narrower_of(table, i)] && !*wider) {
            *wider = more = 1;
        }
    }
    return more;
}

/* "its role reaches the other's over these rows in zero or more steps": zero
   first, and then one more as long as there is one. */
static void enter_steps(struct table *table)
{
    int more = 1;
    memset(table->reaches, 0, sizeof table->reaches);
    for (u32 s = 0; s < MOST_ROLES; s++) {
        table->reaches[s][s] = 1;
    }
    while (more) {
        more = 0;
        for (u32 i = 0; i < table->q; i++) {
            more |= one_more_step(table, i);
        }
    }
}

/* ---- A node: sets for variables 0 to chosen - 1 */

struct node {
    const struct table *table;
    u32 chosen;
    u8 in[MOST_VARIABLES][MOST_ATOMS]; /* in[x][i]: atom i is in the set of variable x */
};

/* "The non-variable atoms are all declared constants and restriction rows, used
   or not. Their numbers: constant k is k, restriction k is c + k." */
static u32 atoms(const struct table *table)
{
    return table->c + table->e;
}

static u32 atom(const struct table *table, u32 i)
{
    return i < table->c ? code_of(CONSTANT, i) : code_of(RESTRICTION, i - table->c);
}

/* "in rising set number from 0 to 2^(c+e) - 1", where "bit i of a variable's set
   number says that atom i is in". After the last set comes the first, and the
   answer 0. */
static int next_set(struct node *node, u32 x)
{
    for (u32 i = 0; i < atoms(node->table); i++) {
        node->in[x][i] = !node->in[x][i];
        if (node->in[x][i]) {
            return 1;
        }
    }
    return 0;
}

/* ---- Dependences */

/* Marks each variable on which x depends directly: "X depends directly on Y if a
   restriction with filler Y is in X's set", and "only chosen variables have
   dependences". */
static void mark_direct(const struct node *node, u32 x, u8 *marked)
{
    const struct table *table = node->table;
    for (u32 k = 0; x < node->chosen && k < table->e; k++) {
        u32 filler = filler_of(table, k);
        if (node->in[x][table->c + k] && range_of(filler) == VARIABLE) {
            marked[number_in(filler)] = 1;
        }
    }
}

/* Marks each variable on which x depends over one or more steps. */
static void visit(const struct node *node, u32 x, u8 *visited)
{
    u8 direct[MOST_VARIABLES] = { 0 };
    mark_direct(node, x, direct);
    for (u32 y = 0; y < MOST_VARIABLES; y++) {
        if (direct[y] && !visited[y]) {
            visited[y] = 1;
            visit(node, y, visited);
        }
    }
}

/* "depends on itself over one or more steps" */
static int in_circle(const struct node *node, u32 x)
{
    u8 visited[MOST_VARIABLES] = { 0 };
    visit(node, x, visited);
    return visited[x];
}

/* "acyclic if no variable depends on itself over one or more steps" */
static int cyclic(const struct node *node)
{
    for (u32 x = 0; x < node->chosen; x++) {
        if (in_circle(node, x)) {
            return 1;
        }
    }
    return 0;
}

/* Whether each variable that a code is, has as its filler, or reaches is chosen.
   The node is acyclic, so following them ends. */
static int settled(const struct node *node, u32 code)
{
    const struct table *table = node->table;
    u32 k = number_in(code);
    if (range_of(code) == RESTRICTION) {
        return settled(node, filler_of(table, k));
    }
    if (range_of(code) == VARIABLE && k >= node->chosen) {
        return 0;
    }
    for (u32 i = 0; range_of(code) == VARIABLE && i < atoms(table); i++) {
        if (node->in[k][i] && !settled(node, atom(table, i))) {
            return 0;
        }
    }
    return 1;
}

/* "A line is ready at a node if every variable in it, fillers included, and every
   variable reached from these over dependences is chosen." */
static int ready(const struct node *node, u32 line)
{
    const struct table *table = node->table;
    for (u32 i = 0; i < left_count(table, line); i++) {
        if (!settled(node, left_entry(table, line, i))) {
            return 0;
        }
    }
    return settled(node, right_entry(table, line));
}

/* ---- Descriptions without variables, as trees */

/* "A description is a conjunction of atoms; the empty one is top": its first
   conjunct, or none. */
typedef const struct conjunct *description;

struct conjunct {
    enum range range;   /* a constant or a restriction */
    u32 name;           /* the constant, or the role */
    description filler; /* of a restriction */
    description next;
};

static struct conjunct pool[MOST_CONJUNCTS];
static u32 used;

/* A conjunct before the others. */
static description before(description others, enum range range, u32 name, description filler)
{
    if (used == MOST_CONJUNCTS) {
        give_up("trees: a description is too large");
    }
    pool[used] = (struct conjunct){ range, name, filler, others };
    return &pool[used++];
}

/* What a code stands for, before the others: "each variable becomes the
   conjunction of its set's atoms, with the substitution carried out inside them;
   the empty set becomes top". */
static description substituted(const struct node *node, u32 code, description others)
{
    const struct table *table = node->table;
    u32 k = number_in(code);
    switch (range_of(code)) {
    case CONSTANT:
        return before(others, CONSTANT, k, 0);
    case RESTRICTION:
        return before(others, RESTRICTION, role_of(table, k), substituted(node, filler_of(table, k), 0));
    case VARIABLE:
        for (u32 i = 0; i < atoms(table); i++) {
            others = node->in[k][i] ? substituted(node, atom(table, i), others) : others;
        }
        return others;
    default:
        return others;
    }
}

static int below(const struct table *table, description c, description d);

/* "A restriction lies below another if its role reaches the other's over these
   rows in zero or more steps and the fillers agree as before". */
static int restriction_below(const struct table *table, const struct conjunct *one,
                             const struct conjunct *other)
{
    return table->reaches[one->name][other->name] && below(table, one->filler, other->filler);
}

/* Whether C has this constant, or a restriction below this one. */
static int has(const struct table *table, description c, const struct conjunct *wanted)
{
    for (; c != 0; c = c->next) {
        if (c->range == wanted->range
            && (c->range == CONSTANT ? c->name == wanted->name : restriction_below(table, c, wanted))) {
            return 1;
        }
    }
    return 0;
}

/* Corollary 1: "C is below D when every constant among D's conjuncts is among
   C's, and for each restriction of D, ... C has a restriction ...". */
static int below(const struct table *table, description c, description d)
{
    for (; d != 0; d = d->next) {
        if (!has(table, c, d)) {
            return 0;
        }
    }
    return 1;
}

/* "the left conjunction lies below the right atom after substitution" */
static int holds(const struct node *node, u32 line)
{
    const struct table *table = node->table;
    description left = 0;
    used = 0;
    for (u32 i = 0; i < left_count(table, line); i++) {
        left = substituted(node, left_entry(table, line, i), left);
    }
    return below(table, left, substituted(node, right_entry(table, line), 0));
}

/* ---- Circles that were met */

/* The kinds: by the variables of the shortest circle (one, two, three, or more),
   whether variable 0 is in a circle, and whether a variable is open. */
enum { LENGTHS = 4 };

static u64 met[LENGTHS][2][2];

/* In how many steps the variable chosen last comes back to itself. Every circle
   of the node leads over it, since the node above has none. */
static u32 steps_back(const struct node *node)
{
    u8 at[MOST_VARIABLES] = { 0 };
    at[node->chosen - 1] = 1;
    for (u32 steps = 1;; steps++) {
        u8 next[MOST_VARIABLES] = { 0 };
        for (u32 x = 0; x < MOST_VARIABLES; x++) {
            if (at[x]) {
                mark_direct(node, x, next);
            }
        }
        if (next[node->chosen - 1]) {
            return steps;
        }
        memcpy(at, next, sizeof at);
    }
}

static void count_circle(const struct node *node)
{
    u32 steps = steps_back(node);
    met[(steps < LENGTHS ? steps : LENGTHS) - 1][in_circle(node, 0)][node->chosen < node->table->v]++;
}

static void put_kind(u32 length, u32 zero, u32 open)
{
    static const char *const lengths[LENGTHS] = { "one", "two", "three", "four or more" };
    put_text("trees: never met: a circle of ");
    put_text(lengths[length]);
    put_text(zero ? ", with variable 0" : ", without variable 0");
    put_text(open ? ", while a variable is open\n" : ", at a full node\n");
}

/* Says what was not met. Answers whether anything is missing. */
static int judge_circles(void)
{
    u64 rarest = ~(u64)0;
    for (u32 kind = 0; kind < 4 * LENGTHS; kind++) {
        u32 length = kind / 4, zero = kind / 2 % 2, open = kind % 2;
        u64 count = met[length][zero][open];
        rarest = count < rarest ? count : rarest;
        if (count == 0) {
            put_kind(length, zero, open);
        }
    }
    if (rarest > 0) {
        put_text("circles of every kind are met in their walks (the rarest: ");
        put_number(rarest);
        put_text(")\n");
    }
    flush();
    return rarest == 0;
}

/* ---- The walk */

/* "A node is dead if its chosen sets are cyclic, or else if a ready line fails." */
static int dead(const struct node *node)
{
    if (cyclic(node)) {
        count_circle(node);
        return 1;
    }
    for (u32 i = 0; i < node->table->m; i++) {
        if (ready(node, i) && !holds(node, i)) {
            return 1;
        }
    }
    return 0;
}

struct walk {
    struct node node;
    u32 budget;
    u64 examined;
};

/* Examines the node and what is below it. "A live node with k = v ends the walk:
   solved. If no node is left: none." It also ends, as budget, where more nodes
   are examined than the budget has. */
static u32 examine(struct walk *walk)
{
    struct node *node = &walk->node;
    if (++walk->examined > MOST_NODES) {
        give_up("trees: a walk is too long");
    }
    if (walk->examined > walk->budget) {
        return BUDGET;
    }
    if (dead(node)) {
        return NONE;
    }
    if (node->chosen == node->table->v) {
        return SOLVED;
    }
    u32 x = node->chosen++;
    do {
        u32 number = examine(walk);
        if (number != NONE) {
            return number;
        }
    } while (next_set(node, x));
    node->chosen--;
    return NONE;
}

/* ---- All assignments, where they are few */

/* "Counting order: compare variable 0's set numbers, then variable 1's, and so
   on": the last variable's set is the first to change. */
static int next_assignment(struct node *node)
{
    for (u32 x = node->table->v; x-- > 0;) {
        if (next_set(node, x)) {
            return 1;
        }
    }
    return 0;
}

/* "It solves the table if for every line the left conjunction lies below the
   right atom after substitution." */
static int solves(const struct node *node)
{
    if (cyclic(node)) {
        return 0;
    }
    for (u32 i = 0; i < node->table->m; i++) {
        if (!holds(node, i)) {
            return 0;
        }
    }
    return 1;
}

/* "The first solving assignment in this order is reported." Tries all of them,
   and ends the run if the walk has ended otherwise. */
static void hold_to_first(const struct walk *walk, u32 number)
{
    const struct table *table = walk->node.table;
    struct node node = { table, table->v, { { 0 } } };
    do {
        if (solves(&node)) {
            if (number != SOLVED || memcmp(node.in, walk->node.in, sizeof node.in) != 0) {
                give_up("trees: the walk does not end at the first solving assignment");
            }
            return;
        }
    } while (next_assignment(&node));
    if (number != NONE) {
        give_up("trees: the walk ends at an assignment that does not solve");
    }
}

/* ---- The solver */

/* "each variable's set number", eight bytes, into the part of the output that starts
   at eight times its number; bit i of the number is bit i % 8 of byte i / 8. */
static void write_set(const struct node *node, u32 x, u8 *output)
{
    memset(output, 0, SET_BYTES);
    for (u32 i = 0; i < atoms(node->table); i++) {
        output[i / 8] |= (u8)(node->in[x][i] << i % 8);
    }
}

/* "With budget b (a 32-bit number) the answer is given if N is at most b;
   otherwise it is "budget" with count b." */
static struct answer walk_table(const struct table *table, u32 budget, u8 *output)
{
    struct walk walk = { { table, 0, { { 0 } } }, budget, 0 };
    u32 number = examine(&walk);
    if (number == BUDGET) {
        return (struct answer){ BUDGET, budget, 0 };
    }
    if (budget == 0xFFFFFFFF && atoms(table) * table->v <= FEW_ASSIGNMENTS) {
        hold_to_first(&walk, number);
    }
    for (u32 x = 0; number == SOLVED && x < table->v; x++) {
        write_set(&walk.node, x, output + SET_BYTES * x);
    }
    return (struct answer){ number, (u32)walk.examined, 0 };
}

/* "Then 6, then 7, then the walk." "Number 7 now speaks of 8v". */
static struct answer trees_solve(const u8 *bytes, u32 length, u32 budget, u8 *output, u32 room)
{
    struct table table;
    struct reading reading = read_table(&table, bytes, length);
    if (reading.number != 0) {
        return (struct answer){ reading.number, 0, reading.place };
    }
    if (room < SET_BYTES * table.v) {
        return (struct answer){ OUTPUT_SHORT, 0, SET_BYTES * table.v };
    }
    enter_steps(&table);
    return walk_table(&table, budget, output);
}

/* Solves what a stream asks to be solved, and replies nothing. */
static void walk_stream(void)
{
    static struct question question;
    static u8 output[MOST_OUTPUT];
    int got = get_question(&question);
    for (; got == QUESTION; got = get_question(&question)) {
        if (question.kind == KIND_SOLVE) {
            trees_solve(question.table, question.length, question.number, output, question.room);
        }
    }
    if (got == STREAM_CUT) {
        give_up("trees: the stream is cut");
    }
}

int main(int words, char **word)
{
    static const struct solver trees = { trees_read, trees_line, trees_solve };
    if (words == 2 && strcmp(word[1], "circles") == 0) {
        walk_stream();
        return judge_circles();
    }
    if (words != 1) {
        fail("usage: trees [circles]");
    }
    reply_to_stream(&trees);
    return 0;
}
