/* The second solver of Makrothel. See second.h.

   A set of non-variable atoms is a bit mask of 64 bits: bit k for constant k, bit
   c + k for restriction k. A conjunction of atoms is the union of their sets, so a
   line asks whether one set lies below another. A mask of roles, of rows or of
   variables has 32 bits, as there are at most 32 of each.

   What the role rows say is worked out once for a table, by a search from each
   role, and kept as a mask of rows for each row. */

#include "second.h"

enum {
    HEADER = 10,         /* bytes up to the five counts */
    MOST_CONSTANTS = 32,
    MOST_ROWS = 32,      /* e */
    MOST_ATOMS = 56,     /* c + e */
    MOST_ROLES = 16,
    MOST_VARIABLES = 24,
    MOST_LINES = 64,
    MOST_LEFT = 8,       /* p */
    MOST_ROLE_ROWS = 32, /* q */
    SET_BYTES = 8        /* of a variable's set in the output */
};

/* ---- A table, decoded */

enum kind { TOP, CONSTANT, RESTRICTION, VARIABLE, REFUSED };

/* A code: what it names, and the number of the constant, row or variable. */
struct code {
    enum kind kind;
    u32 k;
};

struct role_row {
    u32 narrower, wider;
};

struct row {
    u32 role;
    struct code filler;
};

struct line {
    u32 p;
    struct code left[MOST_LEFT];
    struct code right;
    struct part part;    /* where it stands in the table */
    u32 variables;       /* bit x: variable x is in it, or is a filler in it */
};

struct table {
    u32 version;
    u32 c, r, v, e, m, q;
    struct role_row role_rows[MOST_ROLE_ROWS];
    struct row rows[MOST_ROWS];
    struct line lines[MOST_LINES];
    u32 under[MOST_ROWS]; /* bit i of under[j]: the role of row i lies under that of row j */
};

/* Where a reader stands. `number` is 0 until the table is refused, and then
   stays, with `place`. */
struct reader {
    const u8 *bytes;
    u32 length;
    u32 at;
    u32 number, place;
};

static void refuse(struct reader *reader, u32 number, u32 place)
{
    if (reader->number == 0) {
        reader->number = number;
        reader->place = place;
    }
}

/* The next byte; 0 where the table is refused, as it is for want of a byte. */
static u32 next_byte(struct reader *reader)
{
    if (reader->number != 0) {
        return 0;
    }
    if (reader->at >= reader->length) {
        refuse(reader, ENDS_EARLY, reader->length);
        return 0;
    }
    return reader->bytes[reader->at++];
}

/* A count or a left count: the next byte, which is at most `bound`. */
static u32 next_count(struct reader *reader, u32 bound)
{
    u32 count = next_byte(reader);
    if (count > bound) {
        refuse(reader, COUNT_OVER_BOUND, reader->at - 1);
        return 0;
    }
    return count;
}

static struct code decode(const struct table *table, u32 byte)
{
    struct code code = { REFUSED, 0 };
    if (byte == 0) {
        code.kind = TOP;
    } else if (byte >= 0x20 && byte - 0x20 < table->c) {
        code.kind = CONSTANT;
        code.k = byte - 0x20;
    } else if (byte >= 0x40 && byte - 0x40 < table->e) {
        code.kind = RESTRICTION;
        code.k = byte - 0x40;
    } else if (byte >= 0x60 && byte - 0x60 < table->v) {
        code.kind = VARIABLE;
        code.k = byte - 0x60;
    }
    return code;
}

/* The next byte as a code; `barred` is the kind not allowed there. */
static struct code next_code(struct reader *reader, const struct table *table, enum kind barred)
{
    u32 byte = next_byte(reader);
    struct code code = decode(table, byte);
    if (reader->number == 0 && (code.kind == REFUSED || code.kind == barred)) {
        refuse(reader, CODE_REFUSED, reader->at - 1);
    }
    return code;
}

static void read_header(struct reader *reader, struct table *table)
{
    static const u8 mark[3] = { 0x56, 0x4F, 0x43 };
    if (reader->length < HEADER) {
        refuse(reader, ENDS_EARLY, reader->length);
        return;
    }
    if (memcmp(reader->bytes, mark, 3) != 0) {
        refuse(reader, WRONG_MARK, 0);
        return;
    }
    table->version = reader->bytes[3] | (u32)reader->bytes[4] << 8;
    if (table->version != 1 && table->version != 2) {
        refuse(reader, WRONG_VERSION, 3);
        return;
    }
    reader->at = 5;
    table->c = next_count(reader, MOST_CONSTANTS);
    table->r = next_count(reader, MOST_ROLES);
    table->v = next_count(reader, MOST_VARIABLES);
    table->e = next_count(reader, MOST_ROWS);
    if (table->c + table->e > MOST_ATOMS) {
        refuse(reader, COUNT_OVER_BOUND, 8);
    }
    table->m = next_count(reader, MOST_LINES);
    table->q = table->version == 2 ? next_count(reader, MOST_ROLE_ROWS) : 0;
}

/* The next byte as a role. */
static u32 next_role(struct reader *reader, const struct table *table)
{
    u32 role = next_byte(reader);
    if (reader->number == 0 && role >= table->r) {
        refuse(reader, CODE_REFUSED, reader->at - 1);
    }
    return role;
}

static struct role_row read_role_row(struct reader *reader, const struct table *table)
{
    struct role_row row;
    row.narrower = next_role(reader, table);
    row.wider = next_role(reader, table);
    return row;
}

static struct row read_row(struct reader *reader, const struct table *table)
{
    struct row row;
    row.role = next_role(reader, table);
    row.filler = next_code(reader, table, RESTRICTION);
    return row;
}

/* The variable that an atom is, or that a restriction has as filler: bit x. */
static u32 variable_in(const struct table *table, struct code atom)
{
    if (atom.kind == RESTRICTION) {
        return variable_in(table, table->rows[atom.k].filler);
    }
    return atom.kind == VARIABLE ? 1u << atom.k : 0;
}

static void read_line(struct reader *reader, const struct table *table, struct line *line)
{
    line->variables = 0;
    line->part.start = reader->at;
    line->p = next_count(reader, MOST_LEFT);
    for (u32 i = 0; i < line->p; i++) {
        line->left[i] = next_code(reader, table, TOP);
    }
    line->right = next_code(reader, table, TOP);
    if (reader->number != 0) {
        return;
    }
    line->part.length = reader->at - line->part.start;
    line->variables = variable_in(table, line->right);
    for (u32 i = 0; i < line->p; i++) {
        line->variables |= variable_in(table, line->left[i]);
    }
}

/* Decodes a table. The answer's number says whether it is readable. */
static struct reading decode_table(const u8 *bytes, u32 length, struct table *table)
{
    struct reader reader = { bytes, length, 0, 0, 0 };
    struct reading reading = { 0, 0, 0, 0, 0, 0, 0, 0 };
    read_header(&reader, table);
    for (u32 i = 0; reader.number == 0 && i < table->q; i++) {
        table->role_rows[i] = read_role_row(&reader, table);
    }
    for (u32 k = 0; reader.number == 0 && k < table->e; k++) {
        table->rows[k] = read_row(&reader, table);
    }
    for (u32 i = 0; reader.number == 0 && i < table->m; i++) {
        read_line(&reader, table, &table->lines[i]);
    }
    if (reader.number == 0 && reader.at < length) {
        refuse(&reader, BYTES_AFTER, reader.at);
    }
    reading.number = reader.number;
    reading.place = reader.place;
    if (reader.number == 0) {
        reading.c = table->c;
        reading.r = table->r;
        reading.v = table->v;
        reading.e = table->e;
        reading.m = table->m;
        reading.q = table->q;
    }
    return reading;
}

struct reading second_read(const u8 *bytes, u32 length)
{
    struct table table;
    return decode_table(bytes, length, &table);
}

struct part second_line(const u8 *bytes, u32 length, u32 line)
{
    struct table table;
    struct part empty = { 0, 0 };
    if (decode_table(bytes, length, &table).number != 0 || line >= table.m) {
        return empty;
    }
    return table.lines[line].part;
}

/* ---- Roles */

/* Adds to `seen` what a role reaches over the role rows in zero or more steps, bit t
   for role t, by a search that does not go on from roles that are seen. */
static u32 search(const struct table *table, u32 role, u32 seen)
{
    seen |= 1u << role;
    for (u32 i = 0; i < table->q; i++) {
        const struct role_row *row = &table->role_rows[i];
        if (row->narrower == role && !(seen >> row->wider & 1)) {
            seen = search(table, row->wider, seen);
        }
    }
    return seen;
}

/* Enters the masks of rows, where bit t of wider[s] says that role s lies under
   role t. */
static void enter_roles(struct table *table, const u32 *wider)
{
    for (u32 j = 0; j < table->e; j++) {
        table->under[j] = 0;
        for (u32 i = 0; i < table->e; i++) {
            table->under[j] |= (wider[table->rows[i].role] >> table->rows[j].role & 1) << i;
        }
    }
}

/* ---- A node */

/* Sets for variables 0 to chosen - 1. The sets themselves are the walk's, as the
   nodes of one branch share them. */
struct node {
    u64 *set;
    u64 ready;                 /* bit i: line i is ready here */
    u32 chosen;
    u32 reach[MOST_VARIABLES]; /* bit y of reach[x]: x depends on y over one or more steps; 0 for x
                                  that is not chosen */
};

/* ---- The order between descriptions, after substitution */

/* The questions asked at one node. Bit j of holds[i] says that the filler of
   row i lies below the filler of row j, where bit j of known[i] is set. */
struct asking {
    const struct table *table;
    const u64 *set;
    u32 known[MOST_ROWS];
    u32 holds[MOST_ROWS];
};

/* The set of atoms whose conjunction a code stands for. */
static u64 atoms_of(const struct asking *asking, struct code code)
{
    switch (code.kind) {
    case CONSTANT: return (u64)1 << code.k;
    case RESTRICTION: return (u64)1 << (asking->table->c + code.k);
    case VARIABLE: return asking->set[code.k];
    default: return 0;
    }
}

static int filler_below_filler(struct asking *asking, u32 i, u32 j);

/* Whether the conjunction of the set `left` lies below atom number `atom`. */
static int below_atom(struct asking *asking, u64 left, u32 atom)
{
    const struct table *table = asking->table;
    if (atom < table->c) {
        return left >> atom & 1;
    }
    u32 j = atom - table->c;
    for (u32 rest = (u32)(left >> table->c) & table->under[j]; rest != 0; rest &= rest - 1) {
        if (filler_below_filler(asking, (u32)__builtin_ctz(rest), j)) {
            return 1;
        }
    }
    return 0;
}

/* Whether the conjunction of `left` lies below that of `right`. */
static int below(struct asking *asking, u64 left, u64 right)
{
    for (u64 rest = right; rest != 0; rest &= rest - 1) {
        if (!below_atom(asking, left, (u32)__builtin_ctzll(rest))) {
            return 0;
        }
    }
    return 1;
}

/* Whether the filler of row i lies below the filler of row j. The sets of the
   node are acyclic, so this asks itself only finitely often. */
static int filler_below_filler(struct asking *asking, u32 i, u32 j)
{
    if (!(asking->known[i] >> j & 1)) {
        u64 left = atoms_of(asking, asking->table->rows[i].filler);
        u64 right = atoms_of(asking, asking->table->rows[j].filler);
        u32 holds = (u32)below(asking, left, right);
        asking->holds[i] |= holds << j;
        asking->known[i] |= 1u << j;
    }
    return asking->holds[i] >> j & 1;
}

static int line_holds(struct asking *asking, const struct line *line)
{
    u64 left = 0;
    for (u32 i = 0; i < line->p; i++) {
        left |= atoms_of(asking, line->left[i]);
    }
    return below(asking, left, atoms_of(asking, line->right));
}

/* ---- The walk */

/* The variables on which a variable with this set depends directly. */
static u32 dependences(const struct table *table, u64 set)
{
    u32 variables = 0;
    for (u32 rest = (u32)(set >> table->c); rest != 0; rest &= rest - 1) {
        variables |= variable_in(table, table->rows[__builtin_ctz(rest)].filler);
    }
    return variables;
}

/* `variables`, and all that are reached from them over dependences. */
static u32 reached(const struct node *node, u32 variables)
{
    u32 all = variables;
    for (u32 rest = variables; rest != 0; rest &= rest - 1) {
        all |= node->reach[__builtin_ctz(rest)];
    }
    return all;
}

/* Enters the dependences of the variable chosen last, x. Answers 0 if the
   chosen sets are cyclic now: a cycle that was not there before leads over x. */
static int enter_dependences(const struct table *table, struct node *node, u32 x)
{
    node->reach[x] = 0;
    u32 reach = reached(node, dependences(table, node->set[x]));
    if (reach >> x & 1) {
        return 0;
    }
    node->reach[x] = reach;
    for (u32 y = 0; y < x; y++) {
        if (node->reach[y] >> x & 1) {
            node->reach[y] |= reach;
        }
    }
    return 1;
}

/* The lines that are ready at the node and are not marked so yet. */
static u64 newly_ready(const struct table *table, const struct node *node)
{
    u32 unchosen = ~0u << node->chosen;
    u64 lines = 0;
    for (u32 i = 0; i < table->m; i++) {
        u32 variables = table->lines[i].variables;
        if (!(node->ready >> i & 1) && !(variables & unchosen)
            && !(reached(node, variables) & unchosen)) {
            lines |= (u64)1 << i;
        }
    }
    return lines;
}

/* Marks the lines that have become ready. Answers 0 if one of them fails. The
   lines that were ready before hold, as the parent is live, and what they say
   does not change by a further choice. */
static int ready_lines_hold(const struct table *table, struct node *node)
{
    u64 lines = newly_ready(table, node);
    if (lines == 0) {
        return 1;
    }
    struct asking asking = { table, node->set, { 0 }, { 0 } };
    for (u64 rest = lines; rest != 0; rest &= rest - 1) {
        if (!line_holds(&asking, &table->lines[__builtin_ctzll(rest)])) {
            return 0;
        }
    }
    node->ready |= lines;
    return 1;
}

/* Makes the child of a live node with this set for the next variable.
   Answers 0 if the child is dead. */
static int live_child(const struct table *table, const struct node *node, u64 set, struct node *child)
{
    u32 x = node->chosen;
    *child = *node;
    child->set[x] = set;
    child->chosen = x + 1;
    return enter_dependences(table, child, x) && ready_lines_hold(table, child);
}

struct walk {
    const struct table *table;
    u32 budget;
    u32 count;                 /* the nodes examined so far */
    u64 set[MOST_VARIABLES];   /* of the node at hand; of the last one, where the walk ends solved */
};

/* Counts one more node. Answers 0 if the budget has none left. */
static int one_more(struct walk *walk)
{
    if (walk->count == walk->budget) {
        return 0;
    }
    walk->count++;
    return 1;
}

/* Walks on from a live node, and answers SOLVED, NONE or BUDGET. */
static u32 walk_on(struct walk *walk, const struct node *node)
{
    const struct table *table = walk->table;
    struct node child;
    if (node->chosen == table->v) {
        return SOLVED;
    }
    for (u64 set = 0; set >> (table->c + table->e) == 0; set++) {
        if (!one_more(walk)) {
            return BUDGET;
        }
        if (live_child(table, node, set, &child)) {
            u32 number = walk_on(walk, &child);
            if (number != NONE) {
                return number;
            }
        }
    }
    return NONE;
}

static u32 walk_from_start(struct walk *walk)
{
    struct node start;
    memset(&start, 0, sizeof start);
    start.set = walk->set;
    if (!one_more(walk)) {
        return BUDGET;
    }
    return ready_lines_hold(walk->table, &start) ? walk_on(walk, &start) : NONE;
}

static void write_sets(const struct walk *walk, u8 *output)
{
    for (u32 x = 0; x < walk->table->v; x++) {
        for (u32 i = 0; i < SET_BYTES; i++) {
            output[SET_BYTES * x + i] = (u8)(walk->set[x] >> 8 * i);
        }
    }
}

/* Walks a readable table. */
static struct answer solve_table(const struct table *table, u32 budget, u8 *output, u32 room)
{
    struct answer answer = { OUTPUT_SHORT, 0, SET_BYTES * table->v };
    if (room < SET_BYTES * table->v) {
        return answer;
    }
    struct walk walk;
    walk.table = table;
    walk.budget = budget;
    walk.count = 0;
    answer.number = walk_from_start(&walk);
    answer.count = walk.count;
    answer.place = 0;
    if (answer.number == SOLVED) {
        write_sets(&walk, output);
    }
    return answer;
}

struct answer second_solve_over(const u32 *wider, const u8 *bytes, u32 length, u32 budget, u8 *output,
                                u32 room)
{
    struct table table;
    struct reading reading = decode_table(bytes, length, &table);
    if (reading.number != 0) {
        return (struct answer){ reading.number, 0, reading.place };
    }
    enter_roles(&table, wider);
    return solve_table(&table, budget, output, room);
}

struct answer second_solve(const u8 *bytes, u32 length, u32 budget, u8 *output, u32 room)
{
    struct table table;
    u32 wider[MOST_ROLES];
    struct reading reading = decode_table(bytes, length, &table);
    if (reading.number != 0) {
        return (struct answer){ reading.number, 0, reading.place };
    }
    for (u32 role = 0; role < table.r; role++) {
        wider[role] = search(&table, role, 0);
    }
    enter_roles(&table, wider);
    return solve_table(&table, budget, output, room);
}
