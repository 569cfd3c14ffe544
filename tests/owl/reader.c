/* A second reader of OWL files. See reader.h.

   The text is read once, into a list of declarations, a list of axioms and one list of all classes as they are written, in the order of
   their first bytes. Names are looked up when all of it is read; then the table is made. Nothing calls itself: constructs that are not
   closed yet are kept on a stack in the heap. */
#include "reader.h"

/* ---- Tokens */

struct span {
    size_t begin, end;
};

struct text {
    const unsigned char *bytes;
    size_t length;
};

enum token_kind { NO_TOKEN, OPENS, CLOSES, EQUALS, FULL_NAME, SHORT_NAME, PREFIX_NAME, PLAIN_WORD, BAD_TOKEN };

struct token {
    enum token_kind kind;
    struct span span;
};

static int is_space(unsigned char byte) { return byte == 0x20 || byte == 0x09 || byte == 0x0A || byte == 0x0D; }

static int ends_run(unsigned char byte) {
    switch (byte) {
    case '(':
    case ')':
    case '=':
    case '<':
    case '>':
    case '#':
    case '"': return 1;
    default: return is_space(byte);
    }
}

static int is_letter(unsigned char byte) {
    if (byte >= 0x80) return 1;
    if (byte >= 'a' && byte <= 'z') return 1;
    if (byte >= 'A' && byte <= 'Z') return 1;
    if (byte >= '0' && byte <= '9') return 1;
    return byte == '_' || byte == '-' || byte == '.';
}

/* What a run of bytes is, judged as a whole. */
static enum token_kind kind_of_run(struct text text, struct span run) {
    size_t i, local;
    for (i = run.begin; i < run.end; i++)
        if (!is_letter(text.bytes[i]) && text.bytes[i] != ':') return BAD_TOKEN;
    local = run.begin;
    while (local < run.end && text.bytes[local] != ':') local++;
    if (local == run.end) return PLAIN_WORD;
    if (local == run.begin + 1 && text.bytes[run.begin] == '_') return BAD_TOKEN;
    local++;
    if (local == run.end) return PREFIX_NAME;
    return text.bytes[local] == '-' || text.bytes[local] == '.' ? BAD_TOKEN : SHORT_NAME;
}

/* The first token that begins at or behind a byte; where there is none, it is the empty one at the end. */
static struct token token_behind(struct text text, size_t at) {
    struct token token = {BAD_TOKEN, {0, 0}};
    int in_comment = 0;
    for (; at < text.length; at++) {
        unsigned char byte = text.bytes[at];
        if (in_comment) {
            if (byte == 0x0A || byte == 0x0D) in_comment = 0;
        } else if (byte == '#') {
            in_comment = 1;
        } else if (!is_space(byte)) {
            break;
        }
    }
    token.span.begin = token.span.end = at;
    if (at == text.length) {
        token.kind = NO_TOKEN;
        return token;
    }
    token.span.end++;
    switch (text.bytes[at]) {
    case '(': token.kind = OPENS; break;
    case ')': token.kind = CLOSES; break;
    case '=': token.kind = EQUALS; break;
    case '>':
    case '"': break;
    case '<':
        while (token.span.end < text.length && text.bytes[token.span.end] != '>') token.span.end++;
        if (token.span.end < text.length) {
            token.span.end++;
            token.kind = FULL_NAME;
        }
        break;
    default:
        while (token.span.end < text.length && !ends_run(text.bytes[token.span.end])) token.span.end++;
        token.kind = kind_of_run(text, token.span);
    }
    return token;
}

static int is_written(struct text text, struct span span, const char *as) {
    size_t length = strlen(as);
    return span.end - span.begin == length && memcmp(text.bytes + span.begin, as, length) == 0;
}

static int is_name(struct token token) { return token.kind == FULL_NAME || token.kind == SHORT_NAME; }

static int is_word(struct text text, struct token token, const char *as) {
    return token.kind == PLAIN_WORD && is_written(text, token.span, as);
}

/* A word before `(` that is none of the listed ones. */
static int is_unlisted(struct text text, struct token token) {
    static const char *const listed[] = {
        "Prefix", "Ontology", "Declaration", "Class", "ObjectProperty", "SubClassOf", "EquivalentClasses", "ObjectIntersectionOf",
        "ObjectSomeValuesFrom",
    };
    size_t i;
    if (token.kind != PLAIN_WORD) return 0;
    for (i = 0; i < sizeof listed / sizeof *listed; i++)
        if (is_written(text, token.span, listed[i])) return 0;
    return token_behind(text, token.span.end).kind == OPENS;
}

/* ---- What was read */

struct code {
    enum { TOP, CONSTANT, RESTRICTION, VARIABLE } kind;
    size_t number;
};

/* A class as written. What it consists of follows it in the list. */
struct class {
    enum { THING, NAMED, INTERSECTION, SOME } form;
    struct span name;  /* of a named class, or the role of a restriction */
    size_t operands;   /* of an intersection; 1 for a restriction that has its filler */
    size_t behind;     /* the first class in the list that is no part of this one */
    struct code entry; /* of a named class or a restriction: its code as an entry */
    struct code fresh; /* of a filler that is an intersection or restriction: its own variable */
};

struct declaration {
    int is_role;
    struct span name;
};

struct axiom {
    int is_equivalence;
    size_t left, right; /* classes */
};

/* A list that grows. */
struct list {
    void *items;
    size_t count, room;
};

struct file {
    struct text text;
    struct token now; /* the first token that is not taken yet */
    enum owl_kind kind;
    size_t place; /* of the refusal */
    struct list classes, declarations, axioms, open;
};

/* Makes a list longer by one item of so many bytes, and returns that. */
static void *longer(struct list *list, size_t size) {
    if (list->count == list->room) {
        list->room = list->room ? 2 * list->room : 16;
        list->items = realloc(list->items, list->room * size);
        if (!list->items) abort();
    }
    return (char *)list->items + size * list->count++;
}

static struct class *class_at(struct file *file, size_t i) { return (struct class *)file->classes.items + i; }

static void free_file(struct file *file) {
    free(file->classes.items);
    free(file->declarations.items);
    free(file->axioms.items);
    free(file->open.items);
}

/* ---- The first pass: "10 syntax or 11 an axiom or constructor not listed (place: the first such token's byte)"

   A function takes what it is named for and returns 1, or refuses at the first token that cannot stand there and returns 0. */

static void move_on(struct file *file) { file->now = token_behind(file->text, file->now.span.end); }

static int refuse(struct file *file, enum owl_kind kind) {
    file->kind = kind;
    file->place = file->now.span.begin;
    return 0;
}

/* Where an axiom, a class, a role or a declared thing may stand, and none of the listed ones does. */
static int refuse_other(struct file *file) { return refuse(file, is_unlisted(file->text, file->now) ? OWL_UNLISTED : OWL_SYNTAX); }

static int take(struct file *file, enum token_kind kind) {
    if (file->now.kind != kind) return refuse(file, OWL_SYNTAX);
    move_on(file);
    return 1;
}

static int now_is(struct file *file, const char *word) { return is_word(file->text, file->now, word); }

/* A word that is known to stand here, and `(`. */
static int take_head(struct file *file) {
    move_on(file);
    return take(file, OPENS);
}

static int take_prefix(struct file *file) {
    return take_head(file) && take(file, PREFIX_NAME) && take(file, EQUALS) && take(file, FULL_NAME) && take(file, CLOSES);
}

static void add_class(struct file *file, int form, struct span name) {
    struct class *new = longer(&file->classes, sizeof *new);
    new->form = form;
    new->name = name;
    new->operands = 0;
    new->behind = file->classes.count;
    new->entry.kind = new->fresh.kind = TOP;
    new->entry.number = new->fresh.number = 0;
}

/* A class with all that it consists of. */
static int take_class(struct file *file) {
    file->open.count = 0;
    do {
        size_t depth = file->open.count;
        struct class *within = depth ? class_at(file, ((size_t *)file->open.items)[depth - 1]) : NULL;
        struct span name = file->now.span;
        if (within && file->now.kind == CLOSES) {
            if (within->operands < (within->form == INTERSECTION ? 2 : 1)) return refuse(file, OWL_SYNTAX);
            within->behind = file->classes.count;
            file->open.count--;
            move_on(file);
            continue;
        }
        if (within && within->form == SOME && within->operands == 1) return refuse(file, OWL_SYNTAX);
        if (within) within->operands++;
        if (is_name(file->now)) {
            add_class(file, is_written(file->text, name, "owl:Thing") ? THING : NAMED, name);
            move_on(file);
        } else if (now_is(file, "ObjectIntersectionOf")) {
            *(size_t *)longer(&file->open, sizeof(size_t)) = file->classes.count;
            add_class(file, INTERSECTION, name);
            if (!take_head(file)) return 0;
        } else if (now_is(file, "ObjectSomeValuesFrom")) {
            *(size_t *)longer(&file->open, sizeof(size_t)) = file->classes.count;
            if (!take_head(file)) return 0;
            if (!is_name(file->now)) return refuse_other(file);
            add_class(file, SOME, file->now.span);
            move_on(file);
        } else {
            return refuse_other(file);
        }
    } while (file->open.count > 0);
    return 1;
}

static int take_axiom(struct file *file, int is_equivalence) {
    struct axiom axiom = {is_equivalence, 0, 0}, *new;
    if (!take_head(file)) return 0;
    axiom.left = file->classes.count;
    if (!take_class(file)) return 0;
    axiom.right = file->classes.count;
    if (!take_class(file)) return 0;
    /* "EquivalentClasses of two": a third one is legal OWL, and not listed */
    if (is_equivalence && (is_name(file->now) || now_is(file, "ObjectIntersectionOf") || now_is(file, "ObjectSomeValuesFrom") ||
                           is_unlisted(file->text, file->now)))
        return refuse(file, OWL_UNLISTED);
    new = longer(&file->axioms, sizeof *new);
    *new = axiom;
    return take(file, CLOSES);
}

static int take_declaration(struct file *file) {
    struct declaration *new;
    int is_role;
    if (!take_head(file)) return 0;
    is_role = now_is(file, "ObjectProperty");
    if (!is_role && !now_is(file, "Class")) return refuse_other(file);
    if (!take_head(file)) return 0;
    if (!is_name(file->now)) return refuse(file, OWL_SYNTAX);
    new = longer(&file->declarations, sizeof *new);
    new->is_role = is_role;
    new->name = file->now.span;
    move_on(file);
    return take(file, CLOSES) && take(file, CLOSES);
}

static int take_file(struct file *file) {
    int names;
    while (now_is(file, "Prefix"))
        if (!take_prefix(file)) return 0;
    if (!now_is(file, "Ontology")) return refuse(file, OWL_SYNTAX);
    if (!take_head(file)) return 0;
    for (names = 0; names < 2 && is_name(file->now); names++) move_on(file);
    while (file->now.kind != CLOSES) {
        if (now_is(file, "Declaration")) {
            if (!take_declaration(file)) return 0;
        } else if (now_is(file, "SubClassOf")) {
            if (!take_axiom(file, 0)) return 0;
        } else if (now_is(file, "EquivalentClasses")) {
            if (!take_axiom(file, 1)) return 0;
        } else {
            return refuse_other(file);
        }
    }
    move_on(file);
    return take(file, NO_TOKEN);
}

/* ---- The second pass: "Names are numbered by first declaration, compared as written", and "11 a name not declared" */

struct name {
    struct span span; /* empty where nobody is */
    struct code code; /* of a class; of a role the number alone */
};

/* Names by their bytes: a table of more than twice as many places as names, each at the first free place from where its bytes lead. */
struct names {
    struct text text;
    struct name *places;
    size_t room;
};

static struct names empty_names(struct text text, size_t count) {
    struct names names = {text, NULL, 16};
    size_t i;
    while (names.room / 2 <= count) names.room *= 2;
    names.places = malloc(names.room * sizeof *names.places);
    if (!names.places) abort();
    for (i = 0; i < names.room; i++) names.places[i].span.begin = names.places[i].span.end = 0;
    return names;
}

/* The place of a name, or the free place where it would be. */
static struct name *place_of(struct names *names, struct span span) {
    size_t length = span.end - span.begin, i;
    uint64_t lead = 14695981039346656037u;
    for (i = span.begin; i < span.end; i++) lead = (lead ^ names->text.bytes[i]) * 1099511628211u;
    for (i = (size_t)(lead ^ lead >> 32) & (names->room - 1);; i = (i + 1) & (names->room - 1)) {
        struct name *name = &names->places[i];
        if (name->span.end == 0) return name;
        if (name->span.end - name->span.begin == length &&
            memcmp(names->text.bytes + name->span.begin, names->text.bytes + span.begin, length) == 0)
            return name;
    }
}

/* "Class names that begin with `:open-` are variables." */
static int is_open(struct text text, struct span span) {
    return span.end - span.begin >= 6 && memcmp(text.bytes + span.begin, ":open-", 6) == 0;
}

struct counts {
    size_t c, r, v, e, m;
};

/* Numbers the declared names and gives each class of the list its own; counts the names. */
static int look_up(struct file *file, struct counts *counts) {
    struct names classes = empty_names(file->text, file->declarations.count);
    struct names roles = empty_names(file->text, file->declarations.count);
    struct declaration *declared = file->declarations.items;
    size_t i;
    for (i = 0; i < file->declarations.count; i++) {
        struct name *name = place_of(declared[i].is_role ? &roles : &classes, declared[i].name);
        if (name->span.end != 0) continue;
        if (!declared[i].is_role && is_written(file->text, declared[i].name, "owl:Thing")) continue;
        name->span = declared[i].name;
        if (declared[i].is_role) {
            name->code.kind = TOP;
            name->code.number = counts->r++;
        } else if (is_open(file->text, name->span)) {
            name->code.kind = VARIABLE;
            name->code.number = counts->v++;
        } else {
            name->code.kind = CONSTANT;
            name->code.number = counts->c++;
        }
    }
    for (i = 0; i < file->classes.count && file->kind == OWL_MADE; i++) {
        struct class *class = class_at(file, i);
        if (class->form == NAMED || class->form == SOME) {
            struct name *name = place_of(class->form == SOME ? &roles : &classes, class->name);
            if (name->span.end != 0) {
                class->entry = name->code;
            } else {
                file->kind = OWL_UNDECLARED;
                file->place = class->name.begin;
            }
        }
    }
    free(classes.places);
    free(roles.places);
    return file->kind == OWL_MADE;
}

/* ---- The table: "rows by first writing, equal ones once", fresh variables "in text order after the named ones" */

struct row {
    size_t role;
    struct code filler;
};

struct table {
    struct counts counts;
    int passes; /* a bound */
    struct row rows[MOST_RESTRICTIONS];
    unsigned char lines[(MOST_ENTRIES + 2) * MOST_LINES];
    size_t lines_length;
};

static int is_composed(const struct class *class) { return class->form == INTERSECTION || class->form == SOME; }

/* The number of a row; it is a new one where there is no equal one. */
static size_t row_number(struct table *table, struct row row) {
    size_t i;
    for (i = 0; i < table->counts.e; i++)
        if (table->rows[i].role == row.role && table->rows[i].filler.kind == row.filler.kind &&
            table->rows[i].filler.number == row.filler.number)
            return i;
    if (i == MOST_RESTRICTIONS) {
        table->passes = 1;
        return 0;
    }
    table->rows[i] = row;
    table->counts.e++;
    return i;
}

/* The rows and the fresh variables, in the order of their first bytes. The role of a restriction was its entry until now. */
static void make_rows(struct file *file, struct table *table) {
    size_t i;
    for (i = 0; i < file->classes.count && !table->passes; i++) {
        struct class *class = class_at(file, i), *filler = class + 1;
        struct row row;
        if (class->form != SOME) continue;
        row.role = class->entry.number;
        if (is_composed(filler)) {
            filler->fresh.kind = VARIABLE;
            filler->fresh.number = table->counts.v++;
            row.filler = filler->fresh;
        } else {
            row.filler = filler->entry;
        }
        class->entry.kind = RESTRICTION;
        class->entry.number = row_number(table, row);
    }
}

static unsigned char byte_of(struct code code) {
    static const unsigned char first[] = {0x00, 0x20, 0x40, 0x60};
    return (unsigned char)(first[code.kind] + code.number);
}

/* The first conjunct from a place of the list on: "Inner intersections are spread out and owl:Thing in them dropped". */
static size_t conjunct_from(struct file *file, size_t i, size_t end) {
    while (i < end && (class_at(file, i)->form == INTERSECTION || class_at(file, i)->form == THING)) i++;
    return i;
}

/* A side of an inclusion: all of a class, or the one variable that stands for it. */
struct side {
    size_t class;
    int as_variable;
};

/* The entries of a side, at most `room` of them; returns how many there are. */
static size_t entries_of(struct file *file, struct side side, struct code *entries, size_t room) {
    size_t count = 0, i, end = class_at(file, side.class)->behind;
    if (side.as_variable) {
        entries[0] = class_at(file, side.class)->fresh;
        return 1;
    }
    for (i = conjunct_from(file, side.class, end); i < end; i = conjunct_from(file, class_at(file, i)->behind, end)) {
        if (count < room) entries[count] = class_at(file, i)->entry;
        count++;
    }
    return count;
}

/* "each right conjunct but owl:Thing makes a line" */
static void make_lines(struct file *file, struct table *table, struct side left, struct side right) {
    struct code rights[MOST_LINES + 1], lefts[MOST_ENTRIES + 1];
    size_t p, i, j, n = entries_of(file, right, rights, MOST_LINES + 1);
    if (n == 0 || table->passes) return;
    p = entries_of(file, left, lefts, MOST_ENTRIES + 1);
    if (n > MOST_LINES - table->counts.m || p > MOST_ENTRIES) {
        table->passes = 1;
        return;
    }
    for (i = 0; i < n; i++) {
        table->lines[table->lines_length++] = (unsigned char)p;
        for (j = 0; j < p; j++) table->lines[table->lines_length++] = byte_of(lefts[j]);
        table->lines[table->lines_length++] = byte_of(rights[i]);
        table->counts.m++;
    }
}

/* "an equivalence puts its first class below its second, then the reverse" */
static void make_equivalence(struct file *file, struct table *table, struct side first, struct side second) {
    make_lines(file, table, first, second);
    make_lines(file, table, second, first);
}

/* The axioms' lines in text order; "an equivalence of variable and filler follows the axioms". */
static void make_all_lines(struct file *file, struct table *table) {
    struct axiom *axioms = file->axioms.items;
    size_t i;
    for (i = 0; i < file->axioms.count && !table->passes; i++) {
        struct side left = {axioms[i].left, 0}, right = {axioms[i].right, 0};
        if (axioms[i].is_equivalence) make_equivalence(file, table, left, right);
        else make_lines(file, table, left, right);
    }
    for (i = 0; i < file->classes.count && !table->passes; i++) {
        struct side variable = {i, 1}, filler = {i, 0};
        if (class_at(file, i)->fresh.kind == VARIABLE) make_equivalence(file, table, variable, filler);
    }
}

/* "12 the result passes a bound of 01" */
static int make_table(struct file *file, struct table *table) {
    struct counts *counts = &table->counts;
    make_rows(file, table);
    table->passes = table->passes || counts->c > MOST_CONSTANTS || counts->c + counts->e > MOST_ATOMS || counts->r > MOST_ROLES ||
                    counts->v > MOST_VARIABLES;
    if (!table->passes) make_all_lines(file, table);
    if (table->passes) {
        file->kind = OWL_BOUND;
        file->place = 0;
    }
    return !table->passes;
}

static void write_table(const struct table *table, unsigned char *out) {
    const struct counts *counts = &table->counts;
    const unsigned char head[] = {0x56, 0x4F, 0x43, 1, 0,
                                  (unsigned char)counts->c, (unsigned char)counts->r, (unsigned char)counts->v,
                                  (unsigned char)counts->e, (unsigned char)counts->m};
    size_t i;
    memcpy(out, head, sizeof head);
    out += sizeof head;
    for (i = 0; i < counts->e; i++) {
        *out++ = (unsigned char)table->rows[i].role;
        *out++ = byte_of(table->rows[i].filler);
    }
    memcpy(out, table->lines, table->lines_length);
}

/* ---- The call */

struct owl_answer owl_second(const unsigned char *text, size_t length, unsigned char *out, size_t room) {
    static const unsigned number[OWL_KINDS] = {0, 10, 11, 11, 12, 17};
    struct owl_answer answer = {OWL_MADE, 0, 0, 0};
    struct table *table = malloc(sizeof *table);
    struct file file = {{text, length}, {NO_TOKEN, {0, 0}}, OWL_MADE, 0, {NULL, 0, 0}, {NULL, 0, 0}, {NULL, 0, 0}, {NULL, 0, 0}};
    struct counts none = {0, 0, 0, 0, 0};
    if (!table) abort();
    table->counts = none;
    table->passes = 0;
    table->lines_length = 0;
    move_on(&file);
    if (take_file(&file) && look_up(&file, &table->counts) && make_table(&file, table)) {
        size_t needed = 10 + 2 * table->counts.e + table->lines_length;
        if (room < needed) {
            file.kind = OWL_SHORT;
            file.place = needed;
        } else {
            write_table(table, out);
            answer.count = needed;
        }
    }
    answer.kind = file.kind;
    answer.number = number[file.kind];
    answer.place = file.place;
    free_file(&file);
    free(table);
    return answer;
}
