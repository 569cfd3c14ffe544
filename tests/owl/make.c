/* A maker of OWL texts by chance. See make.h.

   Each open name has a definition over constants and open names before it. What is above a class is made by leaving parts out, what is
   below it by adding some; so the axioms of a text that joins hold where each open name stands for its definition. A text that does not
   join has an axiom besides that holds under no substitution. */
#include "make.h"
#include "reader.h"

/* ---- Classes */

enum form { THING, CONSTANT, OPEN, BOTH, SOME };

/* A large text may pass each bound by two. */
enum { MOST_CLASSES = 20000, MOST_NAMES = MOST_CONSTANTS + MOST_VARIABLES + MOST_ROLES + 6, MOST_ITEMS = 400 };

struct class {
    enum form form;
    u32 number;  /* of a constant, an open name, or the role of a restriction */
    u32 parts;   /* how many an intersection has; 1 for a restriction */
    u32 part[MOST_ENTRIES + 2];
};

static struct class classes[MOST_CLASSES];
static u32 class_count;

/* The text that is made: how many names there are, and how they are written. */
static struct {
    u32 c, v, r;
    u32 widest;  /* intersection */
    char constants[MOST_NAMES][32], opens[MOST_NAMES][32], roles[MOST_NAMES][32];
    int is_wild; /* blanks and comments anywhere */
} plan;

/* What each open name stands for: a class. */
static u32 stands_for[MOST_NAMES];

static u32 new_class(enum form form, u32 number) {
    struct class *class = &classes[class_count];
    if (class_count == MOST_CLASSES) abort();
    class->form = form;
    class->number = number;
    class->parts = 0;
    return class_count++;
}

static void add_part(u32 class, u32 part) { classes[class].part[classes[class].parts++] = part; }

static u32 some(u32 role, u32 filler) {
    u32 class = new_class(SOME, role);
    add_part(class, filler);
    return class;
}

static u32 both(u32 one, u32 other) {
    u32 class = new_class(BOTH, 0);
    add_part(class, one);
    add_part(class, other);
    return class;
}

/* A class with open names before the given one only, and so many levels at most. */
static u32 any_class(struct chance *chance, u32 levels, u32 opens) {
    u32 kind = below_bound(chance, levels ? 100 : 55), class, i;
    if (kind < 8) return new_class(THING, 0);
    if (kind < 30 && opens) return new_class(OPEN, below_bound(chance, opens));
    if (kind < 55) return plan.c ? new_class(CONSTANT, below_bound(chance, plan.c)) : new_class(THING, 0);
    if (kind < 80 && plan.r) {
        u32 role = below_bound(chance, plan.r);
        return some(role, any_class(chance, levels - 1, opens));
    }
    class = new_class(BOTH, 0);
    for (i = between(chance, 2, plan.widest); i > 0; i--) add_part(class, any_class(chance, levels - 1, opens));
    return class;
}

/* A class that the given one lies below. */
static u32 above(struct chance *chance, u32 class) {
    u32 new, i;
    if (percent(chance, 8)) return new_class(THING, 0);
    if (classes[class].form == SOME) return some(classes[class].number, above(chance, classes[class].part[0]));
    if (classes[class].form != BOTH) return percent(chance, 10) ? both(new_class(THING, 0), class) : class;
    if (percent(chance, 20)) return above(chance, classes[class].part[below_bound(chance, classes[class].parts)]);
    new = new_class(BOTH, 0);
    for (i = 0; i < classes[class].parts; i++)
        if (percent(chance, 75)) add_part(new, above(chance, classes[class].part[i]));
    while (classes[new].parts < 2) add_part(new, new_class(THING, 0));
    return new;
}

/* A class that lies below the given one. */
static u32 below(struct chance *chance, u32 class) {
    u32 new, i;
    if (percent(chance, 20)) {
        u32 more = any_class(chance, 1, plan.v);
        return both(below(chance, class), more);
    }
    if (classes[class].form == SOME) return some(classes[class].number, below(chance, classes[class].part[0]));
    if (classes[class].form != BOTH) return class;
    new = new_class(BOTH, 0);
    for (i = classes[class].parts; i > 0; i--) add_part(new, below(chance, classes[class].part[i - 1]));
    return new;
}

/* ---- Declarations and axioms */

struct item {
    enum { DECLARE_CLASS, DECLARE_ROLE, SUB, EQUIVALENT } kind;
    const char *name; /* of a declaration */
    u32 left, right;  /* of an axiom */
};

static struct item items[MOST_ITEMS];
static u32 item_count;

static void add_item(int kind, const char *name, u32 left, u32 right) {
    struct item item = {kind, name, left, right};
    if (item_count == MOST_ITEMS) abort();
    items[item_count++] = item;
}

static void add_axiom(int kind, u32 left, u32 right) { add_item(kind, NULL, left, right); }

/* An axiom that holds as the open names stand now. */
static void add_holding(struct chance *chance, u32 levels) {
    u32 class, meant;
    if (plan.v && percent(chance, 65)) {
        u32 open = below_bound(chance, plan.v);
        class = new_class(OPEN, open);
        meant = stands_for[open];
        switch (below_bound(chance, 4)) {
        case 0: add_axiom(EQUIVALENT, class, meant); break;
        case 1: add_axiom(EQUIVALENT, meant, class); break;
        case 2: add_axiom(SUB, class, above(chance, meant)); break;
        default: add_axiom(SUB, below(chance, meant), class); break;
        }
    } else {
        class = any_class(chance, levels, plan.v);
        if (percent(chance, 50)) add_axiom(SUB, class, above(chance, class));
        else add_axiom(SUB, below(chance, class), class);
    }
}

/* Axioms that make rows and no lines: a restriction on a name or owl:Thing is below owl:Thing. */
static void add_rows(struct chance *chance, u32 axioms) {
    u32 i;
    for (i = 0; i < axioms && plan.r; i++) {
        u32 role = below_bound(chance, plan.r), filler = any_class(chance, 0, plan.v);
        add_axiom(SUB, some(role, filler), new_class(THING, 0));
    }
}

/* An axiom that holds under no substitution; answers 0 where there are too few names for one. */
static int add_failing(struct chance *chance) {
    u32 kind = below_bound(chance, 6), k = plan.c > 1 ? below_bound(chance, plan.c - 1) : 0;
    u32 role = plan.r ? below_bound(chance, plan.r) : 0, open = plan.v ? below_bound(chance, plan.v) : 0;
    if (kind == 0 && plan.c > 1) {
        add_axiom(SUB, new_class(CONSTANT, k), new_class(CONSTANT, k + 1));
    } else if (kind == 1 && plan.c) {
        add_axiom(EQUIVALENT, new_class(CONSTANT, k), new_class(THING, 0));
    } else if (kind == 2 && plan.c > 1 && plan.r) {
        add_axiom(SUB, some(role, new_class(CONSTANT, k + 1)), some(role, new_class(CONSTANT, k)));
    } else if (kind == 3 && plan.v && plan.r) {
        add_axiom(SUB, new_class(OPEN, open), some(role, both(new_class(OPEN, open), new_class(THING, 0))));
    } else if (kind == 4 && plan.c > 1 && plan.r) { /* two restrictions are not one on the joined fillers */
        u32 a = new_class(CONSTANT, k), b = new_class(CONSTANT, k + 1);
        add_axiom(SUB, both(some(role, a), some(role, b)), some(role, both(b, a)));
    } else if (kind == 5 && plan.v && plan.c > 1) { /* an open name between two constants */
        add_axiom(SUB, new_class(OPEN, open), new_class(CONSTANT, k));
        add_axiom(SUB, new_class(CONSTANT, k + 1), new_class(OPEN, open));
    } else {
        return 0;
    }
    return 1;
}

/* ---- Meaning: the order between descriptions, as the open names stand */

static int is_below(u32 left, u32 right);

/* Whether a conjunct of the left class lies below a constant or restriction. */
static int has(u32 left, u32 atom) {
    const struct class *class = &classes[left];
    u32 i;
    switch (class->form) {
    case THING: return 0;
    case OPEN: return has(stands_for[class->number], atom);
    case CONSTANT: return classes[atom].form == CONSTANT && classes[atom].number == class->number;
    case SOME:
        return classes[atom].form == SOME && classes[atom].number == class->number && is_below(class->part[0], classes[atom].part[0]);
    case BOTH: break;
    }
    for (i = 0; i < class->parts; i++)
        if (has(class->part[i], atom)) return 1;
    return 0;
}

static int is_below(u32 left, u32 right) {
    const struct class *class = &classes[right];
    u32 i;
    if (class->form == THING) return 1;
    if (class->form == OPEN) return is_below(left, stands_for[class->number]);
    if (class->form != BOTH) return has(left, right);
    for (i = 0; i < class->parts; i++)
        if (!is_below(left, class->part[i])) return 0;
    return 1;
}

static int all_hold(void) {
    u32 i;
    for (i = 0; i < item_count; i++) {
        if (items[i].kind != SUB && items[i].kind != EQUIVALENT) continue;
        if (!is_below(items[i].left, items[i].right)) return 0;
        if (items[i].kind == EQUIVALENT && !is_below(items[i].right, items[i].left)) return 0;
    }
    return 1;
}

/* Which of the names has this number by first declaration. */
static u32 name_with(u32 number, char (*names)[32], u32 count) {
    u32 i, j, before;
    for (i = 0; i < item_count; i++) {
        for (j = 0; j < count && items[i].name != names[j];) j++;
        for (before = 0; before < i && items[before].name != items[i].name;) before++;
        if (j < count && before == i && number-- == 0) return j;
    }
    abort();
}

/* What a variable of the table stands for. */
static u32 meaning_of(const unsigned char *table, const u64 *sets, u32 variable) {
    u32 c = table[5], e = table[8], i, meaning = new_class(THING, 0);
    for (i = 0; i < c + e; i++) {
        const unsigned char *row;
        u32 filler;
        if ((sets[variable] >> i & 1) == 0) continue;
        if (i < c) {
            meaning = both(meaning, new_class(CONSTANT, name_with(i, plan.constants, plan.c)));
            continue;
        }
        row = table + 10 + 2 * (i - c);
        if (row[1] == CODE_TOP) filler = new_class(THING, 0);
        else if (row[1] < CODE_RESTRICTION) filler = new_class(CONSTANT, name_with(row[1] - CODE_CONSTANT, plan.constants, plan.c));
        else filler = meaning_of(table, sets, row[1] - CODE_VARIABLE);
        meaning = both(meaning, some(name_with(row[0], plan.roles, plan.r), filler));
    }
    return meaning;
}

int text_holds(const unsigned char *table, const u64 *sets) {
    u32 i, declared = 0;
    for (i = 0; i < plan.v; i++) {
        u32 item = 0;
        while (item < item_count && items[item].name != plan.opens[i]) item++;
        declared += item < item_count;
    }
    for (i = 0; i < declared; i++) stands_for[name_with(i, plan.opens, plan.v)] = meaning_of(table, sets, i);
    return all_hold();
}

/* ---- Writing */

static int ends_run(unsigned char byte) {
    return byte == ' ' || byte == '\t' || byte == '\n' || byte == '\r' || byte == '(' || byte == ')' || byte == '=' || byte == '<' ||
           byte == '>' || byte == '#' || byte == '"';
}

/* A token, and what parts it from the one before. */
static void put(struct chance *chance, struct bytes *text, const char *token) {
    static const char *const gaps[] = {" ", "\n", "\t", "\r\n", "  ", "# a (\n", "#\r", " # <b> \"\n", "#:A)\r\n"};
    int is_needed = text->length && !ends_run(text->at[text->length - 1]) && !ends_run((unsigned char)*token);
    if (plan.is_wild && percent(chance, 40)) add_text(text, gaps[below_bound(chance, sizeof gaps / sizeof *gaps)]);
    else if (is_needed) add_byte(text, ' ');
    add_text(text, token);
}

static void put_class(struct chance *chance, struct bytes *text, u32 number) {
    const struct class *class = &classes[number];
    u32 i;
    switch (class->form) {
    case THING: put(chance, text, "owl:Thing"); return;
    case CONSTANT: put(chance, text, plan.constants[class->number]); return;
    case OPEN: put(chance, text, plan.opens[class->number]); return;
    case BOTH: put(chance, text, "ObjectIntersectionOf"); break;
    case SOME: put(chance, text, "ObjectSomeValuesFrom"); break;
    }
    put(chance, text, "(");
    if (class->form == SOME) put(chance, text, plan.roles[class->number]);
    for (i = 0; i < class->parts; i++) put_class(chance, text, class->part[i]);
    put(chance, text, ")");
}

static void put_item(struct chance *chance, struct bytes *text, const struct item *item) {
    if (item->kind == DECLARE_CLASS || item->kind == DECLARE_ROLE) {
        put(chance, text, "Declaration");
        put(chance, text, "(");
        put(chance, text, item->kind == DECLARE_CLASS ? "Class" : "ObjectProperty");
        put(chance, text, "(");
        put(chance, text, item->name);
        put(chance, text, ")");
    } else {
        put(chance, text, item->kind == SUB ? "SubClassOf" : "EquivalentClasses");
        put(chance, text, "(");
        put_class(chance, text, item->left);
        put_class(chance, text, item->right);
    }
    put(chance, text, ")");
    if (!plan.is_wild) add_byte(text, '\n');
}

static void put_prefix(struct chance *chance, struct bytes *text, const char *name, const char *full) {
    put(chance, text, "Prefix");
    put(chance, text, "(");
    put(chance, text, name);
    put(chance, text, "=");
    put(chance, text, full);
    put(chance, text, ")");
}

/* ---- The whole text */

/* Writes a name: what comes before its number, the number, what comes behind. */
static void name_it(char *name, const char *before, u32 number, const char *behind) {
    size_t n = strlen(before);
    memcpy(name, before, n);
    if (number >= 10) name[n++] = (char)('0' + number / 10);
    name[n++] = (char)('0' + number % 10);
    memcpy(name + n, behind, strlen(behind) + 1);
}

static void name_all(struct chance *chance) {
    static const char *const styles[][2] = {
        {":C", ""},        {"ex:C", ""},    {"<urn:c#C", ">"},  {":", ""},
        {":Open-", ".x"},  {"x:open-", ""}, {"<open-", " (1)>"}, {":C", ":\xC3\xA9"},
    };
    u32 i, style;
    for (i = 0; i < plan.c; i++) {
        style = percent(chance, 70) ? 0 : below_bound(chance, sizeof styles / sizeof *styles);
        name_it(plan.constants[i], styles[style][0], i, styles[style][1]);
    }
    for (i = 0; i < plan.v; i++) name_it(plan.opens[i], ":open-", i, percent(chance, 80) ? "" : "-x.");
    if (plan.v && percent(chance, 10)) memcpy(plan.opens[0], ":open-", 7);
    for (i = 0; i < plan.r; i++) {
        name_it(plan.roles[i], percent(chance, 80) ? ":r" : "<r ", i, "");
        if (plan.roles[i][0] == '<') name_it(plan.roles[i], "<r ", i, ">");
        /* one name as class and as role */
        if (i < plan.c && percent(chance, 10)) memcpy(plan.roles[i], plan.constants[i], sizeof plan.roles[i]);
        else if (i < plan.v && percent(chance, 10)) memcpy(plan.roles[i], plan.opens[i], sizeof plan.roles[i]);
    }
}

static void declare_all(struct chance *chance) {
    u32 i, missing = percent(chance, 8) ? below_bound(chance, plan.c + plan.v + plan.r) : plan.c + plan.v + plan.r;
    for (i = 0; i < plan.c + plan.v + plan.r; i++) {
        const char *name = i < plan.c            ? plan.constants[i]
                           : i < plan.c + plan.v ? plan.opens[i - plan.c]
                                                 : plan.roles[i - plan.c - plan.v];
        int kind = i < plan.c + plan.v ? DECLARE_CLASS : DECLARE_ROLE;
        if (i == missing) continue;
        add_item(kind, name, 0, 0);
        if (percent(chance, 5)) add_item(kind, name, 0, 0);
    }
    if (percent(chance, 10)) add_item(DECLARE_CLASS, "owl:Thing", 0, 0);
}

static void shuffle(struct chance *chance, u32 begin, u32 end) {
    u32 i;
    for (i = begin; i + 1 < end; i++) {
        u32 j = between(chance, i, end - 1);
        struct item kept = items[i];
        items[i] = items[j];
        items[j] = kept;
    }
}

enum joins make_text(struct chance *chance, struct bytes *text) {
    int is_large = percent(chance, 15), kind = (int)below_bound(chance, 3);
    u32 levels = is_large ? 3 : between(chance, 1, 2), axioms = is_large ? between(chance, 0, 24) : between(chance, 0, 3), i, declared;
    enum joins joins = kind == 0 ? JOINS_UNSAID : JOINS;
    class_count = item_count = 0;
    text->length = 0;
    plan.c = is_large ? between(chance, 0, MOST_CONSTANTS + 2) : between(chance, 0, 3);
    plan.v = is_large ? between(chance, 0, MOST_VARIABLES + 2) : between(chance, 0, 2);
    plan.r = is_large ? between(chance, 0, MOST_ROLES + 2) : between(chance, 0, 2);
    plan.widest = is_large ? between(chance, 2, MOST_ENTRIES + 1) : between(chance, 2, 3);
    if (is_large && plan.widest > 4) levels = 2;
    plan.is_wild = percent(chance, 40);
    name_all(chance);
    declare_all(chance);
    declared = item_count;
    for (i = 0; i < plan.v; i++) stands_for[i] = any_class(chance, levels, i);
    for (i = 0; i < axioms; i++) {
        if (joins == JOINS) {
            add_holding(chance, levels);
        } else {
            u32 left = any_class(chance, levels, plan.v), right = any_class(chance, levels, plan.v);
            add_axiom(percent(chance, 70) ? SUB : EQUIVALENT, left, right);
        }
    }
    if (is_large && percent(chance, 25)) add_rows(chance, between(chance, MOST_RESTRICTIONS / 2, MOST_RESTRICTIONS + 4));
    if (joins == JOINS && !all_hold()) abort();
    if (kind == 2 && add_failing(chance)) joins = JOINS_NOT;
    switch (below_bound(chance, 3)) {
    case 0: shuffle(chance, 0, item_count); break;
    case 1: shuffle(chance, 0, declared); break;
    default: break;
    }
    if (percent(chance, 50)) put_prefix(chance, text, ":", "<urn:d#>");
    if (percent(chance, 30)) put_prefix(chance, text, "owl:", "<http://www.w3.org/2002/07/owl#>");
    put(chance, text, "Ontology");
    put(chance, text, "(");
    if (percent(chance, 50)) {
        put(chance, text, "<urn:d>");
        if (percent(chance, 40)) put(chance, text, ":C1");
    }
    for (i = 0; i < item_count; i++) put_item(chance, text, &items[i]);
    put(chance, text, ")");
    if (percent(chance, 10)) add_text(text, "\n# end )");
    return joins;
}

/* ---- Damage */

struct span {
    size_t begin, end;
};

/* The tokens of a text, as many as there is room for; blanks and comments are passed over. */
static size_t tokens_of(const struct bytes *text, struct span *tokens, size_t room) {
    size_t at = 0, count = 0;
    while (at < text->length && count < room) {
        unsigned char byte = text->at[at];
        tokens[count].begin = at++;
        if (byte == ' ' || byte == '\t' || byte == '\n' || byte == '\r') continue;
        if (byte == '#') {
            while (at < text->length && text->at[at] != '\n' && text->at[at] != '\r') at++;
            continue;
        }
        if (byte == '<') {
            while (at < text->length && text->at[at - 1] != '>') at++;
        } else if (!ends_run(byte)) {
            while (at < text->length && !ends_run(text->at[at])) at++;
        }
        tokens[count++].end = at;
    }
    return count;
}

/* The text with other bytes in place of a span. */
static void replace(struct bytes *text, struct span span, const unsigned char *by, size_t length) {
    struct bytes new = {NULL, 0, 0};
    size_t i;
    for (i = 0; i < span.begin; i++) add_byte(&new, text->at[i]);
    for (i = 0; i < length; i++) add_byte(&new, by[i]);
    for (i = span.end; i < text->length; i++) add_byte(&new, text->at[i]);
    free(text->at);
    *text = new;
}

static void swap_tokens(struct bytes *text, struct span one, struct span other) {
    struct bytes new = {NULL, 0, 0};
    size_t i;
    for (i = 0; i < one.begin; i++) add_byte(&new, text->at[i]);
    for (i = other.begin; i < other.end; i++) add_byte(&new, text->at[i]);
    for (i = one.end; i < other.begin; i++) add_byte(&new, text->at[i]);
    for (i = one.begin; i < one.end; i++) add_byte(&new, text->at[i]);
    for (i = other.end; i < text->length; i++) add_byte(&new, text->at[i]);
    free(text->at);
    *text = new;
}

void damage_text(struct chance *chance, struct bytes *text) {
    static const char odd[] = "()=<>#\" :-_.,\n\rAz\f\x80";
    static const char *const words[] = {
        "Prefix", "Ontology", "Declaration", "Class", "ObjectProperty", "SubClassOf", "EquivalentClasses", "ObjectIntersectionOf",
        "ObjectSomeValuesFrom", "ObjectUnionOf", "DisjointClasses", "NamedIndividual", "Annotation", "objectSomeValuesFrom", "A",
        "owl:Thing", "owl:Nothing", "owl:", "_:b", ":-a", ":none", "<none>", "<none", "(", ")", "=",
    };
    static struct span tokens[16384];
    size_t count = tokens_of(text, tokens, 16384), place, i, j;
    struct span at;
    unsigned char kept[600];
    const char *word;
    if (count < 2) return;
    place = below_bound(chance, (u32)text->length);
    at.begin = place;
    at.end = place + 1;
    i = below_bound(chance, (u32)count);
    switch (below_bound(chance, 9)) {
    case 0: text->at[place] = (unsigned char)odd[below_bound(chance, sizeof odd - 1)]; return;
    case 1: replace(text, at, kept, 0); return;
    case 2:
        at.end = place;
        kept[0] = text->at[place];
        replace(text, at, kept, 1);
        return;
    case 3:
        j = below_bound(chance, (u32)count - 1);
        if (i == j) j++;
        swap_tokens(text, tokens[i < j ? i : j], tokens[i < j ? j : i]);
        return;
    case 4: replace(text, tokens[i], kept, 0); return;
    case 5:
        if (tokens[i].end - tokens[i].begin > sizeof kept - 1) return;
        memcpy(kept, text->at + tokens[i].begin, tokens[i].end - tokens[i].begin);
        kept[tokens[i].end - tokens[i].begin] = ' ';
        at.begin = at.end = tokens[i].begin;
        replace(text, at, kept, tokens[i].end - tokens[i].begin + 1);
        return;
    case 6: /* a name, if there is one from here on, becomes longer */
        for (; i < count; i++)
            if (text->at[tokens[i].begin] == ':' || text->at[tokens[i].end - 1] == '>') break;
        if (i == count) return;
        at.begin = at.end = tokens[i].begin + 1;
        replace(text, at, (const unsigned char *)"q", 1);
        return;
    case 7:
        word = words[below_bound(chance, sizeof words / sizeof *words)];
        replace(text, tokens[i], (const unsigned char *)word, strlen(word));
        return;
    default: text->length = place; return;
    }
}
