/* joins FOLDER COUNT: writes COUNT texts by chance to FOLDER/N.ofn, and to FOLDER/N.joined what the program join must print for each, by the
   second reader, the second solver and a speller of its own. Of three texts one is of the maker of texts, one is damaged, and one is
   small and says what an open name is, with nested fillers. */
#include "make.h"
#include "reader.h"
#include "../second/second.h"

long write(int file, const void *from, size_t length);

enum {
    NODES = 1000000, /* the budget */
    WIDEST = 16,   /* bytes of a set */
    TO_WRITE = 1 | 64 | 512
};

static const char word_declaration[] = "Declaration", word_class[] = "Class", word_property[] = "ObjectProperty";

/* ---- Names, in the order of their first declarations */

struct span {
    const unsigned char *at;
    size_t length;
};

struct names {
    struct span name[MOST_ATOMS + MOST_VARIABLES + MOST_ROLES];
    u32 count;
};

static struct names constants, opens, roles;

static int is_text(struct span span, const char *text) { return span.length == strlen(text) && memcmp(span.at, text, span.length) == 0; }

static void add_name(struct names *names, struct span span) {
    u32 i;
    for (i = 0; i < names->count; i++)
        if (names->name[i].length == span.length && memcmp(names->name[i].at, span.at, span.length) == 0) return;
    names->name[names->count++] = span;
}

/* The next token of a text that is no syntax error; empty at its end. */
static struct span next_token(const unsigned char **at, const unsigned char *end) {
    struct span span;
    const unsigned char *p = *at;
    for (;;) {
        while (p < end && (*p == ' ' || *p == '\t' || *p == '\n' || *p == '\r')) p++;
        if (p == end || *p != '#') break;
        while (p < end && *p != '\n' && *p != '\r') p++;
    }
    span.at = p;
    if (p < end && (*p == '(' || *p == ')' || *p == '=')) {
        p++;
    } else if (p < end && *p == '<') {
        while (*p != '>') p++;
        p++;
    } else {
        while (p < end && !memchr(" \t\n\r()=<>#\"", *p, 11)) p++;
    }
    span.length = (size_t)(p - span.at);
    *at = p;
    return span;
}

static void find_names(const unsigned char *text, size_t length) {
    const unsigned char *at = text, *end = text + length;
    struct span token, last[4] = {{text, 0}, {text, 0}, {text, 0}, {text, 0}};
    constants.count = opens.count = roles.count = 0;
    while ((token = next_token(&at, end)).length != 0) {
        /* behind `Declaration ( Class (` */
        if (is_text(last[0], word_declaration)) {
            if (is_text(last[2], word_property)) add_name(&roles, token);
            if (is_text(last[2], word_class) && !is_text(token, "owl:Thing")) {
                int is_open = token.length >= 6 && memcmp(token.at, ":open-", 6) == 0;
                add_name(is_open ? &opens : &constants, token);
            }
        }
        last[0] = last[1];
        last[1] = last[2];
        last[2] = last[3];
        last[3] = token;
    }
}

/* ---- Sets as text */

static struct bytes said;
static const u8 *table, *output;
static u32 width; /* bytes of a set */

static void say(struct span span) {
    size_t i;
    for (i = 0; i < span.length; i++) add_byte(&said, span.at[i]);
}

static void say_number(u64 number) {
    if (number >= 10) say_number(number / 10);
    add_byte(&said, (unsigned char)('0' + number % 10));
}

static int has(u32 variable, u32 atom) { return output[width * variable + atom / 8] >> atom % 8 & 1; }

static u32 atoms(void) { return (u32)table[5] + table[8]; }

static u32 how_many(u32 variable) {
    u32 i, count = 0;
    for (i = 0; i < atoms(); i++) count += (u32)has(variable, i);
    return count;
}

static void say_set(u32 variable);

static void say_filler(u32 code) {
    if (code == CODE_TOP) {
        add_text(&said, "owl:Thing");
    } else if (code < CODE_RESTRICTION) {
        say(constants.name[code - CODE_CONSTANT]);
    } else if (code - CODE_VARIABLE < opens.count) {
        say(opens.name[code - CODE_VARIABLE]);
    } else {
        int several = how_many(code - CODE_VARIABLE) > 1;
        if (several) add_text(&said, "(");
        say_set(code - CODE_VARIABLE);
        if (several) add_text(&said, ")");
    }
}

static void say_set(u32 variable) {
    u32 i, c = table[5];
    int later = 0;
    for (i = 0; i < atoms(); i++) {
        if (!has(variable, i)) continue;
        if (later) add_text(&said, " & ");
        later = 1;
        if (i < c) {
            say(constants.name[i]);
        } else {
            add_text(&said, "ObjectSomeValuesFrom(");
            say(roles.name[table[10 + 2 * (i - c)]]);
            add_text(&said, " ");
            say_filler(table[11 + 2 * (i - c)]);
            add_text(&said, ")");
        }
    }
    if (!later) add_text(&said, "owl:Thing");
}

static void say_line(u64 number, u64 count, u64 place) {
    say_number(number);
    add_text(&said, " ");
    say_number(count);
    add_text(&said, " ");
    say_number(place);
    add_text(&said, "\n");
}

/* ---- Small texts with nested fillers */

static const char *const constant_names[] = {":A", "<urn:B>", ":c.d"}, *const role_names[] = {":r", "<urn:s>"}, *const open_names[] = {":open-x", ":open-y"};

static void make_class(struct chance *chance, struct bytes *text, u32 c, u32 v, u32 depth);

static void make_name(struct chance *chance, struct bytes *text, u32 c, u32 v) {
    u32 k = below_bound(chance, c + v + 1);
    add_text(text, k < c ? constant_names[k] : k < c + v ? open_names[k - c] : "owl:Thing");
}

static void make_both(struct chance *chance, struct bytes *text, u32 c, u32 v, u32 depth) {
    u32 parts = between(chance, 2, 3);
    add_text(text, "ObjectIntersectionOf(");
    for (; parts > 0; parts--) {
        make_class(chance, text, c, v, depth);
        add_text(text, parts > 1 ? " " : ")");
    }
}

static void make_some(struct chance *chance, struct bytes *text, u32 c, u32 v, u32 depth) {
    add_text(text, "ObjectSomeValuesFrom(");
    add_text(text, role_names[below_bound(chance, 2)]);
    add_text(text, " ");
    if (depth > 0 && percent(chance, 60)) make_both(chance, text, c, v, depth - 1);
    else make_class(chance, text, c, v, depth > 0 ? depth - 1 : 0);
    add_text(text, ")");
}

static void make_class(struct chance *chance, struct bytes *text, u32 c, u32 v, u32 depth) {
    if (depth > 0 && percent(chance, 50)) make_some(chance, text, c, v, depth);
    else make_name(chance, text, c, v);
}

/* An axiom for each open name, over the constants and the open names before it. */
static void make_nested(struct chance *chance, struct bytes *text) {
    u32 c = between(chance, 1, 3), v = between(chance, 1, 2), i;
    add_text(text, "Ontology(Declaration(ObjectProperty(:r)) Declaration(ObjectProperty(<urn:s>))");
    for (i = 0; i < c; i++) {
        add_text(text, " Declaration(Class(");
        add_text(text, constant_names[i]);
        add_text(text, "))");
    }
    for (i = 0; i < v; i++) {
        add_text(text, " Declaration(Class(");
        add_text(text, open_names[i]);
        add_text(text, "))");
    }
    for (i = 0; i < v; i++) {
        add_text(text, percent(chance, 50) ? " SubClassOf(" : " EquivalentClasses(");
        add_text(text, open_names[i]);
        add_text(text, " ");
        if (percent(chance, 70)) make_some(chance, text, c, i, 2);
        else make_both(chance, text, c, i, 2);
        add_text(text, ")");
    }
    add_text(text, ")");
}

/* ---- What must be printed for a text */

static void join(const struct bytes *text) {
    static u8 made[LONGEST_TABLE], sets[WIDEST * MOST_VARIABLES];
    struct owl_answer read = owl_second(text->at, text->length, made, sizeof made);
    struct answer answer;
    u32 x;
    said.length = 0;
    if (read.number != 0) {
        say_line(read.number, read.count, read.place);
        return;
    }
    table = made;
    output = sets;
    width = table[7] ? second_solve(made, (u32)read.count, 0, sets, 0).place / table[7] : 0;
    answer = second_solve(made, (u32)read.count, NODES, sets, sizeof sets);
    say_line(answer.number, answer.count, answer.place);
    if (answer.number != SOLVED) return;
    find_names(text->at, text->length);
    for (x = 0; x < opens.count; x++) {
        say(opens.name[x]);
        add_text(&said, ": ");
        say_set(x);
        add_text(&said, "\n");
    }
}

/* ---- Files */

static void store(const char *folder, u64 number, const char *ending, const struct bytes *bytes) {
    struct bytes path = {NULL, 0, 0}, kept = said;
    int file;
    said = path;
    add_text(&said, folder);
    add_text(&said, "/");
    say_number(number);
    add_text(&said, ending);
    add_byte(&said, 0);
    path = said;
    said = kept;
    file = open((const char *)path.at, TO_WRITE, 0644);
    if (file < 0 || write(file, bytes->at, bytes->length) != (long)bytes->length) abort();
    close(file);
    free(path.at);
}

int main(int count, char **args) {
    u64 texts = 0, i;
    const char *digit;
    if (count != 3) exit(2);
    for (digit = args[2]; *digit; digit++) texts = 10 * texts + (u64)(*digit - '0');
    for (i = 0; i < texts; i++) {
        struct chance chance = {i};
        struct bytes text = {NULL, 0, 0};
        if (i % 3 == 0) make_nested(&chance, &text);
        else make_text(&chance, &text);
        if (i % 3 == 2) damage_text(&chance, &text);
        join(&text);
        store(args[1], i, ".ofn", &text);
        store(args[1], i, ".joined", &said);
        free(text.at);
    }
    return 0;
}
