/* Runs the names, rows and conjuncts of OWL texts: texts with known answers, the samples, and drawn files whose answers are kept while they are
   written. */
#include "second.h"

uint64_t makrothel_owl_names(const unsigned char *text, size_t length, uint64_t *counts);
uint64_t makrothel_owl_class(const unsigned char *text, size_t length, const unsigned char *name, size_t name_length);
uint64_t makrothel_owl_role(const unsigned char *text, size_t length, const unsigned char *name, size_t name_length);

void makrothel_owl_rows(const unsigned char *text, size_t length, uint64_t *counts);
uint64_t makrothel_owl_row(const unsigned char *text, size_t length, size_t at);
void makrothel_owl_filler(const unsigned char *text, size_t length, size_t at, uint64_t *filler);

uint64_t makrothel_owl_conjuncts(const unsigned char *text, size_t length, size_t at);
void makrothel_owl_entry(const unsigned char *text, size_t length, size_t at, size_t i, uint64_t *entry);

static const struct {
    const char *note, *text;
    size_t first; /* the byte of the first name that is not declared; the text's length where all are */
    unsigned constants, opens, roles;
} cases[] = {
    {"an empty ontology", "Ontology()", 10, 0, 0, 0},
    {"declarations behind their use", "Ontology(SubClassOf(:A :B)Declaration(Class(:B))Declaration(Class(:A)))", 71, 2, 0, 0},
    {"the first of two", "Ontology(SubClassOf(:A :B)Declaration(Class(:C)))", 20, 1, 0, 0},
    {"a class declared as an object property", "Ontology(Declaration(ObjectProperty(:A))SubClassOf(owl:Thing :A))", 61, 0, 0, 1},
    {"an object property declared as a class", "Ontology(Declaration(Class(:r))SubClassOf(owl:Thing ObjectSomeValuesFrom(:r :r)))", 73, 1, 0, 0},
    {"a name that is both", "Ontology(Declaration(Class(:r))Declaration(ObjectProperty(:r))SubClassOf(owl:Thing ObjectSomeValuesFrom(:r :r)))", 112, 1, 0, 1},
    {"an object property before a class", "Ontology(SubClassOf(owl:Thing ObjectSomeValuesFrom(:r :A)))", 51, 0, 0, 0},
    {"owl:Thing declared, as a class and as an object property", "Ontology(Declaration(Class(owl:Thing))Declaration(ObjectProperty(owl:Thing)))", 77, 0, 0, 1},
    {"owl:Thing as an object property", "Ontology(SubClassOf(owl:Thing ObjectSomeValuesFrom(owl:Thing owl:Thing)))", 51, 0, 0, 0},
    {"the names of the Prefix lines and of the Ontology", "Prefix(:=<u>)Ontology(<a> :b)", 29, 0, 0, 0},
    {"two ways to write a name", "Ontology(Declaration(Class(:A))SubClassOf(<:A> :A))", 42, 1, 0, 0},
    {"an open name as an object property, and a full one", "Ontology(Declaration(ObjectProperty(:open-p))Declaration(Class(<:open-X>))Declaration(Class(:open-)))", 101, 1, 1, 1},
};

static size_t run = 0;

static void fail(const char *note, const char *what, size_t got, size_t expected) {
    printf("owl parts: %s: %s is %zu, expected %zu\n", note, what, got, expected);
    exit(1);
}

static void same(const char *note, const char *what, uint64_t got, size_t expected) {
    run++;
    if (got != expected) fail(note, what, (size_t)got, expected);
}

static unsigned long long seed = 20020213;

static unsigned draw(unsigned below) {
    seed = seed * 6364136223846793005ULL + 1442695040888963407ULL;
    return (unsigned)((seed >> 33) % below);
}

static const char *const pool[] = {
    ":A", ":B", ":AB", "<:A>", "<urn:d#A>", "a:A", "owl:Thing", "o:Thing", "<owl:Thing>", ":open-X", ":open-Y", ":open-", ":Open-X",
    "<:open-X>", "a:open-X", ":r", ":s", "<(>", ":\xc3\xa4",
};
enum { POOL = sizeof pool / sizeof *pool, ROOM = 1 << 16 };

/* A text that is being written, and what its names do. */
static unsigned char text[ROOM * 8];
static size_t length;
static size_t used_at[ROOM], used = 0;
static int used_name[ROOM], used_role[ROOM], class_order[POOL], role_order[POOL], classes, roles;

/* Its restrictions: the byte and the name of the role, and the filler: a name, or where it is none its number among these. */
static size_t restricted_at[ROOM], restricted = 0;
static int restricted_role[ROOM], filled_by[ROOM], filled_own[ROOM], owns;

/* The two sides of its axioms: a byte before each, and its conjuncts: names, or restrictions as -1 - number. */
static size_t side_at[ROOM], side_begins[ROOM], sides = 0, conjuncts = 0;
static int conjunct[ROOM];

static void put(const char *token) {
    size_t n = strlen(token);
    switch (draw(9)) {
    case 0: text[length++] = ' '; break;
    case 1: memcpy(text + length, " # :A (\n", 8); length += 8; break;
    case 2: memcpy(text + length, "\r\n\t", 3); length += 3; break;
    default: break;
    }
    /* two runs of bytes need a blank */
    if (length && token[0] != '(' && token[0] != ')' && token[0] != '<' && text[length - 1] != '(' && text[length - 1] != ')') text[length++] = ' ';
    memcpy(text + length, token, n);
    length += n;
}

static void use(int name, int role) {
    put(pool[name]);
    used_at[used] = length - strlen(pool[name]);
    used_name[used] = name;
    used_role[used++] = role;
}

static int is_thing(int name) { return strcmp(pool[name], "owl:Thing") == 0; }

/* A name, an intersection or a restriction. Where its conjuncts are wanted, they are kept. */
static void class_of(int sort, int name, int depth, int wanted) {
    int i, operands, filler;
    switch (sort) {
    case 0:
    case 1:
        use(name, 0);
        if (wanted && !is_thing(name)) conjunct[conjuncts++] = name;
        break;
    case 2:
        put("ObjectIntersectionOf");
        put("(");
        for (i = 0, operands = 2 + (int)draw(2); i < operands; i++) class_of(depth > 4 ? 0 : (int)draw(4), (int)draw(POOL), depth + 1, wanted);
        put(")");
        break;
    default:
        put("ObjectSomeValuesFrom");
        put("(");
        use((int)draw(4), 1);
        filler = depth > 4 ? 0 : (int)draw(4);
        name = (int)draw(draw(2) ? 3 : POOL);
        restricted_at[restricted] = used_at[used - 1];
        restricted_role[restricted] = used_name[used - 1];
        filled_by[restricted] = filler < 2 ? name : -1;
        if (wanted) conjunct[conjuncts++] = -1 - (int)restricted;
        filled_own[restricted++] = filler < 2 ? 0 : owns++;
        class_of(filler, name, depth + 1, 0);
        put(")");
    }
}

static void side(void) {
    side_at[sides] = length;
    side_begins[sides++] = conjuncts;
    class_of((int)draw(4), (int)draw(POOL), 0, 1);
    side_begins[sides] = conjuncts;
}

static int order_of(const int *order, int count, int name) {
    int i = 0;
    while (i < count && order[i] != name) i++;
    return i;
}

static void declare(int name, int role) {
    put("Declaration");
    put("(");
    put(role ? "ObjectProperty" : "Class");
    put("(");
    put(pool[name]);
    put(")");
    put(")");
    if (role && order_of(role_order, roles, name) == roles) role_order[roles++] = name;
    if (!role && order_of(class_order, classes, name) == classes) class_order[classes++] = name;
}

static int is_open(int name) { return memcmp(pool[name], ":open-", strlen(pool[name]) < 6 ? strlen(pool[name]) : 6) == 0 && strlen(pool[name]) >= 6; }

/* The first restriction that has the row of this one. */
static size_t first_of(size_t r) {
    size_t i = 0;
    while (i < r && (filled_by[r] < 0 || restricted_role[i] != restricted_role[r] || filled_by[i] != filled_by[r])) i++;
    return i;
}

static size_t row_of(size_t r) {
    size_t i, number = 0, first = first_of(r);
    for (i = 0; i < first; i++) number += first_of(i) == i;
    return number;
}

static int class_number(int name) {
    int i, number = 0;
    for (i = 0; i < classes && class_order[i] != name; i++) number += !is_thing(class_order[i]) && is_open(class_order[i]) == is_open(name);
    return number;
}

static void rows_of_drawn_file(void) {
    uint64_t counts[2], filler[2];
    size_t r, rows = 0;
    for (r = 0; r < restricted; r++) rows += first_of(r) == r;
    makrothel_owl_rows(text, length, counts);
    same("a drawn file", "the number of rows", counts[0], rows);
    same("a drawn file", "the number of fresh variables", counts[1], (size_t)owns);
    for (r = 0; r < restricted; r++) {
        int name = filled_by[r];
        same("a drawn file", "the number of a row", makrothel_owl_row(text, length, restricted_at[r]), row_of(r));
        makrothel_owl_filler(text, length, restricted_at[r], filler);
        same("a drawn file", "the kind of a filler", filler[0], name < 0 ? 3 : is_thing(name) ? 0 : is_open(name) ? 2 : 1);
        same("a drawn file", "the number of a filler", filler[1], (size_t)(name < 0 ? filled_own[r] : is_thing(name) ? 0 : class_number(name)));
    }
}

static void sides_of_drawn_file(void) {
    uint64_t entry[2];
    size_t k, i;
    for (k = 0; k < sides; k++) {
        size_t count = side_begins[k + 1] - side_begins[k];
        same("a drawn file", "the number of conjuncts", makrothel_owl_conjuncts(text, length, side_at[k]), count);
        for (i = 0; i < count; i++) {
            int c = conjunct[side_begins[k] + i];
            makrothel_owl_entry(text, length, side_at[k], i, entry);
            same("a drawn file", "the kind of an entry", entry[0], c < 0 ? 3 : is_open(c) ? 2 : 1);
            same("a drawn file", "the number of an entry", entry[1], c < 0 ? row_of((size_t)(-1 - c)) : (size_t)class_number(c));
        }
        makrothel_owl_entry(text, length, side_at[k], count, entry);
        same("a drawn file", "the kind of an entry behind the last", entry[0], 0);
    }
}

static void drawn_file(void) {
    size_t first, place;
    uint64_t counts[3];
    int i, items = (int)draw(14), constants = 0, opens = 0, known = (int)draw(3), name;
    length = used = restricted = sides = conjuncts = 0;
    classes = roles = owns = 0;
    put("Ontology");
    put("(");
    if (draw(3) == 0) put(pool[draw(POOL)]);
    /* mostly all names are declared somewhere, so that the first that is not is not always the first use */
    for (i = 0; i < items; i++) {
        if (draw(2)) declare((int)draw(POOL), (int)draw(2));
        else {
            put(draw(2) ? "SubClassOf" : "EquivalentClasses");
            put("(");
            side();
            side();
            put(")");
        }
    }
    if (known)
        for (i = 0; i < POOL; i++) {
            if (known == 2 || draw(9)) declare(i, 0);
            if (known == 2 || draw(9)) declare(i, 1);
        }
    put(")");
    if (second_check(text, length, &place) != 0) fail("a drawn file", "the place of its refusal", place, 0);
    for (first = 0; first < used; first++) {
        name = used_name[first];
        if (used_role[first] ? order_of(role_order, roles, name) == roles : !is_thing(name) && order_of(class_order, classes, name) == classes) break;
    }
    for (i = 0; i < classes; i++) {
        constants += !is_thing(class_order[i]) && !is_open(class_order[i]);
        opens += is_open(class_order[i]);
    }
    same("a drawn file", "the first name that is not declared", makrothel_owl_names(text, length, counts), first < used ? used_at[first] : length);
    same("a drawn file", "the number of constants", counts[0], (size_t)constants);
    same("a drawn file", "the number of open names", counts[1], (size_t)opens);
    same("a drawn file", "the number of roles", counts[2], (size_t)roles);
    for (name = 0; name < POOL; name++) {
        const unsigned char *bytes = (const unsigned char *)pool[name];
        same(pool[name], "its number as a class", makrothel_owl_class(text, length, bytes, strlen(pool[name])), is_thing(name) ? 0 : (size_t)class_number(name));
        same(pool[name], "its number as a role", makrothel_owl_role(text, length, bytes, strlen(pool[name])), (size_t)order_of(role_order, roles, name));
    }
    rows_of_drawn_file();
    sides_of_drawn_file();
}

static double seconds(void) {
    struct timespec t;
    if (clock_gettime(1, &t) != 0) abort();
    return (double)t.seconds + (double)t.nanoseconds / 1e9;
}

static void plain(const char *bytes) {
    size_t n = strlen(bytes);
    memcpy(text + length, bytes, n);
    length += n;
}

static void numbered(const char *before, unsigned number, const char *behind) {
    char digits[8];
    int i;
    for (i = 6; i >= 0; i--, number /= 10) digits[i] = (char)('0' + number % 10);
    digits[7] = 0;
    plain(before);
    plain(digits);
    plain(behind);
}

/* So many classes are declared, behind axioms that use each; in the last axiom stands a name that is not declared. */
static void many(unsigned names, int timed) {
    unsigned i;
    size_t place, last;
    uint64_t counts[3], first;
    double began, took;
    unsigned char name[16] = ":N";
    length = 0;
    plain("Ontology(");
    for (i = names; i > 0; i--) numbered("SubClassOf(:N", i - 1, " owl:Thing)");
    for (i = 0; i < names; i++) numbered("Declaration(Class(:N", i, "))");
    plain("SubClassOf(owl:Thing ");
    last = length;
    plain(":Other))");
    if (second_check(text, length, &place) != 0) fail("many names", "the place of its refusal", place, 0);
    began = seconds();
    first = makrothel_owl_names(text, length, counts);
    took = seconds() - began;
    same("many names", "the first that is not declared", first, last);
    same("many names", "the number of constants", counts[0], names);
    for (i = 0; i < 7; i++) name[2 + i] = (unsigned char)('0' + (names - 1) / (i == 0 ? 1000000 : i == 1 ? 100000 : i == 2 ? 10000 : i == 3 ? 1000 : i == 4 ? 100 : i == 5 ? 10 : 1) % 10);
    if (!timed) same("many names", "the number of the last", makrothel_owl_class(text, length, name, 9), names - 1);
    if (timed) printf("names %u, bytes %zu, first undeclared and counts %.1f ms\n", names, length, took * 1e3);
}

/* So many restrictions, each with a role and a filler of its own, or all with a filler that is no name. */
static void many_rows(unsigned number, int named) {
    unsigned i;
    size_t place;
    uint64_t counts[2];
    double began, took;
    length = 0;
    plain("Ontology(");
    for (i = 0; i < number; i++) {
        numbered("SubClassOf(owl:Thing ObjectSomeValuesFrom(:r", i, named ? " :A))" : " ObjectIntersectionOf(:A :A)))");
    }
    plain(")");
    if (second_check(text, length, &place) != 0) fail("many rows", "the place of its refusal", place, 0);
    began = seconds();
    makrothel_owl_rows(text, length, counts);
    took = seconds() - began;
    same("many rows", "the number of rows", counts[0], number);
    same("many rows", "the number of fresh variables", counts[1], named ? 0 : number);
    printf("restrictions %u, bytes %zu, rows and fresh variables %.1f ms\n", number, length, took * 1e3);
}

int main(int count, char **args) {
    size_t i;
    uint64_t counts[3], rows[2], first;
    if (count > 1 && strcmp(args[1], "bench") == 0) {
        many(100, 1);
        many(1000, 1);
        many(1500, 1);
        many_rows(1000, 1);
        many_rows(1000, 0);
        return 0;
    }
    for (i = 1; i < (size_t)count; i++) {
        const char *name = strrchr(args[i], '/');
        int file = open(args[i], 0);
        long got;
        size_t place;
        if (file < 0) fail(args[i], "its file", 0, 1);
        for (length = 0; (got = read(file, text + length, ROOM)) > 0;) length += (size_t)got;
        close(file);
        if (second_check(text, length, &place) != 0) continue;
        first = makrothel_owl_names(text, length, counts);
        makrothel_owl_rows(text, length, rows);
        printf("%s %s, constants %u, open names %u, roles %u, rows %u, fresh variables %u\n", name ? name + 1 : args[i],
               first == length ? "all declared" : "not all declared", (unsigned)counts[0], (unsigned)counts[1], (unsigned)counts[2], (unsigned)rows[0], (unsigned)rows[1]);
    }
    for (i = 0; i < sizeof cases / sizeof *cases; i++) {
        const unsigned char *bytes = (const unsigned char *)cases[i].text;
        size_t place, n = strlen(cases[i].text);
        same(cases[i].note, "the second check's number", second_check(bytes, n, &place), 0);
        same(cases[i].note, "the first name that is not declared", makrothel_owl_names(bytes, n, counts), cases[i].first);
        same(cases[i].note, "the number of constants", counts[0], cases[i].constants);
        same(cases[i].note, "the number of open names", counts[1], cases[i].opens);
        same(cases[i].note, "the number of roles", counts[2], cases[i].roles);
    }
    for (i = 0; i < 400; i++) drawn_file();
    many(300, 0);
    many(2000, 0);
    printf("%zu runs\n", run);
    return 0;
}
