/* Runs the check of OWL texts: texts with known verdicts, the samples, and texts on which the second checker must agree. */
#include "second.h"

uint32_t makrothel_owl_check(const unsigned char *text, size_t length, uint64_t *place);

static const struct {
    const char *note, *text;
    unsigned number;
    size_t place;
} cases[] = {
    {"no token at all", "", 10, 0},
    {"a comment alone", "# (only \"a <comment", 10, 19},
    {"an empty ontology", "Ontology()", 0, 0},
    {"blanks between all tokens, `#` and `(` in a name, a comment that a carriage return ends", "Prefix ( : = <u#(> ) # (\"<\rOntology ( )", 0, 0},
    {"two names of the ontology", "Ontology(<a> <b>)", 0, 0},
    {"three names of the ontology", "Ontology(<a> <b> <c>)", 10, 17},
    {"Prefix lines alone", "Prefix(:=<u>)", 10, 13},
    {"a word that is no name", "Ontology(SubClassOf(A B))", 10, 20},
    {"a constructor not listed", "Ontology(SubClassOf(:A ObjectUnionOf(:B :C)))", 11, 23},
    {"an axiom not listed", "Ontology(DisjointClasses(:A :B))", 11, 9},
    {"another case of a listed word", "Ontology(subclassof(:A :B))", 11, 9},
    {"an import", "Ontology(Import(<x>))", 11, 9},
    {"an annotation", "Ontology(SubClassOf(Annotation(:a \"x\") :A :B))", 11, 20},
    {"a property expression not listed", "Ontology(SubClassOf(ObjectSomeValuesFrom(ObjectInverseOf(:r) :A) :B))", 11, 41},
    {"a third operand", "Ontology(EquivalentClasses(:A :B :C))", 11, 33},
    {"a second operand is missing", "Ontology(EquivalentClasses(:A))", 10, 29},
    {"an intersection of one operand", "Ontology(SubClassOf(:A ObjectIntersectionOf(:B)))", 10, 46},
    {"a declaration of another thing", "Ontology(Declaration(NamedIndividual(:i)))", 11, 21},
    {"a listed word in a wrong place", "Ontology(ObjectIntersectionOf(:A :B))", 10, 9},
    {"the last `)` is missing", "Ontology(SubClassOf(:A :B)", 10, 26},
    {"a second ontology", "Ontology() Ontology()", 10, 11},
    {"one `)` too many", "Ontology())", 10, 10},
    {"a blank node", "Ontology(SubClassOf(:A _:x))", 10, 23},
    {"a local part that begins with `-`", "Ontology(SubClassOf(:A :-b))", 10, 23},
    {"a prefix name for a name", "Ontology(SubClassOf(:A owl:))", 10, 23},
    {"a comment behind a name", "Ontology(SubClassOf(:B#x\n :a:b.))", 0, 0},
    {"delimiters without blanks, declarations behind their use", "Ontology(SubClassOf(<u#A>:ends.)Declaration(Class(:ends.)))", 0, 0},
    {"an unclosed `<`", "Ontology(SubClassOf(:A <open", 10, 23},
    {"a quotation mark", "Ontology(SubClassOf(:A \"B\"))", 10, 23},
    {"a byte order mark", "\xef\xbb\xbfOntology()", 10, 0},
    {"a form feed is no blank", "\fOntology()", 10, 0},
    {"nested fillers", "Ontology(EquivalentClasses(:open-X ObjectSomeValuesFrom(:r ObjectSomeValuesFrom(:r owl:Thing))))", 0, 0},
};

static size_t run = 0;

static void fail(const char *note, unsigned number, size_t place, unsigned expected, size_t at) {
    printf("owl: %s: %u %zu, expected %u %zu\n", note, number, place, expected, at);
    exit(1);
}

/* Ours must give this verdict. */
static void gives(const char *note, const unsigned char *text, size_t length, unsigned expected, size_t at) {
    uint64_t place = 77;
    unsigned number = makrothel_owl_check(text, length, &place);
    run++;
    if (number != expected || place != at) fail(note, number, (size_t)place, expected, at);
}

/* Ours must give the second checker's verdict, which is returned. */
static unsigned agrees(const char *note, const unsigned char *text, size_t length) {
    size_t at;
    unsigned expected = second_check(text, length, &at);
    gives(note, text, length, expected, at);
    return expected;
}

static const char *const words[] = {
    "Prefix", "Ontology", "Declaration", "Class", "ObjectProperty",
    "SubClassOf", "EquivalentClasses", "ObjectIntersectionOf", "ObjectSomeValuesFrom",
};

static unsigned long long seed = 20020212;

static unsigned draw(unsigned below) {
    seed = seed * 6364136223846793005ULL + 1442695040888963407ULL;
    return (unsigned)((seed >> 33) % below);
}

/* Every truncation, every word misspelt, every line end as CR LF and CR, and drawn changes of one to three bytes. */
static void around(const char *name, const unsigned char *text, size_t length) {
    unsigned char *copy = malloc(2 * length + 1);
    size_t i, j, n;
    if (!copy) abort();
    for (i = 0; i < length; i++) agrees(name, text, i);
    for (i = 0; i < sizeof words / sizeof *words; i++) {
        size_t w = strlen(words[i]);
        for (j = 0; j + w < length; j++) {
            if (memcmp(text + j, words[i], w) != 0 || text[j + w] != '(') continue;
            memcpy(copy, text, length);
            copy[j] ^= 32;
            agrees(name, copy, length);
            copy[j] ^= 32;
            copy[j + w - 1] = 'x';
            agrees(name, copy, length);
        }
    }
    for (i = 0, n = 0; i < length; i++) {
        if (text[i] == '\n') copy[n++] = '\r';
        copy[n++] = text[i];
    }
    agrees(name, copy, n);
    memcpy(copy, text, length);
    for (i = 0; i < length; i++)
        if (copy[i] == '\n') copy[i] = '\r';
    agrees(name, copy, length);
    for (i = 0; i < 4000; i++) {
        static const char odd[] = "()=<>#\" :-_.\n\rAz\f\x80";
        memcpy(copy, text, length);
        for (j = draw(3) + 1; j > 0; j--) copy[draw((unsigned)length)] = (unsigned char)odd[draw(sizeof odd - 1)];
        agrees(name, copy, length);
    }
    free(copy);
}

static unsigned char *read_whole(const char *path, size_t *length) {
    int f = open(path, 0);
    unsigned char *text = malloc(1 << 20);
    long got = 0;
    if (f < 0 || !text) {
        printf("owl: cannot read %s\n", path);
        exit(1);
    }
    *length = 0;
    while ((got = read(f, text + *length, (1 << 20) - 1 - *length)) > 0) *length += (size_t)got;
    close(f);
    return text;
}

static double seconds(void) {
    struct timespec t;
    if (clock_gettime(1, &t) != 0) abort();
    return (double)t.seconds + (double)t.nanoseconds / 1e9;
}

/* So many nested intersections or restrictions, as one text. */
static unsigned char *nest(size_t levels, const char *open, const char *innermost, size_t closed, size_t *length) {
    const char *head = "Ontology(SubClassOf(:A ", *tail = "))";
    size_t o = strlen(open), m = strlen(innermost), n = 0, i;
    unsigned char *text = malloc(strlen(head) + levels * (o + 1) + m + 8);
    if (!text) abort();
    memcpy(text, head, strlen(head));
    n = strlen(head);
    for (i = 0; i < levels; i++, n += o) memcpy(text + n, open, o);
    memcpy(text + n, innermost, m);
    n += m;
    for (i = 0; i < closed; i++) text[n++] = ')';
    memcpy(text + n, tail, 2);
    *length = n + 2;
    return text;
}

static void deep(size_t levels, const char *open) {
    size_t length, head = strlen("Ontology(SubClassOf(:A ");
    unsigned char *text = nest(levels, open, ":B", levels, &length);
    gives("balanced", text, length, 0, 0);
    gives("one `)` missing", text, length - 1, 10, length - 1);
    free(text);
    text = nest(levels, open, ":B", levels - 1, &length);
    agrees("one `)` missing inside", text, length);
    free(text);
    text = nest(levels, open, "=", levels, &length);
    gives("a wrong token innermost", text, length, 10, head + levels * strlen(open));
    free(text);
    text = nest(levels, open, ":B", levels + 1, &length);
    agrees("one `)` too many", text, length);
    free(text);
}

/* So many nests of restrictions side by side, each in an axiom of its own; in nest `wrong` stands `=` behind so many levels. */
static unsigned char *row(size_t nests, size_t levels, size_t wrong, size_t behind, size_t *length, size_t *place) {
    const char *head = "Ontology(", *axiom = "SubClassOf(:A ", *open = "ObjectSomeValuesFrom(:r ";
    size_t a = strlen(axiom), o = strlen(open), n = strlen(head), i, j;
    unsigned char *text = malloc(n + nests * (a + levels * (o + 1) + 4) + 1);
    if (!text) abort();
    memcpy(text, head, n);
    for (i = 0; i < nests; i++) {
        memcpy(text + n, axiom, a);
        n += a;
        for (j = 0; j < levels; j++, n += o) {
            if (i == wrong && j == behind) *place = n, text[n++] = '=';
            memcpy(text + n, open, o);
        }
        memcpy(text + n, ":B", 2);
        n += 2;
        for (j = 0; j <= levels; j++) text[n++] = ')';
    }
    text[n++] = ')';
    *length = n;
    return text;
}

static void side_by_side(size_t nests, size_t levels) {
    size_t length, place = 0, i, wrong[][2] = {{0, 1}, {1, levels - 1}, {nests - 1, 5}, {nests - 1, levels - 1}};
    unsigned char *text = row(nests, levels, nests, 0, &length, &place);
    gives("nests side by side", text, length, 0, 0);
    gives("nests side by side, one `)` missing", text, length - 1, 10, length - 1);
    free(text);
    for (i = 0; i < sizeof wrong / sizeof *wrong; i++) {
        text = row(nests, levels, wrong[i][0], wrong[i][1], &length, &place);
        gives("nests side by side, a wrong token in one", text, length, 10, place);
        /* a second one behind it, in level 1 */
        text[length - 1] = '=';
        gives("nests side by side, a second wrong token", text, length, 10, place);
        free(text);
    }
}

/* 1 MB of ordinary text, timed beside the plain tokenizer. */
static void bench(const unsigned char *sample, size_t length) {
    size_t begin = 0, end, n = 0, room = 1 << 20, tokens = 0, i;
    unsigned char *text = malloc(room + length + 2);
    double best = 1e9, plain = 1e9;
    const unsigned char *axioms = (const unsigned char *)strstr((const char *)sample, "EquivalentClasses(");
    if (!text || !axioms) abort();
    begin = (size_t)(axioms - sample);
    for (end = length; sample[end - 1] != ')'; end--) continue;
    memcpy(text, sample, begin);
    n = begin;
    while (n < room) {
        memcpy(text + n, sample + begin, end - 1 - begin);
        n += end - 1 - begin;
    }
    text[n++] = ')';
    for (i = 0; i < 9; i++) {
        uint64_t place;
        double began = seconds(), took;
        if (makrothel_owl_check(text, n, &place) != 0) fail("the text of the benchmark", 1, (size_t)place, 0, 0);
        took = seconds() - began;
        if (took < best) best = took;
        began = seconds();
        tokens = plain_count(text, n);
        took = seconds() - began;
        if (took < plain) plain = took;
    }
    if (tokens == 0) abort();
    printf("bytes %zu, tokens %zu, check %.0f us, plain tokenizer in C %.0f us, ratio %.2f\n", n, tokens, best * 1e6, plain * 1e6, plain / best);
    free(text);
}

int main(int count, char **args) {
    size_t i, length;
    int only_bench = count > 1 && strcmp(args[1], "bench") == 0;
    for (i = only_bench ? 2 : 1; i < (size_t)count; i++) {
        unsigned char *text = read_whole(args[i], &length);
        if (only_bench) {
            text[length] = 0;
            bench(text, length);
        } else {
            const char *name = strrchr(args[i], '/');
            uint64_t place;
            unsigned number = makrothel_owl_check(text, length, &place);
            printf("%s %u %llu\n", name ? name + 1 : args[i], number, (unsigned long long)place);
            agrees(args[i], text, length);
            around(args[i], text, length);
        }
        free(text);
    }
    if (only_bench) return 0;
    for (i = 0; i < sizeof cases / sizeof *cases; i++) {
        const unsigned char *text = (const unsigned char *)cases[i].text;
        gives(cases[i].note, text, strlen(cases[i].text), cases[i].number, cases[i].place);
        agrees(cases[i].note, text, strlen(cases[i].text));
    }
    deep(4095, "ObjectIntersectionOf(owl:Thing ");
    deep(4096, "ObjectIntersectionOf(owl:Thing ");
    deep(4097, "ObjectSomeValuesFrom(:r ");
    deep(100000, "ObjectIntersectionOf(owl:Thing ");
    deep(100000, "ObjectSomeValuesFrom(:r ");
    side_by_side(3, 4095);
    side_by_side(80, 4200);
    side_by_side(3, 9000);
    printf("%zu runs\n", run);
    return 0;
}
