/* A second checker of OWL texts. Constructs in progress are kept on a stack in the heap, with a count of what was read of each. */
#include "second.h"

enum kind { END, LEFT, RIGHT, EQUALS, WORD, NAME, FULL, LABEL, OTHER };

struct token {
    enum kind kind;
    size_t begin, end;
};

static int is_blank(unsigned char b) { return b == ' ' || b == '\t' || b == '\n' || b == '\r'; }

static int is_mark(unsigned char b) {
    return b == '(' || b == ')' || b == '=' || b == '<' || b == '>' || b == '#' || b == '"';
}

static int is_name_byte(unsigned char b) {
    return (b >= '0' && b <= '9') || (b >= 'A' && b <= 'Z') || (b >= 'a' && b <= 'z') || b == '_' || b == '-' ||
           b == '.' || b >= 128;
}

static enum kind run_kind(const unsigned char *run, size_t length) {
    size_t colon = 0, i;
    while (colon < length && run[colon] != ':') colon++;
    for (i = 0; i < length; i++)
        if (!is_name_byte(run[i]) && run[i] != ':') return OTHER;
    if (colon == length) return WORD;
    if (colon == 1 && run[0] == '_') return OTHER;
    if (colon + 1 == length) return LABEL;
    if (run[colon + 1] == '-' || run[colon + 1] == '.') return OTHER;
    return NAME;
}

static struct token token_at(const unsigned char *text, size_t length, size_t at) {
    struct token t;
    for (;;) {
        while (at < length && is_blank(text[at])) at++;
        if (at == length || text[at] != '#') break;
        while (at < length && text[at] != '\n' && text[at] != '\r') at++;
    }
    t.begin = t.end = at;
    t.kind = END;
    if (at == length) return t;
    t.end = at + 1;
    switch (text[at]) {
    case '(': t.kind = LEFT; return t;
    case ')': t.kind = RIGHT; return t;
    case '=': t.kind = EQUALS; return t;
    case '>':
    case '"': t.kind = OTHER; return t;
    case '<': {
        const unsigned char *close = memchr(text + at, '>', length - at);
        t.kind = close ? FULL : OTHER;
        if (close) t.end = (size_t)(close - text) + 1;
        return t;
    }
    default: break;
    }
    while (t.end < length && !is_blank(text[t.end]) && !is_mark(text[t.end])) t.end++;
    t.kind = run_kind(text + at, t.end - at);
    return t;
}

enum word { PREFIX, ONTOLOGY, DECLARATION, CLASS, PROPERTY, SUB, EQUIVALENT, BOTH, SOME, WORDS };

static const char *const words[WORDS] = {
    "Prefix", "Ontology", "Declaration", "Class", "ObjectProperty",
    "SubClassOf", "EquivalentClasses", "ObjectIntersectionOf", "ObjectSomeValuesFrom",
};

static enum word word_of(const unsigned char *text, struct token t) {
    size_t i;
    if (t.kind != WORD) return WORDS;
    for (i = 0; i < WORDS; i++)
        if (strlen(words[i]) == t.end - t.begin && memcmp(words[i], text + t.begin, t.end - t.begin) == 0) return (enum word)i;
    return WORDS;
}

/* One construct in progress: what it is, whether its `(` was read, and how many parts. */
struct level {
    unsigned char word, opened, parts;
};

static int may_be_class(struct token t, enum word w) { return t.kind == NAME || t.kind == FULL || w == BOTH || w == SOME; }

unsigned second_check(const unsigned char *text, size_t length, size_t *place) {
    size_t room = 64, depth = 0, at = 0;
    struct level *levels = malloc(room * sizeof *levels);
    int done = 0;
    unsigned number = 10;
    if (!levels) abort();
    for (;;) {
        struct token t = token_at(text, length, at);
        enum word w = word_of(text, t);
        int name = t.kind == NAME || t.kind == FULL;
        int unlisted = t.kind == WORD && w == WORDS && token_at(text, length, t.end).kind == LEFT;
        int push = 0;
        struct level *top = depth ? &levels[depth - 1] : NULL;
        *place = t.kind == END ? length : t.begin;
        at = t.end;
        if (t.kind == END) {
            if (done && !depth) {
                *place = 0;
                number = 0;
            }
            break;
        }
        if (!top) {
            if (done || (w != PREFIX && w != ONTOLOGY)) break;
            done = w == ONTOLOGY;
            push = 1;
        } else if (!top->opened) {
            if (t.kind != LEFT) break;
            top->opened = 1;
            continue;
        } else {
            int taken = 0, eleven = unlisted;
            switch (top->word) {
            case PREFIX:
                eleven = 0;
                taken = (top->parts == 0 && t.kind == LABEL) || (top->parts == 1 && t.kind == EQUALS) ||
                        (top->parts == 2 && t.kind == FULL) || (top->parts == 3 && t.kind == RIGHT);
                break;
            case ONTOLOGY:
                push = w == DECLARATION || w == SUB || w == EQUIVALENT;
                taken = push || t.kind == RIGHT || (name && top->parts < 2);
                if (push) top->parts = 2;
                break;
            case DECLARATION:
                push = top->parts == 0 && (w == CLASS || w == PROPERTY);
                taken = push || (top->parts == 1 && t.kind == RIGHT);
                eleven = unlisted && top->parts == 0;
                break;
            case CLASS:
            case PROPERTY:
                eleven = 0;
                taken = (top->parts == 0 && name) || (top->parts == 1 && t.kind == RIGHT);
                break;
            case SUB:
            case EQUIVALENT:
                taken = top->parts < 2 ? may_be_class(t, w) : t.kind == RIGHT;
                push = top->parts < 2 && (w == BOTH || w == SOME);
                eleven = top->parts < 2 ? unlisted : top->word == EQUIVALENT && (unlisted || may_be_class(t, w));
                break;
            case BOTH:
                taken = may_be_class(t, w) || (top->parts == 2 && t.kind == RIGHT);
                push = w == BOTH || w == SOME;
                break;
            case SOME:
                taken = top->parts == 0 ? name : top->parts == 1 ? may_be_class(t, w) : t.kind == RIGHT;
                push = top->parts == 1 && (w == BOTH || w == SOME);
                eleven = unlisted && top->parts < 2;
                break;
            default: abort();
            }
            if (!taken) {
                number = eleven ? 11 : 10;
                break;
            }
            if (t.kind == RIGHT) {
                depth--;
                continue;
            }
            if (top->parts < (top->word == PREFIX ? 3 : 2)) top->parts++;
        }
        if (push) {
            if (depth == room) {
                room *= 2;
                levels = realloc(levels, room * sizeof *levels);
                if (!levels) abort();
            }
            levels[depth].word = (unsigned char)w;
            levels[depth].opened = 0;
            levels[depth].parts = 0;
            depth++;
        }
    }
    free(levels);
    return number;
}

size_t plain_count(const unsigned char *text, size_t length) {
    size_t at = 0, tokens = 0, depth = 0;
    while (at < length) {
        unsigned char b = text[at];
        if (is_blank(b)) {
            at++;
        } else if (b == '#') {
            while (at < length && text[at] != '\n' && text[at] != '\r') at++;
        } else {
            tokens++;
            if (b == '(') {
                depth++;
                at++;
            } else if (b == ')') {
                if (depth == 0) return 0;
                depth--;
                at++;
            } else if (b == '<') {
                while (at < length && text[at] != '>') at++;
                if (at < length) at++;
            } else if (is_mark(b)) {
                at++;
            } else {
                while (at < length && !is_blank(text[at]) && !is_mark(text[at])) at++;
            }
        }
    }
    return depth == 0 ? tokens : 0;
}
