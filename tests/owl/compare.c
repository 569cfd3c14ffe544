/* compare OUTCOMES SAMPLE...: runs the second reader over the files with known outcome, and compares it with the proved call, number, count,
   place and buffer: on those files, on the samples cut off at every byte, and on texts by chance, in buffers of several lengths.
   compare text N: prints the text that comes of the number N.

   A table that the second reader makes must be readable for the second solver, and be solved or not as the text was made to be; under a
   solution the axioms of the text itself must hold. */
#include "make.h"
#include "reader.h"
#include "../second/second.h"

uint32_t makrothel_owl(const unsigned char *text, size_t length, unsigned char *out, size_t room, uint64_t *numbers);

enum {
    FRESH = 10000, /* texts by chance */
    DAMAGED = 3,   /* of each */
    LEAST = 100,   /* that each kind of answer must be given */
    NODES = 400    /* the budget of the second solver */
};

static const char *const kind_names[OWL_KINDS] = {"made", "10", "11 not listed", "11 not declared", "12", "17"};

static size_t kinds[OWL_KINDS], compared, solved, unsolvable, undecided;

/* Tables with as many constants, restrictions, both together, and variables as there may be. */
enum { AT_BOUNDS = 4 };

static const char *const bound_names[AT_BOUNDS] = {"constants", "restrictions", "constants and restrictions", "variables"};
static size_t at_bounds[AT_BOUNDS];

static void count_bounds(const unsigned char *table) {
    u32 c = table[5], v = table[7], e = table[8];
    at_bounds[0] += c == MOST_CONSTANTS;
    at_bounds[1] += e == MOST_RESTRICTIONS;
    at_bounds[2] += c + e == MOST_ATOMS;
    at_bounds[3] += v == MOST_VARIABLES;
}

enum { BUFFER = 4096, FILL = 0xAA };

static void show(const unsigned char *text, size_t length) {
    size_t i;
    for (i = 0; i < length && i < 4000; i++) {
        if (text[i] == '\\') printf("\\\\");
        else if (text[i] >= 32 && text[i] < 127) printf("%c", text[i]);
        else printf("\\x%02X", text[i]);
    }
    printf("%s\n", i < length ? " .." : "");
}

/* ---- The second reader and the buffer it is lent */

struct run {
    struct owl_answer answer;
    unsigned char buffer[BUFFER];
};

/* Whether all is written that should be, and nothing else. */
static int keeps_buffer(const struct run *run) {
    size_t i;
    for (i = (size_t)run->answer.count; i < BUFFER; i++)
        if (run->buffer[i] != FILL) return 0;
    return run->answer.number == 0 || run->answer.count == 0;
}

static struct run read_text(const unsigned char *text, size_t length, size_t room) {
    struct run run;
    memset(run.buffer, FILL, BUFFER);
    run.answer = owl_second(text, length, run.buffer, room);
    if (!keeps_buffer(&run)) {
        printf("owl: the second reader writes beyond the table, or under a refusal: ");
        show(text, length);
        exit(1);
    }
    return run;
}

/* ---- Known outcomes */

static void known(const struct outcome *outcome) {
    struct run run = read_text(outcome->text.at, outcome->text.length, outcome->room);
    const struct owl_answer *answer = &run.answer;
    if (outcome->number == 0 && outcome->table.length != outcome->count) {
        printf("owl: %s: the table that is written down has %zu bytes\n", outcome->name, outcome->table.length);
        exit(1);
    }
    if (answer->number != outcome->number || answer->count != outcome->count || answer->place != outcome->place) {
        printf("owl: %s: %u %llu %llu\n", outcome->name, answer->number, (unsigned long long)answer->count,
               (unsigned long long)answer->place);
        exit(1);
    }
    if (answer->number == 0 && memcmp(run.buffer, outcome->table.at, outcome->table.length) != 0) {
        size_t i;
        printf("owl: %s: another table:", outcome->name);
        for (i = 0; i < answer->count; i++) printf(" %02X", run.buffer[i]);
        printf("\n");
        exit(1);
    }
    if (outcome->not_table.length == answer->count && answer->count &&
        memcmp(run.buffer, outcome->not_table.at, outcome->not_table.length) == 0) {
        printf("owl: %s: a table that must not come out\n", outcome->name);
        exit(1);
    }
}

/* ---- The comparison with the proved call */

static int is_checked(enum owl_kind kind) { return kind == OWL_SYNTAX || kind == OWL_UNLISTED; }

/* What the proved call answers. */
static struct run call(const unsigned char *text, size_t length, size_t room) {
    struct run run;
    uint64_t numbers[2] = {77, 77};
    memset(run.buffer, FILL, BUFFER);
    run.answer.kind = OWL_KINDS;
    run.answer.number = makrothel_owl(text, length, run.buffer, room, numbers);
    run.answer.count = numbers[0];
    run.answer.place = numbers[1];
    return run;
}

/* Whether the call answers what the second reader does, and leaves the same buffer. */
static int agrees(const unsigned char *text, size_t length, size_t room, const struct run *run) {
    struct run called = call(text, length, room);
    return called.answer.number == run->answer.number && called.answer.count == run->answer.count &&
           called.answer.place == run->answer.place && memcmp(called.buffer, run->buffer, BUFFER) == 0;
}

/* Makes a text on which they differ shorter as long as they still do, and shows it. */
static _Noreturn void differ(const char *note, const unsigned char *text, size_t length) {
    unsigned char *small = malloc(2 * length + 2), *tried = small + length + 1;
    size_t part, at;
    struct run run, called;
    if (!small) abort();
    memcpy(small, text, length);
    for (part = length / 2 + 1; part > 0; part = part == 1 ? 0 : part / 2) {
        for (at = 0; at + part <= length;) {
            memcpy(tried, small, at);
            memcpy(tried + at, small + at + part, length - part - at);
            run = read_text(tried, length - part, BUFFER);
            if (agrees(tried, length - part, BUFFER, &run)) {
                at++;
            } else {
                length -= part;
                memcpy(small, tried, length);
            }
        }
    }
    run = read_text(small, length, BUFFER);
    called = call(small, length, BUFFER);
    printf("owl: %s: the second reader says %u %llu %llu (%s), the call %u %llu %llu: ", note, run.answer.number,
           (unsigned long long)run.answer.count, (unsigned long long)run.answer.place, kind_names[run.answer.kind], called.answer.number,
           (unsigned long long)called.answer.count, (unsigned long long)called.answer.place);
    show(small, length);
    exit(1);
}

/* A table that was made is readable, whole in a buffer of its own length, and refused in one that is shorter. */
static void try_buffers(const unsigned char *text, size_t length, const struct run *run) {
    size_t count = (size_t)run->answer.count;
    struct run whole = read_text(text, length, count), less = read_text(text, length, count - 1);
    struct reading reading = second_read(run->buffer, (u32)count);
    kinds[less.answer.kind]++;
    if (reading.number == 0 && whole.answer.kind == OWL_MADE && memcmp(whole.buffer, run->buffer, BUFFER) == 0 &&
        less.answer.kind == OWL_SHORT && less.answer.place == count && agrees(text, length, count, &whole) &&
        agrees(text, length, count - 1, &less))
        return;
    printf("owl: an unreadable table, or another one in another buffer: ");
    show(text, length);
    exit(1);
}

static struct run compare(const char *note, const unsigned char *text, size_t length) {
    struct run run = read_text(text, length, BUFFER);
    compared++;
    kinds[run.answer.kind]++;
    if (!agrees(text, length, BUFFER, &run)) differ(note, text, length);
    if (run.answer.kind == OWL_MADE) {
        count_bounds(run.buffer);
        try_buffers(text, length, &run);
    }
    return run;
}

static void compare_known(const struct outcome *outcome) {
    static const unsigned char empty[1];
    compare(outcome->name, outcome->text.length ? outcome->text.at : empty, outcome->text.length);
}

static void compare_cut(const char *path) {
    struct bytes sample = read_all(path);
    size_t length;
    for (length = 0; length <= sample.length; length++) compare(path, sample.at, length);
    free(sample.at);
}

/* The axioms of the text made last hold under the sets that the solver wrote. */
static int solution_holds(const unsigned char *table, const u8 *output) {
    u64 sets[MOST_VARIABLES] = {0};
    u32 i, variables = table[7];
    for (i = 0; i < SET_BYTES * variables; i++) sets[i / SET_BYTES] |= (u64)output[i] << 8 * (i % SET_BYTES);
    return text_holds(table, sets);
}

/* The second solver must not say the contrary of what the text made last was made for, nor give a solution under which it does not hold. */
static void solve(const struct bytes *text, const struct run *run, enum joins joins) {
    u8 output[SET_BYTES * MOST_VARIABLES];
    struct answer answer = second_solve(run->buffer, (u32)run->answer.count, NODES, output, sizeof output);
    int is_right = 0;
    if (answer.number == SOLVED) is_right = joins != JOINS_NOT && solution_holds(run->buffer, output);
    if (answer.number == NONE) is_right = joins != JOINS;
    if (answer.number == BUDGET) is_right = 1;
    if (!is_right) {
        printf("owl: number %u by the second solver, made to join %u: ", answer.number, joins);
        show(text->at, text->length);
        exit(1);
    }
    solved += answer.number == SOLVED;
    unsolvable += answer.number == NONE;
    undecided += answer.number == BUDGET;
}

static void compare_fresh(u64 seed) {
    struct chance chance = {seed};
    struct bytes text = {NULL, 0, 0}, damaged = {NULL, 0, 0};
    int i;
    size_t j;
    enum joins joins = make_text(&chance, &text);
    struct run run = compare("a text by chance", text.at, text.length);
    if (is_checked(run.answer.kind)) {
        printf("owl: a text by chance is a syntax error at %llu: ", (unsigned long long)run.answer.place);
        show(text.at, text.length);
        exit(1);
    }
    if (run.answer.kind == OWL_MADE) solve(&text, &run, joins);
    for (i = 0; i < DAMAGED; i++) {
        damaged.length = 0;
        for (j = 0; j < text.length; j++) add_byte(&damaged, text.at[j]);
        damage_text(&chance, &damaged);
        if (i == 2) damage_text(&chance, &damaged);
        compare("a damaged text by chance", damaged.at, damaged.length);
    }
    free(text.at);
    free(damaged.at);
}

/* Prints a text by chance. */
static void print_text(const char *seed) {
    struct chance chance = {0};
    struct bytes text = {NULL, 0, 0};
    for (; *seed; seed++) chance.state = 10 * chance.state + (u64)(*seed - '0');
    make_text(&chance, &text);
    add_byte(&text, 0);
    printf("%s\n", (const char *)text.at);
    free(text.at);
}

int main(int count, char **args) {
    size_t outcomes, i;
    if (count < 2) exit(2);
    if (count == 3 && strcmp(args[1], "text") == 0) {
        print_text(args[2]);
        return 0;
    }
    outcomes = each_outcome(args[1], known);
    each_outcome(args[1], compare_known);
    for (i = 2; i < (size_t)count; i++) compare_cut(args[i]);
    for (i = 0; i < FRESH; i++) compare_fresh(i);
    printf("%zu known outcomes; %zu texts compared:", outcomes, compared);
    for (i = 0; i < OWL_KINDS; i++) printf(" %s: %zu%s", kind_names[i], kinds[i], i + 1 < OWL_KINDS ? "," : "\n");
    printf("of the texts by chance: %zu join, %zu do not, %zu are not decided within %u nodes\n", solved, unsolvable, undecided, NODES);
    for (i = 0; i < OWL_KINDS; i++) {
        if (kinds[i] < LEAST) {
            printf("owl: too few answers of the kind %s\n", kind_names[i]);
            exit(1);
        }
    }
    for (i = 0; i < AT_BOUNDS; i++) {
        if (at_bounds[i] == 0) {
            printf("owl: no table with the most %s\n", bound_names[i]);
            exit(1);
        }
    }
    if (solved < LEAST || unsolvable < LEAST) {
        printf("owl: too few texts that join, or that do not\n");
        exit(1);
    }
    return 0;
}
