/* The files with known outcome. See outcomes.h. */
#include "outcomes.h"

int open(const char *path, int how, ...);
long read(int file, void *to, size_t length);
int close(int file);

void add_byte(struct bytes *bytes, unsigned char byte) {
    if (bytes->length == bytes->room) {
        bytes->room = bytes->room ? 2 * bytes->room : 256;
        bytes->at = realloc(bytes->at, bytes->room);
        if (!bytes->at) abort();
    }
    bytes->at[bytes->length++] = byte;
}

void add_text(struct bytes *bytes, const char *text) {
    for (; *text; text++) add_byte(bytes, (unsigned char)*text);
}

static void add_all(struct bytes *bytes, const struct bytes *more) {
    size_t i;
    for (i = 0; i < more->length; i++) add_byte(bytes, more->at[i]);
}

struct bytes read_all(const char *path) {
    struct bytes all = {NULL, 0, 0};
    unsigned char block[4096];
    int file = open(path, 0);
    long got = -1;
    while (file >= 0 && (got = read(file, block, sizeof block)) > 0) {
        struct bytes more = {block, (size_t)got, sizeof block};
        add_all(&all, &more);
    }
    if (got < 0) {
        printf("owl: cannot read %s\n", path);
        exit(1);
    }
    close(file);
    return all;
}

static int digit(char letter) {
    if (letter >= '0' && letter <= '9') return letter - '0';
    if (letter >= 'A' && letter <= 'F') return letter - 'A' + 10;
    return -1;
}

/* What stands on a line behind the word that it begins with. */
struct line {
    const char *path;
    size_t number;
    char *rest;
};

static _Noreturn void wrong(struct line line) {
    printf("owl: %s: line %zu is not understood\n", line.path, line.number);
    exit(1);
}

/* A decimal number, and the blank behind it. */
static uint64_t take_number(struct line *line) {
    uint64_t number = 0;
    if (*line->rest < '0' || *line->rest > '9') wrong(*line);
    while (*line->rest >= '0' && *line->rest <= '9') number = 10 * number + (uint64_t)(*line->rest++ - '0');
    if (*line->rest == ' ') line->rest++;
    return number;
}

static int two_digits(const char *at) { return digit(at[0]) < 0 || digit(at[1]) < 0 ? -1 : 16 * digit(at[0]) + digit(at[1]); }

/* The rest of the line as bytes; with `time` at each `@`, unless that is negative. */
static void add_rest(struct line line, struct bytes *text, long time) {
    const char *at;
    for (at = line.rest; *at; at++) {
        if (*at == '@' && time >= 0) {
            long unit = 1;
            while (time / unit >= 10) unit *= 10;
            for (; unit > 0; unit /= 10) add_byte(text, (unsigned char)('0' + time / unit % 10));
        } else if (*at != '\\') {
            add_byte(text, (unsigned char)*at);
        } else if (*++at == 'x' && two_digits(at + 1) >= 0) {
            add_byte(text, (unsigned char)two_digits(at + 1));
            at += 2;
        } else {
            static const char letters[] = "nrt\\", stand_for[] = "\n\r\t\\";
            size_t i = 0;
            while (letters[i] && letters[i] != *at) i++;
            if (!letters[i]) wrong(line);
            add_byte(text, (unsigned char)stand_for[i]);
        }
    }
}

/* The rest of the line as digits of bytes. */
static void add_hex(struct line line, struct bytes *table) {
    const char *at = line.rest;
    while (*at) {
        if (*at == ' ' || *at == '|') {
            at++;
        } else {
            if (two_digits(at) < 0) wrong(line);
            add_byte(table, (unsigned char)two_digits(at));
            at += 2;
        }
    }
}

static void add_file(struct line line, struct bytes *text) {
    struct bytes path = {NULL, 0, 0}, file;
    const char *folder_end = strrchr(line.path, '/'), *at;
    for (at = line.path; folder_end && at <= folder_end; at++) add_byte(&path, (unsigned char)*at);
    add_text(&path, line.rest);
    add_byte(&path, 0);
    file = read_all((const char *)path.at);
    add_all(text, &file);
    free(file.at);
    free(path.at);
}

/* The line's first word is this one; then only what is behind it is left. */
static int begins(struct line *line, const char *word) {
    size_t length = strlen(word);
    if (strlen(line->rest) < length || memcmp(line->rest, word, length) != 0) return 0;
    if (line->rest[length] != ' ' && line->rest[length] != 0) return 0;
    line->rest += length + (line->rest[length] == ' ');
    return 1;
}

static void read_line(struct line line, struct outcome *outcome) {
    long i, times;
    if (begins(&line, "text")) {
        add_rest(line, &outcome->text, -1);
    } else if (begins(&line, "many")) {
        times = (long)take_number(&line);
        for (i = 0; i < times; i++) add_rest(line, &outcome->text, i);
    } else if (begins(&line, "file")) {
        add_file(line, &outcome->text);
    } else if (begins(&line, "room")) {
        outcome->room = (size_t)take_number(&line);
    } else if (begins(&line, "gives")) {
        outcome->number = take_number(&line);
        outcome->count = take_number(&line);
        outcome->place = take_number(&line);
    } else if (begins(&line, "table")) {
        add_hex(line, &outcome->table);
    } else if (begins(&line, "tables")) {
        times = (long)take_number(&line);
        for (i = 0; i < times; i++) add_hex(line, &outcome->table);
    } else if (begins(&line, "not")) {
        add_hex(line, &outcome->not_table);
    } else {
        wrong(line);
    }
}

/* Hands over the case that ends here, if there is one, and forgets it. */
static size_t end_case(struct outcome *outcome, void (*visit)(const struct outcome *)) {
    static const struct outcome none = {"", {NULL, 0, 0}, 4096, 77, 77, 77, {NULL, 0, 0}, {NULL, 0, 0}};
    size_t was_one = outcome->name[0] != 0;
    if (was_one) visit(outcome);
    free(outcome->text.at);
    free(outcome->table.at);
    free(outcome->not_table.at);
    *outcome = none;
    return was_one;
}

size_t each_outcome(const char *path, void (*visit)(const struct outcome *outcome)) {
    struct bytes all = read_all(path);
    struct outcome outcome = {"", {NULL, 0, 0}, 0, 0, 0, 0, {NULL, 0, 0}, {NULL, 0, 0}};
    struct line line = {path, 0, NULL};
    size_t count = end_case(&outcome, visit), at, end;
    for (at = 0; at < all.length; at = end + 1) {
        for (end = at; end < all.length && all.at[end] != '\n';) end++;
        if (end == all.length) add_byte(&all, 0);
        all.at[end] = 0;
        line.rest = (char *)all.at + at;
        line.number++;
        if (*line.rest == 0 || *line.rest == '#') continue;
        if (begins(&line, "case")) {
            count += end_case(&outcome, visit);
            if (*line.rest == 0 || strlen(line.rest) >= sizeof outcome.name) wrong(line);
            memcpy(outcome.name, line.rest, strlen(line.rest) + 1);
        } else if (outcome.name[0] == 0) {
            wrong(line);
        } else {
            read_line(line, &outcome);
        }
    }
    count += end_case(&outcome, visit);
    free(all.at);
    return count;
}
