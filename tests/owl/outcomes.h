/* The files with known outcome: outcomes.txt, which says itself how it is written. */

#ifndef OWL_OUTCOMES_H
#define OWL_OUTCOMES_H

#include "second.h"

/* Bytes that grow. */
struct bytes {
    unsigned char *at;
    size_t length, room;
};

void add_byte(struct bytes *bytes, unsigned char byte);
void add_text(struct bytes *bytes, const char *text);

/* All of a file. Ends the run where it cannot be read. */
struct bytes read_all(const char *path);

struct outcome {
    char name[160];
    struct bytes text;
    size_t room;
    uint64_t number, count, place;
    struct bytes table, not_table; /* not_table is empty where none is named */
};

/* Hands each case of a file to a function, and returns how many there are. Ends the run at a line it does not know. */
size_t each_outcome(const char *path, void (*visit)(const struct outcome *outcome));

#endif
