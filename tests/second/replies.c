/* The replies to a stream of questions. See replies.h. */

#include "replies.h"

#include "stream.h"

/* Numbers with single spaces between them. */
static void put_numbers(const u32 *numbers, u32 length)
{
    for (u32 i = 0; i < length; i++) {
        if (i > 0) {
            put_byte(' ');
        }
        put_number(numbers[i]);
    }
}

static void reply_read(const struct solver *solver, const struct question *question)
{
    struct reading reading = solver->read(question->table, question->length);
    u32 numbers[8] = { reading.number, reading.place, reading.c, reading.r,
                       reading.v, reading.e, reading.m, reading.q };
    put_numbers(numbers, 8);
}

static void reply_line(const struct solver *solver, const struct question *question)
{
    struct part part = solver->line(question->table, question->length, question->number);
    put_hex(question->table + part.start, part.length);
}

static void reply_solve(const struct solver *solver, const struct question *question)
{
    u8 output[MOST_OUTPUT];
    memset(output, FILL, sizeof output);
    struct answer answer = solver->solve(question->table, question->length, question->number,
                                         output, question->room);
    u32 numbers[3] = { answer.number, answer.count, answer.place };
    put_numbers(numbers, 3);
    put_byte(' ');
    put_hex(output, question->room);
}

static void reply_to(const struct solver *solver, const struct question *question)
{
    switch (question->kind) {
    case KIND_READ: reply_read(solver, question); break;
    case KIND_LINE: reply_line(solver, question); break;
    default: reply_solve(solver, question); break;
    }
    put_byte('\n');
}

void reply_to_stream(const struct solver *solver)
{
    static struct question question;
    int got = get_question(&question);
    while (got == QUESTION) {
        reply_to(solver, &question);
        got = get_question(&question);
    }
    if (got == STREAM_CUT) {
        put_text("cut\n");
    }
    flush();
}
