/* Standard input and output, and the stream of questions. See stream.h. */

#include "stream.h"

long read(int file, void *bytes, __SIZE_TYPE__ length);
long write(int file, const void *bytes, __SIZE_TYPE__ length);

static u8 in[65536];
static u32 in_at, in_length;

static u8 out[65536];
static u32 out_length;

int get_byte(void)
{
    if (in_at == in_length) {
        long got = read(0, in, sizeof in);
        if (got <= 0) {
            return -1;
        }
        in_at = 0;
        in_length = (u32)got;
    }
    return in[in_at++];
}

/* Reads a little-endian number. Answers 0 if the stream ends before it does. */
static int get_number(u32 bytes, u32 *number)
{
    *number = 0;
    for (u32 i = 0; i < bytes; i++) {
        int byte = get_byte();
        if (byte < 0) {
            return 0;
        }
        *number |= (u32)byte << 8 * i;
    }
    return 1;
}

/* Reads what follows the kind of a question. Answers 0 if the stream is cut. */
static int get_rest(struct question *question)
{
    if (question->kind < KIND_READ || question->kind > KIND_SOLVE) {
        return 0;
    }
    if (!get_number(4, &question->number) || !get_number(2, &question->room)
        || !get_number(2, &question->length) || question->length > MOST_TABLE) {
        return 0;
    }
    if (question->room > MOST_OUTPUT) {
        question->room = MOST_OUTPUT;
    }
    for (u32 i = 0; i < question->length; i++) {
        int byte = get_byte();
        if (byte < 0) {
            return 0;
        }
        question->table[i] = (u8)byte;
    }
    return 1;
}

int get_question(struct question *question)
{
    int kind = get_byte();
    if (kind < 0) {
        return STREAM_ENDS;
    }
    question->kind = (u32)kind;
    return get_rest(question) ? QUESTION : STREAM_CUT;
}

void flush(void)
{
    u32 done = 0;
    while (done < out_length) {
        long put = write(1, out + done, out_length - done);
        if (put <= 0) {
            exit(2);
        }
        done += (u32)put;
    }
    out_length = 0;
}

void put_byte(u32 byte)
{
    if (out_length == sizeof out) {
        flush();
    }
    out[out_length++] = (u8)byte;
}

void put_text(const char *text)
{
    for (; *text != 0; text++) {
        put_byte((u8)*text);
    }
}

void put_number(u64 number)
{
    if (number >= 10) {
        put_number(number / 10);
    }
    put_byte('0' + (u32)(number % 10));
}

void put_hex(const u8 *bytes, u32 length)
{
    static const char digits[] = "0123456789abcdef";
    if (length == 0) {
        put_byte('-');
    }
    for (u32 i = 0; i < length; i++) {
        put_byte((u8)digits[bytes[i] >> 4]);
        put_byte((u8)digits[bytes[i] & 15]);
    }
}

static void put_little_endian(u32 number, u32 bytes)
{
    for (u32 i = 0; i < bytes; i++) {
        put_byte(number >> 8 * i & 255);
    }
}

void put_question(const struct question *question)
{
    put_byte(question->kind);
    put_little_endian(question->number, 4);
    put_little_endian(question->room, 2);
    put_little_endian(question->length, 2);
    for (u32 i = 0; i < question->length; i++) {
        put_byte(question->table[i]);
    }
}

void fail(const char *message)
{
    if (write(2, message, strlen(message)) < 0 || write(2, "\n", 1) < 0) {
        exit(3);
    }
    exit(2);
}

u64 number_of(const char *text)
{
    u64 number = 0;
    if (*text == 0) {
        fail("a number is missing");
    }
    for (; *text != 0; text++) {
        if (*text < '0' || *text > '9') {
            fail("not a decimal number");
        }
        number = number * 10 + (u64)(*text - '0');
    }
    return number;
}
