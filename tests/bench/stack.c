/* stack [MOST]: solves each solve question of a stream (../second/stream.h) by
   makrothel_solve, on a stack of its own that was painted, and says how deep the
   deepest call wrote.

   The depth of a call is the distance from the caller's stack pointer down to the
   lowest byte that is no longer as painted. In it are the return address, and the
   frames of makrothel_solve and of all that it calls, memcpy and memset of the C
   library included. Nothing is subtracted, and nothing of this program is in it,
   as the six arguments go in registers. Not in it is what a function sets aside
   below the lowest byte that it writes.

   A question is asked three times: once not measured, as the loader finds a
   function of the C library when it is first called, on the stack of its caller;
   and on two paints, as a byte may be written as it is painted.

   Ends with status 1 if a call used more than MOST bytes, which are half of what
   is painted where no word says, so that the other half shows it; if no call wrote
   to the stack; or if an answer is not the second solver's. */

#include "../second/second.h"
#include "../second/stream.h"
#include "makrothel.h"

static u8 stack[1 << 17] __attribute__((aligned(16)));
static u8 *const top = stack + sizeof stack;

/* makrothel_solve with its stack pointer at `stack_top`, which is a multiple of
   16: the seventh argument lies on the caller's own stack, above the return
   address. */
u32 solve_on(const u8 *table, __SIZE_TYPE__ length, u32 budget, u8 *output, __SIZE_TYPE__ room,
             u64 *numbers, u8 *stack_top);
__asm__(".text\n"
        ".globl solve_on\n"
        "solve_on:\n"
        "    pushq %rbx\n"
        "    movq %rsp, %rbx\n"
        "    movq 16(%rsp), %rsp\n"
        "    callq makrothel_solve\n"
        "    movq %rbx, %rsp\n"
        "    popq %rbx\n"
        "    retq\n");

static _Noreturn void stop(const char *message)
{
    put_text("stack: ");
    put_text(message);
    put_byte('\n');
    flush();
    exit(1);
}

/* What the second solver answers to the question at hand, and the output afterwards. */
static struct answer expected;
static u8 expected_output[MOST_OUTPUT];

static void expect(const struct question *question)
{
    memset(expected_output, FILL, sizeof expected_output);
    expected = second_solve(question->table, question->length, question->number, expected_output,
                            question->room);
}

/* Stops unless the answer is the second solver's, and the output too. */
static void hold(u32 number, const u64 *numbers, const u8 *output)
{
    if (number != expected.number || numbers[0] != expected.count || numbers[1] != expected.place
        || memcmp(output, expected_output, sizeof expected_output) != 0) {
        stop("an answer differs from the second solver's");
    }
}

static void solve(const struct question *question)
{
    static u8 output[MOST_OUTPUT];
    static u64 numbers[2];
    memset(output, FILL, sizeof output);
    u32 number = solve_on(question->table, question->length, question->number, output, question->room,
                          numbers, top);
    hold(number, numbers, output);
}

/* The depth of one call, on this paint. */
static u32 depth_on(const struct question *question, u8 paint)
{
    const u8 *lowest = stack;
    memset(stack, paint, sizeof stack);
    solve(question);
    while (lowest < top && *lowest == paint) {
        lowest++;
    }
    return (u32)(top - lowest);
}

static u32 depth_of(const struct question *question)
{
    expect(question);
    solve(question);
    u32 one = depth_on(question, 0x5A);
    u32 other = depth_on(question, 0xA5);
    return one > other ? one : other;
}

int main(int words, char **word)
{
    static struct question question;
    u64 most = words == 2 ? number_of(word[1]) : sizeof stack / 2;
    u32 deepest = 0;
    int got = get_question(&question);
    if (words > 2 || most > sizeof stack / 2) {
        fail("usage: stack [MOST], at most 65536");
    }
    for (; got == QUESTION; got = get_question(&question)) {
        u32 depth = question.kind == KIND_SOLVE ? depth_of(&question) : 0;
        deepest = depth > deepest ? depth : deepest;
    }
    if (got == STREAM_CUT) {
        stop("the stream is cut");
    }
    if (deepest == 0) {
        stop("no call wrote to what was painted");
    }
    if (deepest > most) {
        stop("a call used more than it may");
    }
    put_text("stack: makrothel_solve uses ");
    put_number(deepest);
    put_text(" bytes\n");
    flush();
    return 0;
}
