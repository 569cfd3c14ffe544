/* Asks Makrothel, through its interface for C, about the worked example, about a table with a role row, about a table
   with 56 atoms and 24 variables, and about tables that are refused. */

#include "makrothel.h"

/* Declared here because the kit has no headers of C. */
int printf(const char *format, ...);

/* One constant, one role, two variables, one restriction, two lines: v0 below some r0 v1, and v1 below c0. */
static const uint8_t worked[] = {0x56, 0x4F, 0x43, 0x01, 0x00, 0x01, 0x01, 0x02, 0x01,
                                 0x02, 0x00, 0x61, 0x01, 0x60, 0x40, 0x01, 0x61, 0x20};

/* The same, but the last code names a constant that is not declared. */
static const uint8_t undeclared[] = {0x56, 0x4F, 0x43, 0x01, 0x00, 0x01, 0x01, 0x02, 0x01,
                                     0x02, 0x00, 0x61, 0x01, 0x60, 0x40, 0x01, 0x61, 0x21};

/* Version 2: one constant, two roles, one variable, two restrictions, one line: v0 below some r1 c0, where the role row
   says that r0 is narrower than r1. */
static const uint8_t roles[] = {0x56, 0x4F, 0x43, 0x02, 0x00, 0x01, 0x02, 0x01, 0x02, 0x01, 0x01,
                                0x00, 0x01, 0x00, 0x20, 0x01, 0x20, 0x01, 0x60, 0x41};

/* 32 constants, one role, 24 variables, 24 restrictions on top, one line: v0 below c5. */
static const uint8_t wide[61] = {0x56, 0x4F, 0x43, 0x01, 0x00, 0x20, 0x01, 0x18, 0x18, 0x01, [58] = 0x01, 0x60, 0x25};

/* A constant more than there may be, and then each count is over its bound. */
static const uint8_t over[] = {0x56, 0x4F, 0x43, 0x01, 0x00, 0x21, 0x11, 0x19, 0x21, 0x41};

static void print_bytes(const uint8_t *bytes, uint64_t length)
{
    for (uint64_t i = 0; i < length; i++) printf(" %02x", bytes[i]);
}

static void read_table(const uint8_t *table, size_t length)
{
    uint64_t numbers[7];
    uint32_t number = makrothel_read(table, length, numbers);
    printf("read: number %u, place %llu, c %llu, r %llu, v %llu, e %llu, m %llu, q %llu\n", number,
           (unsigned long long)numbers[0], (unsigned long long)numbers[1], (unsigned long long)numbers[2],
           (unsigned long long)numbers[3], (unsigned long long)numbers[4], (unsigned long long)numbers[5],
           (unsigned long long)numbers[6]);
}

static void show_line(const uint8_t *table, size_t length, uint32_t n)
{
    uint64_t span[2];
    uint32_t found = makrothel_line(table, length, n, span);
    printf("line %u: found %u, start %llu, length %llu:", n, found, (unsigned long long)span[0],
           (unsigned long long)span[1]);
    print_bytes(table + span[0], span[1]);
    printf("\n");
}

/* Solves with an output of so many bytes, each AA before the call; with their four neighbours they are printed. */
static void solve_table(const uint8_t *table, size_t length, uint32_t budget, size_t room)
{
    uint8_t output[196];
    uint64_t numbers[2];
    for (size_t i = 0; i < sizeof output; i++) output[i] = 0xAA;
    uint32_t number = makrothel_solve(table, length, budget, output, room, numbers);
    printf("solve, budget %u, room %u: number %u, count %llu, place %llu, output", budget, (unsigned)room, number,
           (unsigned long long)numbers[0], (unsigned long long)numbers[1]);
    print_bytes(output, room + 4);
    printf("\n");
}

int main(void)
{
    printf("the worked example\n");
    read_table(worked, sizeof worked);
    show_line(worked, sizeof worked, 0);
    show_line(worked, sizeof worked, 1);
    show_line(worked, sizeof worked, 2);
    solve_table(worked, sizeof worked, 1000000, 18);
    solve_table(worked, sizeof worked, 13, 18);
    solve_table(worked, sizeof worked, 1000000, 15);
    solve_table(worked, sizeof worked, 1000000, 8);

    printf("a role row\n");
    read_table(roles, sizeof roles);
    show_line(roles, sizeof roles, 0);
    show_line(roles, sizeof roles, 1);
    solve_table(roles, sizeof roles, 4, 8);
    solve_table(roles, sizeof roles, 3, 8);

    printf("56 atoms and 24 variables\n");
    read_table(wide, sizeof wide);
    show_line(wide, sizeof wide, 0);
    solve_table(wide, sizeof wide, 57, 192);
    solve_table(wide, sizeof wide, 57, 191);
    solve_table(wide, sizeof wide, 56, 192);

    printf("no count of role rows\n");
    read_table(roles, 10);
    show_line(roles, 10, 0);
    solve_table(roles, 10, 4, 8);

    printf("counts over their bounds\n");
    read_table(over, sizeof over);
    show_line(over, sizeof over, 0);
    solve_table(over, sizeof over, 4, 8);

    printf("a constant that is not declared\n");
    read_table(undeclared, sizeof undeclared);
    show_line(undeclared, sizeof undeclared, 0);
    solve_table(undeclared, sizeof undeclared, 1000000, 16);

    printf("no bytes\n");
    read_table(worked, 0);
    show_line(worked, 0, 0);
    solve_table(worked, 0, 1000000, 0);
    return 0;
}
