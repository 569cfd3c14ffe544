/* clock: prints the time of the machine's steady clock in microseconds. */

#include "../second/stream.h"

struct timespec {
    long seconds, nanoseconds;
};

int clock_gettime(int clock, struct timespec *time);

int main(void)
{
    struct timespec time;
    if (clock_gettime(1, &time) != 0) {
        fail("clock: there is no steady clock");
    }
    put_number((u64)time.seconds * 1000000 + (u64)time.nanoseconds / 1000);
    put_text("\n");
    flush();
    return 0;
}
