/* Sleeps, and waits at a futex with a limit, in rounds that grow; then writes how many milliseconds went by and how many waits
   ended by their limit. */
#include "../guest.h"

enum { NR_CLOCK_GETTIME64 = 403, NR_CLOCK_NANOSLEEP_TIME64 = 407 };
enum { CLOCK_MONOTONIC = 1, FUTEX_WAIT_PRIVATE = 128, ETIMEDOUT = 110 };
enum { ROUNDS = 4, MILLISECOND = 1000000 };

struct time64 {
    long long seconds;
    int nanoseconds;
    int padding;
};

/* No one rings it. */
unsigned bell;

struct time64 milliseconds(unsigned count)
{
    struct time64 time = {count / 1000, (int)(count % 1000 * MILLISECOND), 0};
    return time;
}

void nap(unsigned count)
{
    struct time64 time = milliseconds(count);
    kernel_call(NR_CLOCK_NANOSLEEP_TIME64, CLOCK_MONOTONIC, 0, (unsigned)&time, 0);
}

/* Whether the wait ended by its limit. */
unsigned wait_for_bell(unsigned count)
{
    struct time64 limit = milliseconds(count);
    return kernel_call(NR_FUTEX_TIME64, (unsigned)&bell, FUTEX_WAIT_PRIVATE, 0, (unsigned)&limit) == -ETIMEDOUT;
}

unsigned now(void)
{
    struct time64 time;
    kernel_call(NR_CLOCK_GETTIME64, CLOCK_MONOTONIC, (unsigned)&time, 0, 0);
    return (unsigned)time.seconds * 1000 + (unsigned)time.nanoseconds / MILLISECOND;
}

char *put_number(char *to, unsigned number)
{
    if (number >= 10)
        to = put_number(to, number / 10);
    *to = (char)('0' + number % 10);
    return to + 1;
}

void _start(void)
{
    unsigned begin = now();
    unsigned ended = 0;
    for (unsigned round = 1; round <= ROUNDS; round++) {
        nap(100 * round);
        ended += wait_for_bell(250 * round);
    }
    char line[32];
    char *to = put_number(line, now() - begin);
    *to++ = ' ';
    to = put_number(to, ended);
    *to++ = '\n';
    kernel_call(NR_WRITE, 1, (unsigned)line, (unsigned)(to - line), 0);
    end_process(0);
}
