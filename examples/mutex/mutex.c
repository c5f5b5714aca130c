/* Two threads add to the words of one array, each time behind a mutex on futex. The first then writes their sum. */
#include "../guest.h"

enum { WORDS = 8, ROUNDS = 16, STACK_WORDS = 256 };

enum { FUTEX_WAIT = 0, FUTEX_WAIT_PRIVATE = 128, FUTEX_WAKE_PRIVATE = 129 };

/* FREE; TAKEN, and no one waits; or AWAITED: taken, and a thread may wait. */
enum { FREE = 0, TAKEN = 1, AWAITED = 2 };

unsigned shared[WORDS];
unsigned mutex;

/* The second thread's number, which the kernel sets to 0 at its end. */
unsigned second;
_Alignas(16) unsigned second_stack[STACK_WORDS];

void lock(unsigned *mutex)
{
    unsigned seen = FREE;
    if (__atomic_compare_exchange_n(mutex, &seen, TAKEN, 0, __ATOMIC_ACQUIRE, __ATOMIC_RELAXED))
        return;
    while (__atomic_exchange_n(mutex, AWAITED, __ATOMIC_ACQUIRE) != FREE)
        kernel_call(NR_FUTEX_TIME64, (unsigned)mutex, FUTEX_WAIT_PRIVATE, AWAITED, 0);
}

void unlock(unsigned *mutex)
{
    if (__atomic_exchange_n(mutex, FREE, __ATOMIC_RELEASE) == AWAITED)
        kernel_call(NR_FUTEX_TIME64, (unsigned)mutex, FUTEX_WAKE_PRIVATE, 1, 0);
}

/* Only right where no other thread does it at the same time. */
void add_to_each(unsigned *words, unsigned amount)
{
    for (unsigned i = 0; i < WORDS; i++)
        words[i] += amount;
}

void work(unsigned amount)
{
    for (unsigned round = 0; round < ROUNDS; round++) {
        lock(&mutex);
        add_to_each(shared, amount);
        unlock(&mutex);
    }
}

/* The second thread begins behind ecall, in a routine that has its name by the symbol there. It has its caller's
   registers but for a0, which is 0, and the stack. The flags are VM, FS, FILES, SIGHAND, THREAD, SYSVSEM,
   PARENT_SETTID and CHILD_CLEARTID. */
void start_second(unsigned *stack, unsigned *number);
__asm__("    .text\n"
        "    .globl start_second\n"
        "    .type start_second, @function\n"
        "start_second:\n"
        "    mv a2, a1\n"
        "    mv a4, a1\n"
        "    mv a1, a0\n"
        "    li a0, 0x350f00\n"
        "    li a3, 0\n"
        "    li a7, 220\n"
        "    ecall\n"
        "    .globl second_thread\n"
        "    .type second_thread, @function\n"
        "second_thread:\n"
        "    beqz a0, 1f\n"
        "    ret\n"
        "1:  li a0, 100\n"
        "    call work\n"
        "    li a0, 0\n"
        "    li a7, 93\n"
        "    ecall\n");

/* Waits until the kernel has set the number to 0. */
void wait_for_end(unsigned *number)
{
    unsigned seen;
    while ((seen = __atomic_load_n(number, __ATOMIC_ACQUIRE)) != 0)
        kernel_call(NR_FUTEX_TIME64, (unsigned)number, FUTEX_WAIT, seen, 0);
}

unsigned sum(const unsigned *words)
{
    unsigned total = 0;
    for (unsigned i = 0; i < WORDS; i++)
        total += words[i];
    return total;
}

/* The number and a newline on standard output. */
void put_number(unsigned number)
{
    char text[11];
    unsigned first = sizeof text;
    text[--first] = '\n';
    do {
        text[--first] = (char)('0' + number % 10);
        number /= 10;
    } while (number > 0);
    kernel_call(NR_WRITE, 1, (unsigned)(text + first), sizeof text - first, 0);
}

void _start(void)
{
    start_second(second_stack + STACK_WORDS, &second);
    work(1);
    wait_for_end(&second);
    put_number(sum(shared));
    end_process(0);
}
