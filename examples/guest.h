/* What the guests need of Linux on riscv32: raw calls of the kernel. */
#ifndef GUEST_H
#define GUEST_H

enum {
    NR_OPENAT = 56,
    NR_CLOSE = 57,
    NR_READ = 63,
    NR_WRITE = 64,
    NR_WRITEV = 66,
    NR_EXIT_GROUP = 94,
    NR_FUTEX_TIME64 = 422,
};

/* Part of the caller, so that it is no routine of its own in the profile. */
__attribute__((always_inline)) static inline int kernel_call(unsigned number, unsigned first, unsigned second,
                                                             unsigned third, unsigned fourth)
{
    register unsigned a0 __asm__("a0") = first;
    register unsigned a1 __asm__("a1") = second;
    register unsigned a2 __asm__("a2") = third;
    register unsigned a3 __asm__("a3") = fourth;
    register unsigned a7 __asm__("a7") = number;
    __asm__ volatile("ecall" : "+r"(a0) : "r"(a1), "r"(a2), "r"(a3), "r"(a7) : "memory");
    return (int)a0;
}

/* Ends all threads. */
__attribute__((always_inline, noreturn)) static inline void end_process(int status)
{
    kernel_call(NR_EXIT_GROUP, (unsigned)status, 0, 0, 0);
    __builtin_unreachable();
}

#endif
