/* For a guest of one file that has a main: where it begins and ends, and a few functions over the raw calls. */
#ifndef MAIN_H
#define MAIN_H

#include "guest.h"

enum { STANDARD_INPUT = 0, STANDARD_OUTPUT = 1, READ_ONLY = 0, AT_FDCWD = -100 };

/* Linux begins here: the number of arguments is on the stack, and then their addresses. */
__attribute__((naked)) void _start(void)
{
    __asm__("lw a0, 0(sp)\n\taddi a1, sp, 4\n\tcall main\n\tcall end_with");
}

__attribute__((noreturn, used)) static void end_with(int status)
{
    end_process(status);
}

/* The number of the file, which aprof loaded under this very name; below 0 where there is none. */
__attribute__((unused)) static int open_file(const char *path)
{
    return kernel_call(NR_OPENAT, (unsigned)AT_FDCWD, (unsigned)path, READ_ONLY, 0);
}

/* How many bytes it read, at most `size`; 0 at the end, below 0 where it can't read. */
__attribute__((unused)) static int read_file(int file, void *bytes, unsigned size)
{
    return kernel_call(NR_READ, (unsigned)file, (unsigned)bytes, size, 0);
}

__attribute__((unused)) static void put_text(const char *text)
{
    unsigned size = 0;
    while (text[size] != 0)
        size++;
    kernel_call(NR_WRITE, STANDARD_OUTPUT, (unsigned)text, size, 0);
}

__attribute__((unused)) static void put_number(unsigned number)
{
    char digits[11];
    unsigned place = sizeof digits - 1;
    digits[place] = 0;
    do {
        digits[--place] = (char)('0' + number % 10);
        number /= 10;
    } while (number > 0);
    put_text(digits + place);
}

/* The compiler calls these two by itself. */
void *memcpy(void *to, const void *from, unsigned size)
{
    for (unsigned i = 0; i < size; i++)
        ((char *)to)[i] = ((const char *)from)[i];
    return to;
}

void *memset(void *to, int byte, unsigned size)
{
    for (unsigned i = 0; i < size; i++)
        ((char *)to)[i] = (char)byte;
    return to;
}

#endif
