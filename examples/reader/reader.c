/* Counts the lines and the bytes of the files that its arguments name, and of standard input, and writes them. */
#include "../guest.h"

enum { PIECE = 32, READ_ONLY = 0, AT_FDCWD = -100 };

struct counts {
    unsigned lines;
    unsigned bytes;
};

/* A part of writev's list. */
struct part {
    const char *bytes;
    unsigned size;
};

/* How many of the bytes end a line. */
unsigned count_lines(const char *bytes, unsigned size)
{
    unsigned lines = 0;
    for (unsigned i = 0; i < size; i++)
        lines += bytes[i] == '\n';
    return lines;
}

/* Reads to the end, a piece at a time, always into the same buffer. */
struct counts count_file(int file)
{
    char piece[PIECE];
    struct counts counts = {0, 0};
    int size;
    while ((size = kernel_call(NR_READ, (unsigned)file, (unsigned)piece, PIECE, 0)) > 0) {
        counts.lines += count_lines(piece, (unsigned)size);
        counts.bytes += (unsigned)size;
    }
    return counts;
}

int open_file(const char *path)
{
    return kernel_call(NR_OPENAT, (unsigned)AT_FDCWD, (unsigned)path, READ_ONLY, 0);
}

unsigned text_size(const char *text)
{
    unsigned size = 0;
    while (text[size] != 0)
        size++;
    return size;
}

/* The digits of a number, which end before `end`. */
struct part digits_of(unsigned number, char *end)
{
    unsigned size = 0;
    do {
        size++;
        end[-(int)size] = (char)('0' + number % 10);
        number /= 10;
    } while (number > 0);
    return (struct part){end - size, size};
}

/* A line such as `short.txt: 3 lines, 39 bytes`. */
void put_line(const char *name, const struct counts *counts)
{
    char lines[10];
    char bytes[10];
    struct part parts[6] = {
        {name, text_size(name)},
        {": ", 2},
        digits_of(counts->lines, lines + sizeof lines),
        {" lines, ", 8},
        digits_of(counts->bytes, bytes + sizeof bytes),
        {" bytes\n", 7},
    };
    kernel_call(NR_WRITEV, 1, (unsigned)parts, 6, 0);
}

/* The first word of the stack is the number of arguments, and the next are their addresses. */
__attribute__((noreturn)) void count_inputs(char *const *stack)
{
    unsigned arguments = (unsigned)stack[0];
    for (unsigned i = 1; i < arguments; i++) {
        const char *path = stack[1 + i];
        int file = open_file(path);
        if (file < 0)
            end_process(1);
        struct counts counts = count_file(file);
        kernel_call(NR_CLOSE, (unsigned)file, 0, 0, 0);
        put_line(path, &counts);
    }
    struct counts counts = count_file(0);
    put_line("standard input", &counts);
    end_process(0);
}

__attribute__((naked)) void _start(void)
{
    __asm__("mv a0, sp\n\tcall count_inputs");
}
