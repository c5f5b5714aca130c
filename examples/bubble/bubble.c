/* Sorts 4, 8, 16, 32 and 64 numbers, and writes the greatest. */
#include "main.h"

enum { MOST = 64 };

unsigned numbers[MOST];

/* It exchanges neighbours until all stand in order. */
void bubble_sort(unsigned *words, unsigned n)
{
    for (unsigned end = n; end > 1; end--)
        for (unsigned i = 1; i < end; i++)
            if (words[i - 1] > words[i]) {
                unsigned word = words[i];
                words[i] = words[i - 1];
                words[i - 1] = word;
            }
}

int main(void)
{
    for (unsigned n = 4; n <= MOST; n *= 2) {
        for (unsigned i = 0; i < n; i++)
            numbers[i] = i * 7919 % 101;
        bubble_sort(numbers, n);
    }
    put_text("the greatest is ");
    put_number(numbers[MOST - 1]);
    put_text("\n");
    return 0;
}
