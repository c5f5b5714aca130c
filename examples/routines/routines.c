/* Fills, sums, sorts and searches an array of n words, for n = 4, 8, 16 and 32. */
#include "../guest.h"

enum { LARGEST = 32 };

unsigned numbers[LARGEST];

/* n, n - 1, and so on to 1. It only writes. */
void fill_falling(unsigned *words, unsigned n)
{
    for (unsigned i = 0; i < n; i++)
        words[i] = n - i;
}

/* It reads each word once. */
unsigned sum(const unsigned *words, unsigned n)
{
    unsigned total = 0;
    for (unsigned i = 0; i < n; i++)
        total += words[i];
    return total;
}

/* It moves each word past the greater ones before it. */
void insertion_sort(unsigned *words, unsigned n)
{
    for (unsigned i = 1; i < n; i++) {
        unsigned word = words[i];
        unsigned place = i;
        for (; place > 0 && words[place - 1] > word; place--)
            words[place] = words[place - 1];
        words[place] = word;
    }
}

/* How many of the sorted words are less, by halving. */
unsigned count_less(const unsigned *words, unsigned n, unsigned than)
{
    unsigned first = 0;
    while (first < n) {
        unsigned middle = (first + n) / 2;
        if (words[middle] < than)
            first = middle + 1;
        else
            n = middle;
    }
    return first;
}

/* Whether all is as it should be. The second sort finds the words in order. */
int measure(unsigned *words, unsigned n)
{
    fill_falling(words, n);
    unsigned total = sum(words, n);
    insertion_sort(words, n);
    insertion_sort(words, n);
    return total == n * (n + 1) / 2 && count_less(words, n, 1) == 0;
}

void _start(void)
{
    int good = 1;
    for (unsigned n = 4; n <= LARGEST; n *= 2)
        good &= measure(numbers, n);
    end_process(good ? 0 : 1);
}
