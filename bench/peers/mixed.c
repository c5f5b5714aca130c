/* Sorts, looks numbers up and multiplies matrices, in functions that call one another: for comparing what runs it. */
#ifdef NATIVE
#include <stdio.h>
static void put_number(unsigned number) { printf("%u", number); }
static void put_text(const char *text) { printf("%s", text); }
#else
#include "main.h"
#endif

#ifndef ROUNDS
#define ROUNDS 10
#endif

enum { MOST = 256, SIDE = 24, PLACES = 1024 };

static unsigned numbers[MOST], keys[PLACES], left[SIDE][SIDE], right[SIDE][SIDE], product[SIDE][SIDE];
static unsigned seed = 1;

static unsigned next_number(void)
{
    seed = seed * 1664525 + 1013904223;
    return seed >> 8;
}

static void sort(unsigned *words, unsigned n)
{
    for (unsigned i = 1; i < n; i++) {
        unsigned word = words[i], at = i;
        for (; at > 0 && words[at - 1] > word; at--)
            words[at] = words[at - 1];
        words[at] = word;
    }
}

static unsigned place_of(unsigned key)
{
    unsigned at = key * 2654435769u >> 22;
    while (keys[at] != 0 && keys[at] != key)
        at = (at + 1) % PLACES;
    return at;
}

static unsigned look_up(unsigned count)
{
    unsigned found = 0;
    for (unsigned i = 0; i < count; i++) {
        unsigned key = next_number() % 700 + 1, at = place_of(key);
        found += keys[at] == key;
        keys[at] = key;
    }
    return found;
}

static unsigned cell(unsigned i, unsigned j)
{
    unsigned sum = 0;
    for (unsigned k = 0; k < SIDE; k++)
        sum += left[i][k] * right[k][j];
    return sum;
}

static void multiply(void)
{
    for (unsigned i = 0; i < SIDE; i++)
        for (unsigned j = 0; j < SIDE; j++)
            product[i][j] = cell(i, j);
}

int main(void)
{
    unsigned sum = 0;
    for (unsigned round = 0; round < ROUNDS; round++) {
        for (unsigned i = 0; i < MOST; i++)
            numbers[i] = next_number();
        sort(numbers, MOST);
        sum += numbers[MOST / 2] + look_up(2000);
        for (unsigned i = 0; i < SIDE * SIDE; i++) {
            left[0][i] = next_number();
            right[0][i] = next_number();
        }
        multiply();
        sum += product[1][2];
    }
    put_number(sum);
    put_text("\n");
    return 0;
}
