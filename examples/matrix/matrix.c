/* Sums a matrix of 64 by 64 words by rows, then by columns. Both sums are the same; the ways through memory are not. */
#include "../main.h"

enum { SIDE = 64 };

unsigned matrix[SIDE][SIDE] __attribute__((aligned(4096)));

/* Word by word, in the order of memory. */
unsigned sum_by_rows(void)
{
    unsigned total = 0;
    for (unsigned row = 0; row < SIDE; row++)
        for (unsigned column = 0; column < SIDE; column++)
            total += matrix[row][column];
    return total;
}

/* From row to row, 256 bytes further with each word. */
unsigned sum_by_columns(void)
{
    unsigned total = 0;
    for (unsigned column = 0; column < SIDE; column++)
        for (unsigned row = 0; row < SIDE; row++)
            total += matrix[row][column];
    return total;
}

int main(void)
{
    return sum_by_rows() == sum_by_columns() ? 0 : 1;
}
