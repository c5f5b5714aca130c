/* Blurs an image: each point becomes the average of nine in its row, and then of nine in its column. Built with -DAPART=1
 * rows and columns don't share a routine; with -DSTRIPS=1 the columns are done sixteen at a time. */
#include <unistd.h>

#ifndef APART
#define APART 0
#endif
#ifndef STRIPS
#define STRIPS 0
#endif
#if APART
#define HELPER __attribute__((always_inline)) static inline
#else
#define HELPER static
#endif

enum { SIDE = 128, REACH = 4, WIDTH = 2 * REACH + 1, STRIP = 16 };

static unsigned image[SIDE][SIDE] __attribute__((aligned(4096)));
static unsigned blurred[SIDE][SIDE] __attribute__((aligned(4096)));

/* Averages along a line of points that are so many words apart. The sum moves on by a point that comes and one that goes. */
HELPER void blur_line(unsigned *to, const unsigned *from, unsigned apart)
{
    unsigned sum = 0;
    for (unsigned i = 0; i < WIDTH - 1; i++)
        sum += from[i * apart];
    for (unsigned i = REACH; i < SIDE - REACH; i++) {
        sum += from[(i + REACH) * apart];
        to[i * apart] = sum / WIDTH;
        sum -= from[(i - REACH) * apart];
    }
}

static void blur_rows(void)
{
    for (unsigned row = 0; row < SIDE; row++)
        blur_line(blurred[row], image[row], 1);
}

static void blur_columns(void)
{
    for (unsigned column = 0; column < SIDE; column++)
        blur_line(&image[0][column], &blurred[0][column], SIDE);
}

/* The same, in strips as wide as a line of the cache: one sum for each column of the strip. */
static void blur_strips(void)
{
    for (unsigned left = 0; left < SIDE; left += STRIP) {
        unsigned sums[STRIP] = { 0 };
        for (unsigned row = 0; row < WIDTH - 1; row++)
            for (unsigned column = 0; column < STRIP; column++)
                sums[column] += blurred[row][left + column];
        for (unsigned row = REACH; row < SIDE - REACH; row++)
            for (unsigned column = 0; column < STRIP; column++) {
                sums[column] += blurred[row + REACH][left + column];
                image[row][left + column] = sums[column] / WIDTH;
                sums[column] -= blurred[row - REACH][left + column];
            }
    }
}

static void draw(void)
{
    for (unsigned row = 0; row < SIDE; row++)
        for (unsigned column = 0; column < SIDE; column++)
            image[row][column] = (row ^ column) % 32 * 8;
}

static void put_number(unsigned number)
{
    char digits[12], *place = digits + sizeof digits;
    *--place = '\n';
    do
        *--place = (char)('0' + number % 10);
    while (number /= 10);
    write(1, place, (size_t)(digits + sizeof digits - place));
}

int main(void)
{
    unsigned sum = 0;
    draw();
    blur_rows();
    if (STRIPS)
        blur_strips();
    else
        blur_columns();
    for (unsigned i = 0; i < SIDE; i++)
        sum += image[i][i] * (i + 1);
    put_number(sum);
    return 0;
}
