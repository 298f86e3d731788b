/* A row of the Mandelbrot set: the turns of each of its points. */
#include <stdint.h>

enum { IN = 1, OUT = 256, MOST_TURNS = 1000 };

static int64_t turns_of(int64_t x, int64_t y)
{
    int64_t a = 0, b = 0, turns = 0;
    while (turns < MOST_TURNS && a * a + b * b < 1073741824) {
        int64_t next = ((a * a - b * b) >> 14) + x;
        b = ((2 * a * b) >> 14) + y;
        a = next;
        turns++;
    }
    return turns;
}

static void body(const int64_t *in, int64_t *out)
{
    for (int64_t k = 0; k < OUT; k++)
        out[k] = turns_of((k - 192) * 256, (in[0] - 256) * 128);
}
