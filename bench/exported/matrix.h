/* The product of two matrices of SIZE rows, the first one before the second. */
#include <stdint.h>

enum { SIZE = 64, IN = 2 * SIZE * SIZE, OUT = SIZE * SIZE };

static void body(const int64_t *in, int64_t *out)
{
    const int64_t *right = in + SIZE * SIZE;
    for (int i = 0; i < SIZE; i++)
        for (int j = 0; j < SIZE; j++) {
            uint64_t sum = 0;
            for (int k = 0; k < SIZE; k++)
                sum += (uint64_t)in[i * SIZE + k] * (uint64_t)right[k * SIZE + j];
            out[i * SIZE + j] = (int64_t)sum;
        }
}
