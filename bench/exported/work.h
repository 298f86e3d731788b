/* A body of TURNS steps of a generator of random numbers, and a pipe of STAGES of them. */
#include <stdint.h>

enum { IN = 1, OUT = 1 };

static int64_t work(int64_t x)
{
    uint64_t y = (uint64_t)x;
    for (int i = 0; i < TURNS; i++) y = y * 6364136223846793005u + 1442695040888963407u;
    return (int64_t)y;
}

static void body(const int64_t *in, int64_t *out)
{
    out[0] = in[0];
    for (int stage = 0; stage < STAGES; stage++) out[0] = work(out[0]);
}
