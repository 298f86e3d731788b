// The body of short.p3l.
#include <inttypes.h>
#include <stdio.h>

int main(void) {
  int64_t x;
  while (scanf("%" SCNd64, &x) == 1) {
    int64_t t = x * 2 + 1;
    int64_t y = t * t - x;
    y = y ^ t;
    printf("%" PRId64 "\n", y);
  }
  return 0;
}
