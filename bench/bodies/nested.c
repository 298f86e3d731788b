// The body of nested.p3l, with every index tested. Numbers without a sign wrap as those of a body do.
#include <inttypes.h>
#include <stdio.h>
#include <stdlib.h>

static uint64_t a[256];

static uint64_t *at(uint64_t i) {
  if (i >= 256) {
    fputs("index out of range\n", stderr);
    exit(7);
  }
  return &a[i];
}

int main(void) {
  uint64_t n;
  while (scanf("%" SCNu64, &n) == 1) {
    uint64_t sum = 0;
    for (uint64_t i = 0; i < 256; i++) {
      *at(i) = i * 7 % 13;
    }
    for (uint64_t k = 0; k < n; k++) {
      for (uint64_t i = 0; i < 256; i++) {
        *at(i) = *at(i) * 3 + (*at((i + k) & 255) ^ i);
        sum += *at(i);
      }
    }
    printf("%" PRId64 "\n", (int64_t)sum);
  }
  return 0;
}
