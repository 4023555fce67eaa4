/* What the benchmarks in C share: the clock, and an end with a message. */
#include <stdio.h>
#include <stdlib.h>
#include <time.h>

typedef unsigned long long word;

static inline long long now(void) {
  struct timespec t;
  clock_gettime(CLOCK_MONOTONIC, &t);
  return t.tv_sec * 1000000000LL + t.tv_nsec;
}

static inline void stop(const char *why) {
  fprintf(stderr, "%s\n", why);
  exit(1);
}
