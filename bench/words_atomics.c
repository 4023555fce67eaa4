/* The atomic operations of three kinds of step alone, ten million of each, at the places that their
   words have in a table of one selector and one key. Prints how many there were, and each kind's name and
   nanoseconds. */
#include "measures.h"
#include <stdatomic.h>

enum { STEPS = 10000000, WORDS = 14, GATE = 8, INTEREST = 12 };

int main(void) {
  _Atomic word *words = calloc(WORDS, sizeof *words);
  word found = 0;
  if (!words) stop("no memory");
  long long start = now();
  for (unsigned turn = 0; turn < STEPS; turn++) found += atomic_fetch_or(&words[GATE], 1) & 1;
  long long woken = now();
  for (unsigned turn = 0; turn < STEPS; turn++) found += atomic_exchange(&words[INTEREST], turn % 256);
  long long swapped = now();
  for (unsigned turn = 0; turn < STEPS; turn++) found += atomic_load(&words[GATE]) & 1;
  long long looked = now();
  fprintf(stderr, "%llu\n", found);
  printf("calls %d wake %lld swap_interest %lld look_gate %lld\n", STEPS, woken - start, swapped - woken, looked - swapped);
  return 0;
}
