/* The copies of a direction of nio_relay alone: a gibibyte from a source into a buffer, and from
   there into a sink, in parts of 16,384 bytes. Prints `relay` and the nanoseconds. */
#include "measures.h"
#include <string.h>

enum { PART = 16384, TURNS = 65536 };

int main(void) {
  char *source = malloc(PART), *buffer = malloc(PART), *sink = malloc(PART);
  if (!source || !buffer || !sink) stop("no memory");
  memset(source, 7, PART);
  long long start = now();
  for (int turn = 0; turn < TURNS; turn++) {
    memcpy(buffer, source, PART);
    __asm__ volatile("" : : "r"(buffer) : "memory");
    memcpy(sink, buffer, PART);
    __asm__ volatile("" : : "r"(sink) : "memory");
  }
  long long took = now() - start;
  if (memcmp(sink, source, PART)) stop("other bytes came out");
  printf("relay %lld\n", took);
  return 0;
}
