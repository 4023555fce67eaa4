/* The same bytes through a pipe of the system, which holds 65,536 as well: 256 mebibytes from one thread to another in
   pieces of 64, 4,096 and 65,536 bytes. Prints `system_` with the length of a piece, and the nanoseconds. */
#include "measures.h"
#include <pthread.h>
#include <string.h>
#include <unistd.h>

enum { TOTAL = 268435456, LONGEST = 65536 };

struct writer {
  int end;
  size_t length;
};

/* Writes all pieces, and closes the end. */
static void *write_all(void *given) {
  static char piece[LONGEST];
  const struct writer *writer = given;
  memset(piece, 7, sizeof piece);
  for (size_t pieces = TOTAL / writer->length; pieces > 0; pieces--) {
    for (size_t done = 0; done < writer->length;) {
      ssize_t taken = write(writer->end, piece + done, writer->length - done);
      if (taken <= 0) stop("a write failed");
      done += (size_t)taken;
    }
  }
  close(writer->end);
  return NULL;
}

/* The nanoseconds that all bytes take in pieces of this length. */
static long long carry(size_t length) {
  static char into[LONGEST];
  int ends[2];
  size_t count = 0;
  ssize_t given;
  pthread_t thread;
  if (pipe(ends)) stop("no pipe");
  struct writer writer = {ends[1], length};
  long long start = now();
  if (pthread_create(&thread, NULL, write_all, &writer)) stop("no thread");
  while ((given = read(ends[0], into, length)) > 0) count += (size_t)given;
  pthread_join(thread, NULL);
  long long took = now() - start;
  close(ends[0]);
  if (count != TOTAL) stop("bytes are missing");
  return took;
}

int main(void) {
  static const size_t lengths[] = {64, 4096, 65536};
  for (unsigned at = 0; at < sizeof lengths / sizeof *lengths; at++)
    printf("system_%zu %lld\n", lengths[at], carry(lengths[at]));
  return 0;
}
