/* The same in C, over a mutex, a ring and condition variables: one thread starts 1,048,576 operations, 16 under one
   hold of the mutex and with at most 1,024 in flight, each of which completes at once. 1, 2 or 4 workers each take one
   under the mutex, handle it without the mutex by a call that does nothing, and finish it under the mutex, until all
   have ended. Prints the number of operations, and for each number of workers the nanoseconds. */
#include "measures.h"
#include <pthread.h>
#include <sched.h>

enum { OPERATIONS = 1048576, BUNCH = 16, FLIGHT = 1024 };

enum stage { QUEUED, RUNNING, ENDED };

struct operation {
  word number;
  unsigned channel;
  enum stage stage;
};

struct group {
  pthread_mutex_t mutex;
  pthread_cond_t changed, ended;
  struct operation operations[FLIGHT]; /* those in flight, in places that are free[] otherwise */
  unsigned free[FLIGHT], free_count;
  unsigned ring[FLIGHT], front, waiting;
  word accepted;
  int is_shut;
};

static struct group group;

static int has_terminated(const struct group *g) { return g->is_shut && g->free_count == FLIGHT; }

/* Kept out of line, since a handler is a call. */
__attribute__((noinline)) static void handle(const struct operation *done) {
  __asm__ volatile("" : : "r"(done) : "memory");
}

/* Starts as many operations, or fewer where too many are in flight. */
static unsigned start_some(struct group *g, unsigned count) {
  unsigned started = 0;
  pthread_mutex_lock(&g->mutex);
  while (started < count && g->free_count > 0) {
    unsigned at = g->free[--g->free_count];
    g->operations[at] = (struct operation){g->accepted++, 0, QUEUED};
    g->ring[(g->front + g->waiting++) % FLIGHT] = at;
    started++;
  }
  pthread_mutex_unlock(&g->mutex);
  if (started > 0) pthread_cond_signal(&g->changed);
  return started;
}

/* Waits for a completion and takes it; NULL where the group has terminated. */
static struct operation *take(struct group *g) {
  struct operation *done = NULL;
  unsigned more = 0;
  pthread_mutex_lock(&g->mutex);
  while (g->waiting == 0 && !has_terminated(g)) pthread_cond_wait(&g->changed, &g->mutex);
  if (g->waiting > 0) {
    done = &g->operations[g->ring[g->front]];
    g->front = (g->front + 1) % FLIGHT;
    more = --g->waiting;
    done->stage = RUNNING;
  }
  pthread_mutex_unlock(&g->mutex);
  if (more > 0) pthread_cond_signal(&g->changed);
  return done;
}

static void finish(struct group *g, struct operation *done) {
  pthread_mutex_lock(&g->mutex);
  if (done->stage != RUNNING) stop("not running");
  done->stage = ENDED;
  g->free[g->free_count++] = (unsigned)(done - g->operations);
  int terminated = has_terminated(g);
  pthread_mutex_unlock(&g->mutex);
  if (terminated) {
    pthread_cond_broadcast(&g->changed);
    pthread_cond_broadcast(&g->ended);
  }
}

static void *work(void *given) {
  struct group *g = given;
  struct operation *done;
  while ((done = take(g))) {
    handle(done);
    finish(g, done);
  }
  return NULL;
}

static void shut_down(struct group *g) {
  pthread_mutex_lock(&g->mutex);
  g->is_shut = 1;
  pthread_mutex_unlock(&g->mutex);
  pthread_cond_broadcast(&g->changed);
  pthread_mutex_lock(&g->mutex);
  while (!has_terminated(g)) pthread_cond_wait(&g->ended, &g->mutex);
  pthread_mutex_unlock(&g->mutex);
}

static long long handle_all(int workers) {
  pthread_t threads[4];
  group.front = group.waiting = 0;
  group.accepted = 0;
  group.is_shut = 0;
  group.free_count = FLIGHT;
  for (unsigned k = 0; k < FLIGHT; k++) group.free[k] = k;
  long long start = now();
  for (int k = 0; k < workers; k++)
    if (pthread_create(&threads[k], NULL, work, &group)) stop("no thread");
  for (unsigned left = OPERATIONS; left > 0;) {
    unsigned started = start_some(&group, left < BUNCH ? left : BUNCH);
    left -= started;
    if (started == 0) sched_yield();
  }
  shut_down(&group);
  for (int k = 0; k < workers; k++) pthread_join(threads[k], NULL);
  return now() - start;
}

int main(void) {
  static const int counts[] = {1, 2, 4};
  pthread_mutex_init(&group.mutex, NULL);
  pthread_cond_init(&group.changed, NULL);
  pthread_cond_init(&group.ended, NULL);
  printf("calls %d", OPERATIONS);
  for (unsigned k = 0; k < sizeof counts / sizeof *counts; k++)
    printf(" workers_%d %lld", counts[k], handle_all(counts[k]));
  printf("\n");
  return 0;
}
