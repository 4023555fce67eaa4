/* The atomic operations of one selection alone, at the places that their words have in a table of one selector, where
   some of the indexes that were ever claimed have a key. Prints each load's name and the nanoseconds that a selection
   takes at least. Then those of finding a key and setting its interest, and of finding it and cancelling it, with the
   touch of its index and without: how often each was done, and its name and nanoseconds. */
#include "measures.h"
#include <stdatomic.h>

/* The bits of a gate, a key and a mark, and the interest in reading. */
enum { WOKEN = 1, SHUT = 2, SELECTED = 256, READ = 1 };
enum { CLAIMED = 1, PUBLISHED = 2, CANCELLED = 4, REMOVED = 8, PIN = 16 };

enum { INTERRUPTS = 2, MOST_KEYS = 1000, MOST_CALLS = 18000 };

/* How many indexes there are, how many of them have a key, how far apart those are, and how many selections are
   timed. */
struct load {
  const char *name;
  word indexes, live, every;
  unsigned rounds;
};

static const struct load loads[] = {
    {"few", 64, 64, 1, 20000},
    {"many", 1000, 1000, 1, 2000},
    {"sparse", 262144, 1000, 262, 500},
};

static _Atomic word *words;

/* Where the words of each row begin. */
static word gate, turn, keys_high, key, interest, mark, free_indexes, touched;

/* The indexes that a selection found not free, and the keys that it looked at. */
static word listed[MOST_KEYS];
static struct {
  word index, serial, channel, interest;
} looked[MOST_KEYS];

static void make(const struct load *load) {
  word n = load->indexes;
  gate = 5 + 3 * n;
  turn = gate + 1;
  keys_high = turn + 1;
  key = keys_high + 1;
  interest = key + n;
  mark = interest + n;
  free_indexes = mark + 2 * n;
  touched = free_indexes + (n + 63) / 64;
  words = calloc(touched + (n + 63) / 64, sizeof *words);
  if (!words) stop("no memory");
  words[keys_high] = n;
  for (word i = 0; i < n; i++) {
    words[key + i] = CLAIMED + PUBLISHED + (i << 12);
    words[interest + i] = READ;
    if (i % load->every != 0 || i / load->every >= load->live) {
      words[key + i] |= CANCELLED + REMOVED;
      words[free_indexes + i / 64] |= 1ULL << i % 64;
    }
  }
}

static word list(void) {
  word count = 0, bound = atomic_load(&words[keys_high]);
  for (word j = 0; j < (bound + 63) / 64; j++) {
    word rest = ~atomic_load(&words[free_indexes + j]);
    while (rest) {
      word i = 64 * j + (word)__builtin_ctzll(rest);
      rest &= rest - 1;
      if (i < bound) listed[count++] = i;
    }
  }
  return count;
}

/* Marks each key as ready for these operations, and answers how many marks there were. */
static word mark_all(word count, word told) {
  word marked = 0;
  if (!told) return 0;
  for (word at = 0; at < count; at++) {
    word i = looked[at].index;
    word was = atomic_load(&words[mark + i]);
    if (was & SELECTED) continue;
    if (!atomic_compare_exchange_strong(&words[mark + i], &was, SELECTED + (told & looked[at].interest)))
      stop("a mark changed");
    marked++;
  }
  return marked;
}

static word selection(word told) {
  word none = 0, count;
  if (atomic_load(&words[gate]) & SHUT) stop("the selector is shut");
  if (!atomic_compare_exchange_strong(&words[turn], &none, 1)) stop("another caller selects");
  if (atomic_load(&words[gate]) & SHUT) stop("the selector is shut");
  count = list();
  for (word at = 0; at < count; at++) {
    word i = listed[at], found = atomic_load(&words[key + i]);
    if ((found & (PUBLISHED | CANCELLED | REMOVED)) != PUBLISHED) stop("a key isn't valid");
    looked[at].index = i;
    looked[at].serial = found >> 32;
    looked[at].channel = found >> 12 & 0xfffff;
    looked[at].interest = atomic_load(&words[interest + i]);
  }
  word marked = mark_all(count, told);
  if (atomic_load(&words[gate]) & SHUT) stop("the selector is shut");
  if (atomic_load(&words[INTERRUPTS]) & 1) stop("the caller is interrupted");
  count = list();
  for (word at = 0; at < count; at++)
    if (atomic_load(&words[key + listed[at]]) & CANCELLED) stop("a key is cancelled");
  atomic_fetch_and(&words[gate], ~(word)WOKEN);
  atomic_exchange(&words[turn], 0);
  return marked;
}

/* The nanoseconds that a selection takes at least which is told this of each key. */
static long long selections(const struct load *load, word told) {
  long long least = -1;
  for (unsigned round = 0; round < load->rounds; round++) {
    long long start = now();
    word marked = selection(told);
    long long took = now() - start;
    if (least < 0 || took < least) least = took;
    if (marked != (told ? load->live : 0)) stop("a key isn't marked");
    for (word at = 0; at < load->live; at++) words[mark + at * load->every] = 0;
  }
  return least;
}

/* Finds the key of this index, and pins the index. */
static void find_and_pin(word i) {
  if ((atomic_load(&words[key + i]) & (PUBLISHED | REMOVED)) != PUBLISHED) stop("an index has no key");
  if (atomic_fetch_add(&words[key + i], PIN) & CANCELLED) stop("a key is cancelled");
}

static void touch(word i) { atomic_fetch_or(&words[touched + i / 64], 1ULL << i % 64); }

static void unpin(word i) { atomic_fetch_sub(&words[key + i], PIN); }

static void set_interest(word i, int touches) {
  find_and_pin(i);
  if (touches) touch(i);
  atomic_exchange(&words[interest + i], 0);
  unpin(i);
}

static void cancel(word i, int touches) {
  find_and_pin(i);
  if (touches) touch(i);
  atomic_fetch_or(&words[key + i], CANCELLED);
  unpin(i);
}

/* Prints the nanoseconds of each call on all keys. */
static void time_calls(int touches, const char *more) {
  static const struct load load = {"calls", MOST_CALLS, MOST_CALLS, 1, 1};
  make(&load);
  long long start = now();
  for (word i = 0; i < MOST_CALLS; i++) set_interest(i, touches);
  long long set = now();
  for (word i = 0; i < MOST_CALLS; i++) cancel(i, touches);
  long long cancelled = now();
  printf("calls %d set_interest%s %lld cancel%s %lld\n", MOST_CALLS, more, set - start, more, cancelled - set);
  free((void *)words);
}

int main(void) {
  for (unsigned at = 0; at < sizeof loads / sizeof *loads; at++) {
    make(&loads[at]);
    long long idle = selections(&loads[at], 0);
    long long ready = selections(&loads[at], READ);
    printf("%s idle %lld ready %lld\n", loads[at].name, idle, ready);
    free((void *)words);
  }
  time_calls(1, "");
  time_calls(0, "_untouched");
  return 0;
}
