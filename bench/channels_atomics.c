/* The atomic operations of calls on channels alone, at the places that their words have in a table of one selector: of
   four calls with 64 channels and 64 keys, where each index had keys before; then of a channel that comes back, with
   1,024 of each. Prints how often each was done, and its name and nanoseconds. */
#include "measures.h"
#include <stdatomic.h>

enum { ROUNDS = 20000, CHANNELS = 64, TIMES = 1000000, MANY = 1024, READ = 1 };

enum { INTERRUPTS = 2, CHANNEL = 5 };

/* The bits of a channel, a gate and a key; the kind of the channels. */
enum { MADE = 1, CLOSED = 16, NON_BLOCKING = 32, WOKEN = 1, SHUT = 2 };
enum { CLAIMED = 1, PUBLISHED = 2, CANCELLED = 4, REMOVED = 8, PIN = 16 };
enum { SOURCE = 2 * 2 };

static _Atomic word *words;

/* Where the words of each other row begin. */
static word hold, enrolled, gate, turn, keys_high, key, interest, mark, note, free_indexes, touched;

/* A table of so many channels, and as many keys. */
static void make(word n) {
  hold = CHANNEL + n;
  enrolled = hold + n;
  gate = enrolled + n;
  turn = gate + 1;
  keys_high = turn + 1;
  key = keys_high + 1;
  interest = key + n;
  mark = interest + n;
  note = mark + n;
  free_indexes = note + n;
  touched = free_indexes + (n + 63) / 64;
  words = calloc(touched + (n + 63) / 64, sizeof *words);
  if (!words) stop("no memory");
}

/* Whether a channel that was found so is open, and has this serial. */
static int is_open(word found, word serial) {
  return found >> 32 == serial && (found & (MADE | CLOSED)) == MADE;
}

/* The index of the enrolled key, whose word isn't 0. */
static word index_of(word found) { return (found & 0xffffffff) - 1; }

/* Whether the key that is enrolled is in the key set. */
static int in_key_set(word stage, word found) {
  return stage >> 32 == found >> 32 && (stage & (PUBLISHED | REMOVED)) == PUBLISHED;
}

static void take_hold(word c) {
  word none = 0;
  if (!atomic_compare_exchange_strong(&words[hold + c], &none, 1)) stop("a channel is held");
}

static void release(word c) { atomic_exchange(&words[hold + c], 0); }

static void touch(word i) { atomic_fetch_or(&words[touched + i / 64], 1ULL << i % 64); }

static void claim_again(word c, word i, word *serial) {
  word old = atomic_load(&words[key + i]) & ~0xff0ULL;
  *serial = (old >> 32) + 1;
  word new = CLAIMED + PIN + (c << 12) + (*serial << 32);
  if (!atomic_compare_exchange_strong(&words[key + i], &old, new)) stop("an index is pinned");
}

static word make_key(word c, word channel_serial) {
  word serial;
  word bound = atomic_load(&words[keys_high]);
  word i = (word)__builtin_ctzll(atomic_load(&words[free_indexes]));
  if (i >= bound) stop("no index is free");
  if (!(atomic_fetch_and(&words[free_indexes], ~(1ULL << i)) >> i & 1)) stop("an index isn't free");
  claim_again(c, i, &serial);
  atomic_exchange(&words[mark + i], 0);
  if (atomic_load(&words[gate]) & SHUT) stop("the selector is shut");
  touch(i);
  atomic_exchange(&words[interest + i], READ);
  atomic_exchange(&words[note + i], 0);
  atomic_exchange(&words[enrolled + c], i + 1 + (serial << 32));
  if (atomic_fetch_or(&words[key + i], PUBLISHED) & REMOVED) stop("a key is removed");
  if (!is_open(atomic_load(&words[CHANNEL + c]), channel_serial)) stop("a channel is closed");
  atomic_fetch_sub(&words[key + i], PIN);
  return i;
}

/* Answers the index of the key. */
static word register_channel(word c, word serial) {
  if (!is_open(atomic_load(&words[CHANNEL + c]), serial)) stop("a channel is closed");
  take_hold(c);
  word found = atomic_load(&words[CHANNEL + c]);
  if (!is_open(found, serial) || !(found & NON_BLOCKING)) stop("a channel is closed or blocking");
  word its = atomic_load(&words[enrolled + c]);
  word i = index_of(its);
  word stage = atomic_fetch_add(&words[key + i], PIN);
  if (atomic_load(&words[gate]) & SHUT) stop("the selector is shut");
  int has_key = in_key_set(stage, its);
  if (has_key) {
    touch(i);
    atomic_exchange(&words[interest + i], READ);
  }
  atomic_fetch_sub(&words[key + i], PIN);
  if (!has_key) i = make_key(c, serial);
  release(c);
  return i;
}

static word key_for(word c, word serial) {
  word its = atomic_load(&words[enrolled + c]);
  if (!in_key_set(atomic_load(&words[key + index_of(its)]), its)) stop("a channel has no key");
  if (atomic_load(&words[CHANNEL + c]) >> 32 != serial) stop("a number has another channel");
  return its;
}

static void cancel_key(word i) {
  if (!(atomic_fetch_add(&words[key + i], PIN) & REMOVED)) {
    touch(i);
    atomic_fetch_or(&words[key + i], CANCELLED);
  }
  atomic_fetch_sub(&words[key + i], PIN);
}

static void cancel(word c) { cancel_key(index_of(key_for(c, 0))); }

static void remove_key(word i) {
  atomic_fetch_or(&words[key + i], REMOVED);
  atomic_fetch_or(&words[free_indexes + i / 64], 1ULL << i % 64);
}

/* Removes each cancelled key below the high-water mark. */
static void remove_cancelled(void) {
  word bound = atomic_load(&words[keys_high]);
  for (word j = 0; j < (bound + 63) / 64; j++) {
    word rest = ~atomic_load(&words[free_indexes + j]);
    for (; rest; rest &= rest - 1) {
      word i = 64 * j + (word)__builtin_ctzll(rest);
      if (i < bound && atomic_load(&words[key + i]) & CANCELLED) remove_key(i);
    }
  }
}

/* A selection that doesn't wait, where no key is valid. */
static void selection(void) {
  word none = 0;
  if (atomic_load(&words[gate]) & SHUT) stop("the selector is shut");
  if (!atomic_compare_exchange_strong(&words[turn], &none, 1)) stop("another caller selects");
  if (atomic_load(&words[gate]) & SHUT) stop("the selector is shut");
  remove_cancelled();
  if (atomic_load(&words[gate]) & SHUT) stop("the selector is shut");
  if (atomic_load(&words[INTERRUPTS]) & 1) stop("the caller is interrupted");
  remove_cancelled();
  atomic_fetch_and(&words[gate], ~(word)WOKEN);
  atomic_exchange(&words[turn], 0);
}

static void reopen_channel(word c, word serial) {
  word from = atomic_load(&words[CHANNEL + c]);
  if (from >> 32 != serial || !(from & CLOSED)) stop("a channel isn't closed");
  take_hold(c);
  word its = atomic_load(&words[enrolled + c]);
  if (its && in_key_set(atomic_load(&words[key + index_of(its)]), its)) stop("a channel has a key");
  word new = MADE + SOURCE + ((serial + 1) << 32);
  if (!atomic_compare_exchange_strong(&words[CHANNEL + c], &from, new)) stop("a number has another channel");
  release(c);
}

static void set_non_blocking(word c, word serial) {
  if (!is_open(atomic_load(&words[CHANNEL + c]), serial)) stop("a channel is closed");
  take_hold(c);
  if (!is_open(atomic_load(&words[CHANNEL + c]), serial)) stop("a channel is closed");
  atomic_fetch_or(&words[CHANNEL + c], NON_BLOCKING);
  release(c);
}

static void close_channel(word c, word serial) {
  word from = atomic_load(&words[CHANNEL + c]);
  if (!is_open(from, serial)) stop("a channel is closed");
  word new = from | CLOSED, found = atomic_load(&words[CHANNEL + c]);
  while (found < new && !atomic_compare_exchange_strong(&words[CHANNEL + c], &found, new)) continue;
  if (found != from) stop("a channel changed");
  word its = atomic_load(&words[enrolled + c]);
  if (!its) return;
  if (atomic_load(&words[CHANNEL + c]) >> 32 != serial) stop("a number has another channel");
  cancel_key(index_of(its));
}

/* Every number has a channel, and index 0 had a key. The last channel comes back so many times; each time it gets a
   key, which is cancelled and removed. */
static void come_back(void) {
  word c = MANY - 1;
  make(MANY);
  for (word other = 0; other < MANY; other++) words[CHANNEL + other] = MADE + SOURCE;
  words[CHANNEL + c] |= CLOSED;
  words[enrolled + c] = 1;
  words[key] = CLAIMED + PUBLISHED + CANCELLED + REMOVED + (c << 12);
  words[keys_high] = 1;
  words[free_indexes] = 1;
  long long start = now();
  for (word serial = 0; serial < TIMES; serial++) {
    reopen_channel(c, serial);
    set_non_blocking(c, serial + 1);
    cancel_key(register_channel(c, serial + 1));
    selection();
    close_channel(c, serial + 1);
  }
  printf("calls %d comes_back %lld\n", TIMES, now() - start);
}

/* Every channel has a removed key, and every index is free. */
static void time_calls(void) {
  long long took[4] = {0};
  word found = 0;
  make(CHANNELS);
  for (word c = 0; c < CHANNELS; c++) {
    words[CHANNEL + c] = MADE + SOURCE + NON_BLOCKING;
    words[enrolled + c] = c + 1;
    words[key + c] = CLAIMED + PUBLISHED + CANCELLED + REMOVED + (c << 12);
  }
  words[keys_high] = CHANNELS;
  words[free_indexes] = ~0ULL;
  for (unsigned round = 0; round < ROUNDS; round++) {
    long long start = now();
    for (word c = 0; c < CHANNELS; c++) register_channel(c, 0);
    long long registered = now();
    for (word c = 0; c < CHANNELS; c++) register_channel(c, 0);
    long long again = now();
    for (word c = 0; c < CHANNELS; c++) found += key_for(c, 0);
    long long looked = now();
    for (word c = 0; c < CHANNELS; c++) cancel(c);
    long long cancelled = now();
    for (word i = 0; i < CHANNELS; i++) remove_key(i);
    took[0] += registered - start;
    took[1] += again - registered;
    took[2] += looked - again;
    took[3] += cancelled - looked;
  }
  fprintf(stderr, "%llu\n", found);
  printf("calls %d register %lld register_again %lld key_for %lld cancel %lld\n", ROUNDS * CHANNELS, took[0], took[1],
         took[2], took[3]);
  free((void *)words);
}

int main(void) {
  time_calls();
  come_back();
  return 0;
}
