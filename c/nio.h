/*
 * nio: the selectors of Java SE 17's java.nio.channels, for C.
 *
 * A table holds selectors, channels and keys. A caller makes calls at it: it has a number, as a thread has in Java, and
 * an interrupt status. Any number of callers make calls at the same time, each with its own handle. No call waits: C
 * polls and rings itself, by epoll and an eventfd or what it likes. The library carries no bytes; a channel is a number
 * that C ties to a descriptor of its own.
 *
 * Each function answers a status: NIO_EMPTY_HANDLE where the handle of its caller has none, and those that are named
 * with it. NIO_ILLEGAL_ARGUMENT and NIO_FULL_HANDLE come before NIO_EMPTY_HANDLE. Where the status isn't NIO_DONE no
 * answer was written, but for *count at NIO_NO_ROOM, and *changed at NIO_AGAIN.
 *
 * The functions are proved: docs/C.md says what, and what not.
 *
 * Whole example (c/echo.c is a longer one):
 *
 *     nio_limits limits = {.callers = 2, .selectors = 1, .channels = 64, .keys = 64};
 *     nio_caller main_caller = {0}, waker = {0};
 *     uint32_t selector;
 *     nio_channel channel;
 *     nio_key key;
 *     nio_make(&limits, &main_caller);
 *     nio_split(&main_caller, 1, &waker);                       // for another thread, which calls nio_wakeup
 *     nio_open_selector(&main_caller, &selector);
 *     nio_open_channel(&main_caller, NIO_STREAM, &channel);
 *     nio_set_blocking(&main_caller, channel, false);
 *     nio_register(&main_caller, selector, channel, NIO_READ, 0, &key);
 *     nio_begin(&main_caller, selector, 0);                     // select() begins
 *     nio_looked looked[64];
 *     size_t count;
 *     nio_asked(&main_caller, selector, looked, 64, &count);    // what to poll for
 *     nio_pair pair = {.index = key.index, .ready = NIO_READ};  // what the poll found
 *     nio_selected selected;
 *     while (nio_told(&main_caller, selector, &pair, 1, false, false, &selected) == NIO_AGAIN) {
 *         // poll again, now waiting
 *     }
 *     nio_free(&waker);
 *     nio_free(&main_caller);
 *
 * Threads
 *
 * - One call at a time on a handle. Calls on different handles, of one table or of several, may overlap freely.
 * - A handle isn't bound to a thread. It is handed over by a lock, by a thread's start or join, or by a sequentially
 *   consistent atomic operation.
 * - No call from a signal handler, nor in the child of a fork of a program with threads.
 * - malloc, realloc and free are of one allocator and safe between threads.
 *
 * Pointers
 *
 * - No pointer is NULL, not even that of an array of no elements. What a pointer points to is as long as it says, and
 *   what two pointers of one call point to doesn't overlap.
 * - A handle is made of zeroes ({0}); its parts are not written. A handle with a caller isn't copied.
 * - A bool is 0 or 1.
 *
 * Waiting
 *
 * - After nio_wakeup, nio_interrupt and nio_shut ring what the selecting thread waits for: the library can't. C may
 *   leave the ring out after a nio_wakeup that found a wakeup pending, if it rings after each one that found none, and if
 *   the selecting thread tells (nio_told) after each poll that took a ring in. For whoever left the pending wakeup has
 *   rung then, or will ring; and the next told finds it.
 * - The first poll after nio_begin doesn't wait. A poll after NIO_AGAIN may.
 */
#ifndef NIO_H
#define NIO_H

#include <stdbool.h>
#include <stddef.h>
#include <stdint.h>

#ifdef __cplusplus
extern "C" {
#endif

/* A caller, or none: {0}. */
typedef struct nio_caller {
    void *at;
    bool full;
} nio_caller;

/* How much a table holds: 1 to 64 callers, 1 to 16 selectors, 1 to 262,144 channels, 1 to 262,144 keys in each
 * selector. */
typedef struct nio_limits {
    uint32_t callers;
    uint32_t selectors;
    uint32_t channels;
    uint32_t keys;
} nio_limits;

/* A channel: its number, and how many channels had this number before. */
typedef struct nio_channel {
    uint32_t number;
    uint32_t serial;
} nio_channel;

/* A key: its selector, its index there, and how many keys had this index before. */
typedef struct nio_key {
    uint32_t selector;
    uint32_t index;
    uint32_t serial;
} nio_key;

/* A set of operations. */
typedef uint8_t nio_ops;
enum { NIO_READ = 1, NIO_WRITE = 4, NIO_CONNECT = 8, NIO_ACCEPT = 16 };

/* A key that a selection asks for, as it found the key when it began. `channel` is the channel's number. */
typedef struct nio_looked {
    uint32_t index;
    uint32_t serial;
    uint32_t channel;
    nio_ops interest;
} nio_looked;

/* What a poll found: operations that the channel of this key is ready for. */
typedef struct nio_pair {
    uint32_t index;
    nio_ops ready;
} nio_pair;

/* A key that a selection marked or removed as it was told. `channel` is the channel's number, and `ready` the key's ready
 * set since, 0 where it was removed. */
typedef struct nio_changed {
    uint32_t index;
    uint32_t serial;
    uint32_t channel;
    nio_ops ready;
    bool removed;
} nio_changed;

/* A selection that is over: how many keys it updated, and why it is over. */
typedef struct nio_selected {
    uint32_t count;
    uint32_t why;
} nio_selected;
enum { NIO_WHY_READY, NIO_WHY_NOW, NIO_WHY_WOKEN, NIO_WHY_CLOSED, NIO_WHY_INTERRUPTED, NIO_WHY_ELAPSED };

/* Kinds of channel, as Java's SocketChannel, ServerSocketChannel, Pipe.SourceChannel, Pipe.SinkChannel,
 * DatagramChannel. */
enum { NIO_STREAM, NIO_LISTENER, NIO_SOURCE, NIO_SINK, NIO_DATAGRAM };

/* What a function answers. */
typedef uint32_t nio_status;
enum {
    NIO_DONE = 0,
    NIO_AGAIN = 1,                  /* the selection goes on: poll again */
    NIO_EMPTY_HANDLE = 2,           /* the handle has no caller */
    NIO_FULL_HANDLE = 3,            /* the handle that is to be filled has a caller */
    NIO_NO_MEMORY = 4,              /* malloc gave nothing; all is as before */
    NIO_NO_ROOM = 5,                /* the array is too short; *count says how long it has to be */
    NIO_ILLEGAL_ARGUMENT = 6,       /* limits that no table has, an unknown kind, a negative time */
    NIO_NOT_HELD = 7,               /* the caller doesn't hold the number, or it is its own */
    NIO_NO_SUCH_SELECTOR = 8,       /* it was never opened */
    NIO_NO_SUCH_CHANNEL = 9,        /* it was never opened */
    NIO_NO_SUCH_KEY = 10,           /* it was never made */
    NIO_NO_SUCH_CALLER = 11,        /* the table has no such number */
    NIO_BUSY = 12,                  /* another caller is at it, or a selection is in progress: try again */
    NIO_SPENT = 13,                 /* no number is free for a selector or such a channel; no caller was given back */
    NIO_ILLEGAL_OPS = 14,           /* a channel of this kind doesn't support these operations */
    NIO_CLOSED_CHANNEL = 15,
    NIO_ILLEGAL_BLOCKING_MODE = 16, /* a channel that is registered, or is to be, has to be non-blocking */
    NIO_CANCELLED_KEY = 17,
    NIO_CLOSED_SELECTOR = 18,       /* the selector is closed, or is being closed */
    NIO_SELECTOR_FULL = 19,         /* the selector has as many keys as it may */
    NIO_NOT_SELECTING = 20,         /* the caller has no selection in progress on the selector */
    NIO_NOT_CLOSING = 21,           /* the caller has no closing in progress of the selector */
    NIO_LOST = 22,                  /* the channel's number was given to another one */
    NIO_OPEN = 23,                  /* the channel is open */
    NIO_SERIALS_SPENT = 24,         /* the channel's number had as many channels as it may */
    NIO_REGISTERED = 25             /* a key of the channel is in a key set: a selection removes it */
};

/* ---- tables and callers ---- */

/* Makes a table, and its first caller, whose number is 0 and who holds the other numbers. FULL_HANDLE,
 * ILLEGAL_ARGUMENT, NO_MEMORY. The table is let go with the last of its callers. */
nio_status nio_make(const nio_limits *limits, nio_caller *first);

/* Gives a number away: to a new caller at the same table, for another thread. FULL_HANDLE, NOT_HELD, NO_MEMORY. */
nio_status nio_split(nio_caller *caller, uint32_t number, nio_caller *given);

/* Gives the caller back to its table, for nio_take_back. It keeps its number, the numbers and lists that it has, its
 * interrupt status, and what it has in progress; but not the memory for nio_told. The handle is empty then, and can be
 * filled again. The table is let go where no handle has a caller of it any more. BUSY: at the table there is no place
 * for it, and the caller is in the handle still. There are as many places as callers, so this doesn't come. */
nio_status nio_give_back(nio_caller *caller);

/* Takes a caller back that was given back to the table of this one, in whatever thread; which, where there are several,
 * isn't said. FULL_HANDLE, SPENT (it found none; one that is given back meanwhile may be missed), NO_MEMORY (it stays at
 * the table). */
nio_status nio_take_back(nio_caller *caller, nio_caller *given);

/* Lets the caller go. Its number makes no more calls; the turn of a selection that it has in progress stays taken, and
 * a selector that it began to close is never closed. The handle is empty then, and can be filled again. */
nio_status nio_free(nio_caller *caller);

/* The caller's number. */
nio_status nio_number(nio_caller *caller, uint32_t *number);

/* ---- selectors ---- */

/* Opens a selector: Selector.open. SPENT. */
nio_status nio_open_selector(nio_caller *caller, uint32_t *selector);

/* Whether the selector was opened. NO_SUCH_SELECTOR. */
nio_status nio_find_selector(nio_caller *caller, uint32_t selector);

/* The keys, in rising order of their indexes: Selector.keys. NO_SUCH_SELECTOR, CLOSED_SELECTOR, NO_MEMORY, NO_ROOM. */
nio_status nio_keys(nio_caller *caller, uint32_t selector, nio_key *keys, size_t room, size_t *count);

/* The same of the selected keys: Selector.selectedKeys. */
nio_status nio_selected_keys(nio_caller *caller, uint32_t selector, nio_key *keys, size_t room, size_t *count);

/* The same, and takes them out of the selected set, one after the other. At NO_ROOM none is taken out. */
nio_status nio_take_all_selected(nio_caller *caller, uint32_t selector, nio_key *keys, size_t room, size_t *count);

/* Leaves a wakeup: the selection in progress, or else the next one, doesn't wait: Selector.wakeup. *pending says
 * whether one was pending already, which no selection had used up. NO_SUCH_SELECTOR. */
nio_status nio_wakeup(nio_caller *caller, uint32_t selector, bool *pending);

/* Sets the interrupt status of the caller with this number: Thread.interrupt. NO_SUCH_CALLER. */
nio_status nio_interrupt(nio_caller *caller, uint32_t number);

/* Whether the caller's own interrupt status was set; clears it: Thread.interrupted. */
nio_status nio_interrupted(nio_caller *caller, bool *interrupted);

/* Takes the selector's list, where nobody has it: the caller has it for good, and its selections there look only at the
 * keys that were touched since the last. *taken says whether it was taken. */
nio_status nio_take_list(nio_caller *caller, uint32_t selector, bool *taken);

/* Begins to close the selector: selections and registrations are refused from then on. *began says whether this call
 * began it; then the caller has the closing, for nio_try_finish. NO_SUCH_SELECTOR. */
nio_status nio_shut(nio_caller *caller, uint32_t selector, bool *began);

/* Ends the closing that the caller began: removes the selector's keys. BUSY while a selection is in progress there,
 * NOT_CLOSING. */
nio_status nio_try_finish(nio_caller *caller, uint32_t selector);

/* ---- selections ---- */

/* Begins a selection, which stays in the caller: takes the selector's turn, removes the keys that were cancelled, and
 * looks at the others. It waits for at most so many milliseconds: select(ms); 0 is without limit. NO_SUCH_SELECTOR,
 * CLOSED_SELECTOR, NO_MEMORY, BUSY (a selection is in progress there, maybe the caller's own), ILLEGAL_ARGUMENT (ms is
 * negative). Each other call may be made while it is in progress. */
nio_status nio_begin(nio_caller *caller, uint32_t selector, int64_t ms);

/* The same, of one that doesn't wait: selectNow. */
nio_status nio_begin_now(nio_caller *caller, uint32_t selector);

/* The keys that the selection in progress asks for. NOT_SELECTING, NO_ROOM. */
nio_status nio_asked(nio_caller *caller, uint32_t selector, nio_looked *keys, size_t room, size_t *count);

/* Tells the selection in progress what a poll found, and whether its time is over. DONE: it is over, and *selected says
 * how. AGAIN: it goes on. NO_MEMORY (nothing was told), NOT_SELECTING. An index that it doesn't ask for is ignored, and
 * so is an operation that it doesn't look for.
 *
 * The handle keeps a copy of the pairs, and its memory, as long as the caller. NO_MEMORY comes only where count is
 * more than each earlier call with this caller in this handle had that answered DONE, AGAIN or NOT_SELECTING. So one
 * such call with as many pairs as there will ever be, before any selection, makes room for all later ones.
 *
 * As in Java's documentation it goes on where only such keys are ready as are selected already with these operations:
 * take selected keys out. With `enough` it is over as soon as something was told of what it asks for, as in JDK 17;
 * where that updated no key and nothing else ended it, *selected says 0 and NIO_WHY_ELAPSED. Only a selection that was
 * begun with a time can be over so: INT64_MAX is one that never ends. */
nio_status nio_told(nio_caller *caller, uint32_t selector, const nio_pair *pairs, size_t count, bool elapsed,
                    bool enough, nio_selected *selected);

/* The same, and lists what it did to keys: first each that it marked, then each that it removed, both by rising indexes.
 * A key that it marked and then removed is listed twice. *changed says how many there are; the first of them are written,
 * as many as there is room for, and of the others nio_selected_keys and nio_keys tell. After AGAIN *changed is 0. What
 * nio_begin removed isn't listed. */
nio_status nio_told_listing(nio_caller *caller, uint32_t selector, const nio_pair *pairs, size_t count, bool elapsed,
                            bool enough, nio_selected *selected, nio_changed *changes, size_t room, size_t *changed);

/* Ends the selection in progress without an answer, as after a poll that failed. NOT_SELECTING. */
nio_status nio_leave(nio_caller *caller, uint32_t selector);

/* ---- channels ---- */

/* Opens a channel, in blocking mode. ILLEGAL_ARGUMENT, SPENT. */
nio_status nio_open_channel(nio_caller *caller, uint32_t kind, nio_channel *channel);

/* Opens a channel of the number of this one, which is closed: the quick way. NO_SUCH_CHANNEL, LOST, OPEN,
 * SERIALS_SPENT, BUSY, REGISTERED. */
nio_status nio_reopen_channel(nio_caller *caller, nio_channel channel, nio_channel *next);

/* Whether the channel was opened. NO_SUCH_CHANNEL. */
nio_status nio_find_channel(nio_caller *caller, nio_channel channel);

/* isOpen. False where there is no such channel. */
nio_status nio_is_open(nio_caller *caller, nio_channel channel, bool *open);

/* isBlocking. False where there is no such channel. */
nio_status nio_is_blocking(nio_caller *caller, nio_channel channel, bool *blocking);

/* configureBlocking. NO_SUCH_CHANNEL, CLOSED_CHANNEL, ILLEGAL_BLOCKING_MODE (it is registered), BUSY. */
nio_status nio_set_blocking(nio_caller *caller, nio_channel channel, bool on);

/* register. Where the channel has a valid key there, that key gets these operations, and the attachment where that
 * isn't 0. NO_SUCH_SELECTOR, NO_SUCH_CHANNEL, ILLEGAL_OPS, CLOSED_CHANNEL, ILLEGAL_BLOCKING_MODE, CANCELLED_KEY (not
 * yet removed), CLOSED_SELECTOR, SELECTOR_FULL, BUSY. */
nio_status nio_register(nio_caller *caller, uint32_t selector, nio_channel channel, nio_ops ops, uint64_t attachment,
                        nio_key *key);

/* keyFor. NO_SUCH_KEY: it has none there. */
nio_status nio_key_for(nio_caller *caller, nio_channel channel, uint32_t selector, nio_key *key);

/* isRegistered. False where there is no such channel. */
nio_status nio_is_registered(nio_caller *caller, nio_channel channel, bool *registered);

/* close: closes the channel and cancels its keys. *closed says whether this call closed it; false where there is no
 * such channel. */
nio_status nio_close_channel(nio_caller *caller, nio_channel channel, bool *closed);

/* ---- keys ---- */

/* Whether the key was made. NO_SUCH_KEY. */
nio_status nio_find_key(nio_caller *caller, nio_key key);

/* isValid. False where there is no such key. */
nio_status nio_is_valid(nio_caller *caller, nio_key key, bool *valid);

/* cancel. NO_SUCH_KEY. */
nio_status nio_cancel(nio_caller *caller, nio_key key);

/* interestOps(). NO_SUCH_KEY, CANCELLED_KEY. */
nio_status nio_interest(nio_caller *caller, nio_key key, nio_ops *ops);

/* interestOps(int). NO_SUCH_KEY, CANCELLED_KEY, ILLEGAL_OPS. */
nio_status nio_set_interest(nio_caller *caller, nio_key key, nio_ops ops);

/* interestOpsOr: adds these. *before is what it was. NO_SUCH_KEY, CANCELLED_KEY, ILLEGAL_OPS. */
nio_status nio_interest_or(nio_caller *caller, nio_key key, nio_ops ops, nio_ops *before);

/* interestOpsAnd: keeps only these. *before is what it was. NO_SUCH_KEY, CANCELLED_KEY. */
nio_status nio_interest_and(nio_caller *caller, nio_key key, nio_ops ops, nio_ops *before);

/* readyOps. NO_SUCH_KEY, CANCELLED_KEY. */
nio_status nio_ready(nio_caller *caller, nio_key key, nio_ops *ready);

/* Takes the key out of the selected set: selectedKeys().remove. *taken says whether it was there; false where there is
 * no such key. */
nio_status nio_unselect(nio_caller *caller, nio_key key, bool *taken);

/* Takes the channel's key out of the selected set. NO_SUCH_KEY: it has none there, or that wasn't selected. */
nio_status nio_take_selected(nio_caller *caller, nio_channel channel, uint32_t selector, nio_key *key);

/* attach: 0 is no attachment. *before is what it was; 0 where there is no such key, or its index went to another
 * one. */
nio_status nio_attach(nio_caller *caller, nio_key key, uint64_t attachment, uint64_t *before);

/* attachment. 0 where there is none, no such key, or its index went to another one. */
nio_status nio_attachment(nio_caller *caller, nio_key key, uint64_t *attachment);

#ifdef __cplusplus
}
#endif

#endif
