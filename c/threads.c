/*
 * Threads make calls with names that they draw, also of what was never made, while another thread selects; then many
 * threads have few callers in turn. Says where a status comes that the call doesn't have, where the closed selector
 * still has a key, or where a caller doesn't come back.
 */
#include "nio.h"

#include <pthread.h>
#include <sched.h>
#include <stdatomic.h>
#include <stdio.h>
#include <stdlib.h>

enum { WORKERS = 3, CALLS = 200000, CHANNELS = 8, KEYS = 8, SERIALS = 3, ROUNDS = 40, TOGETHER = 8 };

static const nio_limits limits = {.callers = WORKERS + 1, .selectors = 2, .channels = CHANNELS, .keys = KEYS};

static atomic_uint failures;
static atomic_uint working;

typedef struct worker {
    pthread_t thread;
    nio_caller caller;
    nio_channel channel; /* what it opened last */
    nio_key key;         /* what it registered last */
    uint32_t seed;
} worker;

/* A number below the bound (xorshift32). */
static uint32_t draw(worker *w, uint32_t bound)
{
    w->seed ^= w->seed << 13;
    w->seed ^= w->seed >> 17;
    w->seed ^= w->seed << 5;
    return w->seed % bound;
}

static nio_channel draw_channel(worker *w)
{
    if (draw(w, 3))
        return w->channel;
    return (nio_channel){.number = draw(w, CHANNELS + 1), .serial = draw(w, SERIALS)};
}

static nio_key draw_key(worker *w)
{
    if (draw(w, 3))
        return w->key;
    return (nio_key){.selector = draw(w, 10) == 0, .index = draw(w, KEYS + 1), .serial = draw(w, SERIALS)};
}

static nio_ops draw_ops(worker *w)
{
    static const nio_ops some[] = {0, NIO_READ, NIO_WRITE, NIO_READ | NIO_WRITE, NIO_ACCEPT};
    return some[draw(w, sizeof some / sizeof *some)];
}

/* The statuses of a call, one bit each. */
#define BIT(status) (1u << (status))
#define ALLOW(call, statuses) allow(#call, call, BIT(NIO_DONE) | (statuses))

static void allow(const char *call, nio_status status, unsigned statuses)
{
    if (status > NIO_REGISTERED || !(BIT(status) & statuses)) {
        printf("%s: status %u\n", call, (unsigned)status);
        atomic_fetch_add(&failures, 1);
    }
}

static void call_on_channel(worker *w)
{
    nio_caller *me = &w->caller;
    nio_channel channel = draw_channel(w);
    nio_key key;
    bool answer;
    const unsigned none = BIT(NIO_NO_SUCH_CHANNEL), hold = none | BIT(NIO_BUSY);
    switch (draw(w, 9)) {
    case 0: ALLOW(nio_open_channel(me, draw(w, 2) ? NIO_STREAM : NIO_SOURCE, &w->channel), BIT(NIO_SPENT)); break;
    case 1:
        ALLOW(nio_reopen_channel(me, channel, &w->channel),
              hold | BIT(NIO_LOST) | BIT(NIO_OPEN) | BIT(NIO_SERIALS_SPENT) | BIT(NIO_REGISTERED));
        break;
    case 2: ALLOW(nio_is_open(me, channel, &answer), 0); break;
    case 3: ALLOW(nio_is_blocking(me, channel, &answer), 0); break;
    case 4:
        ALLOW(nio_set_blocking(me, channel, draw(w, 4) == 0),
              hold | BIT(NIO_CLOSED_CHANNEL) | BIT(NIO_ILLEGAL_BLOCKING_MODE));
        break;
    case 5:
    case 6:
        ALLOW(nio_register(me, draw(w, 20) == 0, channel, draw_ops(w), draw(w, 3), &w->key),
              hold | BIT(NIO_NO_SUCH_SELECTOR) | BIT(NIO_ILLEGAL_OPS) | BIT(NIO_CLOSED_CHANNEL) |
                  BIT(NIO_ILLEGAL_BLOCKING_MODE) | BIT(NIO_CANCELLED_KEY) | BIT(NIO_CLOSED_SELECTOR) |
                  BIT(NIO_SELECTOR_FULL));
        break;
    case 7: ALLOW(nio_key_for(me, channel, 0, &key), BIT(NIO_NO_SUCH_KEY)); break;
    default:
        if (draw(w, 4) == 0)
            ALLOW(nio_close_channel(me, channel, &answer), 0);
        break;
    }
}

static void call_on_key(worker *w)
{
    nio_caller *me = &w->caller;
    nio_key key = draw_key(w);
    nio_ops ops;
    uint64_t attachment;
    bool answer;
    const unsigned none = BIT(NIO_NO_SUCH_KEY), valid = none | BIT(NIO_CANCELLED_KEY);
    switch (draw(w, 9)) {
    case 0: ALLOW(nio_is_valid(me, key, &answer), 0); break;
    case 1: ALLOW(nio_cancel(me, key), none); break;
    case 2: ALLOW(nio_interest(me, key, &ops), valid); break;
    case 3: ALLOW(nio_set_interest(me, key, draw_ops(w)), valid | BIT(NIO_ILLEGAL_OPS)); break;
    case 4: ALLOW(nio_interest_or(me, key, draw_ops(w), &ops), valid | BIT(NIO_ILLEGAL_OPS)); break;
    case 5: ALLOW(nio_interest_and(me, key, draw_ops(w), &ops), valid); break;
    case 6: ALLOW(nio_ready(me, key, &ops), valid); break;
    case 7: ALLOW(nio_unselect(me, key, &answer), 0); break;
    default: ALLOW(nio_attach(me, key, draw(w, 3), &attachment), 0); break;
    }
}

static void call_on_selector(worker *w)
{
    nio_caller *me = &w->caller;
    nio_key keys[KEYS];
    size_t count;
    bool pending;
    uint32_t selector = draw(w, 4) == 0;
    const unsigned none = BIT(NIO_NO_SUCH_SELECTOR), listed = none | BIT(NIO_CLOSED_SELECTOR) | BIT(NIO_NO_ROOM);
    switch (draw(w, 5)) {
    case 0: ALLOW(nio_wakeup(me, selector, &pending), none); break;
    case 1: ALLOW(nio_interrupt(me, draw(w, WORKERS + 2)), BIT(NIO_NO_SUCH_CALLER)); break;
    case 2: ALLOW(nio_keys(me, selector, keys, draw(w, KEYS + 1), &count), listed); break;
    case 3: ALLOW(nio_take_all_selected(me, selector, keys, draw(w, KEYS + 1), &count), listed); break;
    default: ALLOW(nio_begin_now(me, 0), BIT(NIO_BUSY) | BIT(NIO_CLOSED_SELECTOR)); nio_leave(me, 0); break;
    }
}

static void make_calls(worker *w, int calls)
{
    for (int i = 0; i < calls; i++)
        switch (draw(w, 3)) {
        case 0: call_on_channel(w); break;
        case 1: call_on_key(w); break;
        default: call_on_selector(w); break;
        }
}

static void *work(void *argument)
{
    make_calls(argument, CALLS);
    atomic_fetch_sub(&working, 1);
    return NULL;
}

/* The caller by whose handle the others are taken back, and the lock of that handle. */
static nio_caller *desk;
static pthread_mutex_t desk_lock = PTHREAD_MUTEX_INITIALIZER;

/* Takes a caller back, once there is one, makes calls with it, and gives it back. */
static void *take_turn(void *argument)
{
    worker *w = argument;
    while (!w->caller.full) {
        pthread_mutex_lock(&desk_lock);
        ALLOW(nio_take_back(desk, &w->caller), BIT(NIO_SPENT));
        pthread_mutex_unlock(&desk_lock);
        sched_yield();
    }
    make_calls(w, 100);
    ALLOW(nio_give_back(&w->caller), 0);
    return NULL;
}

static bool take_turns(void)
{
    for (uint32_t round = 0; round < ROUNDS; round++) {
        worker some[TOGETHER] = {0};
        for (uint32_t i = 0; i < TOGETHER; i++) {
            some[i].seed = round * TOGETHER + i + 1;
            if (pthread_create(&some[i].thread, NULL, take_turn, &some[i]) != 0)
                return false;
        }
        for (uint32_t i = 0; i < TOGETHER; i++)
            pthread_join(some[i].thread, NULL);
    }
    return true;
}

/* One selection; what is told is drawn. It makes no more than some polls. */
static void select_once(worker *w)
{
    nio_caller *me = &w->caller;
    nio_looked asked[KEYS];
    nio_pair pairs[KEYS];
    nio_selected selected;
    size_t count, told = 0;
    nio_status status = nio_begin(me, 0, draw(w, 3));
    ALLOW(status, BIT(NIO_BUSY));
    if (status != NIO_DONE)
        return;
    ALLOW(nio_asked(me, 0, asked, KEYS, &count), 0);
    for (size_t i = 0; i < count; i++)
        if (draw(w, 2))
            pairs[told++] = (nio_pair){.index = asked[i].index, .ready = draw_ops(w)};
    for (int polls = 0; polls < 4; polls++) {
        status = nio_told(me, 0, pairs, told, draw(w, 2), draw(w, 2), &selected);
        ALLOW(status, BIT(NIO_AGAIN));
        if (status == NIO_DONE && selected.count > told)
            allow("more keys than told", NIO_AGAIN, 0);
        if (status == NIO_DONE)
            return;
    }
    ALLOW(nio_leave(me, 0), 0);
}

/* Closes the selector: no channel is registered then. */
static void close_selector(nio_caller *caller)
{
    bool began, registered;
    ALLOW(nio_shut(caller, 0, &began), 0);
    ALLOW(nio_try_finish(caller, 0), 0);
    for (uint32_t number = 0; number < CHANNELS; number++)
        for (uint32_t serial = 0; serial < 1000; serial++) {
            ALLOW(nio_is_registered(caller, (nio_channel){number, serial}, &registered), 0);
            if (registered)
                allow("still registered", NIO_AGAIN, 0);
        }
}

int main(void)
{
    static worker selecting, workers[WORKERS];
    uint32_t selector;
    selecting.seed = 1;
    ALLOW(nio_make(&limits, &selecting.caller), 0);
    ALLOW(nio_open_selector(&selecting.caller, &selector), 0);
    atomic_store(&working, WORKERS);
    for (uint32_t i = 0; i < WORKERS; i++) {
        workers[i].seed = i + 2;
        ALLOW(nio_split(&selecting.caller, i + 1, &workers[i].caller), 0);
        if (pthread_create(&workers[i].thread, NULL, work, &workers[i]) != 0)
            return 1;
    }
    while (atomic_load(&working) != 0)
        select_once(&selecting);
    for (uint32_t i = 0; i < WORKERS; i++) {
        pthread_join(workers[i].thread, NULL);
        ALLOW(nio_give_back(&workers[i].caller), 0);
    }
    desk = &selecting.caller;
    if (!take_turns())
        return 1;
    close_selector(&selecting.caller);
    for (uint32_t i = 0; i < WORKERS; i++)
        ALLOW(nio_take_back(&selecting.caller, &workers[i].caller), 0);
    for (uint32_t i = 0; i < WORKERS; i++)
        ALLOW(nio_free(&workers[i].caller), 0);
    ALLOW(nio_free(&selecting.caller), 0);
    printf(failures == 0 ? "threads: all as it should be\n" : "threads: %u wrong\n", failures);
    return failures == 0 ? 0 : 1;
}
