/*
 * Times calls from C over 64 and 1,000 keys: selections (begin, asked, told; and begin, told) with none and with all of
 * the keys ready, taking the selected keys out, wakeup, ready. Each line is the least time of some rounds, in nanoseconds.
 */
#define _GNU_SOURCE
#include "nio.h"

#include <stdio.h>
#include <stdlib.h>
#include <time.h>

enum { MOST = 1000, ROUNDS = 200, CALLS = 1000 };

static nio_looked looked[MOST];
static nio_pair pairs[MOST];
static nio_key keys[MOST];

static void must(nio_status status)
{
    if (status != NIO_DONE) {
        fprintf(stderr, "bench: status %u\n", (unsigned)status);
        exit(1);
    }
}

static double now(void)
{
    struct timespec t;
    clock_gettime(CLOCK_MONOTONIC, &t);
    return (double)t.tv_sec * 1e9 + (double)t.tv_nsec;
}

static void select_now(nio_caller *caller, uint32_t selector, size_t ready, bool asks)
{
    nio_selected selected;
    size_t count;
    must(nio_begin_now(caller, selector));
    if (asks)
        must(nio_asked(caller, selector, looked, MOST, &count));
    must(nio_told(caller, selector, pairs, ready, false, false, &selected));
}

/* The least time of a selection; the keys that it selected are taken out at once. */
static double least_selection(nio_caller *caller, uint32_t selector, size_t ready, bool asks, double *taking)
{
    double best = 1e18;
    size_t count;
    *taking = 1e18;
    for (int round = 0; round < ROUNDS; round++) {
        double start = now();
        select_now(caller, selector, ready, asks);
        double middle = now();
        must(nio_take_all_selected(caller, selector, keys, MOST, &count));
        double end = now();
        best = middle - start < best ? middle - start : best;
        *taking = end - middle < *taking ? end - middle : *taking;
    }
    return best;
}

static void wakeup(nio_caller *caller, nio_key key)
{
    bool pending;
    must(nio_wakeup(caller, key.selector, &pending));
}

static void ready_ops(nio_caller *caller, nio_key key)
{
    nio_ops ops;
    must(nio_ready(caller, key, &ops));
}

/* The least time of a call, over rounds of many. */
static double least_call(void call(nio_caller *, nio_key), nio_caller *caller, nio_key key)
{
    double best = 1e18;
    for (int round = 0; round < ROUNDS; round++) {
        double start = now();
        for (int i = 0; i < CALLS; i++)
            call(caller, key);
        double time = (now() - start) / CALLS;
        best = time < best ? time : best;
    }
    return best;
}

static void measure(uint32_t count)
{
    nio_limits limits = {.callers = 1, .selectors = 1, .channels = count, .keys = count};
    nio_caller caller = {0};
    nio_key key = {0};
    uint32_t selector;
    double taking;
    must(nio_make(&limits, &caller));
    must(nio_open_selector(&caller, &selector));
    for (uint32_t i = 0; i < count; i++) {
        nio_channel channel;
        must(nio_open_channel(&caller, NIO_SOURCE, &channel));
        must(nio_set_blocking(&caller, channel, false));
        must(nio_register(&caller, selector, channel, NIO_READ, 0, &key));
        pairs[i] = (nio_pair){.index = key.index, .ready = NIO_READ};
    }
    printf("%u keys: selection, none ready: %.0f\n", count, least_selection(&caller, selector, 0, true, &taking));
    printf("%u keys: selection, all ready: %.0f\n", count, least_selection(&caller, selector, count, true, &taking));
    printf("%u keys: begin, told, none ready: %.0f\n", count, least_selection(&caller, selector, 0, false, &taking));
    printf("%u keys: begin, told, all ready: %.0f\n", count, least_selection(&caller, selector, count, false, &taking));
    printf("%u keys: taking all selected out: %.0f\n", count, taking);
    printf("%u keys: wakeup: %.1f\n", count, least_call(wakeup, &caller, key));
    printf("%u keys: ready: %.1f\n", count, least_call(ready_ops, &caller, key));
    must(nio_free(&caller));
}

int main(void)
{
    measure(64);
    measure(MOST);
    return 0;
}
