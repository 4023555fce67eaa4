/* Makes each call of the library, and has each status once; says where one isn't what it should be. */
#include "nio.h"

#include <stdio.h>

static unsigned failures;
static bool was_seen[NIO_REGISTERED + 1];

static void expect(int line, const char *call, nio_status status, nio_status wanted)
{
    if (status <= NIO_REGISTERED)
        was_seen[status] = true;
    if (status != wanted) {
        printf("line %d: %s: status %u, not %u\n", line, call, (unsigned)status, (unsigned)wanted);
        failures++;
    }
}

static void hold(int line, const char *what, bool holds)
{
    if (!holds) {
        printf("line %d: not %s\n", line, what);
        failures++;
    }
}

#define EXPECT(status, call) expect(__LINE__, #call, call, status)
#define HOLD(what) hold(__LINE__, #what, what)

static const nio_limits limits = {.callers = 3, .selectors = 3, .channels = 4, .keys = 2};

static void handles(void)
{
    nio_limits none = limits, many = limits;
    nio_caller first = {0}, second = {0}, third = {0}, empty = {0};
    uint32_t number = 7;
    none.callers = 0;
    many.selectors = 17;
    EXPECT(NIO_ILLEGAL_ARGUMENT, nio_make(&none, &first));
    EXPECT(NIO_ILLEGAL_ARGUMENT, nio_make(&many, &first));
    HOLD(!first.full);
    EXPECT(NIO_DONE, nio_make(&limits, &first));
    EXPECT(NIO_FULL_HANDLE, nio_make(&limits, &first));
    EXPECT(NIO_FULL_HANDLE, nio_make(&none, &first));
    EXPECT(NIO_DONE, nio_number(&first, &number));
    HOLD(number == 0);
    EXPECT(NIO_EMPTY_HANDLE, nio_number(&empty, &number));
    EXPECT(NIO_EMPTY_HANDLE, nio_split(&empty, 1, &second));
    EXPECT(NIO_FULL_HANDLE, nio_split(&empty, 1, &first));
    EXPECT(NIO_NOT_HELD, nio_split(&first, 0, &second));
    EXPECT(NIO_NOT_HELD, nio_split(&first, 3, &second));
    HOLD(!second.full);
    EXPECT(NIO_DONE, nio_split(&first, 1, &second));
    EXPECT(NIO_NOT_HELD, nio_split(&first, 1, &third));
    EXPECT(NIO_FULL_HANDLE, nio_split(&first, 2, &second));
    EXPECT(NIO_DONE, nio_split(&first, 2, &third));
    EXPECT(NIO_DONE, nio_number(&third, &number));
    HOLD(number == 2);
    EXPECT(NIO_DONE, nio_free(&first));
    EXPECT(NIO_EMPTY_HANDLE, nio_free(&first));
    EXPECT(NIO_DONE, nio_number(&second, &number));
    HOLD(number == 1);
    EXPECT(NIO_DONE, nio_free(&third));
    EXPECT(NIO_DONE, nio_free(&second));
}

/* Callers come back, and with what they have. */
static void coming_back(void)
{
    nio_caller first = {0}, second = {0}, third = {0}, other = {0}, empty = {0};
    uint32_t number, its, selector;
    bool answer;
    EXPECT(NIO_EMPTY_HANDLE, nio_give_back(&empty));
    EXPECT(NIO_EMPTY_HANDLE, nio_take_back(&empty, &second));
    EXPECT(NIO_DONE, nio_make(&limits, &first));
    EXPECT(NIO_DONE, nio_make(&limits, &other));
    EXPECT(NIO_FULL_HANDLE, nio_take_back(&empty, &first));
    EXPECT(NIO_SPENT, nio_take_back(&first, &second));
    HOLD(!second.full);
    EXPECT(NIO_DONE, nio_split(&first, 1, &second));
    EXPECT(NIO_DONE, nio_split(&first, 2, &third));
    for (int i = 0; i < 1000; i++) {
        EXPECT(NIO_DONE, nio_give_back(&second));
        EXPECT(NIO_EMPTY_HANDLE, nio_give_back(&second));
        EXPECT(NIO_DONE, nio_give_back(&third));
        EXPECT(NIO_NOT_HELD, nio_split(&first, 1, &second));
        EXPECT(NIO_SPENT, nio_take_back(&other, &second));
        EXPECT(NIO_DONE, nio_take_back(&first, &second));
        EXPECT(NIO_DONE, nio_number(&second, &its));
        EXPECT(NIO_DONE, nio_take_back(&second, &third));
        EXPECT(NIO_DONE, nio_number(&third, &number));
        HOLD((its == 1 && number == 2) || (its == 2 && number == 1));
        EXPECT(NIO_SPENT, nio_take_back(&first, &empty));
    }

    /* A list, an interrupt, a selection and a closing in progress, and the numbers that it holds. */
    EXPECT(NIO_DONE, nio_open_selector(&first, &selector));
    EXPECT(NIO_DONE, nio_take_list(&second, selector, &answer));
    HOLD(answer);
    EXPECT(NIO_DONE, nio_interrupt(&first, its));
    EXPECT(NIO_DONE, nio_begin(&second, selector, 0));
    EXPECT(NIO_DONE, nio_give_back(&second));
    EXPECT(NIO_BUSY, nio_begin(&third, selector, 0));
    EXPECT(NIO_DONE, nio_take_back(&third, &second));
    EXPECT(NIO_DONE, nio_interrupted(&second, &answer));
    HOLD(answer);
    EXPECT(NIO_DONE, nio_shut(&second, selector, &answer));
    HOLD(answer);
    EXPECT(NIO_DONE, nio_give_back(&second));
    EXPECT(NIO_DONE, nio_take_back(&third, &second));
    EXPECT(NIO_DONE, nio_leave(&second, selector));
    EXPECT(NIO_DONE, nio_try_finish(&second, selector));
    EXPECT(NIO_DONE, nio_free(&second));
    EXPECT(NIO_DONE, nio_give_back(&first));
    EXPECT(NIO_DONE, nio_take_back(&third, &second));
    EXPECT(NIO_DONE, nio_number(&second, &number));
    HOLD(number == 0);
    EXPECT(NIO_NOT_HELD, nio_split(&second, 2, &first));

    /* The last callers are let go with the table. */
    EXPECT(NIO_DONE, nio_give_back(&second));
    EXPECT(NIO_DONE, nio_give_back(&third));
    EXPECT(NIO_DONE, nio_give_back(&other));
}

/* Each call on an empty handle. */
static void empty_handles(void)
{
    nio_caller none = {0};
    nio_channel channel = {0};
    nio_key key = {0};
    nio_looked looked;
    nio_pair pair = {0};
    nio_changed changed;
    nio_selected selected;
    nio_ops ops = 42;
    uint32_t number;
    uint64_t attachment;
    size_t count;
    bool answer;
    EXPECT(NIO_EMPTY_HANDLE, nio_open_selector(&none, &number));
    EXPECT(NIO_EMPTY_HANDLE, nio_find_selector(&none, 0));
    EXPECT(NIO_EMPTY_HANDLE, nio_keys(&none, 0, &key, 1, &count));
    EXPECT(NIO_EMPTY_HANDLE, nio_selected_keys(&none, 0, &key, 1, &count));
    EXPECT(NIO_EMPTY_HANDLE, nio_take_all_selected(&none, 0, &key, 1, &count));
    EXPECT(NIO_EMPTY_HANDLE, nio_wakeup(&none, 0, &answer));
    EXPECT(NIO_EMPTY_HANDLE, nio_interrupt(&none, 0));
    EXPECT(NIO_EMPTY_HANDLE, nio_interrupted(&none, &answer));
    EXPECT(NIO_EMPTY_HANDLE, nio_take_list(&none, 0, &answer));
    EXPECT(NIO_EMPTY_HANDLE, nio_shut(&none, 0, &answer));
    EXPECT(NIO_EMPTY_HANDLE, nio_try_finish(&none, 0));
    EXPECT(NIO_EMPTY_HANDLE, nio_begin(&none, 0, 0));
    EXPECT(NIO_EMPTY_HANDLE, nio_asked(&none, 0, &looked, 1, &count));
    EXPECT(NIO_EMPTY_HANDLE, nio_told(&none, 0, &pair, 1, false, false, &selected));
    EXPECT(NIO_EMPTY_HANDLE, nio_told_listing(&none, 0, &pair, 1, false, false, &selected, &changed, 1, &count));
    EXPECT(NIO_EMPTY_HANDLE, nio_begin_now(&none, 0));
    EXPECT(NIO_EMPTY_HANDLE, nio_leave(&none, 0));
    EXPECT(NIO_EMPTY_HANDLE, nio_open_channel(&none, NIO_STREAM, &channel));
    EXPECT(NIO_EMPTY_HANDLE, nio_reopen_channel(&none, channel, &channel));
    EXPECT(NIO_EMPTY_HANDLE, nio_find_channel(&none, channel));
    EXPECT(NIO_EMPTY_HANDLE, nio_is_open(&none, channel, &answer));
    EXPECT(NIO_EMPTY_HANDLE, nio_is_blocking(&none, channel, &answer));
    EXPECT(NIO_EMPTY_HANDLE, nio_set_blocking(&none, channel, false));
    EXPECT(NIO_EMPTY_HANDLE, nio_register(&none, 0, channel, NIO_READ, 0, &key));
    EXPECT(NIO_EMPTY_HANDLE, nio_key_for(&none, channel, 0, &key));
    EXPECT(NIO_EMPTY_HANDLE, nio_is_registered(&none, channel, &answer));
    EXPECT(NIO_EMPTY_HANDLE, nio_close_channel(&none, channel, &answer));
    EXPECT(NIO_EMPTY_HANDLE, nio_find_key(&none, key));
    EXPECT(NIO_EMPTY_HANDLE, nio_is_valid(&none, key, &answer));
    EXPECT(NIO_EMPTY_HANDLE, nio_cancel(&none, key));
    EXPECT(NIO_EMPTY_HANDLE, nio_interest(&none, key, &ops));
    EXPECT(NIO_EMPTY_HANDLE, nio_set_interest(&none, key, NIO_READ));
    EXPECT(NIO_EMPTY_HANDLE, nio_interest_or(&none, key, NIO_READ, &ops));
    EXPECT(NIO_EMPTY_HANDLE, nio_interest_and(&none, key, NIO_READ, &ops));
    EXPECT(NIO_EMPTY_HANDLE, nio_ready(&none, key, &ops));
    EXPECT(NIO_EMPTY_HANDLE, nio_unselect(&none, key, &answer));
    EXPECT(NIO_EMPTY_HANDLE, nio_take_selected(&none, channel, 0, &key));
    EXPECT(NIO_EMPTY_HANDLE, nio_attach(&none, key, 1, &attachment));
    EXPECT(NIO_EMPTY_HANDLE, nio_attachment(&none, key, &attachment));
    HOLD(ops == 42);
}

static void channels(nio_caller *caller)
{
    nio_channel channel[4], next;
    nio_channel never = {.number = 0, .serial = 1};
    bool answer;
    EXPECT(NIO_NO_SUCH_CHANNEL, nio_find_channel(caller, (nio_channel){0}));
    EXPECT(NIO_ILLEGAL_ARGUMENT, nio_open_channel(caller, 5, &channel[0]));
    for (uint32_t i = 0; i < 4; i++)
        EXPECT(NIO_DONE, nio_open_channel(caller, NIO_SOURCE, &channel[i]));
    HOLD(channel[3].number == 3 && channel[3].serial == 0);
    EXPECT(NIO_SPENT, nio_open_channel(caller, NIO_SOURCE, &next));
    EXPECT(NIO_DONE, nio_find_channel(caller, channel[3]));
    EXPECT(NIO_NO_SUCH_CHANNEL, nio_find_channel(caller, never));
    EXPECT(NIO_DONE, nio_is_blocking(caller, channel[0], &answer));
    HOLD(answer);
    EXPECT(NIO_DONE, nio_set_blocking(caller, channel[0], false));
    EXPECT(NIO_DONE, nio_is_blocking(caller, channel[0], &answer));
    HOLD(!answer);
    EXPECT(NIO_NO_SUCH_CHANNEL, nio_set_blocking(caller, never, false));
    EXPECT(NIO_OPEN, nio_reopen_channel(caller, channel[3], &next));
    EXPECT(NIO_NO_SUCH_CHANNEL, nio_reopen_channel(caller, never, &next));
    EXPECT(NIO_DONE, nio_close_channel(caller, channel[3], &answer));
    HOLD(answer);
    EXPECT(NIO_DONE, nio_close_channel(caller, channel[3], &answer));
    HOLD(!answer);
    EXPECT(NIO_DONE, nio_is_open(caller, channel[3], &answer));
    HOLD(!answer);
    EXPECT(NIO_CLOSED_CHANNEL, nio_set_blocking(caller, channel[3], false));
    EXPECT(NIO_DONE, nio_reopen_channel(caller, channel[3], &next));
    HOLD(next.number == 3 && next.serial == 1);
    EXPECT(NIO_LOST, nio_reopen_channel(caller, channel[3], &next));
}

static void keys(nio_caller *caller, nio_caller *other)
{
    nio_channel first = {.number = 0}, second = {.number = 1}, third = {.number = 2}, next;
    nio_key key, same, list[2];
    nio_key never = {.selector = 0, .index = 0, .serial = 9};
    nio_ops ops = 0;
    uint32_t selector;
    uint64_t attachment;
    size_t count;
    bool answer;
    EXPECT(NIO_NO_SUCH_SELECTOR, nio_find_selector(caller, 0));
    EXPECT(NIO_NO_SUCH_SELECTOR, nio_register(caller, 0, first, NIO_READ, 0, &key));
    EXPECT(NIO_DONE, nio_open_selector(caller, &selector));
    HOLD(selector == 0);
    EXPECT(NIO_DONE, nio_find_selector(other, 0));
    EXPECT(NIO_NO_SUCH_KEY, nio_key_for(caller, first, 0, &key));
    EXPECT(NIO_NO_SUCH_CHANNEL, nio_register(caller, 0, (nio_channel){.number = 9}, NIO_READ, 0, &key));
    EXPECT(NIO_ILLEGAL_OPS, nio_register(caller, 0, first, NIO_WRITE, 0, &key));
    EXPECT(NIO_ILLEGAL_BLOCKING_MODE, nio_register(caller, 0, second, NIO_READ, 0, &key));
    EXPECT(NIO_DONE, nio_register(caller, 0, first, NIO_READ, 5, &key));
    HOLD(key.selector == 0 && key.index == 0 && key.serial == 0);
    EXPECT(NIO_ILLEGAL_BLOCKING_MODE, nio_set_blocking(caller, first, true));
    EXPECT(NIO_DONE, nio_key_for(other, first, 0, &same));
    HOLD(same.index == key.index && same.serial == key.serial);
    EXPECT(NIO_DONE, nio_is_registered(caller, first, &answer));
    HOLD(answer);
    EXPECT(NIO_DONE, nio_find_key(caller, key));
    EXPECT(NIO_NO_SUCH_KEY, nio_find_key(caller, never));
    EXPECT(NIO_DONE, nio_is_valid(caller, key, &answer));
    HOLD(answer);
    EXPECT(NIO_DONE, nio_interest(other, key, &ops));
    HOLD(ops == NIO_READ);
    EXPECT(NIO_NO_SUCH_KEY, nio_interest(caller, never, &ops));
    EXPECT(NIO_ILLEGAL_OPS, nio_set_interest(caller, key, NIO_ACCEPT));
    EXPECT(NIO_DONE, nio_interest_and(caller, key, 0, &ops));
    HOLD(ops == NIO_READ);
    EXPECT(NIO_DONE, nio_interest_or(caller, key, NIO_READ, &ops));
    HOLD(ops == 0);
    EXPECT(NIO_DONE, nio_set_interest(caller, key, NIO_READ));
    EXPECT(NIO_DONE, nio_attach(caller, key, UINT64_MAX, &attachment));
    HOLD(attachment == 5);
    EXPECT(NIO_DONE, nio_attachment(caller, key, &attachment));
    HOLD(attachment == UINT64_MAX);
    EXPECT(NIO_DONE, nio_set_blocking(caller, second, false));
    EXPECT(NIO_DONE, nio_register(caller, 0, second, 0, 0, &same));
    EXPECT(NIO_DONE, nio_set_blocking(caller, third, false));
    EXPECT(NIO_SELECTOR_FULL, nio_register(caller, 0, third, NIO_READ, 0, &never));
    EXPECT(NIO_NO_ROOM, nio_keys(caller, 0, list, 1, &count));
    HOLD(count == 2);
    EXPECT(NIO_DONE, nio_keys(caller, 0, list, 2, &count));
    HOLD(count == 2 && list[0].index == 0 && list[1].index == 1);
    EXPECT(NIO_NO_SUCH_SELECTOR, nio_keys(caller, 2, list, 2, &count));
    EXPECT(NIO_DONE, nio_cancel(caller, same));
    EXPECT(NIO_NO_SUCH_KEY, nio_cancel(caller, (nio_key){.selector = 0, .index = 1, .serial = 9}));
    EXPECT(NIO_CANCELLED_KEY, nio_interest(caller, same, &ops));
    EXPECT(NIO_CANCELLED_KEY, nio_register(caller, 0, second, NIO_READ, 0, &key));
    EXPECT(NIO_DONE, nio_close_channel(caller, second, &answer));
    EXPECT(NIO_REGISTERED, nio_reopen_channel(caller, second, &next));
    EXPECT(NIO_CLOSED_CHANNEL, nio_register(caller, 0, second, NIO_READ, 0, &key));
}

/* A key is marked, and another one is removed. */
static void listed_changes(nio_caller *caller, nio_caller *other)
{
    nio_pair ready = {.index = 0, .ready = NIO_READ | NIO_WRITE};
    nio_channel third = {.number = 2};
    nio_changed changes[2], *marked = &changes[0], *removed = &changes[1];
    nio_selected selected;
    nio_key key;
    size_t count = 9;
    bool answer;
    EXPECT(NIO_NOT_SELECTING, nio_told_listing(caller, 0, &ready, 1, false, false, &selected, changes, 2, &count));
    HOLD(count == 9);
    EXPECT(NIO_DONE, nio_register(caller, 0, third, NIO_READ, 0, &key));
    EXPECT(NIO_DONE, nio_begin(caller, 0, 0));
    EXPECT(NIO_AGAIN, nio_told_listing(caller, 0, &ready, 0, false, false, &selected, changes, 2, &count));
    HOLD(count == 0);
    EXPECT(NIO_DONE, nio_cancel(other, key));
    EXPECT(NIO_DONE, nio_told_listing(caller, 0, &ready, 1, false, false, &selected, changes, 2, &count));
    HOLD(count == 2 && selected.count == 1);
    HOLD(marked->index == 0 && marked->serial == 0 && marked->channel == 0);
    HOLD(marked->ready == NIO_READ && !marked->removed);
    HOLD(removed->index == key.index && removed->serial == key.serial && removed->channel == 2);
    HOLD(removed->ready == 0 && removed->removed);

    /* There is no room. */
    EXPECT(NIO_DONE, nio_unselect(other, (nio_key){.selector = 0}, &answer));
    HOLD(answer);
    EXPECT(NIO_DONE, nio_begin_now(caller, 0));
    EXPECT(NIO_DONE, nio_told_listing(caller, 0, &ready, 1, false, false, &selected, changes, 0, &count));
    HOLD(count == 1 && marked->ready == NIO_READ);
    EXPECT(NIO_DONE, nio_unselect(other, (nio_key){.selector = 0}, &answer));
}

static void selections(nio_caller *caller, nio_caller *other)
{
    nio_looked looked[2];
    nio_pair ready = {.index = 0, .ready = NIO_READ | NIO_WRITE};
    nio_channel first = {.number = 0};
    nio_key key = {.selector = 0}, list[2];
    nio_selected selected = {.count = 9, .why = 9};
    nio_ops ops;
    size_t count;
    bool answer;
    EXPECT(NIO_NOT_SELECTING, nio_asked(caller, 0, looked, 2, &count));
    EXPECT(NIO_NOT_SELECTING, nio_told(caller, 0, &ready, 1, false, false, &selected));
    EXPECT(NIO_NOT_SELECTING, nio_leave(caller, 0));
    EXPECT(NIO_NO_SUCH_SELECTOR, nio_begin(caller, 1, 0));
    EXPECT(NIO_ILLEGAL_ARGUMENT, nio_begin(caller, 0, -1));
    EXPECT(NIO_DONE, nio_begin(caller, 0, 0));
    EXPECT(NIO_BUSY, nio_begin(caller, 0, 0));
    EXPECT(NIO_BUSY, nio_begin(other, 0, 0));
    EXPECT(NIO_NOT_SELECTING, nio_leave(other, 0));
    EXPECT(NIO_NO_ROOM, nio_asked(caller, 0, looked, 0, &count));
    HOLD(count == 1);
    EXPECT(NIO_DONE, nio_asked(caller, 0, looked, 2, &count));
    HOLD(count == 1 && looked[0].index == 0 && looked[0].channel == 0 && looked[0].interest == NIO_READ);
    EXPECT(NIO_AGAIN, nio_told(caller, 0, &ready, 0, true, false, &selected));
    HOLD(selected.count == 9 && selected.why == 9);
    EXPECT(NIO_DONE, nio_told(caller, 0, &ready, 1, false, false, &selected));
    HOLD(selected.count == 1 && selected.why == NIO_WHY_READY);
    EXPECT(NIO_DONE, nio_ready(other, key, &ops));
    HOLD(ops == NIO_READ);
    EXPECT(NIO_DONE, nio_selected_keys(other, 0, list, 2, &count));
    HOLD(count == 1 && list[0].index == 0);

    /* The key is selected already with what is told: the selection goes on. */
    EXPECT(NIO_DONE, nio_begin(caller, 0, INT64_MAX));
    EXPECT(NIO_AGAIN, nio_told(caller, 0, &ready, 1, false, false, &selected));
    EXPECT(NIO_DONE, nio_told(caller, 0, &ready, 1, true, false, &selected));
    HOLD(selected.count == 0 && selected.why == NIO_WHY_ELAPSED);

    /* That it is ready is enough: the selection is over. */
    EXPECT(NIO_DONE, nio_begin(caller, 0, INT64_MAX));
    EXPECT(NIO_AGAIN, nio_told(caller, 0, &ready, 0, false, true, &selected));
    EXPECT(NIO_DONE, nio_told(caller, 0, &ready, 1, false, true, &selected));
    HOLD(selected.count == 0 && selected.why == NIO_WHY_ELAPSED);

    EXPECT(NIO_DONE, nio_unselect(other, key, &answer));
    HOLD(answer);
    EXPECT(NIO_DONE, nio_unselect(other, key, &answer));
    HOLD(!answer);
    EXPECT(NIO_NO_SUCH_KEY, nio_take_selected(other, first, 0, &list[0]));
    EXPECT(NIO_DONE, nio_begin_now(caller, 0));
    EXPECT(NIO_DONE, nio_told(caller, 0, &ready, 1, false, false, &selected));
    EXPECT(NIO_DONE, nio_take_selected(other, first, 0, &list[0]));
    EXPECT(NIO_DONE, nio_begin_now(caller, 0));
    EXPECT(NIO_DONE, nio_told(caller, 0, &ready, 1, false, false, &selected));
    EXPECT(NIO_NO_ROOM, nio_take_all_selected(other, 0, list, 0, &count));
    HOLD(count == 1);
    EXPECT(NIO_DONE, nio_take_all_selected(other, 0, list, 2, &count));
    HOLD(count == 1 && list[0].index == 0);
    EXPECT(NIO_DONE, nio_take_all_selected(other, 0, list, 2, &count));
    HOLD(count == 0);
    listed_changes(caller, other);

    EXPECT(NIO_DONE, nio_wakeup(other, 0, &answer));
    HOLD(!answer);
    EXPECT(NIO_DONE, nio_wakeup(caller, 0, &answer));
    HOLD(answer);
    EXPECT(NIO_NO_SUCH_SELECTOR, nio_wakeup(other, 2, &answer));
    EXPECT(NIO_DONE, nio_begin(caller, 0, 0));
    EXPECT(NIO_DONE, nio_told(caller, 0, &ready, 0, false, false, &selected));
    HOLD(selected.count == 0 && selected.why == NIO_WHY_WOKEN);
    EXPECT(NIO_DONE, nio_wakeup(other, 0, &answer));
    HOLD(!answer);
    EXPECT(NIO_DONE, nio_begin_now(caller, 0));
    EXPECT(NIO_DONE, nio_told(caller, 0, &ready, 0, false, false, &selected));
    EXPECT(NIO_DONE, nio_interrupt(other, 0));
    EXPECT(NIO_NO_SUCH_CALLER, nio_interrupt(other, 3));
    EXPECT(NIO_DONE, nio_begin(caller, 0, 0));
    EXPECT(NIO_DONE, nio_told(caller, 0, &ready, 0, false, false, &selected));
    HOLD(selected.count == 0 && selected.why == NIO_WHY_INTERRUPTED);
    EXPECT(NIO_DONE, nio_interrupted(caller, &answer));
    HOLD(answer);
    EXPECT(NIO_DONE, nio_interrupted(caller, &answer));
    HOLD(!answer);
    EXPECT(NIO_DONE, nio_begin(caller, 0, 5));
    EXPECT(NIO_DONE, nio_told(caller, 0, &ready, 0, true, false, &selected));
    HOLD(selected.count == 0 && selected.why == NIO_WHY_ELAPSED);
    EXPECT(NIO_DONE, nio_begin(caller, 0, 5));
    EXPECT(NIO_DONE, nio_leave(caller, 0));

    EXPECT(NIO_DONE, nio_take_list(caller, 0, &answer));
    HOLD(answer);
    EXPECT(NIO_DONE, nio_take_list(other, 0, &answer));
    HOLD(!answer);
    EXPECT(NIO_DONE, nio_begin_now(caller, 0));
    EXPECT(NIO_DONE, nio_asked(caller, 0, looked, 2, &count));
    HOLD(count == 1);
}

/* The selection that the last call left in progress goes on here. */
static void closing(nio_caller *caller, nio_caller *other)
{
    nio_pair none = {0};
    nio_key list[2];
    nio_selected selected;
    uint32_t selector;
    size_t count;
    bool answer;
    EXPECT(NIO_NO_SUCH_SELECTOR, nio_shut(other, 2, &answer));
    EXPECT(NIO_NOT_CLOSING, nio_try_finish(other, 0));
    EXPECT(NIO_DONE, nio_shut(other, 0, &answer));
    HOLD(answer);
    EXPECT(NIO_DONE, nio_shut(caller, 0, &answer));
    HOLD(!answer);
    EXPECT(NIO_BUSY, nio_try_finish(other, 0));
    EXPECT(NIO_DONE, nio_told(caller, 0, &none, 0, false, false, &selected));
    HOLD(selected.why == NIO_WHY_CLOSED);
    EXPECT(NIO_DONE, nio_try_finish(other, 0));
    EXPECT(NIO_NOT_CLOSING, nio_try_finish(other, 0));
    EXPECT(NIO_CLOSED_SELECTOR, nio_begin(caller, 0, 0));
    EXPECT(NIO_CLOSED_SELECTOR, nio_keys(caller, 0, list, 2, &count));
    EXPECT(NIO_CLOSED_SELECTOR, nio_register(caller, 0, (nio_channel){.number = 2}, NIO_READ, 0, &list[0]));
    EXPECT(NIO_DONE, nio_open_selector(caller, &selector));
    EXPECT(NIO_DONE, nio_open_selector(caller, &selector));
    HOLD(selector == 2);
    EXPECT(NIO_SPENT, nio_open_selector(caller, &selector));
}

int main(void)
{
    nio_caller caller = {0}, other = {0};
    handles();
    coming_back();
    empty_handles();
    EXPECT(NIO_DONE, nio_make(&limits, &caller));
    EXPECT(NIO_DONE, nio_split(&caller, 1, &other));
    channels(&caller);
    keys(&caller, &other);
    selections(&caller, &other);
    closing(&caller, &other);
    EXPECT(NIO_DONE, nio_free(&caller));
    EXPECT(NIO_DONE, nio_free(&other));
    /* Want of memory and 2^32 channels of one number aren't to be had here. */
    for (nio_status status = 0; status <= NIO_REGISTERED; status++)
        if (!was_seen[status] && status != NIO_NO_MEMORY && status != NIO_SERIALS_SPENT) {
            printf("status %u didn't come\n", (unsigned)status);
            failures++;
        }
    if (failures == 0)
        printf("all as it should be\n");
    else
        printf("%u wrong\n", failures);
    return failures == 0 ? 0 : 1;
}
