/*
 * The native methods of nio.provider.Table: a proved table with one selector, an epoll descriptor and a bell.
 *
 * Callers are lent to threads. Cell 0 has the caller of selections: its methods (start, poll, tell, leave, remove) are
 * called with the selector's monitor. Every other method takes one of the other cells for the time of the call. A cell
 * that is GONE is of a table that was let go: its caller makes no more calls.
 *
 * An answer below 0 is minus a status of nio.h, or one of nio.provider.Table's own.
 */
#define _GNU_SOURCE
#include "nio.h"
#include "nio_provider_Table.h"

#include <errno.h>
#include <sched.h>
#include <stdatomic.h>
#include <stddef.h>
#include <stdlib.h>
#include <string.h>
#include <sys/epoll.h>
#include <sys/eventfd.h>
#include <unistd.h>

#define STATUS(name) _Static_assert(nio_provider_Table_##name == (int)NIO_##name, "Table." #name)
STATUS(AGAIN);
STATUS(NO_MEMORY);
STATUS(NO_SUCH_KEY);
STATUS(SPENT);
STATUS(ILLEGAL_OPS);
STATUS(CANCELLED_KEY);
STATUS(CLOSED_SELECTOR);
STATUS(SELECTOR_FULL);

#define OVER nio_provider_Table_OVER
#define FAILED nio_provider_Table_FAILED

_Static_assert(sizeof(nio_key) == 3 * sizeof(jint), "a key is three numbers of Java's");

enum { CELLS = 8, KINDS = 5, EVENTS = 1024 };
enum { FREE, TAKEN, GONE };
#define BELL UINT32_MAX
#define NONE UINT32_MAX

/* A caller that is lent, on a cache line of its own. */
typedef struct cell {
    _Alignas(64) atomic_int state;
    nio_caller caller;
} cell;

/* What is known of a channel, at the place of its number. */
typedef struct place {
    int fd;
    uint32_t serial;
    uint32_t kind;
    uint32_t index;  /* of its key, */
    uint32_t key;    /* and that one's serial */
    uint32_t events; /* what epoll watches for */
    uint32_t next;   /* of the channels of its kind that are closed */
    uint32_t at;     /* where it is in what the last poll found */
    nio_ops interest;
    bool selected; /* its key was, before a selection with an action */
} place;

/* What a poll found. Java reads it, and writes what the channel is ready for. */
typedef struct found {
    uint32_t channel;
    jint index;
    jint events;
    jint interest;
    jint ready;
} found;

#define WORD(name, field)                                                                                              \
    _Static_assert(offsetof(found, field) == nio_provider_Table_##name * sizeof(jint), "Table." #name)
WORD(INDEX, index);
WORD(EVENTS, events);
WORD(INTEREST, interest);
WORD(READY, ready);
_Static_assert(sizeof(found) == nio_provider_Table_WORDS * sizeof(jint), "Table.WORDS");

typedef struct table {
    cell cells[CELLS];
    _Alignas(64) atomic_bool changed; /* since a selection began: what it asks for */
    _Alignas(64) uint32_t selector;
    int poll;
    int bell;
    uint32_t keys;
    cell *closing;         /* the caller that began to close the selector */
    uint32_t closed[KINDS]; /* the first channel of each kind that is closed */
    place *places;
    nio_looked *asked;
    nio_pair *pairs;
    nio_changed *marked; /* what the table marked */
    struct epoll_event *events;
    found *found;
    bool must_arm;
    bool is_gone;
} table;

static const char NO_MEMORY[] = "no memory for a selector";

#define NATIVE(type, name, ...)                                                                                        \
    JNIEXPORT type JNICALL Java_nio_provider_Table_##name(JNIEnv *env, jobject self, ##__VA_ARGS__)

static jfieldID address;

JNIEXPORT jint JNICALL JNI_OnLoad(JavaVM *machine, void *reserved)
{
    JNIEnv *env;
    (void)reserved;
    if ((*machine)->GetEnv(machine, (void **)&env, JNI_VERSION_10) != JNI_OK)
        return JNI_ERR;
    jclass class = (*env)->FindClass(env, "nio/provider/Table");
    if (class != NULL)
        address = (*env)->GetFieldID(env, class, "address", "J");
    return address != NULL ? JNI_VERSION_10 : JNI_ERR;
}

static table *table_of(JNIEnv *env, jobject self)
{
    return (table *)(intptr_t)(*env)->GetLongField(env, self, address);
}

/* ---- callers ---- */

/* Takes a cell; NULL where the table was let go. The environment, one for each thread, says where to begin. */
static cell *take(table *t, JNIEnv *env)
{
    uint32_t from = (uint32_t)(((uintptr_t)env * UINT64_C(0x9e3779b97f4a7c15)) >> 33);
    for (uint32_t tries = 0;; tries++) {
        cell *c = &t->cells[1 + (from + tries) % (CELLS - 1)];
        int state = FREE;
        if (atomic_compare_exchange_strong(&c->state, &state, TAKEN))
            return c;
        if (state == GONE)
            return NULL;
        if (tries % CELLS == CELLS - 1)
            sched_yield();
    }
}

static void give(cell *c)
{
    atomic_store(&c->state, FREE);
}

static jint answer(nio_status status)
{
    return -(jint)status;
}

/* What a status and the value behind it answer. */
static jint answer_or(nio_status status, jint value)
{
    return status == NIO_DONE ? value : answer(status);
}

/* ---- the bell ---- */

static void ring(table *t)
{
    uint64_t one = 1;
    ssize_t written = write(t->bell, &one, sizeof one);
    (void)written; /* it fails only where the bell rings already */
}

/* The table is told after the bell was emptied: so a wakeup whose ring this takes in is found then. */
static void silence(table *t)
{
    uint64_t rings;
    ssize_t count = read(t->bell, &rings, sizeof rings);
    (void)count;
}

/* ---- making and letting go ---- */

static void raise(JNIEnv *env, const char *text)
{
    jclass class = (*env)->FindClass(env, "java/io/IOException");
    if (class != NULL)
        (*env)->ThrowNew(env, class, text);
}

static void let_go(table *t)
{
    for (int i = 0; i < CELLS; i++)
        nio_free(&t->cells[i].caller);
    if (t->poll >= 0)
        close(t->poll);
    if (t->bell >= 0)
        close(t->bell);
    free(t->places);
    free(t->asked);
    free(t->pairs);
    free(t->marked);
    free(t->events);
    free(t->found);
}

static nio_status make_callers(table *t, uint32_t channels)
{
    nio_limits limits = {.callers = CELLS, .selectors = 1, .channels = channels, .keys = t->keys};
    bool taken;
    nio_status status = nio_make(&limits, &t->cells[0].caller);
    for (uint32_t i = 1; status == NIO_DONE && i < CELLS; i++)
        status = nio_split(&t->cells[0].caller, i, &t->cells[i].caller);
    if (status == NIO_DONE)
        status = nio_open_selector(&t->cells[0].caller, &t->selector);
    if (status == NIO_DONE)
        status = nio_take_list(&t->cells[0].caller, t->selector, &taken);
    return status;
}

static bool make_room(table *t, uint32_t channels)
{
    t->places = calloc(channels, sizeof *t->places);
    t->asked = malloc(t->keys * sizeof *t->asked);
    t->pairs = malloc(EVENTS * sizeof *t->pairs);
    t->marked = malloc(EVENTS * sizeof *t->marked);
    t->events = malloc(EVENTS * sizeof *t->events);
    t->found = malloc(EVENTS * sizeof *t->found);
    return t->places != NULL && t->asked != NULL && t->pairs != NULL && t->marked != NULL && t->events != NULL &&
           t->found != NULL;
}

static bool make_descriptors(table *t)
{
    struct epoll_event event = {.events = EPOLLIN, .data.u32 = BELL};
    t->poll = epoll_create1(EPOLL_CLOEXEC);
    t->bell = eventfd(0, EFD_NONBLOCK | EFD_CLOEXEC);
    return t->poll >= 0 && t->bell >= 0 && epoll_ctl(t->poll, EPOLL_CTL_ADD, t->bell, &event) == 0;
}

/* Makes what the table needs; why that failed, or NULL. */
static const char *fault_of(table *t, uint32_t channels)
{
    if (!make_descriptors(t))
        return strerror(errno);
    nio_status status = make_room(t, channels) ? make_callers(t, channels) : NIO_NO_MEMORY;
    if (status == NIO_DONE)
        return NULL;
    return status == NIO_ILLEGAL_ARGUMENT ? "nio.keys is to be from 1 to 262144" : NO_MEMORY;
}

JNIEXPORT jlong JNICALL Java_nio_provider_Table_make(JNIEnv *env, jclass class, jint keys, jint channels)
{
    (void)class;
    table *t = aligned_alloc(64, sizeof *t);
    if (t == NULL) {
        raise(env, NO_MEMORY);
        return 0;
    }
    memset(t, 0, sizeof *t);
    t->keys = (uint32_t)keys;
    t->poll = t->bell = -1;
    for (int kind = 0; kind < KINDS; kind++)
        t->closed[kind] = NONE;
    const char *fault = fault_of(t, (uint32_t)channels);
    if (fault == NULL)
        return (jlong)(intptr_t)t;
    raise(env, fault);
    let_go(t);
    free(t);
    return 0;
}

/* Begins to close the selector, by a caller that keeps the closing, and rings. */
NATIVE(void, shut)
{
    table *t = table_of(env, self);
    bool began;
    cell *c = take(t, env);
    if (c == NULL)
        return;
    nio_shut(&c->caller, t->selector, &began);
    t->closing = c;
    ring(t);
}

/* Ends the closing and lets the table go, after taking every cell. The struct stays: late calls still reach it. */
NATIVE(void, finish)
{
    table *t = table_of(env, self);
    if (t->closing == NULL)
        return;
    nio_try_finish(&t->closing->caller, t->selector);
    atomic_store(&t->closing->state, FREE);
    for (int i = 0; i < CELLS; i++) {
        int state = FREE;
        while (!atomic_compare_exchange_weak(&t->cells[i].state, &state, GONE)) {
            state = FREE;
            sched_yield();
        }
    }
    let_go(t);
    t->is_gone = true;
}

/* What polls find, for Java. */
JNIEXPORT jobject JNICALL Java_nio_provider_Table_foundAt(JNIEnv *env, jclass class, jlong at)
{
    table *t = (table *)(intptr_t)at;
    (void)class;
    return (*env)->NewDirectByteBuffer(env, t->found, EVENTS * sizeof *t->found);
}

JNIEXPORT void JNICALL Java_nio_provider_Table_release(JNIEnv *env, jclass class, jlong at)
{
    table *t = (table *)(intptr_t)at;
    (void)env;
    (void)class;
    if (!t->is_gone)
        let_go(t);
    free(t);
}

/* ---- selections: by the caller of cell 0 ---- */

static nio_caller *selecting(table *t)
{
    return &t->cells[0].caller;
}

static uint32_t events_of(nio_ops interest)
{
    uint32_t events = 0;
    if (interest & (NIO_READ | NIO_ACCEPT))
        events |= EPOLLIN;
    if (interest & (NIO_WRITE | NIO_CONNECT))
        events |= EPOLLOUT;
    return events;
}

/* Makes epoll watch for what the selection looks for. As in the JDK a descriptor that epoll refuses is never ready. */
static void watch(table *t, const nio_looked *looked)
{
    place *p = &t->places[looked->channel];
    uint32_t events = events_of(looked->interest);
    p->index = looked->index;
    p->key = looked->serial;
    p->interest = looked->interest;
    if (events == p->events)
        return;
    struct epoll_event event = {.events = events, .data.u32 = looked->channel};
    int call = events == 0 ? EPOLL_CTL_DEL : p->events == 0 ? EPOLL_CTL_ADD : EPOLL_CTL_MOD;
    epoll_ctl(t->poll, call, p->fd, &event);
    p->events = events;
}

/* The same for all keys that the selection asks for, where they may have changed. */
static void arm(table *t)
{
    size_t count;
    if (!t->must_arm || nio_asked(selecting(t), t->selector, t->asked, t->keys, &count) != NIO_DONE)
        return;
    for (size_t i = 0; i < count; i++)
        watch(t, &t->asked[i]);
    t->must_arm = false;
}

/* Whoever changes what selections ask for calls this afterwards. */
static void note_change(table *t)
{
    if (!atomic_load(&t->changed))
        atomic_store(&t->changed, true);
}

/* The flag is cleared before the selection begins: so a change that it doesn't find sets the flag for the next one. */
static nio_status begin_for(table *t, jlong ms)
{
    if (atomic_load(&t->changed)) {
        atomic_store(&t->changed, false);
        t->must_arm = true;
    }
    if (ms == nio_provider_Table_NOW)
        return nio_begin_now(selecting(t), t->selector);
    return nio_begin(selecting(t), t->selector, ms == 0 ? INT64_MAX : ms);
}

/* Polls once. Answers how many events there are, or FAILED, where Java has an exception. */
static jint wait_for(JNIEnv *env, table *t, int timeout)
{
    int count = epoll_wait(t->poll, t->events, EVENTS, timeout);
    if (count >= 0)
        return count;
    if (errno == EINTR)
        return 0;
    raise(env, strerror(errno));
    return FAILED;
}

/* Notes each key that so many events are of, and empties the bell where one is the bell's. Answers how many keys there
 * are. */
static jint note_found(table *t, jint count)
{
    jint noted = 0;
    for (jint i = 0; i < count; i++) {
        uint32_t number = t->events[i].data.u32;
        if (number == BELL) {
            silence(t);
            continue;
        }
        place *p = &t->places[number];
        p->at = (uint32_t)noted;
        t->found[noted++] = (found){number, (jint)p->index, (jint)t->events[i].events, p->interest, 0};
    }
    return noted;
}

/* Polls once, and notes what was found. */
static jint poll_once(JNIEnv *env, table *t, int timeout)
{
    jint count = wait_for(env, t, timeout);
    return count < 0 ? count : note_found(t, count);
}

static int timeout_of(jlong ms)
{
    return ms <= 0 ? -1 : ms > INT32_MAX ? INT32_MAX : (int)ms;
}

/* After the first poll, which didn't wait and found so many keys: where there is none the table is told so, and then
 * the next poll waits. */
static jint go_on(JNIEnv *env, table *t, jlong ms, jint count)
{
    nio_selected selected;
    if (count != 0)
        return count;
    nio_status status = nio_told(selecting(t), t->selector, t->pairs, 0, false, false, &selected);
    if (status == NIO_AGAIN)
        return poll_once(env, t, timeout_of(ms));
    return status == NIO_DONE ? OVER : answer(status);
}

/* Polls for what the selection asks for. */
static jint look_for(JNIEnv *env, table *t, jlong ms)
{
    arm(t);
    return go_on(env, t, ms, poll_once(env, t, 0));
}

static jint start_at(JNIEnv *env, table *t, jlong ms)
{
    nio_status status = begin_for(t, ms);
    return status == NIO_DONE ? look_for(env, t, ms) : answer(status);
}

/* A selection that doesn't wait, while epoll watches for all that it would ask for. It polls first. Where that finds
 * nothing, not the bell either, no wakeup is pending, and there is nothing to mark or to remove: the table would answer
 * 0 and stay as it is, so it isn't asked. Else it begins, and takes what was found, or polls again where something
 * changed meanwhile. */
static jint start_settled(JNIEnv *env, table *t)
{
    const jlong now = nio_provider_Table_NOW;
    jint count = wait_for(env, t, 0);
    if (count <= 0)
        return count == 0 ? OVER : count;
    nio_status status = begin_for(t, now);
    if (status != NIO_DONE)
        return answer(status);
    if (t->must_arm)
        return look_for(env, t, now);
    return go_on(env, t, now, note_found(t, count));
}

/* Begins a selection, and looks. Java calls it where no key is cancelled that the table wasn't told of. */
NATIVE(jint, start, jlong ms)
{
    table *t = table_of(env, self);
    bool settled = !t->must_arm && !atomic_load(&t->changed);
    return settled && ms == nio_provider_Table_NOW ? start_settled(env, t) : start_at(env, t, ms);
}

NATIVE(jint, poll, jlong ms)
{
    return poll_once(env, table_of(env, self), timeout_of(ms));
}

static nio_key key_found(const table *t, const found *f)
{
    return (nio_key){t->selector, (uint32_t)f->index, t->places[f->channel].key};
}

/* Takes each key that is ready out of the selected set: so the table marks it, selected before or not. */
static void unselect_ready(table *t, jint count)
{
    for (const found *f = t->found; f < t->found + count; f++)
        if (f->ready != 0)
            nio_unselect(selecting(t), key_found(t, f), &t->places[f->channel].selected);
}

/* Takes what was marked out again, unless it was selected before. */
static void unselect_added(table *t, jint count)
{
    bool taken;
    for (const found *f = t->found; f < t->found + count; f++)
        if (f->ready != 0 && !t->places[f->channel].selected)
            nio_unselect(selecting(t), key_found(t, f), &taken);
}

/* Tells the table. As the JDK's, a selection is over once a poll found anything, also where only such keys are ready as
 * are selected with these operations already, or where Java knows that what was found is cancelled: its time is said to
 * be over then. Each key that the table marked gets its ready set, and each other one 0. It marks no more than it is
 * told of, and removes none: a key is cancelled in the table by `remove` alone, which removes it too. */
static nio_status tell_found(table *t, jint count, bool elapsed, nio_selected *selected)
{
    size_t marked = 0;
    for (jint i = 0; i < count; i++) {
        t->pairs[i] = (nio_pair){.index = (uint32_t)t->found[i].index, .ready = (nio_ops)t->found[i].ready};
        t->found[i].ready = 0;
    }
    nio_status status = nio_told_listing(selecting(t), t->selector, t->pairs, (size_t)count, elapsed || count > 0,
                                         false, selected, t->marked, EVENTS, &marked);
    for (size_t i = 0; i < marked; i++)
        t->found[t->places[t->marked[i].channel].at].ready = t->marked[i].ready;
    return status;
}

/* Tells what each key that the last poll found is ready for. */
NATIVE(jint, tell, jint count, jboolean elapsed, jboolean consumes)
{
    table *t = table_of(env, self);
    nio_selected selected = {0};
    if (consumes)
        unselect_ready(t, count);
    nio_status status = tell_found(t, count, elapsed, &selected);
    if (consumes)
        unselect_added(t, count);
    return answer_or(status, (jint)selected.count);
}

/* Ends a selection that failed. A wakeup stays pending, so the bell rings again. */
NATIVE(void, leave)
{
    table *t = table_of(env, self);
    if (nio_leave(selecting(t), t->selector) == NIO_DONE)
        ring(t);
}

static nio_key key_named(const table *t, const jint *names)
{
    return (nio_key){t->selector, (uint32_t)names[1], (uint32_t)names[2]};
}

/* ---- registering: Java lets one thread at a time do it ---- */

/* Opens a channel of this kind: of a number that had one, if any. */
static nio_status open_channel(table *t, nio_caller *caller, uint32_t kind, nio_channel *channel)
{
    uint32_t number = t->closed[kind];
    if (number != NONE) {
        nio_channel before = {number, t->places[number].serial};
        t->closed[kind] = t->places[number].next;
        if (nio_reopen_channel(caller, before, channel) == NIO_DONE)
            return NIO_DONE;
    }
    return nio_open_channel(caller, kind, channel);
}

static void close_channel(table *t, nio_caller *caller, uint32_t number)
{
    place *p = &t->places[number];
    bool closed;
    nio_close_channel(caller, (nio_channel){number, p->serial}, &closed);
    p->next = t->closed[p->kind];
    t->closed[p->kind] = number;
}

static nio_status register_channel(table *t, nio_caller *caller, place of, nio_ops ops, jint *names)
{
    nio_channel channel;
    nio_key key;
    nio_status status = open_channel(t, caller, of.kind, &channel);
    if (status != NIO_DONE)
        return status;
    of.serial = channel.serial;
    t->places[channel.number] = of; /* a selection may see the key before it is known here */
    status = nio_set_blocking(caller, channel, false);
    if (status == NIO_DONE)
        status = nio_register(caller, t->selector, channel, ops, 0, &key);
    if (status != NIO_DONE) {
        close_channel(t, caller, channel.number);
        return status;
    }
    names[0] = (jint)channel.number;
    names[1] = (jint)key.index;
    names[2] = (jint)key.serial;
    return NIO_DONE;
}

/* Writes the numbers of the channel, and the index and the serial of its key. */
NATIVE(jint, register, jint fd, jint kind, jint ops, jintArray names)
{
    table *t = table_of(env, self);
    jint made[3];
    cell *c = take(t, env);
    if (c == NULL)
        return answer(NIO_CLOSED_SELECTOR);
    place of = {.fd = fd, .kind = (uint32_t)kind};
    nio_status status = register_channel(t, &c->caller, of, (nio_ops)ops, made);
    if (status == NIO_DONE) {
        note_change(t);
        (*env)->SetIntArrayRegion(env, names, 0, 3, made);
    }
    give(c);
    return answer(status);
}

/* Lets a channel go whose key was removed. */
static void forget(table *t, uint32_t number)
{
    if (t->places[number].events != 0)
        epoll_ctl(t->poll, EPOLL_CTL_DEL, t->places[number].fd, NULL);
    close_channel(t, selecting(t), number);
}

/* Cancels these keys, and removes them by a selection that only begins: a wakeup stays pending. */
NATIVE(jint, remove, jintArray names)
{
    table *t = table_of(env, self);
    jsize count = (*env)->GetArrayLength(env, names) / 3;
    jint *each = (*env)->GetIntArrayElements(env, names, NULL);
    if (each == NULL)
        return answer(NIO_NO_MEMORY);
    for (jsize i = 0; i < count; i++)
        nio_cancel(selecting(t), key_named(t, each + 3 * i));
    nio_status status = nio_begin_now(selecting(t), t->selector);
    if (status == NIO_DONE) {
        nio_leave(selecting(t), t->selector);
        for (jsize i = 0; i < count; i++)
            forget(t, (uint32_t)each[3 * i]);
    }
    (*env)->ReleaseIntArrayElements(env, names, each, JNI_ABORT);
    return answer(status);
}

/* ---- calls of any thread ---- */

NATIVE(void, wakeup)
{
    table *t = table_of(env, self);
    cell *c = take(t, env);
    if (c == NULL)
        return;
    bool pending = false;
    nio_wakeup(&c->caller, t->selector, &pending);
    if (!pending)
        ring(t);
    give(c);
}

/* Writes selector, index and serial of each key, where there is room for all. Answers how many there are. */
NATIVE(jint, keys, jintArray into)
{
    table *t = table_of(env, self);
    size_t count = 0;
    jsize length = (*env)->GetArrayLength(env, into);
    cell *c = take(t, env);
    if (c == NULL)
        return answer(NIO_CLOSED_SELECTOR);
    nio_status status = NIO_NO_MEMORY;
    void *keys = (*env)->GetPrimitiveArrayCritical(env, into, NULL);
    if (keys != NULL) {
        status = nio_keys(&c->caller, t->selector, keys, (size_t)length / 3, &count);
        (*env)->ReleasePrimitiveArrayCritical(env, into, keys, 0);
    }
    give(c);
    return answer_or(status == NIO_NO_ROOM ? NIO_DONE : status, (jint)count);
}

/* A caller for a call on a key. */
typedef struct key_call {
    table *table;
    cell *cell;
    nio_key key;
} key_call;

static bool lend(JNIEnv *env, jobject self, jint index, jint serial, key_call *call)
{
    table *t = table_of(env, self);
    call->table = t;
    call->cell = take(t, env);
    if (call->cell == NULL)
        return false;
    call->key = (nio_key){t->selector, (uint32_t)index, (uint32_t)serial};
    return true;
}

/* A key of a table that was let go is cancelled. */
static const jint NO_CALL = -NIO_CANCELLED_KEY;

NATIVE(jint, interest, jint index, jint serial)
{
    key_call call;
    nio_ops ops = 0;
    if (!lend(env, self, index, serial, &call))
        return NO_CALL;
    nio_status status = nio_interest(&call.cell->caller, call.key, &ops);
    give(call.cell);
    return answer_or(status, ops);
}

NATIVE(jint, setInterest, jint index, jint serial, jint ops)
{
    key_call call;
    if (!lend(env, self, index, serial, &call))
        return NO_CALL;
    nio_status status = nio_set_interest(&call.cell->caller, call.key, (nio_ops)ops);
    note_change(call.table);
    give(call.cell);
    return answer(status);
}

NATIVE(jint, interestOr, jint index, jint serial, jint ops)
{
    key_call call;
    nio_ops before = 0;
    if (!lend(env, self, index, serial, &call))
        return NO_CALL;
    nio_status status = nio_interest_or(&call.cell->caller, call.key, (nio_ops)ops, &before);
    note_change(call.table);
    give(call.cell);
    return answer_or(status, before);
}

NATIVE(jint, interestAnd, jint index, jint serial, jint ops)
{
    key_call call;
    nio_ops before = 0;
    if (!lend(env, self, index, serial, &call))
        return NO_CALL;
    nio_status status = nio_interest_and(&call.cell->caller, call.key, (nio_ops)ops, &before);
    note_change(call.table);
    give(call.cell);
    return answer_or(status, before);
}

NATIVE(jboolean, unselect, jint index, jint serial)
{
    key_call call;
    bool taken = false;
    if (!lend(env, self, index, serial, &call))
        return JNI_FALSE;
    nio_unselect(&call.cell->caller, call.key, &taken);
    give(call.cell);
    return taken;
}

/* Takes these keys out of the selected set, of whose names there are so many. */
NATIVE(void, unselectAll, jintArray names, jint count)
{
    table *t = table_of(env, self);
    bool taken;
    jint some[3 * 64];
    jint most = sizeof some / sizeof *some;
    cell *c = take(t, env);
    if (c == NULL)
        return;
    for (jint from = 0; from < count; from += most) {
        jint length = count - from < most ? count - from : most;
        (*env)->GetIntArrayRegion(env, names, from, length, some);
        for (jint i = 0; i < length; i += 3)
            nio_unselect(&c->caller, key_named(t, some + i), &taken);
    }
    give(c);
}
