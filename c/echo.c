/*
 * An echo server over epoll, with one selector. A second thread makes two connections to it, sends a text over each and
 * reads what comes back; then it wakes the server's selection, and the server ends.
 */
#define _GNU_SOURCE
#include "nio.h"

#include <arpa/inet.h>
#include <errno.h>
#include <pthread.h>
#include <stdatomic.h>
#include <stdio.h>
#include <stdlib.h>
#include <string.h>
#include <sys/epoll.h>
#include <sys/eventfd.h>
#include <sys/socket.h>
#include <unistd.h>

enum { MOST = 16, ROOM = 512 };
#define BELL UINT32_MAX

/* What the program knows of a channel, at the place of its number. */
typedef struct connection {
    int fd;
    nio_channel channel;
    char bytes[ROOM];
    size_t held;
} connection;

typedef struct server {
    nio_caller caller;
    uint32_t selector;
    int poll;
    int bell;
    connection links[MOST];
    uint32_t armed[MOST]; /* what epoll watches for, at the place of a key's index */
} server;

typedef struct client {
    nio_caller caller;
    uint32_t selector;
    int bell;
    uint16_t port;
    atomic_bool over;
} client;

static void must(bool holds, const char *what)
{
    if (!holds) {
        fprintf(stderr, "echo: %s\n", what);
        exit(1);
    }
}

static void done(nio_status status, const char *what)
{
    if (status != NIO_DONE) {
        fprintf(stderr, "echo: %s: status %u\n", what, (unsigned)status);
        exit(1);
    }
}

static uint32_t events_of(nio_ops interest)
{
    uint32_t events = 0;
    if (interest & (NIO_READ | NIO_ACCEPT))
        events |= EPOLLIN;
    if (interest & NIO_WRITE)
        events |= EPOLLOUT;
    return events;
}

static nio_ops ops_of(uint32_t events)
{
    nio_ops ops = 0;
    if (events & (EPOLLIN | EPOLLHUP | EPOLLERR))
        ops |= NIO_READ | NIO_ACCEPT;
    if (events & (EPOLLOUT | EPOLLHUP | EPOLLERR))
        ops |= NIO_WRITE;
    return ops;
}

/* Gives a descriptor a channel, and registers it; or closes it, where each channel is open. */
static void adopt(server *s, int fd, uint32_t kind, nio_ops ops)
{
    nio_channel channel;
    nio_key key;
    nio_status status = nio_open_channel(&s->caller, kind, &channel);
    if (status == NIO_SPENT) {
        close(fd);
        return;
    }
    done(status, "open");
    done(nio_set_blocking(&s->caller, channel, false), "non-blocking");
    s->links[channel.number] = (connection){.fd = fd, .channel = channel};
    done(nio_register(&s->caller, s->selector, channel, ops, channel.number, &key), "register");
    struct epoll_event event = {.events = 0, .data.u32 = key.index};
    must(epoll_ctl(s->poll, EPOLL_CTL_ADD, fd, &event) == 0, "epoll_ctl");
    s->armed[key.index] = 0;
}

/* Makes epoll watch for what the selection asks for. */
static void arm(server *s)
{
    nio_looked asked[MOST];
    size_t count;
    done(nio_asked(&s->caller, s->selector, asked, MOST, &count), "asked");
    for (size_t i = 0; i < count; i++) {
        uint32_t events = events_of(asked[i].interest);
        if (s->armed[asked[i].index] == events)
            continue;
        struct epoll_event event = {.events = events, .data.u32 = asked[i].index};
        must(epoll_ctl(s->poll, EPOLL_CTL_MOD, s->links[asked[i].channel].fd, &event) == 0, "epoll_ctl");
        s->armed[asked[i].index] = events;
    }
}

/* Polls, and notes what is ready. */
static size_t poll_once(server *s, int timeout, nio_pair *pairs)
{
    struct epoll_event events[MOST];
    int found = epoll_wait(s->poll, events, MOST, timeout);
    must(found >= 0 || errno == EINTR, "epoll_wait");
    size_t count = 0;
    for (int i = 0; i < found; i++) {
        uint64_t rung;
        if (events[i].data.u32 == BELL)
            must(read(s->bell, &rung, sizeof rung) == sizeof rung, "bell");
        else
            pairs[count++] = (nio_pair){.index = events[i].data.u32, .ready = ops_of(events[i].events)};
    }
    return count;
}

/* One whole selection: Java's select(). */
static void select_once(server *s)
{
    nio_selected selected;
    nio_pair pairs[MOST];
    done(nio_begin(&s->caller, s->selector, 0), "begin");
    arm(s);
    int timeout = 0;
    for (;;) {
        size_t count = poll_once(s, timeout, pairs);
        nio_status status = nio_told(&s->caller, s->selector, pairs, count, false, false, &selected);
        if (status == NIO_DONE)
            return;
        must(status == NIO_AGAIN, "told");
        timeout = -1;
    }
}

static void hang_up(server *s, connection *l)
{
    bool closed;
    done(nio_close_channel(&s->caller, l->channel, &closed), "close");
    close(l->fd);
}

/* Reads, or writes what was read. False: the connection is over. */
static bool echo(connection *l)
{
    ssize_t count =
        l->held == 0 ? read(l->fd, l->bytes, ROOM) : send(l->fd, l->bytes, l->held, MSG_NOSIGNAL);
    if (count < 0)
        return errno == EAGAIN || errno == EINTR;
    if (l->held == 0) {
        l->held = (size_t)count;
        return count != 0;
    }
    l->held -= (size_t)count;
    memmove(l->bytes, l->bytes + count, l->held);
    return true;
}

static void serve(server *s, nio_key key)
{
    uint64_t number;
    done(nio_attachment(&s->caller, key, &number), "attachment");
    connection *l = &s->links[number];
    nio_ops interest;
    if (nio_interest(&s->caller, key, &interest) != NIO_DONE)
        return;
    if (interest & NIO_ACCEPT) {
        int fd = accept4(l->fd, NULL, NULL, SOCK_NONBLOCK);
        if (fd >= 0)
            adopt(s, fd, NIO_STREAM, NIO_READ);
        return;
    }
    if (!echo(l)) {
        hang_up(s, l);
        return;
    }
    done(nio_set_interest(&s->caller, key, l->held == 0 ? NIO_READ : NIO_WRITE), "interest");
}

static void say(uint16_t port, const char *text)
{
    char answer[ROOM];
    struct sockaddr_in to = {.sin_family = AF_INET, .sin_port = htons(port), .sin_addr.s_addr = htonl(INADDR_LOOPBACK)};
    int fd = socket(AF_INET, SOCK_STREAM, 0);
    must(fd >= 0 && connect(fd, (struct sockaddr *)&to, sizeof to) == 0, "connect");
    must(write(fd, text, strlen(text)) == (ssize_t)strlen(text) && shutdown(fd, SHUT_WR) == 0, "send");
    size_t held = 0;
    ssize_t count;
    while ((count = read(fd, answer + held, ROOM - held)) > 0)
        held += (size_t)count;
    must(count == 0 && held == strlen(text) && memcmp(answer, text, held) == 0, "what came back");
    printf("%.*s\n", (int)held, answer);
    close(fd);
}

/* The second thread. */
static void *talk(void *argument)
{
    client *c = argument;
    uint64_t one = 1;
    bool pending;
    say(c->port, "hello");
    say(c->port, "again");
    atomic_store(&c->over, true);
    done(nio_wakeup(&c->caller, c->selector, &pending), "wakeup");
    must(pending || write(c->bell, &one, sizeof one) == sizeof one, "ring");
    return NULL;
}

static void listen_at(server *s, uint16_t *port)
{
    struct sockaddr_in at = {.sin_family = AF_INET, .sin_addr.s_addr = htonl(INADDR_LOOPBACK)};
    socklen_t length = sizeof at;
    int fd = socket(AF_INET, SOCK_STREAM | SOCK_NONBLOCK, 0);
    must(fd >= 0 && bind(fd, (struct sockaddr *)&at, sizeof at) == 0 && listen(fd, 8) == 0, "listen");
    must(getsockname(fd, (struct sockaddr *)&at, &length) == 0, "getsockname");
    *port = ntohs(at.sin_port);
    adopt(s, fd, NIO_LISTENER, NIO_ACCEPT);
}

int main(void)
{
    static server s;
    static client c;
    pthread_t thread;
    nio_limits limits = {.callers = 2, .selectors = 1, .channels = MOST, .keys = MOST};
    s.poll = epoll_create1(0);
    s.bell = eventfd(0, EFD_NONBLOCK);
    struct epoll_event event = {.events = EPOLLIN, .data.u32 = BELL};
    must(s.poll >= 0 && s.bell >= 0 && epoll_ctl(s.poll, EPOLL_CTL_ADD, s.bell, &event) == 0, "epoll");

    done(nio_make(&limits, &s.caller), "make");
    done(nio_open_selector(&s.caller, &s.selector), "selector");
    listen_at(&s, &c.port);
    done(nio_split(&s.caller, 1, &c.caller), "split");
    c.selector = s.selector;
    c.bell = s.bell;
    must(pthread_create(&thread, NULL, talk, &c) == 0, "thread");

    while (!atomic_load(&c.over)) {
        nio_key keys[MOST];
        size_t count;
        select_once(&s);
        done(nio_take_all_selected(&s.caller, s.selector, keys, MOST, &count), "selected");
        for (size_t i = 0; i < count; i++)
            serve(&s, keys[i]);
    }

    must(pthread_join(thread, NULL) == 0, "join");
    bool began;
    done(nio_shut(&s.caller, s.selector, &began), "shut");
    done(nio_try_finish(&s.caller, s.selector), "finish");
    hang_up(&s, &s.links[0]);
    close(s.poll);
    close(s.bell);
    done(nio_free(&c.caller), "free");
    done(nio_free(&s.caller), "free");
    return 0;
}
