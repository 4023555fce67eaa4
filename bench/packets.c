/* A relay of packets over epoll, in one thread, that does what `nio packets` does: packets LISTEN LOCAL TARGET COUNT,
   three ports of 127.0.0.1 and a number. The sender of the first packet is the client, and other senders' packets are
   dropped. The socket to the target is connected. At an event up to ROUNDS packets are received, until none is left,
   and each is sent at once; one that finds no room is kept, and its sink watched. Ends after COUNT packets to the
   target, and prints `forth F back B`. */
#include "measures.h"
#include <arpa/inet.h>
#include <errno.h>
#include <limits.h>
#include <netinet/in.h>
#include <sys/epoll.h>
#include <sys/socket.h>

enum { LONGEST = 65507, ROUNDS = 128 };

/* Its sockets, the packet that it keeps, where `length` isn't negative, and how many it has sent. */
struct direction {
  int source, sink;
  ssize_t length;
  long sent;
  char bytes[LONGEST];
};

static int poller, front, back, has_client;
static struct sockaddr_in client;
static struct direction forth, backward;

static struct sockaddr_in at(const char *port) {
  struct sockaddr_in addr = {.sin_family = AF_INET, .sin_port = htons(atoi(port))};
  addr.sin_addr.s_addr = htonl(INADDR_LOOPBACK);
  return addr;
}

static int opened(const char *port) {
  struct sockaddr_in addr = at(port);
  int socket_of = socket(AF_INET, SOCK_DGRAM | SOCK_NONBLOCK, 0);
  if (socket_of < 0 || bind(socket_of, (void *)&addr, sizeof addr)) stop("no socket");
  return socket_of;
}

/* Watches a socket for reading unless a packet from it is kept, and for writing where one is to go there. */
static void watch(int how, int watched, const struct direction *from, const struct direction *to) {
  struct epoll_event event = {.data.fd = watched};
  event.events = (from->length < 0 ? EPOLLIN : 0) | (to->length < 0 ? 0 : EPOLLOUT);
  if (epoll_ctl(poller, how, watched, &event)) stop("it can't be watched");
}

/* Whether the sender is the client, as that of the first packet is. */
static int is_client(const struct sockaddr_in *from) {
  if (!has_client) client = *from, has_client = 1;
  return from->sin_addr.s_addr == client.sin_addr.s_addr && from->sin_port == client.sin_port;
}

static ssize_t receive_once(struct direction *d, struct sockaddr_in *from) {
  socklen_t size = sizeof *from;
  if (d->source == back) return recv(back, d->bytes, LONGEST, 0);
  return recvfrom(front, d->bytes, LONGEST, 0, (void *)from, &size);
}

/* Whether a packet of the client, or of the target, has come. */
static int receive(struct direction *d) {
  struct sockaddr_in from;
  ssize_t length;
  while ((length = receive_once(d, &from)) >= 0)
    if (d->source == back || is_client(&from)) {
      d->length = length;
      return 1;
    }
  if (errno != EAGAIN) stop("a receive failed");
  return 0;
}

/* Sends the packet that is kept, where there is room. */
static int send_kept(struct direction *d) {
  ssize_t sent = d->sink == back ? send(back, d->bytes, d->length, 0)
                                 : sendto(front, d->bytes, d->length, 0, (void *)&client, sizeof client);
  if (sent < 0 && errno == EAGAIN) return 0;
  if (sent < 0) stop("a send failed");
  d->length = -1;
  d->sent++;
  return 1;
}

static void pass(struct direction *d, long limit) {
  for (int round = 0; round < ROUNDS && d->sent < limit; round++)
    if ((d->length < 0 && !receive(d)) || !send_kept(d)) return;
}

/* Which directions keep a packet. */
static int kept(void) { return (forth.length < 0) + 2 * (backward.length < 0); }

int main(int argc, char **argv) {
  if (argc < 5) return 2;
  long count = atol(argv[4]);
  struct sockaddr_in target = at(argv[3]);
  poller = epoll_create1(0), front = opened(argv[1]), back = opened(argv[2]);
  if (connect(back, (void *)&target, sizeof target)) stop("no target");
  forth.source = backward.sink = front, forth.sink = backward.source = back;
  forth.length = backward.length = -1;
  watch(EPOLL_CTL_ADD, front, &forth, &backward), watch(EPOLL_CTL_ADD, back, &backward, &forth);
  while (forth.sent < count) {
    struct epoll_event events[2];
    int found = epoll_wait(poller, events, 2, -1), before = kept();
    for (int i = 0; i < found; i++) {
      if (events[i].data.fd == front || forth.length >= 0) pass(&forth, count);
      if (events[i].data.fd == back || backward.length >= 0) pass(&backward, LONG_MAX);
    }
    if (kept() != before) {
      watch(EPOLL_CTL_MOD, front, &forth, &backward), watch(EPOLL_CTL_MOD, back, &backward, &forth);
    }
  }
  printf("forth %ld back %ld\n", forth.sent, backward.sent);
  return 0;
}
