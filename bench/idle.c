/* Measures round trips through a relay of connections beside idle connections, over loopback:
     idle IDLE ACTIVE SECONDS RELAY COMMAND..
   plays the clients and the target, in one thread. In the words of the command {listen} and {target} become addresses,
   {lport} and {tport} ports, and {conns} the number of connections. IDLE connections send nothing; on each of ACTIVE
   others one byte goes to the target and comes back, again and again. Writes `trips T ns N cpu C`: T round trips took
   N nanoseconds, in which the relay took C nanoseconds of processor time. */
#define _GNU_SOURCE
#include "measures.h"
#include <arpa/inet.h>
#include <errno.h>
#include <netinet/in.h>
#include <netinet/tcp.h>
#include <signal.h>
#include <string.h>
#include <sys/epoll.h>
#include <sys/socket.h>
#include <sys/wait.h>
#include <unistd.h>

enum { EVENTS = 512, BACKLOG = 4096 };

/* What an end of a connection is: the clients' ends count what comes back. */
enum role { LISTENER = 1, TARGET, CLIENT };

static int watched;
static word trips;

static struct sockaddr_in at(int port) {
  struct sockaddr_in addr = {.sin_family = AF_INET, .sin_port = htons(port)};
  addr.sin_addr.s_addr = htonl(INADDR_LOOPBACK);
  return addr;
}

/* Listens at a free port. */
static int listener(int *port) {
  struct sockaddr_in addr = at(0);
  socklen_t len = sizeof addr;
  int fd = socket(AF_INET, SOCK_STREAM | SOCK_NONBLOCK | SOCK_CLOEXEC, 0);
  if (fd < 0 || bind(fd, (void *)&addr, len) || listen(fd, BACKLOG)) stop("can't listen");
  getsockname(fd, (void *)&addr, &len);
  *port = ntohs(addr.sin_port);
  return fd;
}

static void watch(int fd, enum role role) {
  struct epoll_event event = {.events = EPOLLIN, .data.u64 = (word)fd << 2 | role};
  int one = 1;
  if (role != LISTENER) setsockopt(fd, IPPROTO_TCP, TCP_NODELAY, &one, sizeof one);
  if (epoll_ctl(watched, EPOLL_CTL_ADD, fd, &event)) stop("can't watch a socket");
}

/* Waits at most so many milliseconds; takes what came to the target, sends back what came to one of its ends, and sends
   again what came back to a client. */
static void turn(int patience) {
  static struct epoll_event events[EVENTS];
  int count = epoll_wait(watched, events, EVENTS, patience);
  for (int i = 0; i < count; i++) {
    int fd = (int)(events[i].data.u64 >> 2);
    enum role role = events[i].data.u64 & 3;
    char byte;
    if (role == LISTENER) {
      for (int end; (end = accept4(fd, NULL, NULL, SOCK_NONBLOCK | SOCK_CLOEXEC)) >= 0;) watch(end, TARGET);
    } else if (read(fd, &byte, 1) == 1) {
      trips += role == CLIENT;
      if (write(fd, &byte, 1) != 1) stop("a byte found no room");
    } else if (errno != EAGAIN) {
      stop("a connection ended");
    }
  }
}

/* A connection to the relay, which may not listen yet. */
static int connected(int port) {
  struct sockaddr_in addr = at(port);
  for (int tries = 0; tries < 2000; tries++) {
    int fd = socket(AF_INET, SOCK_STREAM | SOCK_CLOEXEC, 0);
    if (fd < 0) stop("no socket");
    if (!connect(fd, (void *)&addr, sizeof addr)) return fd;
    close(fd);
    usleep(5000);
  }
  stop("no connection");
  return -1;
}

/* The processor time of a process so far, in nanoseconds. */
static long long used(pid_t pid) {
  char path[64];
  unsigned long user, system;
  snprintf(path, sizeof path, "/proc/%d/stat", pid);
  FILE *file = fopen(path, "r");
  if (!file || fscanf(file, "%*d %*s %*c %*d %*d %*d %*d %*d %*u %*u %*u %*u %*u %lu %lu", &user, &system) != 2)
    stop("no processor time of the relay");
  fclose(file);
  return (user + system) * (1000000000LL / sysconf(_SC_CLK_TCK));
}

/* Puts a number, after this text, in the place of a word of the relay's command. */
static void put(char **words, const char *name, const char *before, int number) {
  for (; *words; words++)
    for (char *found; (found = strstr(*words, name));) {
      char *made;
      if (asprintf(&made, "%.*s%s%d%s", (int)(found - *words), *words, before, number, found + strlen(name)) < 0)
        stop("no memory");
      *words = made;
    }
}

static pid_t started(char **words) {
  pid_t pid = fork();
  if (pid) return pid;
  if (!freopen("/dev/null", "w", stdout)) _exit(1);
  execvp(words[0], words);
  _exit(127);
}

int main(int count, char **words) {
  if (count < 5) stop("idle IDLE ACTIVE SECONDS RELAY COMMAND..");
  int idle = atoi(words[1]), active = atoi(words[2]), target_port, port;
  long long limit = (long long)(atof(words[3]) * 1e9);
  watched = epoll_create1(EPOLL_CLOEXEC);
  watch(listener(&target_port), LISTENER);
  close(listener(&port)); /* the relay listens there */
  put(words + 4, "{listen}", "127.0.0.1:", port);
  put(words + 4, "{target}", "127.0.0.1:", target_port);
  put(words + 4, "{lport}", "", port);
  put(words + 4, "{tport}", "", target_port);
  put(words + 4, "{conns}", "", idle + active);
  pid_t relay = started(words + 4);
  int *ends = calloc(idle + active, sizeof *ends);
  for (int i = 0; i < idle + active; i++) {
    ends[i] = connected(port);
    watch(ends[i], CLIENT);
    turn(0);
  }
  for (long long from = now(); now() - from < 1000000000;) turn(10);
  for (int i = 0; i < active; i++)
    if (write(ends[(long long)i * (idle + active) / active], "x", 1) != 1) stop("a byte found no room");
  for (long long from = now(); now() - from < 300000000;) turn(10);
  long long from = now(), cpu = used(relay);
  trips = 0;
  while (now() - from < limit) turn(10);
  printf("trips %llu ns %lld cpu %lld\n", trips, now() - from, used(relay) - cpu);
  kill(relay, SIGTERM);
  waitpid(relay, NULL, 0);
  return 0;
}
