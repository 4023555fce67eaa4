/* Drives one run of a relay of packets over loopback, and measures it:
     packets_load SIZE WINDOW COUNT RELAY COMMAND..
   plays the client and the target, in one thread. In the words of the command {listen}, {local} and {target} become
   ports, and {count} how many packets the relay sends to the target before it ends. At most WINDOW packets of SIZE
   bytes are in flight; the target sends each back. Where nothing comes for 200 ms, those in flight count as lost, and
   others are sent for them. Each packet carries its number; those that come back are in order, and as long as they
   were. Writes `passed P lost L ns N cpu C`: P packets came back in N nanoseconds, in which the relay's thread took C
   nanoseconds of processor time. Then what the relay wrote. */
#define _GNU_SOURCE
#include "measures.h"
#include <arpa/inet.h>
#include <errno.h>
#include <netinet/in.h>
#include <poll.h>
#include <string.h>
#include <sys/socket.h>
#include <sys/wait.h>
#include <unistd.h>

enum { MOST = 64, LONGEST = 2048, WARM = 2000, PATIENCE = 200 };

/* Room for packets. */
struct ring {
  struct mmsghdr heads[MOST];
  struct iovec parts[MOST];
  struct sockaddr_in from[MOST];
  char bytes[MOST][LONGEST];
};

static struct ring answers, requests;
static int size, window, client, target;
static word next_sent, next_back, lost;

static void prepare(struct ring *r) {
  for (int i = 0; i < MOST; i++) {
    r->parts[i] = (struct iovec){r->bytes[i], sizeof r->bytes[i]};
    r->heads[i].msg_hdr = (struct msghdr){.msg_name = &r->from[i], .msg_iov = &r->parts[i], .msg_iovlen = 1};
  }
}

static struct sockaddr_in at(int port) {
  struct sockaddr_in addr = {.sin_family = AF_INET, .sin_port = htons(port)};
  addr.sin_addr.s_addr = htonl(INADDR_LOOPBACK);
  return addr;
}

static int opened(void) {
  struct sockaddr_in addr = at(0);
  int fd = socket(AF_INET, SOCK_DGRAM | SOCK_NONBLOCK | SOCK_CLOEXEC, 0);
  if (fd < 0 || bind(fd, (void *)&addr, sizeof addr)) stop("no socket");
  return fd;
}

static int port_of(int fd) {
  struct sockaddr_in addr;
  socklen_t len = sizeof addr;
  getsockname(fd, (void *)&addr, &len);
  return ntohs(addr.sin_port);
}

/* Receives all that has come, at most MOST packets. */
static int receive(int fd, struct ring *r) {
  for (int i = 0; i < MOST; i++) {
    r->heads[i].msg_hdr.msg_namelen = sizeof r->from[i];
    r->parts[i].iov_len = sizeof r->bytes[i];
  }
  int found = recvmmsg(fd, r->heads, MOST, MSG_DONTWAIT, NULL);
  return found < 0 ? 0 : found;
}

/* Sends so many of these packets, as far as there is room. */
static void send_all(int fd, struct ring *r, int count) {
  for (int done = 0; done < count;) {
    int sent = sendmmsg(fd, r->heads + done, count - done, 0);
    if (sent <= 0) return; /* the rest is lost, and is sent again */
    done += sent;
  }
}

/* The client sends so many packets. */
static void ask(int count) {
  static struct ring asked;
  static int is_prepared;
  if (!is_prepared) prepare(&asked), is_prepared = 1;
  for (int i = 0; i < count; i++) {
    memcpy(asked.bytes[i], &next_sent, sizeof next_sent);
    next_sent++;
    asked.parts[i].iov_len = size;
    asked.heads[i].msg_hdr.msg_name = NULL;
    asked.heads[i].msg_hdr.msg_namelen = 0;
  }
  send_all(client, &asked, count);
}

/* The target sends back what came. */
static void answer(void) {
  int found = receive(target, &requests);
  for (int i = 0; i < found; i++) {
    if ((int)requests.heads[i].msg_len != size) stop("a packet came with another length");
    requests.parts[i].iov_len = size;
  }
  if (found) send_all(target, &requests, found);
}

/* How many packets came back to the client. Each is later than those before it. */
static int hear(void) {
  int found = receive(client, &answers);
  for (int i = 0; i < found; i++) {
    word number;
    memcpy(&number, answers.bytes[i], sizeof number);
    int is_right = (int)answers.heads[i].msg_len == size && number >= next_back && number < next_sent;
    if (!is_right) stop("a wrong packet came back");
    next_back = number + 1;
  }
  return found;
}

/* Sends packets until so many have come back. */
static word pass(word count) {
  word passed = 0;
  int in_flight = 0;
  struct pollfd both[2] = {{client, POLLIN, 0}, {target, POLLIN, 0}};
  while (passed < count) {
    if (in_flight < window) ask(window - in_flight), in_flight = window;
    int found = poll(both, 2, PATIENCE);
    if (found == 0) lost += in_flight, in_flight = 0;
    if (found > 0 && both[1].revents) answer();
    if (found > 0 && both[0].revents) {
      int back = hear();
      passed += back;
      in_flight = back < in_flight ? in_flight - back : 0;
    }
  }
  return passed;
}

/* Puts the number for the name in a word. */
static void replace(char **w, const char *name, word number) {
  char *found = strstr(*w, name);
  if (found && asprintf(w, "%.*s%llu%s", (int)(found - *w), *w, number, found + strlen(name)) < 0) stop("no memory");
}

/* Starts the relay, whose output can then be read. */
static pid_t start(char **command, word listen, word local, word to, word count, FILE **said) {
  int ends[2];
  for (char **w = command; *w; w++) {
    replace(w, "{listen}", listen), replace(w, "{local}", local);
    replace(w, "{target}", to), replace(w, "{count}", count);
  }
  if (pipe(ends)) stop("no pipe");
  pid_t pid = fork();
  if (pid == 0) {
    dup2(ends[1], 1), close(ends[0]), close(ends[1]);
    execvp(command[0], command);
    _exit(127);
  }
  close(ends[1]);
  *said = fdopen(ends[0], "r");
  return pid;
}

/* The client talks to the relay's socket, once one stands there. */
static void meet(pid_t relay, int listen) {
  struct sockaddr_in addr = at(listen);
  if (connect(client, (void *)&addr, sizeof addr)) stop("no relay");
  for (int tries = 0; tries < 12000; tries++) {
    struct pollfd came = {target, POLLIN, 0};
    ask(1);
    if (poll(&came, 1, 5) > 0) return;
    if (waitpid(relay, NULL, WNOHANG)) break;
  }
  stop("the relay doesn't answer");
}

/* The processor time that a process's first thread has had, in nanoseconds. */
static long long processor_time(pid_t process) {
  char name[40];
  long long time;
  snprintf(name, sizeof name, "/proc/%d/schedstat", process);
  FILE *file = fopen(name, "r");
  if (!file || fscanf(file, "%lld", &time) != 1) stop("no processor time");
  fclose(file);
  return time;
}

int main(int argc, char **argv) {
  if (argc < 5) return 2;
  size = atoi(argv[1]), window = atoi(argv[2]);
  word count = atoll(argv[3]);
  if (size < 8 || size > LONGEST || window < 1 || window > MOST) return 2;
  prepare(&answers), prepare(&requests);
  client = opened(), target = opened();
  int one = opened(), other = opened(), listen = port_of(one), local = port_of(other);
  close(one), close(other);
  FILE *said;
  word all = count + WARM + 1000;
  pid_t relay = start(argv + 4, listen, local, port_of(target), all, &said);
  meet(relay, listen);
  pass(WARM);
  lost = 0;
  long long begun = now(), busy = processor_time(relay);
  word passed = pass(count);
  long long took = now() - begun;
  busy = processor_time(relay) - busy;
  word missed = lost;
  /* what the relay has still to send on */
  int status;
  while (waitpid(relay, &status, WNOHANG) == 0) {
    struct pollfd both[2] = {{client, POLLIN, 0}, {target, POLLIN, 0}};
    ask(1);
    poll(both, 2, 1);
    answer(), hear();
  }
  printf("passed %llu lost %llu ns %lld cpu %lld ", passed, missed, took, busy);
  char line[200];
  if (!fgets(line, sizeof line, said)) strcpy(line, "\n");
  fputs(line, stdout);
  return status ? 1 : 0;
}
