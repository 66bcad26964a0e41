// Clients of a socket that ask one `stat` after the other, each in a thread and on a connection of
// its own: how long they wait for a reply. The server is `overlayd serve` or the bare echo of
// `overlay_bench`, whose frames have the same sizes. It measures, and no proof speaks of it.
#include <pthread.h>
#include <stdint.h>
#include <stdio.h>
#include <stdlib.h>
#include <string.h>
#include <sys/socket.h>
#include <sys/un.h>
#include <time.h>
#include <unistd.h>

// The file that is asked for, at depth 4.
#define PATH "/dirs-0000000/dirs-0000001/dirs-0000002/name-0000000"
#define REPLY 38

static const char *socket_path;
static size_t count;
static pthread_barrier_t ready;

struct client {
  pthread_t thread;
  uint32_t *waits;
};

static void fail(const char *what) {
  perror(what);
  exit(1);
}

static uint64_t now(void) {
  struct timespec t;
  clock_gettime(CLOCK_MONOTONIC, &t);
  return (uint64_t)t.tv_sec * 1000000000u + (uint64_t)t.tv_nsec;
}

static int connected(void) {
  struct sockaddr_un address = {.sun_family = AF_UNIX};
  int fd = socket(AF_UNIX, SOCK_STREAM, 0);
  if (fd < 0)
    fail("socket");
  strncpy(address.sun_path, socket_path, sizeof address.sun_path - 1);
  if (connect(fd, (struct sockaddr *)&address, sizeof address) != 0)
    fail("connect");
  return fd;
}

// The frame of a `stat`: its length, its op and the path with its length.
static size_t request(unsigned char *frame) {
  size_t path = strlen(PATH);
  unsigned char front[7] = {0, 0, 0, (unsigned char)(3 + path), 1, 0, (unsigned char)path};
  memcpy(frame, front, sizeof front);
  memcpy(frame + sizeof front, PATH, path);
  return sizeof front + path;
}

static void reply_from(int fd) {
  unsigned char bytes[REPLY];
  size_t had = 0;
  while (had < REPLY) {
    ssize_t more = read(fd, bytes + had, REPLY - had);
    if (more <= 0)
      fail("read");
    had += (size_t)more;
  }
  if (bytes[3] != REPLY - 4 || bytes[4] != 0) {
    fprintf(stderr, "no reply to stat\n");
    exit(1);
  }
}

static void *asks(void *of) {
  struct client *client = of;
  unsigned char frame[128];
  size_t size = request(frame);
  int fd = connected();
  pthread_barrier_wait(&ready);
  for (size_t i = 0; i < count; i++) {
    uint64_t start = now();
    if (write(fd, frame, size) != (ssize_t)size)
      fail("write");
    reply_from(fd);
    client->waits[i] = (uint32_t)(now() - start);
  }
  pthread_barrier_wait(&ready);
  close(fd);
  return NULL;
}

static int by_size(const void *a, const void *b) {
  uint32_t one = *(const uint32_t *)a, other = *(const uint32_t *)b;
  return (one > other) - (one < other);
}

int main(int words, char **word) {
  if (words != 4) {
    fprintf(stderr, "usage: serve_load SOCKET CLIENTS COUNT\n");
    return 2;
  }
  socket_path = word[1];
  size_t clients = strtoul(word[2], NULL, 10), all;
  count = strtoul(word[3], NULL, 10);
  if (clients == 0 || count == 0)
    return 2;
  all = clients * count;
  uint32_t *waits = calloc(all, sizeof *waits);
  struct client *them = calloc(clients, sizeof *them);
  if (!waits || !them)
    fail("calloc");
  pthread_barrier_init(&ready, NULL, (unsigned)clients + 1);
  for (size_t i = 0; i < clients; i++) {
    them[i].waits = waits + i * count;
    if (pthread_create(&them[i].thread, NULL, asks, &them[i]) != 0)
      fail("thread");
  }
  pthread_barrier_wait(&ready);
  uint64_t start = now();
  pthread_barrier_wait(&ready);
  uint64_t nanos = now() - start;
  for (size_t i = 0; i < clients; i++)
    pthread_join(them[i].thread, NULL);
  qsort(waits, all, sizeof *waits, by_size);
  // Calls a second, and the waits: their mean, the least, half of them and 99 of 100.
  printf("%.0f %.0f %u %u %u\n", (double)all * 1e9 / (double)nanos,
         (double)nanos / (double)count, waits[0], waits[all / 2], waits[all - 1 - all / 100]);
  return 0;
}
