/* Connections to a server on 127.0.0.1, and how long they take: what bench/serve.sh measures with, so that the client costs little.

     cc -O2 -o client bench/client.c; ./client PORT CONNECTIONS AT_ONCE PER SECONDS REQUEST

   The request is the bytes of a file; a run of seven zeros in it is replaced by the request's number, from 0 on. It is sent PER times on each
   connection, each time behind the reply to the one before, and AT_ONCE processes share the connections out, of which AT_ONCE is a divisor.
   Each reply has to be a 200, and is read by its Content-Length; then the server has to hang up. It says the number of replies and the
   seconds that they took, and fails after so many SECONDS. */
#define _GNU_SOURCE
#include <arpa/inet.h>
#include <netinet/tcp.h>
#include <stdio.h>
#include <stdlib.h>
#include <string.h>
#include <sys/socket.h>
#include <sys/time.h>
#include <sys/wait.h>
#include <time.h>
#include <unistd.h>

static char request[1 << 20], reply[1 << 20];
static size_t size;
static char *place; /* of the number */
static struct sockaddr_in server;

/* Reads one reply: whether it is a whole 200. */
static int answered(int peer) {
  size_t held = 0, all = 0;
  while (!all || held < all) {
    ssize_t got = recv(peer, reply + held, sizeof reply - 1 - held, 0);
    if (got <= 0) return 0;
    held += (size_t)got;
    reply[held] = 0;
    char *end = all ? 0 : strstr(reply, "\r\n\r\n"), *length = end ? strcasestr(reply, "\r\nContent-Length:") : 0;
    if (end && !length) return 0;
    if (end) all = (size_t)(end + 4 - reply) + strtoul(length + 17, 0, 10);
  }
  return held == all && !strncmp(reply, "HTTP/1.1 200 ", 13);
}

/* One connection, whose first request has that number. */
static int connection(long number, long per) {
  int on = 1, peer = socket(AF_INET, SOCK_STREAM, 0), well = peer >= 0;
  char digits[32];
  well = well && !setsockopt(peer, IPPROTO_TCP, TCP_NODELAY, &on, sizeof on);
  well = well && !connect(peer, (struct sockaddr *)&server, sizeof server);
  for (long end = number + per; well && number < end; number++) {
    snprintf(digits, sizeof digits, "%07ld", number);
    if (place) memcpy(place, digits, 7);
    well = send(peer, request, size, MSG_NOSIGNAL) == (ssize_t)size && answered(peer);
  }
  well = well && recv(peer, reply, 1, 0) == 0;
  if (peer >= 0) close(peer);
  return well;
}

int main(int words, char **word) {
  if (words != 7) return 1;
  long count = atol(word[2]), at_once = atol(word[3]), per = atol(word[4]), each = at_once > 0 ? count / at_once : 0;
  FILE *file = fopen(word[6], "rb");
  size = file ? fread(request, 1, sizeof request - 1, file) : 0;
  if (!size || each < 1 || each * at_once != count || per < 1) return 1;
  place = memmem(request, size, "0000000", 7);
  server = (struct sockaddr_in){.sin_family = AF_INET, .sin_port = htons((in_port_t)atoi(word[1])), .sin_addr = {htonl(INADDR_LOOPBACK)}};
  struct timespec start, end;
  clock_gettime(CLOCK_MONOTONIC, &start);
  for (long part = 0; part < at_once; part++) {
    pid_t child = fork();
    if (child < 0) return 1;
    if (child) continue;
    alarm((unsigned)atoi(word[5]));
    for (long n = part * each; n < (part + 1) * each; n++) {
      if (connection(n * per, per)) continue;
      fprintf(stderr, "client: connection %ld: %.80s\n", n, reply);
      _exit(1);
    }
    _exit(0);
  }
  int well = 1, status;
  while (wait(&status) > 0) well = well && status == 0;
  clock_gettime(CLOCK_MONOTONIC, &end);
  if (!well) fprintf(stderr, "client: not all were answered\n");
  printf("%ld %.6f\n", count * per, (double)(end.tv_sec - start.tv_sec) + (double)(end.tv_nsec - start.tv_nsec) / 1e9);
  return !well;
}
