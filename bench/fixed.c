/* A server that answers every request with the bytes of a file, one connection after another: what bench/serve.sh sets the program beside.
   It reads a request by its Content-Length, says the bytes in one write and hangs up.

     cc -O2 -o fixed bench/fixed.c; ./fixed PORT CONNECTIONS REPLY

   It listens on 127.0.0.1, and ends after so many connections, where none comes for five minutes, or after an hour. */
#define _GNU_SOURCE
#include <arpa/inet.h>
#include <netinet/tcp.h>
#include <stdio.h>
#include <stdlib.h>
#include <string.h>
#include <sys/socket.h>
#include <sys/time.h>
#include <unistd.h>

static char request[1 << 20], reply[1 << 20];

/* How many bytes a request has whose head is there, and 0 before that. The buffer holds a zero behind them. */
static size_t whole(void) {
  char *end = strstr(request, "\r\n\r\n"), *length = strcasestr(request, "\r\nContent-Length:");
  return end ? (size_t)(end + 4 - request) + (length && length < end ? strtoul(length + 17, 0, 10) : 0) : 0;
}

static void answer(int peer, size_t size) {
  size_t held = 0, all = 0;
  while (!all || held < all) {
    ssize_t got = recv(peer, request + held, sizeof request - 1 - held, 0);
    if (got <= 0) return;
    held += (size_t)got;
    request[held] = 0;
    if (!all) all = whole();
  }
  send(peer, reply, size, MSG_NOSIGNAL);
}

int main(int words, char **word) {
  if (words != 4) return 1;
  FILE *file = fopen(word[3], "rb");
  size_t size = file ? fread(reply, 1, sizeof reply, file) : 0;
  int on = 1, listener = socket(AF_INET, SOCK_STREAM, 0);
  struct timeval idle = {300, 0}, slow = {10, 0};
  struct sockaddr_in place = {.sin_family = AF_INET, .sin_port = htons((in_port_t)atoi(word[1])), .sin_addr = {htonl(INADDR_LOOPBACK)}};
  setsockopt(listener, SOL_SOCKET, SO_REUSEADDR, &on, sizeof on);
  setsockopt(listener, SOL_SOCKET, SO_RCVTIMEO, &idle, sizeof idle);
  if (!size || bind(listener, (struct sockaddr *)&place, sizeof place) || listen(listener, 128)) return 1;
  alarm(3600);
  for (long left = atol(word[2]); left > 0; left--) {
    int peer = accept(listener, 0, 0);
    if (peer < 0) return 1;
    setsockopt(peer, IPPROTO_TCP, TCP_NODELAY, &on, sizeof on);
    setsockopt(peer, SOL_SOCKET, SO_RCVTIMEO, &slow, sizeof slow);
    answer(peer, size);
    close(peer);
  }
  return 0;
}
