/* What call.c and answer.c have in common: HTTP/1.1 over a connection that stays open, one request at a time. What is
   not as it ought to be, or takes longer than PATIENCE, is told on standard error, with status 1. */
#define _GNU_SOURCE
#include <arpa/inet.h>
#include <errno.h>
#include <netinet/tcp.h>
#include <pthread.h>
#include <stdarg.h>
#include <stdio.h>
#include <stdlib.h>
#include <string.h>
#include <strings.h>
#include <sys/socket.h>
#include <time.h>
#include <unistd.h>

enum { PATIENCE = 60, LARGEST = 7 << 20 };

struct answer {
    int status;
    size_t length;
    char id[64];
};

static void fail(const char *form, ...) {
    char what[1024];
    va_list words;
    va_start(words, form);
    vsnprintf(what, sizeof what, form, words);
    va_end(words);
    fprintf(stderr, "%s\n", what);
    _exit(1);
}

static int dial(const char *host, int port, int patience) {
    struct sockaddr_in address = {.sin_family = AF_INET, .sin_port = htons(port)};
    struct timeval seconds = {patience, 0};
    int s = socket(AF_INET, SOCK_STREAM, 0), one = 1;
    if (s < 0 || inet_pton(AF_INET, host, &address.sin_addr) != 1) fail("no socket to %s", host);
    setsockopt(s, SOL_SOCKET, SO_RCVTIMEO, &seconds, sizeof seconds);
    setsockopt(s, SOL_SOCKET, SO_SNDTIMEO, &seconds, sizeof seconds);
    setsockopt(s, IPPROTO_TCP, TCP_NODELAY, &one, sizeof one);
    if (connect(s, (struct sockaddr *)&address, sizeof address)) fail("no connection to port %d", port);
    return s;
}

static void send_all(int s, const char *bytes, size_t count) {
    while (count > 0) {
        ssize_t sent = send(s, bytes, count, MSG_NOSIGNAL);
        if (sent <= 0) fail("a request could not be sent: %s", strerror(errno));
        bytes += sent;
        count -= sent;
    }
}

/* Sends a request, in one piece if it is short; without a body it has no length. */
static const char *fields = ""; /* of each request, beside its own; each ends with CR LF */

static void ask(int s, const char *line, const char *body, size_t count) {
    char head[8192];
    int length = snprintf(head, 1024, "%s HTTP/1.1\r\nHost: 127.0.0.1\r\n%s", line, fields);
    if (body) length += snprintf(head + length, 64, "Content-Length: %zu\r\n", count);
    length += snprintf(head + length, 8, "\r\n");
    if (count < 4096) {
        memcpy(head + length, body ? body : "", count);
        send_all(s, head, length + count);
    } else {
        send_all(s, head, length);
        send_all(s, body, count);
    }
}

/* Reads an answer, its body into a buffer of LARGEST bytes. */
static struct answer hear(int s, char *buffer) {
    char head[8192];
    size_t have = 0;
    char *end = 0;
    while (!end) {
        if (have == sizeof head - 1) fail("an answer's head is longer than %zu bytes", have);
        ssize_t got = recv(s, head + have, sizeof head - 1 - have, 0);
        if (got <= 0) fail("no answer, after %zu bytes", have);
        have += got;
        head[have] = 0;
        end = strstr(head, "\r\n\r\n");
    }
    struct answer a = {0};
    end[2] = 0;
    a.status = atoi(head + 9);
    char *length = strcasestr(head, "\r\ncontent-length:");
    char *id = strcasestr(head, "\r\nlambda-runtime-aws-request-id:");
    if (length) a.length = strtoul(length + 17, 0, 10);
    if (id) sscanf(id + 32, " %63[^\r]", a.id);
    size_t body = have - (end + 4 - head);
    if (a.length > LARGEST || body > a.length) fail("an answer of %zu bytes, of which %zu came", a.length, body);
    memcpy(buffer, end + 4, body);
    while (body < a.length) {
        ssize_t got = recv(s, buffer + body, a.length - body, 0);
        if (got <= 0) fail("an answer ends after %zu of %zu bytes", body, a.length);
        body += got;
    }
    return a;
}

static char *room(void) {
    char *bytes = malloc(LARGEST);
    if (!bytes) fail("no memory");
    return bytes;
}
