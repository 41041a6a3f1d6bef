/* The client of bench/serve/run, over loopback. It makes itself ready and says `ready`; at a line of its input it does
   what is measured and prints what it found, with its connections still open; at the input's end it ends. So the
   service's counters can be read right before and right behind. What is not as it ought to be, or takes longer than
   PATIENCE, is told on standard error, with status 1.

   usage: load round INVOKE_PORT ENVIRONMENTS SIZE INVOCATIONS
            as many callers and runtimes as environments, each on a connection that it keeps; a caller invokes once a
            runtime has asked, and a throttled invocation is tried again and counted apart
            prints: rate, p50 and p99 in microseconds, throttles
          load closed INVOKE_PORT ENVIRONMENTS PAUSE INVOCATIONS
            the same with 100 B, but each caller invokes again at once, and each runtime waits PAUSE microseconds before
            it asks again, so that an environment has often answered and not asked again
            prints: rate, p50, p99 and p99.9 in microseconds, throttles
          load beside INVOKE_PORT LARGE LARGES SMALLS
            two environments: one caller of 100 B, SMALLS times, or until another has invoked LARGES times with LARGE
            bytes, where LARGES is not 0
            prints: invocations of 100 B, their p50 and p99 in microseconds, large ones a second
          load park INVOKE_PORT ENVIRONMENTS EXTENSIONS
            parks the Nexts of that many extensions and of a runtime at each environment
            prints: how many are still parked
          load short INVOKE_PORT COUNT CALLERS
            connections of one request each, from that many callers at once
            prints: rate */
#define _GNU_SOURCE
#include <arpa/inet.h>
#include <errno.h>
#include <netinet/tcp.h>
#include <poll.h>
#include <pthread.h>
#include <semaphore.h>
#include <stdarg.h>
#include <stdio.h>
#include <stdlib.h>
#include <string.h>
#include <strings.h>
#include <sys/socket.h>
#include <time.h>
#include <unistd.h>

enum { PATIENCE = 60, MOST_ENVIRONMENTS = 256, MOST_CALLERS = 64, SMALL = 100, SPARE = 8192 };

static int invoke_port, environments;
static size_t largest;                 /* of the bodies: every buffer has room for one */
static char *payload;                  /* a JSON string of that size */
static sem_t asked;
static pthread_barrier_t warm, begin;
static long next_turn, warm_ups, invocations, throttles;
static double *took;
static int large_is_done, is_closed, pause_micros;

struct answer {
    int status;
    size_t length;
    char id[64];
};

/* Reports what differs, once, and ends. */
static void fail(const char *form, ...) {
    static int is_told;
    if (__sync_lock_test_and_set(&is_told, 1)) pause();
    char what[1024];
    va_list words;
    va_start(words, form);
    vsnprintf(what, sizeof what, form, words);
    va_end(words);
    fprintf(stderr, "load: %s\n", what);
    _exit(1);
}

/* What a call of the system said. */
static const char *why(ssize_t got) {
    if (got == 0) return "the service closed the connection";
    if (errno == EAGAIN || errno == EWOULDBLOCK || errno == EINPROGRESS) return "nothing moved for 60 seconds";
    return strerror(errno);
}

static double now(void) {
    struct timespec t;
    clock_gettime(CLOCK_MONOTONIC, &t);
    return t.tv_sec + t.tv_nsec * 1e-9;
}

static int dial(int port) {
    struct sockaddr_in address = {
        .sin_family = AF_INET,
        .sin_port = htons(port),
        .sin_addr.s_addr = htonl(INADDR_LOOPBACK),
    };
    struct timeval patience = {PATIENCE, 0};
    int s = socket(AF_INET, SOCK_STREAM, 0), one = 1;
    if (s < 0) fail("no socket: %s", strerror(errno));
    setsockopt(s, SOL_SOCKET, SO_RCVTIMEO, &patience, sizeof patience);
    setsockopt(s, SOL_SOCKET, SO_SNDTIMEO, &patience, sizeof patience);
    setsockopt(s, IPPROTO_TCP, TCP_NODELAY, &one, sizeof one);
    if (connect(s, (struct sockaddr *)&address, sizeof address)) fail("no connection to port %d: %s", port, why(-1));
    return s;
}

static void send_all(int s, const char *bytes, size_t count) {
    while (count > 0) {
        ssize_t sent = send(s, bytes, count, MSG_NOSIGNAL);
        if (sent <= 0) fail("a request could not be sent: %s", why(sent));
        bytes += sent;
        count -= sent;
    }
}

/* Sends a request, in one piece if it is short. */
static void ask(int s, const char *line, const char *body, size_t count) {
    char head[8192];
    int length = snprintf(head, 1024, "%s HTTP/1.1\r\nHost: localhost\r\nContent-Length: %zu\r\n\r\n", line, count);
    if (count < 4096) {
        memcpy(head + length, body, count);
        send_all(s, head, length + count);
    } else {
        send_all(s, head, length);
        send_all(s, body, count);
    }
}

/* Reads an answer, its body into the buffer. Each connection asks once more only after it. */
static struct answer hear(int s, char *buffer) {
    char head[8192];
    size_t have = 0;
    char *end = 0;
    while (!end) {
        if (have == sizeof head - 1) fail("an answer's head is longer than %zu bytes", have);
        ssize_t got = recv(s, head + have, sizeof head - 1 - have, 0);
        if (got <= 0) fail("no answer, after %zu bytes: %s", have, why(got));
        have += got;
        head[have] = 0;
        end = strstr(head, "\r\n\r\n");
    }
    struct answer a = {0};
    end[2] = 0;
    a.status = atoi(head + 9);
    char *length = strcasestr(head, "\r\ncontent-length:");
    a.length = length ? strtoul(length + 17, 0, 10) : 0;
    char *id = strcasestr(head, "\r\nlambda-runtime-aws-request-id:");
    if (id) sscanf(id + 32, " %63[^\r]", a.id);
    if (a.length > largest + SPARE) fail("an answer of %zu bytes, and at most %zu were sent", a.length, largest);
    size_t body = have - (end + 4 - head);
    if (body > a.length)
        fail("an answer of %zu bytes is followed by %zu that nobody asked for", a.length, body - a.length);
    memcpy(buffer, end + 4, body);
    while (body < a.length) {
        ssize_t got = recv(s, buffer + body, a.length - body, 0);
        if (got <= 0) fail("an answer ends after %zu of %zu bytes: %s", body, a.length, why(got));
        body += got;
    }
    return a;
}

/* How many bytes of an answer's body a message shows. */
static int shown(struct answer a) {
    return a.length < 300 ? (int)a.length : 300;
}

static void want(const char *what, struct answer a, int status, const char *body) {
    if (a.status != status)
        fail("%s: status %d, and %d is expected: %.*s", what, a.status, status, shown(a), body);
}

static char *room(void) {
    char *bytes = malloc(largest + SPARE);
    if (!bytes) fail("no memory for %zu bytes", largest);
    return bytes;
}

/* A JSON string of this size. */
static char *payload_of(size_t size) {
    char *bytes = room();
    memset(bytes, 'x', size);
    bytes[0] = bytes[size - 1] = '"';
    return bytes;
}

static void *run_runtime(void *argument) {
    int s = dial(invoke_port + (int)(long)argument);
    char *buffer = room(), line[256];
    for (;;) {
        if (pause_micros) usleep(pause_micros);
        ask(s, "GET /2018-06-01/runtime/invocation/next", "", 0);
        sem_post(&asked);
        struct answer a = hear(s, buffer);
        want("a runtime's Next", a, 200, buffer);
        snprintf(line, sizeof line, "POST /2018-06-01/runtime/invocation/%s/response", a.id);
        ask(s, line, buffer, a.length);
        want("a runtime's response", hear(s, buffer), 202, buffer);
    }
    return 0;
}

/* Invokes until it isn't throttled: how long the last try took. The output is to be the payload. */
static double invoke(int s, char *buffer, const char *sent, size_t size, int whole) {
    if (!is_closed) sem_wait(&asked);
    for (;;) {
        double begun = now();
        ask(s, "POST /2015-03-31/functions/f/invocations", sent, size);
        struct answer a = hear(s, buffer);
        double seconds = now() - begun;
        if (a.status != 429) {
            want("an invocation", a, 200, buffer);
            if (a.length != size)
                fail("an output of %zu bytes for a payload of %zu: %.*s", a.length, size, shown(a), buffer);
            if (whole ? memcmp(buffer, sent, size) : buffer[size - 1] != '"')
                fail("an output of %zu bytes is not the payload", size);
            return seconds;
        }
        __sync_fetch_and_add(&throttles, 1);
    }
}

static void *run_caller(void *argument) {
    (void)argument;
    int s = dial(invoke_port);
    char *buffer = room();
    while (__sync_fetch_and_add(&next_turn, 1) < warm_ups) invoke(s, buffer, payload, largest, 1);
    pthread_barrier_wait(&warm);
    pthread_barrier_wait(&begin);
    long turn;
    while ((turn = __sync_fetch_and_add(&next_turn, 1)) < invocations)
        took[turn] = invoke(s, buffer, payload, largest, 0);
    return 0;
}

static int by_size(const void *a, const void *b) {
    double x = *(const double *)a, y = *(const double *)b;
    return (x > y) - (x < y);
}

static double micros(long count, int percent) {
    return took[count * percent / 100] * 1e6;
}

static double micros_of_most(long count) {
    return took[count * 999 / 1000] * 1e6;
}

/* Waits for a line of the input, or for its end. */
static void hold(void) {
    char line[64];
    if (!fgets(line, sizeof line, stdin)) line[0] = 0;
}

static void is_ready(void) {
    printf("ready\n");
    fflush(stdout);
    hold();
}

static void ends(void) {
    fflush(stdout);
    hold();
    _exit(0);
}

static pthread_t start(void *(*what)(void *), long argument) {
    pthread_t thread;
    if (pthread_create(&thread, 0, what, (void *)argument)) fail("no thread");
    return thread;
}

static void start_runtimes(void) {
    sem_init(&asked, 0, 0);
    for (long n = 1; n <= environments; n++) pthread_detach(start(run_runtime, n));
    usleep(200000);
}

static void round_trips(void) {
    pthread_t callers[MOST_ENVIRONMENTS];
    took = calloc(invocations, sizeof *took);
    warm_ups = invocations / 20 + environments;
    pthread_barrier_init(&warm, 0, environments + 1);
    pthread_barrier_init(&begin, 0, environments + 1);
    payload = payload_of(largest);
    start_runtimes();
    for (int n = 0; n < environments; n++) callers[n] = start(run_caller, 0);
    pthread_barrier_wait(&warm);
    next_turn = throttles = 0;
    is_ready();
    double begun = now();
    pthread_barrier_wait(&begin);
    for (int n = 0; n < environments; n++) pthread_join(callers[n], 0);
    double seconds = now() - begun;
    qsort(took, invocations, sizeof *took, by_size);
    printf("%.1f %.1f %.1f ", invocations / seconds, micros(invocations, 50), micros(invocations, 99));
    if (is_closed) printf("%.1f ", micros_of_most(invocations));
    printf("%ld\n", throttles);
    ends();
}

static void *run_large(void *argument) {
    int s = dial(invoke_port);
    char *buffer = room();
    for (long n = (long)argument; n > 0; n--) invoke(s, buffer, payload, largest, 0);
    large_is_done = 1;
    return 0;
}

static void beside(long larges, long smalls) {
    environments = 2;
    took = calloc(smalls, sizeof *took);
    payload = payload_of(largest);
    start_runtimes();
    int s = dial(invoke_port);
    char *buffer = room(), *small = payload_of(SMALL);
    for (int n = 0; n < 200; n++) invoke(s, buffer, small, SMALL, 1);
    is_ready();
    double begun = now();
    pthread_t large = larges ? start(run_large, larges) : 0;
    long count = 0;
    while (count < smalls && !*(volatile int *)&large_is_done) took[count++] = invoke(s, buffer, small, SMALL, 0);
    double seconds = now() - begun;
    if (larges && !large_is_done)
        fail("%ld invocations of %d B were done before %ld large ones", smalls, SMALL, larges);
    if (larges) pthread_join(large, 0);
    qsort(took, count, sizeof *took, by_size);
    printf("%ld %.1f %.1f %.2f\n", count, micros(count, 50), micros(count, 99), larges / seconds);
    ends();
}

/* Registers an extension; gives what identifies it. A service without extensions says 404: then nothing does. */
static void register_extension(int s, int number, char *id) {
    char head[512];
    int length = snprintf(head, sizeof head,
                          "POST /2020-01-01/extension/register HTTP/1.1\r\n"
                          "Host: h\r\n"
                          "Lambda-Extension-Name: e%d\r\n"
                          "Content-Length: 2\r\n"
                          "\r\n"
                          "{}",
                          number);
    send_all(s, head, length);
    char answer[4096];
    ssize_t got = recv(s, answer, sizeof answer - 1, 0);
    if (got <= 0) fail("an extension is not registered: %s", why(got));
    answer[got] = 0;
    int status = atoi(answer + 9);
    if (status != 200 && status != 404) fail("an extension is not registered: %.300s", answer);
    char *at = strcasestr(answer, "\r\nlambda-extension-identifier:");
    id[0] = 0;
    if (at) sscanf(at + 30, " %63[^\r]", id);
}

static void park(int extensions) {
    char request[512], id[64];
    int count = environments * (extensions + 1), at = 0, parked = 0;
    struct pollfd *sockets = calloc(count, sizeof *sockets);
    is_ready();
    for (int e = 1; e <= environments; e++) {
        for (int x = 1; x <= extensions; x++) {
            int s = dial(invoke_port + e);
            register_extension(s, x, id);
            int length = snprintf(request, sizeof request,
                                  "GET /2020-01-01/extension/event/next HTTP/1.1\r\n"
                                  "Host: h\r\n"
                                  "Lambda-Extension-Identifier: %s\r\n"
                                  "\r\n",
                                  id);
            send_all(s, request, length);
            sockets[at++] = (struct pollfd){s, POLLIN, 0};
        }
        int s = dial(invoke_port + e);
        ask(s, "GET /2018-06-01/runtime/invocation/next", "", 0);
        sockets[at++] = (struct pollfd){s, POLLIN, 0};
    }
    printf("opened\n");
    fflush(stdout);
    hold();
    if (poll(sockets, count, 0) < 0) fail("no look at the connections: %s", strerror(errno));
    for (int n = 0; n < count; n++) parked += !sockets[n].revents;
    printf("%d\n", parked);
    ends();
}

static void *run_short(void *argument) {
    char *buffer = room();
    for (long n = (long)argument; n > 0; n--) {
        int s = dial(invoke_port);
        ask(s, "GET /_local/stats", "", 0);
        want("the counts", hear(s, buffer), 200, buffer);
        struct linger at_once = {1, 0};
        setsockopt(s, SOL_SOCKET, SO_LINGER, &at_once, sizeof at_once);
        close(s);
    }
    return 0;
}

static void short_connections(long count, int callers) {
    pthread_t threads[MOST_CALLERS];
    run_short((void *)(long)callers);
    is_ready();
    double begun = now();
    for (int n = 0; n < callers; n++) threads[n] = start(run_short, count / callers);
    for (int n = 0; n < callers; n++) pthread_join(threads[n], 0);
    printf("%.1f\n", count / callers * callers / (now() - begun));
    ends();
}

static int is_between(long least, long it, long most) {
    return least <= it && it <= most;
}

int main(int count, char **words) {
    long given[4] = {0};
    for (int n = 0; n < 4 && n + 2 < count; n++) given[n] = atol(words[n + 2]);
    invoke_port = given[0];
    environments = given[1];
    largest = 8192;
    if (count == 6 && !strcmp(words[1], "round") &&
        is_between(1, given[1], MOST_ENVIRONMENTS) && given[2] >= 2 && given[3] >= 1) {
        largest = given[2];
        invocations = given[3];
        round_trips();
    } else if (count == 6 && !strcmp(words[1], "closed") &&
               is_between(1, given[1], MOST_ENVIRONMENTS) && is_between(0, given[2], 999999) && given[3] >= 1) {
        largest = SMALL;
        is_closed = 1;
        pause_micros = given[2];
        invocations = given[3];
        round_trips();
    } else if (count == 6 && !strcmp(words[1], "beside") && given[1] >= SMALL && given[2] >= 0 && given[3] >= 1) {
        largest = given[1];
        beside(given[2], given[3]);
    } else if (count == 5 && !strcmp(words[1], "park") && is_between(1, given[1], MOST_ENVIRONMENTS) && given[2] >= 0) {
        park(given[2]);
    } else if (count == 5 && !strcmp(words[1], "short") && is_between(1, given[2], MOST_CALLERS)) {
        short_connections(given[1], given[2]);
    }
    fprintf(stderr, "usage: load round PORT ENVIRONMENTS SIZE INVOCATIONS"
                    " | closed PORT ENVIRONMENTS PAUSE INVOCATIONS | beside PORT LARGE LARGES SMALLS"
                    " | park PORT ENVIRONMENTS EXTENSIONS | short PORT COUNT CALLERS\n");
    return 2;
}
