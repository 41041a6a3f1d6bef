/* The callers of bench/up/run, over loopback, each on a connection that it keeps. They invoke some times, say `ready`,
   and at a line of the input invoke for SECONDS; an invocation that is throttled is made again, and counted apart. They
   invoke synchronously, by events, or by a request to the port of a Function URL, whose function returns its body.
   Prints: invocations, rate, p50 and p99 in microseconds, throttles. Ends with its input.

   usage: call PORT FUNCTION CALLERS SIZE SECONDS invoke|event|url */
#include "http.h"

enum { MOST_CALLERS = 256, WARM_UPS = 3, MOST = 1 << 20 };

static int port, is_event;
static char line[256], *payload;
static size_t size;
static long invocations, throttles;
static double *took, ends;
static pthread_barrier_t warm, begin;

static double now(void) {
    struct timespec t;
    clock_gettime(CLOCK_MONOTONIC, &t);
    return t.tv_sec + t.tv_nsec * 1e-9;
}

/* Invokes until it isn't throttled: how long the last try took. The output is to be the payload. */
static double invoke(int s, char *buffer) {
    for (;;) {
        double begun = now();
        ask(s, line, payload, size);
        struct answer a = hear(s, buffer);
        double seconds = now() - begun;
        if (a.status == 429) {
            __sync_fetch_and_add(&throttles, 1);
            continue;
        }
        if (is_event ? a.status != 202 : a.status != 200 || a.length != size || memcmp(buffer, payload, size))
            fail("an invocation was answered %d, with %zu bytes: %.200s", a.status, a.length, buffer);
        return seconds;
    }
}

static void *call(void *unused) {
    int s = dial("127.0.0.1", port, PATIENCE);
    char *buffer = room();
    for (int n = 0; n < WARM_UPS; n++) invoke(s, buffer);
    pthread_barrier_wait(&warm);
    pthread_barrier_wait(&begin);
    do {
        double seconds = invoke(s, buffer);
        long place = __sync_fetch_and_add(&invocations, 1);
        if (place < MOST) took[place] = seconds;
    } while (now() < ends);
    return unused;
}

static int by_size(const void *a, const void *b) {
    double x = *(const double *)a, y = *(const double *)b;
    return (x > y) - (x < y);
}

static void hold(void) {
    char words[64];
    if (!fgets(words, sizeof words, stdin)) words[0] = 0;
}

int main(int count, char **words) {
    pthread_t callers[MOST_CALLERS];
    if (count != 7) fail("usage: call PORT FUNCTION CALLERS SIZE SECONDS invoke|event|url");
    int many = atoi(words[3]);
    port = atoi(words[1]), size = atol(words[4]);
    if (many < 1 || many > MOST_CALLERS || size < 2 || size > LARGEST) fail("CALLERS or SIZE is out of range");
    is_event = !strcmp(words[6], "event");
    if (is_event) fields = "X-Amz-Invocation-Type: Event\r\n";
    if (!strcmp(words[6], "url")) fields = "Content-Type: application/json\r\n";
    snprintf(line, sizeof line, !strcmp(words[6], "url") ? "POST /%s" : "POST /2015-03-31/functions/%s/invocations",
             words[2]);
    payload = room();
    memset(payload, 'x', size);
    payload[0] = payload[size - 1] = '"';
    took = calloc(MOST, sizeof *took);
    pthread_barrier_init(&warm, 0, many + 1);
    pthread_barrier_init(&begin, 0, many + 1);
    for (int n = 0; n < many; n++)
        if (pthread_create(&callers[n], 0, call, 0)) fail("no thread");
    pthread_barrier_wait(&warm);
    throttles = 0;
    printf("ready\n");
    fflush(stdout);
    hold();
    double begun = now();
    ends = begun + atof(words[5]);
    pthread_barrier_wait(&begin);
    for (int n = 0; n < many; n++) pthread_join(callers[n], 0);
    double seconds = now() - begun;
    long kept = invocations < MOST ? invocations : MOST;
    qsort(took, kept, sizeof *took, by_size);
    printf("%ld %.1f %.1f %.1f %ld\n", invocations, invocations / seconds, took[kept / 2] * 1e6,
           took[kept * 99 / 100] * 1e6, throttles);
    fflush(stdout);
    hold();
    return 0;
}
