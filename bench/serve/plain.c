/* The same service written plainly, to measure against: nothing is proved, and a good C program of this design would
   do no less. One lock, one thread a connection.

   Each bell is rung after the lock is given back: an invocation is a futex of its own, on which its caller sleeps, and
   a parked Next has an event of its own; a thread that does not sleep yet is not woken. The free environments are bits
   of a set, a large payload or output is not copied, a reply is one system call, and the journal never moves.

   It gives the load of load.c the same bytes as ours (test_yardstick.py): it reads heads strictly and payloads
   as JSON, keeps each call with what was handed in, ends an invocation at its deadline, withdraws a Next whose runtime
   goes away, and has a newer Next replace an older one. It lacks what that load does not ask for: it has one function
   f and runtimes alone, and takes no chunked bodies. As in ours, a caller is not throttled by a runtime that has
   answered and is on its way to ask again; but here its invocation is bound to that environment at once, where ours
   holds it back, which costs more.

   usage: plain INVOKE_PORT ENVIRONMENTS   (environment n listens on INVOKE_PORT + n) */
#define _GNU_SOURCE
#include <arpa/inet.h>
#include <errno.h>
#include <linux/futex.h>
#include <netinet/tcp.h>
#include <poll.h>
#include <pthread.h>
#include <stdatomic.h>
#include <stdint.h>
#include <stdio.h>
#include <stdlib.h>
#include <string.h>
#include <sys/eventfd.h>
#include <sys/socket.h>
#include <sys/syscall.h>
#include <time.h>
#include <unistd.h>

#include "plain_http.h"
#include "plain_json.h"

enum { MOST_ENVIRONMENTS = 256, MOST_BYTES = 6291456, TIMEOUT = 900, CHUNK = 4096 };

/* ---- waking -------------------------------------------------------------------------------------------------------*/

enum { AWAKE, SLEEPS, RUNG };          /* of one that waits: until it sleeps it need not be woken */

static void futex_wait(atomic_int *state, const struct timespec *deadline) {
    syscall(SYS_futex, state, FUTEX_WAIT_BITSET_PRIVATE, SLEEPS, deadline, 0, FUTEX_BITSET_MATCH_ANY);
}

/* Rings a caller; its memory may be gone once it is rung, and the address alone is used behind that. */
static void ring_caller(atomic_int *state) {
    if (atomic_exchange(state, RUNG) == SLEEPS) syscall(SYS_futex, state, FUTEX_WAKE_PRIVATE, 1, 0, 0, 0);
}

/* Whether one that has not been rung may sleep now. */
static int may_sleep(atomic_int *state) {
    int awake = AWAKE;
    return atomic_compare_exchange_strong(state, &awake, SLEEPS);
}

/* ---- the account: all of it is behind the lock --------------------------------------------------------------------*/

struct invocation {                    /* on the stack of its caller */
    atomic_int state;
    char *output;
    size_t output_size;
};

struct delivery {                      /* what a Next is given; the payload stays in the journal */
    const char *payload;
    size_t size;
    unsigned long number;              /* the count in its invocation's identifier; 0 if a newer Next has come */
    long deadline;                     /* Unix milliseconds */
};

struct parked {                        /* a Next */
    atomic_int state;
    int event;                         /* what is written to if it sleeps */
    struct delivery given;
};

struct environment {
    struct parked *next;
    struct invocation *open;
    struct delivery delivery;          /* of the open one */
    int is_delivered;
};

struct entry {
    long moment;
    int environment;                   /* 0 of an invocation, else from 1 on */
    char *bytes;
    size_t size;
};

struct chunk {
    struct chunk *before;
    size_t kept;
    struct entry entries[CHUNK];
};

static pthread_mutex_t lock = PTHREAD_MUTEX_INITIALIZER;
static struct environment environments[MOST_ENVIRONMENTS];
static uint64_t asking[MOST_ENVIRONMENTS / 64], answered[MOST_ENVIRONMENTS / 64];
static int environment_count;
static unsigned long invoked, admitted, throttled, entries;
static unsigned long in_flight;        /* until their environments ask again */
static struct chunk *journal;

static void put_in(uint64_t *set, int at) {
    set[at / 64] |= (uint64_t)1 << at % 64;
}

/* Takes one out of a set; whether it was in it. */
static int take_out(uint64_t *set, int at) {
    int was_in = set[at / 64] >> at % 64 & 1;
    set[at / 64] &= ~((uint64_t)1 << at % 64);
    return was_in;
}

/* The lowest-numbered environment of a set; -1 if there is none. */
static int lowest(const uint64_t *set) {
    for (int word = 0; word < MOST_ENVIRONMENTS / 64; word++)
        if (set[word]) return 64 * word + __builtin_ctzll(set[word]);
    return -1;
}

static long unix_milliseconds(void) {
    struct timespec now;
    clock_gettime(CLOCK_REALTIME, &now);
    return now.tv_sec * 1000L + now.tv_nsec / 1000000;
}

/* Keeps a call, with what was handed in. */
static void keep(long moment, int environment, char *bytes, size_t size) {
    if (!journal || journal->kept == CHUNK) {
        struct chunk *further = malloc(sizeof *further);
        if (!further) abort();
        further->before = journal;
        further->kept = 0;
        journal = further;
    }
    journal->entries[journal->kept++] = (struct entry){moment, environment, bytes, size};
    entries++;
}

/* Gives a parked Next what it waits for; it is rung once the lock is given back. */
static struct parked *give(struct environment *e) {
    struct parked *next = e->next;
    e->next = 0;
    next->given = e->delivery;
    e->is_delivered = 1;
    return next;
}

static void ring_next(struct parked *next) {
    if (next && atomic_exchange(&next->state, RUNG) == SLEEPS) eventfd_write(next->event, 1);
}

/* ---- calls --------------------------------------------------------------------------------------------------------*/

static int is_over(const struct timespec *deadline) {
    struct timespec now;
    clock_gettime(CLOCK_MONOTONIC, &now);
    return now.tv_sec > deadline->tv_sec || (now.tv_sec == deadline->tv_sec && now.tv_nsec >= deadline->tv_nsec);
}

/* Waits until an invocation of this environment is answered; whether it was, before its deadline. */
static int is_answered(struct invocation *i, struct environment *e, const struct timespec *deadline) {
    if (!may_sleep(&i->state)) return 1;
    while (atomic_load(&i->state) != RUNG) {
        futex_wait(&i->state, deadline);
        if (!deadline || atomic_load(&i->state) == RUNG || !is_over(deadline)) continue;
        pthread_mutex_lock(&lock);
        int is_open = e->open == i;
        if (is_open) {
            e->open = 0;
            in_flight--;
        }
        pthread_mutex_unlock(&lock);
        if (is_open) return 0;
        deadline = 0;                  /* it was answered just now: its bell comes */
    }
    return 1;
}

struct peer {                          /* who has a connection */
    struct connection http;
    int environment;                   /* -1 at the invoke port */
    struct parked next;                /* its Next, if it waits in one */
};

#define NOT_NOW(c, why) SAY(&(c)->http, "403 Forbidden\r\n" JSON, \
                            "{\"errorMessage\":\"" why "\",\"errorType\":\"InvalidStateTransition\"}")

static int throttle(struct peer *c, unsigned long number) {
    static const char body[] = "{\"Reason\":\"LocalEnvironmentLimitExceeded\",\"Type\":\"User\","
                               "\"message\":\"Rate Exceeded.\"}";
    struct reply r = {.size = 0};
    PUT(&r, "HTTP/1.1 429 Too Many Requests\r\n" JSON "x-amzn-errortype: TooManyRequestsException\r\n"
            "x-amzn-requestid: ");
    put_identifier(&r, number);
    PUT(&r, "\r\n");
    return reply(&c->http, &r, body, sizeof body - 1);
}

static int invoke(struct peer *c, char *payload, size_t size) {
    if (!is_json(payload, size)) {
        free(payload);
        return SAY(&c->http, "400 Bad Request\r\n" JSON "x-amzn-errortype: InvalidRequestContentException\r\n",
                   "{\"Type\":\"User\",\"message\":\"Payload is not JSON\"}");
    }
    struct invocation i = {.state = AWAKE};
    struct timespec deadline;
    clock_gettime(CLOCK_MONOTONIC, &deadline);
    deadline.tv_sec += TIMEOUT;
    pthread_mutex_lock(&lock);
    int at = lowest(asking), is_asking = at >= 0;
    if (!is_asking) at = lowest(answered);
    unsigned long number = ++invoked;
    long moment = unix_milliseconds();
    if (at < 0) {
        throttled++;
        keep(moment, 0, 0, 0);
        pthread_mutex_unlock(&lock);
        free(payload);
        return throttle(c, number);
    }
    struct environment *e = &environments[at];
    admitted++;
    in_flight += is_asking;
    keep(moment, 0, payload, size);
    take_out(is_asking ? asking : answered, at);
    e->open = &i;
    e->delivery = (struct delivery){size ? payload : "{}", size ? size : 2, number, moment + TIMEOUT * 1000L};
    e->is_delivered = 0;
    struct parked *next = is_asking ? give(e) : 0;
    pthread_mutex_unlock(&lock);
    ring_next(next);
    struct reply r = {.size = 0};
    PUT(&r, "HTTP/1.1 200 OK\r\n" JSON);
    int has_output = is_answered(&i, e, &deadline);
    if (!has_output) PUT(&r, "x-amz-function-error: Unhandled\r\n");
    PUT(&r, "x-amz-executed-version: $LATEST\r\nx-amzn-requestid: ");
    put_identifier(&r, number);
    PUT(&r, "\r\n");
    if (has_output) return reply(&c->http, &r, i.output, i.output_size);
    static const char late[] = "{\"errorType\":\"Sandbox.Timedout\",\"errorMessage\":\"Task timed out\"}";
    return reply(&c->http, &r, late, sizeof late - 1);
}

/* Waits for the bell of a Next; returns -1 if its runtime went away before. */
static int hear(struct peer *c, struct environment *e) {
    struct pollfd ends[2] = {{.fd = c->next.event, .events = POLLIN}, {.fd = c->http.socket, .events = POLLRDHUP}};
    eventfd_t count;
    if (!may_sleep(&c->next.state)) return 0;
    while (poll(ends, 2, -1) < 0) {}
    if (!ends[0].revents) {
        pthread_mutex_lock(&lock);
        int is_parked = e->next == &c->next;
        if (is_parked) {
            e->next = 0;
            take_out(asking, c->environment);
        }
        pthread_mutex_unlock(&lock);
        if (is_parked) return -1;      /* else it was rung just now, and has to be heard */
    }
    while (eventfd_read(c->next.event, &count) < 0) {}
    return 0;
}

static int next(struct peer *c) {
    struct environment *e = &environments[c->environment];
    struct parked *mine = &c->next, *older = 0;
    atomic_store(&mine->state, AWAKE);
    pthread_mutex_lock(&lock);
    keep(unix_milliseconds(), c->environment + 1, 0, 0);
    if (e->open && e->is_delivered) {
        pthread_mutex_unlock(&lock);
        return NOT_NOW(c, "Not allowed in the current phase");
    }
    if ((older = e->next)) older->given.number = 0;
    e->next = mine;
    in_flight -= take_out(answered, c->environment);
    if (e->open)
        give(e);
    else
        put_in(asking, c->environment);
    int is_given = e->next != mine;
    pthread_mutex_unlock(&lock);
    ring_next(older);
    if (!is_given && hear(c, e)) return -1;
    if (!mine->given.number)
        return NOT_NOW(c, "A newer poll replaced this one");
    struct reply r = {.size = 0};
    PUT(&r, "HTTP/1.1 200 OK\r\n" JSON "lambda-runtime-aws-request-id: ");
    put_identifier(&r, mine->given.number);
    PUT(&r, "\r\nlambda-runtime-deadline-ms: ");
    put_number(&r, mine->given.deadline);
    PUT(&r, "\r\nlambda-runtime-invoked-function-arn: arn:aws:lambda:us-east-2:123456789012:function:f\r\n"
            "lambda-runtime-trace-id: Root=1-00000000-000000000000000000000000;Sampled=0\r\n");
    return reply(&c->http, &r, mine->given.payload, mine->given.size);
}

/* The count in an identifier; 0 if it is none. */
static unsigned long count_in(const char *id, size_t size) {
    static const char begin[] = "00000000-0000-8000-8001-";
    unsigned long found = 0;
    if (size != sizeof begin - 1 + 12 || memcmp(id, begin, sizeof begin - 1)) return 0;
    for (const char *at = id + sizeof begin - 1; at < id + size; at++) {
        if (!((*at >= '0' && *at <= '9') || (*at >= 'a' && *at <= 'f'))) return 0;
        found = 16 * found + (*at <= '9' ? *at - '0' : *at - 'a' + 10);
    }
    return found;
}

static int respond(struct peer *c, const char *id, size_t id_size, char *output, size_t size) {
    struct environment *e = &environments[c->environment];
    unsigned long number = count_in(id, id_size);
    pthread_mutex_lock(&lock);
    struct invocation *i = e->open;
    int is_busy = i && e->is_delivered;
    if (!is_busy || e->delivery.number != number) {
        keep(unix_milliseconds(), c->environment + 1, 0, 0);
        pthread_mutex_unlock(&lock);
        free(output);
        if (!is_busy) return NOT_NOW(c, "Not allowed in the current phase");
        return SAY(&c->http, "400 Bad Request\r\n" JSON,
                   "{\"errorMessage\":\"Not the open invocation\",\"errorType\":\"InvalidRequestID\"}");
    }
    e->open = 0;
    put_in(answered, c->environment);
    keep(unix_milliseconds(), c->environment + 1, output, size);
    i->output = output;
    i->output_size = size;
    pthread_mutex_unlock(&lock);
    ring_caller(&i->state);
    return SAY(&c->http, "202 Accepted\r\n" JSON, "{\"status\":\"OK\"}");
}

static int stats(struct peer *c) {
    char body[160];
    pthread_mutex_lock(&lock);
    int size = snprintf(body, sizeof body, "{\"admitted\":%lu,\"entries\":%lu,\"failed\":0,\"inFlight\":%lu,"
                        "\"throttled\":%lu}", admitted, entries, in_flight, throttled);
    pthread_mutex_unlock(&lock);
    return say(&c->http, "HTTP/1.1 200 OK\r\n" JSON, sizeof "HTTP/1.1 200 OK\r\n" JSON - 1, body, size);
}

/* ---- requests -----------------------------------------------------------------------------------------------------*/

/* Refuses a request by its head: what follows it is not read. */
static int refuse(struct peer *c, int status) {
    c->http.closes = 1;
    if (status == 403)
        return SAY(&c->http, "403 Forbidden\r\n" JSON, "{\"Type\":\"User\",\"message\":\"This name is not served\"}");
    if (status == 413)
        return SAY(&c->http, "413 Payload Too Large\r\n" JSON "x-amzn-errortype: RequestTooLargeException\r\n",
                   "{\"Type\":\"User\",\"message\":\"Payload exceeds 6291456 bytes\"}");
    if (status == 431) return SAY(&c->http, "431 Request Header Fields Too Large\r\n", "");
    if (status == 501) return SAY(&c->http, "501 Not Implemented\r\n", "");
    if (status == 505) return SAY(&c->http, "505 HTTP Version Not Supported\r\n", "");
    return SAY(&c->http, "400 Bad Request\r\n", "");
}

static int no_such_resource(struct peer *c) {
    return SAY(&c->http, "404 Not Found\r\n" JSON,
               "{\"errorMessage\":\"No such resource\",\"errorType\":\"NotFound\"}");
}

/* Serves a request of the invoke port; its body is kept or freed. */
static int serve_caller(struct peer *c, const struct request *r, char *body) {
    if (is_word(r->target, "/2015-03-31/functions/f/invocations") && is_word(r->method, "POST"))
        return invoke(c, body, r->length);
    free(body);
    return is_word(r->target, "/_local/stats") && is_word(r->method, "GET") ? stats(c) : no_such_resource(c);
}

/* Serves a request of an environment. */
static int serve_environment(struct peer *c, const struct request *r, char *body) {
    static const char prefix[] = "/2018-06-01/runtime/invocation/", suffix[] = "/response";
    size_t before = sizeof prefix - 1, behind = sizeof suffix - 1;
    const char *target = r->target.at;
    size_t size = r->target.size;
    if (is_word(r->method, "POST") && size > before + behind && !memcmp(target, prefix, before) &&
        !memcmp(target + size - behind, suffix, behind))
        return respond(c, target + before, size - before - behind, body, r->length);
    free(body);
    if (!is_word(r->method, "GET")) return no_such_resource(c);
    if (is_word(r->target, "/2018-06-01/runtime/invocation/next")) return next(c);
    if (is_word(r->target, "/2020-01-01/extension/event/next")) pause();
    return no_such_resource(c);
}

static void *serve(void *argument) {
    struct peer *c = argument;
    struct request r;
    int status;
    while (!(status = read_head(&c->http, &r))) {
        if (r.length > MOST_BYTES) {
            status = 413;
            break;
        }
        char *body = read_body(&c->http, &r);
        if (!body) break;
        if (c->environment < 0 ? serve_caller(c, &r, body) : serve_environment(c, &r, body)) break;
    }
    if (status > 0) refuse(c, status);
    if (c->environment >= 0) close(c->next.event);
    close(c->http.socket);
    free(c);
    return 0;
}

/* ---- ports --------------------------------------------------------------------------------------------------------*/

struct port {
    int listener, environment;
};

static void *accept_all(void *argument) {
    struct port *port = argument;
    pthread_attr_t detached;
    pthread_attr_init(&detached);
    pthread_attr_setdetachstate(&detached, PTHREAD_CREATE_DETACHED);
    pthread_attr_setstacksize(&detached, 128 * 1024);
    for (;;) {
        int socket = accept4(port->listener, 0, 0, SOCK_CLOEXEC), one = 1;
        if (socket < 0) {
            if (errno == EMFILE || errno == ENFILE || errno == ENOMEM) usleep(1000);
            continue;
        }
        setsockopt(socket, IPPROTO_TCP, TCP_NODELAY, &one, sizeof one);
        struct peer *c = malloc(sizeof *c);
        pthread_t thread;
        if (!c) {
            close(socket);
            continue;
        }
        c->http.socket = socket;
        c->environment = port->environment;
        c->http.has_local_names = c->environment < 0;
        c->http.closes = 0;
        c->http.read = c->http.used = 0;
        c->next.event = c->environment >= 0 ? eventfd(0, EFD_CLOEXEC) : 0;
        if (c->next.event < 0 || pthread_create(&thread, &detached, serve, c)) {
            if (c->next.event > 0) close(c->next.event);
            close(socket);
            free(c);
        }
    }
    return 0;
}

int main(int count, char **words) {
    if (count != 3 || (environment_count = atoi(words[2])) < 1 || environment_count > MOST_ENVIRONMENTS) {
        fprintf(stderr, "usage: plain INVOKE_PORT ENVIRONMENTS\n");
        return 2;
    }
    make_tables();
    pthread_t thread = 0;
    for (int n = 0; n <= environment_count; n++) {
        struct sockaddr_in address = {
            .sin_family = AF_INET,
            .sin_port = htons(atoi(words[1]) + n),
            .sin_addr.s_addr = htonl(INADDR_LOOPBACK),
        };
        struct port *port = malloc(sizeof *port);
        int one = 1;
        if (!port) return 4;
        port->environment = n - 1;
        port->listener = socket(AF_INET, SOCK_STREAM | SOCK_CLOEXEC, 0);
        setsockopt(port->listener, SOL_SOCKET, SO_REUSEADDR, &one, sizeof one);
        if (bind(port->listener, (struct sockaddr *)&address, sizeof address) || listen(port->listener, 1024) ||
            pthread_create(&thread, 0, accept_all, port)) {
            perror("plain");
            return 4;
        }
    }
    fprintf(stderr, "listening\n");
    pthread_join(thread, 0);
}
