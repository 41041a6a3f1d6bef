/* HTTP/1.1 of plain.c: a connection's requests, which are read strictly (RFC 9112), and its replies, each by one
   system call. */
#include <errno.h>
#include <stdlib.h>
#include <string.h>
#include <strings.h>
#include <sys/socket.h>
#include <sys/uio.h>

enum { HEAD = 16384 };                 /* bytes of a head at most */

struct connection {
    int socket;
    int has_local_names;               /* a Host has to be one of this machine's own */
    int closes;                        /* after the next reply */
    size_t read, used;
    char head[HEAD];
};

struct reply {
    size_t size;
    char bytes[8192];
};

static void put(struct reply *r, const char *text, size_t size) {
    memcpy(r->bytes + r->size, text, size);
    r->size += size;
}

#define PUT(reply, text) put(reply, text, sizeof text - 1)

static void put_number(struct reply *r, unsigned long number) {
    char digits[20];
    int at = sizeof digits;
    do digits[--at] = '0' + number % 10; while (number /= 10);
    put(r, digits + at, sizeof digits - at);
}

/* The identifier of an invocation. */
static void put_identifier(struct reply *r, unsigned long number) {
    PUT(r, "00000000-0000-8000-8001-");
    for (int shift = 44; shift >= 0; shift -= 4) r->bytes[r->size++] = "0123456789abcdef"[number >> shift & 15];
}

static int send_all(int socket, struct iovec *parts, int count) {
    struct msghdr message = {.msg_iov = parts, .msg_iovlen = count};
    while (message.msg_iovlen) {
        ssize_t sent = sendmsg(socket, &message, MSG_NOSIGNAL);
        if (sent < 0 && errno == EINTR) continue;
        if (sent <= 0) return -1;
        while (message.msg_iovlen && (size_t)sent >= message.msg_iov->iov_len) {
            sent -= message.msg_iov->iov_len;
            message.msg_iov++;
            message.msg_iovlen--;
        }
        if (message.msg_iovlen) {
            message.msg_iov->iov_base = (char *)message.msg_iov->iov_base + sent;
            message.msg_iov->iov_len -= sent;
        }
    }
    return 0;
}

/* Ends a reply whose own headers are there, and sends it by one system call; not 0 if the connection is over. */
static int reply(struct connection *c, struct reply *r, const char *body, size_t size) {
    if (c->closes) PUT(r, "connection: close\r\n");
    PUT(r, "content-length: ");
    put_number(r, size);
    PUT(r, "\r\n\r\n");
    struct iovec parts[2] = {{r->bytes, r->size}, {(char *)body, size}};
    if (size < sizeof r->bytes - r->size) {
        put(r, body, size);
        parts[0].iov_len = r->size;
        return send_all(c->socket, parts, 1) || c->closes;
    }
    return send_all(c->socket, parts, 2) || c->closes;
}

#define JSON "content-type: application/json\r\n"
/* A reply of one form: its status line and headers, and its body. */
#define SAY(c, head, body) (say(c, "HTTP/1.1 " head, sizeof "HTTP/1.1 " head - 1, body, sizeof body - 1))

static int say(struct connection *c, const char *head, size_t head_size, const char *body, size_t size) {
    struct reply r = {.size = 0};
    put(&r, head, head_size);
    return reply(c, &r, body, size);
}

static unsigned char is_token[256];    /* in a header's name, or a method (RFC 9110, 5.6.2) */
static unsigned char is_text[256];     /* in a header's value, or a target */
static unsigned char is_digit[256];

static void make_tables(void) {
    for (int b = 0; b < 256; b++) {
        is_digit[b] = b >= '0' && b <= '9';
        is_token[b] = is_digit[b] || ((b | 32) >= 'a' && (b | 32) <= 'z') ||
                      (b && strchr("!#$%&'*+-.^_`|~", b));
        is_text[b] = b == '\t' || (b >= ' ' && b != 127);
    }
}

struct text {
    const char *at;
    size_t size;
};

struct request {
    struct text method, target;
    size_t length;                     /* of the body */
    int has_length, hosts, expects;
};

static int is_word(struct text it, const char *word) {
    return it.size == strlen(word) && !memcmp(it.at, word, it.size);
}

static int is_name(struct text it, const char *word, size_t size) {
    return it.size == size && !strncasecmp(it.at, word, size);
}

/* Whether all are such bytes, and there are any. */
static int are(const unsigned char *kind, struct text it) {
    for (size_t n = 0; n < it.size; n++)
        if (!kind[(unsigned char)it.at[n]]) return 0;
    return it.size > 0;
}

/* Whether this is a machine's own name or address, with a port or none: a page of another name has no access. */
static int is_local(struct text host) {
    static const char *const names[] = {"localhost", "127.0.0.1", "[::1]"};
    for (int n = 0; n < 3; n++) {
        size_t size = strlen(names[n]);
        if (host.size < size || strncasecmp(host.at, names[n], size)) continue;
        if (host.size == size) return 1;
        return host.at[size] == ':' && are(is_digit, (struct text){host.at + size + 1, host.size - size - 1});
    }
    return 0;
}

/* Reads the size of a body; whether it is one, and no other than one before it. */
static int take_length(struct request *r, struct text it) {
    size_t length = 0;
    if (it.size > 15 || !are(is_digit, it)) return 0;
    for (size_t n = 0; n < it.size; n++) length = 10 * length + it.at[n] - '0';
    int is_other = r->has_length && r->length != length;
    r->length = length;
    r->has_length = 1;
    return !is_other;
}

/* Takes a header; 0, or the status with which its request is refused. */
static int take_header(struct connection *c, struct request *r, struct text name, struct text it) {
    if (is_name(name, "host", 4)) return ++r->hosts > 1 ? 400 : c->has_local_names && !is_local(it) ? 403 : 0;
    if (is_name(name, "content-length", 14)) return take_length(r, it) ? 0 : 400;
    if (is_name(name, "transfer-encoding", 17)) return 501;
    if (is_name(name, "expect", 6)) r->expects = 1;
    if (is_name(name, "connection", 10) && is_name(it, "close", 5)) c->closes = 1;
    return 0;
}

/* Takes the request line; 0, or the status with which it is refused. */
static int take_line(struct request *r, const char *at, const char *end) {
    const char *first = memchr(at, ' ', end - at);
    const char *second = first ? memchr(first + 1, ' ', end - first - 1) : 0;
    if (!second) return 400;
    r->method = (struct text){at, first - at};
    r->target = (struct text){first + 1, second - first - 1};
    if (!are(is_token, r->method) || !are(is_text, r->target)) return 400;
    return end - second == 9 && !memcmp(second, " HTTP/1.1", 9) ? 0 : 505;
}

/* Reads a head of these bytes: its size, 0 if it has not come whole, or below 0 the status with which it is refused. */
static long take_head(struct connection *c, struct request *r, const char *bytes, const char *end) {
    *r = (struct request){0};
    for (const char *at = bytes, *lf; (lf = memchr(at, '\n', end - at)); at = lf + 1) {
        if (lf == at || lf[-1] != '\r') return -400;
        const char *cr = lf - 1;
        int status;
        if (at == bytes) {
            status = take_line(r, at, cr);
        } else if (at == cr) {
            return r->hosts ? lf + 1 - bytes : -400;
        } else {
            const char *colon = memchr(at, ':', cr - at);
            if (!colon || !are(is_token, (struct text){at, colon - at})) return -400;
            struct text name = {at, colon - at};
            for (at = colon + 1; at < cr && (*at == ' ' || *at == '\t');) at++;
            while (cr > at && (cr[-1] == ' ' || cr[-1] == '\t')) cr--;
            if (cr > at && !are(is_text, (struct text){at, cr - at})) return -400;
            status = take_header(c, r, name, (struct text){at, cr - at});
        }
        if (status) return -status;
    }
    return 0;
}

/* Reads the next head; 0, -1 at the end of the connection, or the status with which it is refused. */
static int read_head(struct connection *c, struct request *r) {
    if (c->used < c->read) memmove(c->head, c->head + c->used, c->read - c->used);
    c->read -= c->used;
    c->used = 0;
    for (;;) {
        long size = c->read ? take_head(c, r, c->head, c->head + c->read) : 0;
        if (size < 0) return (int)-size;
        if (size > 0) {
            c->used = size;
            return 0;
        }
        if (c->read == HEAD) return 431;
        ssize_t got = recv(c->socket, c->head + c->read, HEAD - c->read, 0);
        if (got < 0 && errno == EINTR) continue;
        if (got <= 0) return -1;
        c->read += got;
    }
}

static char *read_body(struct connection *c, const struct request *r) {
    char *body = malloc(r->length + 1);
    size_t have = c->read - c->used;
    if (!body) return 0;
    if (have > r->length) have = r->length;
    memcpy(body, c->head + c->used, have);
    c->used += have;
    if (r->expects && have < r->length && send(c->socket, "HTTP/1.1 100 Continue\r\n\r\n", 25, MSG_NOSIGNAL) < 0) {
        free(body);
        return 0;
    }
    while (have < r->length) {
        ssize_t got = recv(c->socket, body + have, r->length - have, 0);
        if (got < 0 && errno == EINTR) continue;
        if (got <= 0) {
            free(body);
            return 0;
        }
        have += got;
    }
    return body;
}
