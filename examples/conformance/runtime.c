// A runtime in C with the handler that `./lambda_local conformance runtime` expects, and nothing but the C library. It
// relies on the kit's events, which are compact, `do` first and `value` last.
//
// usage: cc -O2 -o /tmp/runtime runtime.c && ../../lambda_local conformance runtime -- /tmp/runtime
#define _GNU_SOURCE
#include <netdb.h>
#include <netinet/tcp.h>
#include <poll.h>
#include <signal.h>
#include <stdarg.h>
#include <stdio.h>
#include <stdlib.h>
#include <string.h>
#include <strings.h>
#include <time.h>
#include <unistd.h>

typedef struct {
  char *data;
  size_t length, room;
} Text;

static char host[256], *port;
static int connection = -1;
static Text received, head, body, output;
static const char *api = "/2018-06-01/runtime/";

static void add(Text *text, const char *data, size_t length) {
  if (text->length + length + 1 > text->room) {
    text->room = 2 * (text->length + length + 1);
    text->data = realloc(text->data, text->room);
    if (!text->data) exit(1);
  }
  memcpy(text->data + text->length, data, length);
  text->length += length;
  text->data[text->length] = 0;
}

static void clear(Text *text) {
  text->length = 0;
  add(text, "", 0);
}

static void format(Text *text, const char *form, ...) {
  char line[2048];
  va_list words;
  va_start(words, form);
  add(text, line, (size_t)vsnprintf(line, sizeof line, form, words));
  va_end(words);
}

static void disconnect(void) {
  if (connection >= 0) close(connection);
  connection = -1;
  clear(&received);
}

// Whether its peer has ended the connection meanwhile.
static int has_ended(void) {
  struct pollfd look = {connection, POLLIN, 0};
  return poll(&look, 1, 0) > 0;
}

static int connected(void) {
  if (connection >= 0 && has_ended()) disconnect();
  if (connection >= 0) return 1;
  struct addrinfo hints = {.ai_socktype = SOCK_STREAM}, *found;
  if (getaddrinfo(host, port, &hints, &found)) return 0;
  connection = socket(found->ai_family, SOCK_STREAM | SOCK_CLOEXEC, 0);
  int is_there = connection >= 0 && !connect(connection, found->ai_addr, found->ai_addrlen), at_once = 1;
  freeaddrinfo(found);
  if (is_there) setsockopt(connection, IPPROTO_TCP, TCP_NODELAY, &at_once, sizeof at_once);
  return is_there;
}

static int sent(const char *data, size_t length) {
  while (length) {
    ssize_t count = send(connection, data, length, MSG_NOSIGNAL);
    if (count <= 0) return 0;
    data += count;
    length -= (size_t)count;
  }
  return 1;
}

static int receive(void) {
  char part[65536];
  ssize_t count = recv(connection, part, sizeof part, 0);
  if (count > 0) add(&received, part, (size_t)count);
  return count > 0;
}

// Moves so many bytes of what comes to the end of a text.
static int take(size_t length, Text *text) {
  while (received.length < length)
    if (!receive()) return 0;
  add(text, received.data, length);
  received.length -= length;
  memmove(received.data, received.data + length, received.length + 1);
  return 1;
}

static int take_line(Text *text) {
  char *end;
  while (!(end = memchr(received.data, '\n', received.length)))
    if (!receive()) return 0;
  return take((size_t)(end - received.data) + 1, text);
}

// The value of a header; an empty one if it is not there.
static const char *header(const char *name) {
  static char value[8][4096];
  static int next;
  size_t length = strlen(name);
  char *found = value[next = (next + 1) % 8];
  *found = 0;
  for (const char *line = strchr(head.data, '\n'); line && line[1]; line = strchr(line + 1, '\n'))
    if (!strncasecmp(line + 1, name, length) && line[1 + length] == ':') {
      const char *begin = line + 2 + length + strspn(line + 2 + length, " \t");
      snprintf(found, sizeof value[0], "%.*s", (int)strcspn(begin, "\r\n"), begin);
      found[strcspn(found, "\r\n") ? strlen(found) : 0] = 0;
      break;
    }
  return found;
}

static int take_chunks(void) {
  Text line = {0};
  size_t size;
  do {
    clear(&line);
    if (!take_line(&line)) return 0;
    size = strtoul(line.data, NULL, 16);
    if (size && !take(size, &body)) return 0;
    clear(&line);
    while (take_line(&line) && !size && line.length > 2) clear(&line); // (the trailers, behind the last chunk)
  } while (size);
  free(line.data);
  return 1;
}

// Reads an answer into head and body. Returns its status, 0 if it does not come.
static int answer(void) {
  int status;
  do {
    clear(&head);
    clear(&body);
    size_t before;
    do {
      before = head.length;
      if (!take_line(&head)) return 0;
    } while (head.length - before > 2);
    status = atoi(head.data + strcspn(head.data, " "));
  } while (status / 100 == 1);
  int is_whole = *header("Transfer-Encoding") ? take_chunks()
                                              : take(strtoul(header("Content-Length"), NULL, 10), &body);
  if (!is_whole) return 0;
  if (!strcasecmp(header("Connection"), "close")) disconnect();
  return status;
}

static int ask(const char *method, const char *path, const Text *content, const char *type) {
  Text request = {0};
  format(&request, "%s %s%s HTTP/1.1\r\nHost: %s:%s\r\n", method, api, path, host, port);
  if (type) format(&request, "Lambda-Runtime-Function-Error-Type: %s\r\n", type);
  if (content) format(&request, "Content-Type: application/json\r\nContent-Length: %zu\r\n", content->length);
  add(&request, "\r\n", 2);
  if (content) add(&request, content->data, content->length);
  int status = connected() && sent(request.data, request.length) ? answer() : 0;
  free(request.data);
  if (!status) disconnect();
  if (status == 500) exit(1);
  return status;
}

static long long now(void) {
  struct timespec moment;
  clock_gettime(CLOCK_REALTIME, &moment);
  return moment.tv_sec * 1000LL + moment.tv_nsec / 1000000;
}

static void pause_for(long milliseconds) {
  struct timespec time = {milliseconds / 1000, milliseconds % 1000 * 1000000};
  while (nanosleep(&time, &time)) {}
}

static void write_context(long wait) {
  long long deadline = atoll(header("Lambda-Runtime-Deadline-Ms")), first = deadline - now();
  pause_for(wait);
  format(&output, "{\"requestId\":\"%s\",\"functionArn\":\"%s\",\"traceId\":\"%s\",\"remaining\":[%lld,%lld]}",
         header("Lambda-Runtime-Aws-Request-Id"), header("Lambda-Runtime-Invoked-Function-Arn"),
         getenv("_X_AMZN_TRACE_ID"), first, deadline - now());
}

static void write_texts(const char *value, size_t length) {
  for (size_t at = 1; at + 1 < length; at++) {
    while (!strncmp(value + at, "\",\"", 3)) at += 3;
    add(&output, value + at, 1);
  }
}

// The handler: writes its output, or the report of its error. Returns whether it is an output.
static int handle(void) {
  const char *begun = "{\"do\":\"";
  clear(&output);
  if (strncmp(body.data, begun, strlen(begun))) {
    add(&output, body.data, body.length);
    return 1;
  }
  const char *action = body.data + strlen(begun), *found = strstr(body.data, "\"value\":");
  const char *value = found ? found + 8 : "null}";
  size_t length = found ? body.length - (size_t)(value - body.data) - 1 : 4;
  if (!strncmp(action, "echo", 4)) {
    add(&output, value, length);
  } else if (!strncmp(action, "bytes", 5)) {
    for (size_t at = 1; at + 1 < length; at++) format(&output, "%c%d", at == 1 ? '[' : ',', (unsigned char)value[at]);
    add(&output, "]", 1);
  } else if (!strncmp(action, "large", 5)) {
    add(&output, "\"", 1);
    for (long left = atol(value); left > 0; left -= 64)
      add(&output, "xxxxxxxxxxxxxxxxxxxxxxxxxxxxxxxxxxxxxxxxxxxxxxxxxxxxxxxxxxxxxxxx", left < 64 ? (size_t)left : 64);
    add(&output, "\"", 1);
  } else if (!strncmp(action, "stream", 6)) {
    write_texts(value, length);
  } else if (!strncmp(action, "sleep", 5)) {
    pause_for(atol(value));
    add(&output, value, length);
  } else if (!strncmp(action, "context", 7)) {
    write_context(atol(value));
  } else if (!strncmp(action, "print", 5)) {
    printf("%.*s\n", (int)length, value);
    fflush(stdout);
    add(&output, "null", 4);
  } else if (!strncmp(action, "exit", 4)) {
    exit(atoi(value));
  } else if (!strncmp(action, "hang", 4)) {
    for (;;) pause();
  } else { // fail, with "type" and "message" as they are written
    const char *type = strstr(action, "\"type\":") + 7, *message = strstr(action, ",\"message\":");
    format(&output, "{\"errorType\":%.*s,\"stackTrace\":[],\"errorMessage\":", (int)(message - type), type);
    add(&output, message + 11, body.length - (size_t)(message + 11 - body.data));
    return 0;
  }
  return 1;
}

int main(void) {
  const char *address = getenv("AWS_LAMBDA_RUNTIME_API"), *handler = getenv("_HANDLER");
  snprintf(host, sizeof host, "%s", address ? address : "127.0.0.1:9001");
  port = strrchr(host, ':');
  *port++ = 0;
  clear(&received);
  if (handler && strcmp(handler, "conformance.handler")) {
    clear(&output);
    format(&output, "{\"errorType\":\"Runtime.NoSuchHandler\",\"errorMessage\":\"there is no %s\"}", handler);
    ask("POST", "init/error", &output, "Runtime.NoSuchHandler");
    return 1;
  }
  for (;;) {
    int status = ask("GET", "invocation/next", NULL, NULL);
    if (!status) status = ask("GET", "invocation/next", NULL, NULL);
    if (!status) return 1;
    if (status != 200) {
      pause_for(50);
      continue;
    }
    char path[256];
    setenv("_X_AMZN_TRACE_ID", header("Lambda-Runtime-Trace-Id"), 1);
    snprintf(path, sizeof path, "invocation/%s/", header("Lambda-Runtime-Aws-Request-Id"));
    int is_output = handle();
    strcat(path, is_output ? "response" : "error");
    ask("POST", path, &output, is_output ? NULL : "Runtime.OutOfCheese");
  }
}
