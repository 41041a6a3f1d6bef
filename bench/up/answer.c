/* The runtime of bench/up/run that is none of the bundled ones: it returns its event. usage: answer */
#include "http.h"

int main(void) {
    const char *api = getenv("AWS_LAMBDA_RUNTIME_API");
    char host[64], line[256], *event = room(), *accepted = room();
    int port;
    if (!api || sscanf(api, "%63[^:]:%d", host, &port) != 2) fail("AWS_LAMBDA_RUNTIME_API is not HOST:PORT");
    int s = dial(host, port, 0);
    for (;;) {
        ask(s, "GET /2018-06-01/runtime/invocation/next", 0, 0);
        struct answer given = hear(s, event);
        if (given.status != 200) return 0; /* its environment shuts down */
        snprintf(line, sizeof line, "POST /2018-06-01/runtime/invocation/%s/response", given.id);
        ask(s, line, event, given.length);
        int status = hear(s, accepted).status;
        if (status != 202) fail("a response was answered %d", status);
    }
}
