/* In front of the C library's malloc and realloc: refuses the request with the number REFUSE (the first is 1), and
   makes the file REFUSED when it does. Writes the size of each request, as 8 bytes, to the file TRACE. */
#define _GNU_SOURCE
#include <dlfcn.h>
#include <fcntl.h>
#include <stdlib.h>
#include <unistd.h>
static unsigned long made;
static void note(size_t size) {
    static int trace = -1;
    const char *path = getenv("TRACE");
    if (!path) return;
    if (trace < 0) trace = open(path, O_CREAT | O_TRUNC | O_WRONLY | O_CLOEXEC, 0600);
    if (write(trace, &size, sizeof size) < 0) _exit(99);
}
static int refuses(size_t size) {
    const char *number = getenv("REFUSE"), *path = getenv("REFUSED");
    note(size);
    if (!number || __sync_add_and_fetch(&made, 1) != strtoul(number, 0, 10)) return 0;
    if (path) close(open(path, O_CREAT | O_WRONLY, 0600));
    return 1;
}
void *malloc(size_t size) {
    static void *(*real)(size_t);
    if (!real) real = (void *(*)(size_t))dlsym(RTLD_NEXT, "malloc");
    return refuses(size) ? 0 : real(size);
}
void *realloc(void *old, size_t size) {
    static void *(*real)(void *, size_t);
    if (!real) real = (void *(*)(void *, size_t))dlsym(RTLD_NEXT, "realloc");
    return refuses(size) ? 0 : real(old, size);
}
