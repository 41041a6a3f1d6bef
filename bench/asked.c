/* In front of the C library's malloc and realloc: adds up the bytes that are asked for, and says so at the end. (A
   program of the kit ends by _exit, which runs no destructor.) */
#define _GNU_SOURCE
#include <dlfcn.h>
#include <stdio.h>
#include <stdlib.h>
#include <sys/syscall.h>
#include <unistd.h>

static unsigned long bytes;

void *malloc(size_t size) {
    static void *(*real)(size_t);
    if (!real) real = (void *(*)(size_t))dlsym(RTLD_NEXT, "malloc");
    bytes += size;
    return real(size);
}

void *realloc(void *old, size_t size) {
    static void *(*real)(void *, size_t);
    if (!real) real = (void *(*)(void *, size_t))dlsym(RTLD_NEXT, "realloc");
    bytes += size;
    return real(old, size);
}

__attribute__((destructor)) static void tell(void) { fprintf(stderr, "bytes %lu\n", bytes); }

void _exit(int status) {
    tell();
    syscall(SYS_exit_group, status);
    __builtin_unreachable();
}
