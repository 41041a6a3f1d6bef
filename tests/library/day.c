/* A time of day that is ahead of the machine's by as many seconds as the file says that DAY_AHEAD names; preloaded.
   What the monotonic clock says stays as it is, as while a machine sleeps. */
#define _GNU_SOURCE
#include <dlfcn.h>
#include <stdio.h>
#include <stdlib.h>
#include <time.h>

int clock_gettime(clockid_t clock, struct timespec *time) {
  static int (*real)(clockid_t, struct timespec *);
  if (!real) real = (int (*)(clockid_t, struct timespec *))dlsym(RTLD_NEXT, "clock_gettime");
  int status = real(clock, time);
  const char *path = getenv("DAY_AHEAD");
  FILE *file = clock == CLOCK_REALTIME && path ? fopen(path, "r") : NULL;
  long ahead;
  if (file) {
    if (fscanf(file, "%ld", &ahead) == 1) time->tv_sec += ahead;
    fclose(file);
  }
  return status;
}
