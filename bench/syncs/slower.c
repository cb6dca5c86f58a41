// Each sync of a file takes SYNC_MICROSECONDS longer than it does: it is loaded before the C library.
#define _GNU_SOURCE
#include <dlfcn.h>
#include <stdlib.h>
#include <time.h>

static int later(const char *name, int file) {
  int (*sync)(int) = (int (*)(int))dlsym(RTLD_NEXT, name);
  int result = sync(file);
  const char *word = getenv("SYNC_MICROSECONDS");
  long more = word ? atol(word) : 0;
  struct timespec pause = {more / 1000000, more % 1000000 * 1000};
  if (more > 0) nanosleep(&pause, NULL);
  return result;
}

int fsync(int file) { return later("fsync", file); }
int fdatasync(int file) { return later("fdatasync", file); }
