/* A malloc and a realloc that fail at one call, the one whose number REFUSE_GROWTH gives, and a pthread_create that
   fails at the one whose number REFUSE_THREAD gives. Each pthread_create, also one that fails so, leaves a byte in the
   file that NOTE_THREADS names, at once, since the program ends by `_exit`. Threads may call them at once. */
#define _GNU_SOURCE
#include <dlfcn.h>
#include <errno.h>
#include <fcntl.h>
#include <pthread.h>
#include <stddef.h>
#include <stdlib.h>
#include <unistd.h>

static long growths, threads;

static int refuses(const char *name, long *calls) {
  const char *wanted = getenv(name);
  return __atomic_add_fetch(calls, 1, __ATOMIC_SEQ_CST) == (wanted ? atol(wanted) : -1);
}

static void note_thread(void) {
  const char *name = getenv("NOTE_THREADS");
  int file = name ? open(name, O_WRONLY | O_APPEND | O_CREAT, 0600) : -1;
  if (file < 0) return;
  if (write(file, ".", 1) != 1) abort();
  close(file);
}

void *malloc(size_t size) {
  void *(*next)(size_t) = dlsym(RTLD_NEXT, "malloc");
  return refuses("REFUSE_GROWTH", &growths) ? NULL : next(size);
}

void *realloc(void *block, size_t size) {
  void *(*next)(void *, size_t) = dlsym(RTLD_NEXT, "realloc");
  return refuses("REFUSE_GROWTH", &growths) ? NULL : next(block, size);
}

int pthread_create(pthread_t *thread, const pthread_attr_t *attributes, void *(*steps)(void *), void *given) {
  int (*next)(pthread_t *, const pthread_attr_t *, void *(*)(void *), void *) = dlsym(RTLD_NEXT, "pthread_create");
  note_thread();
  return refuses("REFUSE_THREAD", &threads) ? EAGAIN : next(thread, attributes, steps, given);
}
