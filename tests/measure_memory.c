/* A malloc, a calloc and a realloc that count their calls and the bytes asked for. At the program's end both numbers are
   written to the file that GROWTHS names. */
#include <stddef.h>
#include <stdio.h>
#include <stdlib.h>
#include <sys/syscall.h>
#include <unistd.h>

extern void *__libc_malloc(size_t);
extern void *__libc_calloc(size_t, size_t);
extern void *__libc_realloc(void *, size_t);

static unsigned long calls, bytes;

static void count(size_t size) {
  calls++;
  bytes += size;
}

void *malloc(size_t size) {
  count(size);
  return __libc_malloc(size);
}

void *calloc(size_t number, size_t size) {
  count(number * size);
  return __libc_calloc(number, size);
}

void *realloc(void *block, size_t size) {
  count(size);
  return __libc_realloc(block, size);
}

static void tell(void) {
  unsigned long calls_made = calls, bytes_asked = bytes;
  const char *name = getenv("GROWTHS");
  FILE *file = name ? fopen(name, "w") : NULL;
  if (!file) return;
  fprintf(file, "%lu %lu\n", calls_made, bytes_asked);
  fclose(file);
}

/* The program ends by `_exit`, which runs no destructor. */
void _exit(int status) {
  tell();
  syscall(SYS_exit_group, status);
  __builtin_unreachable();
}
