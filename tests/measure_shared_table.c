// The atomic operations that crates/measure_shared_table makes, in plain C11, with the same words and the same output.
#define _POSIX_C_SOURCE 199309L
#include <pthread.h>
#include <stdalign.h>
#include <stdatomic.h>
#include <stdint.h>
#include <stdio.h>
#include <stdlib.h>
#include <time.h>

enum { APART = 16, MOST = 4 };

static alignas(64) _Atomic uint64_t cells[APART * MOST];
static uint64_t rounds;
static size_t apart;

static void *step_often(void *task) {
  _Atomic uint64_t *cell = &cells[(size_t)(uintptr_t)task * apart];
  for (uint64_t round = 0; round < rounds; round++) {
    uint64_t value = atomic_load(cell);
    atomic_compare_exchange_strong(cell, &value, value + 1);
  }
  return NULL;
}

static uint64_t micros(void) {
  struct timespec now;
  clock_gettime(CLOCK_MONOTONIC, &now);
  return (uint64_t)now.tv_sec * 1000000 + (uint64_t)now.tv_nsec / 1000;
}

static void measure(unsigned threads) {
  pthread_t others[MOST];
  uint64_t start = micros();
  for (unsigned task = 0; task < threads; task++) {
    if (pthread_create(&others[task], NULL, step_often, (void *)(uintptr_t)task) != 0)
      exit(1);
  }
  for (unsigned task = 0; task < threads; task++)
    pthread_join(others[task], NULL);
  uint64_t time = micros() - start;
  uint64_t steps = rounds * 2 * threads;
  printf("%u %s %llu %llu\n", threads, apart ? "apart" : "one", (unsigned long long)steps, (unsigned long long)time);
}

int main(int count, char **words) {
  rounds = count > 1 ? strtoull(words[1], NULL, 10) : 1000;
  for (apart = 0; apart <= APART; apart += APART) {
    for (unsigned threads = 1; threads <= MOST; threads *= 2)
      measure(threads);
  }
  return 0;
}
