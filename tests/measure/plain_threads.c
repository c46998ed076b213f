// `kcsan_litmus run` in plain C, of any litmus text: a thread a task, and atomic words that the threads share,
// sequentially consistent. A delay begins once each task has come to its first access; after each load of it, and where
// a task has to wait, the thread yields; it ends early where no other task can come. Without a delay a task only waits
// with its first access until all have come. Tasks that may set up a watchpoint start first in turn. `plain_threads FILE [OPTION..]` with --runs, --delay and the options of plain_steps.c. Threads
// are started anew for each run, or with --kept N for N runs, each on words of its own; the lists of a task are taken
// once for so many runs, and filled anew. With --count it says on standard error how many steps were made, the loads of
// the delay aside.
#define SHARED
#include "plain_task.h"
#include <pthread.h>
#include <sched.h>
#include <stdalign.h>

enum { PATIENCE = 100000 };

// What the tasks of one run share, and keep.
struct run {
  // A bit for each task of the run that has come; how many delay, and how many do so, wait for a lock, or make no step
  // more; whether tasks other than the first may make their first accesses.
  alignas(64) _Atomic u64 here;
  _Atomic u64 delaying, away, open_for_all;
  u32 first;
  struct board board;
  struct task *tasks;
  struct reports reports[TASKS];
  u64 registers[TASKS][REGISTERS];
};

static struct run *all;
static u64 delay, kept, made_together;
static u32 count_of_tasks;
static struct program *program;
static struct settings settings;

static void come(struct run *run, const struct task *task) {
  if ((atomic_load(&run->here) >> task->number & 1) == 0)
    atomic_fetch_or(&run->here, 1ull << task->number);
}

// The others may make their first accesses once the task that starts first has set up a watchpoint or ended an access.
static void opens(struct run *run, const struct task *task) {
  if (task->number == run->first && atomic_load(&run->open_for_all) == 0)
    atomic_store(&run->open_for_all, 1);
}

static void await_first(struct run *run, const struct task *task) {
  come(run, task);
  if (task->number == run->first)
    return;
  for (u64 turn = 0; turn < PATIENCE; turn++) {
    if (atomic_load(&run->open_for_all) == 1)
      return;
    sched_yield();
  }
  atomic_store(&run->open_for_all, 1);
}

static void await_all(struct run *run) {
  for (u64 turn = 0; turn < PATIENCE; turn++) {
    if ((u64)__builtin_popcountll(atomic_load(&run->here)) >= count_of_tasks)
      return;
    sched_yield();
  }
  atomic_store(&run->here, ~0ull);
}

// At most so many loads, up to where no other task can come.
static void stall(struct run *run, const struct task *task) {
  opens(run, task);
  await_all(run);
  atomic_fetch_add(&run->delaying, 1);
  atomic_fetch_add(&run->away, 1);
  for (u64 turn = 0; turn < delay && atomic_load(&run->away) < count_of_tasks; turn++)
    sched_yield();
  atomic_fetch_sub(&run->away, 1);
  atomic_fetch_sub(&run->delaying, 1);
}

static void meet(struct run *run, const struct task *task) {
  if ((u64)__builtin_popcountll(atomic_load(&run->here)) >= count_of_tasks)
    return;
  come(run, task);
  await_all(run);
}

// A task that waits for a lock tries again once nobody delays.
static void wait_for_lock(struct run *run, const struct task *task) {
  opens(run, task);
  meet(run, task);
  atomic_fetch_add(&run->away, 1);
  for (u64 turn = 0; turn < (delay ? delay : 1); turn++) {
    sched_yield();
    if (atomic_load(&run->delaying) == 0)
      break;
  }
  atomic_fetch_sub(&run->away, 1);
}

static void before(struct run *run, const struct task *task) {
  if (delay == 0) {
    if (task->at == BEGIN)
      meet(run, task);
    return;
  }
  if (task->at == BEGIN)
    await_first(run, task);
  else if (task->at == NEW || (task->at == CONSUME && !task->checked->operation->one_cell))
    stall(run, task);
}

static void after(struct run *run, const struct task *task, u32 made) {
  if (made == END)
    opens(run, task);
  else if (made == LOCK && task->at == LOCK)
    wait_for_lock(run, task);
  else if ((made == HEAR_SETTER || made == HEAR_FINDER) && task->at == made)
    sched_yield();
}

static void play_in(struct run *run, u32 number) {
  struct task *task = &run->tasks[number];
  task_begin(task, program, number, run->registers[number], &settings);
  while (task->at > STUCK) {
    u32 made = task->at;
    before(run, task);
    step(task, &run->board);
    after(run, task, made);
  }
  come(run, task);
  opens(run, task);
  atomic_fetch_add(&run->away, 1);
}

static void *play(void *arg) {
  for (u64 at = 0; at < made_together; at++)
    play_in(&all[at], (u32)(uintptr_t)arg);
  return NULL;
}

// Some access of the task doesn't count as marked where no region is atomic.
static bool may_watch(u32 number) {
  for (u32 site = 0; site < program->task[number].sites; site++) {
    const struct operation *operation = program->task[number].site[site];
    if (!(operation->kind & KIND_MARKED) && ((operation->kind & KIND_ASSERTION) || !operation->atomic_write))
      return true;
  }
  return false;
}

// The task that starts first in the run of a number.
static u32 first_of(u64 number) {
  for (u32 i = 0; i < count_of_tasks; i++)
    if (may_watch((number + i) % count_of_tasks))
      return (number + i) % count_of_tasks;
  return number % count_of_tasks;
}

static void take_lists(struct run *run) {
  run->board.watch = malloc((settings.slots + 2) * 8);
  run->board.pair = malloc((settings.slots + 2) * 8);
  run->tasks = calloc(count_of_tasks, sizeof *run->tasks);
  for (u32 i = 0; i < count_of_tasks; i++) {
    run->reports[i].list = calloc(9216, sizeof(struct report));
    run->tasks[i].reports = &run->reports[i];
    run->tasks[i].number = i;
  }
}

static void clear(struct run *run, u64 number) {
  memset((void *)run->board.watch, 0, (settings.slots + 2) * 8);
  memset((void *)run->board.pair, 0, (settings.slots + 2) * 8);
  memset((void *)run->board.lock, 0, sizeof run->board.lock);
  run->board.clock = 0;
  for (u32 i = 0; i < program->cells; i++)
    run->board.cell[i] = program->cell_first[i];
  run->here = run->delaying = run->away = run->open_for_all = 0;
  run->first = first_of(number);
  for (u32 i = 0; i < count_of_tasks; i++)
    run->reports[i].count = 0;
}

// The runs from this number on that are made together, each task on a thread.
static void make(u64 number) {
  pthread_t thread[TASKS];
  for (u64 at = 0; at < made_together; at++)
    clear(&all[at], number + at);
  for (u32 started = 0; started < count_of_tasks; started++) {
    u32 i = (all[0].first + started) % count_of_tasks;
    if (pthread_create(&thread[i], NULL, play, (void *)(uintptr_t)i))
      exit(71);
  }
  for (u32 i = 0; i < count_of_tasks; i++)
    pthread_join(thread[i], NULL);
}

// A report, and in how many runs it was seen.
struct group {
  struct report report;
  u64 seen;
};
static struct group *groups;
static u32 count_of_groups, room_of_groups;

static void add(const struct report *report) {
  for (u32 i = 0; i < count_of_groups; i++)
    if (!memcmp(&groups[i].report, report, sizeof *report)) {
      groups[i].seen++;
      return;
    }
  if (count_of_groups == room_of_groups)
    groups = realloc(groups, (room_of_groups = 2 * room_of_groups + 64) * sizeof *groups);
  groups[count_of_groups++] = (struct group){*report, 1};
}

static u64 sums[COUNTERS], steps, held;

static void add_up(struct run *run) {
  for (u32 i = 0; i < count_of_tasks; i++) {
    struct task *task = &run->tasks[i];
    if (task->at == STUCK) {
      fprintf(stderr, "kcsan_litmus: task %u is stuck\n", i);
      exit(70);
    }
    steps += task->steps;
    for (int c = 0; c < COUNTERS; c++)
      sums[c] += task->counters[c];
    for (u32 k = 0; k < run->reports[i].count; k++)
      add(&run->reports[i].list[k]);
  }
  u64 cells[2 * VARIABLES];
  for (u32 i = 0; i < program->cells; i++)
    cells[i] = run->board.cell[i];
  held += holds(program, run->registers, cells);
}

static void write_trace(const char *path, struct run *run) {
  struct out out = {0};
  FILE *f = fopen(path, "wb");
  if (!f)
    exit(74);
  trace_text(&out, run->tasks, count_of_tasks, &settings, run->reports, count_of_tasks);
  write_out(&out, f);
  fclose(f);
}

static void write_output(u64 runs) {
  struct out out = {0};
  for (u32 i = 0; i < count_of_groups; i++) {
    report_text(&out, program, &groups[i].report);
    say(&out, "seen ");
    decimal(&out, groups[i].seen);
    say(&out, " times\n");
  }
  counters_text(&out, sums);
  say(&out, "condition held in ");
  decimal(&out, held);
  say(&out, " of ");
  decimal(&out, runs);
  say(&out, " runs\n");
  write_out(&out, stdout);
}

int main(int argc, char **argv) {
  if (argc < 2)
    return 64;
  size_t length;
  char *text = slurp(argv[1], &length, TEXT);
  settings = settings_of(argc, argv);
  u64 runs = option(argc, argv, "--runs", 100);
  delay = option(argc, argv, "--delay", 64);
  kept = option(argc, argv, "--kept", 1);
  program = parse(text, length);
  place(program, text_option(argc, argv, "--place"));
  lay_out(program, settings.slots, settings.width, settings.strict);
  count_of_tasks = program->tasks;
  all = aligned_alloc(64, kept * sizeof *all);
  memset(all, 0, kept * sizeof *all);
  for (u64 at = 0; at < kept; at++)
    take_lists(&all[at]);
  for (u64 number = 0; number < runs; number += made_together) {
    made_together = runs - number < kept ? runs - number : kept;
    make(number);
    for (u64 at = 0; at < made_together; at++)
      add_up(&all[at]);
  }
  const char *path = text_option(argc, argv, "--trace");
  if (path && runs)
    write_trace(path, &all[made_together - 1]);
  write_output(runs);
  if (flag(argc, argv, "--count"))
    fprintf(stderr, "%llu steps\n", (unsigned long long)steps);
  return count_of_groups ? 2 : 0;
}
