// `kcsan_litmus step` in plain C: it reads the same texts, makes the same steps in the same order and prints the same
// report and trace. `plain_steps FILE [OPTION..]` with the options of `step`, and with `--count`, which says on
// standard error how many steps it made.
#include "plain_task.h"

static struct task *tasks;
static struct board board;

int main(int argc, char **argv) {
  if (argc < 2)
    return 64;
  size_t length;
  char *text = slurp(argv[1], &length, TEXT);
  struct settings settings = settings_of(argc, argv);
  struct program *program = parse(text, length);
  place(program, text_option(argc, argv, "--place"));
  lay_out(program, settings.slots, settings.width, settings.strict);
  board.watch = calloc(settings.slots + 2, 8);
  board.pair = calloc(settings.slots + 2, 8);
  memcpy(board.cell, program->cell_first, program->cells * 8);
  static u64 registers[TASKS][REGISTERS];
  u32 count_of_tasks = program->tasks;
  tasks = calloc(count_of_tasks, sizeof *tasks);
  struct reports reports = {calloc(count_of_tasks * 9216, sizeof(struct report)), 0};
  for (u32 i = 0; i < count_of_tasks; i++) {
    tasks[i].reports = &reports;
    task_begin(&tasks[i], program, i, registers[i], &settings);
  }
  const char *p = text_option(argc, argv, "--schedule");
  u32 who = 0;
  while (p && *p) {
    char *e;
    who = strtoul(p, &e, 10);
    if (*e != 'x' || who >= count_of_tasks)
      return 64;
    u64 count = strtoull(e + 1, &e, 10);
    while (count-- && tasks[who].at > STUCK)
      step(&tasks[who], &board);
    if (tasks[who].at == STUCK)
      goto stuck;
    p = *e == ',' ? e + 1 : e;
  }
  for (bool on = true; on;) {
    on = false;
    for (who = 0; who < count_of_tasks; who++)
      if (tasks[who].at > STUCK) {
        step(&tasks[who], &board);
        if (tasks[who].at == STUCK)
          goto stuck;
        on |= tasks[who].at > STUCK;
      }
  }
  struct out out = {0};
  const char *path = text_option(argc, argv, "--trace");
  if (path) {
    FILE *f = fopen(path, "wb");
    if (!f)
      return 74;
    trace_text(&out, tasks, count_of_tasks, &settings, &reports, 1);
    write_out(&out, f);
    fclose(f);
    out.length = 0;
  }
  u64 sums[COUNTERS] = {0}, steps = 0;
  for (u32 i = 0; i < count_of_tasks; i++) {
    steps += tasks[i].steps;
    for (int c = 0; c < COUNTERS; c++)
      sums[c] += tasks[i].counters[c];
  }
  for (u32 i = 0; i < reports.count; i++)
    report_text(&out, program, &reports.list[i]);
  counters_text(&out, sums);
  say(&out, "condition held in ");
  decimal(&out, holds(program, registers, board.cell));
  say(&out, " of 1 runs\n");
  write_out(&out, stdout);
  if (flag(argc, argv, "--count"))
    fprintf(stderr, "%llu steps\n", (unsigned long long)steps);
  return reports.count ? 2 : 0;
stuck:
  fprintf(stderr, "kcsan_litmus: task %u is stuck\n", who);
  if (flag(argc, argv, "--count")) {
    u64 steps = 0;
    for (u32 i = 0; i < count_of_tasks; i++)
      steps += tasks[i].steps;
    fprintf(stderr, "%llu steps\n", (unsigned long long)steps);
  }
  return 70;
}
