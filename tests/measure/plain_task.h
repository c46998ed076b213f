// The machine of one task in plain C, by the steps of `kcsan_litmus` (docs/DEFINITIONS.md): each call of `step` makes
// one step on the words that the tasks share, and goes on in the task's own code up to the next one. So an access is a
// stamp as it begins; a check, which looks at three watch words and takes a watchpoint that it meets, or sets one up,
// reads the cell twice, takes the watchpoint down again and judges what has changed; the loads and stores of its memory
// operation; and a stamp as it ends. What the task keeps for the report and the trace is written into lists of the
// task. The shared words are plain, or with SHARED atomic and sequentially consistent.
#ifndef PLAIN_TASK_H
#define PLAIN_TASK_H
#include "plain_litmus.h"

#ifdef SHARED
#include <stdatomic.h>
typedef _Atomic u64 word;

static inline u64 word_load(word *w) {
  return atomic_load(w);
}

static inline void word_store(word *w, u64 v) {
  atomic_store(w, v);
}

static inline u64 word_swap(word *w, u64 v) {
  return atomic_exchange(w, v);
}

static inline bool word_try(word *w, u64 *old, u64 v) {
  return atomic_compare_exchange_strong(w, old, v);
}

static inline void word_or(word *w, u64 v) {
  atomic_fetch_or(w, v);
}

static inline u64 word_add(word *w) {
  return atomic_fetch_add(w, 1);
}
#else
typedef u64 word;

static inline u64 word_load(word *w) {
  return *w;
}

static inline void word_store(word *w, u64 v) {
  *w = v;
}

static inline u64 word_swap(word *w, u64 v) {
  u64 old = *w;
  *w = v;
  return old;
}

static inline bool word_try(word *w, u64 *old, u64 v) {
  if (*w != *old) {
    *old = *w;
    return false;
  }
  *w = v;
  return true;
}

static inline void word_or(word *w, u64 v) {
  *w |= v;
}

static inline u64 word_add(word *w) {
  return (*w)++;
}
#endif

struct board {
  word clock, cell[2 * VARIABLES], lock[VARIABLES], *watch, *pair;
};

enum counter {
  COUNT_ARMS,
  COUNT_QUIET,
  COUNT_TAKEN,
  COUNT_LOST,
  COUNT_TWO_SIDED,
  COUNT_UNKNOWN,
  COUNT_ENCODING,
  COUNT_SAME,
  COUNT_MASKED,
  COUNT_CAPACITY,
  COUNT_UNENCODABLE,
  COUNT_UNBALANCED,
  COUNTERS
};

static const char *const counter_names[] = {"arms",     "quiet", "taken",  "lost",     "two-sided",   "unknown",
                                            "encoding", "same",  "masked", "capacity", "unencodable", "unbalanced"};

enum result { RESULT_QUIET, RESULT_ORIGIN, RESULT_REPORT, RESULT_ENCODING, RESULT_SAME, RESULT_MASKED };

// An access that a task has begun, a watchpoint that it set up, with how that ended, and one that it took.
struct touch {
  const struct operation *operation;
  u64 begin, end;
  u32 ticket, armings;
  u8 marked, silenced;
};

struct arm {
  u32 setter, number, index, finder;
  u64 word;
  u8 result;
};

struct take {
  u32 finder, index, setter;
};

struct report {
  u32 setter, finder;
  u64 old, new, seen;
};

struct reports {
  struct report *list;
  u32 count;
};

struct settings {
  u32 slots;
  u64 skip, seed, turns;
  bool randomize, strict;
  int width;
};

// Where a task stands: which step comes next.
enum at {
  OVER,
  STUCK,
  BEGIN,
  LOOK,
  TRY,
  HEAR_SETTER,
  TELL,
  INSERT,
  NAME,
  OLD,
  NEW,
  CONSUME,
  HEAR_FINDER,
  CLEAR,
  REMOVE,
  READ,
  READ_AGAIN,
  EXCHANGE,
  END,
  LOCK,
  UNLOCK
};

struct task {
  u8 at, n, scopes, number, closing;
  bool settled, flat;
  const struct operation *next_operation, *operation; // the next of the text; that of the access being made
  struct touch *access, *checked;
  int recheck; // the scope that is checked again, or -1
  u32 index;
  u64 seen, old, new, vain, turns;
  u64 effect; // what the memory operation read
  bool has_read;
  u64 disabled, nested, next_atomic;
  int64_t counter;
  u64 skip, random[4];
  bool randomize, strict;
  int low; // bits of an address in a watch word
  u64 low_mask;
  u64 *registers;
  struct touch *scope[SCOPES];
  u16 begun[SITES];
  u32 held;
  struct program *program;
  struct reports *reports;
  u32 touches, arms, takes;
  struct touch touch[1024];
  struct arm arm[9216];
  struct take take[9216];
  u64 counters[COUNTERS];
  u64 steps;
};

static inline u64 rotated_left(u64 x, int k) {
  return x << k | x >> (64 - k);
}

static bool should_watch(struct task *task) {
  if (--task->counter >= 0)
    return false;
  task->counter = (int64_t)task->skip;
  if (task->randomize && task->skip > 0) {
    u64 *s = task->random, result = rotated_left(s[0] + s[3], 23) + s[0], x = s[1] << 17;
    s[2] ^= s[0];
    s[3] ^= s[1];
    s[1] ^= s[2];
    s[0] ^= s[3];
    s[2] ^= x;
    s[3] = rotated_left(s[3], 45);
    task->counter -= (int64_t)(result % task->skip);
  }
  return true;
}

static inline u64 bytes_of(u64 cell, const struct operation *operation) {
  u64 v = cell >> operation->shift;
  return operation->size == 8 ? v : v & ((1ull << 8 * operation->size) - 1);
}

static inline u64 with_bytes(u64 cell, const struct operation *operation, u64 v) {
  u64 mask = (operation->size == 8 ? ~0ull : (1ull << 8 * operation->size) - 1) << operation->shift;
  return (cell & ~mask) | (v << operation->shift & mask);
}

static inline bool matches(const struct task *task, u64 w, const struct operation *operation) {
  if (w <= 1 || (!(operation->kind & KIND_WRITE_BIT) && !(w >> (task->low + 14) & 1)))
    return false;
  u64 start = w & task->low_mask, size = w >> task->low & 0x3FFF;
  return start <= operation->masked + operation->size - 1 && operation->masked <= start + size - 1;
}

static inline const struct operation *of_ticket(const struct task *task, u32 ticket) {
  ticket--;
  return task->program->task[ticket >> 16].site[ticket >> 8 & 255];
}

static void go_on(struct task *task);

static inline void wait_again(struct task *task) {
  if (++task->vain >= task->turns)
    task->at = STUCK;
}

static void begin(struct task *task, const struct operation *operation) {
  struct touch *touch = &task->touch[task->touches];
  touch->operation = task->operation = operation;
  touch->armings = 0;
  touch->ticket = 1 + task->number * 65536 + operation->site * 256 + task->begun[operation->site];
  touch->silenced = task->disabled > 0;
  if (operation->kind & KIND_MARKED)
    touch->marked = true;
  else if (operation->kind & KIND_ASSERTION)
    touch->marked = false;
  else if (operation->atomic_write)
    touch->marked = true;
  else if (task->next_atomic > 0) {
    task->next_atomic--;
    touch->marked = true;
  } else
    touch->marked = task->nested > 0 || task->flat;
  task->begun[operation->site]++;
  task->access = touch;
  task->at = BEGIN;
}

// Goes on after the check: with the memory operation, or the end.
static void operate(struct task *task) {
  const struct operation *operation = task->operation;
  task->has_read = false;
  if (task->closing) {
    task->at = END;
    return;
  }
  if (operation->code == DO_OPEN) {
    task->scope[task->scopes++] = task->access;
    go_on(task);
    return;
  }
  if (operation->memory == MEMORY_NONE) {
    task->at = END;
    return;
  }
  task->vain = 0;
  task->at = READ;
}

static inline void look(struct task *task, struct touch *touch) {
  task->checked = touch;
  task->n = 0;
  task->at = LOOK;
}

static void after_check(struct task *task, bool settled) {
  if (task->closing) {
    operate(task);
    return;
  }
  if (task->recheck < 0 && settled) {
    operate(task);
    return;
  }
  while (++task->recheck < task->scopes)
    if (!task->scope[task->recheck]->silenced) {
      look(task, task->scope[task->recheck]);
      return;
    }
  operate(task);
}

static void judge_untouched(struct task *task) {
  struct touch *touch = task->checked;
  struct arm *arm = &task->arm[task->arms];
  arm->finder = 0;
  arm->result = RESULT_QUIET;
  task->counters[COUNT_QUIET]++;
  u64 d = task->old ^ task->new;
  if (touch->operation->mask)
    d &= touch->operation->mask;
  if (touch->operation->one_cell && d) {
    task->counters[COUNT_UNKNOWN]++;
    arm->result = RESULT_ORIGIN;
    task->reports->list[task->reports->count++] = (struct report){touch->ticket, 0, task->old, task->new, 1};
  }
}

static void judge_taken(struct task *task, u32 finder) {
  struct touch *touch = task->checked;
  const struct operation *operation = touch->operation, *f = of_ticket(task, finder);
  struct arm *arm = &task->arm[task->arms];
  arm->finder = finder;
  u64 d = task->old ^ task->new;
  if (operation->mask)
    d &= operation->mask;
  bool seen = operation->one_cell && d;
  if (operation->address >= f->address + f->size || f->address >= operation->address + operation->size)
    arm->result = RESULT_ENCODING, task->counters[COUNT_ENCODING]++;
  else if (!seen && operation->mask)
    arm->result = RESULT_MASKED, task->counters[COUNT_MASKED]++;
  else if (!seen && operation->size <= 8 && !(operation->kind & KIND_ASSERTION) && !task->strict)
    arm->result = RESULT_SAME, task->counters[COUNT_SAME]++;
  else {
    arm->result = RESULT_REPORT;
    task->counters[COUNT_TWO_SIDED]++;
    task->reports->list[task->reports->count++] =
        (struct report){touch->ticket, finder, seen ? task->old : 0, seen ? task->new : 0, seen};
  }
}

static void finish(struct task *task) {
  const struct operation *operation = task->operation;
  task->disabled -= operation->quiet;
  if (operation->after == AFTER_REGISTER)
    task->registers[operation->register_number] =
        value_of(operation->expression, task->registers,
                 sign_extended(task->effect, operation->size == 0 ? 8 : operation->size));
  else if (operation->after == AFTER_IF) {
    if (!value_of(operation->expression, task->registers, sign_extended(task->effect, operation->size)))
      task->next_operation = task->program->task[task->number].operations + operation->target;
  } else if (operation->after == AFTER_BITS)
    task->next_atomic = 1;
  go_on(task);
}

// Goes on in the task's code up to the next step.
static void go_on(struct task *task) {
  if (task->closing) {
    task->closing--;
    if (task->closing)
      goto close;
  }
  for (;;) {
    const struct operation *operation = task->next_operation++;
    switch (operation->code) {
    case DO_END: task->at = OVER; return;
    case DO_ACCESS:
      task->disabled += operation->quiet;
      begin(task, operation);
      return;
    case DO_OPEN: begin(task, operation); return;
    case DO_CLOSE: task->closing = operation->value; goto close;
    case DO_PURE:
      task->registers[operation->register_number] = value_of(operation->expression, task->registers, 0);
      break;
    case DO_JUMP_IF_ZERO:
      if (!value_of(operation->expression, task->registers, 0))
        task->next_operation = task->program->task[task->number].operations + operation->target;
      break;
    case DO_JUMP: task->next_operation = task->program->task[task->number].operations + operation->target; break;
    case DO_SET: task->registers[operation->register_number] = 0; break;
    case DO_JUMP_IF_COUNTED:
      if (task->registers[operation->register_number] >= operation->value)
        task->next_operation = task->program->task[task->number].operations + operation->target;
      break;
    case DO_COUNT: task->registers[operation->register_number]++; break;
    case DO_LOCK:
      task->operation = operation;
      task->vain = 0;
      task->at = LOCK;
      return;
    case DO_UNLOCK:
      if (task->held >> operation->variable & 1) {
        task->operation = operation;
        task->at = UNLOCK;
        return;
      }
      task->counters[COUNT_UNBALANCED]++;
      break;
    case DO_DISABLE: task->disabled++; break;
    case DO_ENABLE:
      if (task->disabled)
        task->disabled--;
      else
        task->counters[COUNT_UNBALANCED]++;
      break;
    case DO_NEST: task->nested++; break;
    case DO_UNNEST:
      if (task->nested)
        task->nested--;
      else
        task->counters[COUNT_UNBALANCED]++;
      break;
    case DO_FLAT: task->flat = true; break;
    case DO_UNFLAT: task->flat = false; break;
    case DO_NEXT: task->next_atomic = operation->value; break;
    }
  }
close:;
  struct touch *touch = task->scope[--task->scopes];
  task->access = touch;
  task->operation = touch->operation;
  if (touch->silenced || task->disabled)
    task->at = END;
  else
    look(task, touch);
}

static inline u64 written(const struct operation *operation, const u64 *registers, u64 old) {
  u64 v = operation->argument ? value_of(operation->argument, registers, 0) : 1;
  return operation->memory == MEMORY_ADD ? old + v : operation->memory == MEMORY_SUB ? old - v : v;
}

// One step. Not for a task that is over or stuck.
static void step(struct task *task, struct board *board) {
  static const u8 insert_order[3] = {1, 2, 0};
  const struct operation *operation;
  struct touch *touch;
  u64 w;
  task->steps++;
  switch (task->at) {
  case BEGIN:
    touch = task->access;
    touch->begin = word_add(&board->clock);
    task->touches++;
    task->recheck = -1;
    if (!touch->silenced)
      look(task, touch);
    else {
      if (!touch->marked)
        should_watch(task);
      operate(task);
    }
    return;
  case LOOK:
    touch = task->checked;
    operation = touch->operation;
    task->index = operation->slot + task->n;
    w = word_load(&board->watch[task->index]);
    if (matches(task, w, operation)) {
      if (operation->mask)
        after_check(task, true);
      else {
        task->seen = w;
        task->at = TRY;
      }
      return;
    }
    if (++task->n < 3)
      return;
    if (touch->marked || !should_watch(task)) {
      after_check(task, false);
      return;
    }
    if (!operation->encodable) {
      task->counters[COUNT_UNENCODABLE]++;
      after_check(task, false);
      return;
    }
    task->n = 0;
    task->at = INSERT;
    return;
  case TRY:
    w = task->seen;
    if (!word_try(&board->watch[task->index], &w, 1)) {
      task->counters[COUNT_LOST]++;
      after_check(task, true);
      return;
    }
    task->vain = 0;
    task->at = HEAR_SETTER;
    return;
  case HEAR_SETTER:
    w = word_load(&board->pair[task->index]) >> 32;
    if (!w) {
      wait_again(task);
      return;
    }
    task->take[task->takes].setter = w;
    task->at = TELL;
    return;
  case TELL:
    word_or(&board->pair[task->index], task->checked->ticket);
    task->take[task->takes].finder = task->checked->ticket;
    task->take[task->takes++].index = task->index;
    after_check(task, true);
    return;
  case INSERT:
    touch = task->checked;
    task->index = touch->operation->slot + insert_order[task->n];
    w = 0;
    if (!word_try(&board->watch[task->index], &w, touch->operation->word)) {
      if (++task->n == 3) {
        task->counters[COUNT_CAPACITY]++;
        after_check(task, false);
      }
      return;
    }
    task->counters[COUNT_ARMS]++;
    task->at = NAME;
    return;
  case NAME:
    word_or(&board->pair[task->index], (u64)task->checked->ticket << 32);
    task->at = task->checked->operation->one_cell ? OLD : CONSUME;
    return;
  case OLD:
    task->old = bytes_of(word_load(&board->cell[task->checked->operation->cell]), task->checked->operation);
    task->at = NEW;
    return;
  case NEW:
    task->new = bytes_of(word_load(&board->cell[task->checked->operation->cell]), task->checked->operation);
    task->at = CONSUME;
    return;
  case CONSUME:
    if (word_swap(&board->watch[task->index], 1) > 1) {
      judge_untouched(task);
      task->at = CLEAR;
      return;
    }
    task->counters[COUNT_TAKEN]++;
    task->vain = 0;
    task->at = HEAR_FINDER;
    return;
  case HEAR_FINDER:
    w = (u32)word_load(&board->pair[task->index]);
    if (!w) {
      wait_again(task);
      return;
    }
    judge_taken(task, w);
    task->at = CLEAR;
    return;
  case CLEAR:
    word_store(&board->pair[task->index], 0);
    task->at = REMOVE;
    return;
  case REMOVE: {
    word_store(&board->watch[task->index], 0);
    struct arm *arm = &task->arm[task->arms++];
    arm->setter = task->checked->ticket;
    arm->number = task->checked->armings++;
    arm->index = task->index;
    arm->word = task->checked->operation->word;
    after_check(task, true);
    return;
  }
  case READ:
    operation = task->operation;
    task->old = word_load(&board->cell[operation->cell]);
    task->effect = bytes_of(task->old, operation);
    task->has_read = true;
    if (operation->memory == MEMORY_LOAD) {
      task->at = END;
      return;
    }
    if (operation->memory == MEMORY_PLAIN_ADD) {
      task->new = task->effect + (operation->argument ? value_of(operation->argument, task->registers, 0) : 1);
      task->at = READ_AGAIN;
      return;
    }
    if (operation->memory == MEMORY_COMPARE_EXCHANGE &&
        task->effect != bytes_of(value_of(operation->argument, task->registers, 0) << operation->shift, operation)) {
      task->at = END;
      return;
    }
    task->at = EXCHANGE;
    return;
  case READ_AGAIN:
    task->old = word_load(&board->cell[task->operation->cell]);
    task->at = EXCHANGE;
    return;
  case EXCHANGE:
    operation = task->operation;
    w = operation->memory == MEMORY_PLAIN_ADD ? task->new
        : operation->memory == MEMORY_COMPARE_EXCHANGE
            ? value_of(operation->second_argument, task->registers, 0)
            : written(operation, task->registers, bytes_of(task->old, operation));
    u64 kept = task->old;
    if (word_try(&board->cell[operation->cell], &task->old, with_bytes(kept, operation, w))) {
      if (operation->memory != MEMORY_PLAIN_ADD)
        task->effect = bytes_of(kept, operation);
      task->at = END;
      return;
    }
    if (operation->memory == MEMORY_COMPARE_EXCHANGE && bytes_of(task->old, operation) != task->effect) {
      task->effect = bytes_of(task->old, operation);
      task->at = END;
      return;
    }
    wait_again(task);
    return;
  case END:
    task->access->end = word_add(&board->clock);
    finish(task);
    return;
  case LOCK:
    w = 0;
    if (!word_try(&board->lock[task->program->var[task->operation->variable].lock], &w, 1 + task->number)) {
      wait_again(task);
      return;
    }
    task->held |= 1u << task->operation->variable;
    go_on(task);
    return;
  case UNLOCK:
    word_store(&board->lock[task->program->var[task->operation->variable].lock], 0);
    task->held &= ~(1u << task->operation->variable);
    go_on(task);
    return;
  }
}

static void task_begin(struct task *task, struct program *program, u32 number, u64 *registers,
                       const struct settings *s) {
  task->number = number;
  task->program = program;
  task->next_operation = program->task[number].operations;
  task->registers = registers;
  task->at = task->closing = task->scopes = 0;
  task->recheck = -1;
  task->disabled = task->nested = task->next_atomic = 0;
  task->flat = false;
  task->held = 0;
  task->skip = s->skip;
  task->counter = (int64_t)s->skip;
  task->randomize = s->randomize;
  task->strict = s->strict;
  task->turns = s->turns;
  task->low = s->width == 64 ? 49 : 17;
  task->low_mask = (1ull << task->low) - 1;
  task->touches = task->arms = task->takes = 0;
  task->steps = 0;
  memset(task->counters, 0, sizeof task->counters);
  memset(task->begun, 0, sizeof task->begun);
  memset(registers, 0, REGISTERS * sizeof *registers);
  u64 x = s->seed + number;
  for (int i = 0; i < 4; i++) {
    u64 z = x += 0x9E3779B97F4A7C15ull;
    z = (z ^ z >> 30) * 0xBF58476D1CE4E5B9ull;
    z = (z ^ z >> 27) * 0x94D049BB133111EBull;
    task->random[i] = z ^ z >> 31;
  }
  go_on(task);
}

// What is printed: reports, counters, traces.
struct out {
  char *text;
  size_t length, room;
};

static inline char *room(struct out *out, size_t n) {
  if (out->room - out->length < n) {
    out->room = 2 * out->room + n + 4096;
    out->text = realloc(out->text, out->room);
  }
  return out->text + out->length;
}

static inline void say(struct out *out, const char *s) {
  size_t n = strlen(s);
  memcpy(room(out, n), s, n);
  out->length += n;
}

static inline void decimal(struct out *out, u64 v) {
  char d[20], *p = d + 20;
  do
    *--p = '0' + v % 10;
  while (v /= 10);
  memcpy(room(out, 20), p, d + 20 - p);
  out->length += d + 20 - p;
}

static inline void hexadecimal(struct out *out, u64 v, int digits) {
  char *p = room(out, 18);
  p[0] = '0';
  p[1] = 'x';
  for (int i = digits + 1; i > 1; i--, v >>= 4)
    p[i] = "0123456789abcdef"[v & 15];
  out->length += digits + 2;
}

static const char bar[] = "==================================================================\n";

static void paragraph(struct out *out, struct program *program, u32 ticket, const char *first) {
  u32 x = ticket - 1;
  struct operation *a = program->task[x >> 16].site[x >> 8 & 255];
  say(out, first);
  say(out, a->kind & KIND_NO_WRITES     ? "assert no writes"
           : a->kind & KIND_NO_ACCESSES ? "assert no accesses"
           : a->kind & KIND_COMPOUND    ? "read-write"
           : a->kind & KIND_WRITE       ? "write"
                                        : "read");
  if (a->kind & KIND_MARKED)
    say(out, " (marked)");
  say(out, " to ");
  hexadecimal(out, a->address, 16);
  say(out, " of ");
  decimal(out, a->size);
  say(out, " bytes by task ");
  decimal(out, x >> 16);
  say(out, ":\n P");
  decimal(out, x >> 16);
  say(out, " site ");
  decimal(out, x >> 8 & 255);
  if (x & 255) {
    say(out, " repeat ");
    decimal(out, x & 255);
  }
  say(out, "\n");
}

static void report_text(struct out *out, struct program *program, const struct report *r) {
  u32 s = r->setter - 1, f = r->finder - 1;
  struct operation *a = program->task[s >> 16].site[s >> 8 & 255],
                   *c = r->finder ? program->task[f >> 16].site[f >> 8 & 255] : a;
  say(out, bar);
  say(out, "BUG: KCSAN: ");
  say(out, (a->kind | c->kind) & KIND_ASSERTION ? "assert: race" : "data-race");
  say(out, " in P");
  if (r->finder) {
    decimal(out, s < f ? s >> 16 : f >> 16);
    say(out, " / P");
    decimal(out, s < f ? f >> 16 : s >> 16);
    say(out, "\n\n");
    paragraph(out, program, r->finder, "");
    say(out, "\n");
    paragraph(out, program, r->setter, "");
  } else {
    decimal(out, s >> 16);
    say(out, "\n\n");
    paragraph(out, program, r->setter, "race at unknown origin, with ");
  }
  if (r->seen) {
    say(out, "\nvalue changed: ");
    hexadecimal(out, r->old, 2 * a->size);
    say(out, " -> ");
    hexadecimal(out, r->new, 2 * a->size);
    say(out, "\n");
  }
  say(out, bar);
}

static void counters_text(struct out *out, const u64 *c) {
  for (int i = 0; i < COUNTERS; i++) {
    say(out, counter_names[i]);
    say(out, " ");
    decimal(out, c[i]);
    say(out, i + 1 < COUNTERS ? " " : "\n");
  }
}

static void named(struct out *out, u32 ticket) {
  u32 x = ticket - 1;
  decimal(out, x >> 16);
  say(out, " ");
  decimal(out, x >> 8 & 255);
  if (x & 255) {
    say(out, ".");
    decimal(out, x & 255);
  }
}

static void trace_text(struct out *out, struct task *tasks, u32 count, const struct settings *settings,
                       struct reports *reports, u32 lists) {
  static const char *const results[] = {"quiet", "origin", "report", "encoding", "same", "masked"};
  say(out, "KCSAN-TRACE 2\nshape ");
  decimal(out, settings->slots);
  say(out, settings->width == 64 ? " 64\n" : " 32\n");
  for (u32 n = 0; n < count; n++)
    for (u32 i = 0; i < tasks[n].touches; i++) {
      struct touch *touch = &tasks[n].touch[i];
      char letters[8], *l = letters;
      *l++ = ' ';
      *l++ = touch->operation->kind & KIND_COMPOUND ? 'u' : touch->operation->kind & KIND_WRITE_BIT ? 'w' : 'r';
      if (touch->operation->kind & KIND_ASSERTION)
        *l++ = 'a';
      if (touch->operation->kind & KIND_MARKED)
        *l++ = 'm';
      if (touch->marked)
        *l++ = 'c';
      if (touch->silenced)
        *l++ = 's';
      *l++ = ' ';
      *l = 0;
      say(out, "access ");
      named(out, touch->ticket);
      say(out, letters);
      hexadecimal(out, touch->operation->address, 16);
      say(out, " ");
      decimal(out, touch->operation->size);
      say(out, " ");
      hexadecimal(out, touch->operation->mask, 16);
      say(out, " ");
      decimal(out, touch->begin);
      say(out, " ");
      decimal(out, touch->end);
      say(out, "\n");
    }
  for (u32 n = 0; n < count; n++)
    for (u32 i = 0; i < tasks[n].arms; i++) {
      struct arm *arm = &tasks[n].arm[i];
      say(out, "arm ");
      named(out, arm->setter);
      say(out, " ");
      decimal(out, arm->number);
      say(out, " ");
      decimal(out, arm->index);
      say(out, " ");
      hexadecimal(out, arm->word, 16);
      say(out, " ");
      if (arm->finder) {
        named(out, arm->finder);
        say(out, " ");
      }
      say(out, results[arm->result]);
      say(out, "\n");
    }
  for (u32 n = 0; n < count; n++)
    for (u32 i = 0; i < tasks[n].takes; i++) {
      struct take *take = &tasks[n].take[i];
      say(out, "take ");
      named(out, take->finder);
      say(out, " ");
      decimal(out, take->index);
      say(out, " ");
      named(out, take->setter);
      say(out, "\n");
    }
  for (u32 n = 0; n < lists; n++)
    for (u32 i = 0; i < reports[n].count; i++) {
      struct report *report = &reports[n].list[i];
      say(out, report->finder ? "race " : "origin ");
      named(out, report->setter);
      say(out, " ");
      if (report->finder)
        named(out, report->finder);
      else {
        hexadecimal(out, report->old, 16);
        say(out, " ");
        hexadecimal(out, report->new, 16);
      }
      say(out, "\n");
    }
  say(out, "end\n");
}

static void write_out(struct out *out, FILE *f) {
  fwrite(out->text, 1, out->length, f);
}

static u64 option(int argc, char **argv, const char *name, u64 otherwise) {
  for (int i = 2; i + 1 < argc; i++)
    if (!strcmp(argv[i], name))
      return strtoull(argv[i + 1], NULL, 10);
  return otherwise;
}

static const char *text_option(int argc, char **argv, const char *name) {
  for (int i = 2; i + 1 < argc; i++)
    if (!strcmp(argv[i], name))
      return argv[i + 1];
  return NULL;
}

static bool flag(int argc, char **argv, const char *name) {
  for (int i = 2; i < argc; i++)
    if (!strcmp(argv[i], name))
      return true;
  return false;
}

// --place x=0x1000,c=0x10001
static void place(struct program *program, const char *p) {
  while (p && *p) {
    size_t n = strcspn(p, "=");
    u32 i = 0;
    while (i < program->vars && (program->var[i].length != n || memcmp(program->var[i].name, p, n)))
      i++;
    if (i == program->vars)
      exit(64);
    char *e;
    program->var[i].address = strtoull(p + n + 1, &e, 0);
    program->var[i].placed = true;
    p = *e == ',' ? e + 1 : e;
  }
}

static struct settings settings_of(int argc, char **argv) {
  return (struct settings){.slots = option(argc, argv, "--slots", 64),
                           .skip = option(argc, argv, "--skip", 0),
                           .seed = option(argc, argv, "--seed", 1),
                           .turns = option(argc, argv, "--turns", 1000000),
                           .randomize = flag(argc, argv, "--randomize"),
                           .strict = flag(argc, argv, "--strict"),
                           .width = option(argc, argv, "--word", 64)};
}
#endif
