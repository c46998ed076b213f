// Reads a litmus text (docs/LITMUS.md) in plain C, for the programs that stand beside `kcsan_litmus step` and `run`.
// Each task becomes straight code with jumps: an operation for each access, lock, mark of a context and turn of a loop,
// with all that is known of an access before the run, such as its address, its watch word and its first slot.
// Expressions are lists of terms, operands first, up to a TERM_END. It reads what the program accepts; of a text that
// is refused it says the line alone. Nothing is given back: a process reads one text.
#ifndef PLAIN_LITMUS_H
#define PLAIN_LITMUS_H
#include <stdbool.h>
#include <stdint.h>
#include <stdio.h>
#include <stdlib.h>
#include <string.h>

typedef uint64_t u64;
typedef uint32_t u32;
typedef uint16_t u16;
typedef uint8_t u8;

enum {
  TASKS = 16,
  STATEMENTS = 256,
  VARIABLES = 32,
  REGISTERS = 32,
  SITES = 256,
  SCOPES = 8,
  NESTING = 16,
  OPERATORS = 256,
  TEXT = 65536
};

enum type { TYPE_NONE, TYPE_CHAR, TYPE_SHORT, TYPE_INT, TYPE_LONG, TYPE_ATOMIC, TYPE_LOCK };

static const u8 size_of[] = {0, 1, 2, 4, 8, 4, 0};

// Expressions and the condition: operands first, then what is made of them, up to a TERM_END. TERM_LOADED is what the
// access of the statement loaded.
enum term_kind {
  TERM_END,
  TERM_NUMBER,
  TERM_REGISTER,
  TERM_LOADED,
  TERM_NEGATED,
  TERM_NOT,
  TERM_INVERTED,
  TERM_TIMES,
  TERM_ADD,
  TERM_LESS_BY,
  TERM_LESS,
  TERM_GREATER,
  TERM_AT_MOST,
  TERM_AT_LEAST,
  TERM_EQUAL,
  TERM_UNEQUAL,
  TERM_AND,
  TERM_XOR,
  TERM_OR,
  TERM_REGISTER_OF_TASK,
  TERM_VARIABLE,
  TERM_BOTH,
  TERM_EITHER
};

struct term {
  u8 kind;
  u8 task;
  u8 at;
  u64 value;
};

// The kind of an access: bits, of which an assertion of no writes has KIND_NO_WRITES and one of no accesses the other.
enum {
  KIND_WRITE = 1,
  KIND_COMPOUND = 2,
  KIND_MARKED = 4,
  KIND_NO_WRITES = 8,
  KIND_NO_ACCESSES = 16,
  KIND_ASSERTION = 24,
  KIND_WRITE_BIT = 32
};

// What an access does to its cell once it is checked.
enum memory {
  MEMORY_NONE,
  MEMORY_LOAD,
  MEMORY_STORE,
  MEMORY_PLAIN_ADD,
  MEMORY_SET,
  MEMORY_ADD,
  MEMORY_SUB,
  MEMORY_COMPARE_EXCHANGE
};

// What the code of a task is made of: accesses, scoped assertions that open and close, jumps, what is set and counted
// for loops, locks, and the marks of a context.
enum opcode {
  DO_END,
  DO_ACCESS,
  DO_OPEN,
  DO_CLOSE,
  DO_PURE,
  DO_JUMP_IF_ZERO,
  DO_JUMP,
  DO_SET,
  DO_JUMP_IF_COUNTED,
  DO_COUNT,
  DO_LOCK,
  DO_UNLOCK,
  DO_DISABLE,
  DO_ENABLE,
  DO_NEST,
  DO_UNNEST,
  DO_FLAT,
  DO_UNFLAT,
  DO_NEXT
};

// What follows the memory operation: its expression is assigned, or asked by an if; or the next access counts as
// marked.
enum after { AFTER_NONE, AFTER_REGISTER, AFTER_IF, AFTER_BITS };

// An operation. From `shift` on it is known once the program is laid out; `target` is that of a jump.
struct operation {
  u8 code, kind, memory, after, variable, register_number, quiet;
  u8 shift, cell, atomic_write, one_cell, encodable;
  u16 site, slot, target;
  u32 size;
  u64 address, mask, word, masked, value;
  const struct term *expression, *argument, *second_argument;
};

struct variable {
  const char *name;
  u32 length;
  u8 type, lock;
  bool placed;
  u64 initial, address;
  u8 cell, shift;
};

struct text {
  struct operation *operations;
  struct operation *site[SITES];
  u32 sites;
  u32 count_of_registers, register_length[REGISTERS];
  const char *register_name[REGISTERS];
};

struct program {
  u32 tasks, vars, cells, locks;
  struct variable var[VARIABLES];
  u64 cell_address[2 * VARIABLES];
  u64 cell_first[2 * VARIABLES];
  struct text task[TASKS];
  const struct term *condition;
};

// Tokens, and the words that mean something.
enum token { TOKEN_END, TOKEN_NAME, TOKEN_NUMBER, TOKEN_SIGN };

enum keyword {
  WORD_NONE,
  WORD_CHAR,
  WORD_SHORT,
  WORD_INT,
  WORD_LONG,
  WORD_ATOMIC,
  WORD_LOCK_TYPE,
  WORD_IF,
  WORD_ELSE,
  WORD_FOR,
  WORD_DATA_RACE,
  WORD_READ_ONCE,
  WORD_ACQUIRE,
  WORD_ATOMIC_READ,
  WORD_EXCHANGE,
  WORD_COMPARE_EXCHANGE,
  WORD_WRITE_ONCE,
  WORD_RELEASE,
  WORD_INCREMENT,
  WORD_DECREMENT,
  WORD_ATOMIC_ADD,
  WORD_ATOMIC_SET,
  WORD_BARRIER,
  WORD_SPIN_LOCK,
  WORD_SPIN_UNLOCK,
  WORD_WRITER,
  WORD_ACCESS,
  WORD_WRITER_SCOPED,
  WORD_ACCESS_SCOPED,
  WORD_BITS,
  WORD_DISABLE,
  WORD_ENABLE,
  WORD_NEST,
  WORD_UNNEST,
  WORD_FLAT,
  WORD_UNFLAT,
  WORD_ATOMIC_NEXT,
  WORD_CHECK_READ,
  WORD_CHECK_WRITE,
  WORD_EXISTS,
  WORD_FORALL,
  WORD_TRUE,
  WORD_FALSE,
  WORD_INIT,
  WORD_RESERVED
};

static const struct {
  const char *name;
  u8 keyword;
} words_of_litmus[] = {{"char", WORD_CHAR},
                       {"short", WORD_SHORT},
                       {"int", WORD_INT},
                       {"long", WORD_LONG},
                       {"atomic_t", WORD_ATOMIC},
                       {"spinlock_t", WORD_LOCK_TYPE},
                       {"if", WORD_IF},
                       {"else", WORD_ELSE},
                       {"for", WORD_FOR},
                       {"data_race", WORD_DATA_RACE},
                       {"READ_ONCE", WORD_READ_ONCE},
                       {"smp_load_acquire", WORD_ACQUIRE},
                       {"atomic_read", WORD_ATOMIC_READ},
                       {"xchg", WORD_EXCHANGE},
                       {"cmpxchg", WORD_COMPARE_EXCHANGE},
                       {"WRITE_ONCE", WORD_WRITE_ONCE},
                       {"smp_store_release", WORD_RELEASE},
                       {"atomic_inc", WORD_INCREMENT},
                       {"atomic_dec", WORD_DECREMENT},
                       {"atomic_add", WORD_ATOMIC_ADD},
                       {"atomic_set", WORD_ATOMIC_SET},
                       {"smp_mb", WORD_BARRIER},
                       {"smp_rmb", WORD_BARRIER},
                       {"smp_wmb", WORD_BARRIER},
                       {"smp_mb__before_atomic", WORD_BARRIER},
                       {"smp_mb__after_atomic", WORD_BARRIER},
                       {"smp_mb__after_spinlock", WORD_BARRIER},
                       {"smp_mb__after_unlock_lock", WORD_BARRIER},
                       {"spin_lock", WORD_SPIN_LOCK},
                       {"spin_unlock", WORD_SPIN_UNLOCK},
                       {"ASSERT_EXCLUSIVE_WRITER", WORD_WRITER},
                       {"ASSERT_EXCLUSIVE_ACCESS", WORD_ACCESS},
                       {"ASSERT_EXCLUSIVE_WRITER_SCOPED", WORD_WRITER_SCOPED},
                       {"ASSERT_EXCLUSIVE_ACCESS_SCOPED", WORD_ACCESS_SCOPED},
                       {"ASSERT_EXCLUSIVE_BITS", WORD_BITS},
                       {"kcsan_disable_current", WORD_DISABLE},
                       {"kcsan_enable_current", WORD_ENABLE},
                       {"kcsan_nestable_atomic_begin", WORD_NEST},
                       {"kcsan_nestable_atomic_end", WORD_UNNEST},
                       {"kcsan_flat_atomic_begin", WORD_FLAT},
                       {"kcsan_flat_atomic_end", WORD_UNFLAT},
                       {"kcsan_atomic_next", WORD_ATOMIC_NEXT},
                       {"kcsan_check_read", WORD_CHECK_READ},
                       {"kcsan_check_write", WORD_CHECK_WRITE},
                       {"exists", WORD_EXISTS},
                       {"forall", WORD_FORALL},
                       {"true", WORD_TRUE},
                       {"false", WORD_FALSE},
                       {"ATOMIC_INIT", WORD_INIT},
                       {"while", WORD_RESERVED},
                       {"do", WORD_RESERVED},
                       {"filter", WORD_RESERVED},
                       {"locations", WORD_RESERVED},
                       {"struct", WORD_RESERVED},
                       {"unsigned", WORD_RESERVED},
                       {"volatile", WORD_RESERVED},
                       {"_SCOPED", WORD_RESERVED}};

enum { KEYWORD_ROOM = 256, KEYWORDS = sizeof words_of_litmus / sizeof *words_of_litmus };

struct parser {
  const char *p, *end, *start;
  bool inside;
  u8 kind, keyword, sign, sign2;
  const char *name;
  u32 length;
  u64 number;
  u8 word_at[KEYWORD_ROOM], word_len[KEYWORDS];
  struct program *program;
  struct term *code;
  u32 codes, code_room;
  struct operation *operations;
  u32 count_of_operations;
  u32 statements, scoped, depth, repeats, product, operators;
  u8 parameter_of[VARIABLES];
  u32 count_of_parameters;
  bool is_parameter[VARIABLES];
  u8 loop_register[NESTING];
  u32 loops;
  struct text *text;
};

static _Noreturn void refuse(struct parser *parser, const char *what) {
  u32 line = 1;
  for (const char *p = parser->start; p < parser->p && p < parser->end; p++)
    line += *p == '\n';
  fprintf(stderr, "line %u: %s\n", line, what);
  exit(65);
}

static inline u32 hash_of(const char *p, u32 n) {
  u32 h = n * 31;
  for (u32 i = 0; i < n; i++)
    h = h * 33 + (u8)p[i];
  return (h ^ h >> 8) & (KEYWORD_ROOM - 1);
}

static inline bool is_letter(char c) {
  return (u8)((c | 32) - 'a') < 26 || c == '_';
}

static inline bool is_digit(char c) {
  return (u8)(c - '0') < 10;
}

static void gap(struct parser *parser) {
  const char *p = parser->p, *e = parser->end;
  for (;;) {
    while (p < e && (*p == ' ' || *p == '\t' || *p == '\n' || *p == '\r'))
      p++;
    if (e - p < 2)
      break;
    if (p[0] == '/' && p[1] == '/') {
      while (p < e && *p != '\n')
        p++;
      continue;
    }
    char close;
    if (p[0] == '/' && p[1] == '*')
      close = '/';
    else if (!parser->inside && p[0] == '(' && p[1] == '*')
      close = ')';
    else
      break;
    for (p += 2;; p++) {
      if (e - p < 2) {
        parser->p = e;
        refuse(parser, "syntax");
      }
      if (p[0] == '*' && p[1] == close)
        break;
    }
    p += 2;
  }
  parser->p = p;
}

static void next(struct parser *parser) {
  gap(parser);
  const char *p = parser->p, *e = parser->end;
  parser->sign = parser->sign2 = parser->keyword = 0;
  if (p == e) {
    parser->kind = TOKEN_END;
    return;
  }
  if (is_letter(*p)) {
    parser->name = p;
    while (p < e && (is_letter(*p) || is_digit(*p)))
      p++;
    parser->length = p - parser->name;
    parser->p = p;
    parser->kind = TOKEN_NAME;
    for (u32 h = hash_of(parser->name, parser->length); parser->word_at[h]; h = (h + 1) & (KEYWORD_ROOM - 1)) {
      u32 w = parser->word_at[h] - 1;
      if (parser->word_len[w] == parser->length && !memcmp(words_of_litmus[w].name, parser->name, parser->length)) {
        parser->keyword = words_of_litmus[w].keyword;
        break;
      }
    }
    return;
  }
  if (is_digit(*p)) {
    u64 v = 0;
    if (*p == '0' && e - p > 2 && p[1] == 'x' && ((is_digit(p[2])) || (u8)((p[2] | 32) - 'a') < 6)) {
      for (p += 2; p < e && (is_digit(*p) || (u8)((*p | 32) - 'a') < 6); p++) {
        if (v >> 60)
          refuse(parser, "limit: number");
        v = v * 16 + (is_digit(*p) ? *p - '0' : (*p | 32) - 'a' + 10);
      }
    } else
      for (; p < e && is_digit(*p); p++)
        if (__builtin_mul_overflow(v, 10, &v) || __builtin_add_overflow(v, (u64)(*p - '0'), &v))
          refuse(parser, "limit: number");
    parser->number = v;
    parser->kind = TOKEN_NUMBER;
    parser->p = p;
    return;
  }
  parser->kind = TOKEN_SIGN;
  parser->sign = *p++;
  if (p < e) {
    char a = parser->sign, b = *p;
    if ((b == '=' && strchr("=!<>+", a)) || (a == b && strchr("+&|<>", a)) || (a == '/' && b == '\\') ||
        (a == '\\' && b == '/')) {
      parser->sign2 = b;
      p++;
    }
  }
  parser->p = p;
}

static inline bool at(struct parser *parser, char c) {
  return parser->sign == c && !parser->sign2;
}

static inline bool at2(struct parser *parser, char c, char d) {
  return parser->sign == c && parser->sign2 == d;
}

static inline void want(struct parser *parser, char c) {
  if (!at(parser, c))
    refuse(parser, "syntax");
  next(parser);
}

static inline u64 number(struct parser *parser) {
  if (parser->kind != TOKEN_NUMBER)
    refuse(parser, "syntax");
  u64 v = parser->number;
  next(parser);
  return v;
}

static inline bool is_type(struct parser *parser) {
  return parser->keyword >= WORD_CHAR && parser->keyword <= WORD_LOCK_TYPE;
}

static void emit(struct parser *parser, u8 kind, u64 value) {
  if (parser->codes == parser->code_room)
    refuse(parser, "limit: code");
  parser->code[parser->codes++] = (struct term){.kind = kind, .value = value};
}

static struct operation *put(struct parser *parser, u8 code) {
  struct operation *operation = &parser->operations[parser->count_of_operations++];
  *operation = (struct operation){.code = code};
  return operation;
}

static u32 variable_named(struct parser *parser) {
  struct program *program = parser->program;
  for (u32 i = 0; i < program->vars; i++)
    if (program->var[i].length == parser->length && !memcmp(program->var[i].name, parser->name, parser->length))
      return i;
  if (program->vars == VARIABLES)
    refuse(parser, "limit: variables");
  program->var[program->vars] = (struct variable){.name = parser->name, .length = parser->length};
  return program->vars++;
}

static void typed(struct parser *parser, u32 v, u8 type) {
  struct variable *x = &parser->program->var[v];
  if (x->type && x->type != type)
    refuse(parser, "unsupported");
  x->type = type;
}

static u8 type_of(struct parser *parser) {
  u8 t = parser->keyword - WORD_CHAR + TYPE_CHAR;
  next(parser);
  return t;
}

static u32 variable(struct parser *parser, u32 types) {
  if (parser->kind != TOKEN_NAME || parser->keyword)
    refuse(parser, "syntax");
  for (u32 i = 0; i < parser->count_of_parameters; i++) {
    struct variable *v = &parser->program->var[parser->parameter_of[i]];
    if (v->length == parser->length && !memcmp(v->name, parser->name, parser->length)) {
      if (!(types >> v->type & 1))
        refuse(parser, "unsupported");
      next(parser);
      return parser->parameter_of[i];
    }
  }
  refuse(parser, "syntax");
}

enum {
  PLAIN = 1 << TYPE_CHAR | 1 << TYPE_SHORT | 1 << TYPE_INT | 1 << TYPE_LONG,
  ATOMIC = 1 << TYPE_ATOMIC,
  LOCKS = 1 << TYPE_LOCK
};

static u32 register_here(struct parser *parser) {
  if (parser->kind != TOKEN_NAME || parser->keyword)
    refuse(parser, "syntax");
  for (u32 i = 0; i < parser->count_of_parameters; i++) {
    struct variable *v = &parser->program->var[parser->parameter_of[i]];
    if (v->length == parser->length && !memcmp(v->name, parser->name, parser->length))
      refuse(parser, "syntax");
  }
  struct text *t = parser->text;
  u32 i = 0;
  while (i < t->count_of_registers &&
         (t->register_length[i] != parser->length || memcmp(t->register_name[i], parser->name, parser->length)))
    i++;
  if (i == t->count_of_registers) {
    if (i == REGISTERS)
      refuse(parser, "limit: registers");
    t->register_name[i] = parser->name;
    t->register_length[i] = parser->length;
    t->count_of_registers++;
  }
  next(parser);
  return i;
}

static u32 register_assigned(struct parser *parser) {
  u32 r = register_here(parser);
  for (u32 i = 0; i < parser->loops; i++)
    if (parser->loop_register[i] == r)
      refuse(parser, "unsupported");
  return r;
}

// An access of a statement: its site, and what it adds to the repeats of the task.
static void accessing(struct parser *parser, struct operation *operation) {
  parser->repeats += parser->product;
  if (parser->repeats > 1024)
    refuse(parser, "limit: repeats");
  operation->site = parser->text->sites;
  parser->text->site[parser->text->sites++] = operation;
}

static void level(struct parser *parser, int depth, struct operation *load, bool *loaded);
static void load(struct parser *parser, struct operation *operation);
static void read_pure(struct parser *parser, const struct term **to);

static bool is_load(struct parser *parser) {
  return at(parser, '*') || (parser->keyword >= WORD_DATA_RACE && parser->keyword <= WORD_COMPARE_EXCHANGE);
}

static void operand(struct parser *parser, struct operation *operation, bool *loaded) {
  if (parser->kind == TOKEN_NUMBER) {
    emit(parser, TERM_NUMBER, parser->number);
    next(parser);
    return;
  }
  if (is_load(parser)) {
    if (!operation || *loaded)
      refuse(parser, "unsupported");
    *loaded = true;
    operation->code = DO_ACCESS;
    // The arguments of the load are lists of their own: what stands of this one is put behind them.
    u32 from = parser->codes;
    struct term saved[4 * OPERATORS];
    u32 n = 0;
    while (from > 0 && parser->code[from - 1].kind != TERM_END)
      saved[n++] = parser->code[--from];
    parser->codes = from;
    accessing(parser, operation);
    load(parser, operation);
    while (n)
      parser->code[parser->codes++] = saved[--n];
    emit(parser, TERM_LOADED, 0);
    return;
  }
  if (parser->kind == TOKEN_NAME) {
    u32 r = register_here(parser);
    emit(parser, TERM_REGISTER, r);
    return;
  }
  if (at(parser, '(')) {
    if (parser->depth++ == NESTING)
      refuse(parser, "limit: nesting");
    next(parser);
    level(parser, 0, operation, loaded);
    want(parser, ')');
    parser->depth--;
    return;
  }
  u8 kind = at(parser, '-') ? TERM_NEGATED : at(parser, '!') ? TERM_NOT : at(parser, '~') ? TERM_INVERTED : TERM_END;
  if (!kind)
    refuse(parser, "syntax");
  if (parser->operators++ == OPERATORS)
    refuse(parser, "limit: operators");
  next(parser);
  operand(parser, operation, loaded);
  emit(parser, kind, 0);
}

static u8 binary(struct parser *parser, int depth) {
  char a = parser->sign, b = parser->sign2;
  switch (depth) {
  case 0: return a == '|' && !b ? TERM_OR : 0;
  case 1: return a == '^' && !b ? TERM_XOR : 0;
  case 2: return a == '&' && !b ? TERM_AND : 0;
  case 3: return b != '=' ? 0 : a == '=' ? TERM_EQUAL : a == '!' ? TERM_UNEQUAL : 0;
  case 4:
    return a == '<'   ? (!b         ? TERM_LESS
                         : b == '=' ? TERM_AT_MOST
                                    : 0)
           : a == '>' ? (!b         ? TERM_GREATER
                         : b == '=' ? TERM_AT_LEAST
                                    : 0)
                      : 0;
  case 5: return b ? 0 : a == '+' ? TERM_ADD : a == '-' ? TERM_LESS_BY : 0;
  default: return a == '*' && !b ? TERM_TIMES : 0;
  }
}

static void level(struct parser *parser, int depth, struct operation *operation, bool *loaded) {
  if (depth == 7) {
    operand(parser, operation, loaded);
    return;
  }
  level(parser, depth + 1, operation, loaded);
  if (parser->kind != TOKEN_SIGN)
    return;
  for (u8 kind; (kind = binary(parser, depth));) {
    if (parser->operators++ == OPERATORS)
      refuse(parser, "limit: operators");
    next(parser);
    level(parser, depth + 1, operation, loaded);
    emit(parser, kind, 0);
  }
}

// An expression: whether it has a load, which then stands in the operation.
static bool read_expression(struct parser *parser, struct operation *operation, const struct term **to) {
  bool loaded = false;
  parser->operators = 0;
  level(parser, 0, operation, &loaded);
  emit(parser, TERM_END, 0);
  u32 from = parser->codes - 1;
  while (from > 0 && parser->code[from - 1].kind != TERM_END)
    from--;
  *to = parser->code + from;
  return loaded;
}

static void read_pure(struct parser *parser, const struct term **to) {
  u32 from = parser->codes, kept = parser->operators;
  bool loaded = false;
  parser->operators = 0;
  level(parser, 0, NULL, &loaded);
  emit(parser, TERM_END, 0);
  parser->operators = kept;
  *to = parser->code + from;
}

static void load(struct parser *parser, struct operation *operation) {
  operation->memory = MEMORY_LOAD;
  if (at(parser, '*')) {
    next(parser);
    operation->variable = variable(parser, PLAIN);
    return;
  }
  u8 keyword = parser->keyword;
  next(parser);
  want(parser, '(');
  switch (keyword) {
  case WORD_DATA_RACE:
    if (!is_load(parser))
      refuse(parser, "syntax");
    operation->quiet++;
    load(parser, operation);
    break;
  case WORD_READ_ONCE: want(parser, '*'); // fall through
  case WORD_ACQUIRE:
    operation->kind = KIND_MARKED;
    operation->variable = variable(parser, PLAIN);
    break;
  case WORD_ATOMIC_READ:
    operation->kind = KIND_MARKED;
    operation->variable = variable(parser, ATOMIC);
    break;
  default:
    operation->kind = KIND_WRITE | KIND_COMPOUND | KIND_MARKED;
    operation->variable = variable(parser, PLAIN);
    want(parser, ',');
    if (keyword == WORD_EXCHANGE) {
      operation->memory = MEMORY_SET;
      read_pure(parser, &operation->argument);
    } else {
      operation->memory = MEMORY_COMPARE_EXCHANGE;
      read_pure(parser, &operation->argument);
      want(parser, ',');
      read_pure(parser, &operation->second_argument);
    }
  }
  want(parser, ')');
}

static void block(struct parser *parser);

static void body(struct parser *parser) {
  if (at(parser, '{')) {
    block(parser);
    return;
  }
  void statement(struct parser *);
  if (parser->depth++ == NESTING)
    refuse(parser, "limit: nesting");
  u32 scoped = parser->scoped;
  statement(parser);
  if (parser->scoped > scoped)
    put(parser, DO_CLOSE)->value = parser->scoped - scoped;
  parser->scoped = scoped;
  parser->depth--;
}

static void counted(struct parser *parser) {
  if (parser->statements++ == STATEMENTS)
    refuse(parser, "limit: statements");
}

static void assign(struct parser *parser, u32 register_number, u32 quiet) {
  struct operation *operation = put(parser, DO_PURE);
  operation->register_number = register_number;
  operation->quiet = quiet;
  if (read_expression(parser, operation, &operation->expression))
    operation->after = AFTER_REGISTER;
}

static void simple(struct parser *parser, u32 quiet) {
  if (is_load(parser) && !at(parser, '*')) {
    struct operation *operation = put(parser, DO_ACCESS);
    operation->quiet = quiet;
    accessing(parser, operation);
    load(parser, operation);
    return;
  }
  struct operation *operation;
  if (at(parser, '*')) {
    operation = put(parser, DO_ACCESS);
    operation->quiet = quiet;
    accessing(parser, operation);
    next(parser);
    operation->variable = variable(parser, PLAIN);
    operation->memory = MEMORY_LOAD;
    if (at(parser, '=')) {
      next(parser);
      operation->kind = KIND_WRITE;
      operation->memory = MEMORY_STORE;
      read_pure(parser, &operation->argument);
    } else if (at2(parser, '+', '=')) {
      next(parser);
      operation->kind = KIND_WRITE | KIND_COMPOUND;
      operation->memory = MEMORY_PLAIN_ADD;
      read_pure(parser, &operation->argument);
    }
    return;
  }
  if (at(parser, '(')) {
    operation = put(parser, DO_ACCESS);
    operation->quiet = quiet;
    accessing(parser, operation);
    next(parser);
    want(parser, '*');
    operation->variable = variable(parser, PLAIN);
    want(parser, ')');
    if (!at2(parser, '+', '+'))
      refuse(parser, "syntax");
    next(parser);
    operation->kind = KIND_WRITE | KIND_COMPOUND;
    operation->memory = MEMORY_PLAIN_ADD;
    return;
  }
  u8 keyword = parser->keyword;
  if (keyword >= WORD_WRITE_ONCE && keyword <= WORD_ATOMIC_SET) {
    operation = put(parser, DO_ACCESS);
    operation->quiet = quiet;
    accessing(parser, operation);
    next(parser);
    want(parser, '(');
    operation->kind = KIND_WRITE | KIND_MARKED;
    operation->memory = MEMORY_STORE;
    if (keyword == WORD_ATOMIC_ADD) {
      operation->memory = MEMORY_ADD;
      read_pure(parser, &operation->argument);
      want(parser, ',');
    }
    if (keyword == WORD_WRITE_ONCE)
      want(parser, '*');
    operation->variable = variable(parser, keyword == WORD_WRITE_ONCE || keyword == WORD_RELEASE ? PLAIN : ATOMIC);
    if (keyword == WORD_INCREMENT)
      operation->memory = MEMORY_ADD;
    if (keyword == WORD_DECREMENT)
      operation->memory = MEMORY_SUB;
    if (operation->memory != MEMORY_STORE)
      operation->kind |= KIND_COMPOUND;
    if (keyword == WORD_WRITE_ONCE || keyword == WORD_RELEASE || keyword == WORD_ATOMIC_SET) {
      want(parser, ',');
      read_pure(parser, &operation->argument);
    }
    want(parser, ')');
    return;
  }
  u32 register_number = register_assigned(parser);
  want(parser, '=');
  assign(parser, register_number, quiet);
}

static void conditional(struct parser *parser) {
  next(parser);
  want(parser, '(');
  u32 self = parser->count_of_operations;
  struct operation *operation = put(parser, DO_JUMP_IF_ZERO);
  if (read_expression(parser, operation, &operation->expression))
    operation->after = AFTER_IF;
  want(parser, ')');
  body(parser);
  if (parser->keyword == WORD_ELSE) {
    u32 jump = parser->count_of_operations;
    put(parser, DO_JUMP);
    parser->operations[self].target = parser->count_of_operations;
    next(parser);
    body(parser);
    parser->operations[jump].target = parser->count_of_operations;
  } else
    parser->operations[self].target = parser->count_of_operations;
}

static void loop(struct parser *parser) {
  next(parser);
  want(parser, '(');
  u32 r = register_assigned(parser);
  want(parser, '=');
  if (number(parser) != 0)
    refuse(parser, "unsupported");
  want(parser, ';');
  if (register_here(parser) != r)
    refuse(parser, "unsupported");
  want(parser, '<');
  u64 count = number(parser);
  if (count > 256 || count * parser->product > 256)
    refuse(parser, "limit: repeats");
  want(parser, ';');
  if (register_here(parser) != r)
    refuse(parser, "unsupported");
  if (!at2(parser, '+', '+'))
    refuse(parser, "unsupported");
  next(parser);
  want(parser, ')');
  put(parser, DO_SET)->register_number = r;
  u32 top = parser->count_of_operations, kept = parser->product;
  struct operation *operation = put(parser, DO_JUMP_IF_COUNTED);
  operation->register_number = r;
  operation->value = count;
  parser->product *= count;
  parser->loop_register[parser->loops++] = r;
  body(parser);
  parser->product = kept;
  parser->loops--;
  put(parser, DO_COUNT)->register_number = r;
  put(parser, DO_JUMP)->target = top;
  parser->operations[top].target = parser->count_of_operations;
}

static void other(struct parser *parser, u8 keyword) {
  static const u8 marks[] = {DO_DISABLE, DO_ENABLE, DO_NEST, DO_UNNEST, DO_FLAT, DO_UNFLAT};
  next(parser);
  want(parser, '(');
  struct operation *operation;
  if (keyword == WORD_BARRIER) {
  } else if (keyword >= WORD_DISABLE && keyword <= WORD_UNFLAT)
    put(parser, marks[keyword - WORD_DISABLE]);
  else if (keyword == WORD_ATOMIC_NEXT) {
    operation = put(parser, DO_NEXT);
    operation->value = number(parser);
  } else if (keyword == WORD_SPIN_LOCK || keyword == WORD_SPIN_UNLOCK) {
    operation = put(parser, keyword == WORD_SPIN_LOCK ? DO_LOCK : DO_UNLOCK);
    operation->variable = variable(parser, LOCKS);
  } else if (keyword == WORD_CHECK_READ || keyword == WORD_CHECK_WRITE) {
    u32 v = variable(parser, PLAIN | ATOMIC);
    want(parser, ',');
    u64 size = number(parser);
    if (size > 1048576)
      refuse(parser, "limit: check");
    if (size) {
      operation = put(parser, DO_ACCESS);
      accessing(parser, operation);
      operation->variable = v;
      operation->size = size;
      operation->kind = keyword == WORD_CHECK_WRITE ? KIND_WRITE : 0;
    }
  } else {
    bool scoped = keyword == WORD_WRITER_SCOPED || keyword == WORD_ACCESS_SCOPED;
    if (scoped && parser->scoped++ == SCOPES)
      refuse(parser, "limit: scoped");
    operation = put(parser, scoped ? DO_OPEN : DO_ACCESS);
    accessing(parser, operation);
    want(parser, '*');
    operation->variable = variable(parser, PLAIN | ATOMIC);
    operation->kind = keyword == WORD_ACCESS || keyword == WORD_ACCESS_SCOPED ? KIND_NO_ACCESSES : KIND_NO_WRITES;
    if (keyword == WORD_BITS) {
      want(parser, ',');
      operation->mask = number(parser);
      operation->after = AFTER_BITS;
    }
  }
  want(parser, ')');
}

void statement(struct parser *parser) {
  u8 keyword = parser->keyword;
  if (at(parser, ';')) {
    next(parser);
    return;
  }
  if (keyword >= WORD_CHAR && keyword <= WORD_LONG) {
    next(parser);
    u32 r = register_assigned(parser);
    if (at(parser, '=')) {
      counted(parser);
      next(parser);
      assign(parser, r, 0);
    } else
      while (at(parser, ',')) {
        next(parser);
        register_assigned(parser);
      }
    want(parser, ';');
    return;
  }
  counted(parser);
  if (keyword == WORD_IF) {
    conditional(parser);
    return;
  }
  if (keyword == WORD_FOR) {
    loop(parser);
    return;
  }
  if (keyword == WORD_DATA_RACE) {
    next(parser);
    want(parser, '(');
    simple(parser, 1);
    want(parser, ')');
  } else if (keyword >= WORD_BARRIER && keyword <= WORD_CHECK_WRITE)
    other(parser, keyword);
  else
    simple(parser, 0);
  want(parser, ';');
}

static void block(struct parser *parser) {
  if (parser->depth++ == NESTING)
    refuse(parser, "limit: nesting");
  want(parser, '{');
  u32 scoped = parser->scoped;
  while (!at(parser, '}')) {
    if (parser->kind == TOKEN_END)
      refuse(parser, "syntax");
    statement(parser);
  }
  if (parser->scoped > scoped)
    put(parser, DO_CLOSE)->value = parser->scoped - scoped;
  parser->scoped = scoped;
  if (--parser->depth == 0)
    parser->inside = false;
  next(parser);
}

static void process(struct parser *parser) {
  struct program *program = parser->program;
  if (program->tasks == TASKS)
    refuse(parser, "limit: tasks");
  struct text *t = parser->text = &program->task[program->tasks++];
  parser->count_of_parameters = 0;
  parser->statements = parser->repeats = parser->scoped = parser->loops = 0;
  parser->product = 1;
  next(parser);
  want(parser, '(');
  if (!at(parser, ')'))
    for (;;) {
      if (!is_type(parser))
        refuse(parser, "syntax");
      u8 type = type_of(parser);
      want(parser, '*');
      if (parser->kind != TOKEN_NAME || parser->keyword)
        refuse(parser, "syntax");
      u32 v = variable_named(parser);
      for (u32 i = 0; i < parser->count_of_parameters; i++)
        if (parser->parameter_of[i] == v)
          refuse(parser, "syntax");
      typed(parser, v, type);
      parser->parameter_of[parser->count_of_parameters++] = v;
      next(parser);
      if (!at(parser, ','))
        break;
      next(parser);
    }
  want(parser, ')');
  if (!at(parser, '{'))
    refuse(parser, "syntax");
  parser->inside = true;
  u32 first = parser->count_of_operations;
  t->operations = parser->operations + first;
  block(parser);
  put(parser, DO_END);
  for (u32 i = first; i < parser->count_of_operations; i++)
    if (parser->operations[i].target)
      parser->operations[i].target -= first;
}

static u64 signed_number(struct parser *parser) {
  bool minus = at(parser, '-');
  if (minus)
    next(parser);
  u64 v = number(parser);
  return minus ? -v : v;
}

static void either(struct parser *parser);

static void negated(struct parser *parser) {
  if (at(parser, '~')) {
    next(parser);
    negated(parser);
    emit(parser, TERM_NOT, 0);
    return;
  }
  if (at(parser, '(')) {
    next(parser);
    either(parser);
    want(parser, ')');
    return;
  }
  if (parser->keyword == WORD_TRUE || parser->keyword == WORD_FALSE) {
    emit(parser, TERM_NUMBER, parser->keyword == WORD_TRUE);
    next(parser);
    return;
  }
  struct term x = {0};
  if (parser->kind == TOKEN_NUMBER) {
    if (parser->number >= parser->program->tasks)
      refuse(parser, "syntax");
    x.kind = TERM_REGISTER_OF_TASK;
    x.task = parser->number;
    next(parser);
    want(parser, ':');
    struct text *t = &parser->program->task[x.task];
    if (parser->kind != TOKEN_NAME || parser->keyword)
      refuse(parser, "syntax");
    while (x.at < t->count_of_registers &&
           (t->register_length[x.at] != parser->length || memcmp(t->register_name[x.at], parser->name, parser->length)))
      x.at++;
    if (x.at == t->count_of_registers) {
      if (x.at == REGISTERS)
        refuse(parser, "limit: registers");
      t->register_name[x.at] = parser->name;
      t->register_length[x.at] = parser->length;
      t->count_of_registers++;
    }
    next(parser);
  } else {
    bool bracket = at(parser, '[');
    if (bracket)
      next(parser);
    u32 before = parser->program->vars;
    if (parser->kind != TOKEN_NAME || parser->keyword)
      refuse(parser, "syntax");
    x.kind = TERM_VARIABLE;
    x.at = variable_named(parser);
    if (parser->program->vars != before)
      refuse(parser, "syntax");
    if (parser->program->var[x.at].type == TYPE_LOCK)
      refuse(parser, "unsupported");
    next(parser);
    if (bracket)
      want(parser, ']');
  }
  want(parser, '=');
  x.value = signed_number(parser);
  parser->code[parser->codes++] = x;
}

static void both(struct parser *parser) {
  negated(parser);
  while (at2(parser, '/', '\\')) {
    next(parser);
    negated(parser);
    emit(parser, TERM_BOTH, 0);
  }
}

static void either(struct parser *parser) {
  both(parser);
  while (at2(parser, '\\', '/')) {
    next(parser);
    both(parser);
    emit(parser, TERM_EITHER, 0);
  }
}

static u64 sign_extended(u64 v, u32 size) {
  u32 k = 64 - 8 * size;
  return (u64)((int64_t)(v << k) >> k);
}

static void head(struct parser *parser) {
  for (const char *p = parser->start; p < parser->end; p++)
    if ((u8)(*p - 32) > 94 && *p != '\t' && *p != '\n' && *p != '\r')
      refuse(parser, "not ascii");
  gap(parser);
  if (parser->end - parser->p < 3 || *parser->p != 'C')
    refuse(parser, "syntax");
  for (const char *p = parser->p + 1;; p++) {
    if (p == parser->end)
      refuse(parser, "syntax");
    if (*p == '{') {
      parser->p = p;
      break;
    }
    if (*p == '"') {
      p = memchr(p + 1, '"', parser->end - p - 1);
      if (!p)
        refuse(parser, "syntax");
    } else if (*p == '(' && parser->end - p > 1 && p[1] == '*') {
      for (p += 2; parser->end - p > 1 && (p[0] != '*' || p[1] != ')'); p++) {}
      if (parser->end - p < 2)
        refuse(parser, "syntax");
      p++;
    }
  }
  next(parser);
}

static void initial(struct parser *parser) {
  want(parser, '{');
  while (!at(parser, '}')) {
    u8 type = is_type(parser) ? type_of(parser) : 0;
    if (parser->kind != TOKEN_NAME || parser->keyword)
      refuse(parser, "syntax");
    u32 v = variable_named(parser);
    if (type)
      typed(parser, v, type);
    next(parser);
    if (at(parser, '=')) {
      next(parser);
      if (parser->keyword == WORD_INIT) {
        next(parser);
        want(parser, '(');
        parser->program->var[v].initial = signed_number(parser);
        want(parser, ')');
      } else
        parser->program->var[v].initial = signed_number(parser);
    }
    if (!at(parser, ';'))
      break;
    next(parser);
  }
  want(parser, '}');
}

static struct program *parse(const char *text, size_t length) {
  struct parser *parser = calloc(1, sizeof *parser);
  struct program *program = calloc(1, sizeof *program);
  parser->p = parser->start = text;
  parser->end = text + length;
  parser->program = program;
  parser->code_room = length + 64;
  parser->code = malloc(parser->code_room * sizeof *parser->code);
  parser->operations = malloc((length / 2 + 64) * sizeof *parser->operations);
  for (u32 w = 0; w < KEYWORDS; w++) {
    parser->word_len[w] = strlen(words_of_litmus[w].name);
    u32 h = hash_of(words_of_litmus[w].name, parser->word_len[w]);
    while (parser->word_at[h])
      h = (h + 1) & (KEYWORD_ROOM - 1);
    parser->word_at[h] = w + 1;
  }
  emit(parser, TERM_END, 0);
  head(parser);
  initial(parser);
  for (;;) {
    char name[4];
    int n = snprintf(name, sizeof name, "P%u", program->tasks);
    if (parser->kind != TOKEN_NAME || parser->length != (u32)n || memcmp(parser->name, name, n))
      break;
    process(parser);
  }
  if (!program->tasks)
    refuse(parser, "syntax");
  if (at(parser, '~')) {
    next(parser);
    if (parser->keyword != WORD_EXISTS)
      refuse(parser, "syntax");
  } else if (parser->keyword != WORD_EXISTS && parser->keyword != WORD_FORALL)
    refuse(parser, "syntax");
  next(parser);
  u32 from = parser->codes;
  either(parser);
  if (parser->kind != TOKEN_END)
    refuse(parser, "syntax");
  emit(parser, TERM_END, 0);
  program->condition = parser->code + from;
  for (u32 i = 0; i < program->vars; i++)
    if (!program->var[i].type)
      program->var[i].type = TYPE_INT;
  return program;
}

// Addresses, cells, and what of each access is known before the run.
static u8 cell_at(struct program *program, u64 block) {
  u32 i = 0;
  while (i < program->cells && program->cell_address[i] != block)
    i++;
  if (i == program->cells) {
    program->cell_address[i] = block;
    program->cell_first[i] = 0;
    program->cells++;
  }
  return i;
}

static void lay_out(struct program *program, u32 slots, int width, bool strict) {
  int low = width == 64 ? 49 : 17;
  for (u32 i = 0; i < program->vars; i++) {
    struct variable *v = &program->var[i];
    if (v->type == TYPE_LOCK) {
      v->lock = program->locks++;
      continue;
    }
    if (!v->placed)
      v->address = 0x10000 + 64 * i;
    v->cell = cell_at(program, v->address & ~7ull);
    v->shift = 8 * (v->address & 7);
    u64 mask = size_of[v->type] == 8 ? ~0ull : (1ull << 8 * size_of[v->type]) - 1;
    program->cell_first[v->cell] = (program->cell_first[v->cell] & ~(mask << v->shift)) | (v->initial & mask)
                                                                                              << v->shift;
  }
  for (u32 t = 0; t < program->tasks; t++)
    for (u32 n = 0; n < program->task[t].sites; n++) {
      struct operation *operation = program->task[t].site[n];
      struct variable *v = &program->var[operation->variable];
      operation->address = v->address;
      if (!operation->size)
        operation->size = size_of[v->type];
      if (operation->kind & (KIND_WRITE | KIND_NO_ACCESSES))
        operation->kind |= KIND_WRITE_BIT;
      operation->slot = operation->address / 4096 % slots;
      operation->masked = operation->address & ((1ull << low) - 1);
      operation->encodable = operation->address >= 4096 && operation->size <= 8192;
      operation->word =
          (u64) !!(operation->kind & KIND_WRITE_BIT) << (low + 14) | (u64)operation->size << low | operation->masked;
      operation->one_cell =
          (operation->size == 1 || operation->size == 2 || operation->size == 4 || operation->size == 8) &&
          (operation->address & 7) + operation->size <= 8;
      operation->cell = v->cell;
      operation->shift = v->shift;
      operation->atomic_write = !strict && (operation->kind & KIND_WRITE) && !(operation->kind & KIND_COMPOUND) &&
                                operation->size <= 8 && operation->address % operation->size == 0;
    }
}

static u64 evaluate(const struct term *x, const u64 *registers, u64 loaded) {
  u64 stack[4 * OPERATORS + 8], *p = stack;
  for (;; x++) {
    u64 b = p > stack ? p[-1] : 0;
    switch (x->kind) {
    case TERM_END: return p[-1];
    case TERM_NUMBER: *p++ = x->value; break;
    case TERM_REGISTER: *p++ = registers[x->value]; break;
    case TERM_LOADED: *p++ = loaded; break;
    case TERM_NEGATED: p[-1] = -b; break;
    case TERM_NOT: p[-1] = !b; break;
    case TERM_INVERTED: p[-1] = ~b; break;
#define BINARY(name, e)                                                                                                \
  case name: {                                                                                                         \
    u64 a = p[-2];                                                                                                     \
    int64_t sa = (int64_t)a, sb = (int64_t)b;                                                                          \
    (void)sa;                                                                                                          \
    (void)sb;                                                                                                          \
    p--;                                                                                                               \
    p[-1] = (u64)(e);                                                                                                  \
    break;                                                                                                             \
  }
      BINARY(TERM_TIMES, a * b)
      BINARY(TERM_ADD, a + b) BINARY(TERM_LESS_BY, a - b) BINARY(TERM_LESS, sa < sb) BINARY(TERM_GREATER, sa > sb)
          BINARY(TERM_AT_MOST, sa <= sb) BINARY(TERM_AT_LEAST, sa >= sb) BINARY(TERM_EQUAL, a == b)
              BINARY(TERM_UNEQUAL, a != b) BINARY(TERM_AND, a & b) BINARY(TERM_XOR, a ^ b) BINARY(TERM_OR, a | b)
#undef BINARY
    }
  }
}

static inline u64 value_of(const struct term *x, const u64 *registers, u64 loaded) {
  if (x[1].kind == TERM_END)
    return x->kind == TERM_NUMBER ? x->value : x->kind == TERM_REGISTER ? registers[x->value] : loaded;
  return evaluate(x, registers, loaded);
}

static bool holds(const struct program *program, u64 registers[][REGISTERS], const u64 *cells) {
  bool stack[TEXT / 2], *p = stack;
  for (const struct term *x = program->condition;; x++)
    switch (x->kind) {
    case TERM_END: return p[-1];
    case TERM_NUMBER: *p++ = x->value; break;
    case TERM_NOT: p[-1] = !p[-1]; break;
    case TERM_BOTH:
      p--;
      p[-1] &= p[0];
      break;
    case TERM_EITHER:
      p--;
      p[-1] |= p[0];
      break;
    case TERM_REGISTER_OF_TASK: *p++ = registers[x->task][x->at] == x->value; break;
    case TERM_VARIABLE: {
      const struct variable *v = &program->var[x->at];
      *p++ = sign_extended(cells[v->cell] >> v->shift, size_of[v->type]) == x->value;
      break;
    }
    }
}

// Reads a whole file.
static char *slurp(const char *path, size_t *length, size_t room) {
  FILE *f = fopen(path, "rb");
  if (!f)
    exit(66);
  char *text = malloc(room + 1);
  *length = fread(text, 1, room + 1, f);
  fclose(f);
  if (*length > room)
    exit(65);
  return text;
}
#endif
