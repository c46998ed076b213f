/*
 * The steps of an access that KCSAN checks, as plain_task.h makes them: what race.pml, passing.pml and causality.pml
 * share. Each step is one statement of Promela: an atomic operation on one word that the tasks share, together with
 * what the task does with the answer. So SPIN's states are those of plain_search.c.
 *
 * The settings are --strict, under which plain writes are checked too and a report falls where no value changes as
 * well, and no access is skipped. The clock is left out, at which nobody looks: a step of the clock changes nothing,
 * but is a step. Counters and traces are left out too. A report is a `skip`, behind the question whether it falls.
 *
 * In front of this file a model says how many CELLS of memory there are; variables are their numbers. All variables
 * lie on one page, so every access looks at the same three watch words: 0, 1, 2 here are 16, 17, 18 in the program.
 *
 * `spin -DTOGETHER=atomic -a FILE` puts steps together that need no switch between them, by hand: those that the
 * program leaves out with --reduce yes, but for two differences. The consume of a watchpoint that was consumed is a
 * step of its own, beside which the other tasks are tried too; and steps are put together across a report.
 *
 * No task comes to an end that is called valid, so that each final state is an error: `pan -c0` counts them, and
 * `pan -E` goes by.
 */

#ifndef TOGETHER
#define TOGETHER
#endif

/* A watch word: no watchpoint, one that was consumed, or which variable is watched, and whether for a write. */
#define FREE 0
#define CONSUMED 1
#define WORD(of, write) (2 + 2 * of + write)
#define MATCHES(word, of, write) (word >> 1 == 1 + of && (write || (word & 1)))

/* A pair word has two halves: which access set the watchpoint up, and which found it. 0 is none yet. */
byte watch[3], setter[3], finder[3], cell[CELLS];

/* What a task keeps: the watchpoint that it is at; a watch word or value that it read; a value that it read again. What
   the next steps don't need is 0. */
#define KEPT byte index, old, new

#define BEGIN skip;

#define LOOK(name, n, of, write)                                                                                       \
  if                                                                                                                   \
  :: d_step { MATCHES(watch[n], of, write); old = watch[n]; index = n }                                                \
     goto name##_try                                                                                                   \
  :: !MATCHES(watch[n], of, write)                                                                                     \
  fi;

#define TRY(name, ticket)                                                                                              \
  if                                                                                                                   \
  :: TOGETHER {                                                                                                        \
       d_step { watch[index] == old; watch[index] = CONSUMED; old = 0 }                                                \
       HEAR_SETTER                                                                                                     \
       TELL(ticket)                                                                                                    \
     }                                                                                                                 \
  :: d_step { watch[index] != old; old = 0; index = 0 }                                                                \
  fi;                                                                                                                  \
  goto name##_operate;

#define HEAR_SETTER setter[index] != 0;
#define TELL(ticket) d_step { finder[index] = ticket; index = 0 }

#define INSERT(name, n, ticket, of, write)                                                                             \
  if                                                                                                                   \
  :: TOGETHER {                                                                                                        \
       d_step { watch[n] == FREE; watch[n] = WORD(of, write); index = n }                                              \
       NAME(ticket)                                                                                                    \
     }                                                                                                                 \
     goto name##_old                                                                                                   \
  :: watch[n] != FREE                                                                                                  \
  fi;

#define NAME(ticket) setter[index] = ticket;
#define OLD(of) old = cell[of];
#define NEW(of) new = cell[of];

/* Whether the value has changed: without a finder the report falls if so, and with one it says so. */
#define JUDGE                                                                                                          \
  if                                                                                                                   \
  :: old != new -> skip                                                                                                \
  :: else                                                                                                              \
  fi;                                                                                                                  \
  old = 0; new = 0

#define CONSUME                                                                                                        \
  if                                                                                                                   \
  :: TOGETHER {                                                                                                        \
       d_step { watch[index] != CONSUMED; watch[index] = CONSUMED; JUDGE }                                             \
       CLEAR                                                                                                           \
     }                                                                                                                 \
  :: TOGETHER {                                                                                                        \
       watch[index] == CONSUMED;                                                                                       \
       HEAR_FINDER                                                                                                     \
       CLEAR                                                                                                           \
     }                                                                                                                 \
  fi;

#define HEAR_FINDER d_step { finder[index] != 0; JUDGE }
#define CLEAR d_step { setter[index] = 0; finder[index] = 0 }
#define REMOVE d_step { watch[index] = FREE; index = 0 }

/* An access up to its memory operation. Its name is one of its own in its task, and its ticket one in the program, from
   1 on. */
#define CHECKED(name, ticket, of, write)                                                                               \
  TOGETHER {                                                                                                           \
    BEGIN                                                                                                              \
    LOOK(name, 0, of, write)                                                                                           \
  }                                                                                                                    \
  LOOK(name, 1, of, write)                                                                                             \
  LOOK(name, 2, of, write)                                                                                             \
  INSERT(name, 1, ticket, of, write)                                                                                   \
  INSERT(name, 2, ticket, of, write)                                                                                   \
  INSERT(name, 0, ticket, of, write)                                                                                   \
  goto name##_operate;                                                                                                 \
name##_try:                                                                                                            \
  TRY(name, ticket)                                                                                                    \
name##_old:                                                                                                            \
  OLD(of)                                                                                                              \
  NEW(of)                                                                                                              \
  CONSUME                                                                                                              \
  REMOVE                                                                                                               \
name##_operate:

#define READ(of) old = cell[of];

/* Where the cell has changed since it was read, the exchange is made again. Here it never is: no variable has two
   writers. The program counts how often it is, which decides whether the task is stuck. */
#define EXCHANGE(name, of, value)                                                                                      \
name##_exchange:                                                                                                       \
  if                                                                                                                   \
  :: TOGETHER {                                                                                                        \
       d_step { cell[of] == old; cell[of] = value; old = 0 }                                                           \
       END(skip)                                                                                                       \
     }                                                                                                                 \
  :: d_step { cell[of] != old; old = cell[of] }                                                                        \
     goto name##_exchange                                                                                              \
  fi;

#define END(then) d_step { then; old = 0 }

#define PLAIN_READ(name, ticket, of, register)                                                                         \
  CHECKED(name, ticket, of, 0)                                                                                         \
  TOGETHER {                                                                                                           \
    READ(of)                                                                                                           \
    END(register = old)                                                                                                \
  }

#define PLAIN_WRITE(name, ticket, of, value)                                                                           \
  CHECKED(name, ticket, of, 1)                                                                                         \
  READ(of)                                                                                                             \
  EXCHANGE(name, of, value)

/* The end of a task that has these registers. No sum of them is below 0, so the task makes no step here, and SPIN none
   that ends a process; but SPIN keeps the registers, since they are asked for. */
#define OVER(registers) (registers) < 0
