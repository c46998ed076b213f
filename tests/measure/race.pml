/* A race: examples/race.litmus, with --strict. A write and a read of one variable, both plain. */
#define CELLS 1
#include "kcsan.pml"
#define x 0

active proctype P0() {
  KEPT, r0;
  PLAIN_READ(a, 1, x, r0)
  OVER(r0)
}

active proctype P1() {
  KEPT;
  PLAIN_WRITE(a, 2, x, 1)
  OVER(0)
}
