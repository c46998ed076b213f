/* Message passing by plain accesses, with --strict: exists (1:r0=1 /\ 1:r1=0). */
#define CELLS 2
#include "kcsan.pml"
#define x 0
#define y 1

active proctype P0() {
  KEPT;
  PLAIN_WRITE(a, 1, x, 1)
  PLAIN_WRITE(b, 2, y, 1)
  OVER(0)
}

active proctype P1() {
  KEPT, r0, r1;
  PLAIN_READ(a, 3, y, r0)
  PLAIN_READ(b, 4, x, r1)
  OVER(r0 + r1)
}
