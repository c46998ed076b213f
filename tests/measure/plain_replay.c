// `kcsan_litmus replay` in plain C: `plain_replay TRACE` checks a trace of either version (docs/TRACE.md) line by line,
// by the same rules, and at the end that armings, takings and reports agree. It prints the same line, or the first
// fault.
#include <stdbool.h>
#include <stdint.h>
#include <stdio.h>
#include <stdlib.h>
#include <string.h>
typedef uint64_t u64;
typedef uint32_t u32;
typedef uint8_t u8;

enum { LIMIT = 33554432 };

enum { WBIT = 1, COMPOUND = 2, ASSERT = 4, DECLARED = 8, COUNTED = 16, SILENCED = 32 };

struct access {
  u64 addr, mask, begin, end, size;
  u32 key, armings;
  u8 is;
};

static const char *p, *end;
static u32 line;
static struct access *accesses;
static u32 *index_of, count; // by key, 1 + the place
static u64 *stamps, stamp_room;

static _Noreturn void no(const char *what) {
  fprintf(stderr, "kcsan_litmus: line %u: %s\n", line, what);
  exit(65);
}

static _Noreturn void bad(void) {
  no("bad trace");
}

static _Noreturn void lie(void) {
  no("false report");
}

static inline void text(const char *s, size_t n) {
  if ((size_t)(end - p) < n || memcmp(p, s, n))
    bad();
  p += n;
}

#define TEXT(s) text(s, sizeof s - 1)

static inline bool starts(const char *s, size_t n) {
  return (size_t)(end - p) >= n && !memcmp(p, s, n);
}

#define STARTS(s) starts(s, sizeof s - 1)

static inline u64 decimal(void) {
  const char *b = p;
  u64 v = 0;
  for (; p < end && (u8)(*p - '0') < 10; p++)
    if (p - b < 19)
      v = v * 10 + (*p - '0');
    else if (__builtin_mul_overflow(v, 10, &v) || __builtin_add_overflow(v, (u64)(*p - '0'), &v))
      bad();
  if (p == b || (*b == '0' && p - b > 1))
    bad();
  return v;
}

static inline u64 hexadecimal(void) {
  u64 v = 0;
  if (end - p < 18 || p[0] != '0' || p[1] != 'x')
    bad();
  for (int i = 2; i < 18; i++) {
    u8 c = p[i], d = c - '0';
    if (d > 9) {
      d = c - 'a';
      if (d > 5)
        bad();
      d += 10;
    }
    v = v << 4 | d;
  }
  p += 18;
  return v;
}

static inline void blank(void) {
  if (p == end || *p != ' ')
    bad();
  p++;
}

static inline void over(void) {
  if (p == end || *p != '\n')
    bad();
  p++;
  line++;
}

static inline u32 key(void) {
  u64 task = decimal(), site, rep = 0;
  if (task > 15)
    bad();
  blank();
  if ((site = decimal()) > 255)
    bad();
  if (p < end && *p == '.') {
    p++;
    rep = decimal();
    if (!rep || rep > 255)
      bad();
  }
  return task << 16 | site << 8 | rep;
}

static inline struct access *known(u32 k) {
  if (!index_of[k])
    bad();
  return &accesses[index_of[k] - 1];
}

static inline void stamp(u64 v) {
  // v + 1 stands in the table; 2^64 - 1 has no such word and is below nothing, so it ends at most one access.
  static bool last;
  if (v == UINT64_MAX) {
    if (last)
      bad();
    last = true;
    return;
  }
  u64 h = (v * 0x9E3779B97F4A7C15ull) & (stamp_room - 1);
  while (stamps[h]) {
    if (stamps[h] == v + 1)
      bad();
    h = (h + 1) & (stamp_room - 1);
  }
  stamps[h] = v + 1;
}

static bool shares(const struct access *a, const struct access *b) {
  return a->addr < b->addr + b->size && b->addr < a->addr + a->size;
}

static bool meet(const struct access *a, const struct access *b) {
  return a->begin < b->end && b->begin < a->end;
}

static void access_line(void) {
  if (count && !(count & (count - 1)))
    accesses = realloc(accesses, 2 * count * sizeof *accesses);
  struct access *a = &accesses[count];
  a->key = key();
  a->armings = 0;
  blank();
  a->is = STARTS("r") ? 0 : STARTS("w") ? WBIT : STARTS("u") ? WBIT | COMPOUND : 255;
  if (a->is == 255)
    bad();
  p++;
  if (STARTS("a"))
    p++, a->is |= ASSERT;
  if (STARTS("m"))
    p++, a->is |= DECLARED;
  if (STARTS("c"))
    p++, a->is |= COUNTED;
  if (STARTS("s"))
    p++, a->is |= SILENCED;
  blank();
  a->addr = hexadecimal();
  blank();
  u64 size = decimal();
  blank();
  a->mask = hexadecimal();
  blank();
  a->begin = decimal();
  blank();
  a->end = decimal();
  if (p == end || *p != '\n')
    bad();
  if (!size || size > 1ull << 63 || a->addr > (1ull << 63) - size)
    bad();
  a->size = size;
  if (((a->is & COMPOUND) && (a->is & ASSERT)) || ((a->is & ASSERT) && (a->is & (DECLARED | COUNTED))) ||
      ((a->is & DECLARED) && !(a->is & COUNTED)))
    bad();
  if (a->begin >= a->end)
    bad();
  stamp(a->begin);
  stamp(a->end);
  if (index_of[a->key])
    bad();
  index_of[a->key] = ++count;
  over();
}

struct bag {
  u64 *list;
  u32 count, room;
};

static inline void put(struct bag *b, u64 v) {
  if (b->count == b->room)
    b->list = realloc(b->list, (b->room = 2 * b->room + 1024) * 8);
  b->list[b->count++] = v;
}

static int by_value(const void *a, const void *b) {
  u64 x = *(const u64 *)a, y = *(const u64 *)b;
  return (x > y) - (x < y);
}

static bool same(struct bag *a, struct bag *b) {
  if (a->count != b->count)
    return false;
  if (!a->count)
    return true;
  qsort(a->list, a->count, 8, by_value);
  qsort(b->list, b->count, 8, by_value);
  return !memcmp(a->list, b->list, 8 * a->count);
}

int main(int argc, char **argv) {
  if (argc != 2 && argc != 3)
    return 64;
  FILE *f = fopen(argv[argc - 1], "rb");
  if (!f)
    return 66;
  char *bytes = malloc(LIMIT + 1);
  size_t length = fread(bytes, 1, LIMIT + 1, f);
  line = 0;
  if (length > LIMIT)
    bad();
  p = bytes;
  end = bytes + length;
  line = 1;
  accesses = malloc(sizeof *accesses);
  index_of = calloc(1 << 20, sizeof *index_of);
  for (stamp_room = 1024; stamp_room < length / 20; stamp_room *= 2) {}
  stamps = calloc(stamp_room, 8);
  TEXT("KCSAN-TRACE ");
  bool two = STARTS("2");
  if (!two && !STARTS("1"))
    bad();
  p++;
  over();
  u64 slots = 64, width = 64;
  if (two) {
    TEXT("shape ");
    slots = decimal();
    if (slots < 3 || slots > 1024)
      bad();
    blank();
    width = decimal();
    if (width != 64 && width != 32)
      bad();
    over();
  }
  int low = width == 64 ? 49 : 17;
  while (STARTS("access ")) {
    p += 7;
    access_line();
  }
  struct bag arms = {0}, takes = {0}, hits = {0}, races = {0}, unknown = {0}, origins = {0};
  u32 narms = 0, nreports = 0;
  while (two && STARTS("arm ")) {
    p += 4;
    struct access *a = known(key()), *b = NULL;
    blank();
    u64 number = decimal();
    blank();
    u64 at = decimal();
    blank();
    u64 word = hexadecimal();
    blank();
    if (p < end && (u8)(*p - '0') < 10) {
      b = known(key());
      blank();
    }

    enum { QUIET, ORIGIN, REPORT, ENCODING, SAME, MASKED } r;

    if (!b && STARTS("quiet"))
      r = QUIET, p += 5;
    else if (!b && STARTS("origin"))
      r = ORIGIN, p += 6;
    else if (b && STARTS("report"))
      r = REPORT, p += 6;
    else if (b && STARTS("encoding"))
      r = ENCODING, p += 8;
    else if (b && STARTS("same"))
      r = SAME, p += 4;
    else if (b && STARTS("masked"))
      r = MASKED, p += 6;
    else
      bad();
    if (p == end || *p != '\n' || at > slots + 1 || number != a->armings)
      bad();
    a->armings++;
    u64 slot = a->addr / 4096 % slots, masked = a->addr & ((1ull << low) - 1);
    if (a->is & (COUNTED | SILENCED) || a->addr < 4096 || a->size > 8192)
      lie();
    if (word != ((u64)(a->is & WBIT) << (low + 14) | a->size << low | masked))
      lie();
    if (at < slot || at > slot + 2 || (number && !(a->is & ASSERT)))
      lie();
    if (b) {
      u64 other = b->addr / 4096 % slots, theirs = b->addr & ((1ull << low) - 1);
      if (a->key >> 16 == b->key >> 16 || b->is & SILENCED || b->mask || at < other || at > other + 2)
        lie();
      if (!((a->is | b->is) & WBIT) || masked > theirs + b->size - 1 || theirs > masked + a->size - 1 || !meet(a, b))
        lie();
      if ((r == ENCODING) == shares(a, b))
        lie();
      if (r == SAME && (a->mask || a->is & ASSERT || a->size > 8))
        lie();
      if (r == MASKED && !a->mask)
        lie();
      put(&arms, (u64)a->key << 40 | (u64)b->key << 16 | at);
      if (r == REPORT)
        put(&hits, (u64)a->key << 32 | b->key);
    } else if (r == ORIGIN)
      put(&unknown, a->key);
    over();
    narms++;
  }
  while (two && STARTS("take ")) {
    p += 5;
    u32 finder = key();
    known(finder);
    blank();
    u64 at = decimal();
    blank();
    u32 setter = key();
    known(setter);
    if (p == end || *p != '\n' || at > slots + 1)
      bad();
    put(&takes, (u64)setter << 40 | (u64)finder << 16 | at);
    over();
  }
  for (;; nreports++) {
    if (STARTS("race ")) {
      p += 5;
      struct access *a = known(key());
      blank();
      struct access *b = known(key());
      if (p == end || *p != '\n')
        bad();
      if (a->key >> 16 == b->key >> 16 || !shares(a, b) || !((a->is | b->is) & WBIT) || (a->is & b->is & COUNTED) ||
          (a->is | b->is) & SILENCED || !meet(a, b))
        lie();
      put(&races, (u64)a->key << 32 | b->key);
    } else if (STARTS("origin ")) {
      p += 7;
      struct access *a = known(key());
      blank();
      u64 old = hexadecimal();
      blank();
      u64 new = hexadecimal(), d = old ^ new;
      if (p == end || *p != '\n')
        bad();
      if (a->is & (COUNTED | SILENCED) || (a->size != 1 && a->size != 2 && a->size != 4 && a->size != 8))
        lie();
      if (a->size < 8 && (old | new) >> 8 * a->size)
        lie();
      if (!(a->mask ? d & a->mask : d))
        lie();
      put(&origins, a->key);
    } else
      break;
    over();
  }
  TEXT("end");
  if (p == end || *p != '\n')
    bad();
  if (two && (!same(&arms, &takes) || !same(&hits, &races) || !same(&unknown, &origins)))
    lie();
  if (p + 1 != end) {
    line++;
    bad();
  }
  if (two)
    printf("trace accepted: %u accesses, %u arms, %u takes, %u reports\n", count, narms, takes.count, nreports);
  else
    printf("trace accepted: %u accesses, %u reports\n", count, nreports);
  return 0;
}
