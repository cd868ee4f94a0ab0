/* The floor: a search by tables that are made in full before, with two loops written by hand, one back over the
   record for the start and one ahead for the end, as our searcher reads it.

   floor find|list|records bytes|events columns|bytes ROUNDS PATTERN RECORD

   columns: a row of states for each class of symbols, one byte a state where there are at most 256 states.
   bytes: 256 entries for each state, without classes. */
#include "rounds.h"

enum { WIDTH = 20, MOST = 4096 };

typedef struct { uint8_t kind, zero; uint16_t value; uint32_t moment; } Event;
typedef struct { uint32_t low, high; } Test;
typedef struct { int nullable; uint64_t first, last; } Part;

/* ---- the pattern: positions 1 to 63, and which follows which */
static const uint8_t *at;
static int of_events, atoms;
static Test tests[64];
static uint64_t follow[64], precede[64];

static Part choice(void);

static uint32_t number(void) {
  uint32_t n = 0;
  while (*at >= '0' && *at <= '9') n = n * 10 + (*at++ - '0');
  return n;
}

static Test test(void) {
  if (!of_events) { Test t = {*at, *at}; at++; return t; }
  uint32_t kind = number() * 65536, low = 0, high = 65535;
  if (*at == ':') { at++; low = high = number(); }
  if (*at == '-') { at++; high = number(); }
  Test t = {kind + low, kind + high};
  return t;
}

static void link_to(uint64_t last, uint64_t first) {
  for (int p = 1; p < 64; p++) if (last >> p & 1) follow[p] |= first;
}

static void spaces(void) { while (of_events && *at == ' ') at++; }

static Part item(void) {
  Part p;
  if (*at == '(') { at++; p = choice(); at++; }
  else { tests[++atoms] = test(); p.nullable = 0; p.first = p.last = 1ull << atoms; }
  for (spaces(); *at == '*' || *at == '+'; spaces()) {
    link_to(p.last, p.first);
    if (*at++ == '*') p.nullable = 1;
  }
  return p;
}

static Part chain(void) {
  spaces();
  Part l = item();
  while (*at && *at != '|' && *at != ')') {
    Part r = item();
    link_to(l.last, r.first);
    if (l.nullable) l.first |= r.first;
    l.last = r.nullable ? l.last | r.last : r.last;
    l.nullable &= r.nullable;
  }
  return l;
}

static Part choice(void) {
  Part l = chain();
  while (*at == '|') {
    at++;
    Part r = chain();
    l.nullable |= r.nullable; l.first |= r.first; l.last |= r.last;
  }
  return l;
}

/* ---- classes of symbols: the cuts of the tests */
static uint32_t cuts[130];
static int cut_count;
static uint8_t class_of_byte[256], lowest[256], highest[256];
static uint64_t passing[131];

static void cut(uint32_t code) {
  int i = cut_count;
  for (int k = 0; k < cut_count; k++) if (cuts[k] == code) return;
  for (; i > 0 && cuts[i - 1] > code; i--) cuts[i] = cuts[i - 1];
  cuts[i] = code;
  cut_count++;
}

static int rank(uint32_t code) {
  int n = 0;
  for (int i = 0; i < cut_count; i++) n += cuts[i] <= code;
  return n;
}

static void classify(void) {
  for (int p = 1; p <= atoms; p++) { if (tests[p].low) cut(tests[p].low); cut(tests[p].high + 1); }
  for (int c = 0; c <= cut_count; c++) {
    uint32_t code = c ? cuts[c - 1] : 0;
    for (int p = 1; p <= atoms; p++)
      if (tests[p].low <= code && code <= tests[p].high) passing[c] |= 1ull << p;
  }
  for (int b = 0; b < 256; b++) {
    class_of_byte[b] = (uint8_t)rank((uint32_t)b);
    lowest[b] = (uint8_t)rank((uint32_t)b * 65536);
    highest[b] = (uint8_t)rank((uint32_t)b * 65536 + 65535);
  }
}

static inline unsigned class_of_event(Event e) {
  uint32_t code = e.kind * 65536u + e.value;
  unsigned low = lowest[e.kind], high = highest[e.kind];
  while (low < high) {
    unsigned middle = (low + high) / 2;
    if (cuts[middle] <= code) low = middle + 1; else high = middle;
  }
  return low;
}

/* ---- the two tables */
typedef struct {
  int count;
  uint64_t sets[MOST];
  uint8_t flag[MOST];    /* a word begins, or ends */
  uint16_t *columns;     /* class * count + state */
  uint8_t *narrow;       /* the same in bytes, if the states are at most 256 */
  uint16_t *bytes;       /* state * 256 + byte */
} Table;

static Table back, ahead;

static uint64_t step_set(int is_back, Part all, uint64_t set, int class) {
  uint64_t to = 0;
  for (int p = 0; p < 64; p++) if (set >> p & 1) to |= is_back ? (p ? precede[p] : all.last) : (p ? follow[p] : all.first);
  to &= passing[class];
  return is_back ? to | 1 : to;
}

static int seat(Table *t, uint64_t set, uint64_t flags) {
  for (int s = 0; s < t->count; s++) if (t->sets[s] == set) return s;
  if (t->count == MOST) { fprintf(stderr, "floor: too many states\n"); exit(1); }
  t->sets[t->count] = set;
  t->flag[t->count] = (set & flags) != 0;
  return t->count++;
}

static void fill(Table *t, int is_back, Part all) {
  uint64_t flags = is_back ? all.first : all.last;
  int classes = cut_count + 1;
  uint16_t *rows = malloc(sizeof(uint16_t) * MOST * (size_t)classes);
  seat(t, 1, flags);
  for (int s = 0; s < t->count; s++)
    for (int c = 0; c < classes; c++)
      rows[s * classes + c] = (uint16_t)seat(t, step_set(is_back, all, t->sets[s], c), flags);
  t->columns = malloc(sizeof(uint16_t) * (size_t)(t->count * classes));
  t->narrow = malloc((size_t)(t->count * classes));
  t->bytes = malloc(sizeof(uint16_t) * (size_t)t->count * 256);
  for (int s = 0; s < t->count; s++) {
    for (int c = 0; c < classes; c++) {
      t->columns[c * t->count + s] = rows[s * classes + c];
      t->narrow[c * t->count + s] = (uint8_t)rows[s * classes + c];
    }
    for (int b = 0; b < 256; b++) t->bytes[s * 256 + b] = rows[s * classes + class_of_byte[b]];
  }
  free(rows);
}

/* ---- the loops. SYMBOL is a symbol's type and STEP(t, s, x) the state behind s and x. */
#define NONE ((size_t)-1)
#define LOOPS(NAME, SYMBOL, STEP)                                                                  \
  static __attribute__((noinline)) size_t back_##NAME(const SYMBOL *row, size_t len, size_t from) { \
    const Table *t = &back;                                                                        \
    size_t s = 0, start = NONE, i = len;                                                           \
    while (i > from) {                                                                             \
      i--;                                                                                         \
      s = STEP(t, s, row[i]);                                                                      \
      start = t->flag[s] ? i : start;                                                              \
    }                                                                                              \
    return start;                                                                                  \
  }                                                                                                \
  static __attribute__((noinline)) size_t ahead_##NAME(const SYMBOL *row, size_t len, size_t from) { \
    const Table *t = &ahead;                                                                       \
    size_t s = 0, end = from, i = from;                                                            \
    while (i < len) {                                                                              \
      s = STEP(t, s, row[i]);                                                                      \
      i++;                                                                                         \
      end = t->flag[s] ? i : end;                                                                  \
      if (t->sets[s] == 0) break;                                                                  \
    }                                                                                              \
    return end;                                                                                    \
  }                                                                                                \
  static size_t find_##NAME(const SYMBOL *row, size_t len, size_t from, Outcome *o) {              \
    size_t start = back_##NAME(row, len, from);                                                    \
    if (start == NONE) return NONE;                                                                \
    size_t end = ahead_##NAME(row, len, start);                                                    \
    add_span(o, start, end);                                                                       \
    return end;                                                                                    \
  }                                                                                                \
  static void round_##NAME(const char *work, const SYMBOL *row, size_t len, Outcome *o) {          \
    if (!strcmp(work, "find")) find_##NAME(row, len, 0, o);                                        \
    else if (!strcmp(work, "list")) {                                                              \
      for (size_t i = 0; i != NONE;) i = find_##NAME(row, len, i, o);                              \
    } else                                                                                         \
      for (size_t i = 0; i + WIDTH <= len; i += WIDTH) find_##NAME(row + i, WIDTH, 0, o);          \
  }

/* The row's address is fixed before the state is added, so that only one load lies between two states. */
#define FIXED(TYPE, row, s) ({ const TYPE *fixed = (row); __asm__("" : "+r"(fixed)); (size_t)fixed[s]; })
#define COLUMN(t, s, x) FIXED(uint16_t, (t)->columns + class_of_byte[x] * (size_t)(t)->count, s)
#define NARROW(t, s, x) FIXED(uint8_t, (t)->narrow + class_of_byte[x] * (size_t)(t)->count, s)
#define BYTE(t, s, x) (t)->bytes[(s) * 256 + (x)]
#define EVENT(t, s, x) FIXED(uint8_t, (t)->narrow + class_of_event(x) * (size_t)(t)->count, s)
LOOPS(columns, uint8_t, COLUMN)
LOOPS(narrow, uint8_t, NARROW)
LOOPS(bytes, uint8_t, BYTE)
LOOPS(events, Event, EVENT)

int main(int argc, char **argv) {
  if (argc != 7) { fprintf(stderr, "floor: six words\n"); return 1; }
  of_events = !strcmp(argv[2], "events");
  int by_bytes = !strcmp(argv[3], "bytes");
  Text pattern = read_text(argv[5]), record = read_text(argv[6]);
  at = pattern.bytes;
  Part all = choice();
  for (int p = 1; p < 64; p++) for (int q = 1; q < 64; q++) if (follow[p] >> q & 1) precede[q] |= 1ull << p;
  classify();
  fill(&back, 1, all);
  fill(&ahead, 0, all);
  double best = 1e300;
  Outcome o;
  for (int r = atoi(argv[4]); r > 0; r--) {
    memset(&o, 0, sizeof o);
    double start = now_ns();
    if (of_events) round_events(argv[1], (const Event *)record.bytes, record.len / sizeof(Event), &o);
    else if (by_bytes) round_bytes(argv[1], record.bytes, record.len, &o);
    else if (back.count <= 256 && ahead.count <= 256) round_narrow(argv[1], record.bytes, record.len, &o);
    else round_columns(argv[1], record.bytes, record.len, &o);
    double ns = now_ns() - start;
    if (ns < best) best = ns;
  }
  tell(o, best);
  return 0;
}
