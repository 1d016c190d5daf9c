/* A caller of the C interface: steps over a state that it keeps, and whole papers, their tails and session sheets into memory that it lends; in
   both courses. */
#include "dabzhoni.h"

#include <inttypes.h>
#include <stdio.h>
#include <string.h>

static int passed, failed;

typedef struct dabzhoni_marked mark_entry(const uint8_t *, size_t, uint32_t *, size_t, int64_t *, size_t, uint8_t *, size_t, uint64_t *,
                                          size_t, uint64_t *, size_t);
typedef struct dabzhoni_marked unordered_entry(const uint8_t *, size_t, uint32_t *, size_t, int64_t *, size_t, uint8_t *, size_t);
typedef struct dabzhoni_tail finish_entry(const uint8_t *, size_t, uint32_t *, size_t, int64_t *, size_t);
typedef struct dabzhoni_session sheet_entry(const uint8_t *, size_t, uint8_t *, size_t);
typedef struct dabzhoni_reply step_entry(struct dabzhoni_state *, uint8_t, size_t, size_t, int64_t);

/* A course: its entries, its limits, and the refusal of more events. */
struct course {
  const char *name;
  mark_entry *mark;
  unordered_entry *mark_unordered;
  finish_entry *finish;
  sheet_entry *sheet;
  step_entry *step;
  size_t threads, variables, locks;
  uint32_t events;
  size_t over;
};

static const struct course FULL = {
    "full course", dabzhoni_mark, dabzhoni_mark_unordered, dabzhoni_finish, dabzhoni_sheet, dabzhoni_step, 8, 16, 8, 2000, 9};
static const struct course SHORT = {"short course",
                                    dabzhoni_mark_short,
                                    dabzhoni_mark_short_unordered,
                                    dabzhoni_finish_short,
                                    dabzhoni_sheet_short,
                                    dabzhoni_step_short,
                                    2,
                                    4,
                                    2,
                                    200,
                                    25};
static const struct course *course;

static void expect(const char *what, bool ok) {
  ok ? passed++ : failed++;
  if (!ok) printf("%s, %s: FAILED\n", course->name, what);
}

/* ---- steps: the short traces of document 01, traces of 02 (a), (d), (f), (g) and (i), refusals 4, 5, 8, 9 and 25, states that no events reach */

static struct dabzhoni_state state;

/* One event from its text. A refusal must leave the state as it was. */
static struct dabzhoni_reply event(const char *text) {
  static struct dabzhoni_state before;
  char letter;
  size_t thread, place;
  int64_t value = 0;
  sscanf(text, "%c %zu %zu %" SCNd64, &letter, &thread, &place, &value);
  memcpy(&before, &state, sizeof state);
  struct dabzhoni_reply r = course->step(&state, (uint8_t)letter, thread, place, value);
  bool same = memcmp(&before, &state, sizeof state) == 0;
  expect(text, r.number == 0 ? state.events == before.events + 1 : same);
  return r;
}

/* The state before the first event, in memory that had another; these variables are volatile, a digit each ('?' is 15). */
static void begin(size_t threads, size_t variables, size_t locks, const char *volatiles) {
  memset(&state, 1, sizeof state);
  dabzhoni_initial(&state, threads, variables, locks);
  for (size_t v = 0; v < 16; v++) expect("no variable is volatile at first", !state.counts.volatiles[v]);
  for (size_t t = 0; t < 8; t++) expect("no thread waits at first", !state.waits[t].lock && !state.waits[t].depth && !state.waits[t].notified);
  for (; *volatiles; volatiles++) state.counts.volatiles[*volatiles - '0'] = true;
}

/* The events of a trace, apart by semicolons, with these volatile variables; the last is answered number, in its own line. */
static void volatile_trace(const char *volatiles, const char *text, size_t number) {
  char all[400], *each;
  size_t n = 0;
  struct dabzhoni_reply r = {0, 0};
  begin(2, 2, 2, volatiles);
  strcpy(all, text);
  for (each = strtok(all, ";"); each; each = strtok(NULL, ";")) {
    if (n) expect(text, r.number == 0 && r.line == 0);
    r = event(each);
    n++;
  }
  expect(text, r.number == number && r.line == (number ? n + (*volatiles ? 3 : 2) : 0));
}

static void trace(const char *text, size_t number) { volatile_trace("", text, number); }

static void reply(const char *what, const char *text, size_t number, size_t line) {
  struct dabzhoni_reply r = event(text);
  if (r.number != number || r.line != line) printf("%s: %zu %zu\n", what, r.number, r.line);
  expect(what, r.number == number && r.line == line);
}

/* A value in an event of each kind that has one, each accepted; copies, the announced value and main memory have it after them. */
static void at_each_kind(int64_t x) {
  static const char *const FORMS[] = {"A 0 0", "U 0 0", "S 0 0", "W 0 0", "R 1 0", "L 1 0", "U 1 0", "P 0 0", "W 0 0", "B 0 0"};
  char text[64];
  dabzhoni_initial(&state, 2, 2, 2);
  for (size_t i = 0; i < sizeof FORMS / sizeof *FORMS; i++) {
    snprintf(text, sizeof text, "%s %" PRId64, FORMS[i], x);
    reply(text, text, 0, 0);
  }
  expect(text, state.cells[0].copy == x && state.cells[16].copy == x && state.cells[0].announced == x && state.memory[0] == x);
}

/* Values past the ends of 32 bits and at those of 64, and two that have the same low 32 bits wherever values are compared. */
static void wide_values(void) {
  at_each_kind(2147483648);
  at_each_kind(-2147483649);
  at_each_kind(INT64_MIN);
  at_each_kind(INT64_MAX);
  trace("A 1 1 -2147483648;S 1 1 -2147483648;W 1 1 -2147483648;R 0 1 -2147483648;L 0 1 -2147483648;U 0 1 2147483647", 18);
  trace("A 1 1 2147483648;S 1 1 2147483648;W 1 1 2147483648;R 0 1 2147483648;L 0 1 2147483648;U 0 1 -2147483648", 18);
  trace("A 1 1 -9223372036854775808;S 1 1 -9223372036854775808", 0);
  expect("least copy", state.cells[16 + 1].copy == INT64_MIN);
  expect("least value of a store", state.stores[8 * (16 + 1)].value == INT64_MIN);
  reply("write of the least value", "W 1 1 -9223372036854775808", 0, 0);
  expect("least value in main memory", state.memory[1] == INT64_MIN);
  trace("P 0 0 9223372036854775807;W 0 0 9223372036854775807;R 1 0 9223372036854775807", 0);
  expect("greatest announced value", state.cells[0].announced == INT64_MAX);
  expect("greatest value of a read", state.reads[8 * 16].value == INT64_MAX);
  trace("A 0 0 5;U 0 0 4294967301", 18);
  trace("A 0 0 -1;S 0 0 9223372036854775807", 18);
  trace("A 0 0 4294967295;S 0 0 4294967295;W 0 0 -1", 18);
  trace("P 0 0 1;W 0 0 -9223372036854775807", 18);
  trace("R 0 0 -9223372036854775808", 18);
  trace("R 0 0 0;L 0 0 4294967296", 18);
  trace("P 0 0 2147483648;B 0 0 -2147483648", 18);
}

/* Positions with the low 32 bits of one in range: 8. */
static void wide_positions(void) {
  size_t *const positions[] = {&state.cells[0].source, &state.cells[0].written, &state.cells[0].assigned, &state.cells[17].loaded,
                               &state.cells[17].used, &state.reads[8 * 16].position, &state.stores[8].position, &state.locked[1]};
  trace("A 0 0 5;S 0 0 5;W 0 0 5;R 1 0 5;R 1 1 0;L 1 1 0;U 1 1 0;A 0 1 1;S 0 1 1;K 1 0", 0);
  for (size_t i = 0; i < sizeof positions / sizeof *positions; i++) {
    size_t position = *positions[i];
    expect("position", position > 0 && position <= state.events);
    *positions[i] = position + ((size_t)1 << 32);
    reply("position above 32 bits", "A 0 0 5", 8, 0);
    *positions[i] = (size_t)1 << 63;
    reply("position of 2^63", "A 0 0 5", 8, 0);
    *positions[i] = position;
  }
  reply("positions in range", "A 0 0 5", 0, 0);
}

/* 26, 27 and 28, the lines of a state with a volatile variable, and what is kept for them. */
static void volatiles(void) {
  volatile_trace("01", "R 0 0 0;L 0 0 0;U 0 0 0", 0);
  volatile_trace("01", "A 0 0 5;S 0 0 5;W 0 0 5", 0);
  volatile_trace("01", "U 0 0 0", 26);
  volatile_trace("1", "U 0 0 0", 17);
  volatile_trace("01", "R 0 0 0;L 0 0 0;U 0 0 0;U 0 0 0", 26);
  volatile_trace("01", "R 0 0 0;R 0 0 0;L 0 0 0;L 0 0 0", 26);
  volatile_trace("01", "R 0 0 0;L 0 0 0;A 0 0 5", 26);
  volatile_trace("01", "R 0 0 0;L 0 0 0;R 0 0 0;U 0 0 0", 0);
  volatile_trace("01", "A 0 0 5;A 0 0 6", 26);
  volatile_trace("01", "A 0 0 5;L 0 0 0", 26);
  volatile_trace("01", "A 0 0 5;P 0 0 5", 26);
  volatile_trace("01", "A 0 0 5;B 0 0 5", 26);
  volatile_trace("01", "A 0 0 5;S 0 0 5;S 0 0 5", 26);
  volatile_trace("01", "A 0 0 1;S 0 0 1;A 0 0 2;W 0 0 1;S 0 0 2", 0);
  volatile_trace("01", "P 0 0 5", 28);
  volatile_trace("01", "B 0 0 5", 28);
  volatile_trace("1", "P 0 0 5;W 0 0 5;B 0 0 5", 0);
  volatile_trace("01", "R 0 0 0;L 0 0 0;A 0 1 5;U 0 0 0", 27);
  volatile_trace("0", "R 0 0 0;L 0 0 0;A 0 1 5;U 0 0 0", 0);
  volatile_trace("01", "R 0 0 0;L 0 0 0;A 0 1 5;S 0 1 5;U 0 0 0", 27);
  volatile_trace("01", "R 0 0 0;A 0 1 5;S 0 1 5;W 0 1 5;L 0 0 0;U 0 0 0", 27);
  volatile_trace("01", "A 0 1 5;S 0 1 5;W 0 1 5;R 0 0 0;L 0 0 0;U 0 0 0", 0);
  volatile_trace("01", "R 0 0 0;R 0 1 0;L 0 1 0;U 0 1 0;L 0 0 0;U 0 0 0", 27);
  volatile_trace("01", "R 0 0 0;R 0 1 0;L 0 1 0;L 0 0 0;U 0 0 0;U 0 1 0", 0);
  volatile_trace("01", "A 0 0 1;S 0 0 1;A 0 1 2;S 0 1 2;W 0 1 2", 27);
  volatile_trace("01", "A 0 0 1;A 0 1 2;S 0 1 2;W 0 1 2", 27);
  volatile_trace("01", "A 0 0 1;A 0 1 2;S 0 1 2;S 0 0 1;W 0 0 1;W 0 1 2", 0);
  volatile_trace("01", "A 0 1 2;W 0 0 0", 10);
  volatile_trace("01", "A 0 0 5;R 0 0 0", 23);

  /* what is kept, of a variable that is volatile and of one that is not */
  for (int i = 0; i < 2; i++) {
    volatile_trace(i ? "0" : "", "R 0 0 0;R 0 0 0;L 0 0 0", 0);
    const struct dabzhoni_cell *c = &state.cells[0];
    expect("after a load", c->loaded == 1 && c->used == 0 && c->assigned == 0 && c->after_load && !c->after_assign);
    reply("use", "U 0 0 0", 0, 0);
    expect("after a use", c->loaded == 1 && c->used == 1 && !c->after_load && !c->after_assign);
    reply("the second load", "L 0 0 0", 0, 0);
    reply("the second use", "U 0 0 0", 0, 0);
    expect("after the second use", c->loaded == 2 && c->used == 2);
    reply("assign", "A 0 0 5", 0, 0);
    expect("after an assign", c->assigned == 7 && !c->after_load && c->after_assign);
    reply("lock", "K 1 1", 0, 0);
    reply("store", "S 0 0 5", 0, 0);
    expect("after a store", c->assigned == 7 && !c->after_load && !c->after_assign);
    expect("a store has its assign's position", state.stores[0].position == 7 && state.stores[0].value == 5);
  }
  trace("K 1 1;P 0 0 5;A 0 0 6;B 0 0 5", 0);
  expect("an early store has its own position", state.stores[0].position == 2);
  expect("a B is no A", state.cells[0].assigned == 3 && !state.cells[0].after_assign);

  /* lines, and 8 */
  begin(2, 2, 2, "1");
  reply("no letter", "X 0 0 0", 4, 4);
  reply("thread", "A 2 0 0", 5, 4);
  for (uint32_t i = 0; i < course->events; i++) course->step(&state, 'A', 1, 0, i);
  reply("one event more", "U 0 1 0", course->over, course->events + 4);
  begin(2, 2, 2, "2");
  reply("a volatile variable that is not declared", "A 0 0 0", 8, 0);
  reply("no letter, a volatile variable that is not declared", "X 0 0 0", 8, 0);
  begin(2, course->variables, 2, course == &FULL ? "?" : "3");
  reply("the last variable volatile", "A 0 0 0", 0, 0);

  /* states that no events reach */
  trace("R 0 0 0;L 0 0 0;R 0 0 0", 0);
  state.counts.volatiles[0] = true;
  state.cells[0].after_assign = true;
  reply("after a load and an assign", "U 0 0 0", 26, 7);
  state.cells[0].after_assign = false;
  state.cells[0].written = 1;
  reply("its own write at its read", "U 0 0 0", 27, 7);
  state.cells[0].written = 0;
  state.cells[0].used = 1;
  reply("its read used already", "U 0 0 0", 27, 7);
  state.cells[0].used = 0;
  state.cells[0].fresh = true;
  reply("its own fresh assign", "U 0 0 0", 27, 7);
  state.cells[0].fresh = false;
  state.cells[1].used = 3;
  reply("a late use of a plain variable", "U 0 0 0", 0, 0);
  volatile_trace("01", "A 0 0 1;S 0 0 1", 0);
  state.cells[0].fresh = true;
  state.cells[0].assigned = 0;
  reply("its own fresh assign before its store's", "W 0 0 1", 27, 6);
  state.cells[0].assigned = 1;
  reply("its own fresh assign at its store's", "W 0 0 1", 0, 0);
  volatile_trace("0", "R 0 0 0", 0);
  state.cells[0].pending = true;
  reply("announced assign that is owed", "B 0 0 0", 28, 5);
  reply("early store with an assign owed", "P 0 0 0", 28, 5);
}

/* Whether thread t waits for this. */
static bool waits(size_t t, size_t lock, uint32_t depth, bool notified) {
  const struct dabzhoni_wait *w = &state.waits[t];
  return w->lock == lock && w->depth == depth && w->notified == notified;
}

/* 29 and 30, what Y, F and C are checked for, and what is kept for them. */
static void waiting(void) {
  static const char *const BARRED[] = {"U 0 0 0", "A 0 0 5", "L 0 0 0", "S 0 0 0", "K 0 0",   "K 0 1",   "N 0 0",  "N 0 1",
                                       "P 0 0 5", "B 0 0 5", "Y 0 0",   "Y 0 1",   "F 0 0 0", "F 0 0 1", "F 0 1 1"};
  for (size_t i = 0; i < sizeof BARRED / sizeof *BARRED; i++) {
    trace("K 0 0;Y 0 0", 0);
    reply(BARRED[i], BARRED[i], 29, 5);
    trace("K 0 0;Y 0 0;K 1 0;F 1 0 0", 0);
    reply(BARRED[i], BARRED[i], 29, 7);
  }
  trace("K 0 0;Y 0 0;R 0 0 0", 0);
  trace("K 0 0;Y 0 0;W 0 0 0", 10);
  trace("K 0 0;P 0 0 5;Y 0 0;W 0 0 5", 0);
  trace("Y 0 0", 12);
  trace("K 1 0;Y 0 0", 12);
  trace("K 0 0;A 0 0 5;Y 0 0", 15);
  trace("K 0 0;A 0 0 5;S 0 0 5;Y 0 0", 16);
  trace("K 0 0;P 0 0 5;B 0 0 5;Y 0 0", 16);
  trace("F 0 0 1", 30);
  trace("K 0 0;F 0 0 0", 30);
  trace("K 0 0;Y 0 0;K 1 1;F 1 1 0", 30);
  trace("K 0 0;Y 0 0;K 1 0;F 1 0 0;F 1 0 0", 30);
  trace("K 0 0;Y 0 0;F 1 0 0", 12);
  trace("C 0 0", 30);
  trace("K 0 0;Y 0 0;C 0 0", 30);
  trace("K 0 0;Y 0 0;K 1 0;F 1 0 0;N 1 0;C 0 1", 30);
  trace("K 0 0;Y 0 0;K 1 0;F 1 0 0;N 1 0;C 0 0;C 0 0", 30);
  trace("K 0 0;Y 0 0;K 1 0;F 1 0 0;N 1 0;C 0 0;Y 0 0;C 0 0", 30);
  trace("K 0 0;Y 0 0;K 1 0;F 1 0 0;C 0 0", 11);
  trace("K 0 0;P 0 0 5;Y 0 0;K 1 0;F 1 0 0;N 1 0;C 0 0", 13);
  trace("K 0 0;R 0 0 0;L 0 0 0;Y 0 0;K 1 0;F 1 0 0;N 1 0;C 0 0;U 0 0 0", 17);
  trace("K 0 0;Y 0 0;R 0 0 0;K 1 0;F 1 0 0;N 1 0;C 0 0;L 0 0 0;U 0 0 0", 17);
  trace("K 0 0;Y 0 0;K 1 0;F 1 0 0;Y 1 0;C 0 0;F 0 0 1;N 0 0;C 1 0;N 1 0", 0);
  volatile_trace("0", "K 0 0;Y 0 0;U 0 0 0", 29);
  volatile_trace("0", "K 0 0;Y 0 0;P 0 0 5", 29);
  volatile_trace("0", "C 0 0", 30);

  /* what is kept */
  trace("K 0 0;K 0 0;K 0 1;Y 0 0", 0);
  expect("a wait", waits(0, 1, 2, false) && waits(1, 0, 0, false) && state.locked[0] == 3);
  expect("every hold is given up", state.holds[0].holder == 0 && state.holds[0].depth == 0);
  expect("the other lock is kept", state.holds[1].holder == 1 && state.holds[1].depth == 1);
  reply("lock by another", "K 1 0", 0, 0);
  reply("notify", "F 1 0 0", 0, 0);
  expect("a notified wait", waits(0, 1, 2, true) && waits(1, 0, 0, false) && state.locked[1] == 5);
  reply("notify again", "F 1 0 0", 30, 9);
  reply("come back to another's lock", "C 0 0", 11, 9);
  reply("unlock by another", "N 1 0", 0, 0);
  reply("come back", "C 0 0 77", 0, 0);
  expect("no wait any more", waits(0, 0, 0, false) && state.locked[0] == 8);
  expect("every hold is taken again", state.holds[0].holder == 1 && state.holds[0].depth == 2);
  reply("wait with a value, which is not looked at", "Y 0 0 -1", 0, 0);
  expect("a second wait", waits(0, 1, 2, false));
  reply("notify a negative thread", "F 1 0 -1", 5, 12);
  reply("notify an undeclared thread", "F 1 0 2", 5, 12);
  reply("notify a thread with the low 32 bits of a declared one", "F 1 0 4294967296", 5, 12);
  reply("notify the greatest value", "F 1 0 9223372036854775807", 5, 12);
  reply("wait on an undeclared lock", "Y 0 2", 5, 12);
  reply("come back of an undeclared thread", "C 2 0", 5, 12);

  /* 8 */
  trace("K 0 0;Y 0 0;K 1 0", 0);
  state.waits[0].depth = 0;
  reply("no depth", "R 1 0 0", 8, 0);
  state.waits[0].depth = 4;
  reply("depth above the events", "R 1 0 0", 8, 0);
  state.waits[0].depth = 3;
  state.waits[0].lock = 3;
  reply("lock that is not declared", "R 1 0 0", 8, 0);
  state.waits[0].lock = ((size_t)1 << 32) + 1;
  reply("lock with the low 32 bits of a declared one", "R 1 0 0", 8, 0);
  state.waits[0].lock = 2;
  state.waits[7] = (struct dabzhoni_wait){.lock = 1, .depth = 0};
  reply("no depth of a thread that is not declared", "R 1 0 0", 8, 0);
  state.waits[7] = (struct dabzhoni_wait){.lock = 0, .depth = UINT32_MAX, .notified = true};
  reply("nothing is asked of one that does not wait", "R 1 0 0", 0, 0);
  reply("the second lock", "F 1 0 0", 30, 7);

  /* states that no events reach */
  trace("K 0 0;K 0 0;K 1 1", 0);
  state.waits[0] = (struct dabzhoni_wait){.lock = 1, .depth = 1, .notified = true};
  reply("unlock by a waiting thread that holds the lock", "N 0 0", 29, 6);
  reply("come back to a lock that is held already", "C 0 0", 0, 0);
  expect("what it remembered is held", state.holds[0].holder == 1 && state.holds[0].depth == 1 && waits(0, 0, 0, false));
  state.waits[0] = (struct dabzhoni_wait){.lock = 0, .depth = 2, .notified = true};
  reply("come back of one that does not wait", "C 0 0", 30, 7);
  reply("notify one that does not wait", "F 1 1 0", 30, 7);
  reply("no event of a waiting thread", "Y 0 0", 0, 0);
  expect("its own wait", waits(0, 1, 1, false));
}

static void steps(void) {
  trace("U 0 0 0", 17);
  trace("R 0 0 0;L 0 0 0;U 0 0 0", 0);
  trace("R 0 0 0;K 0 0;L 0 0 0;U 0 0 0", 17);
  trace("R 0 0 0;A 0 0 5", 23);
  trace("A 0 0 5;S 0 0 5;S 0 0 5", 14);
  trace("A 0 0 5;K 0 0;S 0 0 5", 17);
  trace("K 0 0;A 0 0 5;S 0 0 5;N 0 0", 16);
  trace("P 0 0 5;W 0 0 5;B 0 0 5", 0);
  expect("main memory", state.memory[0] == 5);
  trace("P 0 0 5;K 0 0", 13);
  trace("K 0 0;K 0 0;N 0 0;K 1 0", 11);
  trace("K 0 0;P 0 0 5;N 0 0", 0);
  trace("R 0 0 0;R 0 0 0;R 0 0 0;R 0 0 0;R 0 0 0;R 0 0 0;R 0 0 0;R 0 0 0;R 0 0 0", 19);
  trace("A 0 0 5;R 0 0 0", 23);
  trace("A 0 0 5;S 0 0 5;R 0 0 0", 23);
  trace("P 0 0 5;R 0 0 0", 23);
  trace("R 0 0 0;P 0 0 5", 23);
  trace("P 0 0 5;W 0 0 5;R 0 0 5;P 0 0 6", 13);
  trace("P 0 0 5;W 0 0 5;R 0 0 5;A 0 0 1;B 0 0 5;L 0 0 5", 0);
  trace("A 0 0 1;P 0 0 5;W 0 0 5;R 0 0 5;B 0 0 5;L 0 0 5", 0);
  trace("K 0 0;A 0 0 5;N 0 0", 15);
  trace("K 0 0;P 0 0 5;A 0 0 1;N 0 0", 15);
  trace("K 0 0;P 0 0 5;B 0 0 5;N 0 0", 16);
  trace("K 0 0;A 0 0 1;S 0 0 1;P 0 0 5;N 0 0", 16);
  trace("K 0 0;A 0 0 1;S 0 0 1;P 0 0 5;W 0 0 1;N 0 0;B 0 0 5;W 0 0 5", 0);

  dabzhoni_initial(&state, 2, 2, 2);
  reply("no letter", "X 0 0 0", 4, 3);
  reply("thread", "A 2 0 0", 5, 3);
  reply("variable", "A 0 2 0", 5, 3);
  reply("lock", "K 0 2", 5, 3);
  for (uint32_t i = 0; i < course->events; i++) course->step(&state, 'A', 1, 1, i);
  expect("as many events as there may be", state.events == course->events);
  reply("one event more", "A 0 0 0", course->over, course->events + 3);
  reply("one undeclared event more", "A 2 0 0", course->over, course->events + 3);
  reply("one bad event more", "U 0 0 0", course->over, course->events + 3);
  reply("no letter, and no event more", "X 9 9 0", 4, course->events + 3);
  state.events = course->events + 1;
  reply("events out of range", "A 0 0 0", 8, 0);
  reply("no letter, events out of range", "z 0 0 0", 8, 0);
  state.events = UINT32_MAX;
  reply("no letter, the greatest number of events", "X 0 0 0", 8, 0);
  dabzhoni_initial(&state, course->threads, course->variables, course->locks);
  reply("the greatest counts", "A 0 0 0", 0, 0);
  dabzhoni_initial(&state, course->threads + 1, 2, 2);
  reply("threads out of range", "A 0 0 0", 8, 0);
  reply("no letter, threads out of range", "u 0 0 0", 8, 0);
  dabzhoni_initial(&state, 2, course->variables + 1, 2);
  reply("variables out of range", "A 0 0 0", 8, 0);
  dabzhoni_initial(&state, 2, 2, course->locks + 1);
  reply("locks out of range", "A 0 0 0", 8, 0);
  dabzhoni_initial(&state, 2, 2, 2);
  state.holds[0].depth = 1;
  reply("depth without holder", "A 0 0 0", 8, 0);
  reply("no letter, depth without holder", "Z 0 0 0", 8, 0);
  state.events = course->events;
  reply("depth without holder, and no event more", "A 0 0 0", 8, 0);

  /* states that no events reach: a read is outstanding, and beside it a fresh assign, a store, a later write, eight of either */
  trace("R 0 0 0", 0);
  state.cells[0].fresh = true;
  reply("load with a fresh assign", "L 0 0 0", 15, 4);
  state.cells[0].fresh = false;
  state.cells[0].stores.len = 1;
  reply("load with an outstanding store", "L 0 0 0", 16, 4);
  state.cells[0].stores.len = 0;
  state.events = 2;
  state.cells[0].written = 2;
  reply("load whose read came before a write", "L 0 0 0", 16, 5);
  state.cells[0].stores.len = 8;
  reply("nine stores before a dead read", "P 0 0 0", 19, 5);
  state.cells[0].reads.len = 8;
  reply("nine reads before a dead read", "R 0 0 0", 19, 5);

  /* stores that no events reach; with an assign owed the latest is taken for the early one */
  trace("K 0 0", 0);
  state.cells[0].stores.len = 1;
  reply("unlock with a store", "N 0 0", 16, 4);
  state.cells[1].pending = true;
  reply("unlock with a store and an assign of another variable owed", "N 0 0", 16, 4);
  state.cells[0].pending = true;
  state.cells[0].stores.len = 2;
  reply("unlock with two stores and an assign owed", "N 0 0", 16, 4);
  state.cells[0].stores.len = 1;
  reply("unlock with a store and its assign owed", "N 0 0", 0, 0);
}

/* ---- whole papers */

/* What must be lent, and a longer scratch; each array has one place more. */
enum { RECORDS = 2000, OUT = 32768, ORDER = 1000, SCRATCH = 1000, LONG_SCRATCH = 2000, FILL = 0xa5 };

static uint32_t what[RECORDS + 1];
static int64_t values[RECORDS + 1];
static uint8_t out[OUT + 1];
static uint64_t order[ORDER + 1];
static uint64_t scratch[LONG_SCRATCH + 1];

static void fill(void) {
  memset(what, FILL, sizeof what);
  memset(values, FILL, sizeof values);
  memset(out, FILL, sizeof out);
  memset(order, FILL, sizeof order);
  memset(scratch, FILL, sizeof scratch);
}

/* Whether the bytes from p to the end are as they were filled. */
static bool untouched(const void *p, const void *end) {
  const uint8_t *at = p;
  while (at < (const uint8_t *)end && *at == FILL) at++;
  return at == end;
}

/* A paper, what is said of it, and its listing: `memories` up to the copies, or the refusal; `ordering` the lines after these. In the short
   course it is refused with 25 at line `over`, where that is given. */
struct paper {
  const char *name, *text, *memories, *ordering;
  size_t number, line, sections, denial, denial_line, over;
  uint64_t entries[3];
};

static const struct paper PAPERS[] = {
    {.name = "one paper whole",
     .text = "H 2 1 1\nG 0\nK 0 0\nA 0 0 5\nS 0 0 5\nW 0 0 5\nN 0 0\nK 1 0\nR 1 0 5\nL 1 0 5\nU 1 0 5\nN 1 0\nZ 84\n",
     .memories = "accepted 10\nmain 0 5\ncopy 0 0 5\ncopy 1 0 5\n",
     .ordering = "section 0 3 7\nsection 1 8 12\n",
     .sections = 2,
     .entries = {7 << 12 | 3, 1 << 24 | 12 << 12 | 8}},
    {.name = "not by the first lock",
     .text = "H 2 1 2\nG 1\nK 0 0\nK 1 1\nA 1 0 -5\nS 1 0 -5\nW 1 0 -5\nN 1 1\nK 0 1\nR 0 0 -5\nL 0 0 -5\nU 0 0 -5\nN 0 1\nN 0 0\nZ 102\n",
     .memories = "accepted 12\nmain 0 -5\ncopy 0 0 -5\ncopy 1 0 -5\n",
     .ordering = "section 1 4 8\nsection 0 3 14\n",
     .sections = 2,
     .entries = {1 << 24 | 8 << 12 | 4, 14 << 12 | 3}},
    {.name = "an early store over an unlock",
     .text = "H 1 1 2\nG 0\nK 0 0\nK 0 1\nP 0 0 5\nN 0 1\nW 0 0 5\nB 0 0 5\nN 0 0\nZ 60\n",
     .memories = "accepted 7\nmain 0 5\ncopy 0 0 5\n",
     .ordering = "section 0 3 9\n",
     .sections = 1,
     .entries = {9 << 12 | 3}},
    {.name = "an empty order", .text = "H 2 1 2\nG 1\nZ 12\n", .memories = "accepted 0\nmain 0 0\n", .ordering = ""},
    {.name = "25 at the head", .text = "H 8 1 8\nG 7\nZ 12\n", .memories = "accepted 0\nmain 0 0\n", .ordering = "", .over = 1},
    {.name = "25 for threads", .text = "H 3 1 0\nG -\nZ 12\n", .memories = "accepted 0\nmain 0 0\n", .over = 1},
    {.name = "25 for variables",
     .text = "H 1 5 0\nG -\nZ 12\n",
     .memories = "accepted 0\nmain 0 0\nmain 1 0\nmain 2 0\nmain 3 0\nmain 4 0\n",
     .over = 1},
    {.name = "25 for locks", .text = "H 1 1 3\nG -\nZ 12\n", .memories = "accepted 0\nmain 0 0\n", .over = 1},
    {.name = "25 before 6", .text = "H 3 1 0\nG 0\nZ 12\n", .memories = "refused 2 6\n", .number = 6, .line = 2, .over = 1},
    {.name = "25 before 17", .text = "H 3 1 0\nG -\nU 0 0 0\nZ 20\n", .memories = "refused 3 17\n", .number = 17, .line = 3, .over = 1},
    {.name = "3 before 25", .text = "H 3 1 9\nG -\nZ 12\n", .memories = "refused 1 3\n", .number = 3, .line = 1},
    {.name = "2 before 25", .text = "H 3 1 0\nG -\nZ 11\n", .memories = "refused 0 2\n", .number = 2},
    {.name = "no guards",
     .text = "H 2 2 2\nG -\nA 1 1 -2147483648\nA 0 0 2147483647\nZ 47\n",
     .memories = "accepted 2\nmain 0 0\nmain 1 0\ncopy 0 0 2147483647\ncopy 1 1 -2147483648\n"},
    {.name = "ends of 64 bits",
     .text = "H 2 2 2\nG -\nA 1 1 -9223372036854775808\nA 0 0 9223372036854775807\nP 0 1 4294967296\nW 0 1 4294967296\nZ 99\n",
     .memories = "accepted 4\nmain 0 0\nmain 1 4294967296\ncopy 0 0 9223372036854775807\ncopy 1 1 -9223372036854775808\n"},
    {.name = "past 64 bits",
     .text = "H 1 1 0\nG -\nA 0 0 9223372036854775808\nZ 38\n",
     .memories = "refused 3 4\n",
     .number = 4,
     .line = 3},
    {.name = "below 64 bits",
     .text = "H 1 1 0\nG -\nA 0 0 5\nA 0 0 -9223372036854775809\nZ 47\n",
     .memories = "refused 4 4\n",
     .number = 4,
     .line = 4},
    {.name = "20",
     .text = "H 1 1 1\nG 0\nR 0 0 0\nL 0 0 0\nU 0 0 0\nZ 36\n",
     .memories = "accepted 3\nmain 0 0\ncopy 0 0 0\n",
     .ordering = "unordered 5 20\n",
     .denial = 20,
     .denial_line = 5},
    {.name = "21",
     .text = "H 1 1 2\nG 0\nK 0 0\nK 0 1\nN 0 1\nK 0 1\nN 0 1\nN 0 0\nZ 48\n",
     .memories = "accepted 6\nmain 0 0\n",
     .ordering = "unordered 6 21\n",
     .denial = 21,
     .denial_line = 6},
    {.name = "22, a lock held",
     .text = "H 1 1 1\nG 0\nK 0 0\nZ 18\n",
     .memories = "accepted 1\nmain 0 0\n",
     .ordering = "unordered 4 22\n",
     .denial = 22,
     .denial_line = 4},
    {.name = "22, an assign owed",
     .text = "H 1 1 1\nG 0\nP 0 0 5\nW 0 0 5\nZ 28\n",
     .memories = "accepted 2\nmain 0 5\n",
     .ordering = "unordered 5 22\n",
     .denial = 22,
     .denial_line = 5},
    {.name = "a volatile variable",
     .text = "H 2 1 1\nG 0\nV 0\nK 0 0\nA 0 0 5\nS 0 0 5\nW 0 0 5\nN 0 0\nK 1 0\nR 1 0 5\nL 1 0 5\nU 1 0 5\nN 1 0\nZ 88\n",
     .memories = "accepted 10\nmain 0 5\ncopy 0 0 5\ncopy 1 0 5\n",
     .ordering = "section 0 4 8\nsection 1 9 13\n",
     .sections = 2,
     .entries = {8 << 12 | 4, 1 << 24 | 13 << 12 | 9}},
    {.name = "a V line alone", .text = "H 1 1 0\nG -\nV 0\nZ 16\n", .memories = "accepted 0\nmain 0 0\n"},
    {.name = "an empty V line", .text = "H 1 1 0\nG -\nV\nZ 14\n", .memories = "refused 3 6\n", .number = 6, .line = 3},
    {.name = "a wrong V line", .text = "H 1 2 0\nG -\nV 1 0\nZ 18\n", .memories = "refused 3 6\n", .number = 6, .line = 3},
    {.name = "25 before 6 at line 3", .text = "H 3 1 0\nG -\nV 1\nZ 16\n", .memories = "refused 3 6\n", .number = 6, .line = 3, .over = 1},
    {.name = "a V line in line 4", .text = "H 1 1 0\nG -\nA 0 0 5\nV 0\nZ 24\n", .memories = "refused 4 4\n", .number = 4, .line = 4},
    {.name = "26", .text = "H 1 1 0\nG -\nV 0\nU 0 0 0\nZ 24\n", .memories = "refused 4 26\n", .number = 26, .line = 4},
    {.name = "27",
     .text = "H 1 2 0\nG -\nV 0 1\nR 0 0 0\nL 0 0 0\nA 0 1 5\nU 0 0 0\nZ 50\n",
     .memories = "refused 7 27\n",
     .number = 27,
     .line = 7},
    {.name = "28", .text = "H 1 1 0\nG -\nV 0\nP 0 0 5\nZ 24\n", .memories = "refused 4 28\n", .number = 28, .line = 4},
    {.name = "20 behind a V line",
     .text = "H 1 1 1\nG 0\nV 0\nA 0 0 5\nZ 24\n",
     .memories = "accepted 1\nmain 0 0\ncopy 0 0 5\n",
     .ordering = "unordered 4 20\n",
     .denial = 20,
     .denial_line = 4},
    {.name = "22 behind a V line",
     .text = "H 1 1 1\nG 0\nV 0\nK 0 0\nZ 22\n",
     .memories = "accepted 1\nmain 0 0\n",
     .ordering = "unordered 5 22\n",
     .denial = 22,
     .denial_line = 5},
    {.name = "producer and consumer",
     .text = "H 2 1 1\nG 0\nK 0 0\nY 0 0\nK 1 0\nA 1 0 5\nS 1 0 5\nW 1 0 5\nF 1 0 0\nN 1 0\nC 0 0\nR 0 0 5\nL 0 0 5\nU 0 0 5\nN 0 0\nZ 104\n",
     .memories = "accepted 13\nmain 0 5\ncopy 0 0 5\ncopy 1 0 5\n",
     .ordering = "section 0 3 4\nsection 1 5 10\nsection 0 11 15\n",
     .sections = 3,
     .entries = {4 << 12 | 3, 1 << 24 | 10 << 12 | 5, 15 << 12 | 11}},
    {.name = "two holds given up and taken again",
     .text = "H 2 1 1\nG 0\nK 0 0\nK 0 0\nY 0 0\nK 1 0\nF 1 0 0\nN 1 0\nC 0 0\nN 0 0\nN 0 0\nZ 68\n",
     .memories = "accepted 9\nmain 0 0\n",
     .ordering = "section 0 3 5\nsection 1 6 8\nsection 0 9 11\n",
     .sections = 3,
     .entries = {5 << 12 | 3, 1 << 24 | 8 << 12 | 6, 11 << 12 | 9}},
    {.name = "waiting behind a V line",
     .text = "H 2 1 1\nG 0\nV 0\nK 0 0\nY 0 0\nK 1 0\nF 1 0 0\nN 1 0\nC 0 0\nN 0 0\nZ 60\n",
     .memories = "accepted 7\nmain 0 0\n",
     .ordering = "section 0 4 5\nsection 1 6 8\nsection 0 9 10\n",
     .sections = 3,
     .entries = {5 << 12 | 4, 1 << 24 | 8 << 12 | 6, 10 << 12 | 9}},
    {.name = "waiting, no guards",
     .text = "H 2 1 1\nG -\nK 1 0\nY 1 0\nK 0 0\nF 0 0 1\nZ 38\n",
     .memories = "accepted 4\nmain 0 0\n"},
    {.name = "21 at a C",
     .text = "H 2 1 2\nG 0\nK 0 1\nK 0 0\nY 0 0\nK 1 0\nF 1 0 0\nN 1 0\nC 0 0\nN 0 0\nN 0 1\nZ 68\n",
     .memories = "accepted 9\nmain 0 0\n",
     .ordering = "unordered 9 21\n",
     .denial = 21,
     .denial_line = 9},
    {.name = "22, a thread waits",
     .text = "H 2 1 1\nG 0\nK 0 0\nY 0 0\nZ 24\n",
     .memories = "accepted 2\nmain 0 0\n",
     .ordering = "unordered 5 22\n",
     .denial = 22,
     .denial_line = 5},
    {.name = "29", .text = "H 1 1 1\nG 0\nK 0 0\nY 0 0\nA 0 0 5\nZ 32\n", .memories = "refused 5 29\n", .number = 29, .line = 5},
    {.name = "30 at F", .text = "H 1 1 1\nG 0\nF 0 0 0\nZ 20\n", .memories = "refused 3 30\n", .number = 30, .line = 3},
    {.name = "30 at C", .text = "H 1 1 1\nG 0\nC 0 0\nZ 18\n", .memories = "refused 3 30\n", .number = 30, .line = 3},
    {.name = "4 for a notified thread", .text = "H 1 1 1\nG 0\nF 0 0 -1\nZ 21\n", .memories = "refused 3 4\n", .number = 4, .line = 3},
    {.name = "5 for a notified thread", .text = "H 1 1 1\nG 0\nF 0 0 1\nZ 20\n", .memories = "refused 3 5\n", .number = 5, .line = 3},
    {.name = "2", .text = "", .memories = "refused 0 2\n", .number = 2},
    {.name = "3", .text = "H 9 1 0\nG -\nZ 12\n", .memories = "refused 1 3\n", .number = 3, .line = 1},
    {.name = "6", .text = "H 1 1 0\nG 0\nZ 12\n", .memories = "refused 2 6\n", .number = 6, .line = 2},
    {.name = "4", .text = "H 1 1 0\nG -\nA 0 0 5\nX\nZ 22\n", .memories = "refused 4 4\n", .number = 4, .line = 4},
    {.name = "5", .text = "H 1 1 1\nG 0\nK 0 1\nZ 18\n", .memories = "refused 3 5\n", .number = 5, .line = 3},
    {.name = "16",
     .text = "H 1 1 1\nG 0\nK 0 0\nP 0 0 5\nB 0 0 5\nN 0 0\nZ 40\n",
     .memories = "refused 6 16\n",
     .number = 16,
     .line = 6},
    {.name = "17", .text = "H 2 1 1\nG 0\nK 0 0\nU 0 0 0\nZ 26\n", .memories = "refused 4 17\n", .number = 17, .line = 4},
    {.name = "23", .text = "H 1 1 1\nG 0\nR 0 0 0\nA 0 0 5\nZ 28\n", .memories = "refused 4 23\n", .number = 23, .line = 4},
};

static void part(const struct paper *p, const char *what, bool ok) {
  if (!ok) printf("%s, ", p->name);
  expect(what, ok);
}

/* Whether the rows hold the records of n event lines, from line 3 of the text on or behind its V line, and nothing else is touched. */
static bool recorded(const char *text, size_t n) {
  bool ok = true;
  text = strchr(text, 10);
  if (n && strchr(text + 1, 10)[1] == 'V') text = strchr(text + 1, 10);
  for (size_t i = 0; i < n; i++) {
    char letter;
    unsigned thread, place;
    int64_t value = 0;
    text = strchr(text + 1, 10);
    sscanf(text + 1, "%c %u %u %" SCNd64, &letter, &thread, &place, &value);
    ok = ok && what[i] == (uint32_t)letter * 65536 + thread * 256 + place && values[i] == (strchr("KNYC", letter) ? 0 : value);
  }
  return ok && untouched(what + n, what + RECORDS + 1) && untouched(values + n, values + RECORDS + 1);
}

/* Whether out begins with these two texts, and nothing else is touched. */
static bool listed(const char *first, const char *then) {
  size_t a = strlen(first), b = strlen(then);
  return !memcmp(out, first, a) && !memcmp(out + a, then, b) && untouched(out + a + b, out + OUT + 1);
}

static void said(const char *name, struct dabzhoni_marked m, struct dabzhoni_marked w) {
  if (memcmp(&m, &w, sizeof m))
    printf("%s: number %zu, line %zu, events %zu, written %zu, ordered %zu, sections %zu, denial %zu, its line %zu\n", name, m.number,
           m.line, m.events, m.written, m.ordered, m.sections, m.denial, m.denial_line);
  expect(name, !memcmp(&m, &w, sizeof m));
}

/* What is said of a paper in the course. */
static struct paper in_course(struct paper p) {
  if (course == &FULL || !p.over) return p;
  const char *memories = p.over == 1 ? "refused 1 25\n" : p.over == 203 ? "refused 203 25\n" : "refused 204 25\n";
  return (struct paper){.name = p.name, .text = p.text, .memories = memories, .number = 25, .line = p.over};
}

static void mark(const struct paper *full) {
  const struct paper told = in_course(*full), *p = &told;
  static const size_t SCRATCHES[] = {SCRATCH, SCRATCH + 1, LONG_SCRATCH};
  const uint8_t *bytes = (const uint8_t *)p->text;
  size_t length = strlen(p->text), events = 0;
  const char *ordering = p->ordering ? p->ordering : "";
  sscanf(p->memories, "accepted %zu", &events);
  /* `ordering` is given and nothing denies it: there is an order */
  bool ordered = p->ordering && !p->denial;
  struct dabzhoni_marked w = {
      p->number, p->line, events, strlen(p->memories) + strlen(ordering), ordered, p->sections, p->denial, p->denial_line};

  for (size_t k = 0; k < sizeof SCRATCHES / sizeof *SCRATCHES; k++) {
    size_t lent = SCRATCHES[k];
    fill();
    said(p->name, course->mark(bytes, length, what, RECORDS, values, RECORDS, out, OUT, order, ORDER, scratch, lent), w);
    part(p, "records", recorded(p->text, events));
    part(p, "listing", listed(p->memories, ordering));
    bool entries = true, zeros = true;
    for (size_t i = 0; i < p->sections; i++) entries = entries && order[i] == p->entries[i];
    part(p, "order list", entries && untouched(order + p->sections, order + ORDER + 1));
    size_t cleared = ordered ? lent : 0;
    for (size_t i = 0; i < cleared; i++) zeros = zeros && scratch[i] == 0;
    part(p, "scratch", zeros && untouched(scratch + cleared, scratch + LONG_SCRATCH + 1));
  }

  fill();
  w = (struct dabzhoni_marked){.number = p->number, .line = p->line, .events = events, .written = strlen(p->memories)};
  said(p->name, course->mark_unordered(bytes, length, what, RECORDS, values, RECORDS, out, OUT), w);
  part(p, "records, no order wanted", recorded(p->text, events));
  part(p, "listing, no order wanted", listed(p->memories, ""));
}

/* Each buffer one place too short, and empty: 7, and nothing is touched. */
static void lent_too_little(const struct paper *p) {
  static const size_t ENOUGH[5] = {RECORDS, RECORDS, OUT, ORDER, SCRATCH};
  const uint8_t *bytes = (const uint8_t *)p->text;
  const struct dabzhoni_marked seven = {.number = 7};
  size_t length = strlen(p->text), n[5];
  fill();
  for (int i = 0; i < 10; i++) {
    memcpy(n, ENOUGH, sizeof n);
    n[i / 2] = i % 2 ? 0 : n[i / 2] - 1;
    said("7", course->mark(bytes, length, what, n[0], values, n[1], out, n[2], order, n[3], scratch, n[4]), seven);
    if (i < 6) said("7, no order wanted", course->mark_unordered(bytes, length, what, n[0], values, n[1], out, n[2]), seven);
  }
  expect("nothing touched after 7", recorded(p->text, 0) && listed("", "") && untouched(order, order + ORDER + 1) &&
                                        untouched(scratch, scratch + LONG_SCRATCH + 1));
}

/* 65,537 bytes: 1. */
static void too_long(void) {
  static char text[65538];
  memset(text, 10, 65537);
  mark(&(struct paper){.name = "1", .text = text, .memories = "refused 0 1\n", .number = 1});
}

/* Adds a line so many times. The new end. */
static char *add(char *end, int times, const char *line) {
  while (times--) end += sprintf(end, "%s\n", line);
  return end;
}

/* 1,000 K in two sections; the one with the first K has the last too, on a lock that it holds already, and half of the others. */
static void thousand_locks(void) {
  static char text[12100];
  char *end = add(text, 1, "H 2 1 2\nG 0");
  end = add(end, 500, "K 0 0");
  end = add(end, 499, "K 1 1");
  end = add(end, 1, "K 0 0");
  end = add(end, 499, "N 1 1");
  end = add(end, 501, "N 0 0");
  sprintf(end, "Z %d\n", (int)(end - text));
  mark(&(struct paper){.name = "1,000 K",
                       .text = text,
                       .memories = "accepted 2000\nmain 0 0\n",
                       .ordering = "section 1 503 1501\nsection 0 3 2002\n",
                       .sections = 2,
                       .entries = {1 << 24 | 1501 << 12 | 503, 2002 << 12 | 3},
                       .over = 203});
}

/* One section of 200 events, with this V line or none, and this line behind them. */
static void two_hundred(const char *volatiles, const char *line, struct paper p) {
  static char text[1300];
  char *end = add(text, 1, "H 2 4 2\nG 0 0 0 0");
  end = add(end, *volatiles ? 1 : 0, volatiles);
  end = add(end, 100, "K 1 0");
  end = add(end, 100, "N 1 0");
  end = add(end, *line ? 1 : 0, line);
  sprintf(end, "Z %d\n", (int)(end - text));
  p.text = text;
  mark(&p);
}

static void about_two_hundred(void) {
  static const char MAIN[] = "main 0 0\nmain 1 0\nmain 2 0\nmain 3 0\n";
  static char accepted[100];
  struct paper p = {.memories = accepted, .ordering = "section 1 3 202\n", .sections = 1, .entries = {1 << 24 | 202 << 12 | 3}};
  sprintf(accepted, "accepted 200\n%s", MAIN);
  p.name = "200 events";
  two_hundred("", "", p);
  sprintf(accepted, "accepted 201\n%s", MAIN);
  p.name = "201 events";
  p.over = 203;
  two_hundred("", "R 0 0 0", p);
  two_hundred("", "X", (struct paper){.name = "4 at line 203", .memories = "refused 203 4\n", .number = 4, .line = 203});
  two_hundred("", "A 2 0 0", (struct paper){.name = "25 before 5", .memories = "refused 203 5\n", .number = 5, .line = 203, .over = 203});
  two_hundred("", "N 1 0", (struct paper){.name = "25 before 12", .memories = "refused 203 12\n", .number = 12, .line = 203, .over = 203});

  static const char VOLATILES[] = "V 0 2";
  p = (struct paper){.memories = accepted, .ordering = "section 1 4 203\n", .sections = 1, .entries = {1 << 24 | 203 << 12 | 4}};
  sprintf(accepted, "accepted 200\n%s", MAIN);
  p.name = "200 events behind a V line";
  two_hundred(VOLATILES, "", p);
  sprintf(accepted, "accepted 201\n%s", MAIN);
  p.name = "201 events behind a V line";
  p.over = 204;
  two_hundred(VOLATILES, "R 0 0 0", p);
  two_hundred(VOLATILES, "X", (struct paper){.name = "4 at line 204", .memories = "refused 204 4\n", .number = 4, .line = 204});
  two_hundred(VOLATILES, "U 0 2 0",
              (struct paper){.name = "25 before 26", .memories = "refused 204 26\n", .number = 26, .line = 204, .over = 204});
}

/* ---- tails */

/* The most events of a tail; each array has one place more. */
enum { TAIL = 2256 };

static uint32_t tail_what[TAIL + 1];
static int64_t tail_values[TAIL + 1];

/* A paper, and the lines of its tail, of which the first would be line `first` of the paper; or a refusal. In the short course it is refused
   with 25 at line `over`, where that is given. */
struct tail {
  const char *name, *text, *lines;
  size_t first, number, line, over;
};

static const struct tail TAILS[] = {
    {.name = "a tail",
     .text = "H 2 1 1\nG 0\nK 0 0\nA 0 0 5\nR 1 0 0\nZ 34\n",
     .lines = "S 0 0 5\nW 0 0 5\nN 0 0\nL 1 0 0\n",
     .first = 6},
    {.name = "an assign that is made again",
     .text = "H 1 2 1\nG -\nA 0 1 -9223372036854775808\nK 0 0\nZ 45\n",
     .lines = "A 0 1 -9223372036854775808\nS 0 1 -9223372036854775808\nW 0 1 -9223372036854775808\nN 0 0\n",
     .first = 5},
    {.name = "an owed assign behind its write",
     .text = "H 2 1 0\nG -\nP 1 0 7\nZ 20\n",
     .lines = "W 1 0 7\nB 1 0 7\n",
     .first = 4},
    {.name = "an empty tail", .text = "H 1 1 1\nG 0\nA 0 0 5\nS 0 0 5\nW 0 0 5\nZ 36\n", .lines = "", .first = 6},
    {.name = "the tail of no event", .text = "H 1 1 1\nG 0\nZ 12\n", .lines = "", .first = 3},
    {.name = "25 before a tail", .text = "H 3 1 0\nG -\nR 2 0 0\nZ 20\n", .lines = "L 2 0 0\n", .first = 4, .over = 1},
    {.name = "25 before 24", .text = "H 1 5 0\nG -\nV 4\nZ 16\n", .number = 24, .over = 1},
    {.name = "a refused paper", .text = "H 2 1 1\nG 0\nK 0 0\nU 0 0 0\nZ 26\n", .number = 17, .line = 4},
    {.name = "a paper refused whole", .text = "", .number = 2},
    {.name = "24 for a V line", .text = "H 1 1 0\nG -\nV 0\nA 0 0 5\nZ 24\n", .number = 24},
    {.name = "24 for a V line alone", .text = "H 1 1 0\nG -\nV 0\nZ 16\n", .number = 24},
    {.name = "24 for a Y", .text = "H 1 1 1\nG 0\nK 0 0\nY 0 0\nZ 24\n", .number = 24},
    {.name = "24 for F and C",
     .text = "H 2 1 1\nG 0\nK 0 0\nY 0 0\nK 1 0\nF 1 0 0\nN 1 0\nC 0 0\nN 0 0\nZ 56\n",
     .number = 24},
    {.name = "its own refusal before 24", .text = "H 1 1 0\nG -\nV 0\nU 0 0 0\nZ 24\n", .number = 26, .line = 4},
};

/* How many lines a text has. */
static size_t lines_in(const char *text) {
  size_t n = 0;
  for (; *text; text++) n += *text == 10;
  return n;
}

/* The tail of a paper, with so many places lent: what is said of it, the records of these lines at the front of both rows, and nothing else. */
static void finish(const char *name, const char *text, size_t whats, size_t places, struct dabzhoni_tail w, const char *lines) {
  memset(tail_what, FILL, sizeof tail_what);
  memset(tail_values, FILL, sizeof tail_values);
  struct dabzhoni_tail t = course->finish((const uint8_t *)text, strlen(text), tail_what, whats, tail_values, places);
  if (memcmp(&t, &w, sizeof t)) printf("%s: number %zu, line %zu, events %zu, first %zu\n", name, t.number, t.line, t.events, t.first);
  expect(name, !memcmp(&t, &w, sizeof t));
  bool ok = true;
  for (size_t i = 0; i < w.events; i++) {
    char letter;
    unsigned thread, place;
    int64_t value = 0;
    sscanf(lines, "%c %u %u %" SCNd64, &letter, &thread, &place, &value);
    ok = ok && tail_what[i] == (uint32_t)letter * 65536 + thread * 256 + place && tail_values[i] == value;
    lines = strchr(lines, 10) + 1;
  }
  ok = ok && untouched(tail_what + w.events, tail_what + TAIL + 1) && untouched(tail_values + w.events, tail_values + TAIL + 1);
  if (!ok) printf("%s, %zu and %zu places, ", name, whats, places);
  expect("records of a tail", ok);
}

/* With places for every tail, for this one, for more in either row, and one too few in either. */
static void finish_in(const struct tail *t) {
  const struct dabzhoni_tail short_of_places = {.number = 24};
  bool over = course == &SHORT && t->over;
  size_t n = t->lines && !over ? lines_in(t->lines) : 0;
  struct dabzhoni_tail w = {t->number, t->line, n, t->first};
  if (over) w = (struct dabzhoni_tail){.number = 25, .line = t->over};
  finish(t->name, t->text, TAIL, TAIL, w, t->lines);
  finish(t->name, t->text, n, n, w, t->lines);
  finish(t->name, t->text, n, TAIL, w, t->lines);
  finish(t->name, t->text, TAIL, n, w, t->lines);
  if (!n) return;
  finish(t->name, t->text, n - 1, TAIL, short_of_places, "");
  finish(t->name, t->text, TAIL, n - 1, short_of_places, "");
  finish(t->name, t->text, n - 1, n - 1, short_of_places, "");
}

/* The longest tail: each thread assigns each variable, and then locks 234 times. */
static void longest_tail(void) {
  static char text[13000], lines[18000];
  char *end = add(text, 1, "H 8 16 8\nG -"), *then = lines;
  for (int t = 0; t < 8; t++)
    for (int v = 0; v < 16; v++) end += sprintf(end, "A %d %d %d\n", t, v, t - v);
  for (int i = 0; i < 1872; i++) end += sprintf(end, "K %d %d\n", i % 8, i % 8);
  sprintf(end, "Z %d\n", (int)(end - text));
  for (int t = 0; t < 8; t++) {
    for (int v = 0; v < 16; v++)
      for (const char *k = "ASW"; *k; k++) then += sprintf(then, "%c %d %d %d\n", *k, t, v, t - v);
    for (int i = 0; i < 234; i++) then += sprintf(then, "N %d %d\n", t, t);
  }
  finish_in(&(struct tail){.name = "the longest tail", .text = text, .lines = lines, .first = 2003, .over = 1});
}

/* ---- session sheets */

/* A sheet, the text that is printed for it, and what is counted in it or the number of its refusal; in the short course the text and the count
   over_text and over_accepted, where these are given. */
struct sheet {
  const char *name, *sheet, *text, *over_text;
  size_t papers, accepted, over_accepted, number;
};

static const struct sheet SHEETS[] = {
    {.name = "the empty sheet", .sheet = "", .text = "papers 0\naccepted 0\nshare 0/1\n"},
    {.name = "the sheet of docs/PAPERS.md",
     .sheet = "H 1 1 0\nG -\nA 0 0 5\nS 0 0 5\nW 0 0 5\nZ 36\nH 1 1 0\nG -\nU 0 0 0\nZ 20\nH 1 1 1\nG 0\nK 0 0\nZ 18\n"
              "H 9 1 0\nG -\nZ 12\nH 1 1 0\nG -\nZ 12\nH 2 1 1\nG 0\nK 1 0\nN 1 0\nZ 24\n",
     .text = "papers 6\naccepted 4\nrefused 3 1\nrefused 17 1\nshare 2/3\n",
     .papers = 6,
     .accepted = 4},
    {.name = "none accepted", .sheet = "H\nZ 2\nH\nZ 2\n", .text = "papers 2\naccepted 0\nrefused 3 2\nshare 0/1\n", .papers = 2},
    {.name = "all accepted",
     .sheet = "H 1 1 0\nG -\nZ 12\nH 1 1 0\nG -\nZ 12\n",
     .text = "papers 2\naccepted 2\nshare 1/1\n",
     .papers = 2,
     .accepted = 2},
    {.name = "20, 21 and 22",
     .sheet = "H 1 1 1\nG 0\nA 0 0 5\nZ 20\nH 1 1 2\nG 0\nK 0 0\nK 0 1\nN 0 0\nK 0 0\nN 0 0\nN 0 1\nZ 48\nH 1 1 1\nG 0\nK 0 0\nZ 18\n",
     .text = "papers 3\naccepted 3\nshare 1/1\n",
     .papers = 3,
     .accepted = 3},
    {.name = "25 in the short course",
     .sheet = "H 3 1 0\nG -\nZ 12\nH 1 1 0\nG -\nX\nZ 14\nH 2 4 2\nG -\nV 0\nZ 16\nH 1 1 3\nG 0\nK 0 1\nZ 18\n",
     .text = "papers 4\naccepted 3\nrefused 4 1\nshare 3/4\n",
     .over_text = "papers 4\naccepted 1\nrefused 4 1\nrefused 25 2\nshare 1/4\n",
     .papers = 4,
     .accepted = 3,
     .over_accepted = 1},
    {.name = "a trailer that points at an earlier paper",
     .sheet = "H 1 1 0\nG -\nZ 12\nH 1 1 0\nG -\nZ 29\n",
     .text = "papers 1\naccepted 0\nrefused 4 1\nshare 0/1\n",
     .papers = 1},
    {.name = "31, no trailer", .sheet = "\n", .number = 31},
    {.name = "31, no line feed", .sheet = "H\nZ 2", .number = 31},
    {.name = "31, at its own Z", .sheet = "Z 0\n", .number = 31},
    {.name = "31, before the first byte", .sheet = "H\nZ 3\n", .number = 31},
    {.name = "31, before the first byte by 64 bits", .sheet = "H\nZ 18446744073709551618\n", .number = 31},
    {.name = "31, not at an H", .sheet = "H\nZ 2\nH\nZ 3\n", .number = 31},
    {.name = "31, other bytes in front", .sheet = "X\nH\nZ 2\n", .number = 31},
    {.name = "31, other bytes between", .sheet = "H\nZ 2\n\nH\nZ 2\n", .number = 31},
    {.name = "31, other bytes behind", .sheet = "H\nZ 2\n ", .number = 31},
};

/* A sheet with so much output lent: what is said of it, the text at the front of the output, and nothing else is touched. */
static void count(const char *name, const char *sheet, size_t length, size_t lent, struct dabzhoni_session w, const char *text) {
  fill();
  struct dabzhoni_session s = course->sheet((const uint8_t *)sheet, length, out, lent);
  if (memcmp(&s, &w, sizeof s))
    printf("%s: number %zu, line %zu, papers %zu, accepted %zu, written %zu\n", name, s.number, s.line, s.papers, s.accepted, s.written);
  expect(name, !memcmp(&s, &w, sizeof s));
  if (!listed(text, "")) printf("%s, %zu bytes of output, ", name, lent);
  expect("text of a sheet", listed(text, ""));
}

/* With the output that must be lent, with one byte more, with one too few, and with none. */
static void count_in(const struct sheet *t, size_t length) {
  const struct dabzhoni_session seven = {.number = 7};
  bool over = course == &SHORT && t->over_text;
  const char *text = t->number == 1 ? "refused 0 1\n" : t->number ? "refused 0 31\n" : over ? t->over_text : t->text;
  struct dabzhoni_session w = {t->number, 0, t->papers, over ? t->over_accepted : t->accepted, strlen(text)};
  count(t->name, t->sheet, length, OUT, w, text);
  count(t->name, t->sheet, length, OUT + 1, w, text);
  count(t->name, t->sheet, length, OUT - 1, seven, "");
  count(t->name, t->sheet, length, 0, seven, "");
}

/* The most papers, and a sheet with one more: 65,532 and 65,538 bytes; and 65,536 and 65,537 bytes that are no papers. */
static void long_sheets(void) {
  static char sheet[65539];
  for (int i = 0; i < 10923; i++) memcpy(sheet + 6 * i, "H\nZ 2\n", 6);
  const char *text = "papers 10922\naccepted 0\nrefused 3 10922\nshare 0/1\n";
  count_in(&(struct sheet){.name = "the most papers", .sheet = sheet, .text = text, .papers = 10922}, 65532);
  count_in(&(struct sheet){.name = "31, 65,536 bytes", .sheet = sheet, .number = 31}, 65536);
  count_in(&(struct sheet){.name = "1, before 31", .sheet = sheet, .number = 1}, 65537);
  count_in(&(struct sheet){.name = "1, one paper more", .sheet = sheet, .number = 1}, 65538);
}

static void all(const struct course *c) {
  course = c;
  steps();
  volatiles();
  waiting();
  wide_values();
  wide_positions();
  for (size_t i = 0; i < sizeof PAPERS / sizeof *PAPERS; i++) {
    mark(&PAPERS[i]);
    lent_too_little(&PAPERS[i]);
  }
  too_long();
  thousand_locks();
  about_two_hundred();
  for (size_t i = 0; i < sizeof TAILS / sizeof *TAILS; i++) finish_in(&TAILS[i]);
  longest_tail();
  for (size_t i = 0; i < sizeof SHEETS / sizeof *SHEETS; i++) count_in(&SHEETS[i], strlen(SHEETS[i].sheet));
  long_sheets();
}

int main(void) {
  all(&FULL);
  all(&SHORT);
  printf("%d passed, %d failed\n", passed, failed);
  return failed != 0;
}
