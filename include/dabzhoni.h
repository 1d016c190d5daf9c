/* A whole trace marked into lent memory, the tail that finishes it, the counts of a session sheet, and one step over a state that the caller
   keeps. Link target/staticlib/libc_api.a, which `tests/library` writes. Numbers are those of documents 01 and 02: a refusal's number, and
   a line of the trace.
   What every entry asks of its caller, which no contract checks:
   - every buffer and every state handed in is initialised memory, as zeros are, even where it is only written; each bool of a state is 0 or 1.
     Padding may be anything.
   - no pointer is null, that of an empty buffer included. Each is aligned to its type: a state, values, order and scratch to 8 bytes, what to
     4. A length is a number of places, and the buffer has so many. No two of those handed in overlap.
   - during the call nothing else writes to any of them, and nothing else reads any but paper and sheet.
   - the calling thread has the stack that the entry needs. At most so many bytes were touched in the tests, on x86-64: by dabzhoni_mark and
     dabzhoni_mark_short 87,608, by the two that give no order 84,920, by dabzhoni_finish and dabzhoni_finish_short 114,360, by dabzhoni_sheet
     and dabzhoni_sheet_short 85,560, by dabzhoni_step and dabzhoni_step_short 293,944, by dabzhoni_initial none. Each of them was run on a
     stack of 512 KiB. */
#ifndef DABZHONI_H
#define DABZHONI_H

#include <assert.h>
#include <stdbool.h>
#include <stddef.h>
#include <stdint.h>

#ifdef __cplusplus
extern "C" {
#define DABZHONI_ASSERT static_assert
#else
#define DABZHONI_ASSERT _Static_assert
#endif

/* How many threads (1 to 8), variables (1 to 16) and locks (0 to 8) are declared; in the short course 1 to 2, 1 to 4 and 0 to 2. Which of the
   variables are volatile: volatiles[v] is of variable v, and false where v is not declared. */
struct dabzhoni_counts {
  size_t threads;
  size_t variables;
  size_t locks;
  bool volatiles[16];
};

/* A queue of at most eight: its oldest is at place first (modulo 8). */
struct dabzhoni_ring {
  uint8_t first;
  uint8_t len;
};

/* What is kept for one thread and variable, volatile or not; a position is 0 where there is none.
   copy: the value of the latest A, B or L, usable where source is above the thread's locked. announced: the value of the latest P.
   source: the greatest position of an A, a B or the read of an L. written: the position of the latest W. loaded: that of the latest load's
   read. used: that of the read that was loaded at the latest use. assigned: that of the latest A.
   reads, stores: the queues of the reads and of the stores (S and P) that are outstanding.
   fresh: the latest of A, B and S is an A. pending: the latest of P and B is a P, whose assign is owed. after_load, after_assign: the
   thread's latest event on the variable, R and W left aside, is an L, an A. */
struct dabzhoni_cell {
  int64_t copy;
  int64_t announced;
  size_t source;
  size_t written;
  size_t loaded;
  size_t used;
  size_t assigned;
  struct dabzhoni_ring reads;
  struct dabzhoni_ring stores;
  bool fresh;
  bool pending;
  bool after_load;
  bool after_assign;
};

/* An outstanding read or store: its value, and its position. The position of a store (S) is that of its assign, the thread's latest A on the
   variable before it; that of a read or of an early store (P) is its own. */
struct dabzhoni_slot {
  int64_t value;
  size_t position;
};

/* Who holds a lock: the thread's number plus 1, or 0, and how many times. */
struct dabzhoni_hold {
  size_t holder;
  uint32_t depth;
};

/* What a thread waits for, from its Y to its C: the lock's number plus 1, or 0 where it does not wait, how many times it held the lock before
   the Y, and whether it has been notified since. */
struct dabzhoni_wait {
  size_t lock;
  uint32_t depth;
  bool notified;
};

/* The state. The cell of thread t and variable v is number 16 * t + v; its eight places begin at 8 times that number. source, written, loaded,
   used, assigned, position and locked are positions: an event's number among those so far, from 1, or 0. locked is that of the thread's last K
   or C. waits[t] is of thread t. Padding is no part of the state: after dabzhoni_initial and after an accepted event it may be anything. A
   refusal leaves it as it was in all tests; no contract speaks of it. */
struct dabzhoni_state {
  struct dabzhoni_counts counts;
  uint32_t events;
  struct dabzhoni_cell cells[128];
  struct dabzhoni_slot reads[1024];
  struct dabzhoni_slot stores[1024];
  size_t locked[8];
  struct dabzhoni_hold holds[8];
  int64_t memory[16];
  struct dabzhoni_wait waits[8];
};

/* The number of a refusal and its line; both are 0 where the event is accepted. */
struct dabzhoni_reply {
  size_t number;
  size_t line;
};

DABZHONI_ASSERT(sizeof(size_t) == 8, "a size is of 64 bits");
DABZHONI_ASSERT(sizeof(bool) == 1, "a bool is one byte");
DABZHONI_ASSERT(offsetof(struct dabzhoni_counts, threads) == 0, "layout of the counts");
DABZHONI_ASSERT(offsetof(struct dabzhoni_counts, variables) == 8, "layout of the counts");
DABZHONI_ASSERT(offsetof(struct dabzhoni_counts, locks) == 16, "layout of the counts");
DABZHONI_ASSERT(offsetof(struct dabzhoni_counts, volatiles) == 24, "layout of the counts");
DABZHONI_ASSERT(sizeof(struct dabzhoni_counts) == 40, "layout of the counts");
DABZHONI_ASSERT(offsetof(struct dabzhoni_ring, first) == 0, "layout of a queue");
DABZHONI_ASSERT(offsetof(struct dabzhoni_ring, len) == 1, "layout of a queue");
DABZHONI_ASSERT(sizeof(struct dabzhoni_ring) == 2, "layout of a queue");
DABZHONI_ASSERT(offsetof(struct dabzhoni_cell, copy) == 0, "layout of a cell");
DABZHONI_ASSERT(offsetof(struct dabzhoni_cell, announced) == 8, "layout of a cell");
DABZHONI_ASSERT(offsetof(struct dabzhoni_cell, source) == 16, "layout of a cell");
DABZHONI_ASSERT(offsetof(struct dabzhoni_cell, written) == 24, "layout of a cell");
DABZHONI_ASSERT(offsetof(struct dabzhoni_cell, loaded) == 32, "layout of a cell");
DABZHONI_ASSERT(offsetof(struct dabzhoni_cell, used) == 40, "layout of a cell");
DABZHONI_ASSERT(offsetof(struct dabzhoni_cell, assigned) == 48, "layout of a cell");
DABZHONI_ASSERT(offsetof(struct dabzhoni_cell, reads) == 56, "layout of a cell");
DABZHONI_ASSERT(offsetof(struct dabzhoni_cell, stores) == 58, "layout of a cell");
DABZHONI_ASSERT(offsetof(struct dabzhoni_cell, fresh) == 60, "layout of a cell");
DABZHONI_ASSERT(offsetof(struct dabzhoni_cell, pending) == 61, "layout of a cell");
DABZHONI_ASSERT(offsetof(struct dabzhoni_cell, after_load) == 62, "layout of a cell");
DABZHONI_ASSERT(offsetof(struct dabzhoni_cell, after_assign) == 63, "layout of a cell");
DABZHONI_ASSERT(sizeof(struct dabzhoni_cell) == 64, "layout of a cell");
DABZHONI_ASSERT(offsetof(struct dabzhoni_slot, value) == 0, "layout of a slot");
DABZHONI_ASSERT(offsetof(struct dabzhoni_slot, position) == 8, "layout of a slot");
DABZHONI_ASSERT(sizeof(struct dabzhoni_slot) == 16, "layout of a slot");
DABZHONI_ASSERT(offsetof(struct dabzhoni_hold, holder) == 0, "layout of a hold");
DABZHONI_ASSERT(offsetof(struct dabzhoni_hold, depth) == 8, "layout of a hold");
DABZHONI_ASSERT(sizeof(struct dabzhoni_hold) == 16, "layout of a hold");
DABZHONI_ASSERT(offsetof(struct dabzhoni_wait, lock) == 0, "layout of a wait");
DABZHONI_ASSERT(offsetof(struct dabzhoni_wait, depth) == 8, "layout of a wait");
DABZHONI_ASSERT(offsetof(struct dabzhoni_wait, notified) == 12, "layout of a wait");
DABZHONI_ASSERT(sizeof(struct dabzhoni_wait) == 16, "layout of a wait");
DABZHONI_ASSERT(offsetof(struct dabzhoni_state, counts) == 0, "layout of the state");
DABZHONI_ASSERT(offsetof(struct dabzhoni_state, events) == 40, "layout of the state");
DABZHONI_ASSERT(offsetof(struct dabzhoni_state, cells) == 48, "layout of the state");
DABZHONI_ASSERT(offsetof(struct dabzhoni_state, reads) == 8240, "layout of the state");
DABZHONI_ASSERT(offsetof(struct dabzhoni_state, stores) == 24624, "layout of the state");
DABZHONI_ASSERT(offsetof(struct dabzhoni_state, locked) == 41008, "layout of the state");
DABZHONI_ASSERT(offsetof(struct dabzhoni_state, holds) == 41072, "layout of the state");
DABZHONI_ASSERT(offsetof(struct dabzhoni_state, memory) == 41200, "layout of the state");
DABZHONI_ASSERT(offsetof(struct dabzhoni_state, waits) == 41328, "layout of the state");
DABZHONI_ASSERT(sizeof(struct dabzhoni_state) == 41456, "layout of the state");
DABZHONI_ASSERT(offsetof(struct dabzhoni_reply, number) == 0, "layout of a reply");
DABZHONI_ASSERT(offsetof(struct dabzhoni_reply, line) == 8, "layout of a reply");
DABZHONI_ASSERT(sizeof(struct dabzhoni_reply) == 16, "layout of a reply");

/* What is said of a trace. number and line are those of its refusal, both 0 where it is accepted; events is the number of events of an
   accepted trace, else 0; written is the length of the listing. After 7 all but number is 0. After another refusal the listing is the one line
   `refused line number`, and all but number, line and written is 0. Of the order of a trace there are three cases:
   an order: ordered is 1, sections is how many entries the order list has, which may be 0, denial and denial_line are 0;
   an order denied: ordered and sections are 0, denial is 20, 21 or 22, and denial_line its line;
   no order, with G -, after a refusal and where none is wanted: all four are 0. */
struct dabzhoni_marked {
  size_t number;
  size_t line;
  size_t events;
  size_t written;
  size_t ordered;
  size_t sections;
  size_t denial;
  size_t denial_line;
};

DABZHONI_ASSERT(offsetof(struct dabzhoni_marked, number) == 0, "layout of what is said of a trace");
DABZHONI_ASSERT(offsetof(struct dabzhoni_marked, line) == 8, "layout of what is said of a trace");
DABZHONI_ASSERT(offsetof(struct dabzhoni_marked, events) == 16, "layout of what is said of a trace");
DABZHONI_ASSERT(offsetof(struct dabzhoni_marked, written) == 24, "layout of what is said of a trace");
DABZHONI_ASSERT(offsetof(struct dabzhoni_marked, ordered) == 32, "layout of what is said of a trace");
DABZHONI_ASSERT(offsetof(struct dabzhoni_marked, sections) == 40, "layout of what is said of a trace");
DABZHONI_ASSERT(offsetof(struct dabzhoni_marked, denial) == 48, "layout of what is said of a trace");
DABZHONI_ASSERT(offsetof(struct dabzhoni_marked, denial_line) == 56, "layout of what is said of a trace");
DABZHONI_ASSERT(sizeof(struct dabzhoni_marked) == 64, "layout of what is said of a trace");

/* Marks a whole trace, its order included.
   paper: the bytes.
   what, values: two rows. The record of event line n, from 0, is at place n of both: letter * 65536 + thread * 256 + variable or lock
   in what, and the value in values, the notified thread for F, 0 for K, N, Y and C. Written for an accepted trace alone.
   out: the listing goes to its front.
   order: where there is an order, one entry for each section at the front, thread * 2^24 + last line * 2^12 + first line.
   scratch: all of it zeros where there is an order; what it held before does not matter.
   All other places of these five stay as they were. Refusal 7, before all: what or values under 2,000 places, out under 32,768 bytes,
   order or scratch under 1,000 places; nothing is touched then. */
struct dabzhoni_marked dabzhoni_mark(const uint8_t *paper, size_t paper_len, uint32_t *what, size_t what_len, int64_t *values,
                                     size_t values_len, uint8_t *out, size_t out_len, uint64_t *order, size_t order_len,
                                     uint64_t *scratch, size_t scratch_len);

/* The same where no order is wanted: refusal 7 asks the records and the output alone, the listing ends with the copies, and ordered,
   sections, denial and denial_line are 0. */
struct dabzhoni_marked dabzhoni_mark_unordered(const uint8_t *paper, size_t paper_len, uint32_t *what, size_t what_len,
                                               int64_t *values, size_t values_len, uint8_t *out, size_t out_len);

/* The short course: at most 2 threads, 4 variables, 2 locks and 200 events. The two entries above have one each for its papers, lent the
   same lengths. Refusal 25 is over these limits: at line 1, after 3 and before 6, where the head declares more; in place of 9 at the line of
   the 201st event, 203, or 204 behind a V line. Any other trace is answered as above. */
struct dabzhoni_marked dabzhoni_mark_short(const uint8_t *paper, size_t paper_len, uint32_t *what, size_t what_len, int64_t *values,
                                           size_t values_len, uint8_t *out, size_t out_len, uint64_t *order, size_t order_len,
                                           uint64_t *scratch, size_t scratch_len);

struct dabzhoni_marked dabzhoni_mark_short_unordered(const uint8_t *paper, size_t paper_len, uint32_t *what, size_t what_len,
                                                     int64_t *values, size_t values_len, uint8_t *out, size_t out_len);

/* What is said of the tail of a trace. number and line are those of a refusal, both 0 where a tail is given; events is how many events it has,
   which may be 0, and first the line that the first of them has in the paper, that of the trailer; both are 0 after a refusal. */
struct dabzhoni_tail {
  size_t number;
  size_t line;
  size_t events;
  size_t first;
};

DABZHONI_ASSERT(offsetof(struct dabzhoni_tail, number) == 0, "layout of what is said of a tail");
DABZHONI_ASSERT(offsetof(struct dabzhoni_tail, line) == 8, "layout of what is said of a tail");
DABZHONI_ASSERT(offsetof(struct dabzhoni_tail, events) == 16, "layout of what is said of a tail");
DABZHONI_ASSERT(offsetof(struct dabzhoni_tail, first) == 24, "layout of what is said of a tail");
DABZHONI_ASSERT(sizeof(struct dabzhoni_tail) == 32, "layout of what is said of a tail");

/* Gives a shortest tail of an accepted trace: events after which nothing is outstanding, fresh, owed or held.
   what, values: two rows for its records, as those of a trace; event n, from 0, is at place n of both, and its line is first + n. All of the
   tail is written or nothing; places past it stay as they were. A tail has at most 2,256 events.
   A refused trace gives its own refusal. Then 24, line 0: a V line, a Y, F or C among the events, or fewer places in what or in values than the
   tail has events. Refusal 7 is not asked. */
struct dabzhoni_tail dabzhoni_finish(const uint8_t *paper, size_t paper_len, uint32_t *what, size_t what_len, int64_t *values,
                                     size_t values_len);

/* The same for a paper of the short course: what is over its limits is 25, and any other trace is answered as above. */
struct dabzhoni_tail dabzhoni_finish_short(const uint8_t *paper, size_t paper_len, uint32_t *what, size_t what_len, int64_t *values,
                                           size_t values_len);

/* What is said of a session sheet. number and line are those of its refusal, both 0 where its papers are counted; papers is how many there are,
   which may be 0, and accepted how many of them are accepted; both are 0 after a refusal. written is the length of the text. */
struct dabzhoni_session {
  size_t number;
  size_t line;
  size_t papers;
  size_t accepted;
  size_t written;
};

DABZHONI_ASSERT(offsetof(struct dabzhoni_session, number) == 0, "layout of what is said of a sheet");
DABZHONI_ASSERT(offsetof(struct dabzhoni_session, line) == 8, "layout of what is said of a sheet");
DABZHONI_ASSERT(offsetof(struct dabzhoni_session, papers) == 16, "layout of what is said of a sheet");
DABZHONI_ASSERT(offsetof(struct dabzhoni_session, accepted) == 24, "layout of what is said of a sheet");
DABZHONI_ASSERT(offsetof(struct dabzhoni_session, written) == 32, "layout of what is said of a sheet");
DABZHONI_ASSERT(sizeof(struct dabzhoni_session) == 40, "layout of what is said of a sheet");

/* Marks the papers of a session sheet, which are joined end to end and found from the last trailer backwards, and counts them.
   sheet: the bytes.
   out: the text goes to its front: `papers n`, `accepted n`, `refused number n` for each number that occurs, rising, and `share a/b`, in lowest
   terms; bytes past it stay as they were. A paper whose order is denied is accepted.
   Refusals, all at line 0: 7, before all, out under 32,768 bytes; nothing is touched then, and all but number is 0. 1, over 65,536 bytes.
   31, what is left does not end in a trailer, or a trailer points before the first byte or not at an H. After 1 and 31 the text is the one line
   `refused 0 number`. */
struct dabzhoni_session dabzhoni_sheet(const uint8_t *sheet, size_t sheet_len, uint8_t *out, size_t out_len);

/* The same for papers of the short course: what is over its limits is 25. */
struct dabzhoni_session dabzhoni_sheet_short(const uint8_t *sheet, size_t sheet_len, uint8_t *out, size_t out_len);

/* Makes the state before the first event, in both courses, in memory that is a state already, as zeros are. Counts out of range are kept, and
   each step, whatever its letter, is then refused by 8. No thread waits and no variable is volatile: for a trace with a V line the caller sets
   counts.volatiles afterwards, before the first step; with the flag of an undeclared variable set each step, whatever its letter, is refused
   by 8. */
void dabzhoni_initial(struct dabzhoni_state *state, size_t threads, size_t variables, size_t locks);

/* One event: its letter, thread, variable or lock, and value: for F the thread that it notifies; not looked at for K, N, Y and C. 8, 4, 9, 5,
   then the letter's row, led by 29 and 30, and on a volatile variable by 26, 27 and 28 behind them; each with the events so far plus 3 as its
   line, or plus 4 where a variable is volatile, and 0 for 8. 4 is a letter that is none of the thirteen, U A L S R W K N P B Y F C. A thread to
   be notified that is negative or not declared is 5. 8 asks of each of the eight waits with a lock that the lock is declared, and its depth at
   least 1 and at most the events so far; of one without a lock it asks nothing. A refusal leaves the state as it was. */
struct dabzhoni_reply dabzhoni_step(struct dabzhoni_state *state, uint8_t letter, size_t thread, size_t place, int64_t value);

/* The same for the short course: counts above 2, 4 and 2 or more than 200 events so far are 8 too, and 25, in place of 9, is that 200
   events are already in: at line 203, or 204 where a variable is volatile. Any other state is answered and changed as above. */
struct dabzhoni_reply dabzhoni_step_short(struct dabzhoni_state *state, uint8_t letter, size_t thread, size_t place, int64_t value);

#ifdef __cplusplus
}
#endif

#endif
