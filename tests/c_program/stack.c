/* Runs one entry of the C interface on a thread with a stack of SIZE KB, on the paper or sheet that it reads from standard input, and writes the
   answer:
     stack mark SIZE                   the listing
     stack mark_unordered SIZE
     stack step SIZE                   `accepted n` or `refused line number`: the paper's events one by one, each of the form of an event
     stack out_of_range SIZE           number and line of a step of each kind, and of no letter, from a state that refusal 8 refuses
     stack finish SIZE                 the lines of the tail, or `refused line number`
     stack sheet SIZE                  the text of the sheet
     stack finish_short SIZE, stack mark_short SIZE, stack mark_short_unordered SIZE, stack step_short SIZE, stack out_of_range_short SIZE,
     stack sheet_short SIZE            the same in the short course
   and to standard error the entry's name and how many bytes of stack it touched, those of a thread that does nothing left aside. A guard
   page lies below the stack: an entry that needs more ends the program with signal 11. */
#define _GNU_SOURCE
#include "dabzhoni.h"

#include <inttypes.h>
#include <pthread.h>
#include <stdio.h>
#include <stdlib.h>
#include <string.h>
#include <sys/mman.h>

enum { PAGE = 4096, PAINT = 0xa5, MOST = 65537 };

static uint8_t paper[MOST + 1];
static size_t length;
static uint32_t what[2000];
static int64_t values[2000];
static uint8_t out[32768];
static uint64_t order[1000], scratch[1000];
static bool short_course;
static struct dabzhoni_marked marked;

static uint32_t tail_what[2256];
static int64_t tail_values[2256];
static struct dabzhoni_tail tail;
static struct dabzhoni_session session;

static struct dabzhoni_state state;
static size_t threads, variables, locks;
static bool volatiles[16];
static size_t events, taken;
static struct event {
  char letter;
  size_t thread, place;
  int64_t value;
} list[2001];
static struct dabzhoni_reply reply;

static void *nothing(void *p) { return p; }

static void *mark(void *p) {
  marked = (short_course ? dabzhoni_mark_short : dabzhoni_mark)(paper, length, what, 2000, values, 2000, out, sizeof out, order, 1000,
                                                                scratch, 1000);
  return p;
}

static void *mark_unordered(void *p) {
  marked = (short_course ? dabzhoni_mark_short_unordered : dabzhoni_mark_unordered)(paper, length, what, 2000, values, 2000, out,
                                                                                    sizeof out);
  return p;
}

static void *finish(void *p) {
  tail = (short_course ? dabzhoni_finish_short : dabzhoni_finish)(paper, length, tail_what, 2256, tail_values, 2256);
  return p;
}

/* The lines of the tail, whose events are of the ten kinds. */
static void print_tail(void) {
  if (tail.number) printf("refused %zu %zu\n", tail.line, tail.number);
  for (size_t i = 0; i < tail.events; i++) {
    uint32_t w = tail_what[i];
    printf("%c %u %u", (int)(w >> 16), w >> 8 & 255, w & 255);
    if (w >> 16 != 'N') printf(" %" PRId64, tail_values[i]);
    printf("\n");
  }
}

static void *sheet(void *p) {
  session = (short_course ? dabzhoni_sheet_short : dabzhoni_sheet)(paper, length, out, sizeof out);
  return p;
}

static void *initial(void *p) {
  dabzhoni_initial(&state, threads, variables, locks);
  memcpy(state.counts.volatiles, volatiles, sizeof volatiles);
  return p;
}

/* The events of the list, up to the first that is refused. */
static void *steps(void *p) {
  for (taken = 0; taken < events; taken++) {
    const struct event *e = &list[taken];
    reply = (short_course ? dabzhoni_step_short : dabzhoni_step)(&state, (uint8_t)e->letter, e->thread, e->place, e->value);
    if (reply.number) break;
  }
  return p;
}

/* Runs f on a thread with so many bytes of stack. How many it touched. */
static size_t touched(void *(*f)(void *), size_t size) {
  static uint8_t *stack;
  pthread_attr_t attributes;
  pthread_t id;
  if (!stack) {
    stack = mmap(NULL, PAGE + size, PROT_READ | PROT_WRITE, MAP_PRIVATE | MAP_ANONYMOUS, -1, 0);
    if (stack == MAP_FAILED || mprotect(stack, PAGE, PROT_NONE)) exit(2);
    stack += PAGE;
  }
  memset(stack, PAINT, size);
  if (pthread_attr_init(&attributes) || pthread_attr_setstack(&attributes, stack, size)) exit(2);
  if (pthread_create(&id, &attributes, f, NULL) || pthread_join(id, NULL)) exit(2);
  pthread_attr_destroy(&attributes);
  size_t at = 0;
  while (at < size && stack[at] == PAINT) at++;
  return size - at;
}

static void need(const char *entry, void *(*f)(void *), size_t size) {
  size_t used = touched(f, size);
  fprintf(stderr, "dabzhoni_%s %zu\n", entry, used - touched(nothing, size));
}

/* Counts, volatile variables and events of the paper, each line of the form of an event. */
static void read_events(void) {
  const char *at = (const char *)paper;
  if (sscanf(at, "H %zu %zu %zu", &threads, &variables, &locks) != 3) exit(2);
  at = strchr(at, 10) + 1;
  at = strchr(at, 10) + 1;
  if (*at == 'V') {
    for (at++; *at == ' ';) volatiles[strtoul(at, (char **)&at, 10) % 16] = true;
    at++;
  }
  for (; *at != 'Z' && events < 2001; at = strchr(at, 10) + 1) {
    struct event *e = &list[events++];
    if (sscanf(at, "%c %zu %zu %" SCNd64, &e->letter, &e->thread, &e->place, &e->value) < 3) exit(2);
  }
}

/* Whether the entry is this one, of either course. */
static bool is(const char *entry, const char *full, const char *of_short) {
  short_course = !strcmp(entry, of_short);
  return short_course || !strcmp(entry, full);
}

int main(int count, char **args) {
  const char *entry = count > 2 ? args[1] : "";
  size_t size = count > 2 ? strtoul(args[2], NULL, 10) * 1024 : 0;
  if (size < 16384) return 2;
  length = fread(paper, 1, MOST, stdin);
  if (is(entry, "mark", "mark_short")) {
    need(entry, mark, size);
    fwrite(out, 1, marked.written, stdout);
  } else if (is(entry, "mark_unordered", "mark_short_unordered")) {
    need(entry, mark_unordered, size);
    fwrite(out, 1, marked.written, stdout);
  } else if (is(entry, "finish", "finish_short")) {
    need(entry, finish, size);
    print_tail();
  } else if (is(entry, "sheet", "sheet_short")) {
    need(entry, sheet, size);
    fwrite(out, 1, session.written, stdout);
  } else if (is(entry, "step", "step_short")) {
    read_events();
    need("initial", initial, size);
    need(entry, steps, size);
    if (reply.number) {
      printf("refused %zu %zu\n", reply.line, reply.number);
    } else {
      printf("accepted %zu\n", taken);
    }
  } else if (is(entry, "out_of_range", "out_of_range_short")) {
    if (short_course) {
      dabzhoni_initial(&state, 2, 4, 2);
    } else {
      dabzhoni_initial(&state, 8, 16, 8);
    }
    state.holds[7].depth = 1;
    events = 1;
    for (const char *k = "UALSRWKNPBYFCX"; *k; k++) {
      list[0].letter = *k;
      need(short_course ? "step_short" : "step", steps, size);
      printf("%zu %zu\n", reply.number, reply.line);
    }
  } else {
    return 2;
  }
  return 0;
}
