/* Runs by chance, in which data races are seen. A run changes the thread seldom or often, by chance too. */
#include <stdio.h>
#include "state.h"

enum { MOST_STEPS = 100000 };
static struct transition path[MOST_STEPS + 1];
static size_t steps; /* of the present run */

static u64 chance(u64 below) {
  seed ^= seed << 13;
  seed ^= seed >> 7;
  seed ^= seed << 17;
  return (seed * 0x2545F4914F6CDD1D >> 33) % below;
}

/* One of these transitions. It seldom lets a sleep end without a wake, and the higher `stay` is, the more seldom it lets
 * another thread go on than the one that was last. */
static struct transition choose(const struct transition *to, int choices, int last, u64 stay) {
  int pick = (int)chance((u64)choices);
  if (to[pick].variant >= TIMEOUT && chance(4)) pick = (int)chance((u64)choices);
  if (stay && chance(4 * stay))
    for (int i = 0; i < choices; i++)
      if (to[i].fiber == last && to[i].variant < TIMEOUT) pick = i;
  return to[pick];
}

/* One run from the first state to its end. It leaves what it finds in `fault`. */
static void run_once(void) {
  int last = -1;
  u64 stay = chance(4);
  for (steps = 0; steps < MOST_STEPS && !fault; steps++) {
    struct transition to[MOST_TRANSITIONS];
    int by_time, choices = transitions(to, &by_time);
    if (choices == 0 || (choices == by_time && !scenario->timeouts_may_be_needed)) break;
    path[steps] = choose(to, choices, last, stay);
    last = path[steps].fiber;
    make(path[steps]);
  }
  detects_races = false;
  if (fault) return;
  if (!all_finished()) fault = steps == MOST_STEPS ? "a run has no end" : "only a time that is over lets a thread go on";
  else end_run();
}

/* A race is seen again as it is printed, so that the path ends there. */
static int say_fault(u64 run, const u8 *first) {
  const char *what = fault;
  printf("%s: FAULT in run %lu: %s\n", scenario->name, (unsigned long)run, what);
  if (strncmp(what, "a data race", 11) == 0) begin_clocks(), detects_races = true;
  print_trace(path, steps, first);
  return FAULTY;
}

int run_by_chance(u64 runs) {
  u8 *first = malloc(1 << 20);
  make_shadows();
  begin_run();
  save(first);
  u64 made = 0, run = 0;
  while (run < runs && !is_time_over) {
    restore(first);
    begin_clocks();
    detects_races = true;
    run_once();
    run++;
    made += steps;
    if (fault) return say_fault(run, first);
  }
  printf("%-24s %lu runs, %lu transitions, no race\n", scenario->name, (unsigned long)run, (unsigned long)made);
  return RIGHT;
}
