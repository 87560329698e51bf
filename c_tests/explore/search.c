/* The search: every state of a scenario, each once, depth first over all transitions. */
#include <stdio.h>
#include <sys/mman.h>
#include <time.h>
#include "state.h"

/* A state of which not all transitions have been made. */
struct frame {
  u32 state;
  u8 *saved;
  int count, next;
  struct transition to[MOST_TRANSITIONS];
};
static const u64 pool_bytes = 8ul << 30, stack_bytes = 4ul << 30, most_bytes_of_a_state = 1 << 20;
static struct frame *stack;
static u8 *pool, *free_at;
static u64 depth, deepest, transitions_made;
static u32 number; /* of the present state */

static void *reserve(size_t bytes) {
  return mmap(NULL, bytes, PROT_READ | PROT_WRITE, MAP_PRIVATE | MAP_ANONYMOUS | MAP_NORESERVE, -1, 0);
}

/* Says what was found in this state, and after this transition if there is one. */
static int say_fault(const char *when, const char *what, u32 state, const struct transition *last) {
  printf("%s: FAULT %safter %lu states: %s\n", scenario->name, when, (unsigned long)states_found(), what);
  size_t count;
  struct transition *path = path_to(state, &count);
  if (last) path[count++] = *last;
  print_trace(path, count, pool);
  return FAULTY;
}

/* Why no state may be like this one, from which these transitions lead on, or null. */
static const char *name_stuck(const struct frame *f, int by_time) {
  if (f->count > by_time || all_finished()) return NULL;
  const char *only_time = scenario->timeouts_may_be_needed ? NULL : "only a time that is over lets a thread go on";
  for (int i = 0; i < f->count; i++)
    if (f->to[i].variant == TIMEOUT) return only_time;
  return "no thread can go on";
}

/* Takes up a new state, whose saved form ends here. */
static int take_up(u8 *end, u64 hash) {
  struct frame *f = &stack[depth];
  int by_time;
  *f = (struct frame){number, free_at, 0, 0, {{0}}};
  f->count = transitions(f->to, &by_time);
  const char *stuck = name_stuck(f, by_time);
  if (stuck) return say_fault("", stuck, number, NULL);
  if (f->count == 0) {
    add_end(number, hash);
    end_run();
    return fault ? say_fault("at the end, ", fault, number, NULL) : RIGHT;
  }
  free_at = end;
  if (++depth > deepest) deepest = depth;
  bool is_full = free_at > pool + pool_bytes - most_bytes_of_a_state || (depth + 2) * sizeof *stack > stack_bytes;
  return is_full || states_found() >= most_states || is_time_over ? CUT_OFF : RIGHT;
}

/* Makes the next transition of the topmost state. */
static int go_on(struct frame *f) {
  struct transition t = f->to[f->next++];
  if (number != f->state) restore(f->saved);
  make(t);
  transitions_made++;
  if (fault) return say_fault("", fault, f->state, &t);
  u8 *end = save(free_at);
  u64 hash = hash_of(free_at, (size_t)(end - free_at));
  bool is_new;
  number = find_state(hash, f->state, t, &is_new);
  if (looks_for_ends) add_transition(f->state, number);
  if (is_new) return take_up(end, hash);
  return RIGHT;
}

static int search(void) {
  bool is_new;
  begin_run();
  pool = free_at = reserve(pool_bytes);
  stack = reserve(stack_bytes);
  u8 *end = save(pool);
  number = find_state(hash_of(pool, (size_t)(end - pool)), 0, (struct transition){0, 0}, &is_new);
  int outcome = take_up(end, 0);
  while (depth && outcome == RIGHT) {
    struct frame *f = &stack[depth - 1];
    if (f->next < f->count) {
      outcome = go_on(f);
      continue;
    }
    free_at = f->saved;
    depth--;
  }
  return outcome;
}

int explore_all(void) {
  int outcome = search();
  if (outcome == FAULTY) return outcome;
  u32 one = 0;
  u64 states = states_found(), without = looks_for_ends && outcome == RIGHT ? count_states_without_end(states, &one) : 0;
  if (without) {
    printf("%lu of %lu states reach no end; ", (unsigned long)without, (unsigned long)states);
    return say_fault("", "from some state no end can be reached", one, NULL);
  }
  printf("%-24s %s%lu states, %lu transitions, %lu ends of sum %016lx, depth %lu, %.1f s\n", scenario->name,
         outcome == CUT_OFF ? "CUT OFF " : "", (unsigned long)states, (unsigned long)transitions_made,
         (unsigned long)ends_found(), (unsigned long)sum_of_ends(), (unsigned long)deepest,
         (double)clock() / CLOCKS_PER_SEC);
  return outcome;
}
