/* The states that were found: a table of their hashes, and for each the transition by which it was found first. The states
 * have numbers from 0 on, in the order in which they were found. */
#include "state.h"

static u64 *hashes; /* 0 in an empty slot */
static u32 *numbers;
static u64 slots, states;
static u32 *origins;
static struct transition *by;

u64 states_found(void) { return states; }

static u64 slot_for(u64 hash) {
  u64 at = hash & (slots - 1);
  while (hashes[at] && hashes[at] != hash) at = (at + 1) & (slots - 1);
  return at;
}

/* The table is at most half full. */
static void make_room(void) {
  u64 before = slots, *old_hashes = hashes;
  u32 *old_numbers = numbers;
  slots = before ? 2 * before : 1 << 16;
  hashes = calloc(slots, sizeof *hashes);
  numbers = malloc(slots * sizeof *numbers);
  origins = realloc(origins, slots / 2 * sizeof *origins);
  by = realloc(by, slots / 2 * sizeof *by);
  for (u64 i = 0; i < before; i++) {
    if (!old_hashes[i]) continue;
    u64 at = slot_for(old_hashes[i]);
    hashes[at] = old_hashes[i];
    numbers[at] = old_numbers[i];
  }
  free(old_hashes);
  free(old_numbers);
}

u32 find_state(u64 hash, u32 origin, struct transition last, bool *is_new) {
  if (2 * states >= slots) make_room();
  u64 at = slot_for(hash);
  *is_new = !hashes[at];
  if (*is_new) {
    hashes[at] = hash;
    numbers[at] = (u32)states;
    origins[states] = origin;
    by[states++] = last;
  }
  return numbers[at];
}

struct transition *path_to(u32 state, size_t *count) {
  *count = 0;
  for (u32 s = state; s; s = origins[s]) ++*count;
  struct transition *path = calloc(*count + 1, sizeof *path); /* with room for one more */
  size_t at = *count;
  for (u32 s = state; s; s = origins[s]) path[--at] = by[s];
  return path;
}
