/* The transitions between states and the states in which all threads have finished, and the search for states from which
 * none of these can be reached: from the ends backwards. */
#include "state.h"

static u32 (*transitions_made)[2]; /* from a state to a state */
static u64 made, room;
static u32 *ends;
static u64 end_count, end_room, hash_sum;

void add_transition(u32 from, u32 to) {
  if (made == room) {
    room = room ? 2 * room : 1 << 16;
    transitions_made = realloc(transitions_made, room * sizeof *transitions_made);
  }
  transitions_made[made][0] = from;
  transitions_made[made++][1] = to;
}

void add_end(u32 state, u64 hash) {
  if (end_count == end_room) {
    end_room = end_room ? 2 * end_room : 1024;
    ends = realloc(ends, end_room * sizeof *ends);
  }
  ends[end_count++] = state;
  hash_sum += hash;
}
u64 ends_found(void) { return end_count; }
u64 sum_of_ends(void) { return hash_sum; }

/* Where the predecessors of each state begin in `predecessors`. */
static u64 *sort_transitions(u64 states, u32 *predecessors) {
  u64 *starts = calloc(states + 2, sizeof *starts), *at = malloc((states + 1) * sizeof *at);
  for (u64 i = 0; i < made; i++) starts[transitions_made[i][1] + 1]++;
  for (u64 i = 0; i < states; i++) starts[i + 1] += starts[i];
  memcpy(at, starts, (states + 1) * sizeof *at);
  for (u64 i = 0; i < made; i++) predecessors[at[transitions_made[i][1]]++] = transitions_made[i][0];
  free(at);
  return starts;
}

u64 count_states_without_end(u64 states, u32 *one) {
  u32 *predecessors = malloc((made + 1) * sizeof *predecessors), *queue = malloc((states + 1) * sizeof *queue);
  u64 *starts = sort_transitions(states, predecessors), head = 0, tail = 0, count = 0;
  u8 *reaches = calloc(states + 1, 1);
  for (u64 i = 0; i < end_count; i++) reaches[ends[i]] = 1, queue[tail++] = ends[i];
  while (head < tail) {
    u32 state = queue[head++];
    for (u64 i = starts[state]; i < starts[state + 1]; i++)
      if (!reaches[predecessors[i]]) reaches[predecessors[i]] = 1, queue[tail++] = predecessors[i];
  }
  for (u64 i = 0; i < states; i++)
    if (!reaches[i] && !count++) *one = (u32)i;
  free(starts), free(predecessors), free(queue), free(reaches);
  return count;
}
