/* Data races, by vector clocks under the memory orders that the code names. A clock never goes back, so what an earlier run
 * did comes before all of a later one. */
#include "state.h"

bool detects_races;
/* Of a byte: when it was last written and read, plainly and by an atomic operation, and who wrote it. */
struct shadow {
  u32 w, aw, r[MOST_FIBERS], ar[MOST_FIBERS];
  u8 wt, awt;
};
static struct shadow *shadows;
static u32 (*sync_of)[MOST_FIBERS]; /* for each 4 bytes */
static u32 clocks[MOST_FIBERS][MOST_FIBERS], base = 1;

static u64 offset_of(u64 at) { return at - (u64)REGION->heaps; }
static const char *race_text(bool frees) {
  return frees ? "a data race: memory is given back beside an access" : "a data race";
}
void race_touch(u64 at, size_t bytes, bool writes, bool atomic, bool frees) {
  if (current < 0) return;
  u32 *mine = clocks[current];
  for (size_t i = 0; i < bytes; i++) {
    struct shadow *s = &shadows[offset_of(at) + i];
    if (s->w > mine[s->wt]) explorer_fault(race_text(frees));
    if (!atomic && s->aw > mine[s->awt]) explorer_fault(race_text(frees));
    if (writes)
      for (int k = 0; k < MOST_FIBERS; k++)
        if (s->r[k] > mine[k] || (!atomic && s->ar[k] > mine[k])) explorer_fault(race_text(frees));
    if (writes && !atomic) s->w = mine[current], s->wt = (u8)current;
    if (writes && atomic) s->aw = mine[current], s->awt = (u8)current;
    if (!writes && !atomic) s->r[current] = mine[current];
    if (!writes && atomic) s->ar[current] = mine[current];
  }
}
void acquires(const void *at, int order) {
  if (!detects_races || current < 0 || offset_of((u64)at) >= sizeof REGION->heaps + sizeof REGION->stacks) return;
  u32 *s = sync_of[offset_of((u64)at) / 4];
  if (order == __ATOMIC_RELAXED || order == __ATOMIC_RELEASE) return;
  for (int k = 0; k < MOST_FIBERS; k++)
    if (s[k] > clocks[current][k]) clocks[current][k] = s[k];
}
void releases(const void *at, int order, bool is_rmw) {
  if (!detects_races || current < 0 || offset_of((u64)at) >= sizeof REGION->heaps + sizeof REGION->stacks) return;
  u32 *s = sync_of[offset_of((u64)at) / 4], *mine = clocks[current];
  bool does = order == __ATOMIC_RELEASE || order == __ATOMIC_ACQ_REL || order == __ATOMIC_SEQ_CST;
  for (int k = 0; k < MOST_FIBERS; k++) s[k] = does ? (is_rmw && s[k] > mine[k] ? s[k] : mine[k]) : is_rmw ? s[k] : 0;
  if (does) mine[current]++;
}
void begin_clocks(void) {
  for (int i = 0; i < MOST_FIBERS; i++)
    for (int k = 0; k < MOST_FIBERS; k++)
      if (clocks[i][k] > base) base = clocks[i][k];
  for (int i = 0; i < MOST_FIBERS; i++)
    for (int k = 0; k < MOST_FIBERS; k++) clocks[i][k] = i == k ? base + 1 : base;
}

void make_shadows(void) {
  shadows = calloc(sizeof REGION->heaps + sizeof REGION->stacks, sizeof *shadows);
  sync_of = calloc((sizeof REGION->heaps + sizeof REGION->stacks) / 4, sizeof *sync_of);
}
