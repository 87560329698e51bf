/* Blocks of memory, and what an access may touch: no block that was given back, no byte past one, and no frame of another
 * thread's stack that has ended. Memory is never used again in a run, and each block is filled as it is taken and as it is
 * given back. What lasts as long as the process need not be given back, and is 0 at first. */
#include "state.h"

int heap_of(const void *at) {
  u64 off = (u64)at - (u64)REGION->heaps;
  return (u64)at >= (u64)REGION->heaps && off < sizeof REGION->heaps ? (int)(off / HEAP) : -1;
}
struct block *block_of(const void *at) {
  int h = heap_of(at);
  if (h < 0) return NULL;
  struct heap *c = &REGION->control[h];
  u32 off = (u32)((u64)at - (u64)REGION->heaps[h]);
  for (u32 i = c->count; i-- > 0;)
    if (c->blocks[i].at <= off) return off < c->blocks[i].at + c->blocks[i].bytes ? &c->blocks[i] : NULL;
  return NULL;
}
void touch(const void *at, size_t bytes, bool writes, bool atomic) {
  if ((u64)at < 65536) explorer_fault("an access through null");
  if (heap_of(at) >= 0) {
    struct block *b = block_of(at);
    if (!b) explorer_fault("an access outside of a block of memory");
    if (!b->live) explorer_fault("an access of memory that was given back");
    if (block_of((const char *)at + bytes - 1) != b) explorer_fault("an access past the end of a block");
  } else if ((u64)at >= (u64)REGION->stacks && (u64)at < (u64)REGION->stacks + sizeof REGION->stacks) {
    int of = (int)(((u64)at - (u64)REGION->stacks) / STACK);
    if (current >= 0 && of != current) {
      if (REGION->fibers[of].status == FINISHED) explorer_fault("an access of the stack of a thread that has ended");
      if ((u64)at < REGION->fibers[of].sp) explorer_fault("an access of another thread's stack where nothing lies any more");
    }
  } else
    return;
  if (detects_races) race_touch((u64)at, bytes, writes, atomic, false);
}
void explorer_touch(const void *at, size_t bytes, bool writes) { touch(at, bytes, writes, false); }

static void *allocate_in(int h, size_t bytes, u32 live) {
  struct heap *c = &REGION->control[h];
  u32 at = (c->used + 16 + 63) & ~63u;
  if (at + bytes + 64 > HEAP || c->count == MOST_BLOCKS) explorer_fault("the explorer's heap is full");
  c->used = at + (u32)bytes;
  c->blocks[c->count++] = (struct block){at, (u32)bytes, live};
  memset(&REGION->heaps[h][at], 0xA5, bytes);
  if (detects_races) race_touch((u64)&REGION->heaps[h][at], bytes, true, false, false);
  return &REGION->heaps[h][at];
}
static void *allocate(size_t bytes) { return allocate_in(current < 0 ? HEAP_OUTSIDE : current, bytes, 1); }
static bool is_refused(void) { return may_refuse_memory && current >= 0 && explorer_choose(2) == 1; }
void *explorer_malloc(size_t bytes) { return is_refused() ? NULL : allocate(bytes); }
void *explorer_calloc(size_t count, size_t bytes) {
  if (is_refused()) return NULL;
  void *at = allocate(count * bytes);
  memset(at, 0, count * bytes);
  return at;
}
int explorer_memalign(void **at, size_t alignment, size_t bytes) {
  (void)alignment;
  if (is_refused()) return 12;
  *at = allocate(bytes);
  return 0;
}
void *explorer_keep(size_t bytes) { return is_refused() ? NULL : memset(allocate_in(HEAP_OF_PROCESS, bytes, LASTS), 0, bytes); }
void explorer_free(void *at) {
  if (!at) return;
  struct block *b = block_of(at);
  int h = heap_of(at);
  if (!b || (u8 *)at != &REGION->heaps[h][b->at]) explorer_fault("free of what is no block");
  if (!b->live) explorer_fault("a block is given back twice");
  if (detects_races) race_touch((u64)at, b->bytes, true, false, true);
  b->live = 0;
  memset(at, 0, b->bytes);
}
void *explorer_memset(void *at, int byte, size_t bytes) {
  if (bytes) touch(at, bytes, true, false);
  return memset(at, byte, bytes);
}
void *explorer_memcpy(void *to, const void *from, size_t bytes) {
  if (bytes) touch(from, bytes, false, false), touch(to, bytes, true, false);
  return memcpy(to, from, bytes);
}
