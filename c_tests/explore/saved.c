/* A state as bytes: how it is saved and restored, and the hash of 64 bits by which it is known. What is saved is all that a
 * transition may read: the fibers, the blocks of memory that were taken, and the stacks as far as they are in use. */
#include "state.h"

static u8 *put(u8 *to, const void *from, size_t bytes) {
  memcpy(to, from, bytes);
  return to + bytes;
}
static const u8 *get(const u8 *from, void *to, size_t bytes) {
  memcpy(to, from, bytes);
  return from + bytes;
}

/* The part of a fiber's stack that is in use. */
static void *stack_of(int fiber) { return (void *)REGION->fibers[fiber].sp; }
static size_t stack_bytes(int fiber) { return (u64)REGION->stacks[fiber] + STACK - REGION->fibers[fiber].sp; }

u8 *save(u8 *to) {
  to = put(to, REGION->fibers, sizeof REGION->fibers[0] * (size_t)fibers);
  for (int h = 0; h < HEAPS; h++) {
    struct heap *c = &REGION->control[h];
    to = put(to, c, offsetof(struct heap, blocks) + c->count * sizeof c->blocks[0]);
    to = put(to, REGION->heaps[h], c->used);
  }
  for (int i = 0; i < fibers; i++) to = put(to, stack_of(i), stack_bytes(i));
  return to;
}

void restore(const u8 *from) {
  from = get(from, REGION->fibers, sizeof REGION->fibers[0] * (size_t)fibers);
  for (int h = 0; h < HEAPS; h++) {
    struct heap *c = &REGION->control[h];
    from = get(from, c, offsetof(struct heap, blocks));
    from = get(from, c->blocks, c->count * sizeof c->blocks[0]);
    from = get(from, REGION->heaps[h], c->used);
  }
  for (int i = 0; i < fibers; i++) from = get(from, stack_of(i), stack_bytes(i));
}

/* Both words take all bits of each other at each step. The constants keep them from becoming 0 over long memory that is 0,
 * by which all that came before would be forgotten. */
u64 hash_of(const u8 *at, size_t bytes) {
  u64 a = 0x9E3779B97F4A7C15, b = 0xD1B54A32D192ED03;
  for (; bytes >= 16; at += 16, bytes -= 16) {
    u64 x, y;
    memcpy(&x, at, 8);
    memcpy(&y, at + 8, 8);
    __uint128_t m = (__uint128_t)(x ^ a) * (y ^ b);
    a = (u64)m + 0x9E3779B97F4A7C15 + x;
    b = (b << 23 | b >> 41) ^ ((u64)(m >> 64) + 0xE7037ED1A0B428DB + y);
  }
  u64 x = 0, y = 0;
  memcpy(&x, at, bytes > 8 ? 8 : bytes);
  if (bytes > 8) memcpy(&y, at + 8, bytes - 8);
  __uint128_t m = (__uint128_t)(x ^ a ^ bytes) * (y ^ b ^ 0xA0761D6478BD642F);
  u64 h = (u64)m ^ (u64)(m >> 64) ^ a;
  return h ? h : 1;
}
