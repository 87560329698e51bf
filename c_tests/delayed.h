/* What tests that choose at random or measure time share. With -DIS_DELAYED this has the C file of the library in it, whose
 * atomic operations are delayed at random. */
#ifndef DELAYED_H
#define DELAYED_H
#include <sched.h>
#include <stdint.h>
#include <time.h>
#include <unistd.h>

static inline uint64_t at_random(uint64_t *state) {
  *state ^= *state << 13, *state ^= *state >> 7, *state ^= *state << 17;
  return *state;
}

static inline uint64_t nanoseconds_now(void) {
  struct timespec now;
  clock_gettime(CLOCK_MONOTONIC, &now);
  return (uint64_t)now.tv_sec * 1000000000 + (uint64_t)now.tv_nsec;
}

#ifdef IS_DELAYED
static inline void delay(void) {
  static _Thread_local uint64_t state;
  if (!state) state = (uintptr_t)&state | 1;
  uint64_t kind = at_random(&state) % 64;
  if (kind < 8) sched_yield();
  if (kind == 8) usleep((useconds_t)(at_random(&state) % 100));
}
#define __atomic_compare_exchange_n(...) (delay(), __atomic_compare_exchange_n(__VA_ARGS__))
#define __atomic_exchange_n(...) (delay(), __atomic_exchange_n(__VA_ARGS__))
#define __atomic_load_n(...) (delay(), __atomic_load_n(__VA_ARGS__))
#define __atomic_store_n(...) (delay(), __atomic_store_n(__VA_ARGS__))
#define __atomic_add_fetch(...) (delay(), __atomic_add_fetch(__VA_ARGS__))
#define __atomic_sub_fetch(...) (delay(), __atomic_sub_fetch(__VA_ARGS__))
#include "../c/ligdrosa.c"
#undef __atomic_compare_exchange_n
#undef __atomic_exchange_n
#undef __atomic_load_n
#undef __atomic_store_n
#undef __atomic_add_fetch
#undef __atomic_sub_fetch
#endif
#endif
