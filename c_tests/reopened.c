/* Mutexes that are opened and closed. A million of them, one after another, are all the same one of the first pool, whose run
 * goes on: it is free and as new each time. Threads that do so at the same time, each locking its own, share a few of them. Of
 * 10,000 that are open at once each has its own words, in pools of which each is twice as large as the one before, and they
 * exclude each other's holders from nothing. When these are closed, later ones need no further pool.
 *
 * The test has the C file of the library in it. */
#include "../c/ligdrosa.c"
#include "expect.h"

#if defined(__SANITIZE_THREAD__) || defined(__SANITIZE_ADDRESS__)
enum { TIMES = 50000 };
#else
enum { TIMES = 1000000 };
#endif
enum { THREADS = 4, OF_EACH = TIMES / 50, MANY = 10000 };
static lfm_mutex many[MANY];
static const lfm_mutex new_one = LFM_MUTEX_INIT;

/* Opens a mutex by its first lock or by a call, uses it, and closes it: its word. */
static mutex_word use_once(unsigned way) {
  lfm_mutex mutex = {0};
  if (way % 2)
    mutex = new_one;
  else
    EXPECT(lfm_mutex_new(&mutex, 1, 1), LFM_DONE);
  EXPECT(way % 4 < 2 ? lfm_lock_here(&mutex) : lfm_try_lock_here(&mutex), LFM_DONE);
  mutex_word word = load_mutex(&mutex);
  EXPECT(lfm_depth_here(&mutex), 1);
  EXPECT(lfm_unlock_here(&mutex), LFM_DONE);
  EXPECT(lfm_mutex_close(&mutex), LFM_DONE);
  return word;
}

static void one_after_another(void) {
  for (unsigned i = 0; i < TIMES; i++) EXPECT(use_once(i), (mutex_word)1 << 32 | 1);
}

static void some_at_a_time(unsigned thread) {
  for (unsigned i = 0; i < OF_EACH; i++) EXPECT(pool_in(use_once(i + thread)), 1);
}

static void unlock_and_close(lfm_mutex *mutex) {
  EXPECT(lfm_unlock_here(mutex), LFM_DONE);
  EXPECT(lfm_mutex_close(mutex), LFM_DONE);
}

/* Another thread acquires those that are not held, and no other. */
static void try_others(unsigned thread) {
  (void)thread;
  for (int i = 0; i < MANY; i++) {
    EXPECT(lfm_try_lock_here(&many[i]), i % 2 ? LFM_DONE : LFM_BUSY);
    if (i % 2) EXPECT(lfm_unlock_here(&many[i]), LFM_DONE);
  }
}

static void many_at_once(void) {
  for (int i = 0; i < MANY; i++) {
    many[i] = new_one;
    EXPECT(lfm_lock_here(&many[i]), LFM_DONE);
    EXPECT(lfm_depth_here(&many[i]), 1);
  }
  for (int i = 0; i < MANY; i++)
    if (i % 2) EXPECT(lfm_unlock_here(&many[i]), LFM_DONE);
  in_threads(1, try_others);
  for (int i = 0; i < MANY; i++) {
    if (i % 2) EXPECT(lfm_lock_here(&many[i]), LFM_DONE);
    unlock_and_close(&many[i]);
  }
}

/* How many pools have room for this many mutexes. */
static uint32_t pools_for(uint32_t mutexes) {
  uint32_t pools = 0;
  for (uint32_t room = 0; room < mutexes; pools++) room += (uint32_t)LFM_FIRST_POOL << pools;
  return pools;
}

int main(void) {
  one_after_another();
  EXPECT(LFM_PROCESS.count_of_pools, 1);
  in_threads(THREADS, some_at_a_time);
  EXPECT(LFM_PROCESS.count_of_pools, 1);
  EXPECT(LFM_PROCESS.pools[1]->numbers.used <= THREADS, true);
  for (int i = 0; i < 2; i++) {
    many_at_once();
    EXPECT(LFM_PROCESS.count_of_pools, pools_for(MANY));
  }
  in_threads(THREADS, some_at_a_time);
  EXPECT(LFM_PROCESS.count_of_pools, pools_for(MANY));
  return 0;
}
