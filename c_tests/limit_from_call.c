/* The time of lfm_try_lock_for_here begins at the call, though the thread has to take a seat first, and here that takes
 * long.
 *
 * The test has the C file of the library in it, with a take of a seat that is slow in some threads. On a busy machine a call
 * may end late for other reasons, so one of a few calls has to end in time. */
#define lfm_c_pool_take_seat take_slowly
#include "../c/ligdrosa.c"
#undef lfm_c_pool_take_seat
#include "expect.h"

enum { LIMIT = 200000000, CALLS = 5 };
static lfm_mutex mutex = LFM_MUTEX_INIT;
static _Thread_local bool is_slow;
static unsigned in_time;

uint64_t lfm_c_pool_take_seat(void *pool, void *seat);
uint64_t take_slowly(void *pool, void *seat) {
  uint64_t begun = nanoseconds();
  while (is_slow && nanoseconds() - begun < LIMIT) nap_for(LIMIT / 10);
  return lfm_c_pool_take_seat(pool, seat);
}

static void try_for_limit(unsigned thread) {
  (void)thread;
  uint64_t begun = nanoseconds();
  is_slow = true;
  EXPECT(lfm_try_lock_for_here(&mutex, LIMIT), LFM_BUSY);
  uint64_t time = nanoseconds() - begun;
  EXPECT(time >= LIMIT, true);
  if (time < UINT64_C(2) * LIMIT) in_time++;
}

int main(void) {
  EXPECT(lfm_lock_here(&mutex), LFM_DONE);
  for (int call = 0; call < CALLS && !in_time; call++) in_threads(1, try_for_limit);
  EXPECT(in_time > 0, true);
  EXPECT(lfm_is_refused(lfm_unlock_here(&mutex)), false);
  EXPECT(lfm_mutex_close(&mutex), LFM_DONE);
  return 0;
}
