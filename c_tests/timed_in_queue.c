/* Four threads queue for a mutex all the time, and none releases it before another asks. A timed lock of a fifth acquires it
 * meanwhile, in its turn: a short time is enough for most of its calls, though on a busy machine not for all. */
#define _GNU_SOURCE
#include <sched.h>
#include "expect.h"

enum { QUEUERS = 4, ROUNDS = 50, LIMIT = 50000000 };
static lfm_mutex mutex = LFM_MUTEX_INIT;
static int is_over, asking;
static uint64_t counter, in_time, queued[QUEUERS];

static void work(unsigned thread) {
  if (thread == 0) {
    for (int i = 0; i < ROUNDS; i++) {
      while (__atomic_load_n(&asking, __ATOMIC_SEQ_CST) < 2) sched_yield();
      if (lfm_is_refused(lfm_try_lock_for_here(&mutex, LIMIT))) continue;
      counter++;
      in_time++;
      EXPECT(lfm_is_refused(lfm_unlock_here(&mutex)), false);
    }
    __atomic_store_n(&is_over, 1, __ATOMIC_SEQ_CST);
    return;
  }
  while (!__atomic_load_n(&is_over, __ATOMIC_SEQ_CST)) {
    __atomic_fetch_add(&asking, 1, __ATOMIC_SEQ_CST);
    EXPECT(lfm_lock_in_order_here(&mutex), LFM_DONE);
    __atomic_fetch_sub(&asking, 1, __ATOMIC_SEQ_CST);
    counter++;
    while (__atomic_load_n(&asking, __ATOMIC_SEQ_CST) < 2 && !__atomic_load_n(&is_over, __ATOMIC_SEQ_CST)) sched_yield();
    queued[thread - 1]++;
    EXPECT(lfm_is_refused(lfm_unlock_here(&mutex)), false);
  }
}

int main(void) {
  in_threads(QUEUERS + 1, work);
  uint64_t all = in_time;
  EXPECT(in_time >= ROUNDS / 2, true);
  for (int i = 0; i < QUEUERS; i++) all += queued[i];
  EXPECT(counter, all);
  EXPECT(lfm_mutex_close(&mutex), LFM_DONE);
  return 0;
}
