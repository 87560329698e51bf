/* A thread writes without the mutex and makes an unlock, which is refused. Another locks and reads. That is a race, and
 * ThreadSanitizer has to report it: a refused unlock orders nothing. The threads take turns by a relaxed number, which orders
 * nothing either. */
#include "expect.h"

static lfm_mutex mutex;
static lfm_seat seats[2];
static unsigned raced;
static int step;

static void write_and_unlock(void) {
  EXPECT(lfm_seat_take(&mutex, &seats[0]), LFM_DONE);
  raced = 1;
  EXPECT(lfm_unlock(&seats[0]), LFM_NOT_OWNER);
  __atomic_store_n(&step, 1, __ATOMIC_RELAXED);
}

static void lock_and_read(void) {
  EXPECT(lfm_seat_take(&mutex, &seats[1]), LFM_DONE);
  while (__atomic_load_n(&step, __ATOMIC_RELAXED) == 0) sched_yield();
  EXPECT(lfm_lock(&seats[1]), LFM_DONE);
  EXPECT(raced, 1);
  EXPECT(lfm_unlock(&seats[1]), LFM_DONE);
}

static void work(unsigned thread) {
  if (thread == 0)
    write_and_unlock();
  else
    lock_and_read();
}

int main(void) {
  EXPECT(lfm_mutex_new(&mutex, 2, 10), LFM_DONE);
  in_threads(2, work);
  return 0;
}
