/* 2, 4 and 8 threads count together under the mutex: plain, twice as deep, by try_lock, and with a seat that each takes for one
 * hold. The totals are exact, and no call changes errno. */
#include <errno.h>
#include "expect.h"

enum { MOST = 8, ROUNDS = 20000, SEATS_TAKEN = 2000, SET_BEFORE = 77 };
static lfm_mutex mutex;
static lfm_seat seats[MOST];
static uint64_t total;

static void count_once(lfm_seat *seat) {
  EXPECT(lfm_lock(seat), LFM_DONE);
  EXPECT(lfm_depth(seat), 1);
  total++;
  EXPECT(lfm_is_refused(lfm_unlock(seat)), false);
}

static void count_twice_as_deep(lfm_seat *seat) {
  EXPECT(lfm_lock(seat), LFM_DONE);
  EXPECT(lfm_lock(seat), LFM_AGAIN);
  EXPECT(lfm_depth(seat), 2);
  total++;
  EXPECT(lfm_unlock(seat), LFM_STILL);
  EXPECT(lfm_is_refused(lfm_unlock(seat)), false);
}

static void count_by_trying(lfm_seat *seat) {
  lfm_status status;
  while ((status = lfm_try_lock(seat)) == LFM_BUSY) sched_yield();
  EXPECT(status, LFM_DONE);
  total++;
  EXPECT(lfm_is_refused(lfm_unlock(seat)), false);
}

static void count(unsigned thread) {
  lfm_seat *seat = &seats[thread];
  errno = SET_BEFORE;
  EXPECT(lfm_seat_take(&mutex, seat), LFM_DONE);
  for (unsigned i = 0; i < ROUNDS; i++) {
    switch (i % 4) {
      case 0: count_twice_as_deep(seat); break;
      case 1: count_by_trying(seat); break;
      default: count_once(seat);
    }
  }
  EXPECT(lfm_seat_give(seat), LFM_DONE);
  EXPECT(errno, SET_BEFORE);
}

static void come_and_go(unsigned thread) {
  lfm_seat *seat = &seats[thread];
  errno = SET_BEFORE;
  for (unsigned i = 0; i < SEATS_TAKEN; i++) {
    EXPECT(lfm_seat_take(&mutex, seat), LFM_DONE);
    count_once(seat);
    EXPECT(lfm_seat_give(seat), LFM_DONE);
  }
  EXPECT(errno, SET_BEFORE);
}

int main(void) {
  for (unsigned threads = 2; threads <= MOST; threads *= 2) {
    total = 0;
    EXPECT(lfm_mutex_new(&mutex, threads, 1000000), LFM_DONE);
    in_threads(threads, count);
    EXPECT(total, (uint64_t)threads * ROUNDS);
    in_threads(threads, come_and_go);
    EXPECT(total, (uint64_t)threads * (ROUNDS + SEATS_TAKEN));
    EXPECT(lfm_mutex_close(&mutex), LFM_DONE);
  }
  return 0;
}
