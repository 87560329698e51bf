/* Producers and consumers at a buffer of 4 places, with two condition variables: each number comes out once. First each has a
 * seat in hand, then seats find themselves. */
#include "expect.h"

enum { PRODUCERS = 2, CONSUMERS = 2, EACH = 10000, PLACES = 4 };
static lfm_mutex mutex;
static lfm_condvar not_empty, not_full;
static lfm_seat seats[PRODUCERS + CONSUMERS];
static uint64_t buffer[PLACES], first, count, taken;
static bool is_out[PRODUCERS * EACH], finds_itself;

static void put(lfm_seat *seat, uint64_t number) {
  EXPECT(lfm_lock(seat), LFM_DONE);
  while (count == PLACES) EXPECT(lfm_wait(&not_full, seat), LFM_DONE);
  buffer[(first + count) % PLACES] = number;
  count++;
  EXPECT(lfm_is_refused(lfm_wake_one(&not_empty)), false);
  EXPECT(lfm_is_refused(lfm_unlock(seat)), false);
}

static bool take(lfm_seat *seat) {
  EXPECT(lfm_lock(seat), LFM_DONE);
  while (count == 0 && taken < (uint64_t)PRODUCERS * EACH) EXPECT(lfm_wait(&not_empty, seat), LFM_DONE);
  bool there = count != 0;
  if (there) {
    uint64_t number = buffer[first];
    EXPECT(number < (uint64_t)PRODUCERS * EACH && !is_out[number], true);
    is_out[number] = true;
    first = (first + 1) % PLACES;
    count--;
    taken++;
    EXPECT(lfm_is_refused(lfm_wake_one(&not_full)), false);
  }
  /* after the last number the other consumers end: all that wait are woken */
  if (taken == (uint64_t)PRODUCERS * EACH) EXPECT(lfm_is_refused(lfm_wake_all(&not_empty)), false);
  EXPECT(lfm_is_refused(lfm_unlock(seat)), false);
  return there;
}

static void work(unsigned thread) {
  lfm_status cause;
  lfm_seat *seat = finds_itself ? lfm_seat_here(&mutex, &cause) : &seats[thread];
  if (!finds_itself) EXPECT(lfm_seat_take(&mutex, seat), LFM_DONE);
  if (thread < PRODUCERS) {
    for (uint64_t i = 0; i < EACH; i++) put(seat, thread * EACH + i);
  } else {
    while (take(seat)) {
    }
  }
  if (!finds_itself) EXPECT(lfm_seat_give(seat), LFM_DONE);
}

static void run(void) {
  taken = 0;
  memset(is_out, 0, sizeof is_out);
  EXPECT(lfm_mutex_new(&mutex, PRODUCERS + CONSUMERS, LFM_MOST_TAKES), LFM_DONE);
  in_threads(PRODUCERS + CONSUMERS, work);
  EXPECT(taken, (uint64_t)PRODUCERS * EACH);
  EXPECT(lfm_condvar_close(&not_full), LFM_DONE);
  EXPECT(lfm_condvar_close(&not_empty), LFM_DONE);
  EXPECT(lfm_mutex_close(&mutex), LFM_DONE);
}

int main(void) {
  run();
  finds_itself = true;
  run();
  return 0;
}
