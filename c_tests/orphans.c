/* Places that are abandoned while one thread holds the mutex for long. A thread that times out ten thousand times takes one
 * number for all of them. Of 200 threads one after another that time out and end, and of 200 seats in hand that are given back,
 * each leaves one number behind, which comes back as the holder releases the mutex. Then threads lock, time out, give seats back
 * and end at random: no call is refused, no sum is lost, and as many numbers are taken at the end as at the start.
 *
 * The test has the C file of the library in it. With -DIS_DELAYED its atomic operations are delayed at random. */
#define _GNU_SOURCE
#include "delayed.h"
#ifndef IS_DELAYED
#include "../c/ligdrosa.c"
#endif
#include "expect.h"

enum { ROUNDS = 200, TIMES = 10000, LIMIT = 1000000, SHORT_LIMIT = 1000 /* nanoseconds */ };
static lfm_mutex mutex = LFM_MUTEX_INIT;

/* How many numbers are taken, while no call takes or gives any. */
static uint32_t taken_numbers(void) {
  uint32_t taken = LFM_PROCESS.numbers.used;
  for (uint32_t free = (uint32_t)LFM_PROCESS.numbers.top; free; free = LFM_PROCESS.numbers.below[free]) taken--;
  return taken;
}

static bool is_queued(const struct participant *by) { return by->deputies && state_of(by->deputies) == ABANDONED; }

static void *try_often(void *at) {
  do EXPECT(lfm_try_lock_for_here(&mutex, LIMIT), LFM_BUSY);
  while (!is_queued(own.by));
  for (int i = 0; i < TIMES; i++) EXPECT(lfm_try_lock_for_here(&mutex, SHORT_LIMIT), LFM_BUSY);
  EXPECT(own.by->deputies->next == NULL, true);
  return at;
}
static void *try_and_end(void *at) {
  do EXPECT(lfm_try_lock_for_here(&mutex, LIMIT), LFM_BUSY);
  while (!is_queued(own.by));
  return at;
}
static void *try_in_hand(void *at) {
  lfm_seat seat;
  memset(&seat, 0, sizeof seat);
  for (int i = 0; i < ROUNDS; i++) {
    EXPECT(lfm_seat_take(&mutex, &seat), LFM_DONE);
    do EXPECT(lfm_try_lock_for(&seat, LIMIT), LFM_BUSY);
    while (!is_queued(seat.by));
    EXPECT(lfm_try_lock(&seat), LFM_BUSY);
    EXPECT(lfm_seat_give(&seat), LFM_DONE);
  }
  return at;
}

static void in_a_thread(void *(*run)(void *)) {
  pthread_t thread;
  EXPECT(pthread_create(&thread, NULL, run, NULL), 0);
  EXPECT(pthread_join(thread, NULL), 0);
}

static void under_one_holder(void) {
  EXPECT(lfm_lock_here(&mutex), LFM_DONE);
  uint32_t before = taken_numbers();
  in_a_thread(try_often);
  EXPECT(taken_numbers(), before + 1);
  for (int i = 0; i < ROUNDS; i++) in_a_thread(try_and_end);
  EXPECT(taken_numbers(), before + 1 + ROUNDS);
  in_a_thread(try_in_hand);
  EXPECT(taken_numbers(), before + 1 + 2 * ROUNDS);
  EXPECT(lfm_mutex_close(&mutex), LFM_HOLDING);
  EXPECT(lfm_unlock_here(&mutex), LFM_GRANTED);
  EXPECT(taken_numbers(), before);
  EXPECT(lfm_mutex_close(&mutex), LFM_DONE);
}

enum { THREADS = 4, LONGEST = 60000, HOLD = 20000, TIME = 1000 /* milliseconds */ };
static lfm_mutex crowded = LFM_MUTEX_INIT;
static uint64_t counter, sums[THREADS];

/* Holds for a while if a lock with this status has acquired the mutex: whether it has. */
static bool count(lfm_status status, unsigned thread, uint64_t *state) {
  if (status == LFM_BUSY) return false;
  EXPECT(status, LFM_DONE);
  uint64_t begun = nanoseconds_now(), time = at_random(state) % HOLD;
  counter++;
  sums[thread]++;
  while (nanoseconds_now() - begun < time) {
  }
  return true;
}

static void lock_own(unsigned thread, uint64_t *state) {
  uint64_t kind = at_random(state) % 8, time = at_random(state) % LONGEST;
  lfm_status status = kind == 0   ? lfm_lock_here(&crowded)
                      : kind == 1 ? lfm_try_lock_here(&crowded)
                                  : lfm_try_lock_for_here(&crowded, time);
  if (count(status, thread, state)) EXPECT(lfm_is_refused(lfm_unlock_here(&crowded)), false);
}

static void lock_in_hand(unsigned thread, uint64_t *state) {
  lfm_seat *seat = (lfm_seat *)calloc(1, sizeof *seat);
  EXPECT(lfm_seat_take(&crowded, seat), LFM_DONE);
  for (uint64_t i = at_random(state) % 4; i > 0; i--) {
    uint64_t time = at_random(state) % LONGEST;
    lfm_status status = at_random(state) % 4 ? lfm_try_lock_for(seat, time) : lfm_lock_in_order(seat);
    if (count(status, thread, state)) EXPECT(lfm_is_refused(lfm_unlock(seat)), false);
  }
  EXPECT(lfm_seat_give(seat), LFM_DONE);
  memset(seat, 0x5A, sizeof *seat);
  free(seat);
}

struct guest {
  unsigned thread;
  uint64_t state;
};
static void *come_and_go(void *at) {
  struct guest *guest = (struct guest *)at;
  lock_own(guest->thread, &guest->state);
  return NULL;
}

static void work(unsigned thread) {
  uint64_t state = 0x9E3779B97F4A7C15 * (thread + 1), begun = nanoseconds_now();
  while (nanoseconds_now() - begun < (uint64_t)TIME * 1000000) {
    uint64_t kind = at_random(&state) % 16;
    if (kind < 8) {
      lock_own(thread, &state);
    } else if (kind > 8) {
      lock_in_hand(thread, &state);
    } else {
      pthread_t other;
      struct guest guest = {thread, at_random(&state) | 1};
      EXPECT(pthread_create(&other, NULL, come_and_go, &guest), 0);
      EXPECT(pthread_join(other, NULL), 0);
    }
  }
}

int main(void) {
  under_one_holder();
  uint32_t before = taken_numbers();
  in_threads(THREADS, work);
  uint64_t all = 0;
  for (int i = 0; i < THREADS; i++) all += sums[i];
  EXPECT(counter, all);
  EXPECT(lfm_mutex_close(&crowded), LFM_DONE);
  EXPECT(taken_numbers(), before);
  return 0;
}
