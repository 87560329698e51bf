/* Timed locks at random, most of which time out: 8 threads add to a counter, by their own seats, by seats in hand that they
 * give back at once, and as threads that end. No sum is lost, all seats come back, and the mutex is closed at the end.
 *
 * With -DIS_DELAYED it has the C file of the library in it, whose atomic operations are delayed at random. */
#define _GNU_SOURCE
#include "delayed.h"
#include "expect.h"

enum { THREADS = 8, SEATS = 3 * THREADS, LONGEST = 60000 /* nanoseconds */, HOLD = 20000, TIME = 1500 /* milliseconds */ };
static lfm_mutex mutex = LFM_MUTEX_INIT_WITH(SEATS);
static uint64_t counter, sums[THREADS + 1], missed[THREADS + 1];
static int is_over;
static pthread_barrier_t all_have_seats;

static void hold(uint64_t *state) {
  uint64_t begun = nanoseconds_now(), time = at_random(state) % HOLD;
  counter++;
  while (nanoseconds_now() - begun < time) {
  }
}

/* Counts a lock with this status, and releases the mutex if it has acquired it. */
static void count(unsigned thread, lfm_status status, lfm_seat *seat, uint64_t *state) {
  if (lfm_is_refused(status)) {
    EXPECT(status, LFM_BUSY);
    missed[thread]++;
    return;
  }
  EXPECT(status, LFM_DONE);
  hold(state);
  sums[thread]++;
  EXPECT(lfm_is_refused(seat ? lfm_unlock(seat) : lfm_unlock_here(&mutex)), false);
}

static void lock_somehow(unsigned thread, lfm_seat *seat, uint64_t *state) {
  uint64_t time = at_random(state) % LONGEST, kind = at_random(state) % 8;
  lfm_status status;
  if (seat)
    status = kind == 0 ? lfm_lock(seat) : kind == 1 ? lfm_try_lock(seat) : lfm_try_lock_for(seat, time);
  else
    status = kind == 0 ? lfm_lock_here(&mutex) : kind == 1 ? lfm_try_lock_here(&mutex) : lfm_try_lock_for_here(&mutex, time);
  count(thread, status, seat, state);
}

/* A thread that ends after one try. */
static void *come_and_go(void *at) {
  uint64_t state = (uint64_t)(uintptr_t)at | 1;
  lfm_status status = lfm_try_lock_for_here(&mutex, at_random(&state) % LONGEST);
  if (status == LFM_NO_SEAT || lfm_is_refused(status)) return NULL;
  hold(&state);
  __atomic_fetch_add(&sums[THREADS], 1, __ATOMIC_RELAXED);
  EXPECT(lfm_is_refused(lfm_unlock_here(&mutex)), false);
  return NULL;
}

/* Acquires the mutex once before the time of any lock is over. Later all seats that no thread keeps may be queued. */
static void take_own_seat(void) {
  EXPECT(lfm_lock_here(&mutex), LFM_DONE);
  EXPECT(lfm_is_refused(lfm_unlock_here(&mutex)), false);
  pthread_barrier_wait(&all_have_seats);
}

static void work(unsigned thread) {
  uint64_t state = 0x9E3779B97F4A7C15 * (thread + 1);
  take_own_seat();
  while (!__atomic_load_n(&is_over, __ATOMIC_RELAXED)) {
    uint64_t kind = at_random(&state) % 16;
    if (kind == 0) {
      pthread_t other;
      EXPECT(pthread_create(&other, NULL, come_and_go, (void *)(uintptr_t)at_random(&state)), 0);
      EXPECT(pthread_join(other, NULL), 0);
    } else if (kind < 6) {
      lfm_seat *seat = (lfm_seat *)calloc(1, sizeof *seat);
      lfm_status status = lfm_seat_take(&mutex, seat);
      if (status != LFM_NO_SEAT) {
        EXPECT(status, LFM_DONE);
        for (uint64_t i = at_random(&state) % 4; i > 0; i--) lock_somehow(thread, seat, &state);
        EXPECT(lfm_seat_give(seat), LFM_DONE);
      }
      memset(seat, 0x5A, sizeof *seat);
      free(seat);
    } else {
      lock_somehow(thread, NULL, &state);
    }
  }
}

static void run(unsigned thread) {
  if (thread < THREADS) {
    work(thread);
    return;
  }
  const struct timespec time = {TIME / 1000, TIME % 1000 * 1000000};
  nanosleep(&time, NULL);
  __atomic_store_n(&is_over, 1, __ATOMIC_RELAXED);
}

int main(void) {
  EXPECT(pthread_barrier_init(&all_have_seats, NULL, THREADS), 0);
  in_threads(THREADS + 1, run);
  uint64_t all = 0, none = 0;
  for (int i = 0; i <= THREADS; i++) all += sums[i], none += missed[i];
  EXPECT(counter, all);
  EXPECT(none != 0, true);
  EXPECT(lfm_mutex_close(&mutex), LFM_DONE);
  printf("%llu acquired, %llu timed out\n", (unsigned long long)all, (unsigned long long)none);
  return 0;
}
