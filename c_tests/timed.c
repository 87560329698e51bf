/* Calls with a time limit: they end by it, not before it and not much later, on both clocks; and they acquire a mutex that
 * is released before. A time more than 500 years ahead doesn't end them. */
#define _GNU_SOURCE
#include "expect.h"

enum { SHORT = 20000000, SECOND = 1000000000, LATE = 2 /* seconds, on a busy machine */, ROUNDS = 20 };
static lfm_mutex mutex = LFM_MUTEX_INIT;
static lfm_condvar condvar;
static int step;

static void set(int value) { __atomic_store_n(&step, value, __ATOMIC_SEQ_CST); }
static void wait_for(int value) {
  while (__atomic_load_n(&step, __ATOMIC_SEQ_CST) < value) sched_yield();
}

static struct timespec now(int clock) {
  struct timespec time;
  clock_gettime(clock, &time);
  return time;
}

static struct timespec later(int clock, long nanoseconds) {
  struct timespec time = now(clock);
  time.tv_nsec += nanoseconds;
  time.tv_sec += time.tv_nsec / SECOND;
  time.tv_nsec %= SECOND;
  return time;
}

static double since(struct timespec begun) {
  struct timespec ended = now(CLOCK_MONOTONIC);
  return (double)(ended.tv_sec - begun.tv_sec) + (double)(ended.tv_nsec - begun.tv_nsec) / SECOND;
}

/* Expects that the call took the short time at least, and not much more. */
static void expect_short(struct timespec begun) {
  EXPECT(since(begun) >= (double)SHORT / SECOND, true);
  EXPECT(since(begun) < LATE, true);
}

static void give_up_by_time(void) {
  static const int clocks[] = {LFM_REALTIME, LFM_MONOTONIC};
  struct timespec begun = now(CLOCK_MONOTONIC);
  EXPECT(lfm_try_lock_for_here(&mutex, SHORT), LFM_BUSY);
  expect_short(begun);
  for (int i = 0; i < 2; i++) {
    begun = now(CLOCK_MONOTONIC);
    struct timespec time = later(clocks[i], SHORT);
    EXPECT(lfm_try_lock_until_here(&mutex, clocks[i], &time), LFM_BUSY);
    expect_short(begun);
    EXPECT(lfm_try_lock_until_here(&mutex, clocks[i], &time), LFM_BUSY); /* over before it begins */
  }
}

static void wait_by_time(void) {
  struct timespec begun = now(CLOCK_MONOTONIC);
  EXPECT(lfm_lock_here(&mutex), LFM_DONE);
  EXPECT(lfm_wait_for_here(&condvar, &mutex, SHORT), LFM_TIMED_OUT);
  expect_short(begun);
  for (int clock = LFM_REALTIME; clock <= LFM_MONOTONIC; clock++) {
    begun = now(CLOCK_MONOTONIC);
    struct timespec time = later(clock, SHORT);
    EXPECT(lfm_wait_until_here(&condvar, &mutex, clock, &time), LFM_TIMED_OUT);
    expect_short(begun);
    EXPECT(lfm_depth_here(&mutex), 1);
  }
  EXPECT(lfm_wake_all(&condvar), LFM_NOBODY);
  EXPECT(lfm_is_refused(lfm_unlock_here(&mutex)), false);
}

/* One thread holds, the other tries. Then the first releases the mutex, and wakes a wait. */
static void work(unsigned thread) {
  if (thread == 0) {
    EXPECT(lfm_lock_here(&mutex), LFM_DONE);
    set(1);
    wait_for(2);
    EXPECT(lfm_is_refused(lfm_unlock_here(&mutex)), false);
    for (int i = 0; i < ROUNDS; i++) {
      wait_for(3 + i);
      EXPECT(lfm_lock_here(&mutex), LFM_DONE); /* the other has begun to wait */
      EXPECT(lfm_wake_one(&condvar), LFM_DONE);
      EXPECT(lfm_is_refused(lfm_unlock_here(&mutex)), false);
    }
    return;
  }
  wait_for(1);
  give_up_by_time();
  set(2);
  EXPECT(lfm_try_lock_for_here(&mutex, UINT64_MAX), LFM_DONE);
  const struct timespec never = {INT64_MAX / SECOND, 0};
  for (int i = 0; i < ROUNDS; i++) {
    set(3 + i);
    if (i % 2)
      EXPECT(lfm_wait_for_here(&condvar, &mutex, UINT64_MAX), LFM_DONE);
    else
      EXPECT(lfm_wait_until_here(&condvar, &mutex, i % 4 / 2, &never), LFM_DONE);
  }
  EXPECT(lfm_is_refused(lfm_unlock_here(&mutex)), false);
  wait_by_time();
}

int main(void) {
  in_threads(2, work);
  EXPECT(lfm_condvar_close(&condvar), LFM_DONE);
  EXPECT(lfm_mutex_close(&mutex), LFM_DONE);
  return 0;
}
