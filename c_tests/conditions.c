/* Condition variables: each wake wakes one wait, also beside waits that end by time; all are woken at once, generation after
 * generation; a condition variable may be freed as soon as all its waiters have been woken; and one may serve two mutexes. */
#include "expect.h"

enum { WAITERS = 8, GENERATIONS = 300, ITEMS = 20000, ROUNDS = 300 };
static lfm_mutex mutex = LFM_MUTEX_INIT, other = LFM_MUTEX_INIT;
static lfm_condvar condvar;
static lfm_condvar *short_lived;
static unsigned generation, arrived, returned, produced, woken, waited, timed_out;

static void lock(lfm_mutex *of) { EXPECT(lfm_lock_here(of), LFM_DONE); }
static void unlock(lfm_mutex *of) { EXPECT(lfm_is_refused(lfm_unlock_here(of)), false); }

/* Each waits once in each generation. The last thread begins the next one when all wait. */
static void storm(unsigned thread) {
  for (unsigned i = 0; i < GENERATIONS; i++) {
    lock(&mutex);
    if (thread == WAITERS) {
      while (arrived != WAITERS) {
        unlock(&mutex);
        sched_yield();
        lock(&mutex);
      }
      arrived = 0;
      generation++;
      EXPECT(lfm_wake_all(&condvar), LFM_DONE);
    } else {
      arrived++;
      EXPECT(lfm_wait_here(&condvar, &mutex), LFM_DONE);
      EXPECT(generation, i + 1); /* no wake without a call, and none for two */
    }
    unlock(&mutex);
  }
}

/* Each wake of one that is made ends one wait, and each that ends otherwise ends by its time. */
static void beside_time(unsigned thread) {
  if (thread < WAITERS / 2) {
    for (unsigned i = 0; i < ITEMS; i++) {
      if (lfm_wake_one(&condvar) == LFM_DONE) __atomic_fetch_add(&woken, 1, __ATOMIC_RELAXED);
      if (i % 16 == 0) sched_yield();
    }
    __atomic_fetch_add(&produced, 1, __ATOMIC_SEQ_CST);
    return;
  }
  lock(&mutex);
  while (__atomic_load_n(&produced, __ATOMIC_SEQ_CST) < WAITERS / 2) {
    lfm_status status = lfm_wait_for_here(&condvar, &mutex, 1000 * (thread + 1));
    if (status == LFM_DONE)
      waited++;
    else
      timed_out++;
    EXPECT(status == LFM_DONE || status == LFM_TIMED_OUT, true);
    EXPECT(lfm_depth_here(&mutex), 1);
  }
  unlock(&mutex);
}

static lfm_status wait_somehow(unsigned thread) {
  return thread % 2 ? lfm_wait_here(short_lived, &mutex) : lfm_wait_for_here(short_lived, &mutex, 1000000000);
}

/* The last thread makes a condition variable, wakes all that wait there, closes it and gives its memory back, while they still
 * return. */
static void short_lives(unsigned thread) {
  for (unsigned i = 0; i < ROUNDS; i++) {
    lock(&mutex);
    if (thread < WAITERS) {
      while (!short_lived || generation != i) {
        unlock(&mutex);
        sched_yield();
        lock(&mutex);
      }
      arrived++;
      EXPECT(wait_somehow(thread), LFM_DONE);
      returned++;
    } else {
      lfm_condvar *own = (lfm_condvar *)calloc(1, sizeof *own);
      short_lived = own;
      while (arrived != WAITERS) {
        unlock(&mutex);
        sched_yield();
        lock(&mutex);
      }
      arrived = 0;
      generation++;
      short_lived = NULL;
      EXPECT(lfm_wake_all(own), LFM_DONE);
      EXPECT(lfm_condvar_close(own), LFM_DONE);
      free(own);
    }
    unlock(&mutex);
  }
}

static void two_mutexes(unsigned thread) {
  lfm_mutex *of = thread % 2 ? &mutex : &other;
  if (thread < 4) {
    lock(of);
    __atomic_fetch_add(&arrived, 1, __ATOMIC_SEQ_CST);
    EXPECT(lfm_wait_here(&condvar, of), LFM_DONE);
    unlock(of);
    return;
  }
  while (__atomic_load_n(&arrived, __ATOMIC_SEQ_CST) != 4) sched_yield();
  for (int i = 0; i < 2; i++) { /* all have given their mutex up */
    lock(i ? &mutex : &other);
    unlock(i ? &mutex : &other);
  }
  for (int i = 0; i < 4; i++) EXPECT(lfm_wake_one(&condvar), LFM_DONE);
  EXPECT(lfm_wake_one(&condvar), LFM_NOBODY);
}

int main(void) {
  in_threads(WAITERS + 1, storm);
  in_threads(WAITERS, beside_time);
  EXPECT(waited, woken);
  EXPECT(lfm_wake_all(&condvar), LFM_NOBODY);
  generation = 0;
  in_threads(WAITERS + 1, short_lives);
  EXPECT(returned, WAITERS * ROUNDS);
  in_threads(5, two_mutexes);
  lock(&mutex);
  EXPECT(lfm_condvar_close(&condvar), LFM_DONE);
  unlock(&mutex);
  printf("%u woken, %u timed out\n", waited, timed_out);
  return 0;
}
