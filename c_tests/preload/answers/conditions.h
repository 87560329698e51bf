/* Condition variables: times, broadcasts, signals, nested holds, and many threads. */
#pragma once
#include "tools.h"

static pthread_mutex_t guard = PTHREAD_MUTEX_INITIALIZER;
static pthread_cond_t changed = PTHREAD_COND_INITIALIZER;
static long turns, waits;

static void test_times_of(pthread_cond_t *cond, clockid_t clock, pthread_mutex_t *mutex) {
  struct timespec begun = after(clock, 0), end = after(clock, 30 * MILLISECOND), now;
  EXPECT(pthread_mutex_lock(mutex), 0);
  EXPECT(pthread_cond_timedwait(cond, mutex, &no_time), EINVAL);
  EXPECT(pthread_cond_timedwait(cond, mutex, &long_ago), ETIMEDOUT);
  EXPECT(pthread_cond_timedwait(cond, mutex, &end), ETIMEDOUT);
  now = after(clock, 0);
  EXPECT((now.tv_sec - begun.tv_sec) * SECOND + now.tv_nsec - begun.tv_nsec >= 30 * MILLISECOND, true);
  end = after(CLOCK_MONOTONIC, 10 * MILLISECOND);
  EXPECT(pthread_cond_clockwait(cond, mutex, CLOCK_MONOTONIC, &end), ETIMEDOUT);
  EXPECT(pthread_cond_clockwait(cond, mutex, CLOCK_PROCESS_CPUTIME_ID, &end), EINVAL);
  EXPECT(by_another(pthread_mutex_trylock, mutex), EBUSY);
  EXPECT(pthread_mutex_unlock(mutex), 0);
  EXPECT(pthread_cond_signal(cond), 0);
  EXPECT(pthread_cond_broadcast(cond), 0);
  EXPECT(pthread_cond_destroy(cond), 0);
}

static void test_times(void) {
  pthread_condattr_t attributes;
  pthread_cond_t cond;
  pthread_mutex_t mutex = PTHREAD_ERRORCHECK_MUTEX_INITIALIZER_NP;
  EXPECT(pthread_condattr_init(&attributes), 0);
  EXPECT(pthread_cond_init(&cond, NULL), 0);
  test_times_of(&cond, CLOCK_REALTIME, &mutex);
  EXPECT(pthread_condattr_setclock(&attributes, CLOCK_MONOTONIC), 0);
  EXPECT(pthread_cond_init(&cond, &attributes), 0);
  test_times_of(&cond, CLOCK_MONOTONIC, &guard);
  EXPECT(pthread_cond_wait(&changed, &mutex), EPERM);
  EXPECT(pthread_mutex_destroy(&mutex), 0);
}

enum { TURNS = 400 };

/* Each thread waits for its turn, so every broadcast wakes all, and one goes on. */
static void *take_turns(void *at) {
  long own = (long)(intptr_t)at;
  for (int i = 0; i < TURNS; i++) {
    EXPECT(pthread_mutex_lock(&guard), 0);
    while (turns % 8 != own) {
      waits++;
      EXPECT(pthread_cond_wait(&changed, &guard), 0);
    }
    turns++;
    EXPECT(pthread_cond_broadcast(&changed), 0);
    EXPECT(pthread_mutex_unlock(&guard), 0);
  }
  return NULL;
}

static void test_broadcasts(void) {
  turns = waits = 0;
  in_threads(8, take_turns);
  EXPECT(turns, 8 * TURNS);
  EXPECT(waits != 0, true);
}

/* A queue of three places, with two condition variables at one mutex, and signals. */
static long queued, put, taken, sum;
static pthread_cond_t filled = PTHREAD_COND_INITIALIZER, emptied = PTHREAD_COND_INITIALIZER;
enum { ITEMS = 4000, PLACES = 3 };

static void *produce_or_consume(void *at) {
  for (int i = 0; i < ITEMS; i++) {
    EXPECT(pthread_mutex_lock(&guard), 0);
    if ((intptr_t)at % 2) {
      while (queued == PLACES) EXPECT(pthread_cond_wait(&emptied, &guard), 0);
      queued++;
      sum += put++;
      EXPECT(pthread_cond_signal(&filled), 0);
      EXPECT(pthread_mutex_unlock(&guard), 0);
    } else {
      struct timespec end = after(CLOCK_REALTIME, 60l * SECOND);
      while (queued == 0) EXPECT(pthread_cond_timedwait(&filled, &guard, &end), 0);
      queued--;
      sum -= taken++;
      EXPECT(pthread_mutex_unlock(&guard), 0);
      EXPECT(pthread_cond_signal(&emptied), 0);
    }
  }
  return NULL;
}

static void test_signals(void) {
  in_threads(6, produce_or_consume);
  EXPECT(queued, 0);
  EXPECT(put, 3 * ITEMS);
  EXPECT(sum, 0);
}

/* A wait of a thread that holds a recursive mutex twice, and of one that waits while another destroys. */
static pthread_mutex_t nested = PTHREAD_RECURSIVE_MUTEX_INITIALIZER_NP;
static bool is_set;

static void *wait_nested(void *at) {
  for (int i = 0; i < 3; i++) EXPECT(pthread_mutex_lock(&nested), 0);
  while (!is_set) EXPECT(pthread_cond_wait(&changed, &nested), 0);
  EXPECT(by_another(pthread_mutex_trylock, &nested), EBUSY);
  for (int i = 0; i < 3; i++) EXPECT(pthread_mutex_unlock(&nested), 0);
  EXPECT(pthread_mutex_unlock(&nested), EPERM);
  return at;
}

static void test_nested(void) {
  pthread_t thread;
  if (!is_ours) return; /* with the system nobody acquires the mutex */
  EXPECT(pthread_create(&thread, NULL, wait_nested, NULL), 0);
  while (pthread_cond_destroy(&changed) == 0) usleep(1000);
  EXPECT(pthread_cond_destroy(&changed), EBUSY);
  EXPECT(pthread_mutex_lock(&nested), 0);
  is_set = true;
  EXPECT(pthread_mutex_unlock(&nested), 0);
  EXPECT(pthread_cond_signal(&changed), 0);
  EXPECT(pthread_join(thread, NULL), 0);
  EXPECT(pthread_cond_destroy(&changed), 0);
}

/* More threads than processors, all in one wait at a time, and threads that come and go */

static void *meet(void *at) {
  EXPECT(pthread_mutex_lock(&guard), 0);
  turns++;
  EXPECT(pthread_cond_broadcast(&changed), 0);
  while (turns < 150) EXPECT(pthread_cond_wait(&changed, &guard), 0);
  EXPECT(pthread_mutex_unlock(&guard), 0);
  return at;
}

static void *add_one(void *at) {
  EXPECT(pthread_mutex_lock(&guard), 0);
  turns++;
  EXPECT(pthread_mutex_unlock(&guard), 0);
  return at;
}

static void test_many_threads(void) {
  turns = 0;
  in_threads(150, meet);
  for (int i = 0; i < 30; i++) in_threads(150, add_one);
  EXPECT(turns, 150 + 30 * 150);
}
