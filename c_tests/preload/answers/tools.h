/* What the tests of answers share: how an answer is compared, times, and calls of other threads. */
#pragma once
#define _GNU_SOURCE
#include <errno.h>
#include <pthread.h>
#include <stdbool.h>
#include <stdint.h>
#include <stdio.h>
#include <stdlib.h>
#include <string.h>
#include <sys/mman.h>
#include <sys/wait.h>
#include <time.h>
#include <unistd.h>

static bool is_ours;
#define EITHER(ours, system) (is_ours ? (ours) : (system))

static void wanted(const char *file, int line, const char *what, long found, long wanted) {
  if (found == wanted) return;
  fprintf(stderr, "%s:%d: %s is %ld, and %ld is wanted\n", file, line, what, found, wanted);
  exit(1);
}
#define EXPECT(what, is) wanted(__FILE__, __LINE__, #what, (long)(what), (long)(is))

enum { MILLISECOND = 1000000, SECOND = 1000 * MILLISECOND };

static struct timespec after(clockid_t clock, long nanoseconds) {
  struct timespec time;
  clock_gettime(clock, &time);
  time.tv_sec += nanoseconds / SECOND;
  time.tv_nsec += nanoseconds % SECOND;
  if (time.tv_nsec >= SECOND) time.tv_sec++, time.tv_nsec -= SECOND;
  return time;
}

static const struct timespec long_ago = {1, 0}, no_time = {1, SECOND};

/* Makes a call of a mutex in another thread. */
struct other_call {
  int (*call)(pthread_mutex_t *);
  pthread_mutex_t *mutex;
};
static void *make_call(void *at) {
  struct other_call *other = (struct other_call *)at;
  return (void *)(intptr_t)other->call(other->mutex);
}
static int by_another(int (*call)(pthread_mutex_t *), pthread_mutex_t *mutex) {
  struct other_call other = {call, mutex};
  pthread_t thread;
  void *answer;
  EXPECT(pthread_create(&thread, NULL, make_call, &other), 0);
  EXPECT(pthread_join(thread, &answer), 0);
  return (int)(intptr_t)answer;
}

static void in_threads(unsigned count, void *(*run)(void *)) {
  pthread_t threads[200];
  for (unsigned i = 0; i < count; i++) EXPECT(pthread_create(&threads[i], NULL, run, (void *)(uintptr_t)i), 0);
  for (unsigned i = 0; i < count; i++) EXPECT(pthread_join(threads[i], NULL), 0);
}

static int try_and_unlock(pthread_mutex_t *mutex) {
  int answer = pthread_mutex_trylock(mutex);
  return answer ? answer : pthread_mutex_unlock(mutex);
}

static int lock_until_soon(pthread_mutex_t *mutex) {
  struct timespec end = after(CLOCK_REALTIME, 20 * MILLISECOND);
  return pthread_mutex_timedlock(mutex, &end);
}

static int lock_until_soon_by_monotonic(pthread_mutex_t *mutex) {
  struct timespec end = after(CLOCK_MONOTONIC, 20 * MILLISECOND);
  return pthread_mutex_clocklock(mutex, CLOCK_MONOTONIC, &end);
}

static int lock_until_no_time(pthread_mutex_t *mutex) { return pthread_mutex_timedlock(mutex, &no_time); }
static int lock_until_long_ago(pthread_mutex_t *mutex) { return pthread_mutex_timedlock(mutex, &long_ago); }
