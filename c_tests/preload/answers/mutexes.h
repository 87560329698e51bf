/* Mutexes: their kinds, how deep they are held, and where they lie. */
#pragma once
#include "tools.h"

static void test_kind(pthread_mutex_t *mutex, int kind) {
  bool is_recursive = kind == PTHREAD_MUTEX_RECURSIVE, is_checked = kind == PTHREAD_MUTEX_ERRORCHECK;
  EXPECT(pthread_mutex_lock(mutex), 0);
  EXPECT(by_another(pthread_mutex_trylock, mutex), EBUSY);
  EXPECT(by_another(lock_until_soon, mutex), ETIMEDOUT);
  EXPECT(by_another(lock_until_soon_by_monotonic, mutex), ETIMEDOUT);
  EXPECT(by_another(lock_until_long_ago, mutex), ETIMEDOUT);
  EXPECT(by_another(lock_until_no_time, mutex), EINVAL);
  EXPECT(pthread_mutex_trylock(mutex), is_recursive ? 0 : EBUSY);
  EXPECT(lock_until_soon(mutex), is_recursive ? 0 : is_checked ? EDEADLK : ETIMEDOUT);
  EXPECT(lock_until_soon_by_monotonic(mutex), is_recursive ? 0 : is_checked ? EDEADLK : ETIMEDOUT);
  if (is_recursive || is_checked) EXPECT(pthread_mutex_lock(mutex), is_recursive ? 0 : EDEADLK);
  if (is_ours || is_recursive || is_checked) EXPECT(by_another(pthread_mutex_unlock, mutex), EPERM);
  EXPECT(pthread_mutex_destroy(mutex), EBUSY);
  for (int i = 0; is_recursive && i < 4; i++) {
    EXPECT(by_another(pthread_mutex_trylock, mutex), EBUSY);
    EXPECT(pthread_mutex_unlock(mutex), 0);
  }
  EXPECT(pthread_mutex_unlock(mutex), 0);
  if (is_ours || is_recursive || is_checked) EXPECT(pthread_mutex_unlock(mutex), EPERM);
  EXPECT(by_another(try_and_unlock, mutex), 0);
  EXPECT(pthread_mutex_timedlock(mutex, &long_ago), 0);
  EXPECT(pthread_mutex_unlock(mutex), 0);
  EXPECT(pthread_mutex_timedlock(mutex, &no_time), 0);
  EXPECT(pthread_mutex_unlock(mutex), 0);
  EXPECT(pthread_mutex_clocklock(mutex, CLOCK_PROCESS_CPUTIME_ID, &long_ago), EINVAL);
  EXPECT(pthread_mutex_destroy(mutex), 0);
  EXPECT(pthread_mutex_lock(mutex), EINVAL);
  EXPECT(pthread_mutex_trylock(mutex), EINVAL);
}

static void test_kinds(void) {
  static pthread_mutex_t by_constant[] = {PTHREAD_MUTEX_INITIALIZER, PTHREAD_RECURSIVE_MUTEX_INITIALIZER_NP,
                                          PTHREAD_ERRORCHECK_MUTEX_INITIALIZER_NP, PTHREAD_ADAPTIVE_MUTEX_INITIALIZER_NP};
  static const int kinds[] = {PTHREAD_MUTEX_NORMAL, PTHREAD_MUTEX_RECURSIVE, PTHREAD_MUTEX_ERRORCHECK,
                              PTHREAD_MUTEX_ADAPTIVE_NP};
  pthread_mutexattr_t attributes;
  pthread_mutex_t mutex;
  EXPECT(pthread_mutexattr_init(&attributes), 0);
  for (int i = 0; i < 4; i++) {
    test_kind(&by_constant[i], kinds[i]);
    EXPECT(pthread_mutexattr_settype(&attributes, kinds[i]), 0);
    EXPECT(pthread_mutex_init(&mutex, &attributes), 0);
    test_kind(&mutex, kinds[i]);
  }
  EXPECT(pthread_mutex_init(&mutex, NULL), 0);
  test_kind(&mutex, PTHREAD_MUTEX_DEFAULT);
  EXPECT(pthread_mutex_init(&mutex, NULL), 0);
  EXPECT(pthread_mutex_destroy(&mutex), 0);
}

static void test_depth(void) {
  pthread_mutex_t mutex = PTHREAD_RECURSIVE_MUTEX_INITIALIZER_NP;
  for (int i = 0; i < 65535; i++) EXPECT(pthread_mutex_lock(&mutex), 0);
  EXPECT(pthread_mutex_lock(&mutex), EITHER(EAGAIN, 0));
  EXPECT(pthread_mutex_trylock(&mutex), EITHER(EAGAIN, 0));
  for (int i = 0; i < EITHER(65535, 65537); i++) EXPECT(pthread_mutex_unlock(&mutex), 0);
  EXPECT(pthread_mutex_unlock(&mutex), EPERM);
  EXPECT(pthread_mutex_destroy(&mutex), 0);
}

/* A mutex that lies where another one was never destroyed, and a copy of a mutex. */
static void test_places(void) {
  static const pthread_mutex_t initial = PTHREAD_MUTEX_INITIALIZER;
  pthread_mutex_t mutex, copy;
  for (int i = 0; i < 100000; i++) {
    mutex = initial;
    EXPECT(pthread_mutex_lock(&mutex), 0);
    EXPECT(pthread_mutex_unlock(&mutex), 0);
  }
  pthread_mutex_t *many = (pthread_mutex_t *)calloc(5000, sizeof *many);
  for (int round = 0; round < 2; round++) {
    for (int i = 0; i < 5000; i++) EXPECT(pthread_mutex_lock(&many[i]), 0);
    for (int i = 0; i < 5000; i++) EXPECT(pthread_mutex_unlock(&many[i]), 0);
  }
  for (int i = 0; i < 5000; i++) EXPECT(pthread_mutex_destroy(&many[i * 7 % 5000]), 0);
  free(many);
  memcpy(&copy, &mutex, sizeof copy);
  EXPECT(pthread_mutex_lock(&mutex), 0);
  EXPECT(pthread_mutex_lock(&copy), 0);
  EXPECT(pthread_mutex_unlock(&copy), 0);
  EXPECT(pthread_mutex_unlock(&mutex), 0);
  EXPECT(pthread_mutex_destroy(&copy), 0);
  EXPECT(pthread_mutex_destroy(&mutex), 0);
}
