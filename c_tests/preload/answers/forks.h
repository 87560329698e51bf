/* Forks, with handlers that hold a mutex meanwhile, as a malloc has them. */
#pragma once
#include "conditions.h"

static pthread_mutex_t held_over_forks = PTHREAD_MUTEX_INITIALIZER;
static bool is_over;

static void hold(void) { EXPECT(pthread_mutex_lock(&held_over_forks), 0); }
static void release(void) { EXPECT(pthread_mutex_unlock(&held_over_forks), 0); }

static void *lock_often(void *at) {
  while (!__atomic_load_n(&is_over, __ATOMIC_RELAXED)) {
    EXPECT(pthread_mutex_lock(&held_over_forks), 0);
    turns++;
    EXPECT(pthread_mutex_unlock(&held_over_forks), 0);
  }
  return at;
}

static void be_child(void) {
  pthread_mutex_t other = PTHREAD_MUTEX_INITIALIZER;
  alarm(30);
  EXPECT(pthread_mutex_lock(&guard), 0);
  EXPECT(pthread_mutex_unlock(&guard), 0);
  for (int i = 0; i < 3; i++) {
    EXPECT(pthread_mutex_lock(&held_over_forks), 0);
    EXPECT(pthread_mutex_unlock(&held_over_forks), 0);
  }
  turns = 0;
  EXPECT(pthread_cond_init(&changed, NULL), 0);
  in_threads(8, take_turns);
  EXPECT(turns, 8 * TURNS);
  EXPECT(pthread_mutex_lock(&other), 0);
  EXPECT(pthread_mutex_unlock(&other), 0);
  EXPECT(pthread_mutex_destroy(&other), 0);
  EXPECT(pthread_mutex_destroy(&guard), 0);
  _exit(0);
}

static void test_forks(void) {
  pthread_t threads[3];
  EXPECT(pthread_atfork(hold, release, release), 0);
  for (int i = 0; i < 3; i++) EXPECT(pthread_create(&threads[i], NULL, lock_often, NULL), 0);
  for (int i = 0; i < 10; i++) {
    int status;
    pid_t child = fork();
    if (child == 0) be_child();
    EXPECT(waitpid(child, &status, 0), child);
    EXPECT(status, 0);
  }
  is_over = true;
  for (int i = 0; i < 3; i++) EXPECT(pthread_join(threads[i], NULL), 0);
}

/* A mutex that the forking thread holds, in a child and in its child. In glibc a child can't unlock a recursive one. */
static void test_held_in_child(void) {
  int status;
  pthread_mutex_t normal = PTHREAD_MUTEX_INITIALIZER, recursive = PTHREAD_RECURSIVE_MUTEX_INITIALIZER_NP;
  pthread_mutex_t *mutex = is_ours ? &recursive : &normal;
  for (int i = 0; i < 1 + is_ours; i++) EXPECT(pthread_mutex_lock(mutex), 0);
  if (fork() == 0) {
    alarm(30);
    EXPECT(by_another(pthread_mutex_trylock, mutex), EBUSY);
    if (is_ours) EXPECT(pthread_mutex_unlock(mutex), 0);
    if (fork() == 0) {
      EXPECT(by_another(pthread_mutex_trylock, mutex), EBUSY);
      EXPECT(pthread_mutex_unlock(mutex), 0);
      EXPECT(by_another(try_and_unlock, mutex), 0);
      _exit(0);
    }
    EXPECT(wait(&status) > 0 && status == 0, true);
    _exit(0);
  }
  EXPECT(wait(&status) > 0 && status == 0, true);
  for (int i = 0; i < 1 + is_ours; i++) EXPECT(pthread_mutex_unlock(mutex), 0);
  EXPECT(pthread_mutex_destroy(mutex), 0);
}
