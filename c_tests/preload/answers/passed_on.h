/* What is passed on to the system: what is shared between processes, priorities, and cancelled waits. */
#pragma once
#include "conditions.h"

struct shared {
  pthread_mutex_t mutex;
  pthread_cond_t cond;
  long count;
};

static void count_in_child(struct shared *shared) {
  for (int i = 0; i < 2000; i++) {
    EXPECT(pthread_mutex_lock(&shared->mutex), 0);
    shared->count++;
    EXPECT(pthread_mutex_unlock(&shared->mutex), 0);
  }
  EXPECT(pthread_mutex_lock(&shared->mutex), 0);
  EXPECT(pthread_cond_signal(&shared->cond), 0);
  _exit(0); /* while it holds a robust mutex */
}

static void test_shared(void) {
  struct shared *shared =
      (struct shared *)mmap(NULL, sizeof *shared, PROT_READ | PROT_WRITE, MAP_SHARED | MAP_ANONYMOUS, -1, 0);
  pthread_mutexattr_t attributes;
  pthread_condattr_t of_cond;
  EXPECT(pthread_mutexattr_init(&attributes), 0);
  EXPECT(pthread_mutexattr_setpshared(&attributes, PTHREAD_PROCESS_SHARED), 0);
  EXPECT(pthread_mutexattr_setrobust(&attributes, PTHREAD_MUTEX_ROBUST), 0);
  EXPECT(pthread_mutex_init(&shared->mutex, &attributes), 0);
  EXPECT(pthread_condattr_init(&of_cond), 0);
  EXPECT(pthread_condattr_setpshared(&of_cond, PTHREAD_PROCESS_SHARED), 0);
  EXPECT(pthread_cond_init(&shared->cond, &of_cond), 0);
  EXPECT(pthread_mutex_lock(&shared->mutex), 0);
  pid_t child = fork();
  if (child == 0) count_in_child(shared);
  EXPECT(pthread_cond_wait(&shared->cond, &shared->mutex), EOWNERDEAD);
  EXPECT(shared->count, 2000);
  EXPECT(pthread_mutex_consistent(&shared->mutex), 0);
  EXPECT(pthread_mutex_unlock(&shared->mutex), 0);
  EXPECT(waitpid(child, NULL, 0), child);
  EXPECT(pthread_cond_destroy(&shared->cond), 0);
  EXPECT(pthread_mutex_destroy(&shared->mutex), 0);
}

/* A condition variable that is shared, with a mutex that isn't. */
static void test_shared_condition(void) {
  pthread_cond_t shared;
  pthread_condattr_t of_cond;
  struct timespec end = after(CLOCK_REALTIME, 10 * MILLISECOND);
  EXPECT(pthread_condattr_init(&of_cond), 0);
  EXPECT(pthread_condattr_setpshared(&of_cond, PTHREAD_PROCESS_SHARED), 0);
  EXPECT(pthread_cond_init(&shared, &of_cond), 0);
  EXPECT(pthread_mutex_lock(&guard), 0);
  EXPECT(pthread_cond_timedwait(&shared, &guard, &end), EITHER(EINVAL, ETIMEDOUT));
  EXPECT(pthread_mutex_unlock(&guard), 0);
  EXPECT(pthread_cond_destroy(&shared), 0);
}

static pthread_mutex_t by_priority;
static pthread_cond_t at_priority = PTHREAD_COND_INITIALIZER;

static void *wait_by_priority(void *at) {
  EXPECT(pthread_mutex_lock(&by_priority), 0);
  while (turns == 0) EXPECT(pthread_cond_wait(&at_priority, &by_priority), 0);
  EXPECT(pthread_mutex_unlock(&by_priority), 0);
  return at;
}

/* A condition variable of this process with a mutex that is passed on. */
static void test_priorities(void) {
  pthread_mutexattr_t attributes;
  pthread_t thread;
  struct timespec end;
  turns = 0;
  EXPECT(pthread_mutexattr_init(&attributes), 0);
  EXPECT(pthread_mutexattr_setprotocol(&attributes, PTHREAD_PRIO_INHERIT), 0);
  EXPECT(pthread_mutex_init(&by_priority, &attributes), 0);
  EXPECT(pthread_create(&thread, NULL, wait_by_priority, NULL), 0);
  usleep(20000);
  EXPECT(pthread_mutex_lock(&by_priority), 0);
  turns = 1;
  EXPECT(pthread_cond_broadcast(&at_priority), 0);
  EXPECT(pthread_mutex_unlock(&by_priority), 0);
  EXPECT(pthread_join(thread, NULL), 0);
  EXPECT(pthread_mutex_lock(&guard), 0);
  end = after(CLOCK_REALTIME, 10 * MILLISECOND);
  EXPECT(pthread_cond_timedwait(&at_priority, &guard, &end), EITHER(EINVAL, ETIMEDOUT));
  EXPECT(pthread_mutex_unlock(&guard), 0);
  EXPECT(pthread_cond_destroy(&at_priority), 0);
  EXPECT(pthread_mutex_destroy(&by_priority), 0);
}

/* Cancellation */

static void unlock_guard(void *at) {
  (void)at;
  EXPECT(by_another(pthread_mutex_trylock, &guard), EBUSY);
  EXPECT(pthread_mutex_unlock(&guard), 0);
}

static void *wait_cancelled(void *is_timed) {
  struct timespec end = after(CLOCK_REALTIME, SECOND / 2);
  EXPECT(pthread_mutex_lock(&guard), 0);
  pthread_cleanup_push(unlock_guard, NULL);
  if (!is_timed) pthread_cancel(pthread_self());
  for (;;) {
    if (is_timed)
      pthread_cond_timedwait(&changed, &guard, &end);
    else
      pthread_cond_wait(&changed, &guard);
    EXPECT(!is_timed, false);
  }
  pthread_cleanup_pop(0);
  return NULL;
}

static void test_cancellation(void) {
  for (intptr_t is_timed = 0; is_timed < 2; is_timed++) {
    pthread_t thread;
    void *answer;
    EXPECT(pthread_create(&thread, NULL, wait_cancelled, (void *)is_timed), 0);
    if (is_timed) EXPECT(pthread_cancel(thread), 0);
    EXPECT(pthread_join(thread, &answer), 0);
    EXPECT(answer == PTHREAD_CANCELED, true);
    EXPECT(try_and_unlock(&guard), 0);
  }
}
