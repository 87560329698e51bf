/* A thread wakes another while it holds the mutex, so the ring is put off, and forks. The child doesn't have the thread that
 * waits, and another thread's stack may lie there by then. So when the child's thread releases the mutex, or ends while it
 * holds, it changes nothing there. */
#define _GNU_SOURCE
#include "children.h"

enum { STACK = 1 << 20 };
static unsigned char stack[STACK] __attribute__((aligned(4096))), in_fork[STACK];
static lfm_mutex mutex = LFM_MUTEX_INIT;
static lfm_condvar condvar;
static bool waits;

static void *wait_once(void *at) {
  EXPECT(lfm_lock_here(&mutex), LFM_DONE);
  waits = true;
  EXPECT(lfm_wait_here(&condvar, &mutex), LFM_DONE);
  EXPECT(lfm_is_refused(lfm_unlock_here(&mutex)), false);
  return at;
}

/* Acquires the mutex when the other thread waits. */
static void lock_when_it_waits(void) {
  for (;;) {
    EXPECT(lfm_lock_here(&mutex), LFM_DONE);
    if (waits) return;
    EXPECT(lfm_is_refused(lfm_unlock_here(&mutex)), false);
    sched_yield();
  }
}

/* Ends the child before a sanitizer looks for leaks in it: what the parent's threads had on their stacks isn't found there. */
static void end_with_answer(void) {
  _exit(memcmp(stack, in_fork, STACK) != 0);
}

/* Ends the thread, which gives its seat back, and with it the process. */
static void end_in_child(void) {
  memcpy(in_fork, stack, STACK);
  EXPECT(atexit(end_with_answer), 0);
  pthread_exit(NULL);
}

static void release_in_child(void) {
  memcpy(in_fork, stack, STACK);
  EXPECT(lfm_after_fork(&mutex, NULL), LFM_DONE);
  EXPECT(lfm_unlock_here(&mutex), LFM_DONE);
  end_with_answer();
}

int main(void) {
  pthread_t thread;
  pthread_attr_t with_stack;
  EXPECT(pthread_attr_init(&with_stack), 0);
  EXPECT(pthread_attr_setstack(&with_stack, stack, STACK), 0);
  EXPECT(pthread_create(&thread, &with_stack, wait_once, NULL), 0);
  lock_when_it_waits();
  EXPECT(lfm_wake_one(&condvar), LFM_DONE);
  EXPECT(in_child(end_in_child), 0);
  EXPECT(in_child(release_in_child), 0);
  EXPECT(lfm_is_refused(lfm_unlock_here(&mutex)), false);
  EXPECT(pthread_join(thread, NULL), 0);
  EXPECT(lfm_mutex_close(&mutex), LFM_DONE);
  return 0;
}
