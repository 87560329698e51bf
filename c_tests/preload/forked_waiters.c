/* A process forks while threads of it wait at two condition variables. The child lacks these threads. It signals and
 * broadcasts at one, and uses the other among its own threads. They have the stacks of the parent's threads, and write over
 * what lies there.
 *
 * The test passes with libligdrosa_pthread.so preloaded, and with the system. With the argument `ours` the child then uses the
 * first one too, which hangs with the system. */
#define _GNU_SOURCE
#include <errno.h>
#include "../children.h"

enum { WAITERS = 4, WAIT = 1000 }; /* threads that wait at each, and microseconds */

struct meeting {
  pthread_cond_t cond;
  int waiting;
  bool is_over;
};
static pthread_mutex_t mutex = PTHREAD_MUTEX_INITIALIZER;
static struct meeting woken = {PTHREAD_COND_INITIALIZER, 0, false}, waited_at = {PTHREAD_COND_INITIALIZER, 0, false};
static bool is_ours;

static void *wait_for_end(void *at) {
  struct meeting *meeting = (struct meeting *)at;
  char stack[8192];
  memset(stack, 85, sizeof stack);
  __asm__ volatile("" ::"r"(stack) : "memory");
  EXPECT(pthread_mutex_lock(&mutex), 0);
  meeting->waiting++;
  while (!meeting->is_over) EXPECT(pthread_cond_wait(&meeting->cond, &mutex), 0);
  meeting->waiting--;
  EXPECT(pthread_mutex_unlock(&mutex), 0);
  return NULL;
}

static void begin(struct meeting *meeting, pthread_t *threads, int count) {
  int waiting = 0;
  for (int i = 0; i < count; i++) EXPECT(pthread_create(&threads[i], NULL, wait_for_end, meeting), 0);
  while (waiting < count) {
    usleep(WAIT);
    EXPECT(pthread_mutex_lock(&mutex), 0);
    waiting = meeting->waiting;
    EXPECT(pthread_mutex_unlock(&mutex), 0);
  }
}

static void end(struct meeting *meeting, pthread_t *threads, int count) {
  EXPECT(pthread_mutex_lock(&mutex), 0);
  meeting->is_over = true;
  EXPECT(pthread_cond_broadcast(&meeting->cond), 0);
  EXPECT(pthread_mutex_unlock(&mutex), 0);
  for (int i = 0; i < count; i++) EXPECT(pthread_join(threads[i], NULL), 0);
  EXPECT(meeting->waiting, 0);
}

/* As in a new process, apart from the condition variable. */
static void forget(struct meeting *meeting) {
  meeting->waiting = 0;
  meeting->is_over = false;
}

static void use_in_child(void) {
  pthread_t threads[2 * WAITERS];
  forget(&waited_at);
  begin(&waited_at, threads, 2 * WAITERS);
  EXPECT(pthread_cond_signal(&woken.cond), 0);
  EXPECT(pthread_cond_broadcast(&woken.cond), 0);
  end(&waited_at, threads, 2 * WAITERS);
  if (!is_ours) return;
  for (int i = 0; i < 3; i++) {
    forget(&woken);
    begin(&woken, threads, WAITERS);
    EXPECT(pthread_cond_destroy(&woken.cond), EBUSY);
    end(&woken, threads, WAITERS);
  }
  EXPECT(pthread_cond_destroy(&woken.cond), 0);
}

int main(int words, char **word) {
  pthread_t at_first[WAITERS], at_second[WAITERS];
  is_ours = words == 2 && strcmp(word[1], "ours") == 0;
  begin(&woken, at_first, WAITERS);
  begin(&waited_at, at_second, WAITERS);
  for (int i = 0; i < 2; i++) EXPECT(in_child(use_in_child), 0);
  end(&woken, at_first, WAITERS);
  end(&waited_at, at_second, WAITERS);
  return 0;
}
