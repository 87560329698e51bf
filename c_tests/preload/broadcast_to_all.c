/* A thread that holds the mutex broadcasts, while one of the waiters is stopped in a signal handler. All others go on before
 * that thread does. The test passes with libligdrosa_pthread.so preloaded, and with the system. */
#define _GNU_SOURCE
#include <errno.h>
#include "../children.h"

enum { WAITERS = 12, STOPPED_IN_TURN = 4, WAIT = 1000, SECONDS = 60 };

static pthread_mutex_t mutex = PTHREAD_MUTEX_INITIALIZER;
static pthread_cond_t changed = PTHREAD_COND_INITIALIZER;
static bool is_changed, is_stopped;
static int waiting, gone_on;

/* SIGUSR2 stays blocked until the handler waits for it. */
static void stop(int signal_number) {
  (void)signal_number;
  int before = errno;
  sigset_t others;
  sigfillset(&others);
  sigdelset(&others, SIGUSR2);
  __atomic_store_n(&is_stopped, true, __ATOMIC_SEQ_CST);
  sigsuspend(&others);
  errno = before;
}

static void go_on(int signal_number) { (void)signal_number; }

static void set_handler(int signal_number, void (*handler)(int)) {
  struct sigaction action;
  memset(&action, 0, sizeof action);
  action.sa_handler = handler;
  sigfillset(&action.sa_mask);
  EXPECT(sigaction(signal_number, &action, NULL), 0);
}

static void *wait_for_change(void *at) {
  EXPECT(pthread_mutex_lock(&mutex), 0);
  waiting++;
  while (!is_changed) EXPECT(pthread_cond_wait(&changed, &mutex), 0);
  __atomic_add_fetch(&gone_on, 1, __ATOMIC_SEQ_CST);
  EXPECT(pthread_mutex_unlock(&mutex), 0);
  return at;
}

/* Starts a thread, and returns when it waits. */
static void start_waiter(pthread_t *thread, int before) {
  int found = before;
  EXPECT(pthread_create(thread, NULL, wait_for_change, NULL), 0);
  while (found == before) {
    usleep(WAIT);
    EXPECT(pthread_mutex_lock(&mutex), 0);
    found = waiting;
    EXPECT(pthread_mutex_unlock(&mutex), 0);
  }
}

static void await_gone_on(int count) {
  while (__atomic_load_n(&gone_on, __ATOMIC_SEQ_CST) < count) usleep(WAIT);
}

static void broadcast_beside_stopped(int stopped) {
  pthread_t threads[WAITERS];
  is_changed = is_stopped = false;
  waiting = gone_on = 0;
  for (int i = 0; i < WAITERS; i++) start_waiter(&threads[i], i);
  EXPECT(pthread_kill(threads[stopped], SIGUSR1), 0);
  while (!__atomic_load_n(&is_stopped, __ATOMIC_SEQ_CST)) usleep(WAIT);
  EXPECT(pthread_mutex_lock(&mutex), 0);
  is_changed = true;
  EXPECT(pthread_cond_broadcast(&changed), 0);
  EXPECT(pthread_mutex_unlock(&mutex), 0);
  await_gone_on(WAITERS - 1);
  EXPECT(pthread_mutex_lock(&mutex), 0);
  EXPECT(gone_on, WAITERS - 1);
  EXPECT(pthread_mutex_unlock(&mutex), 0);
  EXPECT(pthread_kill(threads[stopped], SIGUSR2), 0);
  for (int i = 0; i < WAITERS; i++) EXPECT(pthread_join(threads[i], NULL), 0);
  EXPECT(gone_on, WAITERS);
  EXPECT(pthread_cond_destroy(&changed), 0);
  EXPECT(pthread_cond_init(&changed, NULL), 0);
}

int main(void) {
  alarm(SECONDS);
  set_handler(SIGUSR1, stop);
  set_handler(SIGUSR2, go_on);
  for (int i = 0; i < STOPPED_IN_TURN; i++) broadcast_beside_stopped(i);
  return 0;
}
