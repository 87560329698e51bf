/* A handler of a signal forks, at any moment while its thread begins and ends mutexes, or forks. It doesn't wait for that thread.
 * Then threads are stopped by a signal, as a collector of garbage stops them, at any moment while they begin and end mutexes and
 * condition variables, or fork. Nobody waits for a thread that is stopped. Each part has a number of rounds, and ends earlier on
 * a busy machine. The test passes with libligdrosa_pthread.so preloaded, and with the system. */
#define _GNU_SOURCE
#include <errno.h>
#include <sys/time.h>
#include <time.h>
#include "../children.h"

enum { ROUNDS = 1000, FORKS = 200, SECONDS = 60, MOST_SECONDS = 5 };
static pthread_mutex_t mutexes[ROUNDS];
static pthread_cond_t conditions[ROUNDS];
static int stopped, over;
static volatile sig_atomic_t forks;
static time_t begun;

static time_t seconds(void) {
  struct timespec now;
  EXPECT(clock_gettime(CLOCK_MONOTONIC, &now), 0);
  return now.tv_sec;
}

static bool is_time_left(void) { return seconds() < begun + MOST_SECONDS; }

/* Stops the thread until it gets the other signal. */
static void stop(int signal) {
  int before = errno;
  sigset_t but_one;
  (void)signal;
  sigfillset(&but_one);
  sigdelset(&but_one, SIGUSR2);
  sigdelset(&but_one, SIGALRM);
  __atomic_add_fetch(&stopped, 1, __ATOMIC_SEQ_CST);
  sigsuspend(&but_one);
  errno = before;
}

static void go_on(int signal) { (void)signal; }

static void fork_once(void) {
  pid_t child = fork();
  if (child == 0) _exit(0);
  while (waitpid(child, NULL, 0) == -1) EXPECT(errno, EINTR);
}

static void fork_in_handler(int signal) {
  int before = errno;
  (void)signal;
  fork_once();
  forks++;
  errno = before;
}

static void handle(int signal, void (*handler)(int)) {
  struct sigaction action = {.sa_handler = handler, .sa_flags = SA_RESTART};
  sigfillset(&action.sa_mask);
  sigdelset(&action.sa_mask, SIGALRM);
  EXPECT(sigaction(signal, &action, NULL), 0);
}

static void begin_and_end_mutex(void) {
  pthread_mutex_t mutex;
  EXPECT(pthread_mutex_init(&mutex, NULL), 0);
  EXPECT(pthread_mutex_lock(&mutex), 0);
  EXPECT(pthread_mutex_unlock(&mutex), 0);
  EXPECT(pthread_mutex_destroy(&mutex), 0);
}

/* Begins both by a wait, whose time is over. */
static void use(pthread_mutex_t *mutex, pthread_cond_t *condition) {
  struct timespec past = {1, 0};
  EXPECT(pthread_mutex_lock(mutex), 0);
  EXPECT(pthread_cond_timedwait(condition, mutex, &past), ETIMEDOUT);
  EXPECT(pthread_mutex_unlock(mutex), 0);
}

static void *begin_and_end(void *at) {
  while (!__atomic_load_n(&over, __ATOMIC_SEQ_CST)) {
    pthread_mutex_t mutex;
    pthread_cond_t condition;
    EXPECT(pthread_mutex_init(&mutex, NULL), 0);
    EXPECT(pthread_cond_init(&condition, NULL), 0);
    use(&mutex, &condition);
    EXPECT(pthread_cond_destroy(&condition), 0);
    EXPECT(pthread_mutex_destroy(&mutex), 0);
  }
  return at;
}

static void *fork_often(void *at) {
  while (!__atomic_load_n(&over, __ATOMIC_SEQ_CST)) fork_once();
  return at;
}

/* Stops these threads, makes the call, and lets them go on. */
static void while_stopped(const pthread_t *threads, int count, void (*call)(int), int round) {
  __atomic_store_n(&stopped, 0, __ATOMIC_SEQ_CST);
  for (int i = 0; i < count; i++) EXPECT(pthread_kill(threads[i], SIGUSR1), 0);
  while (__atomic_load_n(&stopped, __ATOMIC_SEQ_CST) != count) sched_yield();
  call(round);
  for (int i = 0; i < count; i++) EXPECT(pthread_kill(threads[i], SIGUSR2), 0);
  for (int i = 0; i < round % 7; i++) sched_yield();
}

static void begin_others(int round) {
  use(&mutexes[round], &conditions[round]);
}

static void begin_none(int round) { (void)round; }

static void test_stopped(void *(*first)(void *), void *(*second)(void *), void (*call)(int)) {
  pthread_t threads[2];
  int count = second ? 2 : 1;
  begun = seconds();
  __atomic_store_n(&over, 0, __ATOMIC_SEQ_CST);
  EXPECT(pthread_create(&threads[0], NULL, first, NULL), 0);
  if (second) EXPECT(pthread_create(&threads[1], NULL, second, NULL), 0);
  for (int round = 0; round < ROUNDS && is_time_left(); round++) while_stopped(threads, count, call, round);
  __atomic_store_n(&over, 1, __ATOMIC_SEQ_CST);
  for (int i = 0; i < count; i++) EXPECT(pthread_join(threads[i], NULL), 0);
}

/* The timer is set anew after each handler, so the thread gets on however long a fork takes. */
static void test_fork_in_handler(void (*call)(void)) {
  begun = seconds();
  forks = 0;
  for (int round = 0; round < FORKS && is_time_left(); round++) {
    struct itimerval once = {.it_value = {.tv_usec = 100 + round * 37 % 900}};
    int before = forks;
    EXPECT(setitimer(ITIMER_PROF, &once, NULL), 0);
    while (forks == before) call();
  }
}

int main(void) {
  alarm(SECONDS);
  handle(SIGUSR1, stop);
  handle(SIGUSR2, go_on);
  handle(SIGPROF, fork_in_handler);
  test_fork_in_handler(begin_and_end_mutex);
  test_fork_in_handler(fork_once); /* while there is one thread: glibc's fork holds a lock else */
  test_stopped(begin_and_end, NULL, begin_others);
  test_stopped(begin_and_end, fork_often, begin_none);
  return 0;
}
