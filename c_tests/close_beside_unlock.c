/* A mutex is closed while an unlock is on its way out: the library has released the mutex, and the unlock has not returned yet.
 * If another thread waits, the close is refused. If nobody does, or the time of its lock is over and it was passed by, the close
 * is made, the memory of the lfm_mutex goes at once, and another mutex is opened with its number and held. The unlock goes on
 * after that, and doesn't touch either.
 *
 * The test has the C file of the library in it, and stops the unlock of one thread after a call of the library's unlock. */
#define _GNU_SOURCE
#define LFM_SPIN_NANOSECONDS 0
#define lfm_c_pool_unlock stopped_unlock
#include "../c/ligdrosa.c"
#undef lfm_c_pool_unlock
#include "expect.h"
uint64_t lfm_c_pool_unlock(void *seat, uint64_t index);

enum { SHORT = 1000000, OVER = 0x5A };
static lfm_mutex *mutex;
static int step, is_stopped;
static _Thread_local int stop_after; /* after which call of the library's unlock from now on the thread stops, 0 for none */

static int seen(int *word) { return __atomic_load_n(word, __ATOMIC_SEQ_CST); }
static void set(int *word, int value) { __atomic_store_n(word, value, __ATOMIC_SEQ_CST); }
static void wait_for(int *word, int value) {
  while (seen(word) != value) sched_yield();
}

uint64_t stopped_unlock(void *seat, uint64_t index) {
  uint64_t answer = lfm_c_pool_unlock(seat, index);
  if (stop_after == 0 || --stop_after != 0) return answer;
  set(&is_stopped, 1);
  wait_for(&is_stopped, 0);
  return answer;
}

/* How an unlock is stopped, and its status. */
struct stop {
  int after;
  lfm_status status;
};

static void *unlock_stopped(void *at) {
  const struct stop *stop = (const struct stop *)at;
  EXPECT(lfm_lock_here(mutex), LFM_DONE);
  set(&step, 1);
  wait_for(&step, 2);
  stop_after = stop->after;
  EXPECT(lfm_unlock_here(mutex), stop->status);
  EXPECT(own.by->holds, 0);
  set(&step, 3);
  return NULL;
}

static void *wait_in_queue(void *at) {
  EXPECT(lfm_lock_in_order_here(mutex), LFM_DONE);
  EXPECT(lfm_is_refused(lfm_unlock_here(mutex)), false);
  return at;
}

/* The thread ends at once, or after the unlock. */
static void *give_up(void *ends) {
  do EXPECT(lfm_try_lock_for_here(mutex, SHORT), LFM_BUSY);
  while (!own.by->deputies || state_of(own.by->deputies) != ABANDONED);
  if (ends) return NULL;
  set(&step, 2);
  wait_for(&step, 3);
  return NULL;
}

static pthread_t begin(struct stop *stop) {
  const lfm_mutex new_one = LFM_MUTEX_INIT;
  pthread_t thread;
  mutex = (lfm_mutex *)malloc(sizeof *mutex);
  EXPECT(mutex == NULL, false);
  *mutex = new_one;
  step = 0;
  EXPECT(pthread_create(&thread, NULL, unlock_stopped, stop), 0);
  wait_for(&step, 1);
  return thread;
}

static void close_it(void) {
  EXPECT(lfm_mutex_close(mutex), LFM_DONE);
  memset(mutex, OVER, sizeof *mutex);
  free(mutex);
}

/* Closes the mutex, and lets the unlock go on while another mutex with its number is held. */
static void close_and_open(pthread_t unlocks) {
  static lfm_mutex other;
  mutex_word word = load_mutex(mutex);
  close_it();
  EXPECT(lfm_mutex_new(&other, 1, 1), LFM_DONE);
  EXPECT(load_mutex(&other) == word, true);
  EXPECT(lfm_lock_here(&other), LFM_DONE);
  set(&is_stopped, 0);
  EXPECT(pthread_join(unlocks, NULL), 0);
  EXPECT(lfm_depth_here(&other), 1);
  EXPECT(lfm_mutex_close(&other), LFM_HOLDING);
  EXPECT(lfm_unlock_here(&other), LFM_DONE);
  EXPECT(lfm_mutex_close(&other), LFM_DONE);
}

static void one_waits(void) {
  struct stop stop = {1, LFM_GRANTED};
  pthread_t unlocks = begin(&stop), waits;
  EXPECT(pthread_create(&waits, NULL, wait_in_queue, NULL), 0);
  while (__atomic_load_n(&info_of(load_mutex(mutex))->queued, __ATOMIC_SEQ_CST) == 0) sched_yield();
  set(&step, 2);
  wait_for(&is_stopped, 1);
  EXPECT(lfm_mutex_close(mutex), LFM_HOLDING);
  set(&is_stopped, 0);
  EXPECT(pthread_join(unlocks, NULL), 0);
  EXPECT(pthread_join(waits, NULL), 0);
  close_it();
}

/* The thread that closes is the last that acquires. */
static void nobody_waits(void) {
  struct stop stop = {1, LFM_DONE};
  pthread_t unlocks = begin(&stop);
  set(&step, 2);
  wait_for(&is_stopped, 1);
  EXPECT(lfm_lock_here(mutex), LFM_DONE);
  EXPECT(lfm_unlock_here(mutex), LFM_DONE);
  close_and_open(unlocks);
}

static pthread_t give_up_beside(bool *ends) {
  pthread_t gives_up;
  EXPECT(pthread_create(&gives_up, NULL, give_up, *ends ? ends : NULL), 0);
  if (*ends) {
    EXPECT(pthread_join(gives_up, NULL), 0);
    set(&step, 2);
  }
  wait_for(&is_stopped, 1);
  return gives_up;
}

static void one_has_given_up(bool ends) {
  struct stop stop = {1, LFM_GRANTED};
  pthread_t unlocks = begin(&stop), gives_up = give_up_beside(&ends); /* before it is passed by */
  EXPECT(lfm_mutex_close(mutex), LFM_HOLDING);
  set(&is_stopped, 0);
  EXPECT(pthread_join(unlocks, NULL), 0);
  if (!ends) EXPECT(pthread_join(gives_up, NULL), 0);
  close_it();
}

static void one_was_passed_by(bool ends) {
  struct stop stop = {2, LFM_GRANTED};
  pthread_t unlocks = begin(&stop), gives_up = give_up_beside(&ends); /* its deputy has released the mutex too */
  close_and_open(unlocks);
  if (!ends) EXPECT(pthread_join(gives_up, NULL), 0);
}

int main(void) {
  one_waits();
  nobody_waits();
  one_has_given_up(false);
  one_has_given_up(true);
  one_was_passed_by(false);
  one_was_passed_by(true);
  return 0;
}
