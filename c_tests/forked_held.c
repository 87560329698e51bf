/* A forked child goes on with mutexes that the forking thread held: lfm_after_fork leaves it a hold as deep as before, by its own
 * seat, by a deputy, by a seat in hand and by one of lfm_seat_here. If no other seat had asked for the mutex, it is the same as
 * before. If one had, another one is taken in its place, and nobody is woken. Then the thread holds nothing more than it
 * releases: its number comes back when it ends.
 *
 * The test has the C file of the library in it. */
#define _GNU_SOURCE
#define LFM_SPIN_NANOSECONDS 0
#include "../c/ligdrosa.c"
#include "children.h"

enum { DEPTH = 3 };
static const uint64_t LONG = 60000000000;
static lfm_mutex mutex, first = LFM_MUTEX_INIT;
static lfm_condvar condvar;
static lfm_seat seat, other;
static lfm_seat *found;
static mutex_word word_before;
static uint32_t number_before;
static bool is_asked_for, has_other;
static int step;

static void set_step(int next) { __atomic_store_n(&step, next, __ATOMIC_SEQ_CST); }
static void wait_for_step(int wanted) {
  while (__atomic_load_n(&step, __ATOMIC_SEQ_CST) != wanted) sched_yield();
}

static void *lock_and_unlock(void *at) {
  EXPECT(lfm_lock_in_order_here(&mutex), LFM_DONE);
  EXPECT(lfm_is_refused(lfm_unlock_here(&mutex)), false);
  return at;
}

static void deepen_hold(void) {
  for (int depth = 1; depth < DEPTH; depth++) EXPECT(lfm_lock_here(&mutex), LFM_AGAIN);
}

static void release_hold(void) {
  for (int depth = DEPTH; depth > 1; depth--) EXPECT(lfm_unlock_here(&mutex), LFM_STILL);
  EXPECT(lfm_is_refused(lfm_unlock_here(&mutex)), false);
}

/* The child's thread holds, releases, and is excluded by others of the child. Then it ends. */
static void *use_by_thread(void *at) {
  EXPECT(lfm_try_lock_here(&mutex), LFM_DONE);
  EXPECT(lfm_unlock_here(&mutex), LFM_DONE);
  EXPECT(own.by->number, number_before);
  return at;
}

static void use_in_child(void) {
  pthread_t thread;
  EXPECT(lfm_after_fork(&mutex, NULL), LFM_DONE);
  EXPECT(lfm_after_fork(&mutex, NULL), LFM_DONE); /* a second time changes nothing */
  EXPECT(load_mutex(&mutex) == word_before, !is_asked_for);
  EXPECT(lfm_depth_here(&mutex), DEPTH);
  EXPECT(lfm_mutex_close(&mutex), LFM_HOLDING);
  EXPECT(pthread_create(&thread, NULL, lock_and_unlock, NULL), 0);
  while (__atomic_load_n(&info_of(load_mutex(&mutex))->queued, __ATOMIC_SEQ_CST) == 0) sched_yield();
  release_hold();
  EXPECT(pthread_join(thread, NULL), 0);
  EXPECT(lfm_depth_here(&mutex), 0);
  EXPECT(own.by->holds, 0);
  if (found) EXPECT(lfm_lock(found) == LFM_DONE && lfm_depth_here(&mutex) == 1 && lfm_unlock(found) == LFM_DONE, true);
  number_before = own.by->number;
  give_own_back(); /* as when the thread ends */
  for (uint32_t free_one = (uint32_t)LFM_PROCESS.numbers.top; free_one; free_one = LFM_PROCESS.numbers.below[free_one])
    EXPECT(LFM_PROCESS.participants[free_one].holds, 0);
  EXPECT(pthread_create(&thread, NULL, use_by_thread, NULL), 0);
  EXPECT(pthread_join(thread, NULL), 0);
  EXPECT(lfm_mutex_close(&mutex), LFM_DONE);
}

static void begin(void) {
  EXPECT(lfm_mutex_new(&mutex, 1, 1), LFM_DONE);
  EXPECT(lfm_lock_here(&first), LFM_DONE); /* the thread has its number from here on */
  EXPECT(lfm_unlock_here(&first), LFM_DONE);
  word_before = load_mutex(&mutex);
}

/* Forks while the thread holds, and while another thread waits in the queue. */
static void fork_holding(void) {
  pthread_t thread;
  is_asked_for = false;
  EXPECT(in_child(use_in_child), 0);
  EXPECT(pthread_create(&thread, NULL, lock_and_unlock, NULL), 0);
  while (__atomic_load_n(&info_of(word_before)->queued, __ATOMIC_SEQ_CST) == 0) sched_yield();
  is_asked_for = true;
  EXPECT(in_child(use_in_child), 0);
  release_hold();
  EXPECT(pthread_join(thread, NULL), 0);
  EXPECT(lfm_mutex_close(&mutex), LFM_DONE);
}

static void *hold_until_queued(void *at) {
  EXPECT(lfm_lock_here(&mutex), LFM_DONE);
  set_step(1);
  while (__atomic_load_n(&info_of(word_before)->queued, __ATOMIC_SEQ_CST) == 0) sched_yield();
  EXPECT(lfm_unlock_here(&mutex), LFM_GRANTED);
  return at;
}

static void by_own_seat(void) {
  begin();
  EXPECT(lfm_lock_here(&mutex), LFM_DONE);
  deepen_hold();
  fork_holding();
}

static void by_deputy(void) {
  pthread_t thread;
  begin();
  set_step(0);
  EXPECT(pthread_create(&thread, NULL, hold_until_queued, NULL), 0);
  wait_for_step(1);
  EXPECT(lfm_try_lock_for_here(&mutex, LONG), LFM_DONE);
  EXPECT(holder_of(own.by, word_before) == own.by, false);
  EXPECT(pthread_join(thread, NULL), 0);
  deepen_hold();
  fork_holding();
}

static void by_found_seat(void) {
  lfm_status cause;
  begin();
  found = lfm_seat_here(&mutex, &cause);
  EXPECT(lfm_lock(found), LFM_DONE);
  deepen_hold();
  fork_holding();
  found = NULL;
}

/* The seat in hand holds. Another one, which the child forgets, may be in hand too. */
static void use_seat_in_child(void) {
  EXPECT(lfm_after_fork(&mutex, &seat), LFM_DONE);
  EXPECT(load_mutex(&mutex), word_before);
  EXPECT(lfm_depth(&seat), 1);
  EXPECT(lfm_try_lock_here(&mutex), LFM_BUSY);
  EXPECT(lfm_unlock(&seat), LFM_DONE);
  EXPECT(lfm_mutex_close(&mutex), LFM_NOT_BACK);
  EXPECT(lfm_seat_give(&seat), LFM_DONE);
  EXPECT(lfm_seat_give(&other), has_other ? LFM_DONE : LFM_BLANK);
  EXPECT(lfm_mutex_close(&mutex), LFM_DONE);
}

static void by_seat_in_hand(void) {
  begin();
  EXPECT(lfm_seat_take(&mutex, &seat), LFM_DONE);
  EXPECT(lfm_lock(&seat), LFM_DONE);
  EXPECT(in_child(use_seat_in_child), 0);
  EXPECT(lfm_seat_take(&mutex, &other), LFM_DONE);
  has_other = true;
  EXPECT(in_child(use_seat_in_child), 0);
  EXPECT(lfm_unlock(&seat), LFM_DONE);
  EXPECT(lfm_seat_give(&seat), LFM_DONE);
  EXPECT(lfm_seat_give(&other), LFM_DONE);
  EXPECT(lfm_mutex_close(&mutex), LFM_DONE);
}

/* A condition variable of the child, in a hold that it has from its parent. */
static void wait_in_child(void) {
  EXPECT(lfm_after_fork(&mutex, NULL), LFM_DONE);
  EXPECT(lfm_wait_for_here(&condvar, &mutex, 1), LFM_TIMED_OUT);
  EXPECT(lfm_unlock_here(&mutex), LFM_DONE);
  EXPECT(lfm_mutex_close(&mutex), LFM_DONE);
}

static void waits(void) {
  begin();
  EXPECT(lfm_lock_here(&mutex), LFM_DONE);
  EXPECT(in_child(wait_in_child), 0);
  EXPECT(lfm_unlock_here(&mutex), LFM_DONE);
  EXPECT(lfm_mutex_close(&mutex), LFM_DONE);
}

int main(void) {
  by_own_seat();
  by_deputy();
  by_found_seat();
  by_seat_in_hand();
  waits();
  return 0;
}
