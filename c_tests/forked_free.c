/* A forked child calls mutexes that nobody held or asked for at the fork, without lfm_after_fork: it locks and waits at them, by
 * the thread that forked and by its own threads, it takes seats of them and gives them back, closes them, and opens others in
 * their place. Seats that its parent has in hand count for nothing. One that another thread of the parent held stays busy for it.
 * A child of the child does the same.
 *
 * The test has the C file of the library in it. */
#define _GNU_SOURCE
#include "../c/ligdrosa.c"
#include "children.h"

enum { THREADS = 4, ROUNDS = 2000, LATER = 1000, SHORT = 1000000, MORE_THAN_NUMBERS = 5000 };
static lfm_mutex mutex = LFM_MUTEX_INIT, never_called = LFM_MUTEX_INIT, held = LFM_MUTEX_INIT, with_seats;
static lfm_condvar filled;
static lfm_seat of_parent, seat;
static uint64_t total;
static int step;

static void wait_for_step(int wanted) {
  while (__atomic_load_n(&step, __ATOMIC_SEQ_CST) != wanted) sched_yield();
}
static void set_step(int next) { __atomic_store_n(&step, next, __ATOMIC_SEQ_CST); }

static void count(unsigned thread) {
  lfm_mutex *both[] = {&mutex, &never_called};
  for (unsigned i = 0; i < ROUNDS; i++) {
    lfm_mutex *outer = both[thread % 2 ? 0 : i % 2];
    if (outer == &never_called) continue;
    lfm_status status = i % 16 ? lfm_lock_here(outer) : lfm_try_lock_for_here(outer, SHORT);
    if (status == LFM_BUSY) status = lfm_lock_here(outer);
    EXPECT(status, LFM_DONE);
    EXPECT(lfm_lock_here(&never_called), LFM_DONE);
    total++;
    EXPECT(lfm_wake_one(&filled) <= LFM_NOBODY, true);
    EXPECT(lfm_is_refused(lfm_unlock_here(&never_called)), false);
    EXPECT(lfm_is_refused(lfm_unlock_here(outer)), false);
  }
}

static void *wait_until_filled(void *at) {
  EXPECT(lfm_lock_here(&mutex), LFM_DONE);
  while (total == 0) EXPECT(lfm_wait_here(&filled, &mutex), LFM_DONE);
  EXPECT(lfm_is_refused(lfm_unlock_here(&mutex)), false);
  return at;
}

/* The child's threads contend, and one waits. */
static void use_free_ones(void) {
  pthread_t waits;
  total = 0;
  EXPECT(pthread_create(&waits, NULL, wait_until_filled, NULL), 0);
  in_threads(THREADS, count);
  EXPECT(pthread_join(waits, NULL), 0);
  EXPECT(total, THREADS * ROUNDS - THREADS / 2 * ROUNDS / 2);
  EXPECT(lfm_seat_take(&mutex, &seat), LFM_DONE);
  EXPECT(lfm_lock(&seat), LFM_DONE);
  EXPECT(lfm_try_lock_here(&mutex), LFM_BUSY);
  EXPECT(lfm_seat_give(&seat), LFM_HOLDING);
  EXPECT(lfm_unlock(&seat), LFM_DONE);
  EXPECT(lfm_mutex_close(&mutex), LFM_NOT_BACK);
  EXPECT(lfm_seat_give(&seat), LFM_DONE);
}

/* Each number of a seat comes back. */
static void take_and_give_often(void) {
  for (int i = 0; i < MORE_THAN_NUMBERS; i++) {
    EXPECT(lfm_seat_take(&mutex, &seat), LFM_DONE);
    EXPECT(lfm_seat_give(&seat), LFM_DONE);
  }
}

/* Another thread of the parent holds it. The child can't, and forgets it: no other mutex gets its number. */
static void forget_held_one(void) {
  static lfm_mutex later[LATER];
  mutex_word word = load_mutex(&held);
  EXPECT(lfm_try_lock_here(&held), LFM_BUSY);
  EXPECT(lfm_try_lock_for_here(&held, SHORT), LFM_BUSY);
  EXPECT(lfm_unlock_here(&held), LFM_NOT_OWNER);
  EXPECT(lfm_after_fork(&held, NULL), LFM_BUSY);
  EXPECT(lfm_mutex_close(&held), LFM_DONE);
  for (int i = 0; i < LATER; i++) {
    EXPECT(lfm_mutex_new(&later[i], 1, 1), LFM_DONE);
    EXPECT(load_mutex(&later[i]) == word, false);
  }
  for (int i = 0; i < LATER; i++) EXPECT(lfm_mutex_close(&later[i]), LFM_DONE);
}

/* The child closes a mutex of which the parent has a seat in hand, opens another one in its place, which it can close too, and
 * gives the seat of its parent back before or after that. */
static void open_in_its_place(bool gives_first) {
  mutex_word word = load_mutex(&with_seats);
  EXPECT(lfm_mutex_close(&with_seats), LFM_DONE);
  EXPECT(lfm_mutex_new(&with_seats, 1, 1), LFM_DONE);
  EXPECT(load_mutex(&with_seats), word);
  EXPECT(lfm_lock_here(&with_seats), LFM_DONE);
  EXPECT(lfm_mutex_close(&with_seats), LFM_HOLDING);
  EXPECT(lfm_unlock_here(&with_seats), LFM_DONE);
  EXPECT(lfm_seat_take(&with_seats, &seat), LFM_DONE);
  if (gives_first) EXPECT(lfm_seat_give(&of_parent), LFM_DONE);
  EXPECT(lfm_mutex_close(&with_seats), LFM_NOT_BACK);
  EXPECT(lfm_seat_give(&seat), LFM_DONE);
  EXPECT(lfm_mutex_close(&with_seats), LFM_DONE);
  if (!gives_first) EXPECT(lfm_seat_give(&of_parent), LFM_DONE);
}

static void act_in_grandchild(void) {
  use_free_ones();
  EXPECT(lfm_try_lock_here(&held), LFM_BUSY);
  open_in_its_place(true);
}

static void act_in_child(void) {
  use_free_ones();
  EXPECT(in_child(act_in_grandchild), 0);
  use_free_ones();
  take_and_give_often();
  open_in_its_place(false);
  forget_held_one();
  EXPECT(lfm_mutex_close(&mutex), LFM_DONE);
  EXPECT(lfm_mutex_close(&never_called), LFM_DONE);
}

static void *hold(void *at) {
  EXPECT(lfm_lock_here(&held), LFM_DONE);
  EXPECT(lfm_lock_here(&mutex), LFM_DONE);
  EXPECT(lfm_unlock_here(&mutex), LFM_DONE);
  set_step(1);
  wait_for_step(2);
  EXPECT(lfm_is_refused(lfm_unlock_here(&held)), false);
  return at;
}

int main(void) {
  pthread_t holder;
  EXPECT(lfm_mutex_new(&with_seats, 1, 1), LFM_DONE);
  EXPECT(lfm_seat_take(&with_seats, &of_parent), LFM_DONE);
  EXPECT(lfm_lock_here(&mutex), LFM_DONE);
  EXPECT(lfm_unlock_here(&mutex), LFM_DONE);
  EXPECT(pthread_create(&holder, NULL, hold, NULL), 0);
  wait_for_step(1);
  for (int i = 0; i < 3; i++) EXPECT(in_child(act_in_child), 0);
  set_step(2);
  EXPECT(pthread_join(holder, NULL), 0);
  EXPECT(lfm_seat_give(&of_parent), LFM_DONE);
  EXPECT(lfm_mutex_close(&with_seats), LFM_DONE);
  return 0;
}
