/* A thread takes part in two mutexes: it queues in both, or wakes a waiter of one while it holds the other. */
#include "scenario.h"

/* The second mutex, its seat, and two more condition variables. */
struct second {
  lfm_mutex mutex;
  lfm_seat seat;
  lfm_condvar condvar, other_condvar;
  bool is_ready, is_done;
};
static struct second *second(void) { return (struct second *)shared->extra; }

static void add_second(void) {
  shared->extra = zeroed(sizeof(struct second));
  CHECK(lfm_mutex_new(&second()->mutex, 1, LFM_MOST_TAKES) == LFM_DONE);
}
static void open_both(void) { open_mutex_only(); add_second(); }
static void open_both2(void) {
  open2();
  add_second();
  CHECK(lfm_seat_take(&second()->mutex, &second()->seat) == LFM_DONE);
}
static void end_both(void) {
  if (lfm_number(&second()->seat)) CHECK(lfm_seat_give(&second()->seat) == LFM_DONE);
  CHECK(lfm_mutex_close(&second()->mutex) == LFM_DONE);
  CHECK(lfm_condvar_close(&second()->condvar) == LFM_DONE);
  CHECK(lfm_condvar_close(&second()->other_condvar) == LFM_DONE);
  explorer_free(shared->extra);
  end();
}

static void lock_both(lfm_mutex *one, lfm_mutex *other) {
  acquired(lfm_lock_in_order_here(one));
  acquired(lfm_lock_in_order_here(other));
}
static void unlock_both(lfm_mutex *one, lfm_mutex *other) {
  released(lfm_unlock_here(one));
  released(lfm_unlock_here(other));
}

/* The waker holds the second mutex until the waiter has gone on, so the ring may not be put off. */
static void wait_and_answer(void) {
  acquired(lfm_lock(mine()));
  while (!shared->ready) acquired(lfm_wait(shared->condvar, mine()));
  second()->is_done = true;
  lfm_wake_one_by(&second()->condvar, mine());
  released(lfm_unlock(mine()));
}
static void await_the_answer(void) {
  while (!second()->is_done) acquired(lfm_wait(&second()->condvar, mine()));
}
static void wake_and_await_the_answer(void) {
  acquired(lfm_lock(&second()->seat));
  acquired(lfm_lock(mine()));
  shared->ready = 1;
  released(lfm_unlock(mine()));
  lfm_wake_one_by(shared->condvar, &second()->seat);
  acquired(lfm_lock(mine()));
  await_the_answer();
  released(lfm_unlock(mine()));
  released(lfm_unlock(&second()->seat));
}

/* A thread holds both, and wakes a waiter of each. The ring for that of the first mutex comes when it is released, and not
 * later: the thread keeps the second until that waiter has answered. */
static void here_wait_and_answer(void) {
  acquired(lfm_lock_in_order_here(shared->mutex));
  while (!shared->ready) acquired(lfm_wait_here(shared->condvar, shared->mutex));
  second()->is_done = true;
  lfm_wake_one(&second()->condvar);
  released(lfm_unlock_here(shared->mutex));
}
static void here_wait_at_second(void) {
  acquired(lfm_lock_in_order_here(&second()->mutex));
  while (!second()->is_ready) acquired(lfm_wait_here(&second()->other_condvar, &second()->mutex));
  released(lfm_unlock_here(&second()->mutex));
}
static void here_wake_both(void) {
  lock_both(&second()->mutex, shared->mutex);
  shared->ready = second()->is_ready = true;
  lfm_wake_one(shared->condvar);
  lfm_wake_one(&second()->other_condvar);
  while (!second()->is_done) acquired(lfm_wait_here(&second()->condvar, shared->mutex));
  unlock_both(shared->mutex, &second()->mutex);
}

/* The deputies of one thread queue in both mutexes, and hold both. */
static void timed_in_both(void) {
  here_timed();
  lfm_status status = lfm_try_lock_for_here(&second()->mutex, LONG_TIME);
  CHECK(status == LFM_DONE || status == LFM_BUSY);
  if (status == LFM_DONE) released(lfm_unlock_here(&second()->mutex));
}
static void timed_in_both_again(void) {
  timed_in_both();
  lock_both(shared->mutex, &second()->mutex);
  CHECK(lfm_depth_here(shared->mutex) == 1 && lfm_depth_here(&second()->mutex) == 1);
  unlock_both(&second()->mutex, shared->mutex);
}
static void hold_both(void) {
  lock_both(shared->mutex, &second()->mutex);
  unlock_both(&second()->mutex, shared->mutex);
}
static void hold_both_by_deputies(void) {
  lfm_status one = lfm_try_lock_for_here(shared->mutex, LONG_TIME);
  lfm_status other = lfm_try_lock_for_here(&second()->mutex, LONG_TIME);
  CHECK((one == LFM_DONE || one == LFM_BUSY) && (other == LFM_DONE || other == LFM_BUSY));
  CHECK(lfm_depth_here(shared->mutex) == (one == LFM_DONE) && lfm_depth_here(&second()->mutex) == (other == LFM_DONE));
  if (one == LFM_DONE) released(lfm_unlock_here(shared->mutex));
  CHECK(lfm_depth_here(shared->mutex) == 0 && lfm_depth_here(&second()->mutex) == (other == LFM_DONE));
  if (other == LFM_DONE) released(lfm_unlock_here(&second()->mutex));
}
static void here_second(void) {
  acquired(lfm_lock_in_order_here(&second()->mutex));
  released(lfm_unlock_here(&second()->mutex));
}
static void one_then_other(void) { here_in_order(); here_second(); }

/* A thread uses the second mutex while another closes the first. */
static void use_both(void) {
  here();
  tell(&shared->users, 1);
  acquired(lfm_lock_here(&second()->mutex));
  released(lfm_unlock_here(&second()->mutex));
}
static void close_the_first(void) { if (seen(&shared->users) == 1) close_it(); }

const struct scenario two_mutexes_scenarios[] = {
    {"closed_beside_another2", "a mutex is closed while a thread that has used it uses another",
     2, false, open_both, {use_both, close_the_first}, end_both},
    {"wake_by_another_mutex2", "a wake while another mutex is held",
     2, false, open_both2, {wait_and_answer, wake_and_await_the_answer}, end_both},
    {"wake_of_both3", "wakes of waiters of two mutexes while both are held",
     3, false, open_both, {here_wait_and_answer, here_wait_at_second, here_wake_both}, end_both, true},
    {"timed_in_both2", "timed locks of two mutexes by one thread", 2, false, open_both, {timed_in_both, hold_both}, end_both},
    {"timed_in_both_again2", "the same, and then locks of both",
     2, false, open_both, {timed_in_both_again, hold_both}, end_both},
    {"two_deputies2", "two deputies of one thread hold two mutexes",
     2, false, open_both, {hold_both_by_deputies, one_then_other}, end_both},
    {"two_deputies3", "the same beside two threads",
     3, false, open_both, {hold_both_by_deputies, here_in_order, here_second}, end_both, true},
    {0}
};
