/* A place is abandoned, taken up again or left for ever while another thread is about to pass it by, or is just doing so. Each
 * case is made step by step: a thread is stopped after a call of the library's unlock or after an exchange. No grant and no
 * number is lost. */
#define _GNU_SOURCE
#include "abandoned.h"

/* The unlock has granted the mutex and is stopped before it wakes the deputy, whose place is taken up, abandoned, and taken up
 * again. */
static void granted_and_abandoned(void) {
  call by_a, by_b;
  begin();
  times_out(&b);
  start(&by_a, &a, unlock_only, 1);
  await_stop();
  EXPECT(lfm_try_lock_for(&b, SHORT), LFM_BUSY);
  EXPECT(has_abandoned(b.by, b.mutex), true);
  start(&by_b, &b, lock_and_unlock, 0);
  await_timed_sleep(b.by->deputies);
  set(&is_stopped, 0);
  join(&by_a), join(&by_b);
  EXPECT(deputies_of(b.by), 1);
  end();
}

/* The same, and the seat is given back: the unlock finds an orphan, and gives its number back. */
static void granted_and_orphaned(void) {
  call by_a;
  begin();
  times_out(&b);
  struct participant *deputy = b.by->deputies;
  start(&by_a, &a, unlock_only, 1);
  await_stop();
  EXPECT(lfm_seat_give(&b), LFM_DONE);
  EXPECT(state_of(deputy), ORPHANED);
  set(&is_stopped, 0);
  join(&by_a);
  EXPECT(state_of(deputy), RESTS);
  end();
}

/* The deputy is being passed by when its thread calls: a lock queues by the own seat or by another deputy, and others tell that
 * the mutex is busy. */
static void called_while_passed(lfm_status (*make)(lfm_seat *), int deputies) {
  call by_a, by_b;
  begin();
  times_out(&b);
  start(&by_a, &a, unlock_only, 1);
  await_stop();
  set(&is_stopped, 0);
  join(&by_a);
  EXPECT(lfm_lock(&a), LFM_DONE);
  times_out(&b);
  start(&by_a, &a, unlock_only, 2);
  await_stop(); /* the deputy has received and released the mutex */
  EXPECT(state_of(b.by->deputies), PASSING);
  EXPECT(lfm_unlock(&b), LFM_NOT_OWNER);
  EXPECT(lfm_depth(&b), 0);
  EXPECT(lfm_lock(&c), LFM_DONE);
  EXPECT(lfm_try_lock(&b), LFM_BUSY);
  start(&by_b, &b, make, 0);
  while (__atomic_load_n(&info_of(b.mutex)->queued, __ATOMIC_SEQ_CST) == 0) sched_yield();
  unlock_it(&c);
  join(&by_b);
  EXPECT(deputies_of(b.by), deputies);
  set(&is_stopped, 0);
  join(&by_a);
  end();
}

/* The seat is given back meanwhile: then the unlock gives the deputy's number back. */
static void given_while_passed(void) {
  call by_a;
  begin();
  times_out(&b);
  struct participant *deputy = b.by->deputies;
  start(&by_a, &a, unlock_only, 2);
  await_stop();
  EXPECT(lfm_seat_give(&b), LFM_DONE);
  EXPECT(state_of(deputy), ORPHANED);
  set(&is_stopped, 0);
  join(&by_a);
  EXPECT(state_of(deputy), RESTS);
  end();
}

/* A seat is not given back while it sleeps in a lock of another thread, with a time limit or without. */
static void given_while_it_sleeps(lfm_status (*make)(lfm_seat *)) {
  call by_b;
  begin();
  times_out(&b);
  times_out(&c);
  start(&by_b, &b, make, 0);
  await_timed_sleep(b.by->deputies);
  EXPECT(lfm_seat_give(&b), LFM_SEAT_ASLEEP);
  unlock_it(&a);
  join(&by_b);
  end();
}

/* A thread ends whose place is abandoned. It has left it for ever when the mutex is acquired last, released and closed. */
static void *time_out_and_end(void *at) {
  times_out_here(&mutex);
  stop_at_exchange = 1;
  return at;
}

static void closed_beside_end(void) {
  pthread_t thread;
  taken_before = taken_numbers();
  EXPECT(lfm_mutex_new(&mutex, 1, 1), LFM_DONE);
  EXPECT(lfm_lock_here(&mutex), LFM_DONE);
  EXPECT(pthread_create(&thread, NULL, time_out_and_end, NULL), 0);
  await_stop();
  EXPECT(lfm_unlock_here(&mutex), LFM_GRANTED);
  EXPECT(lfm_mutex_close(&mutex), LFM_DONE);
  set(&is_stopped, 0);
  EXPECT(pthread_join(thread, NULL), 0);
  EXPECT(taken_numbers(), taken_before);
}

int main(void) {
  static lfm_mutex first = LFM_MUTEX_INIT;
  EXPECT(lfm_lock_here(&first), LFM_DONE); /* the thread has its number from here on */
  EXPECT(lfm_unlock_here(&first), LFM_DONE);
  granted_and_abandoned();
  granted_and_orphaned();
  called_while_passed(lock_and_unlock, 1);
  called_while_passed(lock_in_order_and_unlock, 1);
  called_while_passed(lock_long, 2);
  given_while_passed();
  given_while_it_sleeps(lock_long);
  given_while_it_sleeps(lock_and_unlock);
  closed_beside_end();
  return 0;
}
