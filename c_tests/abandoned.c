/* Locks with a time limit that is over while they are queued: each leaves the place of a deputy, and the thread that is to wake
 * it passes it by. The next lock takes the place up again, or begins anew if it was passed by. Meanwhile the seat is given back,
 * or its thread ends. No number is lost. Each case is made step by step. */
#define _GNU_SOURCE
#include "abandoned.h"

static lfm_condvar condvar;
static int step;

/* The seat acquires the mutex before one that queued after it, by the same deputy each time. */
static void in_the_old_place(lfm_status (*again)(lfm_seat *)) {
  call by_b, by_c;
  begin();
  times_out(&b);
  EXPECT(lfm_try_lock_for(&b, SHORT), LFM_BUSY); /* from its place */
  EXPECT(deputies_of(b.by), 1);
  start(&by_c, &c, lock_in_order_and_unlock, 0);
  await_sleep(c.by);
  acquired = 0;
  start(&by_b, &b, again, 0);
  await_timed_sleep(b.by->deputies);
  unlock_it(&a);
  join(&by_b), join(&by_c);
  EXPECT(by_b.order < by_c.order, true);
  EXPECT(deputies_of(b.by), 1);
  end();
}

/* What a thread may do that holds by a deputy: all that it may by its own seat. */
static lfm_status hold_by_deputy(lfm_seat *seat) {
  EXPECT(lfm_try_lock_for(seat, LONG), LFM_DONE);
  EXPECT(holder_of(seat->by, seat->mutex) == seat->by, false);
  EXPECT(lfm_lock(seat), LFM_AGAIN);
  EXPECT(lfm_try_lock(seat), LFM_AGAIN);
  EXPECT(lfm_lock_in_order(seat), LFM_AGAIN);
  EXPECT(lfm_try_lock_for(seat, SHORT), LFM_AGAIN);
  EXPECT(lfm_depth(seat), 5);
  EXPECT(lfm_wait(&condvar, seat), LFM_NESTED);
  EXPECT(lfm_seat_give(seat), LFM_HOLDING);
  for (int depth = 5; depth > 1; depth--) EXPECT(lfm_unlock(seat), LFM_STILL);
  lfm_assert_held(seat);
  EXPECT(lfm_wait_for(&condvar, seat, 1), LFM_TIMED_OUT); /* it holds by its own seat then */
  EXPECT(holder_of(seat->by, seat->mutex) == seat->by, true);
  EXPECT(lfm_depth(seat), 1);
  EXPECT(seat->by->holds, 1);
  EXPECT(lfm_unlock(seat), LFM_DONE);
  EXPECT(lfm_unlock(seat), LFM_NOT_OWNER);
  EXPECT(seat->by->holds, 0);
  return LFM_DONE;
}

static void held_by_deputy(void) {
  call by_b;
  begin();
  times_out(&b);
  start(&by_b, &b, hold_by_deputy, 0);
  await_timed_sleep(b.by->deputies);
  unlock_it(&a);
  join(&by_b);
  end();
}

/* Both of two abandoned places are passed by, and the seat behind them is woken. Then the deputies rest. */
static void passed_by(void) {
  call by_c;
  begin();
  lfm_seat d = {0};
  EXPECT(lfm_seat_take(&mutex, &d), LFM_DONE);
  times_out(&b);
  times_out(&d);
  start(&by_c, &c, lock_in_order_and_unlock, 0);
  await_sleep(c.by);
  EXPECT(lfm_unlock(&a), LFM_GRANTED);
  join(&by_c);
  EXPECT(state_of(b.by->deputies), RESTS);
  EXPECT(state_of(d.by->deputies), RESTS);
  EXPECT(lfm_lock(&b), LFM_DONE);
  EXPECT(lfm_try_lock(&d), LFM_BUSY);
  times_out(&d); /* by the same deputy */
  EXPECT(deputies_of(d.by), 1);
  unlock_it(&b);
  EXPECT(lfm_try_lock(&d), LFM_DONE);
  unlock_it(&d);
  EXPECT(lfm_seat_give(&d), LFM_DONE);
  end();
}

/* What other calls of such a seat tell: it doesn't hold. */
static void other_calls(void) {
  begin();
  times_out(&b);
  uint64_t number = lfm_number(&b);
  EXPECT(lfm_depth(&b), 0);
  EXPECT(lfm_left(&b), LFM_MOST_TAKES);
  EXPECT(lfm_try_lock(&b), LFM_BUSY);
  EXPECT(lfm_try_lock_for(&b, 0), LFM_BUSY);
  EXPECT(lfm_unlock(&b), LFM_NOT_OWNER);
  EXPECT(lfm_wait(&condvar, &b), LFM_NOT_OWNER);
  EXPECT(lfm_wait_for(&condvar, &b, SHORT), LFM_NOT_OWNER);
  EXPECT(lfm_wake_all_by(&condvar, &b), LFM_NOBODY);
  unlock_it(&a);
  EXPECT(lfm_unlock(&b), LFM_NOT_OWNER);
  EXPECT(lfm_depth(&b), 0);
  EXPECT(lfm_number(&b), number);
  end();
}

/* A seat is given back while its deputy is queued, and its memory goes. The deputy's number comes back as it is passed by. */
static void given_back(void) {
  begin();
  lfm_seat *gone = (lfm_seat *)calloc(1, sizeof *gone);
  EXPECT(lfm_seat_take(&mutex, gone), LFM_DONE);
  uint32_t before = taken_numbers();
  times_out(gone);
  EXPECT(lfm_seat_give(gone), LFM_DONE);
  EXPECT(lfm_depth(gone), 0);
  memset(gone, 0x5A, sizeof *gone);
  free(gone);
  EXPECT(taken_numbers(), before); /* the seat's is back, and the deputy's is taken */
  EXPECT(lfm_seat_give(&b), LFM_DONE);
  EXPECT(lfm_seat_give(&c), LFM_DONE);
  EXPECT(lfm_mutex_close(&mutex), LFM_NOT_BACK);
  EXPECT(lfm_unlock(&a), LFM_GRANTED);
  EXPECT(taken_numbers(), before - 3);
  end();
}

/* A thread ends while its deputies are queued in two mutexes. */
static lfm_mutex another = LFM_MUTEX_INIT;
static void *time_out_and_end(void *at) {
  EXPECT(lfm_try_lock_for_here(&mutex, 0), LFM_BUSY);
  times_out_here(&mutex);
  times_out_here(&another);
  times_out_here(&mutex);
  EXPECT(deputies_of(own.by), 2);
  EXPECT(lfm_depth_here(&mutex), 0);
  EXPECT(lfm_unlock_here(&mutex), LFM_NOT_OWNER);
  EXPECT(lfm_mutex_close(&mutex), LFM_HOLDING);
  return at;
}

static void in_thread(void *(*run)(void *)) {
  pthread_t thread;
  EXPECT(pthread_create(&thread, NULL, run, NULL), 0);
  EXPECT(pthread_join(thread, NULL), 0);
}

static void thread_ends(void) {
  EXPECT(lfm_mutex_new(&mutex, 1, 1), LFM_DONE);
  EXPECT(lfm_lock_here(&mutex), LFM_DONE);
  EXPECT(lfm_lock_here(&another), LFM_DONE);
  uint32_t before = taken_numbers();
  in_thread(time_out_and_end);
  EXPECT(taken_numbers(), before + 2);
  EXPECT(lfm_mutex_close(&mutex), LFM_HOLDING);
  EXPECT(lfm_unlock_here(&mutex), LFM_GRANTED);
  EXPECT(taken_numbers(), before + 1);
  EXPECT(lfm_mutex_close(&mutex), LFM_DONE);
  EXPECT(lfm_unlock_here(&another), LFM_GRANTED);
  EXPECT(taken_numbers(), before);
  EXPECT(lfm_mutex_close(&another), LFM_DONE);
}

/* A thread that gives back the seat that it found keeps its place. */
static void *give_back_here(void *at) {
  times_out_here(&mutex);
  EXPECT(lfm_seat_give_here(&mutex), LFM_DONE);
  EXPECT(lfm_try_lock_here(&mutex), LFM_BUSY);
  set(&step, 1);
  EXPECT(lfm_lock_in_order_here(&mutex), LFM_DONE);
  EXPECT(lfm_is_refused(lfm_unlock_here(&mutex)), false);
  EXPECT(deputies_of(own.by), 1);
  return at;
}

static void given_back_here(void) {
  pthread_t thread;
  begin();
  step = 0;
  EXPECT(pthread_create(&thread, NULL, give_back_here, NULL), 0);
  while (seen(&step) != 1) sched_yield();
  unlock_it(&a);
  EXPECT(pthread_join(thread, NULL), 0);
  end();
}

int main(void) {
  EXPECT(lfm_lock_here(&another), LFM_DONE); /* the thread has its number from here on */
  EXPECT(lfm_unlock_here(&another), LFM_DONE);
  in_the_old_place(lock_and_unlock);
  in_the_old_place(lock_in_order_and_unlock);
  in_the_old_place(lock_long);
  held_by_deputy();
  passed_by();
  other_calls();
  given_back();
  thread_ends();
  given_back_here();
  return 0;
}
