/* Locks that answer a bool, and assertions of a hold, with seats in hand and with those that find themselves. The assertion
 * of a thread that doesn't hold ends the program with a text. */
#define _GNU_SOURCE
#include "children.h"

enum { DEEPEST = 65535 };
static lfm_mutex mutex = LFM_MUTEX_INIT, deep = LFM_MUTEX_INIT, zero;

static void try_beside_holder(unsigned thread) {
  (void)thread;
  EXPECT(lfm_try_acquire_here(&mutex), false);
  EXPECT(lfm_depth_here(&mutex), 0);
}

static void acquire_here(void) {
  EXPECT(lfm_acquire_here(NULL), false);
  EXPECT(lfm_acquire_here(&zero), false);
  EXPECT(lfm_acquire_here(&mutex), true);
  lfm_assert_held_here(&mutex);
  EXPECT(lfm_acquire_here(&mutex), true); /* LFM_AGAIN is a success */
  EXPECT(lfm_try_acquire_here(&mutex), true);
  EXPECT(lfm_depth_here(&mutex), 3);
  in_threads(1, try_beside_holder);
  for (int depth = 3; depth > 0; depth--) {
    lfm_assert_held_here(&mutex);
    EXPECT(lfm_is_refused(lfm_unlock_here(&mutex)), false);
  }
  EXPECT(lfm_try_acquire_here(&mutex), true);
  EXPECT(lfm_unlock_here(&mutex), LFM_DONE);
}

/* A hold can't be deeper than this. */
static void acquire_too_deep(void) {
  for (int depth = 0; depth < DEEPEST; depth++) EXPECT(lfm_acquire_here(&deep), true);
  EXPECT(lfm_acquire_here(&deep), false);
  EXPECT(lfm_try_acquire_here(&deep), false);
  EXPECT(lfm_depth_here(&deep), DEEPEST);
  for (int depth = DEEPEST; depth > 1; depth--) EXPECT(lfm_unlock_here(&deep), LFM_STILL);
  EXPECT(lfm_unlock_here(&deep), LFM_DONE);
}

static void acquire_by_seats(void) {
  lfm_mutex own = {0};
  lfm_seat seat = {0}, other = {0};
  EXPECT(lfm_acquire(NULL), false);
  EXPECT(lfm_acquire(&seat), false);
  EXPECT(lfm_try_acquire(&seat), false);
  EXPECT(lfm_mutex_new(&own, 2, 2), LFM_DONE);
  EXPECT(lfm_seat_take(&own, &seat), LFM_DONE);
  EXPECT(lfm_seat_take(&own, &other), LFM_DONE);
  EXPECT(lfm_acquire(&seat), true);
  EXPECT(lfm_try_acquire(&seat), true);
  EXPECT(lfm_try_acquire(&other), false);
  lfm_assert_held(&seat);
  EXPECT(lfm_unlock(&seat), LFM_STILL);
  lfm_assert_held(&seat);
  EXPECT(lfm_unlock(&seat), LFM_DONE);
  EXPECT(lfm_try_acquire(&seat), true);
  EXPECT(lfm_unlock(&seat), LFM_DONE);
  EXPECT(lfm_acquire(&other), true);
  EXPECT(lfm_unlock(&other), LFM_DONE);
  EXPECT(lfm_seat_give(&seat), LFM_DONE);
  EXPECT(lfm_seat_give(&other), LFM_DONE);
  EXPECT(lfm_mutex_close(&own), LFM_DONE);
}

/* What doesn't hold. The child that asserts it makes its own mutexes and seats, since those of the parent are not its. */
static void assert_seat_that_released(void) {
  static lfm_mutex own;
  static lfm_seat seat;
  EXPECT(lfm_mutex_new(&own, 1, 1), LFM_DONE);
  EXPECT(lfm_seat_take(&own, &seat), LFM_DONE);
  EXPECT(lfm_acquire(&seat), true);
  lfm_assert_held(&seat);
  EXPECT(lfm_unlock(&seat), LFM_DONE);
  lfm_assert_held(&seat);
}
static void assert_null_seat(void) { lfm_assert_held(NULL); }
static void assert_null_mutex(void) { lfm_assert_held_here(NULL); }
static void assert_other_seat(void) { /* which holds, but is not the one that the thread finds */
  static lfm_mutex own;
  static lfm_seat seat;
  EXPECT(lfm_mutex_new(&own, 2, 1), LFM_DONE);
  EXPECT(lfm_seat_take(&own, &seat), LFM_DONE);
  EXPECT(lfm_acquire(&seat), true);
  lfm_assert_held_here(&own);
}

static void expect_end(void (*assertion)(void)) {
  expect_abort(assertion, "ligdrosa: the mutex is not held, though the program asserts it\n");
}

int main(void) {
  acquire_here();
  acquire_too_deep();
  acquire_by_seats();
  expect_end(assert_seat_that_released);
  expect_end(assert_null_seat);
  expect_end(assert_null_mutex);
  expect_end(assert_other_seat);
  EXPECT(lfm_mutex_close(&mutex), LFM_DONE);
  EXPECT(lfm_mutex_close(&deep), LFM_DONE);
  return 0;
}
