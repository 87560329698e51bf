/* Deputies, by which timed locks queue: they hold for their thread, and go back when it ends, also while they are queued. */
#include "scenario.h"

/* A hold by a deputy, or by the seat itself if the mutex was free, is deepened by each kind of lock. */
static void deepen(void) {
  CHECK(lfm_depth(mine()) == 1);
  CHECK(lfm_try_lock(mine()) == LFM_AGAIN);
  CHECK(lfm_lock(mine()) == LFM_AGAIN);
  CHECK(lfm_lock_in_order(mine()) == LFM_AGAIN);
  CHECK(lfm_try_lock_for(mine(), LONG_TIME) == LFM_AGAIN);
  CHECK(lfm_depth(mine()) == 5);
  for (int i = 0; i < 4; i++) CHECK(lfm_unlock(mine()) == LFM_STILL);
}
static void timed_deep(void) {
  lfm_status status = lfm_try_lock_for(mine(), LONG_TIME);
  CHECK(status == LFM_DONE || status == LFM_BUSY);
  if (status == LFM_DONE) {
    deepen();
    section();
    CHECK(lfm_seat_give(mine()) == LFM_HOLDING);
    released(lfm_unlock(mine()));
  }
  CHECK(lfm_depth(mine()) == 0);
  CHECK(lfm_unlock(mine()) == LFM_NOT_OWNER);
}

/* A try acquires the mutex while the deputy of a timed lock is still queued, which then waits behind that hold. */
static void timed_try_deep(void) {
  timed();
  lfm_status status = lfm_try_lock(mine());
  CHECK(status == LFM_DONE || status == LFM_BUSY);
  if (status != LFM_DONE) return;
  deepen();
  section();
  released(lfm_unlock(mine()));
}

/* A thread waits at a condition variable by a hold that a deputy may have, or wakes another then. */
static void hold_by_deputy(void) {
  lfm_status status = lfm_try_lock_for(mine(), LONG_TIME);
  CHECK(status == LFM_DONE || status == LFM_BUSY);
  if (status == LFM_BUSY) acquired(lfm_lock(mine()));
  CHECK(lfm_depth(mine()) == 1);
}
static void await_by_deputy(void) {
  hold_by_deputy();
  while (!shared->ready) acquired(lfm_wait(shared->condvar, mine()));
  section();
  released(lfm_unlock(mine()));
}
static void once_and_make_ready(void) { once_in_order(); make_ready_inside(); }
static void wake_by_deputy(void) {
  hold_by_deputy();
  shared->ready++;
  lfm_wake_one_by(shared->condvar, mine());
  section();
  released(lfm_unlock(mine()));
}
static void once_and_await(void) { once_in_order(); await_ready(); }
/* Nested, the wait is refused, and nothing has changed. */
static void nest_by_deputy(void) {
  hold_by_deputy();
  acquired(lfm_lock(mine()));
  CHECK(lfm_wait(shared->condvar, mine()) == LFM_NESTED);
  CHECK(lfm_unlock(mine()) == LFM_STILL);
  section();
  released(lfm_unlock(mine()));
}

/* By threads that end */
static void end_timed(void) { here_timed(); }
static void take_order_give(void) { take_mine(); once_in_order(); give_mine(); }
static void take_timed_give(void) { take_mine(); timed(); give_mine(); }
static void open_middle(void) {
  open_mutex_only();
  CHECK(lfm_seat_take(shared->mutex, shared->seats[1]) == LFM_DONE);
}
static void hold_late(void (*end_thread)(void)) {
  acquired(lfm_lock_in_order_here(shared->mutex));
  end_thread();
  section();
  released(lfm_unlock_here(shared->mutex));
}
static void late_once(void) { hold_late(end_in_last_round); }
static void late_again(void) { hold_late(end_early); here_in_order(); }
static void late_timed(void) {
  lfm_status status = lfm_try_lock_for_here(shared->mutex, LONG_TIME);
  CHECK(status == LFM_DONE || status == LFM_BUSY);
  end_early();
  CHECK(lfm_depth_here(shared->mutex) == (status == LFM_DONE));
  if (status == LFM_DONE) { section(); released(lfm_unlock_here(shared->mutex)); }
  here_timed();
}

/* A thread leaves an orphan, holds the mutex, and leaves the deputy of another seat queued behind itself. That deputy may be
 * the one that was the orphan, while the thread that has passed it by is not done yet. */
static void orphan_and_queue_behind_itself(void) {
  timed();
  give_mine();
  acquired(lfm_lock_in_order_here(shared->mutex));
  CHECK(lfm_try_lock_for(shared->seats[2], LONG_TIME) == LFM_BUSY);
  section();
  released(lfm_unlock_here(shared->mutex));
}

/* All participants but one are taken when the threads begin. */
enum { TAKEN_BEFORE = 7 };
static void open_and_take(int count) {
  shared->extra = zeroed(sizeof(lfm_seat) * TAKEN_BEFORE);
  for (int i = 0; i < count; i++) CHECK(lfm_seat_take(shared->mutex, (lfm_seat *)shared->extra + i) == LFM_DONE);
}
static void open_one_left(void) { open_mutex_only(); open_and_take(TAKEN_BEFORE); }
static void open_none_left(void) { open2(); open_and_take(TAKEN_BEFORE - 1); }
static void end_all_taken(void) {
  for (int i = 0; i < TAKEN_BEFORE; i++) {
    lfm_seat *seat = (lfm_seat *)shared->extra + i;
    if (lfm_number(seat)) CHECK(lfm_seat_give(seat) == LFM_DONE);
  }
  explorer_free(shared->extra);
  end();
}
static void take_last(void) {
  lfm_status status = lfm_seat_take(shared->mutex, mine());
  CHECK(status == LFM_DONE || status == LFM_NO_SEAT);
  if (status != LFM_DONE) return;
  __atomic_fetch_add(&shared->told, 1, __ATOMIC_RELAXED);
  once_in_order();
  give_mine();
}
/* One of them gets it: none is refused unless the other has it. */
static void end_one_taken(void) { CHECK(shared->told >= 1); end_all_taken(); }
static void timed_without_deputy(void) {
  CHECK(lfm_try_lock_for(mine(), LONG_TIME) == LFM_DONE);
  section();
  released(lfm_unlock(mine()));
  once_in_order();
}

const struct scenario deputy_scenarios[] = {
    {"deputy_deep2", "a hold by a deputy is deepened", 2, false, open2, {timed_deep, twice_in_order}, end},
    {"deputy_behind2", "a hold by a try is deepened while a deputy is queued behind it",
     2, false, open2, {timed_try_deep, twice_in_order}, end},
    {"deputy_wait2", "a wait by a thread whose deputy holds", 2, false, open2, {await_by_deputy, once_and_make_ready}, end},
    {"deputy_wake2", "a wake by a thread whose deputy holds", 2, false, open2, {wake_by_deputy, once_and_await}, end},
    {"deputy_nested2", "a nested wait is refused", 2, false, open2, {nest_by_deputy, once_in_order}, end},
    {"here_timed", "a thread ends while its deputy is queued",
     2, false, open_mutex_only, {end_timed, here_in_order}, end},
    {"here_timed3", "the same beside two", 3, false, open_middle, {end_timed, once_in_order, here_in_order}, end, true},
    {"here_timed_both", "two such beside a lock", 3, false, open_middle, {end_timed, once_in_order, end_timed}, end, true},
    {"orphan_taken3", "a number is taken while the deputy of a thread that has ended is queued",
     3, false, open_middle, {end_timed, once_in_order, take_order_give}, end, true},
    {"orphan_timed3", "the same with a timed lock",
     3, false, open_middle, {end_timed, once_in_order, take_timed_give}, end, true},
    {"orphan_again2", "a number is taken for a deputy as soon as it was passed by as another",
     2, true, open3, {orphan_and_queue_behind_itself, twice_in_order}, end},
    {"late2", "a thread ends while it holds, and then releases", 2, false, open_middle, {late_once, once_in_order}, end},
    {"late_again2", "the same, and then it locks again", 2, false, open_middle, {late_again, once_in_order}, end},
    {"late_timed2", "the same with timed locks", 2, false, open_middle, {late_timed, twice_in_order}, end},
    {"last_number2", "one participant is left, and two threads take it",
     2, false, open_one_left, {take_last, take_last}, end_one_taken},
    {"no_deputy2", "a timed lock gets no deputy, and tries until it acquires the mutex", 2, false, open_none_left, {timed_without_deputy, twice_in_order}, end_all_taken},
    {0}
};
