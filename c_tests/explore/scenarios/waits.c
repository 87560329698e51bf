/* Threads wait at a condition variable, and others wake them. */
#include "scenario.h"

static void make_ready(void) {
  acquired(lfm_lock(mine()));
  shared->ready++;
  section();
  released(lfm_unlock(mine()));
  lfm_wake_one(shared->condvar);
}
static void make_ready_twice(void) { make_ready(); make_ready(); }
static void make_all_ready(void) {
  acquired(lfm_lock(mine()));
  shared->ready += 2;
  lfm_wake_all_by(shared->condvar, mine());
  section();
  released(lfm_unlock(mine()));
}
/* By two wakes, whose rings are both put off. */
static void make_two_ready_inside(void) {
  acquired(lfm_lock_in_order(mine()));
  shared->ready += 2;
  lfm_wake_one_by(shared->condvar, mine());
  lfm_wake_one_by(shared->condvar, mine());
  section();
  released(lfm_unlock(mine()));
}
/* Up to three threads wait at once, and the fourth wakes all. */
static void await_with_others(void) {
  acquired(lfm_lock_in_order(mine()));
  while (!shared->ready) acquired(lfm_wait(shared->condvar, mine()));
  released(lfm_unlock(mine()));
}
static void wake_three(void) {
  acquired(lfm_lock_in_order(mine()));
  shared->ready = 1;
  lfm_wake_all_by(shared->condvar, mine());
  released(lfm_unlock(mine()));
}
/* One that was rung for wakes again while it holds. */
static void await_and_pass_on(void) {
  acquired(lfm_lock_in_order(mine()));
  while (!shared->ready) acquired(lfm_wait(shared->condvar, mine()));
  lfm_wake_all_by(shared->condvar, mine());
  section();
  released(lfm_unlock(mine()));
}
static void wake_one_of_them(void) {
  acquired(lfm_lock_in_order(mine()));
  shared->ready = 1;
  lfm_wake_one_by(shared->condvar, mine());
  section();
  released(lfm_unlock(mine()));
}
static void make_all_ready_outside(void) {
  acquired(lfm_lock(mine()));
  shared->ready += 2;
  section();
  released(lfm_unlock(mine()));
  lfm_wake_all(shared->condvar);
}
/* Each wake that says that it woke one has woken exactly one. */
static void wait_counted(void) {
  acquired(lfm_lock(mine()));
  lfm_status status = lfm_wait_for(shared->condvar, mine(), LONG_TIME);
  acquired(status);
  if (status == LFM_TIMED_OUT) shared->timed_out++;
  else shared->woken++;
  section();
  released(lfm_unlock(mine()));
}
static void wake_counted(void) {
  lfm_status status = lfm_wake_one(shared->condvar);
  CHECK(status == LFM_DONE || status == LFM_NOBODY);
  uint64_t told = status == LFM_DONE;
  acquired(lfm_lock(mine()));
  shared->told += told;
  section();
  released(lfm_unlock(mine()));
}
static void wake_counted_inside(void) {
  acquired(lfm_lock(mine()));
  lfm_status status = lfm_wake_one_by(shared->condvar, mine());
  CHECK(status == LFM_DONE || status == LFM_NOBODY);
  shared->told += status == LFM_DONE;
  section();
  released(lfm_unlock(mine()));
}
static void end_counted(void) { CHECK(shared->told == shared->woken); end(); }

/* By seats that find themselves; the thread that waited may end with rings still put off. */
static void here_await(void) {
  acquired(lfm_lock_here(shared->mutex));
  while (!shared->ready) acquired(lfm_wait_here(shared->condvar, shared->mutex));
  shared->ready--;
  section();
  released(lfm_unlock_here(shared->mutex));
}
static void here_make_ready(void) {
  acquired(lfm_lock_here(shared->mutex));
  shared->ready++;
  lfm_wake_one(shared->condvar);
  section();
  released(lfm_unlock_here(shared->mutex));
}
/* The holder wakes, and then waits itself: its unlock inside the wait has to make the ring. */
static void ping(void) {
  acquired(lfm_lock(mine()));
  shared->ready = 1;
  lfm_wake_all_by(shared->condvar, mine());
  while (shared->ready) acquired(lfm_wait(shared->condvar, mine()));
  released(lfm_unlock(mine()));
}
static void pong(void) {
  acquired(lfm_lock(mine()));
  while (!shared->ready) acquired(lfm_wait(shared->condvar, mine()));
  shared->ready = 0;
  lfm_wake_all_by(shared->condvar, mine());
  released(lfm_unlock(mine()));
}

/* A thread leaves its deputy queued, and then waits at a condition variable. */
static void timed_await(void) {
  timed();
  await_ready();
}

const struct scenario wait_scenarios[] = {
    {"timed_wait2", "a deputy left queued, and then a wait", 2, false, open2, {timed_await, make_ready_inside}, end},
    {"wait2", "one waits, one wakes after its unlock", 2, false, open2, {await_ready, make_ready}, end},
    {"wait2_inside", "one waits, one wakes while it holds", 2, false, open2, {await_ready, make_ready_inside}, end},
    {"wait3", "two wait, one wakes twice", 3, false, open3, {await_ready, await_ready, make_ready_twice}, end},
    {"wait3_wakers", "one waits for two, which wake", 3, false, open3, {await_ready, make_ready, make_ready_inside}, end},
    {"wake_all3", "two wait, one wakes all", 3, false, open3, {await_ready, await_ready, make_all_ready}, end},
    {"wakes3_inside", "two wait, one wakes twice while it holds",
     3, false, open3, {await_ready, await_ready, make_two_ready_inside}, end},
    {"wake_on3", "two wait, one wakes the first, which wakes the other",
     3, false, open3, {await_and_pass_on, await_and_pass_on, wake_one_of_them}, end},
    {"wake_all4", "three wait, one wakes all",
     4, false, open4, {await_with_others, await_with_others, await_with_others, wake_three}, end, true},
    {"wake_all3_outside", "the same after the unlock",
     3, false, open3, {await_ready, await_ready, make_all_ready_outside}, end},
    {"wait_for2", "a wait with a limit beside a wake", 2, true, open2, {wait_counted, wake_counted}, end_counted},
    {"wait_for2_inside", "the same, the waker holds", 2, true, open2, {wait_counted, wake_counted_inside}, end_counted},
    {"wait_for3", "two waits with limits beside a wake",
     3, true, open3, {wait_counted, wait_counted, wake_counted}, end_counted, true},
    {"wait_for3_wakes", "a wait with a limit beside two wakes",
     3, true, open3, {wait_counted, wake_counted, wake_counted_inside}, end_counted, true},
    {"here_wait2", "a wait and a wake by seats that find themselves",
     2, false, open_mutex_only, {here_await, here_make_ready}, end},
    {"ping_pong", "a holder that woke another waits itself", 2, false, open2, {ping, pong}, end},
    {0}
};
