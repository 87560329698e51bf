/* Seats are taken and given back, by hand or as their thread ends. */
#include "scenario.h"

static void take_once(void) { take_mine(); once_in_order(); give_mine(); }
static void take_twice(void) { take_once(); take_once(); }
static void take_timed(void) { take_mine(); timed(); give_mine(); }
static void take_timed_twice(void) { take_timed(); take_timed(); }
static void once_give(void) { once(); give_mine(); }

/* A seat of lfm_seat_here, in calls with and without it. */
static void by_seat_here(void) {
  lfm_status cause;
  lfm_seat *seat = lfm_seat_here(shared->mutex, &cause);
  if (!seat) {
    CHECK(may_refuse_memory && cause == LFM_NO_MEMORY);
    return;
  }
  acquired(lfm_lock_in_order(seat));
  CHECK(lfm_depth_here(shared->mutex) == 1 && lfm_seat_here(shared->mutex, &cause) == seat);
  section();
  CHECK(lfm_seat_give(seat) == LFM_HOLDING && lfm_seat_give_here(shared->mutex) == LFM_HOLDING);
  released(lfm_unlock_here(shared->mutex));
}
static void seat_here_ends(void) { by_seat_here(); }
static void seat_here_given(void) {
  by_seat_here();
  CHECK(lfm_seat_give_here(shared->mutex) == LFM_DONE);
  by_seat_here();
}

/* A thread gives its seat back while its deputy is queued, and takes one again. */
static void timed_give(void) { timed(); give_mine(); }
static void timed_give_twice(void) { timed_give(); take_mine(); timed_give(); }
static void timed_give_order(void) { timed_give(); take_once(); }
static void timed_give_here(void) { timed_give(); here_in_order(); }

const struct scenario seat_scenarios[] = {
    {"give2", "seats are given back beside unlocks", 2, false, open2, {once_give, once_give}, end},
    {"storm2", "takes and gives", 2, false, open_mutex_only, {take_twice, take_twice}, end},
    {"storm3", "takes and gives by three threads", 3, false, open_mutex_only, {take_once, take_once, take_once}, end, true},
    {"storm_timed", "the same by two with timed locks", 2, false, open_mutex_only, {take_timed_twice, take_timed}, end},
    {"here2", "threads find their seats", 2, false, open_mutex_only, {here, here}, end},
    {"here3", "the same of three", 3, false, open_mutex_only, {here_in_order, here_in_order, here_in_order}, end, true},
    {"seat_here2", "seats of lfm_seat_here", 2, false, open_mutex_only, {seat_here_ends, seat_here_given}, end},
    {"give_twice2", "two seats are given back while their deputies are queued",
     2, false, open2, {timed_give_twice, twice_in_order}, end},
    {"give_order2", "a seat is taken again while the deputy of another is queued",
     2, false, open2, {timed_give_order, twice_in_order}, end},
    {"give_here2", "the thread finds its seat then", 2, false, open2, {timed_give_here, twice_in_order}, end},
    {0}
};
