/* Timed locks leave a deputy in the queue, beside locks and unlocks of others. */
#include "scenario.h"

static void timed_once(void) { timed(); }
static void timed_give(void) { timed(); give_mine(); }
static void timed_lock(void) { timed(); once(); }
static void timed_order(void) { timed(); once_in_order(); }
static void timed_timed(void) { timed(); timed(); }
static void timed_try(void) { timed(); try_it(); }
static void timed_three(void) { timed(); timed(); timed(); }
static void timed_depth(void) {
  timed();
  CHECK(lfm_depth(mine()) == 0);
  CHECK(lfm_unlock(mine()) == LFM_NOT_OWNER);
}

const struct scenario timed_scenarios[] = {
    {"timed2", "a timed lock beside a lock", 2, false, open2, {timed_once, once_in_order}, end},
    {"timed3", "a timed lock beside two", 3, false, open3, {timed_once, once_in_order, once_in_order}, end},
    {"timed_both", "two timed locks beside a lock", 3, false, open3, {timed_once, timed_once, once_in_order}, end},
    {"timed_give", "a timed lock leaves its deputy queued, and its seat is given back",
     2, false, open2, {timed_give, twice_in_order}, end},
    {"timed_give3", "the same beside two", 3, false, open3, {timed_give, once_in_order, once_in_order}, end},
    {"timed_give_both", "two such beside a lock", 3, false, open3, {timed_give, timed_give, once_in_order}, end, true},
    {"timed_lock", "a timed lock, and then a lock that takes its place up",
     2, false, open2, {timed_lock, twice_in_order}, end},
    {"timed_lock3", "the same beside two", 3, false, open3, {timed_lock, once_in_order, once_in_order}, end},
    {"timed_order", "a timed lock, and then a lock in order", 2, false, open2, {timed_order, twice_in_order}, end},
    {"timed_timed", "two timed locks one after another", 2, false, open2, {timed_timed, twice_in_order}, end},
    {"timed_timed3", "the same by two threads beside a lock",
     3, false, open3, {timed_timed, timed_timed, once_in_order}, end, true},
    {"timed_three", "three timed locks one after another", 2, false, open2, {timed_three, twice_in_order}, end},
    {"timed_try", "a timed lock, and then a try", 2, false, open2, {timed_try, twice_in_order}, end},
    {"timed_depth", "a timed lock, and then other calls", 2, false, open2, {timed_depth, twice_in_order}, end},
    {0}
};
