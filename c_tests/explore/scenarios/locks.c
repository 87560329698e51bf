/* Threads lock, try and unlock, with seats in hand. */
#include "scenario.h"

static void twice(void) { once(); once(); }
static void deep(void) {
  acquired(lfm_lock(mine()));
  acquired(lfm_lock(mine()));
  section();
  CHECK(lfm_unlock(mine()) == LFM_STILL);
  released(lfm_unlock(mine()));
}

const struct scenario lock_scenarios[] = {
    {"lock2", "lock and unlock, twice each", 2, false, open2, {twice, twice}, end},
    {"lock3", "lock and unlock", 3, false, open3, {once, once, once}, end},
    {"order2", "lock in order, twice each", 2, false, open2, {twice_in_order, twice_in_order}, end},
    {"order3", "lock in order", 3, false, open3, {once_in_order, once_in_order, once_in_order}, end},
    {"order4", "lock in order", 4, false, open4, {once_in_order, once_in_order, once_in_order, once_in_order}, end},
    {"try3", "a lock beside tries", 3, false, open3, {once_in_order, once, try_it}, end},
    {"deep2", "recursive locks", 2, false, open2, {deep, deep}, end},
    {0}
};
