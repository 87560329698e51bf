/* A condition variable is closed as soon as its waiters have been woken, and its memory goes at once. */
#include "scenario.h"

/* A condition variable is closed, and its memory given back, as soon as all that waited have been woken. */
static void wait_until_closed(void) {
  acquired(lfm_lock(mine()));
  lfm_condvar *condvar = shared->condvar;
  if (!shared->ready) {
    shared->waiting++;
    acquired(lfm_wait_for(condvar, mine(), LONG_TIME));
    shared->waiting--;
  }
  section();
  released(lfm_unlock(mine()));
}
static void wait_until_closed_untimed(void) {
  acquired(lfm_lock(mine()));
  lfm_condvar *condvar = shared->condvar;
  if (!shared->ready) acquired(lfm_wait(condvar, mine()));
  section();
  released(lfm_unlock(mine()));
}
static void wake_and_close(void) {
  lfm_condvar *condvar = shared->condvar;
  acquired(lfm_lock(mine()));
  shared->ready = 1;
  lfm_wake_all_by(condvar, mine());
  released(lfm_unlock(mine()));
  CHECK(lfm_condvar_close(condvar) == LFM_DONE);
  explorer_free(condvar);
  shared->condvar = NULL;
}
static void wake_and_close_inside(void) {
  lfm_condvar *condvar = shared->condvar;
  acquired(lfm_lock(mine()));
  shared->ready = 1;
  lfm_wake_all_by(condvar, mine());
  CHECK(lfm_condvar_close(condvar) == LFM_DONE);
  explorer_free(condvar);
  shared->condvar = NULL;
  released(lfm_unlock(mine()));
}

const struct scenario condvar_close_scenarios[] = {
    {"condvar_close2", "a condition variable is closed beside a wait with a limit",
     2, false, open2, {wait_until_closed, wake_and_close}, end},
    {"condvar_close2_inside", "the same, while the mutex is held",
     2, false, open2, {wait_until_closed, wake_and_close_inside}, end},
    {"condvar_close3", "the same beside two waits",
     3, false, open3, {wait_until_closed, wait_until_closed, wake_and_close}, end, true},
    {"condvar_close_untimed3", "the same beside waits without a limit",
     3, false, open3, {wait_until_closed_untimed, wait_until_closed_untimed, wake_and_close}, end},
    {0}
};
