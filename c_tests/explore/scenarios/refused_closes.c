/* Closes that have to be refused: of a condition variable at which a thread waits. */
#include "scenario.h"

/* Under the mutex, a thread closes the condition variable at which another waits, and then wakes it. */
static void wait_and_tell(void) {
  acquired(lfm_lock(mine()));
  shared->waiting = 1;
  while (!shared->ready) acquired(lfm_wait(shared->condvar, mine()));
  section();
  released(lfm_unlock(mine()));
}
static void close_beside_a_wait(void) {
  acquired(lfm_lock(mine()));
  if (shared->waiting) CHECK(lfm_condvar_close(shared->condvar) == LFM_WAITED_FOR);
  shared->ready = 1;
  lfm_wake_one_by(shared->condvar, mine());
  released(lfm_unlock(mine()));
}

const struct scenario refused_close_scenarios[] = {
    {"condvar_close_refused2", "a condition variable is closed at which a thread waits",
     2, false, open2, {wait_and_tell, close_beside_a_wait}, end},
    {0}
};
