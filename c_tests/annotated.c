/* clang's -Wthread-safety understands the calls that find the thread's seat: it has no warning of this file, and with IS_WRONG
 * it warns of a write without the mutex. It is compiled alone. */
#include "ligdrosa.h"

static lfm_mutex mutex = LFM_MUTEX_INIT;
static lfm_condvar filled;
static long count __attribute__((guarded_by(mutex)));

bool add(void);
bool add_or_fail(void);
bool try_add(void);
bool try_add_again(void);
void add_in_hold(void);
bool try_add_in_time(void);
bool take_one(void);

bool add(void) {
#ifndef IS_WRONG
  if (lfm_is_refused(lfm_lock_here(&mutex))) __builtin_trap();
#endif
  count++;
#ifndef IS_WRONG
  lfm_unlock_here(&mutex);
#endif
  return lfm_wake_one(&filled) == LFM_DONE;
}

bool add_or_fail(void) {
  if (!lfm_acquire_here(&mutex)) return false;
  count++;
  lfm_unlock_here(&mutex);
  return true;
}

bool try_add(void) {
  if (lfm_try_lock_here(&mutex)) return false;
  count++;
  lfm_unlock_here(&mutex);
  return true;
}

bool try_add_again(void) {
  bool is_acquired = lfm_try_acquire_here(&mutex);
  if (is_acquired) {
    count++;
    lfm_unlock_here(&mutex);
  }
  return is_acquired;
}

void add_in_hold(void) {
  lfm_assert_held_here(&mutex);
  count++;
}

bool try_add_in_time(void) {
  struct timespec time = {0, 0};
  if (!lfm_try_lock_for_here(&mutex, 1000)) {
    count++;
    lfm_unlock_here(&mutex);
    return true;
  }
  if (lfm_try_lock_until_here(&mutex, LFM_REALTIME, &time)) return false;
  count++;
  lfm_unlock_here(&mutex);
  return true;
}

bool take_one(void) {
  bool is_waited = true;
  if (lfm_is_refused(lfm_lock_here(&mutex))) __builtin_trap();
  while (count == 0 && is_waited) is_waited = lfm_wait_here(&filled, &mutex) == LFM_DONE;
  count--;
  lfm_unlock_here(&mutex);
  return is_waited;
}
