/* Condition variables: waits and wakes. How the mutex is released and acquired again by a wait is in lock.h.
 *
 * A wait is a waiter on its thread's stack, in the list of its condition variable, and sleeps at a bell of its own.
 *
 * No wake is lost. A wait is listed before it releases the mutex. So a thread that acquires the mutex after it finds it in
 * the list, and if it makes a wake, the acquisition orders its first load of the list after that. A wake takes waiters out
 * of the list under the latch, the oldest first, and rings once for each that it has taken out. So each wake that finds one
 * wakes exactly one, and no waiter is woken twice. If the time of a wait is over, it takes its waiter out itself, under the
 * latch. If a wake was first, the waiter is not listed any more: then it counts as woken, and waits for its ring.
 *
 * A thread that would be woken while the caller holds its mutex could only sleep again, or take the caller's processor. So
 * if the caller holds it, by its own seat or by a deputy, the ring is put off until it releases the mutex: no waiter could go
 * on before. Who makes it then is said in waiter.h. This is not done for a timed wait, for which a close may wait.
 *
 * Nothing is touched after its end. A wake reads a waiter's neighbour before it rings for it, and releases the latch before
 * the first ring. A waiter without a deadline touches its condition variable no more once it is listed and has released the
 * latch, and no wake takes it out before, since that takes the latch. A timed one may still take the latch when others have
 * woken it. So it is counted in `inside` until it has done so, and a close waits for that. */

/* The list. The latch is held for these two. The first load of a wake may come at the same time. */

static void append_waiter(lfm_condvar *condvar, struct lfm_waiter *waiter) {
  waiter->older = condvar->newest;
  waiter->newer = NULL;
  waiter->is_listed = true;
  condvar->newest = waiter;
  if (waiter->older)
    waiter->older->newer = waiter;
  else
    __atomic_store_n(&condvar->oldest, waiter, __ATOMIC_RELAXED);
}

static void remove_waiter(lfm_condvar *condvar, struct lfm_waiter *waiter) {
  waiter->is_listed = false;
  if (waiter->newer)
    waiter->newer->older = waiter->older;
  else
    condvar->newest = waiter->older;
  if (waiter->older)
    waiter->older->newer = waiter->newer;
  else
    __atomic_store_n(&condvar->oldest, waiter->newer, __ATOMIC_RELAXED);
}

/* Waits */

/* Waits for the waiter's ring, at most until the deadline if there is one: whether it came first. */
static bool await_wake(lfm_condvar *condvar, struct lfm_waiter *waiter, const struct deadline *deadline) {
  if (await_ring(&waiter->bell, 0, deadline)) return true;
  acquire_latch(&condvar->latch);
  bool is_listed = waiter->is_listed;
  if (is_listed) remove_waiter(condvar, waiter);
  release_latch(&condvar->latch);
  return !is_listed && await_ring(&waiter->bell, 0, NULL);
}

/* For how many nanoseconds a waiter spins before its thread sleeps. Between two threads that take turns a ring comes early,
 * but on busy processors a spin keeps the other from its work. So a seat spins if rings have come during its last spins, and
 * otherwise at some of its waits, as a trial. If others wait too, it doesn't spin. */
enum { CREDIT_AFTER_A_RING = 16, WAITS_PER_TRIAL = 32, WAIT_SPIN = 5000 };

static bool spin_for_wake(struct participant *by, uint32_t *bell) {
  bool is_trial = ++by->waits % WAITS_PER_TRIAL == 0;
  if (most_spinners() == 0 || (by->spin_credit == 0 && !is_trial)) return false;
  bool is_rung = spin_at_bell(bell, WAIT_SPIN);
  by->spin_credit = is_rung ? CREDIT_AFTER_A_RING : by->spin_credit / 2;
  return is_rung;
}

/* A flag of `inside`: a close waits until nothing else is left in it. */
enum { IS_CLOSING = 1 << 30 };

/* Releases the mutex, waits for a wake or the deadline, and acquires the mutex again, as often as it was held. The participant
 * has a seat in the pool of the mutex. If the wait is refused after the mutex was released, since no lock of it is possible any
 * more, no hold is left. */
static lfm_status wait_in(lfm_condvar *condvar, struct participant *by, mutex_word mutex, bool all_holds,
                          const struct deadline *deadline) {
  uint64_t depth = depth_of(by, mutex);
  if (depth == 0) return refusal_of_unlock(by, mutex);
  if (depth > 1 && !all_holds) return LFM_NESTED;
  struct lfm_waiter waiter = {.mutex = mutex, .bell = SILENT, .is_timed = deadline != NULL};
  hide(condvar, sizeof *condvar);
  hide(&waiter, sizeof waiter);
  acquire_latch(&condvar->latch);
  append_waiter(condvar, &waiter);
  bool is_alone = !waiter.older;
  if (deadline) __atomic_add_fetch(&condvar->inside, 1, __ATOMIC_RELAXED);
  release_latch(&condvar->latch);
  for (uint64_t i = 0; i < depth; i++) unlock(by, mutex);
  bool is_done = (is_alone && spin_for_wake(by, &waiter.bell)) || await_wake(condvar, &waiter, deadline);
  if (deadline && __atomic_sub_fetch(&condvar->inside, 1, __ATOMIC_ACQ_REL) == IS_CLOSING) wake_sleeper(&condvar->inside);
  ring_for_others(&waiter);
  /* Of threads that are woken together each would nap while another holds. In order they go on one after another. */
  lfm_status status = is_done && waiter.is_one_of_many ? lock_in_order(by, mutex) : lock(by, mutex);
  for (uint64_t i = 1; i < depth && !lfm_is_refused(status); i++) lock(by, mutex);
  return is_done || lfm_is_refused(status) ? status : LFM_TIMED_OUT;
}

/* A wait by a seat in hand, and one by the calling thread. A thread without a seat doesn't hold. */

static lfm_status wait_by(lfm_condvar *condvar, lfm_seat *seat, bool all_holds, const struct deadline *deadline) {
  if (deadline && deadline->refused) return deadline->refused;
  return condvar ? CALL_BY(seat, wait_in(condvar, seat->by, seat->mutex, all_holds, deadline)) : LFM_BLANK;
}

static lfm_status wait_here(lfm_condvar *condvar, lfm_mutex *mutex, bool all_holds, const struct deadline *deadline) {
  if (deadline && deadline->refused) return deadline->refused;
  if (!condvar) return LFM_BLANK;
  mutex_word word = load_mutex(mutex);
  struct participant *by = own.by;
  return has_seat(word) ? end_here(by, wait_in(condvar, by, word, all_holds, deadline)) : status_without_seat(mutex);
}

/* Wakes */

/* Whether the ring for this waiter may be put off until the participant releases a mutex: the waiter has no time limit, and the
 * participant holds its mutex and has put off no ring for another one. */
static bool may_put_off(struct participant *by, const struct lfm_waiter *waiter) {
  if (waiter->is_timed || (by->unrung && by->unrung_at != waiter->mutex)) return false;
  return depth_of(by, waiter->mutex) != 0;
}

/* Wakes the oldest waiter, or all, for a caller that is this participant. */
static lfm_status wake(lfm_condvar *condvar, struct participant *by, bool all) {
  if (!condvar) return LFM_BLANK;
  if (!__atomic_load_n(&condvar->oldest, __ATOMIC_RELAXED)) return LFM_NOBODY;
  acquire_latch(&condvar->latch);
  struct lfm_waiter *first = condvar->oldest, *last = NULL;
  while (condvar->oldest && (all || !last)) {
    last = condvar->oldest;
    remove_waiter(condvar, last);
  }
  release_latch(&condvar->latch);
  for (struct lfm_waiter *waiter = first, *next; waiter; waiter = next) {
    next = waiter == last ? NULL : waiter->newer;
    waiter->is_one_of_many = first != last;
    if (may_put_off(by, waiter))
      put_off_ring(by, waiter);
    else
      ring(&waiter->bell);
  }
  return first ? LFM_DONE : LFM_NOBODY;
}

/* The calls */

lfm_status lfm_wait(lfm_condvar *condvar, lfm_seat *seat) { return wait_by(condvar, seat, false, NULL); }
lfm_status lfm_wait_all_holds(lfm_condvar *condvar, lfm_seat *seat) { return wait_by(condvar, seat, true, NULL); }
lfm_status lfm_wait_here(lfm_condvar *condvar, lfm_mutex *mutex) { return wait_here(condvar, mutex, false, NULL); }
lfm_status lfm_wait_all_holds_here(lfm_condvar *condvar, lfm_mutex *mutex) { return wait_here(condvar, mutex, true, NULL); }

lfm_status lfm_wait_for(lfm_condvar *condvar, lfm_seat *seat, uint64_t nanoseconds) {
  struct deadline deadline = deadline_after(nanoseconds);
  return wait_by(condvar, seat, false, &deadline);
}

lfm_status lfm_wait_for_here(lfm_condvar *condvar, lfm_mutex *mutex, uint64_t nanoseconds) {
  struct deadline deadline = deadline_after(nanoseconds);
  return wait_here(condvar, mutex, false, &deadline);
}

lfm_status lfm_wait_until(lfm_condvar *condvar, lfm_seat *seat, int clock, const struct timespec *time) {
  struct deadline deadline = deadline_at(clock, time);
  return wait_by(condvar, seat, false, &deadline);
}

lfm_status lfm_wait_until_here(lfm_condvar *condvar, lfm_mutex *mutex, int clock, const struct timespec *time) {
  struct deadline deadline = deadline_at(clock, time);
  return wait_here(condvar, mutex, false, &deadline);
}

lfm_status lfm_wait_all_holds_until(lfm_condvar *condvar, lfm_seat *seat, int clock, const struct timespec *time) {
  struct deadline deadline = deadline_at(clock, time);
  return wait_by(condvar, seat, true, &deadline);
}

lfm_status lfm_wait_all_holds_until_here(lfm_condvar *condvar, lfm_mutex *mutex, int clock, const struct timespec *time) {
  struct deadline deadline = deadline_at(clock, time);
  return wait_here(condvar, mutex, true, &deadline);
}

lfm_status lfm_wake_one(lfm_condvar *condvar) { return wake(condvar, own.by, false); }
lfm_status lfm_wake_all(lfm_condvar *condvar) { return wake(condvar, own.by, true); }
lfm_status lfm_wake_one_by(lfm_condvar *condvar, lfm_seat *seat) { return CALL_BY(seat, wake(condvar, seat->by, false)); }
lfm_status lfm_wake_all_by(lfm_condvar *condvar, lfm_seat *seat) { return CALL_BY(seat, wake(condvar, seat->by, true)); }

lfm_status lfm_condvar_close(lfm_condvar *condvar) {
  if (!condvar) return LFM_BLANK;
  acquire_latch(&condvar->latch);
  bool is_waited_for = condvar->oldest;
  release_latch(&condvar->latch);
  if (is_waited_for) return LFM_WAITED_FOR;
  uint32_t inside = __atomic_or_fetch(&condvar->inside, IS_CLOSING, __ATOMIC_ACQUIRE);
  while (inside != IS_CLOSING) {
    sleep_while(&condvar->inside, inside, NULL);
    inside = __atomic_load_n(&condvar->inside, __ATOMIC_ACQUIRE);
  }
  memset(condvar, 0, sizeof *condvar);
  return LFM_DONE;
}
