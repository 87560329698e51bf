/* Lock, try and unlock of a mutex by a participant that has a seat in its pool. A lock tries first, then spins and naps, and then
 * queues. How a granted seat is woken is in deputies.h, and how a thread's participant is found in threads.h and here.h.
 *
 * One call of the library grants the mutex to at most one seat, and its answer names that seat, which is proved. The thread that
 * made the call wakes that seat before it sleeps itself. So each grant is rung for, once, or the place is passed by.
 *
 * Nobody rings a bell whose participant is in no call. Another thread rings only after it found the participant's ask in the
 * library's words, and these order the two. The lock waits for the ring before it receives, so no ring is left over. */

static void *address_for_tools(mutex_word mutex) { return info_of(mutex); }

/* Tells tools that the participant has acquired the mutex, or is about to release it. */
SLOW_PATH void tell_acquired(mutex_word mutex) {
  void *of = address_for_tools(mutex);
  if (__tsan_acquire) __tsan_acquire(of);
  tell_helgrind_after(of);
  ANNOTATE_HAPPENS_AFTER(of);
}

SLOW_PATH void tell_releasing(mutex_word mutex) {
  void *of = address_for_tools(mutex);
  if (__tsan_release) __tsan_release(of);
  tell_helgrind_before(of);
  ANNOTATE_HAPPENS_BEFORE(of);
}

/* The calls of the library */

FAST_PATH lfm_status try_by(struct participant *by, mutex_word mutex) {
  return status_of(lfm_c_pool_try_lock(seat_in(by, mutex), index_of(mutex)));
}

FAST_PATH uint64_t unlock_by(struct participant *by, mutex_word mutex) {
  return lfm_c_pool_unlock(seat_in(by, mutex), index_of(mutex));
}

/* Why an unlock by the own seat, which doesn't hold, is refused: since the seat sleeps in a call of another thread, say. */
static lfm_status refusal_of_unlock(struct participant *by, mutex_word mutex) { return status_of(unlock_by(by, mutex)); }

static uint64_t count_by(struct participant *by, mutex_word mutex) {
  return lfm_c_pool_count(seat_in(by, mutex), index_of(mutex));
}

static uint64_t depth_by(struct participant *by, mutex_word mutex) {
  return lfm_c_pool_depth(seat_in(by, mutex), index_of(mutex));
}

/* Counts a hold of the participant if a call with this status has begun one. */
FAST_PATH lfm_status note_hold(struct participant *by, lfm_status status) {
  by->holds += status == LFM_DONE;
  return status;
}

/* How many times the participant holds the mutex, by its own seat or by a deputy. */
static uint64_t depth_of(struct participant *by, mutex_word mutex) {
  return by->pools < pool_in(mutex) ? 0 : depth_by(holder_of(by, mutex), mutex);
}

/* The queue */

/* Waits until a seat of the participant, which is queued, is granted the mutex, at most until the deadline if there is one:
 * whether it was. It spins first, unless too many are queued: then it would only keep a processor from them. */
static bool await_bell(struct participant *by, mutex_word mutex, const struct deadline *deadline) {
  struct mutex_info *info = info_of(mutex);
  bool is_near = __atomic_add_fetch(&info->queued, 1, __ATOMIC_RELAXED) <= most_spinners();
  uint64_t spin_time = is_near ? LFM_SPIN_NANOSECONDS : 0;
  if (deadline && time_left(deadline) < spin_time) spin_time = time_left(deadline);
  bool is_granted = await_ring(&by->bell, spin_time, deadline);
  if (!is_granted && !change_state(by, TIMED, ABANDONED)) is_granted = await_ring(&by->bell, 0, NULL);
  if (is_granted) silence(&by->bell);
  __atomic_sub_fetch(&info->queued, 1, __ATOMIC_RELAXED);
  return is_granted;
}

/* Waits until the deputy is granted the mutex, which it holds then, at most until the deadline if there is one. */
SLOW_PATH lfm_status await_deputy(struct participant *by, struct participant *deputy, const struct deadline *deadline) {
  mutex_word mutex = deputy->at;
  if (!await_bell(deputy, mutex, deadline)) return LFM_BUSY;
  deputy->holds = 1;
  return note_hold(by, status_of(lfm_c_pool_receive(seat_in(deputy, mutex), index_of(mutex))));
}

/* Makes the call by a deputy that holds the mutex or is still queued there: whether there is one. The own seat, which doesn't
 * hold, would wait behind it. */
SLOW_PATH bool is_by_deputy(struct participant *by, mutex_word mutex, const struct deadline *deadline, lfm_status *status) {
  struct participant *holder = holder_of(by, mutex);
  if (holder != by) {
    *status = try_by(holder, mutex);
    return true;
  }
  struct participant *deputy = resumed_deputy(by, mutex);
  if (deputy) *status = await_deputy(by, deputy, deadline);
  return deputy;
}

/* Locks in order, by the own seat. If that seat holds, since a try has acquired the mutex, a deputy that is still queued waits
 * behind it. */
static lfm_status queue(struct participant *by, mutex_word mutex) {
  lfm_status status;
  if (UNLIKELY(by->deputies) && depth_by(by, mutex) == 0 && is_by_deputy(by, mutex, NULL, &status)) return status;
  status = wake_named(mutex, lfm_c_pool_ask(seat_in(by, mutex), index_of(mutex)));
  if (status == LFM_ASLEEP) {
    await_bell(by, mutex, NULL);
    status = status_of(lfm_c_pool_receive(seat_in(by, mutex), index_of(mutex)));
  }
  return note_hold(by, status);
}

/* Locks in order by this deputy, at most until the deadline. */
static lfm_status queue_until(struct participant *by, struct participant *deputy, mutex_word mutex,
                              const struct deadline *deadline) {
  take_seats(deputy, mutex);
  deputy->at = mutex;
  silence(&deputy->bell); /* a time that was over left it listened to */
  __atomic_store_n(&deputy->state, TIMED, __ATOMIC_SEQ_CST);
  lfm_status status = wake_named(mutex, lfm_c_pool_ask(seat_in(deputy, mutex), index_of(mutex)));
  if (status == LFM_ASLEEP) return await_deputy(by, deputy, deadline);
  __atomic_store_n(&deputy->state, RESTS, __ATOMIC_SEQ_CST);
  deputy->holds = status == LFM_DONE;
  return note_hold(by, status);
}

/* Tries, spins and naps
 *
 * The policy is that of `Pace` in crates/lfm_mutex/src/pace.rt for a thread that finds the mutex taken, except that no nap is a
 * yield. The first try is made before the spins. */

enum { SPINS = 11, MOST_DOUBLINGS = 8, HOLDER_AND_ONE_MORE = 2, NAPS = 4, NAP = 20000, FEW = 8 };
/* How long a nap takes at most, as a rule, with what the system adds to it; and how long one is of a lock that can't queue. In
 * nanoseconds. */
enum { LONGEST_NAP = 100000, LONG_NAP = 1000000 };

/* Tries if by this count no seat holds or wants the mutex, or else is busy. To read the count costs the holder less than a
 * try. */
static lfm_status try_if_free(struct participant *by, mutex_word mutex, uint64_t count) {
  return count == 0 ? try_by(by, mutex) : LFM_BUSY;
}

/* Spins for some 8 microseconds. The pauses double from one load to the next, so that the holder keeps the cache line of the
 * count for most of the time. If more than the holder and one other seat are counted, others queue already. */
static lfm_status spin(struct participant *by, mutex_word mutex) {
  lfm_status status = LFM_BUSY;
  for (int i = 0; most_spinners() && status == LFM_BUSY && i < LFM_ROUNDS(SPINS); i++) {
    pause_for(1 << (i < MOST_DOUBLINGS ? i : MOST_DOUBLINGS));
    uint64_t count = count_by(by, mutex);
    status = try_if_free(by, mutex, count);
    if (count > HOLDER_AND_ONE_MORE) break;
  }
  return status;
}

/* Naps a few times, and reads the count before and after each nap. Threads that sleep leave the processors to the holder, and a
 * queue can drain meanwhile. If many seats hold or wait, it is better to queue at once, and also if the deadline, if there is
 * one, might be over after the nap. */
static lfm_status nap(struct participant *by, mutex_word mutex, const struct deadline *deadline) {
  uint64_t crowd = most_spinners() > FEW / 2 ? 2 * most_spinners() : FEW;
  lfm_status status = LFM_BUSY;
  for (int i = 0; status == LFM_BUSY && i < LFM_ROUNDS(NAPS); i++) {
    uint64_t count = count_by(by, mutex);
    if (count > crowd || (deadline && time_left(deadline) < LONGEST_NAP)) break;
    if (count) nap_for(NAP);
    status = try_if_free(by, mutex, count ? count_by(by, mutex) : 0);
  }
  return status;
}

/* Tries until the deadline, with naps between: a lock with a time limit that finds no deputy. */
SLOW_PATH lfm_status try_until(struct participant *by, mutex_word mutex, const struct deadline *deadline) {
  lfm_status status = LFM_BUSY;
  for (uint64_t left = time_left(deadline); status == LFM_BUSY && left; left = time_left(deadline)) {
    nap_for(left < LONG_NAP ? left : LONG_NAP);
    status = try_if_free(by, mutex, count_by(by, mutex));
  }
  return status;
}

/* Locks after a try with this status. If the mutex was busy, it spins, naps, and queues at last. */
SLOW_PATH lfm_status lock_slowly(struct participant *by, mutex_word mutex, lfm_status status) {
  if (status != LFM_BUSY) return status;
  if (by->deputies && is_by_deputy(by, mutex, NULL, &status)) return status;
  status = spin(by, mutex);
  if (status == LFM_BUSY) status = nap(by, mutex, NULL);
  return status == LFM_BUSY ? queue(by, mutex) : note_hold(by, status);
}

/* The fast paths, by a participant without a flag */

FAST_PATH lfm_status lock_plainly(struct participant *by, mutex_word mutex) {
  lfm_status status = try_by(by, mutex);
  return LIKELY(!lfm_is_refused(status)) ? note_hold(by, status) : lock_slowly(by, mutex, status);
}

SLOW_PATH lfm_status try_by_holder(struct participant *by, mutex_word mutex) {
  return note_hold(by, try_by(holder_of(by, mutex), mutex));
}

FAST_PATH lfm_status try_plainly(struct participant *by, mutex_word mutex) {
  lfm_status status = note_hold(by, try_by(by, mutex));
  return UNLIKELY(status == LFM_BUSY && by->deputies) ? try_by_holder(by, mutex) : status;
}

SLOW_PATH lfm_status unlock_by_deputy(struct participant *by, mutex_word mutex) {
  struct participant *deputy = holder_of(by, mutex);
  if (deputy == by) return LFM_NOT_OWNER;
  uint64_t answer = unlock_by(deputy, mutex);
  deputy->holds = status_of(answer) == LFM_STILL;
  return wake_named(mutex, answer);
}

FAST_PATH lfm_status unlock_plainly(struct participant *by, mutex_word mutex) {
  lfm_status status = wake_named(mutex, unlock_by(by, mutex));
  if (UNLIKELY(status == LFM_NOT_OWNER && by->deputies)) status = unlock_by_deputy(by, mutex);
  if (UNLIKELY(status == LFM_STILL || lfm_is_refused(status))) return status;
  by->holds--;
  if (UNLIKELY(by->unrung && by->unrung_at == mutex)) ring_unrung(by, status);
  return status;
}

/* By any participant */

FAST_PATH lfm_status tell_if_acquired(struct participant *by, mutex_word mutex, lfm_status status) {
  if (UNLIKELY(by->flags & IS_WATCHED) && !lfm_is_refused(status)) tell_acquired(mutex);
  return status;
}

static lfm_status lock(struct participant *by, mutex_word mutex) {
  return tell_if_acquired(by, mutex, lock_plainly(by, mutex));
}

static lfm_status lock_in_order(struct participant *by, mutex_word mutex) {
  return tell_if_acquired(by, mutex, queue(by, mutex));
}

static lfm_status try_and_tell(struct participant *by, mutex_word mutex) {
  return tell_if_acquired(by, mutex, try_plainly(by, mutex));
}

/* It tries and spins as a lock does, and naps only while it has the time. Then it queues until the deadline. */
static lfm_status lock_until(struct participant *by, mutex_word mutex, const struct deadline *deadline) {
  lfm_status status = try_by(by, mutex);
  if (status == LFM_BUSY && by->deputies && is_by_deputy(by, mutex, deadline, &status))
    return tell_if_acquired(by, mutex, status);
  if (status == LFM_BUSY && time_left(deadline) != 0) status = spin(by, mutex);
  if (status == LFM_BUSY) status = nap(by, mutex, deadline);
  struct participant *deputy = status == LFM_BUSY && time_left(deadline) != 0 ? take_deputy(by) : NULL;
  if (deputy) return tell_if_acquired(by, mutex, queue_until(by, deputy, mutex, deadline));
  if (status == LFM_BUSY) status = try_until(by, mutex, deadline);
  return tell_if_acquired(by, mutex, note_hold(by, status));
}

static lfm_status unlock(struct participant *by, mutex_word mutex) {
  if (UNLIKELY(by->flags & IS_WATCHED) && depth_of(by, mutex) == 1) tell_releasing(mutex);
  return unlock_plainly(by, mutex);
}
