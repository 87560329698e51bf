/* Seats in hand, and those that lfm_seat_here answers. A seat in hand has a participant of its own, and a seat of lfm_seat_here
 * that of its thread. Both are a participant with one mutex. */

FAST_PATH bool is_taken(const lfm_seat *seat) { return seat && seat->by; }

SLOW_PATH void begin_checked_call(lfm_seat *seat) {
  if (!__atomic_exchange_n(&seat->is_in_call, 1, __ATOMIC_SEQ_CST)) return;
  fputs("ligdrosa: two threads are in calls of one seat at the same time\n", stderr);
  abort();
}

/* Begins a call of a seat that is taken. */
FAST_PATH void begin_call(lfm_seat *seat) {
  if (UNLIKELY(seat->is_checked)) begin_checked_call(seat);
}

/* Ends it, and returns its status. */
FAST_PATH lfm_status end_call(lfm_seat *seat, lfm_status status) {
  if (UNLIKELY(seat->is_checked)) __atomic_store_n(&seat->is_in_call, 0, __ATOMIC_SEQ_CST);
  return status;
}

/* Makes a call by a seat in hand. */
#define CALL_BY(seat, call) (is_taken(seat) ? (begin_call(seat), end_call(seat, call)) : LFM_BLANK)

/* Whether a call of the seat has nothing to do in addition. */
FAST_PATH bool is_plain_seat(const lfm_seat *seat) {
  return LIKELY(is_taken(seat) && !seat->is_checked && seat->by->plain_pools);
}

SLOW_PATH lfm_status lock_flagged(lfm_seat *seat) { return CALL_BY(seat, lock(seat->by, seat->mutex)); }
SLOW_PATH lfm_status try_flagged(lfm_seat *seat) { return CALL_BY(seat, try_and_tell(seat->by, seat->mutex)); }
SLOW_PATH lfm_status unlock_flagged(lfm_seat *seat) { return CALL_BY(seat, unlock(seat->by, seat->mutex)); }

lfm_status lfm_lock(lfm_seat *seat) {
  return is_plain_seat(seat) ? lock_plainly(seat->by, seat->mutex) : lock_flagged(seat);
}

lfm_status lfm_try_lock(lfm_seat *seat) {
  return is_plain_seat(seat) ? try_plainly(seat->by, seat->mutex) : try_flagged(seat);
}

lfm_status lfm_unlock(lfm_seat *seat) {
  return is_plain_seat(seat) ? unlock_plainly(seat->by, seat->mutex) : unlock_flagged(seat);
}

lfm_status lfm_lock_in_order(lfm_seat *seat) { return CALL_BY(seat, lock_in_order(seat->by, seat->mutex)); }

lfm_status lfm_try_lock_for(lfm_seat *seat, uint64_t nanoseconds) {
  struct deadline deadline = deadline_after(nanoseconds);
  return CALL_BY(seat, lock_until(seat->by, seat->mutex, &deadline));
}

lfm_status lfm_try_lock_until(lfm_seat *seat, int clock, const struct timespec *time) {
  struct deadline deadline = deadline_at(clock, time);
  return deadline.refused ? deadline.refused : CALL_BY(seat, lock_until(seat->by, seat->mutex, &deadline));
}

uint64_t lfm_number(lfm_seat *seat) { return is_taken(seat) ? seat->by->number : 0; }
uint64_t lfm_depth(lfm_seat *seat) { return is_taken(seat) ? depth_of(seat->by, seat->mutex) : 0; }
uint64_t lfm_left(lfm_seat *seat) { return is_taken(seat) ? LFM_MOST_TAKES : 0; }

/* Takes and gives */

static lfm_status take_in_hand(lfm_mutex *mutex, lfm_seat *seat, bool is_checked) {
  lfm_status cause;
  if (!seat) return LFM_BLANK;
  mutex_word word = open_mutex(mutex, &cause);
  if (!word) return cause;
  if (seat->by) return LFM_TAKEN;
  struct participant *by = take_participant(&cause);
  if (!by) return cause;
  take_seats(by, word);
  count_in_hand(info_of(word));
  *seat = (lfm_seat){.by = by, .mutex = word, .is_checked = is_checked, .forks = LFM_PROCESS.forks};
  return LFM_DONE;
}

lfm_status lfm_seat_take(lfm_mutex *mutex, lfm_seat *seat) { return take_in_hand(mutex, seat, false); }
lfm_status lfm_seat_take_checked(lfm_mutex *mutex, lfm_seat *seat) { return take_in_hand(mutex, seat, true); }

/* Whether the participant, which doesn't hold, is queued in a call of another thread. */
static bool is_asleep(struct participant *by, mutex_word mutex) {
  for (struct participant *deputy = by->deputies; deputy; deputy = deputy->next)
    if (state_of(deputy) == TIMED) return true;
  return refusal_of_unlock(by, mutex) == LFM_SEAT_ASLEEP;
}

/* A seat that was given back is touched no more: its memory may be gone by then, with that of the mutex. */
static lfm_status give_in_hand(lfm_seat *seat) {
  struct participant *by = seat->by;
  if (by->holds) return end_call(seat, LFM_HOLDING);
  if (is_asleep(by, seat->mutex)) return end_call(seat, LFM_SEAT_ASLEEP);
  struct mutex_info *info = info_of(seat->mutex);
  seat->by = NULL;
  seat->is_in_call = 0;
  part_with_deputies(by);
  give_participant(by);
  __atomic_sub_fetch(&info->in_hand, 1, __ATOMIC_SEQ_CST);
  return LFM_DONE;
}
