/* The calls whose names end in `here`, which find the calling thread's participant. What a lock does by it is in lock.h, and how
 * it is taken in threads.h. */

/* Whether a call of this participant takes the fast path: it has a seat in the pool of the mutex, and no flag. The word of a
 * mutex that is not open has no pool. */
FAST_PATH bool is_plain(const struct participant *by, mutex_word mutex) {
  return LIKELY(pool_in(mutex) - UINT32_C(1) < by->plain_pools);
}

/* The mutex, which is opened if it was only initialized, and the calling thread's participant, with a seat in its pool. Refused,
 * the participant is null. */
static struct participant *prepare(lfm_mutex *mutex, mutex_word *word, lfm_status *cause) {
  *word = open_mutex(mutex, cause);
  if (!*word) return NULL;
  struct participant *by = take_own(cause);
  if (by) take_seats(by, *word);
  return by;
}

/* Ends a call of the thread's own participant. Seats that lfm_seat_here has answered may still be called: then the end of the
 * thread gives it back. */
FAST_PATH lfm_status end_here(struct participant *by, lfm_status status) {
  if (UNLIKELY(by->flags & IS_LATE) && by->holds == 0 && !own.seats_here) give_own_back();
  return status;
}

/* The body of a function that makes a call of `word` by the calling thread's participant `by`. */
#define RETURN_CALL_HERE(mutex, call)                          \
  lfm_status cause;                                            \
  mutex_word word;                                             \
  struct participant *by = prepare(mutex, &word, &cause);      \
  return by ? end_here(by, call) : cause

SLOW_PATH lfm_status lock_here(lfm_mutex *mutex) { RETURN_CALL_HERE(mutex, lock(by, word)); }

lfm_status lfm_lock_here(lfm_mutex *mutex) {
  mutex_word word = load_mutex(mutex);
  struct participant *by = own.by;
  return is_plain(by, word) ? lock_plainly(by, word) : lock_here(mutex);
}

lfm_status lfm_lock_in_order_here(lfm_mutex *mutex) { RETURN_CALL_HERE(mutex, lock_in_order(by, word)); }

SLOW_PATH lfm_status try_here(lfm_mutex *mutex) { RETURN_CALL_HERE(mutex, try_and_tell(by, word)); }

lfm_status lfm_try_lock_here(lfm_mutex *mutex) {
  mutex_word word = load_mutex(mutex);
  struct participant *by = own.by;
  return is_plain(by, word) ? try_plainly(by, word) : try_here(mutex);
}

/* The time begins at the call, though to open the mutex may take long. */
lfm_status lfm_try_lock_for_here(lfm_mutex *mutex, uint64_t nanoseconds) {
  struct deadline deadline = deadline_after(nanoseconds);
  RETURN_CALL_HERE(mutex, lock_until(by, word, &deadline));
}

lfm_status lfm_try_lock_until_here(lfm_mutex *mutex, int clock, const struct timespec *time) {
  struct deadline deadline = deadline_at(clock, time);
  if (deadline.refused) return deadline.refused;
  RETURN_CALL_HERE(mutex, lock_until(by, word, &deadline));
}

/* The status of a call of the holder alone, by a thread that has no seat. */
static lfm_status status_without_seat(const lfm_mutex *mutex) { return mutex && mutex->version ? LFM_NOT_OWNER : LFM_BLANK; }

/* Whether the calling thread has a seat in the pool of the mutex: a thread without one doesn't hold. */
static bool has_seat(mutex_word word) { return word && own.by->pools >= pool_in(word); }

SLOW_PATH lfm_status unlock_here(lfm_mutex *mutex) {
  mutex_word word = load_mutex(mutex);
  return has_seat(word) ? end_here(own.by, unlock(own.by, word)) : status_without_seat(mutex);
}

lfm_status lfm_unlock_here(lfm_mutex *mutex) {
  mutex_word word = load_mutex(mutex);
  struct participant *by = own.by;
  return is_plain(by, word) ? unlock_plainly(by, word) : unlock_here(mutex);
}

uint64_t lfm_depth_here(lfm_mutex *mutex) {
  mutex_word word = load_mutex(mutex);
  return has_seat(word) ? depth_of(own.by, word) : 0;
}

/* Seats of lfm_seat_here */

static lfm_seat *find_seat_here(mutex_word word) {
  lfm_seat *seat = own.seats_here;
  while (seat && seat->mutex != word) seat = seat->next;
  return seat;
}

/* The compiler takes malloc for a function that changes no word of the library. But it may lock. */
static lfm_seat *allocate_seat_here(void) {
  int before = errno;
  lfm_seat *seat = (lfm_seat *)malloc(sizeof *seat);
  errno = before;
  __asm__ volatile("" ::: "memory");
  return seat;
}

/* Memory is requested first: if malloc locks while the thread ends, the end of that call gives the thread's participant back. */
static lfm_seat *make_seat_here(mutex_word word, lfm_status *cause) {
  lfm_seat *seat = allocate_seat_here();
  struct participant *by = take_own(cause);
  if (by) take_seats(by, word);
  if (!by || !seat) {
    if (by) *cause = end_here(by, LFM_NO_MEMORY);
    free(seat);
    return NULL;
  }
  *seat = (lfm_seat){.by = by, .mutex = word, .next = own.seats_here, .is_of_library = true};
  own.seats_here = seat;
  return seat;
}

lfm_seat *lfm_seat_here(lfm_mutex *mutex, lfm_status *cause) {
  lfm_status refused;
  mutex_word word = open_mutex(mutex, &refused);
  lfm_seat *seat = word ? find_seat_here(word) : NULL;
  if (word && !seat) seat = make_seat_here(word, &refused);
  if (!seat) *cause = refused;
  return seat;
}

/* Gives back a seat of lfm_seat_here, which its thread has. */
static lfm_status give_here(lfm_seat *seat) {
  if (seat->by != own.by) return LFM_FOREIGN;
  if (depth_of(own.by, seat->mutex)) return LFM_HOLDING;
  return forget_seat_here(seat) ? LFM_DONE : LFM_FOREIGN;
}

/* A forked child only forgets a seat in hand of its parent, unless it was made new: a thread that it lacks may have been in a call
 * of it. */
lfm_status lfm_seat_give(lfm_seat *seat) {
  if (!is_taken(seat)) return LFM_BLANK;
  if (seat->is_of_library) return give_here(seat);
  if (seat->forks == LFM_PROCESS.forks) {
    begin_call(seat);
    return give_in_hand(seat);
  }
  seat->by = NULL;
  return LFM_DONE;
}

/* A thread keeps its participant: all that there is to give back is what lfm_seat_here has answered. */
lfm_status lfm_seat_give_here(lfm_mutex *mutex) {
  mutex_word word = load_mutex(mutex);
  if (!has_seat(word)) return LFM_BLANK;
  if (depth_of(own.by, word)) return LFM_HOLDING;
  forget_seat_here(find_seat_here(word));
  return LFM_DONE;
}

uint64_t lfm_takes_left(lfm_mutex *mutex) { return mutex && mutex->version ? mutex->seats * LFM_MOST_TAKES : 0; }
