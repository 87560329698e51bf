/* How a mutex is closed, and what a forked child does with the mutexes of its parent.
 *
 * A child has the pools of its parent as they were at the fork, and one of its threads. The other threads make no further step:
 * to the core they are threads that are late for ever. So the child goes on with each mutex that none of them held or asked for.
 * Of one that the forking thread held, lfm_after_fork takes another in its place if others had asked for it: they would be
 * granted it in their turn. */

#define IS_UNKNOWN UINT64_MAX

static bool has_participants(void) { return __atomic_load_n(&LFM_PROCESS.participants, __ATOMIC_ACQUIRE); }

/* How many seats hold the mutex or ask for it, by the calling thread's participant. If it gets none, that is not known, unless
 * there is no participant at all. It tries twice, since another thread may have got the memory that was refused. */
static uint64_t count_here(mutex_word mutex) {
  lfm_status cause;
  struct participant *by = take_own(&cause);
  if (!by && !has_participants()) return 0;
  if (!by) by = take_own(&cause);
  if (!by) return IS_UNKNOWN;
  take_seats(by, mutex);
  uint64_t count = count_by(by, mutex);
  end_here(by, LFM_DONE);
  return count;
}

/* The number goes to another mutex only if nobody is seen to hold this one: a child forgets one that threads of its parent
 * hold. The mutex is cleared before that: if another thread forks in between, a close by the child must not give the number
 * back once more. */
lfm_status lfm_mutex_close(lfm_mutex *mutex) {
  if (!mutex || mutex->version == 0) return LFM_BLANK;
  mutex_word word = load_mutex(mutex);
  uint64_t count = word ? count_here(word) : IS_UNKNOWN;
  if (word) {
    if (seats_in_hand(info_of(word))) return LFM_NOT_BACK;
    bool is_held = is_of_process(word) ? count && count != IS_UNKNOWN : depth_of(own.by, word) != 0;
    if (is_held) return LFM_HOLDING;
    forget_seat_here(find_seat_here(word));
  }
  memset(mutex, 0, sizeof *mutex);
  if (count == 0) give_mutex(word);
  return LFM_DONE;
}

/* Makes a seat in hand of the parent, or null, one of the child's of this mutex. */
static void take_over_seat(lfm_seat *seat, mutex_word word) {
  if (!seat) return;
  bool is_counted = seat->is_of_library || (seat->mutex == word && seat->forks == LFM_PROCESS.forks);
  seat->mutex = word;
  seat->forks = LFM_PROCESS.forks;
  if (!is_counted) count_in_hand(info_of(word));
}

/* Takes another mutex in place of this one, which the participant holds as often then, by its own seat. */
static lfm_status replace_mutex(lfm_mutex *mutex, struct participant *by, uint64_t depth, lfm_seat *seat) {
  lfm_status cause;
  mutex_word taken = take_mutex(&cause);
  if (!taken) return cause;
  struct participant *holder = holder_of(by, load_mutex(mutex));
  if (holder != by) holder->holds = 0;
  take_seats(by, taken);
  for (uint64_t i = 0; i < depth; i++) try_by(by, taken);
  mutex->core = (struct lfm_core *)(uintptr_t)taken;
  take_over_seat(seat, taken);
  return LFM_DONE;
}

/* Makes a mutex of the parent one of the child, or takes another in its place if other seats asked for it. */
static lfm_status renew_mutex(lfm_mutex *mutex, struct participant *by, lfm_seat *seat) {
  mutex_word word = load_mutex(mutex);
  uint64_t depth = depth_of(by, word), others = count_by(by, word) - (depth != 0);
  if (depth == 0 && others) return LFM_BUSY;
  if (by->unrung_at == word) by->unrung = NULL; /* those waiters are threads of the parent */
  if (others) return replace_mutex(mutex, by, depth, seat);
  take_over_seat(seat, word);
  info_of(word)->forks = LFM_PROCESS.forks;
  return LFM_DONE;
}

/* If the mutex is new already, a seat in hand that was taken in a process which forked this one is refused. */
lfm_status lfm_after_fork(lfm_mutex *mutex, lfm_seat *seat) {
  lfm_status cause;
  if (!mutex || mutex->version == 0 || (seat && !seat->by)) return LFM_BLANK;
  mutex_word word = load_mutex(mutex);
  if (seat && seat->mutex != word) return LFM_FOREIGN;
  if (!word) return LFM_DONE;
  if (is_of_process(word)) return seat && !seat->is_of_library && seat->forks != LFM_PROCESS.forks ? LFM_FOREIGN : LFM_DONE;
  struct participant *by = seat ? seat->by : take_own(&cause);
  if (!by) return cause;
  take_seats(by, word);
  cause = renew_mutex(mutex, by, seat ? seat : find_seat_here(word));
  return seat ? cause : end_here(by, cause);
}
