/* How a granted seat is woken; and deputies, by which locks with a time limit queue.
 *
 * A record can't leave the queue before its turn. So a lock with a time limit queues by the seat of a deputy: a participant that
 * the lock's own one takes for that, and uses again later. If the time is over first, the deputy has abandoned its place. Then
 * who grants it the mutex passes it by, and the own seats of the thread are never away. Locks without a time limit need no
 * deputy, and neither does one that acquires the mutex before it queues. If a deputy is granted the mutex in time, it holds the
 * mutex for its participant.
 *
 * The state of a deputy is a word. Its participant makes the steps ──►, and the thread that has to wake it ══►.
 *
 *            ask            time is over                  end of the participant
 *     RESTS ─────► TIMED ────────────────► ABANDONED ────────────────────────────► ORPHANED ═══► given back
 *      ▲ ▲          ║ ▲                       │  ║                                     ▲    passes it by
 *      ║ ╚══════════╝ └───────────────────────┘  ║ passes it by                        │
 *      ║    ring          next lock              ▼                                     │
 *      ╚═══════════════════════════════════ PASSING ───────────────────────────────────┘
 *               has passed it by                     end of the participant
 *
 * An ask that doesn't queue also goes back from TIMED to RESTS. A participant that is no deputy rests, and is rung for. Each
 * step from a state that another thread may change is a compare-and-exchange, or at the end of the participant an exchange. All
 * are sequentially consistent: the seats of the deputy go with them to the thread that passes it by, and back.
 *
 * Each grant is received by one thread. One answer of the library names the seat that it granted the mutex, so one thread has to
 * wake it. If that thread makes TIMED ══► RESTS, the step of the lock to ABANDONED fails: then the lock waits for the ring, and
 * receives. If it makes ABANDONED ══► PASSING or finds ORPHANED, no other thread touches the deputy's seats, and the waker
 * receives and unlocks at once. The answer of that unlock may name the next seat, which it wakes too. So an unlock wakes a seat
 * that waits, or leaves the mutex free or to a thread that has begun to ask.
 *
 * Each deputy is given back once. The end of the participant exchanges any state for ORPHANED. If that was RESTS, the deputy is
 * not queued, and the participant gives it back. Otherwise the thread that passes it by gives it back: its step from PASSING to
 * RESTS fails.
 *
 * No wake-up is lost. The waker tries the step from each state. It makes none only if the deputy's participant has made one
 * meanwhile, and then it tries again. Each step of the participant costs it a call of a lock, so no number bounds them.
 *
 * Nothing here waits: a deputy that is being passed by is left alone, and another one is used. */

FAST_PATH enum deputy_state state_of(const struct participant *deputy) {
  return (enum deputy_state)__atomic_load_n(&deputy->state, __ATOMIC_SEQ_CST);
}

static bool change_state(struct participant *deputy, enum deputy_state from, enum deputy_state to) {
  uint32_t found = from;
  return __atomic_compare_exchange_n(&deputy->state, &found, to, false, __ATOMIC_SEQ_CST, __ATOMIC_SEQ_CST);
}

/* Gives back a deputy that is not queued. */
static void give_deputy(struct participant *deputy) {
  __atomic_store_n(&deputy->state, RESTS, __ATOMIC_SEQ_CST);
  __atomic_sub_fetch(&LFM_PROCESS.deputies, 1, __ATOMIC_RELAXED);
  give_participant(deputy);
}

/* Wake-ups */

/* Receives the mutex for a deputy that has abandoned its place, releases it, and lets the deputy rest, or gives it back if it has
 * no participant any more. The number of the seat that is to be woken next, or 0. */
SLOW_PATH uint64_t pass_by(struct participant *deputy, mutex_word mutex) {
  void *seat = seat_in(deputy, mutex);
  lfm_c_pool_receive(seat, index_of(mutex));
  uint64_t next = lfm_c_pool_unlock(seat, index_of(mutex)) >> 8;
  if (!change_state(deputy, PASSING, RESTS)) give_deputy(deputy);
  return next;
}

/* Wakes the seat of this number, which a call of the calling thread has granted the mutex. If it is passed by, the same holds
 * of the next. */
static void wake_seat(mutex_word mutex, uint64_t number) {
  while (number) {
    struct participant *granted = participant_of(mutex, number);
    if (LIKELY(state_of(granted) == RESTS) || change_state(granted, TIMED, RESTS)) {
      ring(&granted->bell);
      return;
    }
    if (change_state(granted, ABANDONED, PASSING) || state_of(granted) == ORPHANED) number = pass_by(granted, mutex);
  }
}

/* Wakes the seat that an answer names, and returns the status. */
FAST_PATH lfm_status wake_named(mutex_word mutex, uint64_t answer) {
  if (UNLIKELY(answer > 255)) wake_seat(mutex, answer >> 8);
  return status_of(answer);
}

/* The deputies of a participant */

/* The deputy that holds the mutex, or else the participant itself, which may hold it by its own seat. */
static struct participant *holder_of(struct participant *by, mutex_word mutex) {
  struct participant *deputy = by->deputies;
  while (deputy && (deputy->at != mutex || !deputy->holds)) deputy = deputy->next;
  return deputy ? deputy : by;
}

/* Takes up the place of a deputy that has abandoned it in this mutex: the deputy, or null if there is none. */
SLOW_PATH struct participant *resumed_deputy(const struct participant *by, mutex_word mutex) {
  struct participant *deputy = by->deputies;
  while (deputy && (deputy->at != mutex || !change_state(deputy, ABANDONED, TIMED))) deputy = deputy->next;
  return deputy;
}

/* A deputy that rests, or null if there are too many. At most half of all participants are deputies: so timed locks, which leave
 * them in queues for as long as others hold, don't take the numbers of all threads. */
static struct participant *take_deputy(struct participant *by) {
  lfm_status cause;
  for (struct participant *deputy = by->deputies; deputy; deputy = deputy->next)
    if (!deputy->holds && state_of(deputy) == RESTS) return deputy;
  uint32_t count = __atomic_add_fetch(&LFM_PROCESS.deputies, 1, __ATOMIC_RELAXED);
  struct participant *deputy = count <= MOST_DEPUTIES ? take_participant(&cause) : NULL;
  if (!deputy) {
    __atomic_sub_fetch(&LFM_PROCESS.deputies, 1, __ATOMIC_RELAXED);
    return NULL;
  }
  deputy->next = by->deputies;
  by->deputies = deputy;
  return deputy;
}

/* Parts with all deputies of a participant that holds nothing. Those that are still queued, or are being passed by, are given
 * back by the threads that pass them by. */
SLOW_PATH void part_with_deputies(struct participant *by) {
  while (by->deputies) {
    struct participant *deputy = by->deputies;
    by->deputies = deputy->next;
    if (__atomic_exchange_n(&deputy->state, ORPHANED, __ATOMIC_SEQ_CST) == RESTS) give_deputy(deputy);
  }
}
