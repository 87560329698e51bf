/* Participants: taken and given back. Who uses one, and for what, is decided in deputies.h, threads.h and hand.h.
 *
 * There are at most 4,095 at a time in a process. A participant that is given back holds nothing and is in no call, so its seats
 * rest in all mutexes, and whoever takes its number goes on with them. Its memory is never given back: a thread that has made
 * the exchange of a ring may still make its call of the system, by the address alone. */

static uint8_t watch_flag(void) { return __tsan_acquire || IS_IN_VALGRIND ? IS_WATCHED : 0; }

/* Reserves the memory of all participants: addresses, of which only those that are used take memory. The latch is held. */
SLOW_PATH bool reserve_participants(void) {
  size_t bytes = (MOST_PARTICIPANTS + 1) * (sizeof(struct participant) + sizeof(uint32_t));
  struct participant *made = (struct participant *)reserve_memory(bytes);
  if (!made) return false;
  LFM_PROCESS.numbers.most = MOST_PARTICIPANTS;
  LFM_PROCESS.numbers.below = (uint32_t *)&made[MOST_PARTICIPANTS + 1];
  __atomic_store_n(&LFM_PROCESS.participants, made, __ATOMIC_RELEASE);
  return true;
}

/* The memory of all participants, or null if it is refused. */
static struct participant *all_participants(void) {
  struct participant *found = __atomic_load_n(&LFM_PROCESS.participants, __ATOMIC_ACQUIRE);
  sigset_t before;
  if (LIKELY(found)) return found;
  block_signals_and_acquire(&LFM_PROCESS.latch, &before);
  bool is_there = LFM_PROCESS.participants || reserve_participants();
  release_and_restore_signals(&LFM_PROCESS.latch, &before);
  return is_there ? LFM_PROCESS.participants : NULL;
}

/* Takes a participant, or null and the cause. */
static struct participant *take_participant(lfm_status *cause) {
  struct participant *all = all_participants();
  *cause = LFM_NO_MEMORY;
  if (!all) return NULL;
  *cause = LFM_NO_SEAT;
  uint32_t number = take_number(&LFM_PROCESS.numbers);
  if (!number) return NULL;
  struct participant *by = &all[number];
  by->number = (uint16_t)number;
  by->flags = watch_flag();
  by->plain_pools = by->flags ? 0 : by->pools;
  by->spin_credit = 0;
  by->waits = 0;
  return by;
}

/* Gives a participant back that holds nothing and has no deputies. */
static void give_participant(struct participant *by) { give_number(&LFM_PROCESS.numbers, by->number); }
