/* Pools of mutexes: opened as they are needed, and never closed. Mutexes of them are opened and closed, and participants take
 * seats in them. Who holds a mutex is not known here.
 *
 * A pool doesn't grow. When all mutexes of all pools are open, another pool is opened, with twice as many as the last one. A
 * participant has one seat in each pool. It takes them as it first calls a mutex of the pool or of a later one, and keeps them
 * for as long as the process lives: they go with its number.
 *
 * A mutex that is opened with a number that another had is the same mutex of the pool, whose run goes on. It is free then: a
 * close is refused unless nobody holds it or asks for it. The unlock that released it last has made its last step on its words
 * before a close finds its count to be 0.
 *
 * The handle of a pool and those of its seats that are not taken go from one thread to another by its latch. */

static uint32_t pool_in(mutex_word mutex) { return (uint32_t)(mutex >> 32); }
static uint32_t number_in(mutex_word mutex) { return (uint32_t)mutex; }

/* What the proved calls take for the mutex: an index from 0. */
FAST_PATH uint64_t index_of(mutex_word mutex) { return (uint32_t)mutex - UINT32_C(1); }

/* No handle comes by this load. */
FAST_PATH mutex_word load_mutex(const lfm_mutex *mutex) {
  return mutex ? (mutex_word)(uintptr_t)__atomic_load_n(&mutex->core, __ATOMIC_ACQUIRE) : 0;
}

/* Sequentially consistent, as the store in open_pool is: with it the pool's handle goes to the next thread that takes a seat. */
static struct pool *pool_at(uint32_t number) { return __atomic_load_n(&LFM_PROCESS.pools[number], __ATOMIC_SEQ_CST); }
static struct pool *pool_of(mutex_word mutex) { return pool_at(pool_in(mutex)); }
static struct mutex_info *info_of(mutex_word mutex) { return &pool_of(mutex)->infos[number_in(mutex) - 1]; }

/* Whether the mutex was opened in this process, and not in one that forked it. */
static bool is_of_process(mutex_word mutex) { return info_of(mutex)->forks == LFM_PROCESS.forks; }

/* How many seats in hand of a mutex the calling process has. A seat of its parents doesn't count: a child only forgets it. So the
 * word has the count in its lower half, and above it the forks, modulo 2^16, of the process that counted. */
enum { COUNT_BITS = 16 };
static uint32_t count_in(uint32_t in_hand) {
  return in_hand >> COUNT_BITS == (uint16_t)LFM_PROCESS.forks ? in_hand & ((1 << COUNT_BITS) - 1) : 0;
}

static uint32_t seats_in_hand(struct mutex_info *info) { return count_in(__atomic_load_n(&info->in_hand, __ATOMIC_SEQ_CST)); }

/* Counts one more. Who gives a seat back that was counted so only subtracts 1. */
static void count_in_hand(struct mutex_info *info) {
  uint32_t found = __atomic_load_n(&info->in_hand, __ATOMIC_RELAXED), next;
  do next = LFM_PROCESS.forks << COUNT_BITS | (count_in(found) + 1);
  while (!__atomic_compare_exchange_n(&info->in_hand, &found, next, false, __ATOMIC_SEQ_CST, __ATOMIC_RELAXED));
}

/* The seat of the participant in the pool of the mutex. */
FAST_PATH void *seat_in(struct participant *by, mutex_word mutex) { return by->seats[pool_in(mutex) - 1]; }

/* Opens the pool of this number. The latch is held. */
SLOW_PATH lfm_status open_pool(uint32_t number) {
  if (number > MOST_POOLS) return LFM_NO_MEMORY;
  if (lfm_c_pool_size() > POOL_BYTES || lfm_c_pool_seat_size() > SEAT_BYTES) return LFM_OTHER_HEADER;
  uint32_t mutexes = (uint32_t)LFM_FIRST_POOL << (number - 1);
  size_t bytes = offsetof(struct pool, infos) + mutexes * (sizeof(struct mutex_info) + sizeof(uint32_t)) + sizeof(uint32_t);
  struct pool *pool = (struct pool *)reserve_memory(bytes);
  if (!pool) return LFM_NO_MEMORY;
  lfm_c_blank_pool(pool->handle);
  lfm_status status = status_of(lfm_c_pool_open(pool->handle, mutexes, MOST_PARTICIPANTS));
  if (status != LFM_DONE) {
    munmap(pool, bytes);
    return status;
  }
  pool->numbers.most = mutexes;
  pool->numbers.below = (uint32_t *)&pool->infos[mutexes];
  __atomic_store_n(&LFM_PROCESS.pools[number], pool, __ATOMIC_SEQ_CST);
  __atomic_store_n(&LFM_PROCESS.count_of_pools, number, __ATOMIC_RELEASE);
  return LFM_DONE;
}

/* Opens one more pool than this number, unless another thread has. A child of a process that did not watch forks would not know
 * whose mutexes it has. */
SLOW_PATH lfm_status grow(uint32_t known) {
  lfm_status status = LFM_DONE;
  sigset_t before;
  if (!watch_forks()) return LFM_NO_MEMORY;
  block_signals_and_acquire(&LFM_PROCESS.latch, &before);
  if (LFM_PROCESS.count_of_pools == known) status = open_pool(known + 1);
  release_and_restore_signals(&LFM_PROCESS.latch, &before);
  return status;
}

/* Takes a mutex that is not open from one of the pools: its word, or 0 and the cause. */
static mutex_word take_mutex(lfm_status *cause) {
  for (;;) {
    uint32_t known = __atomic_load_n(&LFM_PROCESS.count_of_pools, __ATOMIC_ACQUIRE);
    for (uint32_t i = 1; i <= known; i++) {
      struct pool *pool = pool_at(i);
      uint32_t number = take_number(&pool->numbers);
      if (!number) continue;
      struct mutex_info *info = &pool->infos[number - 1];
      info->forks = LFM_PROCESS.forks;
      info->in_hand = 0;
      return (mutex_word)i << 32 | number;
    }
    *cause = grow(known);
    if (*cause != LFM_DONE) return 0;
  }
}

static void give_mutex(mutex_word mutex) { give_number(&pool_of(mutex)->numbers, number_in(mutex)); }

/* Takes seats for the participant in the pool of the mutex and in those before it, if it has none there. A pool has as many
 * seats as there are participants. */
static void take_seats(struct participant *by, mutex_word mutex) {
  for (; by->pools < pool_in(mutex); by->pools++) {
    void *seat = by->seats[by->pools];
    struct pool *pool = pool_at(by->pools + 1);
    sigset_t before;
    lfm_c_blank_pool_seat(seat);
    block_signals_and_acquire(&pool->latch, &before);
    lfm_c_pool_take_seat(pool->handle, seat);
    release_and_restore_signals(&pool->latch, &before);
    __atomic_store_n(&pool->of_seat[lfm_c_pool_number(seat)], by, __ATOMIC_RELEASE);
  }
  by->plain_pools = by->flags ? 0 : by->pools;
}

/* The participant that has the seat of this number in the pool of the mutex. */
static struct participant *participant_of(mutex_word mutex, uint64_t seat) {
  return __atomic_load_n(&pool_of(mutex)->of_seat[seat], __ATOMIC_ACQUIRE);
}

/* The mutex of an lfm_mutex, which is opened if it was only initialized; or 0 and the cause. Of threads that open it at the same
 * time one is first, and the others give back what they have taken. */
SLOW_PATH mutex_word open_mutex(lfm_mutex *mutex, lfm_status *cause) {
  *cause = LFM_BLANK;
  if (!mutex) return 0;
  hide(mutex, sizeof *mutex);
  mutex_word word = load_mutex(mutex);
  if (word || mutex->version == 0) return word;
  *cause = LFM_OTHER_HEADER;
  if (mutex->version / 100 != LFM_VERSION / 100) return 0;
  *cause = LFM_LIMIT;
  if (mutex->seats == 0 || mutex->seats > LFM_MOST_SEATS) return 0;
  mutex_word taken = take_mutex(cause);
  if (!taken) return 0;
  struct lfm_core *found = NULL, *next = (struct lfm_core *)(uintptr_t)taken;
  if (__atomic_compare_exchange_n(&mutex->core, &found, next, false, __ATOMIC_SEQ_CST, __ATOMIC_SEQ_CST)) return taken;
  give_mutex(taken);
  return (mutex_word)(uintptr_t)found;
}

lfm_status lfm_mutex_open(lfm_mutex *mutex, uint64_t seats, uint64_t budget, int version) {
  if (!mutex) return LFM_BLANK;
  if (mutex->core) return LFM_TAKEN;
  if (version / 100 != LFM_VERSION / 100) return LFM_OTHER_HEADER;
  if (seats == 0 || seats > LFM_MOST_SEATS || budget == 0 || budget > LFM_MOST_TAKES) return LFM_LIMIT;
  lfm_status cause;
  mutex_word taken = take_mutex(&cause);
  if (!taken) return cause;
  mutex->seats = (uint32_t)seats;
  mutex->version = LFM_VERSION;
  __atomic_store_n(&mutex->core, (struct lfm_core *)(uintptr_t)taken, __ATOMIC_RELEASE);
  return LFM_DONE;
}
