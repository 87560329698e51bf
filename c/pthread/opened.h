/* Which mutex of the library belongs to which pthread_mutex_t. It is opened by the first call that needs it.
 *
 * An lfm_mutex lies in the bytes of a pthread_mutex_t in which glibc has the list of robust mutexes and of those with a
 * protocol of priorities. Such mutexes are passed on, so glibc never reads these bytes of the others. The kind keeps its
 * place, where constants and pthread_mutex_init write it. Before it lies what glibc changes in a lock: zero, so glibc's own
 * calls find a mutex that is free. After it lies a mark.
 *
 * The mark says that the mutex is open: it was made of the address, and of a number that each program draws as it begins, and
 * each forked child draws anew. So a call sees by one comparison whether the mutex is open in this process and in this place.
 * Otherwise it is
 *
 *   - zero, as it was initialized;
 *   - or one of the parent, which a forked child makes new (lfm_after_fork);
 *   - or a copy of another one, which POSIX doesn't allow, but works in glibc. It gets a mutex of its own, unless it is copied
 *     back to a place where the mutex was destroyed meanwhile;
 *   - or one of an earlier run, or of another child, in memory that was stored and is mapped at the same address. It gets one
 *     too.
 *
 * Many mutexes are never destroyed: the destructor of std::mutex doesn't. So a table says which mutex was opened at which
 * address. If another mutex is opened there, the one before is closed. So there are at most as many open ones as addresses
 * at which mutexes have ever been. */

struct __attribute__((may_alias)) own_mutex {
  uint64_t of_system[2];
  uint32_t kind;
  uint32_t mark;
  lfm_mutex by;
};
_Static_assert(sizeof(struct own_mutex) <= sizeof(pthread_mutex_t), "it lies in its place");
_Static_assert(offsetof(struct own_mutex, kind) == offsetof(pthread_mutex_t, __data.__kind), "the kind is glibc's own");
_Static_assert(offsetof(struct own_mutex, by) == offsetof(pthread_mutex_t, __data.__list), "glibc has a list there");

/* In the kind: the one of four, and two flags of glibc on transactional memory. Other flags are of mutexes that are passed
 * on, and all are set when a mutex was destroyed. */
enum { KIND_BITS = 3, OWN_BITS = KIND_BITS | 256 | 512 };

static uint32_t process_mark;

static struct own_mutex *own_of(pthread_mutex_t *mutex) { return (struct own_mutex *)mutex; }

FAST_PATH uint32_t mark_of(const struct own_mutex *mutex) {
  uint64_t mixed = (uintptr_t)mutex * UINT64_C(0x9E3779B97F4A7C15);
  return ((uint32_t)(mixed >> 32) ^ process_mark) | 1;
}

FAST_PATH uint32_t kind_of(const struct own_mutex *mutex) { return __atomic_load_n(&mutex->kind, __ATOMIC_RELAXED); }

FAST_PATH bool is_passed_on(const struct own_mutex *mutex) { return kind_of(mutex) & ~(uint32_t)OWN_BITS; }

/* Whether it is open, and not passed on. */
FAST_PATH bool is_ready(const struct own_mutex *mutex) {
  return LIKELY(__atomic_load_n(&mutex->mark, __ATOMIC_ACQUIRE) == mark_of(mutex)) && !is_passed_on(mutex);
}

/* The table: by an address, what was in `core` there. Each lies in the first free place from that of its hash on, so there
 * is no free place between. The latch is held for what finds and changes them. */

struct opening {
  struct own_mutex *at; /* null in a free place */
  struct lfm_core *core;
};

static struct {
  struct opening *all;
  size_t room; /* a power of two, or 0 */
  size_t count;
  uint32_t latch;
} opened;

static size_t place_of(const struct own_mutex *mutex) {
  return (size_t)(((uintptr_t)mutex >> 3) * UINT64_C(0x9E3779B97F4A7C15) >> 20) & (opened.room - 1);
}

static size_t next_place(size_t place) { return (place + 1) & (opened.room - 1); }

/* The place of this address, or the free one where it may lie. The table has one. */
static struct opening *find_opening(const struct own_mutex *mutex) {
  size_t place = place_of(mutex);
  while (opened.all[place].at && opened.all[place].at != mutex) place = next_place(place);
  return &opened.all[place];
}

/* Makes a place free, and moves those after it that would not be found then. */
static void free_opening(struct opening *opening) {
  size_t hole = (size_t)(opening - opened.all);
  for (size_t place = next_place(hole); opened.all[place].at; place = next_place(place)) {
    size_t from_wanted = (place - place_of(opened.all[place].at)) & (opened.room - 1);
    if (from_wanted < ((place - hole) & (opened.room - 1))) continue;
    opened.all[hole] = opened.all[place];
    hole = place;
  }
  opened.all[hole].at = NULL;
  opened.count--;
}

/* Makes room for one more, so that at least half of the places stay free: whether there is memory. */
static bool make_room(void) {
  enum { FIRST_ROOM = 1024 };
  if (2 * (opened.count + 1) <= opened.room) return true;
  struct opening *old = opened.all;
  size_t old_room = opened.room, room = old_room ? 2 * old_room : FIRST_ROOM;
  struct opening *all = (struct opening *)reserve_memory(room * sizeof *all);
  if (!all) return false;
  opened.all = all;
  opened.room = room;
  for (size_t i = 0; i < old_room; i++)
    if (old[i].at) *find_opening(old[i].at) = old[i];
  if (old) munmap(old, old_room * sizeof *old);
  return true;
}

/* Opens the mutex anew. What was open in its place before is closed, unless a thread still holds it. */
static lfm_status open_anew(struct own_mutex *mutex, struct opening *opening) {
  if (opening->at) {
    lfm_mutex before = {opening->core, LFM_USUAL_SEATS, LFM_VERSION};
    lfm_mutex_close(&before);
    free_opening(opening);
  }
  mutex->by = (lfm_mutex){NULL, 0, 0};
  return lfm_mutex_new(&mutex->by, LFM_USUAL_SEATS, LFM_MOST_TAKES);
}

/* Has it in this process what it was in the parent. If another thread held it there, it stays held for ever. */
static lfm_status take_over(struct own_mutex *mutex) {
  lfm_status status = lfm_after_fork(&mutex->by, NULL);
  return status == LFM_BUSY ? LFM_DONE : status;
}

static lfm_status open_here(struct own_mutex *mutex) {
  if (is_ready(mutex)) return LFM_DONE;
  bool is_listed = opened.room && find_opening(mutex)->at;
  if (!is_listed && !make_room()) return LFM_NO_MEMORY;
  struct opening *opening = find_opening(mutex);
  bool is_known = opening->at && opening->core == mutex->by.core;
  lfm_status status = is_known ? take_over(mutex) : open_anew(mutex, opening);
  if (status != LFM_DONE) return status;
  opening = find_opening(mutex);
  if (!opening->at) opened.count++;
  *opening = (struct opening){mutex, mutex->by.core};
  __atomic_store_n(&mutex->mark, mark_of(mutex), __ATOMIC_RELEASE);
  return LFM_DONE;
}

/* The number of this program, drawn by the system, or made of the time if it draws none yet. */
static uint32_t draw_mark(void) {
  uint32_t drawn;
  int before = errno;
  bool is_drawn = syscall(SYS_getrandom, &drawn, sizeof drawn, GRND_NONBLOCK) == sizeof drawn;
  errno = before;
  return is_drawn ? drawn : (uint32_t)nanoseconds();
}

/* Forks: the latch is held over them, and a child has another mark. Mutexes that the forking thread holds are made new at
 * once, by that thread: otherwise the first call of one might be another thread's, for which it would stay held for ever. The
 * library's own handlers are made before, so its latches are taken last and released first. */

static sigset_t blocked_before_opened;

static void hold_opened(void) { hold_over_fork(&opened.latch, &blocked_before_opened); }
static void release_opened(void) { release_after_fork(&opened.latch, &blocked_before_opened); }

/* Whether the word may be read and written. The system is asked to add 0 to it: a child has no sleeper that this could wake. If
 * it refuses all such calls, the word is only read, by a wait that ends at once. */
static bool is_writable(uint32_t *word) {
  enum { ADD_0 = 1 << 28 | 2 << 24 }; /* FUTEX_OP_ADD, and FUTEX_OP_CMP_LT with 0 for the second wake */
  struct timespec at_once = {0, 0};
  uint32_t nothing = 0;
  int before = errno;
  long status = syscall(SYS_futex, &nothing, FUTEX_PRIVATE_WAKE_OP, 1, 0ul, word, ADD_0);
  if (status == -1 && errno != EFAULT) status = syscall(SYS_futex, word, FUTEX_PRIVATE_WAIT, 0, &at_once);
  bool is_refused = status == -1 && errno == EFAULT;
  errno = before;
  return !is_refused;
}

/* Writes to the word what is there. If its memory is write-protected, a handler of SIGSEGV acts now, and not under a latch. */
static void touch(uint32_t *word) {
  uint32_t found = __atomic_load_n(word, __ATOMIC_RELAXED);
  __atomic_compare_exchange_n(word, &found, found, false, __ATOMIC_RELAXED, __ATOMIC_RELAXED);
}

/* Whether the mutex of this opening still lies there, and may be changed. A program may have freed the memory of a mutex that it
 * holds: the system may have it back, or it may have other contents. */
static bool is_in_place(const struct opening *opening) {
  struct own_mutex *mutex = opening->at;
  for (uint32_t *word = &mutex->mark; word < (uint32_t *)(mutex + 1); word++)
    if (!is_writable(word)) return false;
  return mutex->mark == mark_of(mutex) && mutex->by.core == opening->core;
}

/* Makes the mutex of this opening new if the calling thread holds it. If there is no memory, its next call tries again. */
static void take_over_held(struct opening *opening) {
  if (!opening->at || !depth_of(own.by, (mutex_word)(uintptr_t)opening->core) || !is_in_place(opening)) return;
  take_over(opening->at);
  opening->core = opening->at->by.core;
}

/* The new mark differs from that of the parent in a bit that counts, and from those of its other children except by accident. */
static void begin_child(void) {
  for (size_t i = 0; own.by->holds && i < opened.room; i++) take_over_held(&opened.all[i]);
  process_mark += 2 | draw_mark() << 2;
  release_opened();
}

/* The mark is drawn before the first mutex is opened, while the program has one thread. If the system had no memory for the
 * handlers then, they are tried again, and the mark stays. */
__attribute__((constructor(102))) static void prepare_for_forks(void) {
  static bool is_made;
  watch_forks();
  if (__atomic_exchange_n(&is_made, true, __ATOMIC_SEQ_CST)) return;
  if (!process_mark) process_mark = draw_mark();
  if (pthread_atfork(hold_opened, release_opened, begin_child) != 0) __atomic_store_n(&is_made, false, __ATOMIC_SEQ_CST);
}

/* Acquires the latch, with signals blocked, as for a latch of the process. Nothing under it may call malloc: that may lock a
 * mutex which is not open yet. So the handlers of forks are made before, and the calling thread has its participant. */
static lfm_status acquire_opened(sigset_t *before) {
  lfm_status cause = LFM_DONE;
  prepare_for_forks();
  if (!take_own(&cause)) return cause;
  block_signals_and_acquire(&opened.latch, before);
  return LFM_DONE;
}

/* Opens the mutex, which is not passed on, if it isn't open in this process and place. */
SLOW_PATH lfm_status make_ready(struct own_mutex *mutex) {
  sigset_t before;
  touch(&mutex->mark);
  touch((uint32_t *)(mutex + 1) - 1);
  lfm_status status = acquire_opened(&before);
  if (status != LFM_DONE) return status;
  status = open_here(mutex);
  release_and_restore_signals(&opened.latch, &before);
  return status;
}

static lfm_status close_and_forget(struct own_mutex *mutex) {
  sigset_t before;
  lfm_status status = acquire_opened(&before);
  if (status != LFM_DONE) return status;
  status = lfm_mutex_close(&mutex->by);
  struct opening *opening = find_opening(mutex);
  if (status == LFM_DONE && opening->at) free_opening(opening);
  release_and_restore_signals(&opened.latch, &before);
  return status;
}
