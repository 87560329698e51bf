/* Sleeping on a word and waking a sleeper, by the system; clocks, and deadlines of timed calls. No word of the library is
 * known here: what a word means is said in bell.h, latch.h and condvar.h. */

enum { FUTEX_PRIVATE_WAIT = 128, FUTEX_PRIVATE_WAKE = 129, FUTEX_PRIVATE_WAKE_OP = 133, FUTEX_PRIVATE_WAIT_UNTIL = 137 };
enum { FUTEX_BY_REALTIME = 256 };
enum { NANOSECONDS = 1000000000 };

/* Until when a timed call waits. */
struct deadline {
  lfm_status refused; /* why the time that a caller gave is refused, or LFM_DONE */
  int clock;
  struct timespec time;
};

/* A call of futex that leaves errno as it was: whether its time was over. It is no cancellation point. */
static bool futex(uint32_t *word, int operation, uint32_t value, const struct timespec *time) {
  int before = errno;
  bool is_over = syscall(SYS_futex, word, operation, value, time, NULL, ~0u) == -1 && errno == ETIMEDOUT;
  errno = before;
  return is_over;
}

/* Sleeps while the word has this value, at most until the deadline if there is one: whether that is over. */
static bool sleep_while(uint32_t *word, uint32_t value, const struct deadline *deadline) {
  if (!deadline) return futex(word, FUTEX_PRIVATE_WAIT, value, NULL);
  int clock = deadline->clock == LFM_REALTIME ? FUTEX_BY_REALTIME : 0;
  return futex(word, FUTEX_PRIVATE_WAIT_UNTIL | clock, value, &deadline->time);
}

static void wake_sleeper(uint32_t *word) { futex(word, FUTEX_PRIVATE_WAKE, 1, NULL); }

/* A word that the system changes from one value to another, both below 2^11. */
struct change {
  uint32_t *word;
  uint32_t from, to;
};

/* A call of futex (FUTEX_WAKE_OP) that leaves errno as it was. The system exchanges what is in the changed word for the new
 * value. Then it wakes a sleeper at the other word, and if it found the value that is changed from, also one at the changed
 * word. The error with which it fails, or 0. */
static int wake_and_change(uint32_t *word, struct change change) {
  int before = errno;
  uint32_t operation = change.to << 12 | change.from; /* FUTEX_OP_SET, and FUTEX_OP_CMP_EQ for the second wake */
  int error = syscall(SYS_futex, word, FUTEX_PRIVATE_WAKE_OP, 1, 1ul, change.word, operation) == -1 ? errno : 0;
  errno = before;
  return error;
}

/* Whether the system has refused that. Linux has had it since 2.6.14, but a sandbox or an emulator may not have it. */
static bool is_change_refused;

/* The same: whether the word was changed. If the call fails, another one, with words of its own, tells whether the system
 * refuses all such calls. If it doesn't, EINVAL says that it has made the change, and no wake: at `word` it found a sleeper
 * of another kind, as of a mutex with priority inheritance that lies in the same memory now. Then nobody sleeps at `word`
 * for this library, and only a sleeper at the changed word is to be woken. */
static bool wake_sleeper_and_change(uint32_t *word, struct change change) {
  if (__atomic_load_n(&is_change_refused, __ATOMIC_RELAXED)) return false;
  int error = wake_and_change(word, change);
  if (error == 0) return true;
  uint32_t own[2] = {0};
  bool is_refused = wake_and_change(&own[0], (struct change){&own[1], 1, 1});
  if (is_refused) __atomic_store_n(&is_change_refused, true, __ATOMIC_RELAXED);
  if (is_refused || error != EINVAL) return false;
  wake_sleeper(change.word);
  return true;
}

/* Sleeps for this many nanoseconds, less than a second, or less if a signal comes. */
static void nap_for(uint64_t nanoseconds) {
  uint32_t nothing = 0;
  struct timespec time = {0, (long)nanoseconds};
  futex(&nothing, FUTEX_PRIVATE_WAIT, 0, &time);
}

/* Tells the processor this many times that its thread waits in a loop. */
static void pause_for(int pauses) {
  for (int i = 0; i < pauses; i++) {
#if defined(__x86_64__)
    __builtin_ia32_pause();
#elif defined(__aarch64__)
    __asm__ volatile("yield");
#else
    __asm__ volatile("" ::: "memory");
#endif
  }
}

static struct timespec time_of(int clock) {
  struct timespec now;
  clock_gettime(clock, &now);
  return now;
}

/* The time on a clock that is never set. */
static uint64_t nanoseconds(void) {
  struct timespec now = time_of(CLOCK_MONOTONIC);
  return (uint64_t)now.tv_sec * NANOSECONDS + (uint64_t)now.tv_nsec;
}

/* How many nanoseconds are left until the deadline, or a second if it is more. */
static uint64_t time_left(const struct deadline *deadline) {
  struct timespec now = time_of(deadline->clock);
  if (deadline->time.tv_sec > now.tv_sec + 1) return NANOSECONDS;
  if (deadline->time.tv_sec < now.tv_sec) return 0;
  int64_t left = (deadline->time.tv_sec - now.tv_sec) * NANOSECONDS + deadline->time.tv_nsec - now.tv_nsec;
  return left < 0 ? 0 : left < NANOSECONDS ? (uint64_t)left : NANOSECONDS;
}

/* The deadline that lies this far ahead. 2^64 nanoseconds are less than 600 years, so the sum is no greater than a
 * time_t. */
static struct deadline deadline_after(uint64_t ahead) {
  struct deadline deadline = {LFM_DONE, CLOCK_MONOTONIC, time_of(CLOCK_MONOTONIC)};
  deadline.time.tv_sec += (time_t)(ahead / NANOSECONDS);
  deadline.time.tv_nsec += (long)(ahead % NANOSECONDS);
  if (deadline.time.tv_nsec >= NANOSECONDS) {
    deadline.time.tv_sec++;
    deadline.time.tv_nsec -= NANOSECONDS;
  }
  return deadline;
}

/* The deadline that a caller gives, which may be refused. The system refuses times before 0, which are over. */
static struct deadline deadline_at(int clock, const struct timespec *time) {
  if (!time) return (struct deadline){.refused = LFM_BLANK};
  bool is_clock = clock == LFM_REALTIME || clock == LFM_MONOTONIC;
  if (!is_clock || time->tv_nsec < 0 || time->tv_nsec >= NANOSECONDS) return (struct deadline){.refused = LFM_LIMIT};
  return (struct deadline){LFM_DONE, clock, time->tv_sec < 0 ? (struct timespec){0, 0} : *time};
}
