/* The calls of condition variables. An lfm_condvar lies where glibc has the state of its own. Behind it glibc's flags keep
 * their place: whether it is shared between processes, and its clock.
 *
 * One that is flagged as shared is the system's, and stays so until it is initialized anew. A wait with a mutex that is
 * passed on sets that flag if nobody has waited there by the library: then all but the flags is zero. It does so before the
 * wait releases the mutex, so a thread that acquires the mutex after it finds the flag set.
 *
 * A wake that doesn't hold the mutex may come beside that change. So it loads the head of the list before the flag. If it finds
 * the head null and the flag clear, no waiter was there that it has to wake, and it does nothing. If it finds a waiter and the
 * flag clear, that waiter is one of the library, and the flag stays clear.
 *
 * A forked child lacks the threads of its parent that wait. What is listed of them lies in stacks that the child's own threads
 * get. So before a call of the child uses the list, it is made empty. That it was is seen by `used_in`. */

struct __attribute__((may_alias)) own_cond {
  lfm_condvar by;
  uint32_t used_in; /* of which process the listed waiters are, or 0 if there was none yet */
  uint32_t flags;
  uint64_t also_unused;
};
_Static_assert(sizeof(struct own_cond) == sizeof(pthread_cond_t), "it lies in its place");
_Static_assert(offsetof(struct own_cond, flags) == offsetof(pthread_cond_t, __data.__wrefs), "glibc has flags there");

/* As in glibc since 2.25, which counts waits above them. */
enum { IS_SHARED = 1, IS_MONOTONIC = 2, FLAGS = IS_SHARED | IS_MONOTONIC };

static struct own_cond *own_cond_of(pthread_cond_t *cond) { return (struct own_cond *)cond; }

FAST_PATH bool is_cond_passed_on(const struct own_cond *ours) {
  return UNLIKELY(__atomic_load_n(&ours->flags, __ATOMIC_ACQUIRE) & IS_SHARED);
}

/* Ends the program if the flags of the system's condition variables lie elsewhere, as they do since glibc 2.41: this library
 * may have been compiled with an older one. Otherwise one that is shared would be taken for one of this process. */
__attribute__((constructor(103))) static void test_flags(void) {
  enum { CANT_RUN = 127 };
  static const char told[] = "libligdrosa_pthread.so: this needs the condition variables of glibc 2.34 to 2.40\n";
  pthread_condattr_t attributes;
  pthread_cond_t cond = PTHREAD_COND_INITIALIZER;
  pthread_condattr_init(&attributes);
  pthread_condattr_setpshared(&attributes, PTHREAD_PROCESS_SHARED);
  pthread_condattr_setclock(&attributes, CLOCK_MONOTONIC);
  system_cond_init(&cond, &attributes);
  if (own_cond_of(&cond)->flags == FLAGS) return;
  syscall(SYS_write, STDERR_FILENO, told, sizeof told - 1);
  _exit(CANT_RUN);
}

/* Has the condition variable passed on if a wait has a mutex that is, and says whether the two go together. It isn't taken back
 * from the system, since another process may wait there. */
static bool settle(struct own_cond *ours, bool is_to_pass) {
  struct own_cond unused = {.flags = ours->flags & FLAGS};
  if (is_cond_passed_on(ours) == is_to_pass) return true;
  if (!is_to_pass || memcmp(ours, &unused, sizeof unused) != 0) return false;
  __atomic_or_fetch(&ours->flags, IS_SHARED, __ATOMIC_SEQ_CST);
  __atomic_thread_fence(__ATOMIC_SEQ_CST); /* before the system's own changes, in whatever order these are */
  return true;
}

/* The number of this process, which no other one has that ran the program, except by accident. */
static uint32_t this_process(void) { return process_mark | 1; }

/* The latch is held over forks, so it is free in a child, and one thread there makes the list empty. No waiter is listed
 * before. */
SLOW_PATH void begin_use(struct own_cond *ours) {
  sigset_t before;
  touch((uint32_t *)&ours->by);
  touch(&ours->used_in);
  block_signals_and_acquire(&LFM_PROCESS.latch, &before);
  if (ours->used_in != this_process()) {
    memset(&ours->by, 0, sizeof ours->by);
    __atomic_store_n(&ours->used_in, this_process(), __ATOMIC_RELEASE);
  }
  release_and_restore_signals(&LFM_PROCESS.latch, &before);
}

/* Has the list be one of waiters of this process. It is not passed on. */
FAST_PATH void use_here(struct own_cond *ours) {
  if (UNLIKELY(__atomic_load_n(&ours->used_in, __ATOMIC_ACQUIRE) != this_process())) begin_use(ours);
}

/* Begins a wait with the mutex. Returns 0 if both are ready for it, PASSED_ON, or an error. */
static int begin_wait(pthread_cond_t *cond, pthread_mutex_t *mutex) {
  struct own_mutex *with = own_of(mutex);
  return settle(own_cond_of(cond), is_passed_on(with)) ? ready_for_call(with) : EINVAL;
}

/* Waits, at most until this time if there is one, with all holds of a recursive mutex. A cancellation that was requested
 * before is acted on while the thread holds the mutex, before the wait and if its time is over. It doesn't act after a wake,
 * which would be lost. */
static int wait_until_woken(pthread_cond_t *cond, pthread_mutex_t *mutex, clockid_t clock, const struct timespec *end) {
  struct own_cond *ours = own_cond_of(cond);
  struct own_mutex *with = own_of(mutex);
  use_here(ours);
  pthread_testcancel();
  lfm_status status = end ? lfm_wait_all_holds_until_here(&ours->by, &with->by, clock, end)
                          : lfm_wait_all_holds_here(&ours->by, &with->by);
  if (status == LFM_TIMED_OUT) pthread_testcancel();
  return LIKELY(status == LFM_DONE) ? 0 : error_of(status);
}

static bool is_time(const struct timespec *time) { return time->tv_nsec >= 0 && time->tv_nsec < NANOSECONDS; }

EXPORTED int pthread_cond_init(pthread_cond_t *cond, const pthread_condattr_t *attributes) {
  if (attributes) return system_cond_init(cond, attributes);
  memset(cond, 0, sizeof *cond);
  return 0;
}

EXPORTED int pthread_cond_destroy(pthread_cond_t *cond) {
  struct own_cond *ours = own_cond_of(cond);
  if (is_cond_passed_on(ours)) return system_cond_destroy(cond);
  if (__atomic_load_n(&ours->used_in, __ATOMIC_ACQUIRE) == 0) return 0;
  use_here(ours);
  return error_of(lfm_condvar_close(&ours->by));
}

EXPORTED int pthread_cond_wait(pthread_cond_t *cond, pthread_mutex_t *mutex) {
  int error = begin_wait(cond, mutex);
  if (UNLIKELY(error)) return error == PASSED_ON ? system_cond_wait(cond, mutex) : error;
  return wait_until_woken(cond, mutex, 0, NULL);
}

EXPORTED int pthread_cond_timedwait(pthread_cond_t *cond, pthread_mutex_t *mutex, const struct timespec *end) {
  if (!is_time(end)) return EINVAL;
  int error = begin_wait(cond, mutex);
  if (UNLIKELY(error)) return error == PASSED_ON ? system_cond_timedwait(cond, mutex, end) : error;
  clockid_t clock = own_cond_of(cond)->flags & IS_MONOTONIC ? CLOCK_MONOTONIC : CLOCK_REALTIME;
  return wait_until_woken(cond, mutex, clock, end);
}

EXPORTED int pthread_cond_clockwait(pthread_cond_t *cond, pthread_mutex_t *mutex, clockid_t clock, const struct timespec *end) {
  if (!is_time(end) || (clock != CLOCK_REALTIME && clock != CLOCK_MONOTONIC)) return EINVAL;
  int error = begin_wait(cond, mutex);
  if (UNLIKELY(error)) return error == PASSED_ON ? system_cond_clockwait(cond, mutex, clock, end) : error;
  return wait_until_woken(cond, mutex, clock, end);
}

enum waker { NOBODY_WAITS, LIBRARY_WAKES, SYSTEM_WAKES };

/* Begins a wake. Returns who is to make it, or that nobody waits. */
FAST_PATH enum waker begin_wake(struct own_cond *ours) {
  bool has_waiter = __atomic_load_n(&ours->by.oldest, __ATOMIC_ACQUIRE);
  if (is_cond_passed_on(ours)) return SYSTEM_WAKES;
  if (!has_waiter) return NOBODY_WAITS;
  use_here(ours);
  return LIBRARY_WAKES;
}

EXPORTED int pthread_cond_signal(pthread_cond_t *cond) {
  struct own_cond *ours = own_cond_of(cond);
  enum waker waker = begin_wake(ours);
  if (waker == SYSTEM_WAKES) return system_cond_signal(cond);
  if (waker == LIBRARY_WAKES) lfm_wake_one(&ours->by);
  return 0;
}

EXPORTED int pthread_cond_broadcast(pthread_cond_t *cond) {
  struct own_cond *ours = own_cond_of(cond);
  enum waker waker = begin_wake(ours);
  if (waker == SYSTEM_WAKES) return system_cond_broadcast(cond);
  if (waker == LIBRARY_WAKES) lfm_wake_all(&ours->by);
  return 0;
}
