/* The calls of mutexes. What the kinds differ in is here: a mutex of Ligdrosa is recursive. So a lock sees by its answer
 * that the thread held before, and gives the second hold back if the kind doesn't allow it. */

/* The error that pthread has for a refusal. */
SLOW_PATH int error_of(lfm_status status) {
  switch (status) {
    case LFM_BUSY:
    case LFM_HOLDING:
    case LFM_WAITED_FOR: return EBUSY;
    case LFM_NO_MEMORY: return ENOMEM;
    case LFM_NO_SEAT:
    case LFM_SPENT:
    case LFM_DEPTH_FULL: return EAGAIN;
    case LFM_NOT_OWNER:
    case LFM_BLANK: return EPERM; /* of a mutex that was never locked */
    case LFM_TIMED_OUT: return ETIMEDOUT;
    default: return lfm_is_refused(status) ? EINVAL : 0;
  }
}

/* The answer of ready_for_call if the system is to make the call. It is no error number. */
enum { PASSED_ON = -1 };

SLOW_PATH int ready_now(struct own_mutex *ours) { return is_passed_on(ours) ? PASSED_ON : error_of(make_ready(ours)); }

/* Makes the mutex ready for a call. Returns 0, PASSED_ON, or an error. */
FAST_PATH int ready_for_call(struct own_mutex *ours) {
  int error = LIKELY(is_ready(ours)) ? 0 : ready_now(ours);
  if (!error) COUNT_CALL(made);
  return error;
}

/* Whether a thread that holds the mutex and locks it again waits for itself, as POSIX has it. */
static bool is_for_one_hold(const struct own_mutex *ours) {
  uint32_t kind = kind_of(ours) & KIND_BITS;
  return kind == PTHREAD_MUTEX_NORMAL || kind == PTHREAD_MUTEX_ADAPTIVE_NP;
}

/* Sleeps until the deadline, or for ever if there is none, as a thread that waits for itself. No cancellation ends it. */
static int sleep_for_itself(const struct deadline *deadline) {
  uint32_t nothing = 0;
  while (!sleep_while(&nothing, 0, deadline)) continue;
  return ETIMEDOUT;
}

/* The answer of a lock with this status, which is not LFM_DONE, and this deadline, or null if it has none. */
SLOW_PATH int end_lock(struct own_mutex *ours, lfm_status status, const struct deadline *deadline) {
  if (status != LFM_AGAIN) return error_of(status);
  if ((kind_of(ours) & KIND_BITS) == PTHREAD_MUTEX_RECURSIVE) return 0;
  lfm_unlock_here(&ours->by);
  return is_for_one_hold(ours) ? sleep_for_itself(deadline) : EDEADLK;
}

/* The system looks at a time only if it has to wait. */
static int lock_at_most_until(struct own_mutex *ours, clockid_t clock, const struct timespec *end) {
  struct deadline deadline = {0};
  lfm_status status = lfm_try_lock_here(&ours->by);
  if (status == LFM_DONE) return 0;
  bool waits = status == LFM_BUSY || (status == LFM_AGAIN && is_for_one_hold(ours));
  if (waits) deadline = deadline_at(clock, end);
  if (deadline.refused) {
    if (status == LFM_AGAIN) lfm_unlock_here(&ours->by);
    return EINVAL;
  }
  if (status == LFM_BUSY) status = lfm_try_lock_until_here(&ours->by, clock, end);
  return status == LFM_DONE ? 0 : status == LFM_BUSY ? ETIMEDOUT : end_lock(ours, status, &deadline);
}

EXPORTED int pthread_mutex_init(pthread_mutex_t *mutex, const pthread_mutexattr_t *attributes) {
  if (attributes) return system_mutex_init(mutex, attributes);
  memset(mutex, 0, sizeof *mutex);
  return 0;
}

EXPORTED int pthread_mutex_destroy(pthread_mutex_t *mutex) {
  struct own_mutex *ours = own_of(mutex);
  if (is_passed_on(ours)) return system_mutex_destroy(mutex);
  lfm_status status = ours->mark == 0 || is_ready(ours) ? LFM_DONE : make_ready(ours);
  if (status == LFM_DONE && ours->mark) status = close_and_forget(ours);
  if (status != LFM_DONE) return error_of(status);
  ours->mark = 0;
  __atomic_store_n(&ours->kind, UINT32_MAX, __ATOMIC_RELAXED);
  return 0;
}

EXPORTED int pthread_mutex_lock(pthread_mutex_t *mutex) {
  struct own_mutex *ours = own_of(mutex);
  int error = ready_for_call(ours);
  if (UNLIKELY(error)) return error == PASSED_ON ? system_mutex_lock(mutex) : error;
  lfm_status status = lfm_lock_here(&ours->by);
  return LIKELY(status == LFM_DONE) ? 0 : end_lock(ours, status, NULL);
}

EXPORTED int pthread_mutex_trylock(pthread_mutex_t *mutex) {
  struct own_mutex *ours = own_of(mutex);
  int error = ready_for_call(ours);
  if (UNLIKELY(error)) return error == PASSED_ON ? system_mutex_trylock(mutex) : error;
  lfm_status status = lfm_try_lock_here(&ours->by);
  if (LIKELY(status == LFM_DONE)) return 0;
  if (status != LFM_AGAIN) return error_of(status);
  if ((kind_of(ours) & KIND_BITS) == PTHREAD_MUTEX_RECURSIVE) return 0;
  lfm_unlock_here(&ours->by);
  return EBUSY;
}

EXPORTED int pthread_mutex_timedlock(pthread_mutex_t *mutex, const struct timespec *end) {
  struct own_mutex *ours = own_of(mutex);
  int error = ready_for_call(ours);
  if (UNLIKELY(error)) return error == PASSED_ON ? system_mutex_timedlock(mutex, end) : error;
  return lock_at_most_until(ours, CLOCK_REALTIME, end);
}

EXPORTED int pthread_mutex_clocklock(pthread_mutex_t *mutex, clockid_t clock, const struct timespec *end) {
  struct own_mutex *ours = own_of(mutex);
  if (clock != CLOCK_REALTIME && clock != CLOCK_MONOTONIC) return EINVAL;
  int error = ready_for_call(ours);
  if (UNLIKELY(error)) return error == PASSED_ON ? system_mutex_clocklock(mutex, clock, end) : error;
  return lock_at_most_until(ours, clock, end);
}

EXPORTED int pthread_mutex_unlock(pthread_mutex_t *mutex) {
  struct own_mutex *ours = own_of(mutex);
  int error = ready_for_call(ours);
  if (UNLIKELY(error)) return error == PASSED_ON ? system_mutex_unlock(mutex) : error;
  lfm_status status = lfm_unlock_here(&ours->by);
  return LIKELY(!lfm_is_refused(status)) ? 0 : error_of(status);
}

/* Other names of glibc for the same, by which old libraries call them. */
#define ALSO_NAMED(name) __asm__(".globl __" #name "\n.set __" #name ", " #name)
ALSO_NAMED(pthread_mutex_init);
ALSO_NAMED(pthread_mutex_destroy);
ALSO_NAMED(pthread_mutex_lock);
ALSO_NAMED(pthread_mutex_trylock);
ALSO_NAMED(pthread_mutex_unlock);
