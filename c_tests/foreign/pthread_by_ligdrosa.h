/* The names of pthread_mutex_t and pthread_cond_t over ligdrosa.h, so that programs that are written for those run over
 * Ligdrosa. It is compiled into a test of one file by -include.
 *
 * Threads find their seats by themselves. Attributes are the system's own: of them only the kind of a mutex and the clock of a
 * condition variable count.
 *
 * A call that has no counterpart in Ligdrosa ends the program with status 77, and says what it would have needed. At its end a
 * program says how many calls reached Ligdrosa. */
#ifndef PTHREAD_BY_LIGDROSA_H
#define PTHREAD_BY_LIGDROSA_H
#ifndef _GNU_SOURCE
#define _GNU_SOURCE
#endif
#include <errno.h>
#include <pthread.h>
#include <stdio.h>
#include <string.h>
#include <time.h>
#include <unistd.h>

#include "ligdrosa.h"

#define OWN static __attribute__((unused))

enum { OWN_SEATS = 128, OWN_NO_COUNTERPART = 77, OWN_DESTROYED = -1 };

/* A mutex, which may also be all zero, as some tests have it. After it was destroyed its kind is OWN_DESTROYED, and a call of it
 * is refused. */
typedef struct own_mutex {
  int kind;
  lfm_mutex by;
} own_mutex;

typedef struct own_cond {
  lfm_condvar by;
  clockid_t clock;
} own_cond;

static unsigned long own_calls;

OWN int own_misses(const char *what) {
  fprintf(stderr, "no counterpart: %s\n", what);
  _exit(OWN_NO_COUNTERPART);
}

OWN __attribute__((destructor)) void own_tells(void) { fprintf(stderr, "calls of Ligdrosa: %lu\n", own_calls); }

OWN int own_errno(lfm_status status) {
  __atomic_fetch_add(&own_calls, 1, __ATOMIC_RELAXED);
  switch (status) {
    case LFM_BUSY:
    case LFM_HOLDING:
    case LFM_WAITED_FOR: return EBUSY;
    case LFM_TIMED_OUT: return ETIMEDOUT;
    case LFM_NOT_OWNER: return EPERM;
    case LFM_DEPTH_FULL: return EAGAIN;
    case LFM_NO_MEMORY: return ENOMEM;
    case LFM_NO_SEAT: return own_misses("more than 128 threads");
    default: return lfm_is_refused(status) ? EINVAL : 0;
  }
}

/* The mutex */

OWN lfm_mutex *own_by(own_mutex *mutex) {
  if (__atomic_load_n(&mutex->by.version, __ATOMIC_ACQUIRE) == 0) {
    __atomic_store_n(&mutex->by.seats, OWN_SEATS, __ATOMIC_RELAXED);
    __atomic_store_n(&mutex->by.version, LFM_VERSION, __ATOMIC_RELEASE);
  }
  return &mutex->by;
}

OWN int own_mutex_init(own_mutex *mutex, const pthread_mutexattr_t *attributes) {
  int kind = PTHREAD_MUTEX_DEFAULT, robust = PTHREAD_MUTEX_STALLED, protocol = PTHREAD_PRIO_NONE;
  if (attributes && pthread_mutexattr_gettype(attributes, &kind) != 0) return EINVAL;
  if (attributes && pthread_mutexattr_getrobust(attributes, &robust) == 0 && robust != PTHREAD_MUTEX_STALLED) return own_misses("a robust mutex");
  if (attributes && pthread_mutexattr_getprotocol(attributes, &protocol) == 0 && protocol != PTHREAD_PRIO_NONE)
    return own_misses("a mutex with a protocol of priorities");
  memset(mutex, 0, sizeof *mutex);
  mutex->kind = kind;
  return 0;
}

OWN int own_mutex_destroy(own_mutex *mutex) {
  if (mutex->kind == OWN_DESTROYED) return EINVAL;
  int status = own_errno(lfm_mutex_close(own_by(mutex)));
  if (status == 0) mutex->kind = OWN_DESTROYED;
  return status;
}

/* Whether the thread holds a mutex that it can't lock once more. */
OWN bool own_holds(own_mutex *mutex) { return mutex->kind != PTHREAD_MUTEX_RECURSIVE && lfm_depth_here(own_by(mutex)) != 0; }

OWN int own_mutex_lock(own_mutex *mutex) {
  if (mutex->kind == OWN_DESTROYED) return EINVAL;
  if (own_holds(mutex) && mutex->kind == PTHREAD_MUTEX_ERRORCHECK) return EDEADLK;
  while (own_holds(mutex)) pause(); /* a normal mutex is never gained a second time */
  return own_errno(lfm_lock_here(own_by(mutex)));
}

OWN int own_mutex_trylock(own_mutex *mutex) {
  if (mutex->kind == OWN_DESTROYED) return EINVAL;
  return own_holds(mutex) ? EBUSY : own_errno(lfm_try_lock_here(own_by(mutex)));
}

/* The system looks at a time only if it has to wait. */
OWN int own_clock_lock(own_mutex *mutex, clockid_t clock, const struct timespec *end) {
  int status = own_mutex_trylock(mutex);
  if (status != EBUSY) return status;
  if (own_holds(mutex) && mutex->kind == PTHREAD_MUTEX_ERRORCHECK) return EDEADLK;
  if (own_holds(mutex)) return clock_nanosleep(clock, TIMER_ABSTIME, end, NULL) ? EINVAL : ETIMEDOUT;
  status = own_errno(lfm_try_lock_until_here(own_by(mutex), clock, end));
  return status == EBUSY ? ETIMEDOUT : status;
}

OWN int own_timed_lock(own_mutex *mutex, const struct timespec *end) { return own_clock_lock(mutex, CLOCK_REALTIME, end); }

/* Whether another thread holds a mutex that this one doesn't hold. */
OWN bool own_is_busy(own_mutex *mutex) {
  if (lfm_try_lock_here(own_by(mutex)) == LFM_BUSY) return true;
  lfm_unlock_here(own_by(mutex));
  return false;
}

OWN int own_mutex_unlock(own_mutex *mutex) {
  if (mutex->kind == OWN_DESTROYED) return EINVAL;
  int status = own_errno(lfm_unlock_here(own_by(mutex)));
  /* the system's own normal mutex is given up by any thread */
  if (status == EPERM && mutex->kind == PTHREAD_MUTEX_NORMAL && own_is_busy(mutex)) return own_misses("an unlock by a thread that doesn't hold");
  return status;
}

/* The condition variable */

OWN int own_cond_init(own_cond *cond, const pthread_condattr_t *attributes) {
  memset(cond, 0, sizeof *cond);
  return attributes ? pthread_condattr_getclock(attributes, &cond->clock) : 0;
}

OWN int own_cond_destroy(own_cond *cond) { return own_errno(lfm_condvar_close(&cond->by)); }

OWN int own_waited(lfm_status status) {
  return status == LFM_NESTED ? own_misses("a wait with a mutex that is held more than once") : own_errno(status);
}

OWN int own_cond_wait(own_cond *cond, own_mutex *mutex) { return own_waited(lfm_wait_here(&cond->by, own_by(mutex))); }

/* The system looks at the time before it looks at the mutex. */
OWN int own_clock_wait(own_cond *cond, own_mutex *mutex, clockid_t clock, const struct timespec *end) {
  if (end->tv_nsec < 0 || end->tv_nsec >= 1000000000) return EINVAL;
  return own_waited(lfm_wait_until_here(&cond->by, own_by(mutex), clock, end));
}

OWN int own_timed_wait(own_cond *cond, own_mutex *mutex, const struct timespec *end) {
  return own_clock_wait(cond, mutex, cond->clock, end);
}

OWN int own_cond_signal(own_cond *cond) { return own_errno(lfm_wake_one(&cond->by)); }
OWN int own_cond_broadcast(own_cond *cond) { return own_errno(lfm_wake_all(&cond->by)); }

/* What has no counterpart */

OWN int own_fork(void) { return own_misses("calls from a forked child"); }
OWN int own_cancel(pthread_t thread) { return (void)thread, own_misses("a thread that is cancelled"); }
OWN int own_ceiling(own_mutex *mutex) { return (void)mutex, own_misses("a mutex with a protocol of priorities"); }

#undef PTHREAD_MUTEX_INITIALIZER
#undef PTHREAD_RECURSIVE_MUTEX_INITIALIZER_NP
#undef PTHREAD_ERRORCHECK_MUTEX_INITIALIZER_NP
#undef PTHREAD_ADAPTIVE_MUTEX_INITIALIZER_NP
#undef PTHREAD_COND_INITIALIZER
#define PTHREAD_MUTEX_INITIALIZER { PTHREAD_MUTEX_DEFAULT, { NULL, 0, 0 } }
#define PTHREAD_RECURSIVE_MUTEX_INITIALIZER_NP { PTHREAD_MUTEX_RECURSIVE, { NULL, 0, 0 } }
#define PTHREAD_ERRORCHECK_MUTEX_INITIALIZER_NP { PTHREAD_MUTEX_ERRORCHECK, { NULL, 0, 0 } }
#define PTHREAD_ADAPTIVE_MUTEX_INITIALIZER_NP PTHREAD_MUTEX_INITIALIZER
#define PTHREAD_COND_INITIALIZER { { NULL, NULL, 0, 0, 0 }, CLOCK_REALTIME }
#define pthread_mutex_t own_mutex
#define pthread_mutex_init own_mutex_init
#define pthread_mutex_destroy own_mutex_destroy
#define pthread_mutex_lock own_mutex_lock
#define pthread_mutex_trylock own_mutex_trylock
#define pthread_mutex_unlock own_mutex_unlock
#define pthread_mutex_timedlock own_timed_lock
#define pthread_mutex_clocklock own_clock_lock
#define pthread_mutex_getprioceiling(mutex, ceiling) own_ceiling(mutex)
#define pthread_mutex_setprioceiling(mutex, ceiling, old) own_ceiling(mutex)
#define pthread_mutex_consistent(mutex) own_ceiling(mutex)
#define pthread_cond_t own_cond
#define pthread_cond_init own_cond_init
#define pthread_cond_destroy own_cond_destroy
#define pthread_cond_wait own_cond_wait
#define pthread_cond_timedwait own_timed_wait
#define pthread_cond_clockwait own_clock_wait
#define pthread_cond_signal own_cond_signal
#define pthread_cond_broadcast own_cond_broadcast
#define pthread_cancel own_cancel
#define fork own_fork
#endif
