/* In which order a wait and a wake do what they do. A wait is listed before it releases the mutex, and then the list is
 * free. A wake rings after it has left the list, so that the thread that it wakes finds it free. If its caller holds the
 * mutex, it rings when the mutex is released, except for waits with a time limit. Wakes go in the order of the waits, also
 * if some waits end by time between.
 *
 * The test has the C file of the library in it, and wraps its unlocks and its calls of the system. */
#ifndef _GNU_SOURCE
#define _GNU_SOURCE
#endif
#define syscall seen_syscall
#define lfm_c_pool_unlock seen_unlock
#include "../c/ligdrosa.c"
#undef syscall
#undef lfm_c_pool_unlock
#include "expect.h"
#include <stdarg.h>
long syscall(long number, ...);
uint64_t lfm_c_pool_unlock(void *seat, uint64_t index);

enum { WAITERS = 5, SECOND = 1000000000 };
static lfm_mutex mutex = LFM_MUTEX_INIT;
static lfm_condvar condvar;
static unsigned listed_at_unlock, free_at_unlock, free_at_wake; /* how often it was so when such a call was made */
static unsigned wakes, unlocks_of_waits, turn;
static _Thread_local bool waits, wakes_others;
static unsigned returned[WAITERS], count_returned;

uint64_t seen_unlock(void *handle, uint64_t index) {
  if (waits) {
    __atomic_fetch_add(&unlocks_of_waits, 1, __ATOMIC_SEQ_CST);
    if (__atomic_load_n(&condvar.oldest, __ATOMIC_SEQ_CST)) __atomic_fetch_add(&listed_at_unlock, 1, __ATOMIC_SEQ_CST);
    if (!__atomic_load_n(&condvar.latch, __ATOMIC_SEQ_CST)) __atomic_fetch_add(&free_at_unlock, 1, __ATOMIC_SEQ_CST);
    waits = false;
  }
  return lfm_c_pool_unlock(handle, index);
}

long seen_syscall(long number, ...) {
  va_list list;
  va_start(list, number);
  void *word = va_arg(list, void *);
  long operation = va_arg(list, int), value = va_arg(list, uint32_t);
  void *time = va_arg(list, void *);
  va_end(list);
  if (number != SYS_futex) return syscall(number, word, operation, value);
  if (operation == FUTEX_PRIVATE_WAKE && wakes_others) {
    wakes++;
    if (!__atomic_load_n(&condvar.latch, __ATOMIC_SEQ_CST)) free_at_wake++;
  }
  return syscall(SYS_futex, word, operation, value, time, NULL, ~0u);
}

static void set(unsigned *word, unsigned value) { __atomic_store_n(word, value, __ATOMIC_SEQ_CST); }
static void wait_for(unsigned *word, unsigned value) {
  while (__atomic_load_n(word, __ATOMIC_SEQ_CST) != value) nap_for(NAP);
}

/* The threads wait one after another. Those with the numbers 1 and 3 wait for a short time only. */
static void wait_in_turn(unsigned thread) {
  wait_for(&turn, thread);
  EXPECT(lfm_lock_here(&mutex), LFM_DONE);
  set(&turn, thread + 1); /* the next can list its wait only after this one has released the mutex */
  waits = true;
  if (thread % 2)
    EXPECT(lfm_wait_for_here(&condvar, &mutex, SECOND / 50), LFM_TIMED_OUT);
  else
    EXPECT(lfm_wait_here(&condvar, &mutex), LFM_DONE);
  returned[count_returned] = thread;
  set(&count_returned, count_returned + 1);
  EXPECT(lfm_is_refused(lfm_unlock_here(&mutex)), false);
}

static void wake_in_turn(void) {
  wait_for(&turn, WAITERS);
  wait_for(&count_returned, WAITERS / 2); /* those whose time is over */
  wakes_others = true;
  for (unsigned i = WAITERS / 2; i < WAITERS; i++) {
    EXPECT(lfm_wake_one(&condvar), LFM_DONE);
    wait_for(&count_returned, i + 1);
  }
  EXPECT(lfm_wake_one(&condvar), LFM_NOBODY);
  EXPECT(lfm_wake_all(&condvar), LFM_NOBODY);
}

/* Lets a thread wait, and sleep, and wakes it in the hold. */
static lfm_mutex in_hand;
static lfm_seat seat;
static bool is_timed;

static void *wait_once(void *at) {
  lfm_mutex *of = (lfm_mutex *)at;
  EXPECT(lfm_lock_here(of), LFM_DONE);
  set(&turn, 1);
  EXPECT(is_timed ? lfm_wait_for_here(&condvar, of, UINT64_MAX) : lfm_wait_here(&condvar, of), LFM_DONE);
  EXPECT(lfm_is_refused(lfm_unlock_here(of)), false);
  return NULL;
}

static void hold(lfm_mutex *of) { EXPECT(of == &mutex ? lfm_lock_here(of) : lfm_lock(&seat), LFM_DONE); }
static lfm_status give_up(lfm_mutex *of) { return of == &mutex ? lfm_unlock_here(of) : lfm_unlock(&seat); }
static lfm_status wake_it(lfm_mutex *of) { return of == &mutex ? lfm_wake_one(&condvar) : lfm_wake_one_by(&condvar, &seat); }

/* How many rings woke it before the mutex was released. */
static unsigned rings_in_the_hold(lfm_mutex *of, bool timed) {
  pthread_t thread;
  is_timed = timed;
  set(&turn, 0);
  EXPECT(pthread_create(&thread, NULL, wait_once, of), 0);
  wait_for(&turn, 1);
  hold(of); /* it has been listed */
  while (bell_of(&condvar.oldest->bell) != LISTENED) nap_for(NAP);
  EXPECT(of == &mutex ? lfm_lock_here(of) : lfm_lock(&seat), LFM_AGAIN);
  unsigned before = wakes;
  EXPECT(wake_it(of), LFM_DONE);
  EXPECT(give_up(of), LFM_STILL);
  unsigned rung = wakes - before;
  EXPECT(lfm_is_refused(give_up(of)), false);
  EXPECT(wakes - before >= 1, true);
  EXPECT(pthread_join(thread, NULL), 0);
  return rung;
}

static void wakes_in_the_hold(void) {
  wakes_others = true;
  EXPECT(lfm_mutex_new(&in_hand, 4, 100), LFM_DONE);
  EXPECT(lfm_seat_take(&in_hand, &seat), LFM_DONE);
  for (int i = 0; i < 5; i++) {
    EXPECT(rings_in_the_hold(&mutex, false), 0);
    EXPECT(rings_in_the_hold(&in_hand, false), 0);
    EXPECT(rings_in_the_hold(&mutex, true), 1);
    EXPECT(rings_in_the_hold(&in_hand, true), 1);
  }
  EXPECT(lfm_seat_give(&seat), LFM_DONE);
  EXPECT(lfm_mutex_close(&in_hand), LFM_DONE);
}

static void work(unsigned thread) {
  if (thread == WAITERS)
    wake_in_turn();
  else
    wait_in_turn(thread);
}

int main(void) {
  in_threads(WAITERS + 1, work);
  EXPECT(unlocks_of_waits, WAITERS);
  EXPECT(listed_at_unlock, WAITERS);
  EXPECT(free_at_unlock, WAITERS);
  EXPECT(wakes != 0, true); /* each most probably waits long enough to sleep */
  EXPECT(free_at_wake, wakes);
  for (unsigned i = 0; i < WAITERS / 2; i++) EXPECT(returned[i] % 2, 1);
  for (unsigned i = WAITERS / 2; i < WAITERS; i++) EXPECT(returned[i], 2 * (i - WAITERS / 2));
  wakes_in_the_hold();
  EXPECT(lfm_condvar_close(&condvar), LFM_DONE);
  return 0;
}
