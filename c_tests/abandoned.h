/* What the tests of abandoned places share: three seats in hand of a mutex, calls made by threads, and how many numbers are
 * taken. It has the C file of the library in it, and can stop a thread after its unlock, or after an exchange. */
#ifndef ABANDONED_H
#define ABANDONED_H
#define LFM_SPIN_NANOSECONDS 0
#include <sched.h>
#include <stdbool.h>
#include <stdint.h>
static uint32_t stopped_exchange(uint32_t found);
#define __atomic_exchange_n(...) stopped_exchange(__atomic_exchange_n(__VA_ARGS__))
#define lfm_c_pool_unlock stopped_unlock
#include "../c/ligdrosa.c"
#undef __atomic_exchange_n
#undef lfm_c_pool_unlock
#include "expect.h"
uint64_t lfm_c_pool_unlock(void *seat, uint64_t index);

enum { SHORT = 1000000 };
static const uint64_t LONG = 60000000000;
static lfm_mutex mutex;
static lfm_seat a, b, c;
static int is_stopped;
static _Thread_local int stop_after; /* after which call of the library's unlock from now on the thread stops, 0 for none */
static _Thread_local int stop_at_exchange; /* the thread stops after its next exchange */

static inline int seen(int *word) { return __atomic_load_n(word, __ATOMIC_SEQ_CST); }
static inline void set(int *word, int value) { __atomic_store_n(word, value, __ATOMIC_SEQ_CST); }

static void stop(void) {
  set(&is_stopped, 1);
  while (seen(&is_stopped)) sched_yield();
}

uint64_t stopped_unlock(void *seat, uint64_t index) {
  uint64_t answer = lfm_c_pool_unlock(seat, index);
  if (stop_after != 0 && --stop_after == 0) stop();
  return answer;
}

static uint32_t stopped_exchange(uint32_t found) {
  if (stop_at_exchange) {
    stop_at_exchange = 0;
    stop();
  }
  return found;
}

static inline void await_stop(void) {
  while (!seen(&is_stopped)) sched_yield();
}

/* How many numbers of participants are taken, while no call takes or gives any. */
static inline uint32_t taken_numbers(void) {
  uint32_t taken = LFM_PROCESS.numbers.used;
  for (uint32_t free = (uint32_t)LFM_PROCESS.numbers.top; free; free = LFM_PROCESS.numbers.below[free]) taken--;
  return taken;
}

static inline void unlock_it(lfm_seat *seat) { EXPECT(lfm_is_refused(lfm_unlock(seat)), false); }

/* How many deputies a participant has. */
static inline int deputies_of(const struct participant *by) {
  int count = 0;
  for (struct participant *deputy = by->deputies; deputy; deputy = deputy->next) count++;
  return count;
}

static inline bool has_abandoned(const struct participant *by, mutex_word at) {
  for (struct participant *deputy = by->deputies; deputy; deputy = deputy->next)
    if (deputy->at == at && state_of(deputy) == ABANDONED) return true;
  return false;
}

/* The time of a lock is over while it is queued, and not before, as it may on a busy machine. */
static inline void times_out(lfm_seat *seat) {
  do EXPECT(lfm_try_lock_for(seat, SHORT), LFM_BUSY);
  while (!has_abandoned(seat->by, seat->mutex));
}
static inline void times_out_here(lfm_mutex *at) {
  do EXPECT(lfm_try_lock_for_here(at, SHORT), LFM_BUSY);
  while (!has_abandoned(own.by, load_mutex(at)));
}

static uint32_t taken_before;

/* Seat `a` holds the mutex, and `b` and `c` are there. */
static inline void begin(void) {
  taken_before = taken_numbers();
  EXPECT(lfm_mutex_new(&mutex, 1, 1), LFM_DONE);
  EXPECT(lfm_seat_take(&mutex, &a), LFM_DONE);
  EXPECT(lfm_seat_take(&mutex, &b), LFM_DONE);
  EXPECT(lfm_seat_take(&mutex, &c), LFM_DONE);
  EXPECT(lfm_lock(&a), LFM_DONE);
}

/* All seats are given back, the mutex is free, and no number is lost. */
static inline void end(void) {
  lfm_seat *seats[] = {&a, &b, &c};
  for (int i = 0; i < 3; i++) {
    if (!seats[i]->by) continue;
    EXPECT(count_by(seats[i]->by, seats[i]->mutex), 0);
    EXPECT(lfm_seat_give(seats[i]), LFM_DONE);
  }
  EXPECT(lfm_mutex_close(&mutex), LFM_DONE);
  EXPECT(taken_numbers(), taken_before);
}

/* A thread that makes one call. */
typedef struct call {
  pthread_t thread;
  lfm_seat *seat;
  lfm_status (*make)(lfm_seat *);
  int stop, is_done, order;
} call;
static int acquired;
static _Thread_local call *self;

static inline void *make_call(void *at) {
  call *made = self = (call *)at;
  stop_after = made->stop;
  EXPECT(made->make(made->seat), LFM_DONE);
  set(&made->is_done, 1);
  return NULL;
}

static inline void start(call *made, lfm_seat *seat, lfm_status (*make)(lfm_seat *), int stop) {
  *made = (call){.seat = seat, .make = make, .stop = stop};
  EXPECT(pthread_create(&made->thread, NULL, make_call, made), 0);
}
static inline void join(call *made) { EXPECT(pthread_join(made->thread, NULL), 0); }

/* Waits until a thread sleeps at the bell of this participant, or of one of its deputies that is queued. */
static inline void await_sleep(const struct participant *by) {
  while (bell_of((uint32_t *)&by->bell) != LISTENED) sched_yield();
}
static inline void await_timed_sleep(const struct participant *deputy) {
  while (state_of(deputy) != TIMED) sched_yield();
  await_sleep(deputy);
}

/* Releases a mutex that was acquired, and notes how many acquired it before. */
static inline lfm_status unlocked(lfm_seat *seat, lfm_status status) {
  self->order = ++acquired;
  unlock_it(seat);
  return status;
}
static inline lfm_status lock_and_unlock(lfm_seat *seat) { return unlocked(seat, lfm_lock(seat)); }
static inline lfm_status lock_in_order_and_unlock(lfm_seat *seat) { return unlocked(seat, lfm_lock_in_order(seat)); }
static inline lfm_status lock_long(lfm_seat *seat) { return unlocked(seat, lfm_try_lock_for(seat, LONG)); }
static inline lfm_status unlock_only(lfm_seat *seat) { return lfm_is_refused(lfm_unlock(seat)) ? LFM_BLANK : LFM_DONE; }
#endif
