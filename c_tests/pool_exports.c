/* The exports of a pool of mutexes, of which the calls of ligdrosa.h are made: what each answers, with one thread, and that no
 * two threads hold one mutex, with two and with four. No thread sleeps here: one whose seat sleeps tries to receive until it
 * has been granted the mutex. */
#define _GNU_SOURCE
#include "expect.h"
#include <sched.h>
#include "../c/parts/proved.h"

enum { MUTEXES = 3, MOST_DEPTH = 65535, ROUNDS = 20000, MOST_THREADS = 4, NO_MUTEX = MUTEXES };

/* No pool is closed, so the handles stay where a search for leaks finds them. */
enum { MOST_ROOMS = LFM_MOST_SEATS + 1024 };
static void *rooms[MOST_ROOMS];
static unsigned count_of_rooms;

static void *room_for(size_t size, size_t align) {
  EXPECT(count_of_rooms < MOST_ROOMS, true);
  void **room = &rooms[count_of_rooms++];
  EXPECT(posix_memalign(room, align < sizeof(void *) ? sizeof(void *) : align, size), 0);
  return *room;
}

static void *blank_pool(void) {
  void *pool = room_for(lfm_c_pool_size(), lfm_c_pool_align());
  lfm_c_blank_pool(pool);
  return pool;
}

static void *blank_seat(void) {
  void *seat = room_for(lfm_c_pool_seat_size(), lfm_c_pool_seat_align());
  lfm_c_blank_pool_seat(seat);
  return seat;
}

static void *open_pool(uint64_t mutexes, uint64_t seats) {
  void *pool = blank_pool();
  EXPECT(lfm_c_pool_open(pool, mutexes, seats), LFM_DONE);
  return pool;
}

static void *taken_seat(void *pool) {
  void *seat = blank_seat();
  EXPECT(lfm_c_pool_take_seat(pool, seat), LFM_DONE);
  return seat;
}

/* Each call of the seat in this mutex answers this status. */
static void refuses(void *seat, uint64_t mutex, lfm_status status) {
  EXPECT(lfm_c_pool_try_lock(seat, mutex), status);
  EXPECT(lfm_c_pool_ask(seat, mutex), status);
  EXPECT(lfm_c_pool_receive(seat, mutex), status);
  EXPECT(lfm_c_pool_unlock(seat, mutex), status);
  EXPECT(lfm_c_pool_depth(seat, mutex), 0);
  EXPECT(lfm_c_pool_count(seat, mutex), 0);
}

static void opens_and_refuses(void) {
  void *pool = blank_pool(), *seat = blank_seat();
  refuses(seat, 0, LFM_BLANK);
  EXPECT(lfm_c_pool_number(seat), 0);
  EXPECT(lfm_c_pool_take_seat(pool, seat), LFM_BLANK);
  EXPECT(lfm_c_pool_open(pool, 0, 1), LFM_LIMIT);
  EXPECT(lfm_c_pool_open(pool, (uint64_t)1 << 32, 1), LFM_LIMIT);
  EXPECT(lfm_c_pool_open(pool, 1, 0), LFM_LIMIT);
  EXPECT(lfm_c_pool_open(pool, 1, LFM_MOST_SEATS + 1), LFM_LIMIT);
  EXPECT(lfm_c_pool_open(pool, MUTEXES, 2), LFM_DONE);
  EXPECT(lfm_c_pool_open(pool, MUTEXES, 2), LFM_TAKEN);
  EXPECT(lfm_c_pool_take_seat(pool, seat), LFM_DONE);
  EXPECT(lfm_c_pool_take_seat(pool, seat), LFM_TAKEN);
  EXPECT(lfm_c_pool_number(seat), 2);
  refuses(seat, NO_MUTEX, LFM_LIMIT);
  refuses(seat, UINT64_MAX, LFM_LIMIT);
  EXPECT(lfm_c_pool_number(taken_seat(pool)), 1);
  EXPECT(lfm_c_pool_take_seat(pool, blank_seat()), LFM_NO_SEAT);
}

/* Of a pool of any size the seats are taken with the numbers 2, 3 and so on, and then 1. Each works. */
static void takes_each_seat(uint64_t seats) {
  void *pool = open_pool(1, seats), *last = NULL;
  for (uint64_t taken = 1; taken <= seats; taken++) {
    void *seat = taken_seat(pool);
    EXPECT(lfm_c_pool_number(seat), taken < seats ? taken + 1 : 1);
    EXPECT(lfm_c_pool_try_lock(seat, 0), LFM_DONE);
    if (last) EXPECT(lfm_c_pool_try_lock(last, 0), LFM_BUSY);
    EXPECT(lfm_c_pool_unlock(seat, 0), LFM_DONE);
    last = seat;
  }
  void *seat = blank_seat();
  EXPECT(lfm_c_pool_take_seat(pool, seat), LFM_NO_SEAT);
  EXPECT(lfm_c_pool_take_seat(pool, seat), LFM_NO_SEAT);
  EXPECT(lfm_c_pool_number(seat), 0);
}

static void deepens(void *seat, uint64_t mutex) {
  EXPECT(lfm_c_pool_ask(seat, mutex), LFM_DONE);
  for (uint64_t depth = 1; depth < MOST_DEPTH; depth++) {
    EXPECT(lfm_c_pool_depth(seat, mutex), depth);
    EXPECT(depth % 2 ? lfm_c_pool_try_lock(seat, mutex) : lfm_c_pool_ask(seat, mutex), LFM_AGAIN);
  }
  EXPECT(lfm_c_pool_try_lock(seat, mutex), LFM_DEPTH_FULL);
  EXPECT(lfm_c_pool_ask(seat, mutex), LFM_DEPTH_FULL);
  for (uint64_t depth = MOST_DEPTH; depth > 1; depth--) EXPECT(lfm_c_pool_unlock(seat, mutex), LFM_STILL);
  EXPECT(lfm_c_pool_unlock(seat, mutex), LFM_DONE);
  EXPECT(lfm_c_pool_unlock(seat, mutex), LFM_NOT_OWNER);
}

/* The first seat hands a mutex over to the second, which sleeps. */
static void hands_over(void *first, void *second, uint64_t mutex) {
  uint64_t other = (mutex + 1) % MUTEXES;
  EXPECT(lfm_c_pool_count(first, mutex), 0);
  EXPECT(lfm_c_pool_try_lock(first, mutex), LFM_DONE);
  EXPECT(lfm_c_pool_count(first, mutex), 1);
  EXPECT(lfm_c_pool_try_lock(first, mutex), LFM_AGAIN);
  EXPECT(lfm_c_pool_try_lock(second, mutex), LFM_BUSY);
  EXPECT(lfm_c_pool_unlock(second, mutex), LFM_NOT_OWNER);
  EXPECT(lfm_c_pool_receive(second, mutex), LFM_NOT_WAITING);
  EXPECT(lfm_c_pool_try_lock(second, other), LFM_DONE);
  EXPECT(lfm_c_pool_ask(second, mutex), LFM_ASLEEP);
  EXPECT(lfm_c_pool_ask(second, other), LFM_SEAT_ASLEEP);
  EXPECT(lfm_c_pool_try_lock(second, mutex), LFM_SEAT_ASLEEP);
  EXPECT(lfm_c_pool_unlock(second, other), LFM_SEAT_ASLEEP);
  EXPECT(lfm_c_pool_receive(second, other), LFM_NOT_WAITING);
  EXPECT(lfm_c_pool_receive(second, mutex), LFM_ASLEEP);
  EXPECT(lfm_c_pool_count(second, mutex), 2);
  EXPECT(lfm_c_pool_count(second, other), 1);
  EXPECT(lfm_c_pool_depth(second, mutex), 0);
  EXPECT(lfm_c_pool_depth(second, other), 1);
  EXPECT(lfm_c_pool_unlock(first, mutex), LFM_STILL);
  EXPECT(lfm_c_pool_unlock(first, mutex), LFM_GRANTED + 256 * lfm_c_pool_number(second));
  EXPECT(lfm_c_pool_count(first, mutex), 1);
  EXPECT(lfm_c_pool_receive(second, mutex), LFM_DONE);
  EXPECT(lfm_c_pool_depth(second, mutex), 1);
  EXPECT(lfm_c_pool_unlock(second, mutex), LFM_DONE);
  EXPECT(lfm_c_pool_unlock(second, other), LFM_DONE);
}

static void answers(void) {
  void *pool = open_pool(MUTEXES, 2), *first = taken_seat(pool), *second = taken_seat(pool);
  deepens(first, 1);
  for (uint64_t mutex = 0; mutex < MUTEXES; mutex++) hands_over(first, second, mutex);
}

/* Threads. Each number is guarded by the mutex of its index, and is not added to in one step. */
static void *seats[MOST_THREADS];
static uint64_t numbers[MUTEXES], named, received;
static unsigned threads;

static void add_to(uint64_t *number) {
  __atomic_store_n(number, __atomic_load_n(number, __ATOMIC_RELAXED) + 1, __ATOMIC_RELAXED);
}

/* Counts the seat that an answer names. */
static void hear(uint64_t answer) {
  if (answer >> 8 == 0) return;
  EXPECT(answer >> 8 <= threads, true);
  __atomic_fetch_add(&named, 1, __ATOMIC_RELAXED);
}

static void acquire(void *seat, uint64_t mutex) {
  uint64_t answer = lfm_c_pool_ask(seat, mutex);
  hear(answer);
  if (status_of(answer) == LFM_DONE) return;
  EXPECT(status_of(answer), LFM_ASLEEP);
  while ((answer = lfm_c_pool_receive(seat, mutex)) == LFM_ASLEEP) sched_yield();
  EXPECT(answer, LFM_DONE);
  __atomic_fetch_add(&received, 1, __ATOMIC_RELAXED);
}

static void add_often(unsigned thread) {
  void *seat = seats[thread];
  for (uint64_t i = 0; i < ROUNDS; i++) {
    uint64_t mutex = (i / 16 + thread) % MUTEXES, answer;
    acquire(seat, mutex);
    add_to(&numbers[mutex]);
    EXPECT(lfm_c_pool_try_lock(seat, mutex), LFM_AGAIN);
    if (i % 64 == 0) sched_yield();
    EXPECT(lfm_c_pool_unlock(seat, mutex), LFM_STILL);
    hear(answer = lfm_c_pool_unlock(seat, mutex));
    EXPECT(lfm_is_refused(status_of(answer)), false);
  }
}

/* Returns whether a seat slept. */
static bool loses_no_addition(unsigned count) {
  void *pool = open_pool(MUTEXES, count);
  uint64_t sum = 0;
  threads = count;
  named = received = 0;
  for (int i = 0; i < MUTEXES; i++) numbers[i] = 0;
  for (unsigned i = 0; i < count; i++) seats[i] = taken_seat(pool);
  in_threads(count, add_often);
  for (int i = 0; i < MUTEXES; i++) sum += numbers[i];
  EXPECT(sum, (uint64_t)count * ROUNDS);
  EXPECT(received, named); /* each seat that slept was named by the answer that granted it the mutex, once */
  return received != 0;
}

/* On a busy machine one thread may end before another begins, so that none has to sleep: then they add once more. */
static void sleeps_and_loses_no_addition(unsigned count) {
  int tries = 0;
  while (!loses_no_addition(count)) EXPECT(++tries < 100, true);
}

int main(void) {
  opens_and_refuses();
  takes_each_seat(1);
  takes_each_seat(5);
  takes_each_seat(LFM_MOST_SEATS);
  answers();
  sleeps_and_loses_no_addition(2);
  sleeps_and_loses_no_addition(4);
  return 0;
}
