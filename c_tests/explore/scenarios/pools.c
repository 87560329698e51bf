/* Pools and mutexes of them are opened, and numbers are taken and given back. */
#include "scenario.h"

enum { OF_FIRST_POOL = 2, ALL_MUTEXES = 6, NUMBERS = 9 };
/* Mutexes that are open before, one of each thread, and seats. */
struct opened {
  lfm_mutex before[ALL_MUTEXES], own[MOST_FIBERS][2];
  lfm_seat seats[MOST_FIBERS][3];
  uint64_t is_taken[NUMBERS];
  uint64_t count; /* of those that are open before */
};
static struct opened *opened(void) { return (struct opened *)shared->extra; }
static lfm_mutex *own_mutex(int number) { return &opened()->own[explorer_self()][number]; }
static lfm_seat *own_seat(int number) { return &opened()->seats[explorer_self()][number]; }

/* No pool is open. */
static void begin_new(void) {
  make_shared();
  shared->extra = zeroed(sizeof(struct opened));
  shared->closed = 1;
}
static void begin_static(void) {
  begin_new();
  *shared->mutex = (lfm_mutex)LFM_MUTEX_INIT;
  shared->closed = 0;
}
/* This many mutexes are open, and the library has all that it reserves for a process. */
static void begin_with(uint64_t count) {
  begin_new();
  for (uint64_t i = 0; i < count; i++) CHECK(lfm_mutex_new(&opened()->before[i], 1, 1) == LFM_DONE);
  opened()->count = count;
  acquired(lfm_lock_here(&opened()->before[0]));
  released(lfm_unlock_here(&opened()->before[0]));
  end_early();
}
static void begin_full(void) { begin_with(OF_FIRST_POOL); }
static void begin_full_static(void) {
  begin_full();
  *shared->mutex = (lfm_mutex)LFM_MUTEX_INIT;
  shared->closed = 0;
}
static void begin_one_left(void) { begin_with(ALL_MUTEXES - 1); }
static void end_opened(void) {
  for (uint64_t i = 0; i < opened()->count; i++) CHECK(lfm_mutex_close(&opened()->before[i]) == LFM_DONE);
  explorer_free(shared->extra);
  end();
}

/* A thread opens a mutex of its own, and uses it. */
static bool open_own(int number) { return acquired_here(lfm_mutex_new(own_mutex(number), 1, 1)); }
static void close_own(int number) { CHECK(lfm_mutex_close(own_mutex(number)) == LFM_DONE); }
static void use_own(int number) {
  if (!acquired_here(lfm_lock_here(own_mutex(number)))) return;
  CHECK(lfm_depth_here(own_mutex(number)) == 1);
  released(lfm_unlock_here(own_mutex(number)));
}
static void open_and_use(void) {
  if (!open_own(0)) return;
  use_own(0);
  close_own(0);
}
static void open_last(void) {
  lfm_status status = lfm_mutex_new(own_mutex(0), 1, 1);
  CHECK(status == LFM_DONE || status == LFM_NO_MEMORY);
  if (status != LFM_DONE) return;
  __atomic_fetch_add(&shared->told, 1, __ATOMIC_RELAXED);
  close_own(0);
}
/* None is refused unless the other has the last one. */
static void end_one_open(void) { CHECK(shared->told >= 1); end_opened(); }

/* Numbers of participants: no two that are taken are the same. Three have been taken and given back before. */
static void begin_numbers(void) {
  begin_with(1);
  for (int i = 0; i < 3; i++) CHECK(lfm_seat_take(&opened()->before[0], &opened()->seats[0][i]) == LFM_DONE);
  for (int i = 0; i < 3; i++) CHECK(lfm_seat_give(&opened()->seats[0][i]) == LFM_DONE);
}
static void take_number_of(int seat) {
  CHECK(lfm_seat_take(&opened()->before[0], own_seat(seat)) == LFM_DONE);
  uint64_t number = lfm_number(own_seat(seat));
  CHECK(number && number < NUMBERS);
  CHECK(__atomic_exchange_n(&opened()->is_taken[number], 1, __ATOMIC_RELAXED) == 0);
}
static void give_number_of(int seat) {
  CHECK(__atomic_exchange_n(&opened()->is_taken[lfm_number(own_seat(seat))], 0, __ATOMIC_RELAXED) == 1);
  CHECK(lfm_seat_give(own_seat(seat)) == LFM_DONE);
}
static void take_two(void) { take_number_of(0); take_number_of(1); give_number_of(1); give_number_of(0); }
static void take_two_keep_second(void) {
  take_number_of(0);
  take_number_of(1);
  give_number_of(0);
  take_number_of(2);
  give_number_of(1);
  give_number_of(2);
}

/* Numbers of mutexes: both have been open before. */
static void begin_closed(void) {
  begin_full();
  while (opened()->count) CHECK(lfm_mutex_close(&opened()->before[--opened()->count]) == LFM_DONE);
}
static void hold_own(int number) {
  CHECK(open_own(number));
  CHECK(lfm_try_lock_here(own_mutex(number)) == LFM_DONE);
}
static void release_own(int number) {
  released(lfm_unlock_here(own_mutex(number)));
  close_own(number);
}
static void hold_two(void) { hold_own(0); hold_own(1); release_own(0); release_own(1); }
static void hold_one(void) { hold_own(0); release_own(0); }

const struct scenario pool_scenarios[] = {
    {"open_first2", "two threads open the first pool", 2, false, begin_new, {open_and_use, open_and_use}, end_opened},
    {"static_first2", "two threads open a static mutex, and the first pool",
     2, false, begin_static, {here, here}, end_opened},
    {"open_second2", "two threads open the second pool", 2, false, begin_full, {open_and_use, open_and_use}, end_opened},
    {"static_second2", "two threads open a static mutex, and the second pool",
     2, false, begin_full_static, {here, here}, end_opened},
    {"static3", "three threads open a static mutex, and the second pool",
     3, false, begin_full_static, {here, here, here}, end_opened, true},
    {"open_last2", "one mutex is left, and two threads open it",
     2, false, begin_one_left, {open_last, open_last}, end_one_open},
    {"numbers2", "numbers of participants are taken and given back",
     2, false, begin_numbers, {take_two, take_two_keep_second}, end_opened},
    {"numbers3", "the same by three threads", 3, false, begin_numbers, {take_two, take_two, take_two}, end_opened, true},
    {"mutex_numbers2", "numbers of mutexes are taken and given back",
     2, false, begin_closed, {hold_two, hold_one}, end_opened},
    {0}
};
