/* c/ligdrosa.c, with the system's calls in the explorer's hands. It is compiled with -fsanitize=thread, so that each access
 * calls the explorer. Its text is unchanged, and its limits are low, so that a state is small and a pool soon full. */
#define _GNU_SOURCE
#include <errno.h>
#include <link.h>
#include <pthread.h>
#include <signal.h>
#include <stdarg.h>
#include <stdio.h>
#include <stdlib.h>
#include <string.h>
#include <sys/auxv.h>
#include <sys/mman.h>
#include <sys/syscall.h>
#include <time.h>
#include <unistd.h>
#include "explorer.h"

enum { FUTEX_WAKE_ONE = 129, FUTEX_WAKE_AND_CHANGE = 133 };

/* FUTEX_WAKE_OP, as wake_and_change of the C file calls it. The system does it in one step as far as sleepers see. Here its
 * exchange and each wake is a point of its own, so that more is explored. */
static long change_and_wake(uint32_t *word, uint32_t *changed, uint32_t operation) {
  uint32_t to = operation >> 12 & 0xfff, from = operation & 0xfff;
  bool is_found = __atomic_exchange_n(changed, to, __ATOMIC_SEQ_CST) == from;
  explorer_futex(word, FUTEX_WAKE_ONE, 1, NULL);
  if (is_found) explorer_futex(changed, FUTEX_WAKE_ONE, 1, NULL);
  return 0;
}

static long explorer_syscall(long number, ...) {
  va_list list;
  va_start(list, number);
  if (number == SYS_futex) {
    uint32_t *word = va_arg(list, uint32_t *);
    int operation = va_arg(list, int);
    uint32_t value = va_arg(list, uint32_t);
    if (operation == FUTEX_WAKE_AND_CHANGE) {
      (void)va_arg(list, unsigned long);
      uint32_t *changed = va_arg(list, uint32_t *), by = va_arg(list, uint32_t);
      va_end(list);
      return change_and_wake(word, changed, by);
    }
    const void *time = va_arg(list, const void *);
    va_end(list);
    return explorer_futex(word, operation, value, time);
  }
  if (number == SYS_sched_getaffinity) {
    (void)va_arg(list, int);
    size_t size = va_arg(list, size_t);
    unsigned long *mask = va_arg(list, unsigned long *);
    va_end(list);
    memset(mask, 0, size);
    mask[0] = (1ul << explorer_processors()) - 1;
    return (long)sizeof mask[0];
  }
  va_end(list);
  return 0;
}
static int explorer_clock_gettime(int clock, struct timespec *now) {
  (void)clock;
  now->tv_sec = 1000;
  now->tv_nsec = explorer_toggle_clock() ? 1000000 : 0;
  return 0;
}
static int explorer_key_create(pthread_key_t *key, void (*end)(void *)) { (void)end; *key = 0; return 0; }
static int explorer_key_delete(pthread_key_t key) { (void)key; return 0; }
static int explorer_setspecific(pthread_key_t key, const void *value) {
  (void)key;
  explorer_set_specific((void *)value);
  return 0;
}

static int explorer_atfork(void (*before)(void), void (*parent)(void), void (*child)(void)) {
  (void)before, (void)parent, (void)child;
  return 0;
}
/* What the library allocates for the proved calls lasts as long as the process, as their pools do. */
static void *explorer_allocate(const char *function, size_t bytes) {
  return strcmp(function, "lfm_allocate") ? explorer_malloc(bytes) : explorer_keep(bytes);
}
static void *explorer_reserve(size_t bytes) {
  void *at = explorer_keep(bytes);
  return at ? at : MAP_FAILED;
}

#define syscall explorer_syscall
#define clock_gettime explorer_clock_gettime
#define pthread_key_create explorer_key_create
#define pthread_key_delete explorer_key_delete
#define pthread_setspecific explorer_setspecific
#define pthread_atfork explorer_atfork
/* There are no signals. What these would leave on a stack would only tell apart states that are the same. */
#define sigfillset(set) ((void)(set))
#define sigemptyset(set) ((void)(set))
#define sigdelset(set, signal) ((void)(set), (void)(signal))
#define pthread_sigmask(how, set, before) ((void)(how), (void)(set), (void)(before))
#define malloc(bytes) explorer_allocate(__func__, bytes)
#define free explorer_free
#define mmap(at, bytes, ...) explorer_reserve(bytes)
#define munmap(at, bytes) explorer_free(at)
#define memset explorer_memset
#define memcpy explorer_memcpy
#define abort() explorer_fault("abort of the library")
#define LFM_ROUNDS(count) explorer_rounds(count)
#define LFM_RINGS(count) explorer_rings(count)
#define LFM_PROCESS (*(struct process *)explorer_process)
#define LFM_FIRST_POOL 2
#define LFM_MOST_POOLS 2
#define LFM_MOST_PARTICIPANTS 8
#ifndef LIGDROSA_C
#define LIGDROSA_C "../../c/ligdrosa.c"
#endif
#include LIGDROSA_C
#undef memset
#undef memcpy

size_t explorer_own_size(void) { return sizeof own; }
void *explorer_own_at(void) { return &own; }
void explorer_end_thread(void *at) { end_thread(at); }
void explorer_warm(void) { count_processors(); } /* as many as an option names */
size_t explorer_process_size(void) { return sizeof(struct process); }

/* What is so when no thread has anything any more */

/* Each number that was ever taken is in the stack, once. */
static void check_numbers(const struct numbers *numbers) {
  bool is_free[LFM_MOST_PARTICIPANTS + 1] = {false};
  uint32_t count = 0;
  for (uint32_t number = (uint32_t)numbers->top; number; number = numbers->below[number]) {
    CHECK(number <= numbers->used && !is_free[number]);
    is_free[number] = true;
    count++;
  }
  CHECK(count == numbers->used && "each number was given back");
}

/* A ring that nobody waits for any more would end a later wait too early. That a thread has begun to listen does no harm. */
static void check_participant(struct participant *by) {
  CHECK(by->holds == 0 && !by->deputies && !by->unrung);
  CHECK(by->state == RESTS && by->bell != RUNG);
  for (uint32_t i = 1; i <= by->pools; i++) {
    struct pool *pool = pool_at(i);
    CHECK(pool->of_seat[lfm_c_pool_number(by->seats[i - 1])] == by);
    for (uint32_t k = 0; k < pool->numbers.used; k++) CHECK(lfm_c_pool_count(by->seats[i - 1], k) == 0);
  }
}

static void check_pool(const struct pool *pool) {
  CHECK(pool->latch == 0);
  check_numbers(&pool->numbers);
  for (uint32_t i = 0; i < pool->numbers.used; i++) CHECK(pool->infos[i].in_hand == 0 && pool->infos[i].queued == 0);
  for (uint32_t i = 1; i <= LFM_MOST_PARTICIPANTS; i++) {
    struct participant *by = pool->of_seat[i];
    CHECK(!by || by == &LFM_PROCESS.participants[by->number]);
  }
}

/* All numbers are free again, and nobody holds a mutex or asks for one. */
void explorer_check_all_given_back(void) {
  CHECK(LFM_PROCESS.latch == 0 && LFM_PROCESS.deputies == 0);
  check_numbers(&LFM_PROCESS.numbers);
  for (uint32_t i = 1; i <= LFM_PROCESS.numbers.used; i++) check_participant(&LFM_PROCESS.participants[i]);
  for (uint32_t i = 1; i <= LFM_PROCESS.count_of_pools; i++) check_pool(pool_at(i));
}
