/* Asks and unlocks that are stopped between their atomic operations. Threads that run freely seldom meet as they do in these two
 * cases, each of which takes three seats.
 *
 * An ask grants the mutex to another seat, which sleeps. Only the answer of the ask tells whom to wake. The first seat releases
 * the mutex while the second has begun to ask, so it posts; the second is queued; then the third takes the post over and finds
 * the second in the queue, which sleeps by then. Here the second and the third are stopped before each of their operations in
 * turn, in all ways. The test fails if no ask has granted the mutex to a seat that sleeps, if a seat is not woken, or if no
 * unlock of the first has told that it posted.
 *
 * A try acquires the mutex while a deputy of its seat is queued. Each further lock deepens this hold, and none waits for the
 * deputy, which is queued behind it. The third seat has begun to ask, so the first is about to post; a timed lock of the second
 * leaves a deputy in the queue; the first posts; then the second tries, and accepts the post. Here the unlock of the first and
 * the ask of the third are stopped before each of their operations in turn, in all ways. The test fails if no try has acquired
 * the mutex so.
 *
 * A thread is stopped by the processor's trap flag: after each instruction of an ask or unlock comes a signal, whose handler
 * waits if the next instruction is an atomic operation that is not allowed yet. So the test needs an x86-64. */
#define _GNU_SOURCE
#define LFM_SPIN_NANOSECONDS 0
#define lfm_c_pool_ask stopped_ask
#define lfm_c_pool_unlock stopped_unlock
#include "../c/ligdrosa.c"
#undef lfm_c_pool_ask
#undef lfm_c_pool_unlock
#include "expect.h"
#include <signal.h>
#include <ucontext.h>
#include <x86intrin.h>
uint64_t lfm_c_pool_ask(void *seat, uint64_t index);
uint64_t lfm_c_pool_unlock(void *seat, uint64_t index);

enum { STOPS = 9, ALL = 1 << 20, LIMIT = 30, TRAP_FLAG = 0x100, SHORT = 1000000 };

/* A thread that makes one call of the library which is stopped: an ask, or an unlock. */
typedef struct caller {
  pthread_t thread;
  lfm_seat *seat;
  bool is_releasing; /* that call is an unlock */
  int allowed;       /* how many atomic operations it may make */
  int begun;         /* how many it has begun; it is stopped before one that is not allowed */
  int is_done;
} caller;

static lfm_mutex mutex;
static lfm_seat seats[3];
static __thread caller *self;
static unsigned total, named, named_asleep; /* the seats that asks have named, and those that slept */
static unsigned posted;                     /* how often the first seat's unlock told that it posted */
static unsigned behind;                     /* how often a try acquired the mutex while a deputy of its seat was queued */
static unsigned runs[3];                    /* the stops of this run */

static int seen(int *word) { return __atomic_load_n(word, __ATOMIC_SEQ_CST); }
static void set(int *word, int value) { __atomic_store_n(word, value, __ATOMIC_SEQ_CST); }

/* Whether the instruction reads and writes memory in one step: one that has the lock prefix, or an exchange with memory. */
static bool is_atomic(const unsigned char *code) {
  if (*code == 0xf0) return true;
  if (*code == 0x66) code++;
  if ((*code & 0xf0) == 0x40) code++;
  return (code[0] == 0x86 || code[0] == 0x87) && code[1] >> 6 != 3;
}

static void before_instruction(int number, siginfo_t *info, void *context) {
  (void)number, (void)info;
  if (!is_atomic((const unsigned char *)((ucontext_t *)context)->uc_mcontext.gregs[REG_RIP])) return;
  set(&self->begun, self->begun + 1);
  while (self->begun > seen(&self->allowed)) sched_yield();
}

/* The answer of a call of the library, which is stopped if it is the one of this thread that is to be. */
static uint64_t answer_of(uint64_t (*call)(void *, uint64_t), void *handle, uint64_t index, bool is_stopped) {
  if (is_stopped) __writeeflags(__readeflags() | TRAP_FLAG);
  uint64_t answer = call(handle, index);
  if (is_stopped) __writeeflags(__readeflags() & ~(uint64_t)TRAP_FLAG);
  return answer;
}

uint64_t stopped_ask(void *handle, uint64_t index) {
  uint64_t answer = answer_of(lfm_c_pool_ask, handle, index, self && !self->is_releasing);
  uint64_t number = answer >> 8;
  if (number != 0) {
    __atomic_fetch_add(&named, 1, __ATOMIC_SEQ_CST);
    struct participant *granted = participant_of(load_mutex(&mutex), number);
    if (bell_of(&granted->bell) == LISTENED) __atomic_fetch_add(&named_asleep, 1, __ATOMIC_SEQ_CST);
  }
  return answer;
}

uint64_t stopped_unlock(void *handle, uint64_t index) {
  return answer_of(lfm_c_pool_unlock, handle, index, self && self->is_releasing);
}

static void *lock_and_unlock(void *at) {
  self = (caller *)at;
  EXPECT(lfm_lock_in_order(self->seat), LFM_DONE);
  total++;
  EXPECT(lfm_is_refused(lfm_unlock(self->seat)), false);
  set(&self->is_done, 1);
  return NULL;
}

static void *release(void *at) {
  self = (caller *)at;
  EXPECT(lfm_is_refused(lfm_unlock(self->seat)), false);
  set(&self->is_done, 1);
  return NULL;
}

/* Allows the thread this many operations, and waits until it has been stopped, sleeps or is done. */
static void allow(caller *c, int operations) {
  set(&c->allowed, operations);
  while (seen(&c->begun) <= operations && !seen(&c->is_done) && bell_of(&c->seat->by->bell) != LISTENED) sched_yield();
}

static void begin(caller *c, void *(*run)(void *), lfm_seat *seat, int operations) {
  *c = (caller){.seat = seat, .is_releasing = run == release, .allowed = operations};
  EXPECT(pthread_create(&c->thread, NULL, run, c), 0);
  allow(c, operations);
}

static void begin_run(int i, int j, int k) {
  runs[0] = (unsigned)i, runs[1] = (unsigned)j, runs[2] = (unsigned)k;
  alarm(LIMIT);
  EXPECT(lfm_lock(&seats[0]), LFM_DONE);
}

/* The second seat is stopped before its operation i + 1 while the first releases the mutex, and then before j + 1; the third
 * before k + 1, while the second goes on to its end or falls asleep. */
static void stop_asks(int i, int j, int k) {
  caller second, third;
  begin_run(i, j, k);
  begin(&second, lock_and_unlock, &seats[1], i);
  lfm_status status = lfm_unlock(&seats[0]);
  EXPECT(lfm_is_refused(status), false);
  if (status == LFM_POSTED) posted++;
  allow(&second, j);
  begin(&third, lock_and_unlock, &seats[2], k);
  allow(&second, ALL);
  set(&third.allowed, ALL);
  EXPECT(pthread_join(second.thread, NULL), 0);
  EXPECT(pthread_join(third.thread, NULL), 0);
}

/* Whether the seat has left a deputy queued. */
static bool has_abandoned(const lfm_seat *seat) { return seat->by->deputies && state_of(seat->by->deputies) == ABANDONED; }

static void deepen_and_release(lfm_seat *seat) {
  EXPECT(lfm_lock_in_order(seat), LFM_AGAIN);
  EXPECT(lfm_lock(seat), LFM_AGAIN);
  EXPECT(lfm_try_lock_for(seat, SHORT), LFM_AGAIN);
  EXPECT(lfm_depth(seat), 4);
  for (int depth = 4; depth > 1; depth--) EXPECT(lfm_unlock(seat), LFM_STILL);
  EXPECT(lfm_is_refused(lfm_unlock(seat)), false);
}

/* The third seat is stopped before operation k + 1 of its ask. The first is stopped before operation i + 1 of its unlock while a
 * timed lock of the second leaves a deputy queued, and before j + 1 while the second tries. The timed lock may also acquire the
 * mutex. */
static void stop_unlock(int i, int j, int k) {
  caller first, third;
  lfm_status status;
  begin_run(i, j, k);
  begin(&third, lock_and_unlock, &seats[2], k);
  begin(&first, release, &seats[0], i);
  do status = lfm_try_lock_for(&seats[1], SHORT);
  while (status == LFM_BUSY && !has_abandoned(&seats[1]));
  allow(&first, j);
  if (status == LFM_BUSY) status = lfm_try_lock(&seats[1]);
  if (status == LFM_DONE) {
    if (has_abandoned(&seats[1])) behind++;
    deepen_and_release(&seats[1]);
  } else {
    EXPECT(status, LFM_BUSY);
  }
  set(&first.allowed, ALL);
  set(&third.allowed, ALL);
  EXPECT(pthread_join(first.thread, NULL), 0);
  EXPECT(pthread_join(third.thread, NULL), 0);
  EXPECT(has_abandoned(&seats[1]), false);
}

static void too_late(int number) {
  (void)number;
  fprintf(stderr, "a run does not end within %d seconds, at the stops %u, %u and %u\n", LIMIT, runs[0], runs[1], runs[2]);
  _exit(1);
}

int main(void) {
  struct sigaction trap = {0};
  trap.sa_sigaction = before_instruction;
  trap.sa_flags = SA_SIGINFO;
  EXPECT(sigaction(SIGTRAP, &trap, NULL), 0);
  signal(SIGALRM, too_late);
  EXPECT(lfm_mutex_new(&mutex, 3, 1000000), LFM_DONE);
  for (int i = 0; i < 3; i++) EXPECT(lfm_seat_take(&mutex, &seats[i]), LFM_DONE);
  unsigned count = 0;
  for (int i = 0; i < STOPS; i++)
    for (int j = i; j < STOPS; j++)
      for (int k = 0; k < STOPS; k++, count++) stop_asks(i, j, k);
  EXPECT(total, 2 * count);
  EXPECT(named_asleep != 0, true);
  EXPECT(posted != 0, true);
  for (int i = 0; i < STOPS; i++)
    for (int j = i; j < STOPS; j++)
      for (int k = 0; k < STOPS; k++) stop_unlock(i, j, k);
  EXPECT(behind != 0, true);
  for (int i = 0; i < 3; i++) EXPECT(lfm_seat_give(&seats[i]), LFM_DONE);
  EXPECT(lfm_mutex_close(&mutex), LFM_DONE);
  printf("%u runs; the first posted in %u; asks named %u seats, of which %u slept\n", count, posted, named, named_asleep);
  printf("in as many runs %u tries acquired the mutex while a deputy was queued\n", behind);
  return 0;
}
