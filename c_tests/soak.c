/* Threads lock, lock again and try at random, some in order, some with a short time limit, and sleep at their first look: soak
 * SECONDS THREADS. The totals are exact, and the test fails if the threads make no progress.
 *
 * A seat's ask may grant the mutex to another seat, which sleeps, and only the answer of that ask tells that it is to be woken.
 * That is rare, so the test has the C file of the library in it and wraps its asks: it prints how many seats they named, and
 * how many of these slept. */
#define LFM_SPIN_NANOSECONDS 0
#define lfm_c_pool_ask seen_ask
#include "../c/ligdrosa.c"
#undef lfm_c_pool_ask
#include "expect.h"
uint64_t lfm_c_pool_ask(void *seat, uint64_t index);

enum { MOST = 64, OUTSIDE = 300 };
static lfm_mutex mutex;
static lfm_seat seats[MOST];
static uint64_t guarded, counted[MOST];
static uint64_t named, named_asleep; /* the seats that asks have named, and those that slept */
static int over;

uint64_t seen_ask(void *seat, uint64_t index) {
  uint64_t answer = lfm_c_pool_ask(seat, index);
  uint64_t number = answer >> 8;
  if (number != 0) {
    EXPECT(number <= MOST_PARTICIPANTS, true);
    __atomic_fetch_add(&named, 1, __ATOMIC_RELAXED);
    struct participant *granted = participant_of(load_mutex(&mutex), number);
    if (bell_of(&granted->bell) == LISTENED) __atomic_fetch_add(&named_asleep, 1, __ATOMIC_RELAXED);
  }
  return answer;
}

static uint64_t next(uint64_t *x) {
  *x ^= *x << 13;
  *x ^= *x >> 7;
  return *x ^= *x << 17;
}

static void work(unsigned thread) {
  lfm_seat *seat = &seats[thread];
  uint64_t x = 88172645463325252u + thread * 7919;
  while (!__atomic_load_n(&over, __ATOMIC_RELAXED)) {
    uint64_t chance = next(&x);
    uint64_t kind = chance % 8;
    lfm_status status = kind == 0 ? lfm_try_lock(seat)
                      : kind < 4  ? lfm_lock_in_order(seat)
                      : kind == 4 ? lfm_try_lock_for(seat, (chance >> 8) % 30000)
                                  : lfm_lock(seat);
    if (status == LFM_BUSY) continue;
    EXPECT(status, LFM_DONE);
    uint64_t step = chance % 16 < 3 ? 2 : 1;
    if (step == 2) {
      EXPECT(lfm_lock(seat), LFM_AGAIN);
      EXPECT(lfm_unlock(seat), LFM_STILL);
    }
    __atomic_store_n(&guarded, guarded + step, __ATOMIC_RELAXED);
    counted[thread] += step;
    EXPECT(lfm_is_refused(lfm_unlock(seat)), false);
    for (uint64_t i = 0; i < (chance >> 8) % OUTSIDE; i++) __asm__ volatile("" ::: "memory");
  }
}

static void *watch(void *at) {
  unsigned seconds = *(unsigned *)at, still = 0;
  uint64_t last = 0;
  for (unsigned i = 0; i < seconds || still != 0; i++) {
    sleep(1);
    uint64_t now = __atomic_load_n(&guarded, __ATOMIC_RELAXED);
    still = now == last ? still + 1 : 0;
    last = now;
    if (still == 4) {
      fprintf(stderr, "nothing has gone on for 4 seconds, after %llu\n", (unsigned long long)now);
      exit(1);
    }
  }
  __atomic_store_n(&over, 1, __ATOMIC_RELAXED);
  return NULL;
}

int main(int argc, char **argv) {
  unsigned seconds = argc > 1 ? (unsigned)atoi(argv[1]) : 3;
  unsigned threads = argc > 2 ? (unsigned)atoi(argv[2]) : 4;
  EXPECT(threads <= MOST, true);
  EXPECT(lfm_mutex_new(&mutex, threads, (uint64_t)1 << 36), LFM_DONE);
  for (unsigned i = 0; i < threads; i++) EXPECT(lfm_seat_take(&mutex, &seats[i]), LFM_DONE);
  pthread_t watcher;
  EXPECT(pthread_create(&watcher, NULL, watch, &seconds), 0);
  in_threads(threads, work);
  EXPECT(pthread_join(watcher, NULL), 0);
  uint64_t sum = 0;
  for (unsigned i = 0; i < threads; i++) {
    sum += counted[i];
    EXPECT(lfm_seat_give(&seats[i]), LFM_DONE);
  }
  EXPECT(guarded, sum);
  EXPECT(lfm_mutex_close(&mutex), LFM_DONE);
  printf("%u threads, %llu; asks named %llu seats, of which %llu slept\n", threads, (unsigned long long)sum,
         (unsigned long long)named, (unsigned long long)named_asleep);
  return 0;
}
