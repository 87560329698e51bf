/* Times the exports of a pool of mutexes beside pthread's recursive mutex, and beside the bare atomic operations of these
 * exports, in one process and in turn, so that other load on the machine affects all equally: measure_pool [ROUNDS]. A line is
 *
 *     ROW|POOL|BARE|PTHREAD|RATIO|BARE RATIO|LIMIT
 *
 * in nanoseconds of the thread's processor time for a lock and an unlock, or a try. They are the medians of the rounds (101 by
 * default), and the ratios, of the pool and of the bare operations to pthread's mutex, are medians of the rounds' ratios. A
 * lock is a try here, as the first step of lfm_lock is.
 *
 * The exports are linked statically. So link pthread statically too (-static): through a table of a shared library each of its
 * calls takes longer, on some processors twice as long. */
#define _GNU_SOURCE
#include <pthread.h>
#include <stdatomic.h>
#include <time.h>
#include "expect.h"
#include "../c/parts/proved.h"

enum { MUTEXES = 4096, PAIRS = 8192, MOST_ROUNDS = 1001 };

static void *pool, *seats[2];
static pthread_mutex_t mutexes[MUTEXES];
static struct {
  _Alignas(64) _Atomic uint64_t count;
  _Atomic uint64_t owner, handoff, carried;
} bare[MUTEXES];
static uint32_t order[MUTEXES];
static uint64_t total;
static int rounds = 101;

static void *room_for(size_t size) {
  void *room = NULL;
  EXPECT(posix_memalign(&room, 64, size), 0);
  return room;
}

static void open_both(void) {
  pthread_mutexattr_t attributes;
  pthread_mutexattr_init(&attributes);
  pthread_mutexattr_settype(&attributes, PTHREAD_MUTEX_RECURSIVE);
  for (int i = 0; i < MUTEXES; i++) pthread_mutex_init(&mutexes[i], &attributes);
  pool = room_for(lfm_c_pool_size());
  lfm_c_blank_pool(pool);
  EXPECT(lfm_c_pool_open(pool, MUTEXES, 2), LFM_DONE);
  for (int i = 0; i < 2; i++) {
    seats[i] = room_for(lfm_c_pool_seat_size());
    lfm_c_blank_pool_seat(seats[i]);
    EXPECT(lfm_c_pool_take_seat(pool, seats[i]), LFM_DONE);
  }
}

/* Every mutex once, in an order that looks random, the same in each run. */
static void shuffle(void) {
  uint32_t random = 1;
  for (uint32_t i = 0; i < MUTEXES; i++) {
    random = random * 1664525u + 1013904223u;
    uint32_t j = (random >> 8) % (i + 1);
    order[i] = order[j];
    order[j] = i;
  }
}

static double own_time(void) {
  struct timespec time;
  clock_gettime(CLOCK_THREAD_CPUTIME_ID, &time);
  return (double)time.tv_sec * 1e9 + (double)time.tv_nsec;
}

static void made(uint64_t answer) {
  if (lfm_is_refused(status_of(answer))) abort();
}

/* The locks and unlocks of the mutexes at these places of the order, one after another. */
static double pool_pairs(uint32_t places) {
  double begun = own_time();
  for (uint32_t i = 0; i < PAIRS; i++) {
    uint32_t mutex = order[i % places];
    made(lfm_c_pool_try_lock(seats[0], mutex));
    total++;
    made(lfm_c_pool_unlock(seats[0], mutex));
  }
  return (own_time() - begun) / PAIRS;
}

static double pthread_pairs(uint32_t places) {
  double begun = own_time();
  for (uint32_t i = 0; i < PAIRS; i++) {
    pthread_mutex_t *mutex = &mutexes[order[i % places]];
    if (pthread_mutex_lock(mutex)) abort();
    total++;
    if (pthread_mutex_unlock(mutex)) abort();
  }
  return (own_time() - begun) / PAIRS;
}

/* The four steps of a lock of a free mutex and of its unlock: an exchange of the count, two stores of the owner, and a
 * subtraction. */
static double bare_pairs(uint32_t places) {
  double begun = own_time();
  for (uint32_t i = 0; i < PAIRS; i++) {
    uint32_t mutex = order[i % places];
    uint64_t none = 0;
    if (!atomic_compare_exchange_strong(&bare[mutex].count, &none, 1)) abort();
    atomic_store(&bare[mutex].owner, 1);
    total++;
    atomic_store(&bare[mutex].owner, 0);
    if (atomic_fetch_sub(&bare[mutex].count, 1) != 1) abort();
  }
  return (own_time() - begun) / PAIRS;
}

static double bare_alone(void) { return bare_pairs(1); }
static double bare_among(void) { return bare_pairs(MUTEXES); }
static double pool_alone(void) { return pool_pairs(1); }
static double pthread_alone(void) { return pthread_pairs(1); }
static double pool_among(void) { return pool_pairs(MUTEXES); }
static double pthread_among(void) { return pthread_pairs(MUTEXES); }

static double pool_deeper(void) {
  made(lfm_c_pool_try_lock(seats[0], order[0]));
  double nanoseconds = pool_pairs(1);
  made(lfm_c_pool_unlock(seats[0], order[0]));
  return nanoseconds;
}

/* A lock of a holder has an exchange of the count that fails and a load of the owner. It and its unlock each note the depth in
 * the carried word, by a load and a store. */
static double bare_deeper(void) {
  uint32_t mutex = order[0];
  atomic_store(&bare[mutex].count, 1);
  double begun = own_time();
  for (int i = 0; i < PAIRS; i++) {
    uint64_t none = 0;
    if (atomic_compare_exchange_strong(&bare[mutex].count, &none, 1)) abort();
    if (atomic_load(&bare[mutex].owner)) abort();
    atomic_store(&bare[mutex].carried, atomic_load(&bare[mutex].carried) + 1);
    total++;
    atomic_store(&bare[mutex].carried, atomic_load(&bare[mutex].carried) - 1);
  }
  double nanoseconds = (own_time() - begun) / PAIRS;
  atomic_store(&bare[mutex].count, 0);
  return nanoseconds;
}

static double pthread_deeper(void) {
  pthread_mutex_lock(&mutexes[order[0]]);
  double nanoseconds = pthread_pairs(1);
  pthread_mutex_unlock(&mutexes[order[0]]);
  return nanoseconds;
}

/* Tries of another thread than the one that holds. */
static void *try_the_pool(void *nanoseconds) {
  double begun = own_time();
  for (int i = 0; i < PAIRS; i++)
    if (lfm_c_pool_try_lock(seats[1], order[0]) != LFM_BUSY) abort();
  *(double *)nanoseconds = (own_time() - begun) / PAIRS;
  return NULL;
}

/* The exchange of the count that fails, and the loads of the owner and of the handoff word. */
static void *try_bare(void *nanoseconds) {
  uint32_t mutex = order[0];
  double begun = own_time();
  for (int i = 0; i < PAIRS; i++) {
    uint64_t none = 0;
    if (atomic_compare_exchange_strong(&bare[mutex].count, &none, 1)) abort();
    if (atomic_load(&bare[mutex].owner)) abort();
    if (atomic_load(&bare[mutex].handoff)) abort();
  }
  *(double *)nanoseconds = (own_time() - begun) / PAIRS;
  return NULL;
}

static void *try_pthread(void *nanoseconds) {
  double begun = own_time();
  for (int i = 0; i < PAIRS; i++)
    if (pthread_mutex_trylock(&mutexes[order[0]]) == 0) abort();
  *(double *)nanoseconds = (own_time() - begun) / PAIRS;
  return NULL;
}

static double in_a_thread(void *(*run)(void *)) {
  pthread_t thread;
  double nanoseconds = 0;
  EXPECT(pthread_create(&thread, NULL, run, &nanoseconds), 0);
  EXPECT(pthread_join(thread, NULL), 0);
  return nanoseconds;
}

static double pool_refused(void) {
  made(lfm_c_pool_try_lock(seats[0], order[0]));
  double nanoseconds = in_a_thread(try_the_pool);
  made(lfm_c_pool_unlock(seats[0], order[0]));
  return nanoseconds;
}

static double bare_refused(void) {
  atomic_store(&bare[order[0]].count, 1);
  double nanoseconds = in_a_thread(try_bare);
  atomic_store(&bare[order[0]].count, 0);
  return nanoseconds;
}

static double pthread_refused(void) {
  pthread_mutex_lock(&mutexes[order[0]]);
  double nanoseconds = in_a_thread(try_pthread);
  pthread_mutex_unlock(&mutexes[order[0]]);
  return nanoseconds;
}

static int compare(const void *a, const void *b) {
  double x = *(const double *)a, y = *(const double *)b;
  return (x > y) - (x < y);
}

static double median(double *all) {
  qsort(all, (size_t)rounds, sizeof *all, compare);
  return all[rounds / 2];
}

static const struct row {
  const char *name;
  double (*pool)(void), (*bare)(void), (*pthread)(void);
  double limit;
} rows[] = {
    {"alone: lock, unlock", pool_alone, bare_alone, pthread_alone, 1.4},
    {"one among 4096", pool_among, bare_among, pthread_among, 1.5},
    {"alone: once more, once less", pool_deeper, bare_deeper, pthread_deeper, 1.7},
    {"try_lock that is refused", pool_refused, bare_refused, pthread_refused, 1.7},
};

static void tell(const struct row *row) {
  static double ours[MOST_ROUNDS], steps[MOST_ROUNDS], theirs[MOST_ROUNDS], ratios[MOST_ROUNDS], bare_ratios[MOST_ROUNDS];
  row->pool(); /* the first turn of each only warms up */
  row->bare();
  row->pthread();
  for (int i = 0; i < rounds; i++) {
    ours[i] = row->pool();
    steps[i] = row->bare();
    theirs[i] = row->pthread();
    ratios[i] = ours[i] / theirs[i];
    bare_ratios[i] = steps[i] / theirs[i];
  }
  printf("%s|%.1f|%.1f|%.1f|%.2f|%.2f|%.1f\n", row->name, median(ours), median(steps), median(theirs), median(ratios),
         median(bare_ratios), row->limit);
}

static void *nothing(void *unused) { return unused; }

int main(int count, char **words) {
  pthread_t thread;
  if (count > 1) rounds = atoi(words[1]);
  if (rounds < 1 || rounds > MOST_ROUNDS) return 2;
  /* until a program has started a thread, pthread's mutexes make no atomic operation */
  EXPECT(pthread_create(&thread, NULL, nothing, NULL), 0);
  EXPECT(pthread_join(thread, NULL), 0);
  open_both();
  shuffle();
  for (size_t i = 0; i < sizeof rows / sizeof rows[0]; i++) tell(&rows[i]);
  return 0;
}
