/* Seats that find themselves. Threads come and go, more than there are numbers. Mutexes are opened by their first calls, nested,
 * and many: a call takes about as long among 10,000 as among 10. A mutex is destroyed by the thread that acquires it last, at
 * once. A thread gives back what lfm_seat_here has answered, and destructors of thread-specific data lock too. */
#define _GNU_SOURCE
#include "delayed.h"
#include "expect.h"

#if defined(__SANITIZE_THREAD__)
enum { LOCKS = 4000 };
#else
enum { LOCKS = 20000 };
#endif
enum { MANY = 10000, FEW = 10, THREADS = 8, COMERS = 2000, ROUNDS = 20000 };
enum { LIMIT = 2000000000 /* nanoseconds: on a busy machine, or with a sanitizer, there are fewer rounds */ };
static lfm_mutex mutex = LFM_MUTEX_INIT, inner = LFM_MUTEX_INIT;
static uint64_t total, nested_total;

static void lock(lfm_mutex *of) { EXPECT(lfm_lock_here(of), LFM_DONE); }
static void unlock(lfm_mutex *of) { EXPECT(lfm_is_refused(lfm_unlock_here(of)), false); }

/* All threads call both for the first time at once, and each mutex in the other's hold. */
static void nest(unsigned thread) {
  (void)thread;
  for (int i = 0; i < LOCKS; i++) {
    lock(&mutex);
    lock(&inner);
    EXPECT(lfm_lock_here(&mutex), LFM_AGAIN);
    EXPECT(lfm_depth_here(&mutex), 2);
    nested_total++;
    EXPECT(lfm_unlock_here(&mutex), LFM_STILL);
    unlock(&inner);
    unlock(&mutex);
  }
}

static void *count_once(void *at) {
  lock(&mutex);
  total++;
  unlock(&mutex);
  return at;
}

/* Each thread gives its number back as it ends: on a quiet machine there are four times as many threads as numbers. */
static void come_and_go(void) {
  pthread_t threads[THREADS];
  uint64_t begun = nanoseconds_now(), rounds = 0;
  for (; rounds < COMERS && nanoseconds_now() - begun < LIMIT; rounds++) {
    for (int j = 0; j < THREADS; j++) EXPECT(pthread_create(&threads[j], NULL, count_once, NULL), 0);
    for (int j = 0; j < THREADS; j++) EXPECT(pthread_join(threads[j], NULL), 0);
  }
  EXPECT(total, rounds * THREADS);
}

/* The processor time of a lock and an unlock among this many mutexes, in nanoseconds, the least of some tries. */
static double among(lfm_mutex *all, unsigned count) {
  double least = 1e9;
  for (int attempt = 0; attempt < 5; attempt++) {
    struct timespec begun, ended;
    clock_gettime(CLOCK_THREAD_CPUTIME_ID, &begun);
    for (unsigned i = 0; i < LOCKS; i++) {
      lfm_mutex *of = &all[i * 7919 % count];
      lock(of);
      unlock(of);
    }
    clock_gettime(CLOCK_THREAD_CPUTIME_ID, &ended);
    double time = (double)(ended.tv_sec - begun.tv_sec) * 1e9 + (double)(ended.tv_nsec - begun.tv_nsec);
    if (time / LOCKS < least) least = time / LOCKS;
  }
  return least;
}

static void many_mutexes(void) {
  lfm_mutex *all = (lfm_mutex *)calloc(MANY, sizeof *all);
  const lfm_mutex new_one = LFM_MUTEX_INIT;
  EXPECT(all == NULL, false);
  for (int i = 0; i < MANY; i++) all[i] = new_one;
  double few = among(all, FEW), many = among(all, MANY);
  printf("a lock and an unlock among %d mutexes %.0f ns, among %d %.0f ns\n", FEW, few, MANY, many);
  EXPECT(many < 100 * few, true); /* a search through all would take some 1,000 times as long */
  for (int i = 0; i < MANY; i++) EXPECT(lfm_mutex_close(&all[i]), LFM_DONE);
  free(all);
}

/* Two threads share a mutex, which the last to acquire it destroys while the other's unlock may not have returned. */
typedef struct shared {
  lfm_mutex mutex;
  int users;
} shared;
static shared *passed, the_end;

static shared *new_shared(void) {
  const lfm_mutex new_one = LFM_MUTEX_INIT;
  shared *at = (shared *)calloc(1, sizeof *at);
  at->mutex = new_one;
  at->users = 2;
  return at;
}

static void leave_shared(shared *at) {
  lock(&at->mutex);
  bool is_last = --at->users == 0;
  unlock(&at->mutex);
  if (!is_last) return;
  EXPECT(lfm_mutex_close(&at->mutex), LFM_DONE);
  free(at);
}

static void pass_shared(void) {
  uint64_t begun = nanoseconds_now();
  for (int i = 0; i < ROUNDS && nanoseconds_now() - begun < LIMIT; i++) {
    shared *at = new_shared();
    __atomic_store_n(&passed, at, __ATOMIC_SEQ_CST);
    leave_shared(at);
    while (__atomic_load_n(&passed, __ATOMIC_SEQ_CST)) sched_yield();
  }
  __atomic_store_n(&passed, &the_end, __ATOMIC_SEQ_CST);
}

static void receive_shared(void) {
  for (;;) {
    shared *at = __atomic_load_n(&passed, __ATOMIC_SEQ_CST);
    if (at == &the_end) return;
    if (at) {
      __atomic_store_n(&passed, NULL, __ATOMIC_SEQ_CST);
      leave_shared(at);
    } else {
      sched_yield();
    }
  }
}

static void share(unsigned thread) {
  if (thread == 0)
    pass_shared();
  else
    receive_shared();
}

/* A seat that its thread found is given back also as one in hand is, and not by another thread. */
static void *give_of_another(void *seat) {
  EXPECT(lfm_seat_give((lfm_seat *)seat), LFM_FOREIGN);
  return NULL;
}

static void give_to_another(lfm_seat *seat) {
  pthread_t thread;
  EXPECT(pthread_create(&thread, NULL, give_of_another, seat), 0);
  EXPECT(pthread_join(thread, NULL), 0);
}

static lfm_seat *found_seat(void) {
  lfm_status cause = LFM_DONE;
  lfm_seat *seat = lfm_seat_here(&inner, &cause);
  EXPECT(seat == NULL || cause != LFM_DONE, false);
  return seat;
}

static void give_found_seat(void) {
  lfm_seat *seat = found_seat();
  EXPECT(found_seat() == seat, true);
  give_to_another(seat);
  EXPECT(lfm_lock(seat), LFM_DONE);
  EXPECT(lfm_lock_here(&inner), LFM_AGAIN);
  EXPECT(lfm_seat_give(seat), LFM_HOLDING);
  EXPECT(lfm_seat_give_here(&inner), LFM_HOLDING);
  EXPECT(lfm_unlock(seat), LFM_STILL);
  EXPECT(lfm_unlock_here(&inner), LFM_DONE);
  EXPECT(lfm_seat_give(seat), LFM_DONE);
  lock(&inner);
  unlock(&inner);
}

/* The thread keeps its number: what it gives back is the seat that it found. */
static void give_here(void) {
  static lfm_mutex zero;
  EXPECT(lfm_seat_give_here(NULL), LFM_BLANK);
  EXPECT(lfm_seat_give_here(&zero), LFM_BLANK);
  uint64_t number = lfm_number(found_seat());
  for (int i = 0; i < 3; i++) {
    EXPECT(lfm_seat_give_here(&inner), LFM_DONE);
    EXPECT(lfm_unlock_here(&inner), LFM_NOT_OWNER);
    give_to_another(found_seat());
    EXPECT(lfm_number(found_seat()), number);
  }
}

/* The mutex is closed with a seat that the thread found, which goes with it. */
static void close_found(void) {
  const lfm_mutex new_one = LFM_MUTEX_INIT;
  for (int i = 0; i < 3; i++) {
    EXPECT(lfm_lock(found_seat()), LFM_DONE);
    EXPECT(lfm_mutex_close(&inner), LFM_HOLDING);
    EXPECT(lfm_unlock_here(&inner), LFM_DONE);
    EXPECT(lfm_mutex_close(&inner), LFM_DONE);
    EXPECT(lfm_seat_give_here(&inner), LFM_BLANK);
    inner = new_one;
  }
}

/* A destructor of thread-specific data locks again and again, also after the thread's number was given back. */
static pthread_key_t key;
static unsigned locked_late;
static void lock_late(void *at) {
  count_once(NULL);
  EXPECT(lfm_depth_here(&mutex), 0);
  locked_late++;
  if (locked_late % 3) EXPECT(pthread_setspecific(key, at), 0);
}

static void *end_late(void *at) {
  EXPECT(pthread_setspecific(key, &key), 0);
  count_once(NULL);
  return at;
}

static void ends(void) {
  pthread_t thread;
  EXPECT(pthread_key_create(&key, lock_late), 0);
  for (int i = 0; i < 4 * THREADS; i++) {
    EXPECT(pthread_create(&thread, NULL, end_late, NULL), 0);
    EXPECT(pthread_join(thread, NULL), 0);
  }
  EXPECT(locked_late, 3 * 4 * THREADS);
}

int main(void) {
  in_threads(THREADS, nest);
  EXPECT(nested_total, (uint64_t)THREADS * LOCKS);
  come_and_go();
  ends();
  many_mutexes();
  in_threads(2, share);
  give_here();
  give_found_seat();
  close_found();
  EXPECT(lfm_number(found_seat()) != 0, true); /* a search for leaks finds a seat that is not given back */
  EXPECT(lfm_mutex_close(&mutex), LFM_DONE);
  return 0;
}
