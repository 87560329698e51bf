/* All 4,095 numbers of a process are taken, by threads and by seats in hand. Whoever comes next is refused as LFM_NO_SEAT: a
 * thread, and a seat in hand. Those that have a number go on, also by a lock with a time limit that gets no deputy. After one has
 * ended or was given back, the next gets its number. A thread without a number closes a mutex of whose holders it sees nothing:
 * then no other mutex gets the number of that. Threads whose timed locks end leave at most half of the numbers in a queue.
 *
 * The test has the C file of the library in it. */
#include "../c/ligdrosa.c"
#include "expect.h"

enum { THREADS = 50, SEATS = MOST_PARTICIPANTS - THREADS - 1 };
static const uint64_t LIMIT = 60000000000, SHORT = 3000000, SHORTEST = 50000;
static lfm_mutex mutex = LFM_MUTEX_INIT, of_seats, unseen = LFM_MUTEX_INIT;
static lfm_seat seats[SEATS], next;
static int arrived, may_end;
static unsigned total;

static int seen(int *word) { return __atomic_load_n(word, __ATOMIC_SEQ_CST); }
static void set(int *word, int value) { __atomic_store_n(word, value, __ATOMIC_SEQ_CST); }

static void count_once(void) {
  EXPECT(lfm_lock_here(&mutex), LFM_DONE);
  total++;
  EXPECT(lfm_is_refused(lfm_unlock_here(&mutex)), false);
}

/* Has a number until it may end. The thread with this number ends first. */
static void *live(void *number) {
  count_once();
  __atomic_fetch_add(&arrived, 1, __ATOMIC_SEQ_CST);
  while (seen(&may_end) <= *(int *)number) nap_for(NAP);
  count_once();
  return NULL;
}

static void *come_too_late(void *at) {
  lfm_status cause = LFM_DONE;
  EXPECT(lfm_lock_here(&mutex), LFM_NO_SEAT);
  EXPECT(lfm_try_lock_here(&mutex), LFM_NO_SEAT);
  EXPECT(lfm_lock_in_order_here(&mutex), LFM_NO_SEAT);
  EXPECT(lfm_try_lock_for_here(&mutex, LIMIT), LFM_NO_SEAT);
  EXPECT(lfm_seat_here(&mutex, &cause) == NULL, true);
  EXPECT(cause, LFM_NO_SEAT);
  EXPECT(lfm_unlock_here(&mutex), LFM_NOT_OWNER);
  EXPECT(lfm_depth_here(&mutex), 0);
  EXPECT(lfm_seat_give_here(&mutex), LFM_BLANK);
  return at;
}

static void *come(void *at) {
  count_once();
  return at;
}

static void *close_unseen(void *at) {
  EXPECT(lfm_mutex_close(&unseen), LFM_DONE);
  return at;
}

static void in_a_thread(void *(*run)(void *)) {
  pthread_t thread;
  EXPECT(pthread_create(&thread, NULL, run, NULL), 0);
  EXPECT(pthread_join(thread, NULL), 0);
}

static void *unlock_later(void *at) {
  nap_for(10 * LONG_NAP);
  EXPECT(lfm_unlock((lfm_seat *)at), LFM_DONE);
  return NULL;
}

/* Those that have a number lock as before. A deputy would be one more: without it a timed lock tries. */
static void those_that_have_one(void) {
  count_once();
  for (int i = 0; i < SEATS; i += SEATS / 7) {
    EXPECT(lfm_lock(&seats[i]), LFM_DONE);
    EXPECT(lfm_try_lock_here(&of_seats), LFM_BUSY);
    EXPECT(lfm_try_lock_for_here(&of_seats, 0), LFM_BUSY);
    EXPECT(lfm_try_lock_for_here(&of_seats, SHORT), LFM_BUSY);
    EXPECT(lfm_depth_here(&of_seats), 0);
    pthread_t unlocks;
    EXPECT(pthread_create(&unlocks, NULL, unlock_later, &seats[i]), 0);
    EXPECT(lfm_try_lock_for_here(&of_seats, LIMIT), LFM_DONE);
    EXPECT(pthread_join(unlocks, NULL), 0);
    EXPECT(lfm_unlock_here(&of_seats), LFM_DONE);
  }
}

static void take_all(pthread_t *threads, int *numbers) {
  count_once();
  EXPECT(lfm_mutex_new(&of_seats, 1, 1), LFM_DONE);
  for (int i = 0; i < THREADS; i++) {
    numbers[i] = i;
    EXPECT(pthread_create(&threads[i], NULL, live, &numbers[i]), 0);
  }
  while (seen(&arrived) != THREADS) nap_for(NAP);
  for (int i = 0; i < SEATS; i++) EXPECT(lfm_seat_take(&of_seats, &seats[i]), LFM_DONE);
}

/* No mutex that is opened later has the number of the one that this thread holds. */
static void closed_unseen(void) {
  enum { LATER = 2000 };
  static lfm_mutex later[LATER];
  EXPECT(lfm_lock_here(&unseen), LFM_DONE);
  mutex_word word = load_mutex(&unseen);
  in_a_thread(close_unseen);
  for (int i = 0; i < LATER; i++) {
    EXPECT(lfm_mutex_new(&later[i], 1, 1), LFM_DONE);
    EXPECT(load_mutex(&later[i]) == word, false);
  }
  for (int i = 0; i < LATER; i++) EXPECT(lfm_mutex_close(&later[i]), LFM_DONE);
}

static void *give_up(void *at) {
  EXPECT(lfm_try_lock_for_here(&mutex, SHORTEST), LFM_BUSY);
  return at;
}

/* Threads give up and end while the mutex is held. The places that they leave take no number of those that come later. */
static void places_left(void) {
  EXPECT(lfm_lock_here(&mutex), LFM_DONE);
  /* on a busy machine the time of some is over before they queue */
  for (int i = 0; i < 8 * MOST_DEPUTIES && LFM_PROCESS.deputies < MOST_DEPUTIES; i++) in_a_thread(give_up);
  for (int i = 0; i < 50; i++) in_a_thread(give_up);
  EXPECT(LFM_PROCESS.deputies, MOST_DEPUTIES);
  for (int i = 0; i < SEATS / 2 - THREADS; i++) EXPECT(lfm_seat_take(&of_seats, &seats[i]), LFM_DONE);
  for (int i = 0; i < SEATS / 2 - THREADS; i++) EXPECT(lfm_seat_give(&seats[i]), LFM_DONE);
  EXPECT(lfm_unlock_here(&mutex), LFM_GRANTED);
  EXPECT(LFM_PROCESS.deputies, 0);
}

int main(void) {
  pthread_t threads[THREADS];
  int numbers[THREADS];
  take_all(threads, numbers);
  for (int i = 0; i < 3; i++) {
    in_a_thread(come_too_late);
    EXPECT(lfm_seat_take(&of_seats, &next), LFM_NO_SEAT);
    EXPECT(lfm_number(&next), 0);
  }
  those_that_have_one();
  uint64_t number = lfm_number(&seats[7]);
  EXPECT(lfm_seat_give(&seats[7]), LFM_DONE);
  for (int i = 0; i < 3; i++) in_a_thread(come); /* each gives it back as it ends */
  EXPECT(lfm_seat_take(&of_seats, &next), LFM_DONE);
  EXPECT(lfm_number(&next), number);
  in_a_thread(come_too_late);
  set(&may_end, 1);
  EXPECT(pthread_join(threads[0], NULL), 0);
  in_a_thread(come);
  EXPECT(lfm_seat_take(&of_seats, &seats[7]), LFM_DONE);
  in_a_thread(come_too_late);
  closed_unseen();
  set(&may_end, THREADS);
  for (int i = 1; i < THREADS; i++) EXPECT(pthread_join(threads[i], NULL), 0);
  EXPECT(total, 2 * THREADS + 2 + 4);
  for (int i = 0; i < SEATS; i++) EXPECT(lfm_seat_give(&seats[i]), LFM_DONE);
  EXPECT(lfm_mutex_close(&of_seats), LFM_NOT_BACK);
  EXPECT(lfm_seat_give(&next), LFM_DONE);
  places_left();
  EXPECT(lfm_mutex_close(&of_seats), LFM_DONE);
  EXPECT(lfm_mutex_close(&mutex), LFM_DONE);
  return 0;
}
