/* A destructor of thread-specific data finds its thread's seat by lfm_seat_here, after the thread's number was given back, and
 * locks by calls with that seat. The number is given back once more: one after another, many threads get the same one. In
 * between the destructor locks another mutex by the calls that find the seat: the seat that it has stays usable. */
#define _GNU_SOURCE
#include "expect.h"

enum { THREADS = 100 };
static lfm_mutex mutex = LFM_MUTEX_INIT, other = LFM_MUTEX_INIT;
static pthread_key_t key;
static unsigned ended;
static uint64_t number;

static lfm_seat *find_seat(void) {
  lfm_status cause = LFM_DONE;
  lfm_seat *seat = lfm_seat_here(&mutex, &cause);
  EXPECT(cause, LFM_DONE);
  EXPECT(seat == NULL, false);
  return seat;
}

static void lock_late(void *at) {
  (void)at;
  lfm_seat *seat = find_seat();
  EXPECT(lfm_number(seat), number);
  EXPECT(lfm_lock_here(&other), LFM_DONE);
  EXPECT(lfm_unlock_here(&other), LFM_DONE);
  EXPECT(find_seat() == seat, true);
  EXPECT(lfm_lock(seat), LFM_DONE);
  EXPECT(lfm_depth_here(&mutex), 1);
  ended++;
  EXPECT(lfm_unlock(seat), LFM_DONE);
}

static void *end_late(void *at) {
  EXPECT(pthread_setspecific(key, &key), 0);
  EXPECT(lfm_lock_here(&mutex), LFM_DONE);
  uint64_t found = lfm_number(find_seat());
  if (number == 0) number = found;
  EXPECT(found, number);
  EXPECT(lfm_unlock_here(&mutex), LFM_DONE);
  return at;
}

int main(void) {
  EXPECT(pthread_key_create(&key, lock_late), 0);
  for (int i = 0; i < THREADS; i++) {
    pthread_t thread;
    EXPECT(pthread_create(&thread, NULL, end_late, NULL), 0);
    EXPECT(pthread_join(thread, NULL), 0);
  }
  EXPECT(ended, THREADS);
  EXPECT(lfm_mutex_close(&mutex), LFM_DONE);
  EXPECT(lfm_mutex_close(&other), LFM_DONE);
  return 0;
}
