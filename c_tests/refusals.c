/* Each refusal of a call of an open mutex, in one thread: a refused call changes nothing. What is refused as a mutex is opened,
 * refused memory, and numbers that are all taken have tests of their own.
 *
 * The test has the C file of the library in it, and makes some of its calls itself. */
#include "../c/ligdrosa.c"
#include "expect.h"

static lfm_mutex mutex;
static lfm_seat first, second, third;

static void what_is_blank(void) {
  static lfm_mutex blank;
  static lfm_condvar condvar;
  const struct timespec time = {0, 0};
  static lfm_seat seat;
  EXPECT(lfm_mutex_new(NULL, 1, 1), LFM_BLANK);
  EXPECT(lfm_seat_take(NULL, &seat), LFM_BLANK);
  EXPECT(lfm_seat_take(&blank, &seat), LFM_BLANK);
  EXPECT(lfm_mutex_close(NULL), LFM_BLANK);
  EXPECT(lfm_mutex_close(&blank), LFM_BLANK);
  EXPECT(lfm_seat_give(NULL), LFM_BLANK);
  EXPECT(lfm_seat_give(&seat), LFM_BLANK);
  EXPECT(lfm_lock(NULL), LFM_BLANK);
  EXPECT(lfm_lock(&seat), LFM_BLANK);
  EXPECT(lfm_try_lock(NULL), LFM_BLANK);
  EXPECT(lfm_try_lock(&seat), LFM_BLANK);
  EXPECT(lfm_unlock(NULL), LFM_BLANK);
  EXPECT(lfm_unlock(&seat), LFM_BLANK);
  EXPECT(lfm_lock_in_order(NULL), LFM_BLANK);
  EXPECT(lfm_lock_in_order(&seat), LFM_BLANK);
  EXPECT(lfm_try_lock_for(&seat, 1), LFM_BLANK);
  EXPECT(lfm_try_lock_until(&seat, LFM_MONOTONIC, &time), LFM_BLANK);
  EXPECT(lfm_lock_here(NULL), LFM_BLANK);
  EXPECT(lfm_lock_here(&blank), LFM_BLANK);
  EXPECT(lfm_try_lock_here(&blank), LFM_BLANK);
  EXPECT(lfm_unlock_here(NULL), LFM_BLANK);
  EXPECT(lfm_unlock_here(&blank), LFM_BLANK);
  EXPECT(lfm_wait(NULL, &seat), LFM_BLANK);
  EXPECT(lfm_wait(&condvar, NULL), LFM_BLANK);
  EXPECT(lfm_wait(&condvar, &seat), LFM_BLANK);
  EXPECT(lfm_wait_for(&condvar, &seat, 1), LFM_BLANK);
  EXPECT(lfm_wait_until(&condvar, &seat, LFM_MONOTONIC, &time), LFM_BLANK);
  EXPECT(lfm_wait_here(&condvar, &blank), LFM_BLANK);
  EXPECT(lfm_wait_here(&condvar, NULL), LFM_BLANK);
  EXPECT(lfm_wake_one(NULL), LFM_BLANK);
  EXPECT(lfm_wake_all(NULL), LFM_BLANK);
  EXPECT(lfm_condvar_close(NULL), LFM_BLANK);
  EXPECT(lfm_after_fork(NULL, NULL), LFM_BLANK);
  EXPECT(lfm_after_fork(&blank, NULL), LFM_BLANK);
  EXPECT(lfm_depth_here(NULL) + lfm_depth_here(&blank) + lfm_takes_left(NULL) + lfm_takes_left(&blank), 0);
  EXPECT(lfm_number(NULL) + lfm_depth(NULL) + lfm_left(NULL), 0);
  EXPECT(lfm_number(&seat) + lfm_depth(&seat) + lfm_left(&seat), 0);
}

/* A call makes a handle blank, whatever bytes lay there. */
static void what_the_library_calls_blank(void) {
  static unsigned char a[POOL_BYTES] __attribute__((aligned(LINE))), b[SEAT_BYTES] __attribute__((aligned(LINE)));
  memset(a, 0xA5, sizeof a);
  memset(b, 0xA5, sizeof b);
  lfm_c_blank_pool(a);
  lfm_c_blank_pool_seat(b);
  EXPECT(lfm_c_pool_take_seat(a, b), LFM_BLANK);
  EXPECT(lfm_c_pool_ask(b, 0), LFM_BLANK);
  EXPECT(lfm_c_pool_receive(b, 0), LFM_BLANK);
  EXPECT(lfm_c_pool_try_lock(b, 0), LFM_BLANK);
  EXPECT(lfm_c_pool_unlock(b, 0), LFM_BLANK);
  EXPECT(lfm_c_pool_number(b) + lfm_c_pool_depth(b, 0) + lfm_c_pool_count(b, 0), 0);
}

/* How many seats there are is not limited by the mutex. */
static void seats_taken_and_back(void) {
  EXPECT(lfm_mutex_new(&mutex, 2, 100), LFM_DONE);
  EXPECT(lfm_mutex_new(&mutex, 2, 100), LFM_TAKEN);
  EXPECT(lfm_seat_take(&mutex, NULL), LFM_BLANK);
  EXPECT(lfm_seat_take(&mutex, &first), LFM_DONE);
  EXPECT(lfm_seat_take(&mutex, &first), LFM_TAKEN);
  EXPECT(lfm_seat_take(&mutex, &second), LFM_DONE);
  EXPECT(lfm_seat_take(&mutex, &third), LFM_DONE);
  EXPECT(lfm_lock(&first), LFM_DONE);
  EXPECT(lfm_seat_give(&first), LFM_HOLDING);
  EXPECT(lfm_mutex_close(&mutex), LFM_NOT_BACK);
  EXPECT(lfm_depth(&first), 1);
  EXPECT(lfm_unlock(&first), LFM_DONE);
  uint64_t number = lfm_number(&first);
  EXPECT(number != 0 && number != lfm_number(&second) && number != lfm_number(&third), true);
  EXPECT(lfm_seat_give(&first), LFM_DONE);
  EXPECT(lfm_number(&first), 0);
  EXPECT(lfm_seat_give(&first), LFM_BLANK);
  EXPECT(lfm_seat_give(&third), LFM_DONE);
  EXPECT(lfm_mutex_close(&mutex), LFM_NOT_BACK);
  EXPECT(lfm_seat_take(&mutex, &third), LFM_DONE);
  EXPECT(lfm_seat_take(&mutex, &first), LFM_DONE);
  EXPECT(lfm_number(&first), number); /* that which was given back last is taken first */
  EXPECT(lfm_seat_give(&first), LFM_DONE);
  EXPECT(lfm_seat_give(&third), LFM_DONE);
  EXPECT(lfm_seat_give(&second), LFM_DONE);
  EXPECT(lfm_mutex_close(&mutex), LFM_DONE);
  EXPECT(lfm_mutex_close(&mutex), LFM_BLANK);
  EXPECT(lfm_seat_take(&mutex, &first), LFM_BLANK);
}

/* What is left is told as if nothing were ever used up, by seats and by mutexes. */
static void what_is_left(void) {
  EXPECT(lfm_mutex_new(&mutex, 3, 2), LFM_DONE);
  EXPECT(lfm_seat_take(&mutex, &first), LFM_DONE);
  for (int i = 0; i < 10; i++) {
    EXPECT(lfm_lock(&first), LFM_DONE);
    EXPECT(lfm_left(&first), LFM_MOST_TAKES);
    EXPECT(lfm_unlock(&first), LFM_DONE);
  }
  EXPECT(lfm_takes_left(&mutex), 3 * LFM_MOST_TAKES);
  EXPECT(lfm_seat_give(&first), LFM_DONE);
  EXPECT(lfm_mutex_close(&mutex), LFM_DONE);
}

static void two_seats(void) {
  EXPECT(lfm_mutex_new(&mutex, 2, 100), LFM_DONE);
  EXPECT(lfm_seat_take(&mutex, &first), LFM_DONE);
  EXPECT(lfm_seat_take(&mutex, &second), LFM_DONE);
}

static void both_back(void) {
  EXPECT(lfm_seat_give(&first), LFM_DONE);
  EXPECT(lfm_seat_give(&second), LFM_DONE);
  EXPECT(lfm_mutex_close(&mutex), LFM_DONE);
}

static void calls_of_a_seat(void) {
  two_seats();
  EXPECT(lfm_unlock(&first), LFM_NOT_OWNER);
  EXPECT(lfm_lock(&first), LFM_DONE);
  EXPECT(lfm_try_lock(&second), LFM_BUSY);
  EXPECT(lfm_unlock(&second), LFM_NOT_OWNER);
  for (uint64_t depth = 2; depth <= 65535; depth++) EXPECT(lfm_lock(&first), LFM_AGAIN);
  EXPECT(lfm_lock(&first), LFM_DEPTH_FULL);
  EXPECT(lfm_try_lock(&first), LFM_DEPTH_FULL);
  EXPECT(lfm_lock_in_order(&first), LFM_DEPTH_FULL);
  EXPECT(lfm_try_lock_for(&first, 1), LFM_DEPTH_FULL);
  EXPECT(lfm_depth(&first), 65535);
  for (uint64_t depth = 65534; depth >= 1; depth--) EXPECT(lfm_unlock(&first), LFM_STILL);
  EXPECT(lfm_unlock(&first), LFM_DONE);
  EXPECT(lfm_try_lock(&first), LFM_DONE);
  EXPECT(lfm_unlock(&first), LFM_DONE);
  both_back();
}

/* A seat sleeps while it waits for the mutex: here the halves of a lock are called one by one. */
static void calls_of_a_sleeping_seat(void) {
  static lfm_condvar condvar;
  two_seats();
  void *holder = seat_in(first.by, first.mutex), *sleeper = seat_in(second.by, second.mutex);
  uint64_t index = index_of(first.mutex);
  EXPECT(lfm_lock(&first), LFM_DONE);
  EXPECT(lfm_c_pool_ask(sleeper, index), LFM_ASLEEP);
  EXPECT(lfm_c_pool_receive(sleeper, index), LFM_ASLEEP);
  EXPECT(lfm_lock(&second), LFM_SEAT_ASLEEP);
  EXPECT(lfm_try_lock(&second), LFM_SEAT_ASLEEP);
  EXPECT(lfm_unlock(&second), LFM_SEAT_ASLEEP);
  EXPECT(lfm_seat_give(&second), LFM_SEAT_ASLEEP);
  EXPECT(lfm_lock_in_order(&second), LFM_SEAT_ASLEEP);
  EXPECT(lfm_try_lock_for(&second, 1), LFM_SEAT_ASLEEP);
  EXPECT(lfm_wait(&condvar, &second), LFM_SEAT_ASLEEP);
  EXPECT(lfm_c_pool_unlock(holder, index), LFM_GRANTED + 256 * lfm_c_pool_number(sleeper));
  first.by->holds--;
  EXPECT(lfm_c_pool_receive(sleeper, index), LFM_DONE);
  EXPECT(lfm_c_pool_receive(sleeper, index), LFM_NOT_WAITING);
  second.by->holds++;
  EXPECT(lfm_unlock(&second), LFM_DONE);
  both_back();
}

/* A wait that a seat refuses says why; nothing is listed then, and the seat holds as before. */
static void waits_that_a_seat_refuses(void) {
  static lfm_condvar condvar;
  two_seats();
  EXPECT(lfm_wait(&condvar, &first), LFM_NOT_OWNER);
  EXPECT(lfm_lock(&first), LFM_DONE);
  EXPECT(lfm_wait(&condvar, &second), LFM_NOT_OWNER);
  EXPECT(lfm_depth(&first), 1);
  EXPECT(lfm_lock(&first), LFM_AGAIN);
  EXPECT(lfm_wait(&condvar, &first), LFM_NESTED);
  EXPECT(lfm_depth(&first), 2);
  EXPECT(lfm_wake_one(&condvar), LFM_NOBODY);
  EXPECT(lfm_wake_all(&condvar), LFM_NOBODY);
  EXPECT(lfm_unlock(&first), LFM_STILL);
  EXPECT(lfm_unlock(&first), LFM_DONE);
  EXPECT(lfm_condvar_close(&condvar), LFM_DONE);
  both_back();
}

static void times_that_are_refused(void) {
  static lfm_condvar condvar;
  const struct timespec whole = {0, 0}, below = {0, -1}, above = {0, 1000000000};
  two_seats();
  EXPECT(lfm_lock(&first), LFM_DONE);
  for (int clock = -1; clock < 12; clock++) {
    bool is_known = clock == LFM_REALTIME || clock == LFM_MONOTONIC;
    EXPECT(lfm_try_lock_until(&second, clock, &whole), is_known ? LFM_BUSY : LFM_LIMIT);
    EXPECT(lfm_try_lock_until(&second, clock, &below), LFM_LIMIT);
    EXPECT(lfm_try_lock_until(&second, clock, &above), LFM_LIMIT);
    EXPECT(lfm_wait_until(&condvar, &first, clock, &whole), is_known ? LFM_TIMED_OUT : LFM_LIMIT);
    EXPECT(lfm_wait_until(&condvar, &first, clock, &above), LFM_LIMIT);
  }
  const struct timespec before = {-5, 0};
  EXPECT(lfm_try_lock_until(&second, LFM_REALTIME, &before), LFM_BUSY);
  EXPECT(lfm_wait_until(&condvar, &first, LFM_REALTIME, &before), LFM_TIMED_OUT);
  EXPECT(lfm_wait_until(&condvar, &first, LFM_REALTIME, NULL), LFM_BLANK);
  EXPECT(lfm_try_lock_until(&second, LFM_REALTIME, NULL), LFM_BLANK);
  EXPECT(lfm_depth(&first), 1);
  EXPECT(lfm_unlock(&first), LFM_DONE);
  EXPECT(lfm_condvar_close(&condvar), LFM_DONE);
  both_back();
}

/* A thread that has no seat takes none by calls of the holder alone. */
static void calls_of_a_thread_without_seat(unsigned thread) {
  static lfm_mutex own_mutex = LFM_MUTEX_INIT;
  static lfm_condvar condvar;
  (void)thread;
  EXPECT(lfm_unlock_here(&own_mutex), LFM_NOT_OWNER);
  EXPECT(lfm_wait_here(&condvar, &own_mutex), LFM_NOT_OWNER);
  EXPECT(lfm_wait_here(NULL, &own_mutex), LFM_BLANK);
  EXPECT(lfm_wait_for_here(NULL, &own_mutex, 1), LFM_BLANK);
  EXPECT(lfm_wait_all_holds_here(NULL, &own_mutex), LFM_BLANK);
  EXPECT(lfm_wait_for_here(&condvar, &own_mutex, 1), LFM_NOT_OWNER);
  EXPECT(own_mutex.core == NULL, true);
  EXPECT(lfm_seat_take(&own_mutex, &first), LFM_DONE);
  EXPECT(lfm_unlock_here(&own_mutex), LFM_NOT_OWNER);
  EXPECT(lfm_depth_here(&own_mutex), 0);
  EXPECT(lfm_seat_give_here(&own_mutex), LFM_BLANK);
  EXPECT(lfm_wake_all(&condvar), LFM_NOBODY);
  EXPECT(own.by == &nobody, true);
  EXPECT(lfm_lock_here(&own_mutex), LFM_DONE);
  EXPECT(lfm_try_lock(&first), LFM_BUSY);
  EXPECT(lfm_mutex_close(&own_mutex), LFM_NOT_BACK);
  EXPECT(lfm_seat_give(&first), LFM_DONE);
  EXPECT(lfm_mutex_close(&own_mutex), LFM_HOLDING);
  EXPECT(lfm_depth_here(&own_mutex), 1);
  EXPECT(lfm_unlock_here(&own_mutex), LFM_DONE);
  EXPECT(lfm_mutex_close(&own_mutex), LFM_DONE);
  EXPECT(lfm_mutex_close(&own_mutex), LFM_BLANK);
  static lfm_mutex never_opened = LFM_MUTEX_INIT;
  EXPECT(lfm_takes_left(&never_opened), 64 * LFM_MOST_TAKES);
  EXPECT(lfm_mutex_close(&never_opened), LFM_DONE);
}

static void texts(void) {
  for (int status = 0; status < 64; status++) {
    bool is_one = status <= LFM_TIMED_OUT || (status >= LFM_BLANK && status <= LFM_WAITED_FOR) ||
                  (status >= LFM_SEAT_ASLEEP && status <= LFM_BUSY);
    EXPECT(strcmp(lfm_status_text((lfm_status)status), "no status of ligdrosa") != 0, is_one);
  }
  EXPECT(lfm_version(), LFM_VERSION);
}

int main(void) {
  what_is_blank();
  what_the_library_calls_blank();
  in_threads(1, calls_of_a_thread_without_seat);
  seats_taken_and_back();
  what_is_left();
  calls_of_a_seat();
  calls_of_a_sleeping_seat();
  waits_that_a_seat_refuses();
  times_that_are_refused();
  texts();
  return 0;
}
