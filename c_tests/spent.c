/* What a program sees after years: the proved calls answer LFM_SPENT. No lock is made then, and a wait returns without the
 * mutex. Holds are counted as before: a thread that holds nothing gives its number back as it ends. And a hold that is deep
 * goes on.
 *
 * The test has the C file of the library in it, and answers in place of its proved calls. */
#define lfm_c_pool_ask seen_ask
#define lfm_c_pool_try_lock seen_try_lock
#include "../c/ligdrosa.c"
#undef lfm_c_pool_ask
#undef lfm_c_pool_try_lock
#include "expect.h"
uint64_t lfm_c_pool_ask(void *seat, uint64_t index);
uint64_t lfm_c_pool_try_lock(void *seat, uint64_t index);

enum { LIMIT = 50000000 };
static lfm_mutex mutex = LFM_MUTEX_INIT;
static lfm_condvar condvar;
static lfm_seat seat;
static int is_spent, is_busy; /* asks and tries are refused; or tries find the mutex busy and asks are refused */

uint64_t seen_ask(void *handle, uint64_t index) {
  return is_spent || is_busy ? LFM_SPENT : lfm_c_pool_ask(handle, index);
}
/* A try by a seat that holds is never refused as spent. */
uint64_t seen_try_lock(void *handle, uint64_t index) {
  bool is_held = lfm_c_pool_depth(handle, index) != 0;
  return is_held || !(is_spent || is_busy) ? lfm_c_pool_try_lock(handle, index) : is_spent ? LFM_SPENT : LFM_BUSY;
}

static void refused_by_seat(void) {
  EXPECT(lfm_lock(&seat), LFM_SPENT);
  EXPECT(lfm_try_lock(&seat), is_spent ? LFM_SPENT : LFM_BUSY);
  EXPECT(lfm_lock_in_order(&seat), LFM_SPENT);
  EXPECT(lfm_try_lock_for(&seat, LIMIT), LFM_SPENT);
  EXPECT(lfm_depth(&seat), 0);
  EXPECT(seat.by->holds, 0);
  EXPECT(lfm_unlock(&seat), LFM_NOT_OWNER);
}

static void refused_here(unsigned thread) {
  (void)thread;
  EXPECT(lfm_lock_here(&mutex), LFM_SPENT);
  EXPECT(lfm_lock_in_order_here(&mutex), LFM_SPENT);
  EXPECT(lfm_try_lock_for_here(&mutex, LIMIT), LFM_SPENT);
  EXPECT(lfm_try_lock_here(&mutex), is_spent ? LFM_SPENT : LFM_BUSY);
  EXPECT(own.by->holds, 0);
}

/* A wait that can't acquire the mutex again says so. */
static void wait_without_end(void) {
  EXPECT(lfm_lock(&seat), LFM_DONE);
  EXPECT(lfm_lock(&seat), LFM_AGAIN);
  is_spent = 1;
  EXPECT(lfm_try_lock(&seat), LFM_AGAIN);
  EXPECT(lfm_unlock(&seat), LFM_STILL);
  EXPECT(lfm_unlock(&seat), LFM_STILL);
  EXPECT(lfm_wait_for(&condvar, &seat, 1), LFM_SPENT);
  EXPECT(lfm_depth(&seat), 0);
  EXPECT(seat.by->holds, 0);
  is_spent = 0;
}

int main(void) {
  EXPECT(lfm_seat_take(&mutex, &seat), LFM_DONE);
  for (int i = 0; i < 2; i++) {
    is_spent = i == 0;
    is_busy = !is_spent;
    refused_by_seat();
    in_threads(1, refused_here);
  }
  is_busy = 0;
  wait_without_end();
  EXPECT(lfm_try_lock_for(&seat, LIMIT), LFM_DONE);
  EXPECT(lfm_unlock(&seat), LFM_DONE);
  EXPECT(LFM_PROCESS.numbers.used <= 4, true); /* the seat, a thread at a time, and a deputy of each */
  EXPECT(lfm_seat_give(&seat), LFM_DONE);
  EXPECT(lfm_condvar_close(&condvar), LFM_DONE);
  EXPECT(lfm_mutex_close(&mutex), LFM_DONE);
  return 0;
}
