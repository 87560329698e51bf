/* Two threads make calls of one seat at the same time. Compiled with -DLFM_CHECKED, the program is ended with a text. A child
 * gives back a seat that is in a call of a thread which the child lacks, and is not ended.
 *
 * The test has the C file of the library in it, to see when a seat is in a call. */
#define LFM_CHECKED
#include "../c/ligdrosa.c"
#define lfm_seat_take lfm_seat_take_checked /* as ligdrosa.h defines it, which the C file undoes */
#include "children.h"

static lfm_mutex mutex;
static lfm_seat holder, seat;

static void *lock_it(void *at) {
  if (lfm_is_refused(lfm_lock(&seat))) abort();
  return at;
}

/* Starts a thread that is in a lock of the seat. */
static pthread_t begin_lock(void) {
  pthread_t thread;
  EXPECT(pthread_create(&thread, NULL, lock_it, NULL), 0);
  while (!__atomic_load_n(&seat.is_in_call, __ATOMIC_SEQ_CST)) sched_yield();
  return thread;
}

/* One thread sleeps in a lock of the seat, and another calls with it. */
static void call_beside(void) {
  begin_lock();
  if (lfm_is_refused(lfm_try_lock(&seat))) _exit(1);
  _exit(2);
}

/* A child gives back a seat while a thread of the parent is in a lock of it. */
static void give_in_child(void) {
  int status;
  pthread_t thread = begin_lock();
  pid_t child = fork();
  EXPECT(child >= 0, true);
  if (child == 0) _exit(lfm_seat_give(&seat) == LFM_DONE ? 0 : 1);
  EXPECT(waitpid(child, &status, 0), child);
  EXPECT(WIFEXITED(status) && WEXITSTATUS(status) == 0, true);
  EXPECT(lfm_is_refused(lfm_unlock(&holder)), false);
  EXPECT(pthread_join(thread, NULL), 0);
  EXPECT(lfm_unlock(&seat), LFM_DONE);
}

int main(void) {
  EXPECT(lfm_mutex_new(&mutex, 2, 100), LFM_DONE);
  EXPECT(lfm_seat_take(&mutex, &holder), LFM_DONE);
  EXPECT(lfm_seat_take(&mutex, &seat), LFM_DONE);
  EXPECT(lfm_lock(&seat), LFM_DONE);
  EXPECT(lfm_lock(&seat), LFM_AGAIN);
  EXPECT(lfm_unlock(&seat), LFM_STILL);
  EXPECT(lfm_unlock(&seat), LFM_DONE);
  EXPECT(lfm_lock(&holder), LFM_DONE);
  expect_abort(call_beside, "ligdrosa: two threads");
  give_in_child();
  return 0;
}
