/* Objects with a mutex that their users end together. A user locks with a short time limit. If the time is over it locks once
 * more, or leaves without the mutex, and then its seat may still be queued. The last user to leave closes the mutex at once, and
 * gives the memory back.
 *
 * With -DIS_DELAYED the test has the C file of the library in it, whose atomic operations are delayed at random. */
#define _GNU_SOURCE
#include "delayed.h"
#include "expect.h"

enum { USERS = 4, ROUNDS = 4000, LONGEST = 20000, HOLD = 200000 /* nanoseconds */, LIMIT = 1500 /* milliseconds */ };

typedef struct object {
  lfm_mutex mutex;
  int users;
  unsigned counter, counted; /* one guarded by the mutex, and one atomic */
} object;
static object *objects[ROUNDS];
static int arrived[ROUNDS];
static unsigned left_queued, closed_by_last;

static void use(object *at, uint64_t *state) {
  lfm_status status = lfm_try_lock_for_here(&at->mutex, at_random(state) % LONGEST);
  if (status == LFM_BUSY) {
    if (at_random(state) % 2) {
      __atomic_fetch_add(&left_queued, 1, __ATOMIC_RELAXED);
      return;
    }
    status = lfm_lock_here(&at->mutex);
  }
  EXPECT(status, LFM_DONE);
  at->counter++;
  __atomic_fetch_add(&at->counted, 1, __ATOMIC_RELAXED);
  uint64_t begun = nanoseconds_now(), time = at_random(state) % HOLD;
  while (nanoseconds_now() - begun < time) {
  }
  EXPECT(lfm_is_refused(lfm_unlock_here(&at->mutex)), false);
}

static void leave_object(object *at) {
  if (__atomic_sub_fetch(&at->users, 1, __ATOMIC_ACQ_REL) != 0) return;
  EXPECT(at->counter, at->counted);
  EXPECT(lfm_mutex_close(&at->mutex), LFM_DONE);
  memset(at, 0x5A, sizeof *at);
  free(at);
  __atomic_fetch_add(&closed_by_last, 1, __ATOMIC_RELAXED);
}

static object *new_object(void) {
  const lfm_mutex new_one = LFM_MUTEX_INIT_WITH(USERS);
  object *at = (object *)calloc(1, sizeof *at);
  EXPECT(at == NULL, false);
  at->mutex = new_one;
  at->users = USERS;
  return at;
}

/* All users meet at each object, until the time is over. */
static void work(unsigned user) {
  uint64_t state = 0x9E3779B97F4A7C15 * (user + 1), begun = nanoseconds_now();
  for (int i = 0; i < ROUNDS; i++) {
    if (user == 0 && nanoseconds_now() - begun < (uint64_t)LIMIT * 1000000) objects[i] = new_object();
    __atomic_fetch_add(&arrived[i], 1, __ATOMIC_SEQ_CST);
    while (__atomic_load_n(&arrived[i], __ATOMIC_SEQ_CST) < USERS) sched_yield();
    if (!objects[i]) return;
    use(objects[i], &state);
    leave_object(objects[i]);
    if (at_random(&state) % 64 == 0) sched_yield();
  }
}

int main(void) {
  in_threads(USERS, work);
  printf("%u objects, %u users left without the mutex\n", closed_by_last, left_queued);
  EXPECT(closed_by_last != 0, true);
  return 0;
}
