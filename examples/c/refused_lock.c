/* A program that goes on after a refused call. It closes its mutex, and a lock after that is refused. The functions answer
 * whether they were made, and the caller decides what to do.
 *
 *     cc refused_lock.c $(pkg-config --cflags --libs ligdrosa) -pthread
 *
 * With -Wthread-safety, clang has no warning of this program. It has one if a function reads `sum` without the mutex, or
 * ends without an unlock.
 */
#include <ligdrosa.h>
#include <pthread.h>
#include <stdio.h>

#ifdef __clang__
#define GUARDED_BY(mutex) __attribute__((guarded_by(mutex)))
#else
#define GUARDED_BY(mutex)
#endif

static lfm_mutex mutex = LFM_MUTEX_INIT;
static lfm_condvar added;
static long sum GUARDED_BY(mutex);

/* Adds a number: whether the lock was made. */
static bool add(long number) {
  if (!lfm_acquire_here(&mutex)) return false;
  sum += number;
  lfm_wake_one(&added);
  lfm_unlock_here(&mutex);
  return true;
}

/* Takes this number out as soon as the sum is that large: whether the calls were made. After a refused wait the thread holds
 * as before, unless the wait was refused as LFM_SPENT. Then the unlock is refused too. */
static bool take(long number) {
  if (!lfm_acquire_here(&mutex)) return false;
  bool is_refused = false;
  while (sum < number && !is_refused) is_refused = lfm_is_refused(lfm_wait_here(&added, &mutex));
  if (!is_refused) sum -= number;
  lfm_unlock_here(&mutex);
  return !is_refused;
}

/* Adds 1, and stores whether that was made. */
static void *add_one(void *is_made) {
  *(bool *)is_made = add(1);
  return NULL;
}

/* Whether another thread can add 1. */
static bool add_elsewhere(void) {
  pthread_t thread;
  bool is_made = false;
  if (pthread_create(&thread, NULL, add_one, &is_made) != 0 || pthread_join(thread, NULL) != 0) return false;
  return is_made;
}

int main(void) {
  if (!add(1) || !add_elsewhere() || !take(2)) return 1;
  if (lfm_is_refused(lfm_mutex_close(&mutex))) return 1;
  if (add_elsewhere()) return 1; /* the mutex is not open any more */
  puts("a lock was refused, and the program went on");
}
