/* While the library is loaded and a thread takes its number, the system has no thread-specific key left. Then the number is not
 * given back when the thread ends. Later the system has a key: from there on threads give theirs back, and the next gets it.
 *
 * The test has the C file of the library in it and wraps the request for a key. */
#define _GNU_SOURCE
#include <errno.h>
#include <pthread.h>
static int seen_key_create(pthread_key_t *key, void (*end)(void *));
#define pthread_key_create seen_key_create
#include "../c/ligdrosa.c"
#undef pthread_key_create
#include "expect.h"

enum { THREADS = 8 };
static lfm_mutex mutex = LFM_MUTEX_INIT;
static bool is_left;

static int seen_key_create(pthread_key_t *key, void (*end)(void *)) {
  return is_left ? pthread_key_create(key, end) : EAGAIN;
}

static void *live(void *number) {
  EXPECT(lfm_lock_here(&mutex), LFM_DONE);
  EXPECT(lfm_unlock_here(&mutex), LFM_DONE);
  *(uint64_t *)number = own.by->number;
  return NULL;
}

/* The number that a thread had which has ended. */
static uint64_t number_of_thread(void) {
  pthread_t thread;
  uint64_t number = 0;
  EXPECT(pthread_create(&thread, NULL, live, &number), 0);
  EXPECT(pthread_join(thread, NULL), 0);
  return number;
}

int main(void) {
  for (uint64_t i = 1; i <= THREADS; i++) EXPECT(number_of_thread(), i);
  is_left = true;
  for (int i = 0; i < THREADS; i++) EXPECT(number_of_thread(), THREADS + 1);
  return 0;
}
