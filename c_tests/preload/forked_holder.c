/* A thread forks while it holds a mutex for which another thread is queued, and after it has signalled a third one. In the child
 * another thread makes the first call of the mutex: it sleeps until the thread that forked unlocks. The thread also holds mutexes
 * whose memory the system has back, or can't be read or written, or has other contents: the child lets that memory alone. The
 * test passes with libligdrosa_pthread.so preloaded, and with the system's mutex. */
#define _GNU_SOURCE
#include <sys/mman.h>
#include "../children.h"

enum { SOON = 100000 }; /* microseconds, in which a thread that was started falls asleep */
enum { PAGE = 4096, OVER = 0x5A };
static unsigned char contents[sizeof(pthread_mutex_t)];
static pthread_mutex_t mutex = PTHREAD_MUTEX_INITIALIZER;
static pthread_cond_t changed = PTHREAD_COND_INITIALIZER;
static bool is_changed;
static int calls;

static void *lock_once(void *at) {
  EXPECT(pthread_mutex_lock(&mutex), 0);
  calls++;
  EXPECT(pthread_mutex_unlock(&mutex), 0);
  return at;
}

static void *wait_for_change(void *at) {
  EXPECT(pthread_mutex_lock(&mutex), 0);
  while (!is_changed) EXPECT(pthread_cond_wait(&changed, &mutex), 0);
  EXPECT(pthread_mutex_unlock(&mutex), 0);
  return at;
}

/* Locks a mutex in memory that is mapped for it. */
static pthread_mutex_t *lock_in_own_memory(void) {
  void *at = mmap(NULL, PAGE, PROT_READ | PROT_WRITE, MAP_PRIVATE | MAP_ANONYMOUS, -1, 0);
  EXPECT(at == MAP_FAILED, false);
  EXPECT(pthread_mutex_init((pthread_mutex_t *)at, NULL), 0);
  EXPECT(pthread_mutex_lock((pthread_mutex_t *)at), 0);
  return (pthread_mutex_t *)at;
}

static pthread_mutex_t *overwritten, *read_only;

static void *lock_read_only(void *at) {
  EXPECT(pthread_mutex_lock(read_only), 0);
  EXPECT(pthread_mutex_unlock(read_only), 0);
  return at;
}

static void unlock_after_another_call(void) {
  pthread_t other;
  EXPECT(memcmp(overwritten, contents, sizeof contents), 0);
  EXPECT(pthread_create(&other, NULL, lock_once, NULL), 0);
  usleep(SOON);
  EXPECT(calls, 0);
  EXPECT(pthread_mutex_unlock(&mutex), 0);
  EXPECT(pthread_join(other, NULL), 0);
  EXPECT(calls, 1);
  EXPECT(pthread_mutex_lock(&mutex), 0);
  EXPECT(pthread_mutex_unlock(&mutex), 0);
}

/* With the word `ours` a thread also queues at a mutex in memory that can't be written: a lock of the system's would write there. */
int main(int words, char **word) {
  bool is_ours = words > 1 && strcmp(word[1], "ours") == 0;
  pthread_t waits, queued, queued_too;
  EXPECT(pthread_create(&waits, NULL, wait_for_change, NULL), 0);
  usleep(SOON);
  EXPECT(munmap(lock_in_own_memory(), PAGE), 0);
  EXPECT(mprotect(lock_in_own_memory(), PAGE, PROT_NONE), 0);
  overwritten = lock_in_own_memory();
  memset(contents, OVER, sizeof contents);
  memcpy(overwritten, contents, sizeof contents);
  EXPECT(pthread_mutex_lock(&mutex), 0);
  is_changed = true;
  EXPECT(pthread_cond_signal(&changed), 0);
  EXPECT(pthread_create(&queued, NULL, lock_once, NULL), 0);
  read_only = lock_in_own_memory();
  if (is_ours) EXPECT(pthread_create(&queued_too, NULL, lock_read_only, NULL), 0);
  usleep(SOON);
  EXPECT(mprotect(read_only, PAGE, PROT_READ), 0);
  EXPECT(in_child(unlock_after_another_call), 0);
  EXPECT(mprotect(read_only, PAGE, PROT_READ | PROT_WRITE), 0);
  EXPECT(pthread_mutex_unlock(read_only), 0);
  if (is_ours) EXPECT(pthread_join(queued_too, NULL), 0);
  EXPECT(calls, 0);
  EXPECT(pthread_mutex_unlock(&mutex), 0);
  EXPECT(pthread_join(waits, NULL), 0);
  EXPECT(pthread_join(queued, NULL), 0);
  EXPECT(calls, 1);
  return 0;
}
