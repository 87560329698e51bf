/* A mutex and a condition variable lie in memory that can't be written until a handler of SIGSEGV allows it, as with a write
 * barrier of a collector of garbage. Their first calls write there. The test passes with libligdrosa_pthread.so preloaded, and
 * with the system. */
#define _GNU_SOURCE
#include <errno.h>
#include <sys/mman.h>
#include "../children.h"

enum { PAGE = 4096, SECONDS = 60 };
static void *page;
static volatile sig_atomic_t faults;

static void allow_writes(int signal) {
  (void)signal;
  faults++;
  if (mprotect(page, PAGE, PROT_READ | PROT_WRITE) != 0) _exit(1);
}

/* Makes the call with new memory, which has zeros. */
static void with_protected_page(void (*call)(void *)) {
  page = mmap(NULL, PAGE, PROT_READ, MAP_PRIVATE | MAP_ANONYMOUS, -1, 0);
  EXPECT(page == MAP_FAILED, false);
  call(page);
  EXPECT(munmap(page, PAGE), 0);
}

static void lock_and_unlock(void *at) {
  pthread_mutex_t *mutex = (pthread_mutex_t *)at;
  EXPECT(pthread_mutex_lock(mutex), 0);
  EXPECT(pthread_mutex_unlock(mutex), 0);
  EXPECT(pthread_mutex_destroy(mutex), 0);
}

static void wait_and_destroy(void *at) {
  static pthread_mutex_t mutex = PTHREAD_MUTEX_INITIALIZER;
  pthread_cond_t *condition = (pthread_cond_t *)at;
  struct timespec past = {1, 0};
  EXPECT(pthread_mutex_lock(&mutex), 0);
  EXPECT(pthread_cond_timedwait(condition, &mutex, &past), ETIMEDOUT);
  EXPECT(pthread_mutex_unlock(&mutex), 0);
  EXPECT(pthread_cond_destroy(condition), 0);
}

int main(void) {
  struct sigaction action = {.sa_handler = allow_writes};
  alarm(SECONDS);
  EXPECT(sigaction(SIGSEGV, &action, NULL), 0);
  with_protected_page(lock_and_unlock);
  EXPECT(faults, 1);
  with_protected_page(wait_and_destroy);
  EXPECT(faults, 2);
  return 0;
}
