/* The end of a test of the GNU C library, which includes it by this name: the function main, and those functions of that
 * library's own test library which tests that fit call. They are called before they are declared, so they give an int. */
#include <pthread.h>
#include <stdint.h>
#include <stdlib.h>
#include <unistd.h>
#ifndef TEST_FUNCTION
#define TEST_FUNCTION do_test()
#endif

static void *exit_later(void *seconds) {
  sleep((unsigned)(uintptr_t)seconds);
  exit(0);
}

/* Ends the program with status 0 after this many seconds: for tests that are to wait for ever. */
int delayed_exit(int seconds) {
  pthread_t thread;
  return pthread_create(&thread, NULL, exit_later, (void *)(uintptr_t)seconds);
}

/* Calls that have to be made. */
int xpthread_mutex_lock(pthread_mutex_t *mutex) {
  if (pthread_mutex_lock(mutex) != 0) exit(1);
  return 0;
}

int xpthread_cond_wait(pthread_cond_t *cond, pthread_mutex_t *mutex) {
  if (pthread_cond_wait(cond, mutex) != 0) exit(1);
  return 0;
}

int main(int argc, char **argv) {
  (void)argc, (void)argv;
  return TEST_FUNCTION;
}
