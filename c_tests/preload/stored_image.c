/* A program stores memory in a file, with a mutex in it that nobody holds, and a condition variable at which a thread waits. Later
 * runs map the file at the same address, and lock the mutex. The second run calls no other mutex before, and wakes all that
 * wait: nobody is there. The third one holds another one meanwhile, which is the first of that run, as the stored one was the
 * first of its own. The test passes with libligdrosa_pthread.so preloaded, and with the system. */
#define _GNU_SOURCE
#include <errno.h>
#include "stored.h"

enum { SECONDS = 60 };

static pthread_mutex_t other = PTHREAD_MUTEX_INITIALIZER;

static void *try_in_another(void *at) {
  EXPECT(pthread_mutex_trylock((pthread_mutex_t *)at), EBUSY);
  return NULL;
}

static void test_stored(pthread_mutex_t *stored) {
  pthread_t thread;
  EXPECT(pthread_mutex_lock(stored), 0);
  EXPECT(pthread_create(&thread, NULL, try_in_another, stored), 0);
  EXPECT(pthread_join(thread, NULL), 0);
  EXPECT(pthread_mutex_unlock(stored), 0);
}

/* Runs this program anew, in the same process. */
static void run(const char *name, const char *which, const char *file) {
  execl("/proc/self/exe", name, which, file, (char *)NULL);
  EXPECT(errno, 0);
}

int main(int words, char **word) {
  char text[16] = "";
  int file = words == 3 ? atoi(word[2]) : memfd_create("image", 0);
  alarm(SECONDS);
  if (words != 3) EXPECT(ftruncate(file, BYTES), 0);
  struct image *image = map_image(file);
  pthread_mutex_t *stored = &image->mutex;
  snprintf(text, sizeof text, "%d", file);
  if (words != 3) {
    store(image);
    test_stored(stored);
    run(word[0], "second", text);
  }
  if (strcmp(word[1], "second") == 0) {
    test_stored(stored);
    EXPECT(pthread_cond_broadcast(&image->condition), 0);
    run(word[0], "third", text);
  }
  EXPECT(pthread_mutex_lock(&other), 0);
  test_stored(stored);
  EXPECT(pthread_mutex_unlock(&other), 0);
  EXPECT(pthread_mutex_destroy(stored), 0);
  return 0;
}
