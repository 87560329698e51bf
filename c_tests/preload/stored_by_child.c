/* Children of one process map a file at the same address, one after the other. The first stores a mutex there that nobody holds,
 * and a condition variable at which a thread waits. The second holds another mutex, which is the first of that child, as the
 * stored one was of its own, and tries the stored one. The third wakes all that wait: nobody is there. The test passes with
 * libligdrosa_pthread.so preloaded, and with the system. */
#define _GNU_SOURCE
#include "stored.h"

static pthread_mutex_t other = PTHREAD_MUTEX_INITIALIZER;
static int file;

static void store_image(void) { store(map_image(file)); }

static void try_beside_another(void) {
  EXPECT(pthread_mutex_lock(&other), 0);
  EXPECT(pthread_mutex_trylock(&map_image(file)->mutex), 0);
}

static void wake_all(void) { EXPECT(pthread_cond_broadcast(&map_image(file)->condition), 0); }

int main(void) {
  file = memfd_create("image", 0);
  EXPECT(ftruncate(file, BYTES), 0);
  EXPECT(in_child(store_image), 0);
  EXPECT(in_child(try_beside_another), 0);
  EXPECT(in_child(wake_all), 0);
  return 0;
}
