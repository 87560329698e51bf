/* What the tests of stored memory share: a file that is mapped at one address, with a mutex in it that nobody holds, and a
 * condition variable at which a thread waits. */
#ifndef STORED_H
#define STORED_H
#include <sys/mman.h>
#include "../children.h"

enum { BYTES = 4096 };
enum { SOON = 100000 }; /* microseconds, in which a thread that was started falls asleep */
#define PLACE ((void *)0x2000000000)

struct image {
  pthread_mutex_t mutex, of_waiter;
  pthread_cond_t condition;
};

static inline struct image *map_image(int file) {
  void *at = mmap(PLACE, BYTES, PROT_READ | PROT_WRITE, MAP_SHARED | MAP_FIXED_NOREPLACE, file, 0);
  EXPECT(at == PLACE, true);
  return (struct image *)at;
}

static inline void *wait_for_ever(void *at) {
  struct image *image = (struct image *)at;
  EXPECT(pthread_mutex_lock(&image->of_waiter), 0);
  for (;;) EXPECT(pthread_cond_wait(&image->condition, &image->of_waiter), 0);
  return NULL;
}

static inline void store(struct image *image) {
  pthread_t waits;
  EXPECT(pthread_mutex_init(&image->mutex, NULL), 0);
  EXPECT(pthread_mutex_init(&image->of_waiter, NULL), 0);
  EXPECT(pthread_cond_init(&image->condition, NULL), 0);
  EXPECT(pthread_mutex_lock(&image->mutex), 0);
  EXPECT(pthread_mutex_unlock(&image->mutex), 0);
  EXPECT(pthread_create(&waits, NULL, wait_for_ever, image), 0);
  usleep(SOON);
}
#endif
