/* An object whose last user destroys its mutex and frees it. */
#pragma once
#include "tools.h"

struct object {
  pthread_mutex_t mutex;
  int users;
};
static struct object *shared_object;

static void leave(struct object *object) {
  EXPECT(pthread_mutex_lock(&object->mutex), 0);
  bool is_last = --object->users == 0;
  EXPECT(pthread_mutex_unlock(&object->mutex), 0);
  if (!is_last) return;
  EXPECT(pthread_mutex_destroy(&object->mutex), 0);
  memset(object, 85, sizeof *object);
  free(object);
}

static pthread_barrier_t meeting;
static void *use_objects(void *at) {
  for (int i = 0; i < 500; i++) {
    if (!at) {
      shared_object = (struct object *)malloc(sizeof *shared_object);
      EXPECT(pthread_mutex_init(&shared_object->mutex, NULL), 0);
      shared_object->users = 3;
    }
    pthread_barrier_wait(&meeting);
    struct object *object = shared_object;
    pthread_barrier_wait(&meeting);
    leave(object);
  }
  return NULL;
}

static void test_last_users(void) {
  EXPECT(pthread_barrier_init(&meeting, NULL, 3), 0);
  in_threads(3, use_objects);
  EXPECT(pthread_barrier_destroy(&meeting), 0);
}
