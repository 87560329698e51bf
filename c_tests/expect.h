/* What the tests in C share: a wanted answer, and threads that begin together. A test ends with status 1 at its first wrong
 * answer. */
#ifndef EXPECT_H
#define EXPECT_H
#include <pthread.h>
#include <stdio.h>
#include <stdlib.h>
#include <string.h>
#include "ligdrosa.h"

static inline void wanted(const char *file, int line, const char *what, uint64_t found, uint64_t wanted) {
  if (found == wanted) return;
  fprintf(stderr, "%s:%d: %s is %llu, and %llu is wanted\n", file, line, what, (unsigned long long)found,
          (unsigned long long)wanted);
  exit(1);
}
#define EXPECT(what, is) wanted(__FILE__, __LINE__, #what, (uint64_t)(what), (uint64_t)(is))

/* Runs the function in this many threads, with the numbers 0 and on, and joins them. */
typedef struct worker {
  void (*run)(unsigned);
  unsigned number;
} worker;

static inline void *run_worker(void *at) {
  worker *w = (worker *)at;
  w->run(w->number);
  return NULL;
}

static inline void in_threads(unsigned count, void (*run)(unsigned)) {
  enum { MOST = 64 };
  pthread_t threads[MOST];
  worker workers[MOST];
  for (unsigned i = 0; i < count; i++) {
    workers[i].run = run;
    workers[i].number = i;
    EXPECT(pthread_create(&threads[i], NULL, run_worker, &workers[i]), 0);
  }
  for (unsigned i = 0; i < count; i++) EXPECT(pthread_join(threads[i], NULL), 0);
}
#endif
