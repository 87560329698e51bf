/* Compiled into a libligdrosa_pthread.so for tests, by -include: it counts its calls in the file that CALLS_FILE names. The
 * file has two numbers of 8 bytes: how many calls were made over Ligdrosa, and how many were passed on. Processes that a
 * program starts count in the same file. */
#define _GNU_SOURCE
#include <fcntl.h>
#include <stdint.h>
#include <stdlib.h>
#include <sys/mman.h>
#include <unistd.h>

enum call_counted { made, passed_on, CALLS_COUNTED };

/* Null if there is no such file. */
static uint64_t *map_counts(void) {
  const char *name = getenv("CALLS_FILE");
  int file = name ? open(name, O_RDWR | O_CREAT | O_CLOEXEC, 0600) : -1;
  if (file < 0) return NULL;
  void *at = ftruncate(file, CALLS_COUNTED * sizeof(uint64_t)) ? MAP_FAILED
             : mmap(NULL, CALLS_COUNTED * sizeof(uint64_t), PROT_READ | PROT_WRITE, MAP_SHARED, file, 0);
  close(file);
  return at == MAP_FAILED ? NULL : (uint64_t *)at;
}

static void count_call(enum call_counted what) {
  static uint64_t *counts;
  uint64_t *found = __atomic_load_n(&counts, __ATOMIC_ACQUIRE);
  if (!found) found = map_counts();
  if (!found) return;
  __atomic_store_n(&counts, found, __ATOMIC_RELEASE);
  __atomic_add_fetch(&found[what], 1, __ATOMIC_RELAXED);
}
#define COUNT_CALL(what) count_call(what)
