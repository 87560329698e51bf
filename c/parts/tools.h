/* What tools that check threads are told, how many processors there are, and where the library's own memory comes from.
 * Which calls tell tools of a lock is decided in lock.h.
 *
 * Tools are told what a lock and an unlock order: ThreadSanitizer, and Helgrind and DRD of valgrind if its headers were
 * found. An unlock orders something only if it releases the mutex. From valgrind's tools the library hides its own memory,
 * since they don't know atomic operations. */

#if __has_include(<valgrind/helgrind.h>) && __has_include(<valgrind/drd.h>)
#include <valgrind/helgrind.h>
static void tell_helgrind_before(void *of) { ANNOTATE_HAPPENS_BEFORE(of); }
static void tell_helgrind_after(void *of) { ANNOTATE_HAPPENS_AFTER(of); }
#include <valgrind/drd.h>
#define IS_IN_VALGRIND RUNNING_ON_VALGRIND
SLOW_PATH void hide_in_valgrind(void *at, size_t bytes) {
  VALGRIND_HG_DISABLE_CHECKING(at, bytes);
  ANNOTATE_BENIGN_RACE_SIZED(at, bytes, "of ligdrosa");
}
#else
#define IS_IN_VALGRIND 0
#define ANNOTATE_HAPPENS_AFTER(of) ((void)(of))
#define ANNOTATE_HAPPENS_BEFORE(of) ((void)(of))
static void tell_helgrind_before(void *of) { (void)of; }
static void tell_helgrind_after(void *of) { (void)of; }
static void hide_in_valgrind(void *at, size_t bytes) { (void)at, (void)bytes; }
#endif
void __tsan_acquire(void *of) __attribute__((weak));
void __tsan_release(void *of) __attribute__((weak));

static void hide(void *at, size_t bytes) {
  if (IS_IN_VALGRIND) hide_in_valgrind(at, bytes);
}

/* How many processors the program's first thread could use when the library was loaded: 8 until the system is asked, and also if
 * it doesn't tell. */
static uint32_t processors = 8;

__attribute__((constructor(101))) static void count_processors(void) {
  unsigned long mask[128];
  uint32_t count = 0;
  long bytes = syscall(SYS_sched_getaffinity, getpid(), sizeof mask, mask);
  for (long i = 0; i < bytes / (long)sizeof mask[0]; i++) count += (uint32_t)__builtin_popcountl(mask[i]);
  if (count) processors = count;
}

/* A seat spins only if at most this number are queued: the number of processors, or 0 if there is one. */
static uint32_t most_spinners(void) { return processors == 1 ? 0 : processors; }

/* Memory that is all 0, or null. errno stays as it was. It is asked of the system, and not of malloc, which may itself lock a
 * mutex of this library. */
static void *reserve_memory(size_t bytes) {
  int before = errno;
  void *at = mmap(NULL, bytes, PROT_READ | PROT_WRITE, MAP_PRIVATE | MAP_ANONYMOUS | MAP_NORESERVE, -1, 0);
  errno = before;
  if (at == MAP_FAILED) return NULL;
  hide(at, bytes);
  return at;
}

/* A block of the proved calls: its bytes lie behind this. */
struct block {
  size_t bytes;
} __attribute__((aligned(16)));

/* What the kit's functions call in place of malloc, free and realloc. */
void *lfm_allocate(size_t bytes);
void lfm_release(void *at);
void *lfm_resize(void *at, size_t bytes);

void *lfm_allocate(size_t bytes) {
  struct block *block = bytes <= SIZE_MAX / 2 ? (struct block *)reserve_memory(sizeof *block + bytes) : NULL;
  if (!block) return NULL;
  block->bytes = bytes;
  return block + 1;
}

void lfm_release(void *at) {
  if (!at) return;
  struct block *block = (struct block *)at - 1;
  munmap(block, sizeof *block + block->bytes);
}

void *lfm_resize(void *at, size_t bytes) {
  void *moved = lfm_allocate(bytes);
  if (!at || !moved) return moved;
  size_t before = ((struct block *)at - 1)->bytes;
  memcpy(moved, at, before < bytes ? before : bytes);
  lfm_release(at);
  return moved;
}
