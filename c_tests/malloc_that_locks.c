/* A program whose malloc locks a mutex of the library, as jemalloc may. Its first call comes before any constructor has run. The
 * thread-specific data of a thread's end needs memory, since other keys come before that of the library. Threads allocate,
 * time out, find seats, which are memory of malloc, and end. Meanwhile children are forked, for which the malloc holds its mutex:
 * they allocate too. A thread also finds a seat as it ends, after its number was given back. Each number comes back.
 *
 * The test has the C file of the library in it. */
#define _GNU_SOURCE
#include "../c/ligdrosa.c"
#include "children.h"

enum { THREADS = 8, ROUNDS = 2000, KEYS = 40, ROOM = 1 << 26, SHORT = 20000 };
static lfm_mutex of_malloc = LFM_MUTEX_INIT, mutex = LFM_MUTEX_INIT;
static unsigned char room[ROOM] __attribute__((aligned(16)));
static size_t used, calls;
static uint64_t total;

/* A block, and before it its size. Blocks that are freed are not used again. */
static void *allocate(size_t alignment, size_t bytes) {
  if (lfm_is_refused(lfm_lock_here(&of_malloc))) abort();
  calls++;
  used = (used + 16 + alignment - 1) & ~(alignment - 1);
  void *block = used + bytes <= ROOM ? &room[used] : NULL;
  if (block) {
    used += bytes;
    ((size_t *)block)[-1] = bytes;
  }
  if (lfm_is_refused(lfm_unlock_here(&of_malloc))) abort();
  return block;
}

void *malloc(size_t bytes) { return allocate(16, bytes); }
void *calloc(size_t count, size_t bytes) { return allocate(16, count * bytes); }
void *memalign(size_t alignment, size_t bytes) { return allocate(alignment < 16 ? 16 : alignment, bytes); }
void *aligned_alloc(size_t alignment, size_t bytes) { return memalign(alignment, bytes); }
int posix_memalign(void **block, size_t alignment, size_t bytes) {
  *block = memalign(alignment, bytes);
  return *block ? 0 : ENOMEM;
}

void free(void *block) {
  if (!block) return;
  if (lfm_is_refused(lfm_lock_here(&of_malloc))) abort();
  calls++;
  if (lfm_is_refused(lfm_unlock_here(&of_malloc))) abort();
}

void *realloc(void *block, size_t bytes) {
  void *moved = malloc(bytes);
  if (block && moved) memcpy(moved, block, ((size_t *)block)[-1] < bytes ? ((size_t *)block)[-1] : bytes);
  return moved;
}

static void lock_before_fork(void) {
  if (lfm_is_refused(lfm_lock_here(&of_malloc))) abort();
}
static void unlock_in_parent(void) {
  if (lfm_is_refused(lfm_unlock_here(&of_malloc))) abort();
}
static void unlock_in_child(void) {
  if (lfm_after_fork(&of_malloc, NULL) != LFM_DONE || lfm_unlock_here(&of_malloc) != LFM_DONE) abort();
}

static void call_first(void) {
  pthread_key_t key;
  for (int i = 0; i < KEYS; i++)
    if (pthread_key_create(&key, NULL) != 0) abort();
  void *volatile block = malloc(1);
  free(block);
  if (pthread_atfork(lock_before_fork, unlock_in_parent, unlock_in_child) != 0) abort();
}
/* It is called before the constructors. */
__attribute__((section(".preinit_array"), used)) static void (*const before_constructors)(void) = call_first;

static void use_once(unsigned i) {
  void *volatile block = malloc(16 + i % 64);
  lfm_status status = i % 8 ? lfm_lock_here(&mutex) : lfm_try_lock_for_here(&mutex, SHORT);
  if (status == LFM_DONE) {
    total++;
    block = realloc(block, 100);
    EXPECT(lfm_is_refused(lfm_unlock_here(&mutex)), false);
  } else {
    EXPECT(status, LFM_BUSY);
  }
  free(block);
}

static void *find_and_end(void *at) {
  lfm_status cause;
  lfm_seat *seats[] = {lfm_seat_here(&mutex, &cause), lfm_seat_here(&of_malloc, &cause)};
  EXPECT(seats[0] == NULL || seats[1] == NULL, false);
  EXPECT(lfm_lock(seats[0]), LFM_DONE);
  total++;
  EXPECT(lfm_is_refused(lfm_unlock(seats[0])), false);
  return at;
}

static void allocate_in_child(void) {
  void *volatile block = malloc(100);
  free(block);
  _exit(block == NULL);
}

static bool is_free(uint32_t number) {
  uint32_t free_one = (uint32_t)LFM_PROCESS.numbers.top;
  while (free_one && free_one != number) free_one = LFM_PROCESS.numbers.below[free_one];
  return free_one;
}

/* Called by the thread's end, after the library has given its number back. The malloc takes a number for its lock, and gives it
 * back. The one of the seat stays taken while the seat holds. */
static void find_late(void *at) {
  lfm_status cause;
  lfm_seat *seat = lfm_seat_here((lfm_mutex *)at, &cause);
  EXPECT(seat == NULL, false);
  EXPECT(is_free((uint32_t)lfm_number(seat)), false);
  EXPECT(lfm_lock(seat), LFM_DONE);
  void *volatile block = malloc(100);
  free(block);
  EXPECT(is_free((uint32_t)lfm_number(seat)), false);
  EXPECT(lfm_unlock(seat), LFM_DONE);
}

static pthread_key_t late_key;

static void *end_late(void *at) {
  use_once(1);
  EXPECT(pthread_setspecific(late_key, &mutex), 0);
  return at;
}

static uint32_t count_taken(void) {
  uint32_t taken = LFM_PROCESS.numbers.used;
  for (uint32_t free_one = (uint32_t)LFM_PROCESS.numbers.top; free_one; free_one = LFM_PROCESS.numbers.below[free_one]) taken--;
  return taken;
}

static void work(unsigned thread) {
  for (unsigned i = 0; i < ROUNDS; i++) {
    use_once(i + thread);
    if (thread == 0 && i % 100 == 0) EXPECT(in_child(allocate_in_child), 0);
    if (i % 64) continue;
    pthread_t other;
    EXPECT(pthread_create(&other, NULL, find_and_end, NULL), 0);
    EXPECT(pthread_join(other, NULL), 0);
  }
}

int main(void) {
  EXPECT(calls != 0, true);
  in_threads(THREADS, work);
  EXPECT(total != 0, true);
  /* a thread, the one that it starts, and a deputy of each */
  EXPECT(LFM_PROCESS.numbers.used <= 1 + 4 * THREADS, true);
  EXPECT(count_taken(), 1);
  pthread_t other;
  EXPECT(pthread_key_create(&late_key, find_late), 0);
  EXPECT(pthread_create(&other, NULL, end_late, NULL), 0);
  EXPECT(pthread_join(other, NULL), 0);
  EXPECT(count_taken(), 1);
  EXPECT(end_key > KEYS && end_key != IS_DROPPED, true);
  printf("%zu calls of malloc and free\n", calls);
  return 0;
}
