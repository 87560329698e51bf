/* Each request for memory is refused in turn: the call answers LFM_NO_MEMORY, has changed nothing but what it says, leaves errno
 * as it was, and leaks nothing. And how much memory is asked for: by the first mutex of a pool, by the first participant, and by
 * lfm_seat_here; all other calls ask for none. It is linked with --wrap for mmap, munmap, malloc, calloc, realloc, free and
 * posix_memalign. */
#include <errno.h>
#include <malloc.h>
#include <sys/mman.h>
#include "expect.h"

enum { SET_BEFORE = 77, FIRST_POOL = 512, SHORT = 1000 };
static long allowed = -1; /* how many more requests are granted; all of them if it is below 0 */
static long given;        /* how many blocks are not given back */
static long mapped;       /* how many bytes of the system are not given back */

void *__real_malloc(size_t);
void *__real_calloc(size_t, size_t);
void *__real_realloc(void *, size_t);
int __real_posix_memalign(void **, size_t, size_t);
void __real_free(void *);
void *__real_mmap(void *, size_t, int, int, int, off_t);
int __real_munmap(void *, size_t);

static bool is_refused(void) {
  if (allowed == 0) {
    errno = ENOMEM;
    return true;
  }
  if (allowed > 0) allowed--;
  return false;
}

static void *counted(void *block) {
  if (block) given++;
  return block;
}

void *__wrap_malloc(size_t size) { return is_refused() ? NULL : counted(__real_malloc(size)); }
void *__wrap_calloc(size_t count, size_t size) { return is_refused() ? NULL : counted(__real_calloc(count, size)); }
int __wrap_posix_memalign(void **block, size_t align, size_t size) {
  int error = is_refused() ? ENOMEM : __real_posix_memalign(block, align, size);
  if (error == 0) counted(*block);
  return error;
}
void *__wrap_realloc(void *block, size_t size) {
  if (is_refused()) return NULL;
  return block ? __real_realloc(block, size) : counted(__real_malloc(size));
}
void __wrap_free(void *block) {
  if (block) given--;
  __real_free(block);
}

void *__wrap_mmap(void *at, size_t bytes, int protection, int flags, int file, off_t offset) {
  if (is_refused()) return MAP_FAILED;
  void *made = __real_mmap(at, bytes, protection, flags, file, offset);
  if (made != MAP_FAILED) mapped += (long)bytes;
  return made;
}
int __wrap_munmap(void *at, size_t bytes) {
  mapped -= (long)bytes;
  return __real_munmap(at, bytes);
}

static lfm_mutex mutex, many[FIRST_POOL + 1];
static lfm_condvar condvar;
static lfm_seat seat, *found;

/* Makes the call until it is not refused, each time with one more request granted: how many it needs. */
static long refuse_each(lfm_status (*make)(void)) {
  long blocks = given, bytes = mapped;
  for (long granted = 0;; granted++) {
    errno = SET_BEFORE;
    allowed = granted;
    lfm_status status = make();
    long left = allowed;
    allowed = -1;
    EXPECT(errno, SET_BEFORE);
    if (status == LFM_DONE) return granted - left;
    EXPECT(status, LFM_NO_MEMORY);
    EXPECT(given, blocks);
    EXPECT(mapped, bytes);
  }
}

static lfm_status make_mutex(void) { return lfm_mutex_new(&mutex, 3, 100); }
static lfm_status take_seat(void) { return lfm_seat_take(&mutex, &seat); }
static lfm_status make_last(void) { return lfm_lock_here(&many[FIRST_POOL]); }
static lfm_status find_seat(void) {
  lfm_status cause = LFM_DONE;
  found = lfm_seat_here(&mutex, &cause);
  return found ? LFM_DONE : cause;
}

/* A lock of a mutex that is not open, when nothing may be asked for: it stays as it was. */
static void open_nothing(void) {
  lfm_mutex own = LFM_MUTEX_INIT, before = own;
  allowed = 0;
  EXPECT(lfm_lock_here(&own), LFM_NO_MEMORY);
  EXPECT(lfm_seat_take(&own, &seat), LFM_NO_MEMORY);
  EXPECT(memcmp(&own, &before, sizeof own), 0);
  EXPECT(lfm_number(&seat), 0);
  allowed = -1;
}

static void lock_nested(void) {
  EXPECT(lfm_lock(&seat), LFM_DONE);
  EXPECT(lfm_lock(&seat), LFM_AGAIN);
  EXPECT(lfm_unlock(&seat), LFM_STILL);
  EXPECT(lfm_wait_for(&condvar, &seat, SHORT), LFM_TIMED_OUT);
  EXPECT(lfm_try_lock_for_here(&mutex, 100 * SHORT), LFM_BUSY);
  EXPECT(lfm_mutex_close(&mutex), LFM_NOT_BACK);
  EXPECT(lfm_is_refused(lfm_unlock(&seat)), false);
  EXPECT(lfm_lock_in_order_here(&mutex), LFM_DONE);
  EXPECT(lfm_wake_all(&condvar), LFM_NOBODY);
  EXPECT(lfm_unlock_here(&mutex), LFM_DONE);
}

/* Of a thread that has not called before. */
static void lock_first(unsigned thread) {
  (void)thread;
  long before = allowed;
  allowed = 0;
  EXPECT(lfm_lock_here(&mutex), LFM_DONE);
  EXPECT(lfm_unlock_here(&mutex), LFM_DONE);
  allowed = before;
}

static void calls_without_memory(void) {
  allowed = 0;
  lock_nested();
  for (int i = 0; i < FIRST_POOL - 1; i++) {
    const lfm_mutex new_one = LFM_MUTEX_INIT;
    many[i] = new_one;
    EXPECT(lfm_lock_here(&many[i]), LFM_DONE);
    EXPECT(lfm_unlock_here(&many[i]), LFM_DONE);
  }
  allowed = -1;
  in_threads(1, lock_first);
}

/* The first pool is full. While another one is refused, the mutexes that are open go on, and one that is closed makes room. */
static void grow(void) {
  const lfm_mutex new_one = LFM_MUTEX_INIT;
  many[FIRST_POOL] = new_one;
  allowed = 0;
  EXPECT(lfm_lock_here(&many[FIRST_POOL]), LFM_NO_MEMORY);
  EXPECT(many[FIRST_POOL].core == NULL, true);
  lock_nested();
  EXPECT(lfm_mutex_close(&many[0]), LFM_DONE);
  EXPECT(lfm_lock_here(&many[FIRST_POOL]), LFM_DONE);
  EXPECT(lfm_unlock_here(&many[FIRST_POOL]), LFM_DONE);
  many[0] = many[FIRST_POOL];
  many[FIRST_POOL] = new_one;
  allowed = -1;
  printf("a further pool is opened by %ld requests, for ", refuse_each(make_last));
  EXPECT(lfm_unlock_here(&many[FIRST_POOL]), LFM_DONE);
  lock_nested();
}

int main(void) {
  open_nothing();
  long requests = refuse_each(make_mutex);
  EXPECT(requests >= 2, true); /* for what the library keeps of a pool, and for its words */
  printf("the first pool is opened by %ld requests, for %ld bytes of addresses\n", requests, mapped);
  EXPECT(refuse_each(take_seat), 1);
  calls_without_memory();
  long bytes = mapped;
  grow();
  printf("%ld bytes of addresses\n", mapped - bytes);
  EXPECT(given, 0);
  EXPECT(refuse_each(find_seat), 1);
  EXPECT(given, 1);
  EXPECT(lfm_seat_give(found), LFM_DONE);
  EXPECT(given, 0);
  EXPECT(lfm_seat_give(&seat), LFM_DONE);
  EXPECT(lfm_mutex_close(&mutex), LFM_DONE);
  return 0;
}
