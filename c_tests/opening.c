/* What is refused as a mutex is opened: another version, and numbers outside their limits. And memory of calloc is aligned
 * enough.
 *
 * The test has the C file of the library in it. It wraps the calls that tell the sizes of handles, so that the library can seem
 * to be of another version. */
#define lfm_c_pool_size seen_pool_size
#define lfm_c_pool_seat_size seen_pool_seat_size
#include "../c/ligdrosa.c"
#undef lfm_c_pool_size
#undef lfm_c_pool_seat_size
#include "expect.h"
size_t lfm_c_pool_size(void);
size_t lfm_c_pool_seat_size(void);

enum { POOL, SEAT, ALL };
static int too_much = ALL; /* which of these has one byte more than there is room for */

size_t seen_pool_size(void) { return too_much == POOL ? POOL_BYTES + 1 : lfm_c_pool_size(); }
size_t seen_pool_seat_size(void) { return too_much == SEAT ? SEAT_BYTES + 1 : lfm_c_pool_seat_size(); }

/* It is refused before there is a handle, for which there may be too little room. So this is the first test. */
static void a_library_of_another_version(void) {
  static lfm_mutex own;
  static const lfm_mutex blank;
  for (too_much = 0; too_much < ALL; too_much++) {
    EXPECT(lfm_mutex_new(&own, 1, 1), LFM_OTHER_HEADER);
    EXPECT(memcmp(&own, &blank, sizeof own), 0);
  }
  EXPECT(lfm_mutex_open(&own, 1, 1, LFM_VERSION + 100), LFM_OTHER_HEADER);
  EXPECT(memcmp(&own, &blank, sizeof own), 0);
  EXPECT(lfm_mutex_new(&own, 1, 1), LFM_DONE);
  EXPECT(lfm_mutex_close(&own), LFM_DONE);
  EXPECT(memcmp(&own, &blank, sizeof own), 0);
  static lfm_mutex other = {NULL, 4, LFM_VERSION + 100};
  EXPECT(lfm_lock_here(&other), LFM_OTHER_HEADER);
  EXPECT(other.core == NULL, true);
}

static void limits(void) {
  static lfm_mutex mutex;
  EXPECT(lfm_mutex_new(&mutex, 0, 1), LFM_LIMIT);
  EXPECT(lfm_mutex_new(&mutex, 4096, 1), LFM_LIMIT);
  EXPECT(lfm_mutex_new(&mutex, UINT64_MAX, 1), LFM_LIMIT);
  EXPECT(lfm_mutex_new(&mutex, 1, 0), LFM_LIMIT);
  EXPECT(lfm_mutex_new(&mutex, 1, ((uint64_t)1 << 36) + 1), LFM_LIMIT);
  EXPECT(lfm_mutex_new(&mutex, 4095, (uint64_t)1 << 36), LFM_DONE);
  EXPECT(lfm_mutex_close(&mutex), LFM_DONE);
  static lfm_mutex none = LFM_MUTEX_INIT_WITH(0), many = LFM_MUTEX_INIT_WITH(4096);
  EXPECT(lfm_lock_here(&none), LFM_LIMIT);
  EXPECT(lfm_lock_here(&many), LFM_LIMIT);
  EXPECT(lfm_mutex_close(&none), LFM_DONE);
  EXPECT(lfm_mutex_close(&many), LFM_DONE);
}

/* What calloc gives is aligned to 16 bytes, and need not be to a cache line. */
static void memory_of_calloc(void) {
  char *room = (char *)calloc(1, sizeof(lfm_mutex) + sizeof(lfm_seat) + 2 * LINE);
  EXPECT(room == NULL, 0);
  char *odd = room + (LINE + 16 - (uintptr_t)room % LINE) % LINE;
  lfm_mutex *own = (lfm_mutex *)(void *)odd;
  lfm_seat *seat = (lfm_seat *)(void *)(odd + 16 * (sizeof(lfm_mutex) / 16));
  EXPECT(lfm_mutex_new(own, 1, 100), LFM_DONE);
  EXPECT(lfm_seat_take(own, seat), LFM_DONE);
  EXPECT(lfm_lock(seat), LFM_DONE);
  EXPECT(lfm_unlock(seat), LFM_DONE);
  EXPECT(lfm_seat_give(seat), LFM_DONE);
  EXPECT(lfm_mutex_close(own), LFM_DONE);
  free(room);
}

int main(void) {
  a_library_of_another_version();
  limits();
  memory_of_calloc();
  return 0;
}
