/* One thread opens and closes a mutex again and again, while another forks. The child, which lacks the first thread, closes the
 * mutex too, wherever that thread was, and opens others: each is a mutex of its own. */
#define _GNU_SOURCE
#include "children.h"

enum { CHILDREN = 300, OPENED = 3 };
static lfm_mutex closed, opened[OPENED];
static int over;

static void *open_and_close(void *at) {
  while (!__atomic_load_n(&over, __ATOMIC_SEQ_CST)) {
    EXPECT(lfm_mutex_new(&closed, 1, 1), LFM_DONE);
    EXPECT(lfm_mutex_close(&closed), LFM_DONE);
  }
  return at;
}

static void close_and_open_others(void) {
  lfm_status status = lfm_mutex_close(&closed);
  EXPECT(status == LFM_DONE || status == LFM_BLANK, true);
  for (int i = 0; i < OPENED; i++) EXPECT(lfm_mutex_new(&opened[i], 1, 1), LFM_DONE);
  for (int i = 0; i < OPENED; i++) EXPECT(lfm_lock_here(&opened[i]), LFM_DONE);
}

int main(void) {
  pthread_t thread;
  EXPECT(pthread_create(&thread, NULL, open_and_close, NULL), 0);
  for (int i = 0; i < CHILDREN; i++) EXPECT(in_child(close_and_open_others), 0);
  __atomic_store_n(&over, 1, __ATOMIC_SEQ_CST);
  EXPECT(pthread_join(thread, NULL), 0);
  return 0;
}
