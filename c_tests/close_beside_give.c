/* A mutex is closed by one thread while another gives the last seat back. The close is refused until the give has counted the
 * seat as back. From there on the memory of the lfm_mutex and of the lfm_seat, which lie in one block, goes at once, though the
 * give has not returned. So the give touches neither: their bytes stay as they are set, and AddressSanitizer sees the block go.
 *
 * The test has the C file of the library in it. The give stops before and after it counts the seat as back. */
#define _GNU_SOURCE
#include <sched.h>
#include <stdbool.h>
#include <stdint.h>
static uint32_t seen_subtraction(uint32_t *word, uint32_t less, int order);
#define __atomic_sub_fetch(word, less, order) seen_subtraction(word, less, order)
#include "../c/ligdrosa.c"
#undef __atomic_sub_fetch
#include "expect.h"

enum { OVER = 0x5A };
static struct pair {
  lfm_mutex mutex;
  lfm_seat seat;
} *block;
static _Thread_local bool gives;
static int step; /* 1: the give is about to count the seat, 2: it may, 3: it has, 4: the block is over */

static void set_step(int next) { __atomic_store_n(&step, next, __ATOMIC_SEQ_CST); }
static void wait_for_step(int wanted) {
  while (__atomic_load_n(&step, __ATOMIC_SEQ_CST) != wanted) sched_yield();
}

static uint32_t seen_subtraction(uint32_t *word, uint32_t less, int order) {
  if (gives) {
    set_step(1);
    wait_for_step(2);
  }
  uint32_t left = __atomic_sub_fetch(word, less, order);
  if (gives) {
    set_step(3);
    wait_for_step(4);
  }
  return left;
}

static void give_it(void) {
  gives = true;
  EXPECT(lfm_seat_give(&block->seat), LFM_DONE);
}

static void close_it(bool is_freed) {
  wait_for_step(1);
  EXPECT(lfm_mutex_close(&block->mutex), LFM_NOT_BACK);
  set_step(2);
  wait_for_step(3);
  EXPECT(lfm_mutex_close(&block->mutex), LFM_DONE);
  memset(block, OVER, sizeof *block);
  if (is_freed) free(block);
  set_step(4);
}

static void work(unsigned thread, bool is_freed) {
  if (thread == 0)
    give_it();
  else
    close_it(is_freed);
}

static void keep_block(unsigned thread) { work(thread, false); }
static void free_block(unsigned thread) { work(thread, true); }

static void give_beside_close(void (*run)(unsigned)) {
  set_step(0);
  block = (struct pair *)aligned_alloc(LINE, (sizeof *block + LINE - 1) / LINE * LINE);
  EXPECT(block == NULL, false);
  memset(block, 0, sizeof *block);
  EXPECT(lfm_mutex_new(&block->mutex, 1, 10), LFM_DONE);
  EXPECT(lfm_seat_take(&block->mutex, &block->seat), LFM_DONE);
  in_threads(2, run);
}

int main(void) {
  give_beside_close(keep_block);
  for (size_t i = 0; i < sizeof *block; i++) EXPECT(((unsigned char *)block)[i], OVER);
  free(block);
  give_beside_close(free_block);
  return 0;
}
