/* Forked children. One gives its seats back and closes its mutexes while threads of the parent take and give seats: it
 * doesn't hang. One makes a mutex new that its thread held in the fork, as pthread_atfork has it, or that nobody held. It
 * may have given its seat back before, or make the mutex new by another thread. One whose parent's other thread held it is
 * told so.
 *
 * The test has the C file of the library in it, to see how many are queued. */
#define _GNU_SOURCE
#include "../c/ligdrosa.c"
#include "children.h"

enum { CHILDREN = 60, THREADS = 3 };
static lfm_mutex mutex = LFM_MUTEX_INIT, in_hand, free_one = LFM_MUTEX_INIT, never_called = LFM_MUTEX_INIT;
static lfm_mutex of_others = LFM_MUTEX_INIT;
static lfm_condvar condvar;
static lfm_seat seat, second_seat, spare;
static int over, step;

static void acquire(lfm_mutex *of) { EXPECT(lfm_lock_here(of), LFM_DONE); }
static void release(lfm_mutex *of) { EXPECT(lfm_is_refused(lfm_unlock_here(of)), false); }

static void *lock_once(void *at) {
  static lfm_seat seats[THREADS + 1];
  lfm_seat *own = &seats[*(int *)at];
  EXPECT(lfm_seat_take(&in_hand, own), LFM_DONE);
  EXPECT(lfm_lock(own), LFM_DONE);
  EXPECT(lfm_is_refused(lfm_unlock(own)), false);
  EXPECT(lfm_seat_give(own), LFM_DONE);
  acquire(&mutex);
  release(&mutex);
  return at;
}

/* Threads that take seats and give them back, and contend. */
static void *come_and_go(void *at) {
  while (!__atomic_load_n(&over, __ATOMIC_SEQ_CST)) {
    pthread_t thread;
    EXPECT(pthread_create(&thread, NULL, lock_once, at), 0);
    EXPECT(pthread_join(thread, NULL), 0);
  }
  return NULL;
}

static void forget(void) {
  EXPECT(lfm_seat_give(&seat), LFM_DONE);
  EXPECT(lfm_mutex_close(&in_hand), LFM_DONE);
  EXPECT(lfm_mutex_close(&free_one), LFM_DONE);
  pthread_exit(NULL); /* ends the thread, and with it the process */
}

static void *wake_all(void *at) {
  acquire(&mutex);
  EXPECT(lfm_wake_all(&condvar), LFM_DONE);
  release(&mutex);
  return at;
}

/* The parent's thread held both. */
static void use_again(void) {
  EXPECT(lfm_after_fork(&mutex, &spare), LFM_BLANK);
  EXPECT(lfm_after_fork(&mutex, &seat), LFM_FOREIGN);
  EXPECT(lfm_after_fork(&mutex, NULL), LFM_DONE);
  EXPECT(lfm_after_fork(&in_hand, &seat), LFM_DONE);
  EXPECT(lfm_after_fork(&in_hand, &seat), LFM_DONE); /* a second time changes nothing */
  EXPECT(lfm_after_fork(&in_hand, &second_seat), LFM_FOREIGN);
  EXPECT(lfm_after_fork(&free_one, NULL), LFM_DONE);
  EXPECT(lfm_after_fork(&never_called, NULL), LFM_DONE);
  EXPECT(lfm_after_fork(&of_others, NULL), LFM_DONE);
  acquire(&of_others);
  release(&of_others);
  EXPECT(lfm_depth(&seat), 2);
  EXPECT(lfm_unlock(&seat), LFM_STILL);
  EXPECT(lfm_unlock(&seat), LFM_DONE);
  EXPECT(lfm_depth_here(&mutex), 1);
  pthread_t thread;
  EXPECT(pthread_create(&thread, NULL, wake_all, NULL), 0);
  EXPECT(lfm_wait_here(&condvar, &mutex), LFM_DONE);
  EXPECT(pthread_join(thread, NULL), 0);
  release(&mutex);
  acquire(&free_one);
  release(&free_one);
  int number = THREADS;
  lock_once(&number);
  EXPECT(lfm_seat_give(&seat), LFM_DONE);
  EXPECT(lfm_mutex_close(&in_hand), LFM_DONE);
  EXPECT(lfm_mutex_close(&mutex), LFM_DONE);
}

/* The child first gives back the seat that the thread found in the parent. */
static void give_and_use(void) {
  EXPECT(lfm_seat_give_here(&free_one), LFM_DONE);
  EXPECT(lfm_after_fork(&free_one, NULL), LFM_DONE);
  acquire(&free_one);
  release(&free_one);
  EXPECT(lfm_mutex_close(&free_one), LFM_DONE);
}

/* The thread passes the seat that it found as one in hand. */
static void use_found_seat(void) {
  lfm_status cause;
  EXPECT(lfm_after_fork(&free_one, lfm_seat_here(&free_one, &cause)), LFM_DONE);
  acquire(&free_one);
  release(&free_one);
  EXPECT(lfm_mutex_close(&free_one), LFM_DONE);
}

/* A thread of the child makes the mutex new, and not the thread that forked, which has a seat of the parent's. */
static void *make_new_and_use(void *at) {
  EXPECT(lfm_after_fork(&free_one, NULL), LFM_DONE);
  acquire(&free_one);
  release(&free_one);
  return at;
}

/* Memory that was freed has other bytes from here on. */
static void fill_freed_memory(void) {
  static void *volatile block;
  for (size_t bytes = 64; bytes <= 1024; bytes += 64) {
    for (int i = 0; i < 16; i++) {
      block = malloc(bytes);
      memset(block, 0x5A, bytes);
    }
  }
}

static void use_after_another(void) {
  pthread_t thread;
  EXPECT(pthread_create(&thread, NULL, make_new_and_use, NULL), 0);
  EXPECT(pthread_join(thread, NULL), 0);
  fill_freed_memory();
  acquire(&free_one);
  release(&free_one);
  pthread_exit(NULL); /* the thread gives both seats back */
}

/* Another thread of the parent holds one mutex, and has released another. */
static void is_told(void) {
  EXPECT(lfm_after_fork(&free_one, NULL), LFM_BUSY);
  EXPECT(lfm_try_lock_here(&free_one), LFM_BUSY);
  EXPECT(lfm_after_fork(&free_one, NULL), LFM_BUSY);
  EXPECT(lfm_after_fork(&of_others, NULL), LFM_DONE);
  acquire(&of_others);
  release(&of_others);
}

static void *use_once(void *at) {
  acquire(&of_others);
  release(&of_others);
  return at;
}

static void *hold(void *at) {
  acquire(&free_one);
  use_once(at);
  __atomic_store_n(&step, 1, __ATOMIC_SEQ_CST);
  while (__atomic_load_n(&step, __ATOMIC_SEQ_CST) != 2) sched_yield();
  release(&free_one);
  return at;
}

/* Other threads are queued, and some have left their place by time. The child makes the mutex new: nobody is queued then. */
enum { WAITERS = 20 };
static lfm_mutex waited_for = LFM_MUTEX_INIT;

static void *wait_in_queue(void *at) {
  if (*(int *)at % 2) {
    do EXPECT(lfm_try_lock_for_here(&waited_for, 1000000), LFM_BUSY);
    while (!own.by->deputies || state_of(own.by->deputies) != ABANDONED);
    __atomic_fetch_add(&step, 1, __ATOMIC_SEQ_CST);
    while (__atomic_load_n(&step, __ATOMIC_SEQ_CST) < 1000) sched_yield();
    return NULL;
  }
  __atomic_fetch_add(&step, 1, __ATOMIC_SEQ_CST);
  EXPECT(lfm_lock_in_order_here(&waited_for), LFM_DONE);
  release(&waited_for);
  return NULL;
}

static void make_new_beside_seats(void) {
  EXPECT(lfm_after_fork(&waited_for, NULL), LFM_DONE);
  EXPECT(lfm_depth_here(&waited_for), 1);
  release(&waited_for);
  int number = 0;
  EXPECT(wait_in_queue(&number) == NULL, true);
  EXPECT(lfm_mutex_close(&waited_for), LFM_DONE);
}

static void seats_of_others(void) {
  pthread_t waiters[WAITERS];
  int numbers[WAITERS];
  step = 0;
  acquire(&waited_for);
  for (int i = 0; i < WAITERS; i++) {
    numbers[i] = i;
    EXPECT(pthread_create(&waiters[i], NULL, wait_in_queue, &numbers[i]), 0);
  }
  while (__atomic_load_n(&step, __ATOMIC_SEQ_CST) < WAITERS) sched_yield();
  while (__atomic_load_n(&info_of(load_mutex(&waited_for))->queued, __ATOMIC_SEQ_CST) != WAITERS / 2) sched_yield();
  EXPECT(in_child(make_new_beside_seats), 0);
  release(&waited_for);
  __atomic_store_n(&step, 1000, __ATOMIC_SEQ_CST);
  for (int i = 0; i < WAITERS; i++) EXPECT(pthread_join(waiters[i], NULL), 0);
  EXPECT(lfm_mutex_close(&waited_for), LFM_DONE);
}

int main(void) {
  pthread_t threads[THREADS], holder;
  int numbers[THREADS];
  EXPECT(lfm_mutex_new(&in_hand, 8, LFM_MOST_TAKES), LFM_DONE);
  EXPECT(lfm_seat_take(&in_hand, &seat), LFM_DONE);
  EXPECT(lfm_seat_take(&in_hand, &second_seat), LFM_DONE);
  acquire(&free_one);
  release(&free_one);
  EXPECT(in_child(give_and_use), 0);
  EXPECT(in_child(use_found_seat), 0);
  EXPECT(in_child(use_after_another), 0);
  EXPECT(pthread_create(&holder, NULL, use_once, NULL), 0);
  EXPECT(pthread_join(holder, NULL), 0);
  for (int i = 0; i < THREADS; i++) {
    numbers[i] = i;
    EXPECT(pthread_create(&threads[i], NULL, come_and_go, &numbers[i]), 0);
  }
  for (int i = 0; i < CHILDREN; i++) {
    EXPECT(in_child(forget), 0);
    acquire(&mutex);
    EXPECT(lfm_lock(&seat), LFM_DONE);
    EXPECT(lfm_lock(&seat), LFM_AGAIN);
    EXPECT(in_child(use_again), 0);
    EXPECT(lfm_unlock(&seat), LFM_STILL);
    EXPECT(lfm_is_refused(lfm_unlock(&seat)), false);
    release(&mutex);
  }
  __atomic_store_n(&over, 1, __ATOMIC_SEQ_CST);
  for (int i = 0; i < THREADS; i++) EXPECT(pthread_join(threads[i], NULL), 0);
  EXPECT(pthread_create(&holder, NULL, hold, NULL), 0);
  while (__atomic_load_n(&step, __ATOMIC_SEQ_CST) != 1) sched_yield();
  EXPECT(in_child(is_told), 0);
  __atomic_store_n(&step, 2, __ATOMIC_SEQ_CST);
  EXPECT(pthread_join(holder, NULL), 0);
  EXPECT(lfm_seat_give(&seat), LFM_DONE);
  EXPECT(lfm_seat_give(&second_seat), LFM_DONE);
  EXPECT(lfm_mutex_close(&in_hand), LFM_DONE);
  seats_of_others();
  return 0;
}
