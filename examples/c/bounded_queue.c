/* A bounded queue between threads, as one writes it with pthread: a mutex, two condition variables, and a wait with a time
 * limit.
 *
 *     cc bounded_queue.c $(pkg-config --cflags --libs ligdrosa) -pthread
 */
#define _POSIX_C_SOURCE 200809L /* for clock_gettime, if the compiler is asked for C alone */
#include <ligdrosa.h>
#include <pthread.h>
#include <stdio.h>
#include <stdlib.h>

enum { PLACES = 16, PRODUCERS = 2, CONSUMERS = 2, NUMBERS_OF_EACH = 10000 };

struct queue {
  lfm_mutex mutex;
  lfm_condvar not_empty, not_full;
  unsigned long numbers[PLACES];
  unsigned first, count;
  bool is_closed;
};

/* Its mutex is opened by its first lock. Condition variables are ready when they are zero. */
static struct queue queue = {.mutex = LFM_MUTEX_INIT};

/* Returns the status. If the call was refused, it ends the program, which would go on without the mutex. */
static lfm_status made(lfm_status status) {
  if (!lfm_is_refused(status)) return status;
  fprintf(stderr, "bounded_queue: %s\n", lfm_status_text(status));
  exit(1);
}

/* Puts a number in, as soon as there is room. */
static void put(struct queue *queue, unsigned long number) {
  made(lfm_lock_here(&queue->mutex));
  while (queue->count == PLACES) made(lfm_wait_here(&queue->not_full, &queue->mutex));
  queue->numbers[(queue->first + queue->count++) % PLACES] = number;
  lfm_wake_one(&queue->not_empty);
  made(lfm_unlock_here(&queue->mutex));
}

/* Tells the consumers that no number will be put in any more. */
static void close_queue(struct queue *queue) {
  made(lfm_lock_here(&queue->mutex));
  queue->is_closed = true;
  lfm_wake_all(&queue->not_empty);
  made(lfm_unlock_here(&queue->mutex));
}

enum taken { TOOK, FOUND_CLOSED, TIMED_OUT };

/* Takes out the oldest number. If there is none, it waits for one until this time on LFM_MONOTONIC. */
static enum taken take_until(struct queue *queue, const struct timespec *time, unsigned long *number) {
  enum taken taken = TIMED_OUT;
  lfm_status status = LFM_DONE;
  made(lfm_lock_here(&queue->mutex));
  while (queue->count == 0 && !queue->is_closed && status != LFM_TIMED_OUT)
    status = made(lfm_wait_until_here(&queue->not_empty, &queue->mutex, LFM_MONOTONIC, time));
  if (queue->count != 0) {
    taken = TOOK;
    *number = queue->numbers[queue->first];
    queue->first = (queue->first + 1) % PLACES;
    queue->count--;
    lfm_wake_one(&queue->not_full);
  } else if (queue->is_closed) {
    taken = FOUND_CLOSED;
  }
  made(lfm_unlock_here(&queue->mutex));
  return taken;
}

/* The time that this many milliseconds, less than a second, lie ahead. */
static struct timespec after(long milliseconds) {
  struct timespec time;
  clock_gettime(CLOCK_MONOTONIC, &time);
  time.tv_nsec += milliseconds * 1000000;
  if (time.tv_nsec >= 1000000000) {
    time.tv_sec++;
    time.tv_nsec -= 1000000000;
  }
  return time;
}

static void *produce(void *unused) {
  for (unsigned long number = 1; number <= NUMBERS_OF_EACH; number++) put(&queue, number);
  return unused;
}

/* Adds up what it takes. If nothing comes for some time, it only tries again. */
static void *consume(void *sum) {
  for (;;) {
    unsigned long number;
    struct timespec time = after(500);
    enum taken taken = take_until(&queue, &time, &number);
    if (taken == FOUND_CLOSED) return NULL;
    if (taken == TOOK) *(unsigned long *)sum += number;
  }
}

int main(void) {
  pthread_t producers[PRODUCERS], consumers[CONSUMERS];
  unsigned long sums[CONSUMERS] = {0}, number, sum = 0;
  struct timespec time = after(10);

  if (take_until(&queue, &time, &number) == TIMED_OUT) printf("an empty queue: nothing came within 10 ms\n");
  for (int i = 0; i < PRODUCERS; i++)
    if (pthread_create(&producers[i], NULL, produce, NULL)) return 1;
  for (int i = 0; i < CONSUMERS; i++)
    if (pthread_create(&consumers[i], NULL, consume, &sums[i])) return 1;
  for (int i = 0; i < PRODUCERS; i++) pthread_join(producers[i], NULL);
  close_queue(&queue);
  for (int i = 0; i < CONSUMERS; i++) {
    pthread_join(consumers[i], NULL);
    sum += sums[i];
  }
  printf("%d producers, %d consumers: the sum is %lu\n", PRODUCERS, CONSUMERS, sum);
  return 0;
}
