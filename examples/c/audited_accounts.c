/* Accounts between which threads transfer money as fast as they can, and an auditor that adds them up each millisecond. It
 * locks in order: it queues at once, and from there on no thread that queues later is served before it.
 *
 *     cc audited_accounts.c $(pkg-config --cflags --libs ligdrosa) -pthread
 */
#define _POSIX_C_SOURCE 200809L /* for nanosleep, if the compiler is asked for C alone */
#include <ligdrosa.h>
#include <pthread.h>
#include <stdatomic.h>
#include <stdio.h>
#include <stdlib.h>
#include <time.h>

enum { ACCOUNTS = 4, IN_EACH = 100, THREADS = 3, AUDITS = 200 };

static lfm_mutex mutex = LFM_MUTEX_INIT;
static long accounts[ACCOUNTS] = {IN_EACH, IN_EACH, IN_EACH, IN_EACH};
static atomic_bool is_over;

/* If the call was refused, it ends the program, which would go on without the mutex. */
static void made(lfm_status status) {
  if (!lfm_is_refused(status)) return;
  fprintf(stderr, "audited_accounts: %s\n", lfm_status_text(status));
  exit(1);
}

/* Transfers from each account to the next, until the audits are over. */
static void *transfer(void *unused) {
  for (unsigned from = 0; !atomic_load(&is_over); from++) {
    made(lfm_lock_here(&mutex));
    accounts[from % ACCOUNTS]--;
    accounts[(from + 1) % ACCOUNTS]++;
    made(lfm_unlock_here(&mutex));
  }
  return unused;
}

/* The sum of all accounts, between two transfers. */
static long audit(void) {
  long sum = 0;
  made(lfm_lock_in_order_here(&mutex));
  for (int i = 0; i < ACCOUNTS; i++) sum += accounts[i];
  made(lfm_unlock_here(&mutex));
  return sum;
}

int main(void) {
  const struct timespec millisecond = {0, 1000000};
  pthread_t threads[THREADS];
  for (int i = 0; i < THREADS; i++)
    if (pthread_create(&threads[i], NULL, transfer, NULL)) return 1;
  for (int i = 0; i < AUDITS; i++) {
    nanosleep(&millisecond, NULL);
    if (audit() != ACCOUNTS * IN_EACH) return 1;
  }
  atomic_store(&is_over, true);
  for (int i = 0; i < THREADS; i++) pthread_join(threads[i], NULL);
  printf("%d audits beside %d threads that transfer: each found %d\n", AUDITS, THREADS, ACCOUNTS * IN_EACH);
  return 0;
}
