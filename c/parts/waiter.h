/* A wait at a condition variable, and rings that are put off until the mutex is released. Lists of waiters are in condvar.h.
 *
 * An unlock makes at most two calls of the system, however many rings were put off, and a call makes two rings (bell.h). If
 * a call has woken the next thread that asked, one is left. So an unlock rings for the first four waiters, or two. The
 * waiters whose rings a hold puts off are a tree, filled in the order of their wakes: number i, counted from 0, hangs under
 * number (i - 1) / 2. Each that was rung for rings for at most two others, before it locks. So of n waiters the last is rung
 * for after about log n others, and none waits until another has acquired the mutex. That an unlock rings for four is for
 * small broadcasts: one to four waiters took a third longer when it rang for one.
 *
 * Each waiter is rung for once. Before its first ring the unlock takes those for which it rings out of the tree, so that no
 * other rings for them. Any other has one place in the tree, which nobody changes any more. If unlocks ring for all, there is
 * no tree.
 *
 * No ring is lost. A waiter of the tree has no deadline (`may_put_off` in condvar.h), so nothing but its ring ends its wait.
 * Then its thread makes the rings that fall to it before all else.
 *
 * Nothing is touched after its end. A waiter stays where it is until it was rung for. Who rings for it has read before all
 * that it needs of it, and nobody else looks at it. */

enum { RINGS = 2, CALLS_OF_AN_UNLOCK = 2 };

/* For how many waiters an unlock rings. A tool that explores interleavings may have it ring for fewer, so that even a few
 * waiters ring for one another. */
#ifndef LFM_RINGS
#define LFM_RINGS(count) (count)
#endif

/* Whether an unlock rings for all of them instead. Then no waiter depends on another one, which a signal handler may have
 * stopped. */
#ifndef LFM_UNLOCK_RINGS_FOR_ALL
#define LFM_UNLOCK_RINGS_FOR_ALL 0
#endif

struct lfm_waiter {
  struct lfm_waiter *older; /* of the list of its condition variable */
  struct lfm_waiter *newer; /* the same, or the next whose ring the same hold puts off */
  struct lfm_waiter *rings_for[RINGS];
  mutex_word mutex; /* which it acquires again */
  uint32_t bell;
  bool is_listed;
  bool is_timed;
  bool is_one_of_many; /* it was woken with others */
};

/* Puts the ring for a waiter off until the participant releases the mutex. It gets the first place in the tree that is free. */
static void put_off_ring(struct participant *by, struct lfm_waiter *waiter) {
  waiter->newer = NULL;
  if (!by->unrung) {
    by->unrung = by->ringer = waiter;
  } else {
    by->last_unrung->newer = waiter;
    if (by->ringer->rings_for[RINGS - 1]) by->ringer = by->ringer->newer;
    if (!LFM_UNLOCK_RINGS_FOR_ALL) by->ringer->rings_for[by->ringer->rings_for[0] ? 1 : 0] = waiter;
  }
  by->last_unrung = waiter;
  by->unrung_at = waiter->mutex;
}

/* Rings for these waiters, each of which may be null. ThreadSanitizer doesn't see the exchange that the system makes, so it
 * is told what that releases. */
static void ring_for_two(struct lfm_waiter *one, struct lfm_waiter *other) {
  if (one && other) {
    if (__tsan_release) __tsan_release(&other->bell);
    ring_both(&one->bell, &other->bell);
  } else if (one || other) {
    ring(one ? &one->bell : &other->bell);
  }
}

/* Makes the rings that were put off until the participant releases the mutex, after an unlock with this status: those for the
 * first waiters. If it has granted the mutex to another seat, one call of the system may already have been made to wake that. */
static void ring_unrung(struct participant *by, lfm_status status) {
  struct lfm_waiter *waiter = by->unrung;
  int calls = status == LFM_GRANTED ? CALLS_OF_AN_UNLOCK - 1 : CALLS_OF_AN_UNLOCK;
  int most = LFM_RINGS(can_ring_both() ? calls * RINGS : calls);
  by->unrung = NULL;
  do {
    struct lfm_waiter *first[CALLS_OF_AN_UNLOCK * RINGS] = {NULL};
    int count = 0;
    for (; waiter && count < most; waiter = waiter->newer) first[count++] = waiter;
    for (int i = 1; i < count; i++) first[(i - 1) / RINGS]->rings_for[(i - 1) % RINGS] = NULL;
    for (int i = 0; i < count; i += RINGS) ring_for_two(first[i], first[i + 1]);
  } while (LFM_UNLOCK_RINGS_FOR_ALL && waiter);
}

/* Makes the rings that fall to a waiter which was rung for. */
static void ring_for_others(const struct lfm_waiter *waiter) {
  ring_for_two(waiter->rings_for[0], waiter->rings_for[1]);
}
