/* A bell is a one-shot event on a futex word: SILENT, LISTENED (a thread sleeps on it) or RUNG. One thread waits for it, and
 * another rings it once. Each participant has one, and each wait at a condition variable. Whom to ring is not decided
 * here.
 *
 * No ring is missed. A ring is one exchange, and a thread sleeps only after it has changed SILENT into LISTENED. If the ring
 * comes before that change, the change fails. If it comes after it, the ring finds LISTENED and wakes the thread. If the
 * thread is not asleep by then, the system compares the word and doesn't put it to sleep.
 *
 * Two bells are rung with one call of the system, which makes the exchange of the second and then both wakes. That is as if
 * they were rung one after another.
 *
 * A bell may be gone as soon as it is RUNG: its thread goes on and may free its memory. The ring's exchange is the last
 * access to it. The wake after it uses the address alone. If other memory lies there, a thread that sleeps there by futex
 * may be woken too early. As the system may do so as well, its program has to expect it. */

enum { SILENT, LISTENED, RUNG };

/* For how many nanoseconds a queued seat spins before its thread sleeps: about as long as two wake-ups by the system. If it
 * is shorter, a thread that sleeps early makes all that queue behind it sleep too. With one processor a seat never spins,
 * nor if more seats are queued than the program has processors. */
#ifndef LFM_SPIN_NANOSECONDS
#define LFM_SPIN_NANOSECONDS 20000
#endif
enum { PAUSES_PER_LOAD = 4, LOADS_PER_TIME = 16 /* between two readings of the clock */ };

/* Sequentially consistent, as the ring is: a seat's handle may go with it to the thread that waits. */
static uint32_t bell_of(uint32_t *bell) { return __atomic_load_n(bell, __ATOMIC_SEQ_CST); }

static void silence(uint32_t *bell) { __atomic_store_n(bell, SILENT, __ATOMIC_RELAXED); }

/* Makes the ring's exchange: whether a thread sleeps at the bell, or is about to, and is to be woken. */
static bool set_rung(uint32_t *bell) { return __atomic_exchange_n(bell, RUNG, __ATOMIC_SEQ_CST) == LISTENED; }

static void ring(uint32_t *bell) {
  if (set_rung(bell)) wake_sleeper(bell);
}

/* Whether two bells are rung with one call of the system, as far as is known. */
static bool can_ring_both(void) { return !__atomic_load_n(&is_change_refused, __ATOMIC_RELAXED); }

/* Rings two bells, with at most one call of the system unless that refuses it. The exchange that the system makes releases
 * what came before it, as the other does: there is a barrier before each change of a word by futex. */
static void ring_both(uint32_t *bell, uint32_t *other) {
  if (!set_rung(bell)) {
    ring(other);
  } else if (!wake_sleeper_and_change(bell, (struct change){other, LISTENED, RUNG})) {
    wake_sleeper(bell);
    ring(other);
  }
}

/* Spins at the bell for this many nanoseconds: whether it has rung. */
static bool spin_at_bell(uint32_t *bell, uint64_t spin_time) {
  if (spin_time == 0) return false;
  uint64_t begun = nanoseconds();
  do {
    for (int i = 0; i < LFM_ROUNDS(LOADS_PER_TIME); i++) {
      pause_for(PAUSES_PER_LOAD);
      if (bell_of(bell) == RUNG) return true;
    }
  } while (nanoseconds() - begun < spin_time);
  return false;
}

/* Waits until the bell rings, at most until the deadline if there is one: whether it has rung. It spins first, for this many
 * nanoseconds, and then sleeps. */
static bool await_ring(uint32_t *bell, uint64_t spin_time, const struct deadline *deadline) {
  if (spin_at_bell(bell, spin_time)) return true;
  uint32_t found = SILENT;
  __atomic_compare_exchange_n(bell, &found, LISTENED, false, __ATOMIC_ACQ_REL, __ATOMIC_ACQUIRE);
  while (bell_of(bell) == LISTENED)
    if (sleep_while(bell, LISTENED, deadline)) return false;
  return true;
}
