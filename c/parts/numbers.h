/* Numbers, from 1 to a greatest one, that any thread takes and gives back. No thread waits for another.
 *
 * Those that were given back are a stack. Its top is a word: a number, or 0 if the stack is empty, and above it how often the
 * word was changed. A thread that takes the top number loads the one below it first. If another thread has taken the top
 * meanwhile and given it back, the word was changed more often, and the exchange fails. The upper half has the same value
 * again only after 2^32 changes, for which the thread would have to be stopped between these two operations.
 *
 * What belongs to a number goes with it from one thread to another, so each exchange of the top is sequentially consistent. */

struct numbers {
  uint64_t top;
  uint32_t used; /* those above it were never taken */
  uint32_t most;
  uint32_t *below; /* of each number in the stack: the next one, or 0 */
};

static uint64_t with_top(uint64_t found, uint32_t top) { return ((found >> 32) + 1) << 32 | top; }

/* Takes a number that was never taken, or 0 if there is none. */
static uint32_t take_unused(struct numbers *numbers) {
  uint32_t used = __atomic_load_n(&numbers->used, __ATOMIC_RELAXED);
  while (used < numbers->most)
    if (__atomic_compare_exchange_n(&numbers->used, &used, used + 1, false, __ATOMIC_RELAXED, __ATOMIC_RELAXED)) return used + 1;
  return 0;
}

/* Takes the number that was given back last, or else one that was never taken, or 0 if there is none. */
static uint32_t take_number(struct numbers *numbers) {
  uint64_t found = __atomic_load_n(&numbers->top, __ATOMIC_SEQ_CST);
  while ((uint32_t)found) {
    uint32_t number = (uint32_t)found, next = __atomic_load_n(&numbers->below[number], __ATOMIC_RELAXED);
    if (__atomic_compare_exchange_n(&numbers->top, &found, with_top(found, next), false, __ATOMIC_SEQ_CST, __ATOMIC_SEQ_CST))
      return number;
  }
  return take_unused(numbers);
}

static void give_number(struct numbers *numbers, uint32_t number) {
  uint64_t found = __atomic_load_n(&numbers->top, __ATOMIC_RELAXED);
  do __atomic_store_n(&numbers->below[number], (uint32_t)found, __ATOMIC_RELAXED);
  while (!__atomic_compare_exchange_n(&numbers->top, &found, with_top(found, number), false, __ATOMIC_SEQ_CST,
                                      __ATOMIC_RELAXED));
}
