/* A latch is a futex lock of three states: 0 free, 1 held, 2 held with sleepers. A thread that finds it held spins, then
 * sleeps, so a holder of a lower priority gets to release it. The process has one, each pool has one for its seats, and a
 * condition variable one for its list. It is held for a few steps. The latches of the process and of pools are also held
 * over a fork (forks.h). The exchange that releases it is the last access to it, as with a bell.
 *
 * Its operations are sequentially consistent, except the load before one: the handle of a pool goes with its latch, and so
 * do those of its seats that are not taken. */

/* How many loads a thread makes before it sleeps. */
enum { SHORT_SPIN = 64 };

SLOW_PATH void acquire_latch_slowly(uint32_t *latch) {
  for (int loads = 0; loads < LFM_ROUNDS(SHORT_SPIN); loads++) {
    uint32_t found = 0;
    pause_for(PAUSES_PER_LOAD);
    if (__atomic_load_n(latch, __ATOMIC_RELAXED) != 0) continue;
    if (__atomic_compare_exchange_n(latch, &found, 1, false, __ATOMIC_SEQ_CST, __ATOMIC_RELAXED)) return;
  }
  while (__atomic_exchange_n(latch, 2, __ATOMIC_SEQ_CST)) sleep_while(latch, 2, NULL);
}

static void acquire_latch(uint32_t *latch) {
  uint32_t found = 0;
  if (!__atomic_compare_exchange_n(latch, &found, 1, false, __ATOMIC_SEQ_CST, __ATOMIC_RELAXED)) acquire_latch_slowly(latch);
}

static void release_latch(uint32_t *latch) {
  if (__atomic_exchange_n(latch, 0, __ATOMIC_SEQ_CST) == 2) wake_sleeper(latch);
}

/* The same for a latch of the process or of a pool, which any thread may need. Signals are blocked while it is held: a handler
 * may stop its thread until another one acts, which may need the latch, and in a preloaded program it may fork, which waits for
 * the latch. Signals that an instruction causes stay open: the memory of a mutex may be write-protected until a handler acts.
 * Such a handler must not fork or call a mutex for the first time. `before` has the signals that were blocked before. */
static void block_signals_and_acquire(uint32_t *latch, sigset_t *before) {
  static const int of_instructions[] = {SIGSEGV, SIGBUS, SIGFPE, SIGILL, SIGTRAP, SIGSYS};
  sigset_t blocked;
  sigfillset(&blocked);
  for (size_t i = 0; i < sizeof of_instructions / sizeof *of_instructions; i++) sigdelset(&blocked, of_instructions[i]);
  sigemptyset(before); /* the system writes a part of it alone */
  pthread_sigmask(SIG_BLOCK, &blocked, before);
  acquire_latch(latch);
}

static void release_and_restore_signals(uint32_t *latch, const sigset_t *before) {
  release_latch(latch);
  pthread_sigmask(SIG_SETMASK, before, NULL);
}
