/* Forks: how often a process was forked from the first one, and that no latch of the process or of its pools is held by a
 * thread that a child lacks. The thread that forks holds these latches over the fork, with signals blocked, as always. The latch
 * of a condition variable is not covered: a child sets the condition variable to zero if other threads of its parent may have
 * been in a call of it. What a child does with mutexes of its parent is in end.h. */

/* Holds a latch over a fork. `blocked` has the signals that were blocked before; only its holder writes it. */
static void hold_over_fork(uint32_t *latch, sigset_t *blocked) {
  sigset_t before;
  block_signals_and_acquire(latch, &before);
  *blocked = before;
}

static void release_after_fork(uint32_t *latch, const sigset_t *blocked) {
  sigset_t before = *blocked;
  release_and_restore_signals(latch, &before);
}

static sigset_t blocked_before_fork;

static void hold_latches(void) {
  hold_over_fork(&LFM_PROCESS.latch, &blocked_before_fork);
  for (uint32_t i = 1; i <= LFM_PROCESS.count_of_pools; i++) acquire_latch(&LFM_PROCESS.pools[i]->latch);
}

static void release_latches(void) {
  for (uint32_t i = 1; i <= LFM_PROCESS.count_of_pools; i++) release_latch(&LFM_PROCESS.pools[i]->latch);
  release_after_fork(&LFM_PROCESS.latch, &blocked_before_fork);
}

static void count_fork(void) {
  LFM_PROCESS.forks++;
  release_latches();
}

/* Has the system call these handlers: whether it will. It is asked before a program's constructors run, or as the first mutex is
 * opened, which may be earlier. So handlers that are made later and lock, as those of a malloc do, are called while the latches
 * are free. */
static bool watch_forks(void) {
  static bool is_watching;
  hide(&LFM_PROCESS, sizeof LFM_PROCESS);
  if (__atomic_exchange_n(&is_watching, true, __ATOMIC_SEQ_CST)) return true;
  if (pthread_atfork(hold_latches, release_latches, count_fork) == 0) return true;
  __atomic_store_n(&is_watching, false, __ATOMIC_SEQ_CST);
  return false;
}

__attribute__((constructor(101))) static void watch_forks_from_the_start(void) { watch_forks(); }
