// A holder wakes threads that wait, and their rings are put off until it releases the mutex. Then its unlock makes at most
// two calls of the system, however many wait: threads that are woken wake others. Each is woken, once: by one wake of all,
// by a wake for each, or at two condition variables; also if another thread is queued, if the call by which the library
// wakes two fails as it may, and if the system refuses that call. Then the unlock that finds this out makes more calls.
#include <linux/futex.h>
#include <sys/syscall.h>

#include <atomic>
#include <cerrno>
#include <chrono>
#include <cstdarg>
#include <initializer_list>
#include <thread>
#include <vector>

#include "expect.hpp"
#include "ligdrosa.h"

enum { MOST = 40, MOST_CALLS = 2 };

// What the system leaves out of FUTEX_WAKE_OP: nothing; the wakes, as if a mutex with priority inheritance had come to the
// memory of the first word; all, for want of memory; or all, always.
enum refusal { OF_NOTHING, OF_WAKES, OF_MEMORY, OF_ALL };
static std::atomic<refusal> refuses{OF_NOTHING};
static std::atomic<int> wakes_of_two; // calls of FUTEX_WAKE_OP
static thread_local int calls;

// As glibc declares it. The library's calls have at most six arguments.
extern "C" long __real_syscall(long number, ...);
extern "C" long __wrap_syscall(long number, ...);

// Makes the change and no wake of the second word. Whoever slept at the first one has gone on. ThreadSanitizer doesn't see this
// change, as it sees none that the system makes.
__attribute__((noinline, no_sanitize_thread)) static void only_change(const long *arguments) {
  __atomic_exchange_n(reinterpret_cast<uint32_t *>(arguments[4]), arguments[5] >> 12 & 0xfff, __ATOMIC_SEQ_CST);
  __real_syscall(SYS_futex, arguments[0], FUTEX_WAKE_PRIVATE, 1, nullptr, nullptr, 0);
}

// The library makes such a call with words of its own if one has failed. That changes 1 into 1.
static bool is_trial(const long *arguments) { return (arguments[5] >> 12 & 0xfff) == (arguments[5] & 0xfff); }

// With which error a call of futex fails, or 0.
static int error_of(const long *arguments) {
  if (arguments[1] != FUTEX_WAKE_OP_PRIVATE) return 0;
  wakes_of_two++;
  if (refuses == OF_ALL) return EINVAL;
  if (refuses == OF_NOTHING || is_trial(arguments)) return 0;
  if (refuses == OF_MEMORY) return ENOMEM;
  only_change(arguments);
  return EINVAL;
}

long __wrap_syscall(long number, ...) {
  long arguments[6];
  va_list list;
  va_start(list, number);
  for (long &each : arguments) each = va_arg(list, long);
  va_end(list);
  calls += number == SYS_futex;
  int error = number == SYS_futex ? error_of(arguments) : 0;
  if (error) {
    errno = error;
    return -1;
  }
  return __real_syscall(number, arguments[0], arguments[1], arguments[2], arguments[3], arguments[4], arguments[5]);
}

static lfm_mutex mutex = LFM_MUTEX_INIT;
static lfm_condvar condvars[2];
static int waiting, woken, is_ready;

static void lock() { EXPECT(lfm_is_refused(lfm_lock_here(&mutex)), false); }
static void unlock() { EXPECT(lfm_is_refused(lfm_unlock_here(&mutex)), false); }

static void wait_at(lfm_condvar *condvar) {
  lock();
  waiting++;
  EXPECT(lfm_wait_here(condvar, &mutex), LFM_DONE);
  EXPECT(is_ready, 1);
  woken++;
  unlock();
}

enum kind { ALL, ONE_BY_ONE, TWO_CONDVARS };

static void wake(int count, kind how) {
  if (how == ONE_BY_ONE)
    for (int i = 0; i < count; i++) EXPECT(lfm_wake_one(&condvars[0]), LFM_DONE);
  if (how != ONE_BY_ONE) EXPECT(lfm_wake_all(&condvars[0]), LFM_DONE);
  if (how == TWO_CONDVARS && count > 1) EXPECT(lfm_wake_all(&condvars[1]), LFM_DONE);
  EXPECT(lfm_wake_all(&condvars[0]), LFM_NOBODY);
}

// Wakes this many threads, while a further one may be queued: how many calls the unlock has made.
static int wakes(int count, kind how, bool is_one_queued) {
  std::vector<std::thread> threads;
  waiting = woken = is_ready = 0;
  for (int i = 0; i < count; i++) threads.emplace_back(wait_at, &condvars[how == TWO_CONDVARS ? i % 2 : 0]);
  for (lock(); waiting < count; lock()) {
    unlock();
    std::this_thread::yield();
  }
  if (is_one_queued) {
    threads.emplace_back([] {
      EXPECT(lfm_is_refused(lfm_lock_in_order_here(&mutex)), false);
      unlock();
    });
    std::this_thread::sleep_for(std::chrono::milliseconds(1));
  }
  is_ready = 1;
  wake(count, how);
  calls = 0;
  unlock();
  int made = calls;
  for (std::thread &thread : threads) thread.join();
  EXPECT(woken, count);
  return made;
}

// In all ways, with at most this many calls by an unlock.
static void wakes_in_all_ways(int most_calls) {
  for (int count = 1; count <= MOST; count += count < 10 ? 1 : 7)
    for (kind how : {ALL, ONE_BY_ONE, TWO_CONDVARS})
      for (bool is_one_queued : {false, true}) EXPECT(wakes(count, how, is_one_queued) <= most_calls, true);
}

int main() {
  wakes_in_all_ways(MOST_CALLS);
  EXPECT(wakes_of_two > 0, true);
  refuses = OF_WAKES;
  wakes_in_all_ways(3 * MOST_CALLS);
  refuses = OF_MEMORY;
  wakes_in_all_ways(4 * MOST_CALLS);
  refuses = OF_ALL;
  int before = wakes_of_two;
  while (wakes_of_two == before) wakes(4, ALL, false); // the library learns of it as soon as a waiter sleeps
  before = wakes_of_two;
  wakes_in_all_ways(MOST_CALLS);
  EXPECT(wakes_of_two == before, true);
  EXPECT(lfm_mutex_close(&mutex), LFM_DONE);
  return 0;
}
