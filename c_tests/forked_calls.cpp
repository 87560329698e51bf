// Children are forked beside four threads that contend, leave their places queued, take and give seats, and start threads that
// end. In a child no handle that one of these threads had in a call is given to a proved call: the child calls mutexes that
// are free, makes others new or is told that it can't, uses them and closes them.
//
// The test wraps the proved calls. A thread marks its handles while a call has them, and a child compares.
#include <sched.h>
#include <sys/wait.h>
#include <unistd.h>

#include <atomic>
#include <initializer_list>
#include <thread>

#include "expect.hpp"
#include "ligdrosa.h"

enum { CHILDREN = 200, THREADS = 4, LIMIT = 60 };

// The handles that each thread has in a call.
static std::atomic<void *> in_call[THREADS][2];
// In a child: those that a thread of the parent had in a call, and how many calls were given one of them.
static void *open_in_parent[THREADS][2];
static int wrong_calls;

static thread_local int number = -1; // of a thread that contends
static bool is_child;

namespace {
// A call with these handles. It takes longer than the proved one alone, so that a fork comes during some.
struct call {
  call(void *mutex, void *seat) {
    if (is_child) compare(mutex, seat);
    if (number < 0) return;
    in_call[number][0] = mutex;
    in_call[number][1] = seat;
    sched_yield();
  }
  ~call() {
    if (number < 0) return;
    sched_yield();
    in_call[number][0] = in_call[number][1] = nullptr;
  }
  call(const call &) = delete;
  call &operator=(const call &) = delete;

private:
  static void compare(void *mutex, void *seat) {
    for (auto &handles : open_in_parent)
      for (void *handle : handles) wrong_calls += handle && (handle == mutex || handle == seat);
  }
};
}

#define WRAP_OF_ONE(type, name, mutex, seat) \
  type __real_##name(void *handle);          \
  type __wrap_##name(void *handle);          \
  type __wrap_##name(void *handle) {         \
    const call marked(mutex, seat);          \
    return __real_##name(handle);            \
  }
#define WRAP_OF_SEAT(name)                            \
  uint64_t __real_##name(void *seat, uint64_t index); \
  uint64_t __wrap_##name(void *seat, uint64_t index); \
  uint64_t __wrap_##name(void *seat, uint64_t index) { \
    const call marked(nullptr, seat);                 \
    return __real_##name(seat, index);                \
  }

extern "C" {
WRAP_OF_ONE(void, lfm_c_blank_pool, handle, nullptr)
WRAP_OF_ONE(void, lfm_c_blank_pool_seat, nullptr, handle)
WRAP_OF_ONE(uint64_t, lfm_c_pool_number, nullptr, handle)
WRAP_OF_SEAT(lfm_c_pool_depth)
WRAP_OF_SEAT(lfm_c_pool_count)
WRAP_OF_SEAT(lfm_c_pool_ask)
WRAP_OF_SEAT(lfm_c_pool_receive)
WRAP_OF_SEAT(lfm_c_pool_try_lock)
WRAP_OF_SEAT(lfm_c_pool_unlock)

uint64_t __real_lfm_c_pool_open(void *pool, uint64_t mutexes, uint64_t seats);
uint64_t __wrap_lfm_c_pool_open(void *pool, uint64_t mutexes, uint64_t seats);
uint64_t __wrap_lfm_c_pool_open(void *pool, uint64_t mutexes, uint64_t seats) {
  const call marked(pool, nullptr);
  return __real_lfm_c_pool_open(pool, mutexes, seats);
}

uint64_t __real_lfm_c_pool_take_seat(void *pool, void *seat);
uint64_t __wrap_lfm_c_pool_take_seat(void *pool, void *seat);
uint64_t __wrap_lfm_c_pool_take_seat(void *pool, void *seat) {
  const call marked(pool, seat);
  return __real_lfm_c_pool_take_seat(pool, seat);
}
}

static lfm_mutex mutex = LFM_MUTEX_INIT, of_others = LFM_MUTEX_INIT, in_hand = LFM_MUTEX_INIT;
static std::atomic<bool> over{false};

static bool is_released(lfm_status status) { return !lfm_is_refused(status); }

static void contend(int own_number) {
  number = own_number;
  while (!over) {
    for (lfm_mutex *each : {&mutex, &of_others}) {
      EXPECT(lfm_lock_here(each), LFM_DONE);
      EXPECT(is_released(lfm_unlock_here(each)), true);
      if (lfm_try_lock_for_here(each, 20000) == LFM_DONE) EXPECT(is_released(lfm_unlock_here(each)), true);
      if (own_number % 2) EXPECT(lfm_seat_give_here(each), LFM_DONE);
    }
    lfm_seat seat = {};
    EXPECT(lfm_seat_take(&in_hand, &seat), LFM_DONE);
    if (lfm_try_lock_for(&seat, 20000) == LFM_DONE) EXPECT(is_released(lfm_unlock(&seat)), true);
    EXPECT(lfm_seat_give(&seat), LFM_DONE);
    std::thread([own_number] {
      number = own_number;
      EXPECT(lfm_lock_here(&of_others), LFM_DONE);
      EXPECT(is_released(lfm_unlock_here(&of_others)), true);
    }).join();
  }
}

// Makes a mutex new, if that is possible, and uses it.
static void use_in_child(lfm_mutex *each, lfm_seat *seat, uint64_t depth) {
  if (depth == 0 && lfm_try_lock_here(each) == LFM_DONE) EXPECT(is_released(lfm_unlock_here(each)), true);
  const lfm_status status = lfm_after_fork(each, seat);
  if (status == LFM_BUSY && depth == 0) return;
  EXPECT(status, LFM_DONE);
  EXPECT(seat ? lfm_depth(seat) : lfm_depth_here(each), depth);
  for (uint64_t i = 0; i < depth; i++) EXPECT(is_released(seat ? lfm_unlock(seat) : lfm_unlock_here(each)), true);
  EXPECT(lfm_lock_in_order_here(each), LFM_DONE);
  EXPECT(is_released(lfm_unlock_here(each)), true);
  if (seat) EXPECT(lfm_seat_give(seat), LFM_DONE);
  EXPECT(lfm_mutex_close(each), LFM_DONE);
}

// How a child ends, unless an answer was wrong: then with status 1.
enum { IS_RIGHT = 0, HAD_NO_OPEN_CALL = 2, MADE_WRONG_CALLS = 3 };

static int in_child(lfm_seat *seat, uint64_t depth) {
  int open = 0;
  alarm(LIMIT);
  for (int i = 0; i < THREADS; i++)
    for (int k = 0; k < 2; k++) open += (open_in_parent[i][k] = in_call[i][k]) != nullptr;
  is_child = true;
  use_in_child(&mutex, nullptr, depth);
  use_in_child(&in_hand, seat, depth);
  use_in_child(&of_others, nullptr, 0);
  return wrong_calls ? MADE_WRONG_CALLS : open ? IS_RIGHT : HAD_NO_OPEN_CALL;
}

int main() {
  lfm_seat seat = {};
  EXPECT(lfm_seat_take(&in_hand, &seat), LFM_DONE);
  EXPECT(lfm_lock_here(&of_others), LFM_DONE);
  EXPECT(is_released(lfm_unlock_here(&of_others)), true);
  EXPECT(lfm_seat_give_here(&of_others), LFM_DONE);
  std::thread threads[THREADS];
  for (int i = 0; i < THREADS; i++) threads[i] = std::thread(contend, i);
  int ends[4] = {0, 0, 0, 0};
  for (int i = 0; i < CHILDREN; i++) {
    const uint64_t depth = static_cast<uint64_t>(i % 3);
    for (uint64_t k = 0; k < depth; k++) {
      EXPECT(lfm_is_refused(lfm_lock_here(&mutex)), false);
      EXPECT(lfm_is_refused(lfm_lock(&seat)), false);
    }
    const pid_t child = fork();
    if (child == 0) _exit(in_child(&seat, depth));
    for (uint64_t k = 0; k < depth; k++) {
      EXPECT(is_released(lfm_unlock(&seat)), true);
      EXPECT(is_released(lfm_unlock_here(&mutex)), true);
    }
    int status = -1;
    EXPECT(waitpid(child, &status, 0), child);
    EXPECT(WIFEXITED(status) && WEXITSTATUS(status) != 1, true);
    ends[WEXITSTATUS(status)]++;
  }
  over = true;
  for (std::thread &thread : threads) thread.join();
  EXPECT(lfm_seat_give(&seat), LFM_DONE);
  EXPECT(ends[MADE_WRONG_CALLS], 0);
  EXPECT(ends[IS_RIGHT] > CHILDREN / 4, true);
  return 0;
}
