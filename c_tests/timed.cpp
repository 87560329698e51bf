// Locks and waits with a time limit, on the system's clocks and on one that the program defines: none returns before its time
// is over, the longest times work, and no item is lost between waits whose time is over and wakes.
#include <atomic>
#include <deque>
#include <limits>
#include <thread>

#include "clocks.hpp"
#include "expect.hpp"
#include "ligdrosa.hpp"

using std::chrono::hours;
using std::chrono::milliseconds;
using std::chrono::steady_clock;
using std::chrono::system_clock;
using unique_lock = std::unique_lock<lfm::recursive_timed_mutex>;

static const milliseconds SHORT(20);

// Runs a call in another thread.
template <class Call> static void elsewhere(Call call) { std::thread(call).join(); }

static void locks_that_give_up() {
  lfm::recursive_timed_mutex mutex;
  unique_lock lock(mutex, SHORT);
  EXPECT(lock.owns_lock(), true);
  EXPECT(mutex.try_lock_for(SHORT), true); // a second hold
  mutex.unlock();
  elsewhere([&] {
    lasts(SHORT, [&] { EXPECT(mutex.try_lock_for(SHORT), false); });
    lasts(SHORT, [&] { EXPECT(mutex.try_lock_for(std::chrono::duration<double>(0.02)), false); });
    lasts(SHORT, [&] { EXPECT(mutex.try_lock_until(steady_clock::now() + SHORT), false); });
    lasts(SHORT, [&] { EXPECT(mutex.try_lock_until(system_clock::now() + SHORT), false); });
    lasts(2 * SHORT, [&] { EXPECT(mutex.try_lock_until(slow_clock::now() + SHORT), false); });
    EXPECT(mutex.try_lock_for(milliseconds(-1)), false);
    EXPECT(mutex.try_lock_for(std::chrono::duration<double>(-std::numeric_limits<double>::infinity())), false);
    EXPECT(mutex.try_lock_until(steady_clock::time_point::min()), false);
    EXPECT(mutex.try_lock_until(system_clock::time_point()), false);
    EXPECT(mutex.depth(), 0u);
  });
}

// Locks with the longest times that there are, of a mutex that is released meanwhile.
static void locks_that_gain() {
  lfm::recursive_timed_mutex mutex;
  std::atomic<int> waiting{0};
  auto acquires = [&](bool is_acquired) {
    EXPECT(is_acquired, true);
    mutex.unlock();
  };
  unique_lock lock(mutex);
  std::thread by_span([&] { waiting++, acquires(mutex.try_lock_for(hours::max())); });
  std::thread by_double([&] { waiting++, acquires(mutex.try_lock_for(std::chrono::duration<double, std::ratio<3600>>(1e300))); });
  std::thread by_steady([&] { waiting++, acquires(mutex.try_lock_until(steady_clock::time_point::max())); });
  std::thread by_system([&] { waiting++, acquires(mutex.try_lock_until(system_clock::time_point::max())); });
  std::thread by_slow([&] { waiting++, acquires(mutex.try_lock_until(slow_clock::now() + hours(10))); });
  while (waiting != 5) std::this_thread::yield();
  std::this_thread::sleep_for(milliseconds(5));
  lock.unlock();
  for (std::thread *thread : {&by_span, &by_double, &by_steady, &by_system, &by_slow}) thread->join();
}

static void waits_that_end() {
  const auto timeout = std::cv_status::timeout;
  lfm::recursive_timed_mutex mutex;
  lfm::condition_variable condition;
  unique_lock lock(mutex);
  lasts(SHORT, [&] { EXPECT(condition.wait_for(lock, SHORT) == timeout, true); });
  lasts(SHORT, [&] { EXPECT(condition.wait_until(lock, steady_clock::now() + SHORT) == timeout, true); });
  lasts(SHORT, [&] { EXPECT(condition.wait_until(lock, system_clock::now() + SHORT) == timeout, true); });
  lasts(SHORT, [&] { EXPECT(condition.wait_for(lock, SHORT, [] { return false; }), false); });
  lasts(2 * SHORT, [&] { EXPECT(condition.wait_until(lock, slow_clock::now() + SHORT, [] { return false; }), false); });
  EXPECT(condition.wait_until(lock, steady_clock::time_point::min()) == timeout, true);
  EXPECT(condition.wait_until(lock, system_clock::time_point::min()) == timeout, true);
  EXPECT(condition.wait_for(lock, hours::min()) == timeout, true);
  EXPECT(condition.wait_for(lock, SHORT, [] { return true; }), true);
  EXPECT(mutex.depth(), 1u); // after each of these waits the thread holds
}

// Waits with the longest times that there are, which another thread ends.
static void waits_that_are_woken() {
  lfm::recursive_timed_mutex mutex;
  lfm::condition_variable condition;
  int waiting = 0, turn = 0;
  std::thread waker([&] {
    for (int i = 1; i <= 5; i++) {
      unique_lock lock(mutex);
      while (waiting != i) lock.unlock(), std::this_thread::yield(), lock.lock();
      turn = i;
      condition.notify_one();
    }
  });
  unique_lock lock(mutex);
  auto is_turn = [&] { return turn == waiting; };
  waiting = 1;
  while (!is_turn()) EXPECT(condition.wait_for(lock, hours::max()) == std::cv_status::no_timeout, true);
  waiting = 2;
  EXPECT(condition.wait_for(lock, hours::max(), is_turn), true);
  waiting = 3;
  EXPECT(condition.wait_until(lock, steady_clock::time_point::max(), is_turn), true);
  waiting = 4;
  EXPECT(condition.wait_until(lock, system_clock::time_point::max(), is_turn), true);
  waiting = 5;
  EXPECT(condition.wait_until(lock, slow_clock::now() + hours(10), is_turn), true);
  lock.unlock();
  waker.join();
}

// Two producers and two consumers. The times of their waits are often over as they are woken. Each item comes out once.
static void items_between() {
  const int EACH = 5000;
  lfm::recursive_timed_mutex mutex;
  lfm::condition_variable not_empty, not_full;
  std::deque<int> buffer;
  long put = 0, sum = 0;
  int taken = 0;
  auto produce = [&] {
    for (int i = 1; i <= EACH; i++) {
      unique_lock lock(mutex);
      while (!not_full.wait_for(lock, std::chrono::microseconds(30), [&] { return buffer.size() < 2; })) {
      }
      buffer.push_back(i);
      put += i;
      not_empty.notify_one();
    }
  };
  auto consume = [&] {
    for (;;) {
      unique_lock lock(mutex);
      while (!not_empty.wait_for(lock, std::chrono::microseconds(30), [&] { return !buffer.empty() || taken == 2 * EACH; })) {
      }
      if (buffer.empty()) return;
      sum += buffer.front();
      buffer.pop_front();
      taken++;
      not_full.notify_one();
    }
  };
  std::thread threads[] = {std::thread(produce), std::thread(produce), std::thread(consume), std::thread(consume)};
  for (std::thread &thread : threads) thread.join();
  EXPECT(taken, 2 * EACH);
  EXPECT(sum, put);
}

int main() {
  locks_that_give_up();
  locks_that_gain();
  waits_that_end();
  waits_that_are_woken();
  items_between();
  return 0;
}
