// A producer and two consumers at a buffer, with lfm::condition_variable and with std::condition_variable_any: each number
// comes out once. And std::lock of two mutexes.
#include <deque>
#include <thread>
#include <vector>

#include "expect.hpp"
#include "ligdrosa.hpp"

static const long ALL = 20000;

template <class Condition> static void passes(lfm::recursive_mutex &mutex, Condition &not_empty, Condition &not_full) {
  std::deque<long> buffer;
  bool over = false;
  std::vector<bool> is_out(ALL + 1);
  long taken = 0;
  auto consume = [&] {
    for (;;) {
      std::unique_lock<lfm::recursive_mutex> lock(mutex);
      not_empty.wait(lock, [&] { return over || !buffer.empty(); });
      if (buffer.empty()) return;
      EXPECT(is_out.at(buffer.front()), false);
      is_out[buffer.front()] = true;
      taken++;
      buffer.pop_front();
      not_full.notify_one();
    }
  };
  std::thread first(consume), second(consume);
  for (long i = 1; i <= ALL; i++) {
    std::unique_lock<lfm::recursive_mutex> lock(mutex);
    not_full.wait(lock, [&] { return buffer.size() < 4; });
    buffer.push_back(i);
    not_empty.notify_one();
  }
  {
    std::lock_guard<lfm::recursive_mutex> lock(mutex);
    over = true;
    not_empty.notify_all();
  }
  first.join();
  second.join();
  EXPECT(taken, ALL);
}

static void two_at_a_time() {
  lfm::recursive_mutex left(4), right(4);
  long total = 0;
  auto work = [&](bool turned) {
    for (int i = 0; i < 5000; i++) {
      if (turned) {
        std::scoped_lock lock(right, left);
        total++;
      } else {
        std::scoped_lock lock(left, right);
        total++;
      }
    }
  };
  std::thread one(work, false), other(work, true);
  one.join();
  other.join();
  EXPECT(total, 10000);
}

int main() {
  lfm::recursive_mutex mutex(4);
  {
    lfm::condition_variable not_empty, not_full;
    passes(mutex, not_empty, not_full);
  }
  std::condition_variable_any not_empty, not_full;
  passes(mutex, not_empty, not_full);
  two_at_a_time();
  return 0;
}
