// Mutexes and condition variables of C++'s own library, over libligdrosa_pthread.so or the system. Most std::mutex are never
// destroyed: their destructor does nothing.
#include <atomic>
#include <chrono>
#include <condition_variable>
#include <cstdio>
#include <cstdlib>
#include <future>
#include <memory>
#include <mutex>
#include <shared_mutex>
#include <thread>
#include <vector>

#define EXPECT(condition)                                                   \
  do {                                                                      \
    if (!(condition)) {                                                     \
      std::fprintf(stderr, "from_std.cpp:%d: not %s\n", __LINE__, #condition); \
      std::exit(1);                                                         \
    }                                                                       \
  } while (false)

using std::chrono::milliseconds;

static std::mutex plain;
static std::recursive_mutex recursive;
static std::timed_mutex timed;
static std::condition_variable changed;
static std::condition_variable_any changed_any;
static long count;

static void in_threads(int threads, void (*run)(int)) {
  std::vector<std::thread> all;
  for (int i = 0; i < threads; i++) all.emplace_back(run, i);
  for (auto &thread : all) thread.join();
}

static void take_turns(int own) {
  for (int i = 0; i < 300; i++) {
    std::unique_lock<std::mutex> lock(plain);
    if (own % 2)
      changed.wait(lock, [own] { return count % 4 == own; });
    else
      while (!changed.wait_for(lock, milliseconds(50), [own] { return count % 4 == own; })) continue;
    count++;
    changed.notify_all();
  }
}

static void meet_by_any(int) {
  std::lock_guard<std::recursive_mutex> first(recursive);
  std::unique_lock<std::timed_mutex> lock(timed);
  count++;
  changed_any.notify_all();
}

static void add_by_timed(int) {
  for (int i = 0; i < 300; i++) {
    while (!timed.try_lock_for(milliseconds(1))) continue;
    count++;
    timed.unlock();
  }
}

// Each object has a mutex that is locked and never destroyed.
static void make_objects(int) {
  struct object {
    std::mutex mutex;
    long number = 0;
  };
  for (int i = 0; i < 5000; i++) {
    std::vector<std::unique_ptr<object>> objects;
    for (int j = 0; j < 3; j++) {
      objects.push_back(std::make_unique<object>());
      std::lock_guard<std::mutex> lock(objects.back()->mutex);
      objects.back()->number++;
    }
  }
}

static void test_waits() {
  in_threads(4, take_turns);
  EXPECT(count == 4 * 300);
  count = 0;
  std::thread meeting([] { in_threads(8, meet_by_any); });
  std::unique_lock<std::timed_mutex> lock(timed);
  changed_any.wait(lock, [] { return count == 8; });
  lock.unlock();
  meeting.join();
}

static void test_answers() {
  std::unique_lock<std::timed_mutex> lock(timed);
  std::thread([] {
    EXPECT(!timed.try_lock());
    EXPECT(!timed.try_lock_for(milliseconds(10)));
    EXPECT(!timed.try_lock_until(std::chrono::system_clock::now() + milliseconds(10)));
  }).join();
  EXPECT(changed_any.wait_for(lock, milliseconds(10)) == std::cv_status::timeout);
  std::unique_lock<std::recursive_mutex> twice(recursive), again(recursive);
  std::thread([] { EXPECT(!recursive.try_lock()); }).join();
}

int main() {
  test_waits();
  test_answers();
  count = 0;
  in_threads(4, add_by_timed);
  EXPECT(count == 4 * 300);
  in_threads(4, make_objects);
  std::vector<std::future<int>> futures;
  for (int i = 0; i < 50; i++) futures.push_back(std::async(std::launch::async, [i] { return i; }));
  for (int i = 0; i < 50; i++) EXPECT(futures[static_cast<unsigned>(i)].get() == i);
  std::shared_timed_mutex shared;
  std::shared_lock<std::shared_timed_mutex> reader(shared);
  EXPECT(!shared.try_lock_for(milliseconds(5)));
}
