// A mutex of static storage can be locked before the program's first constructor runs and after its last destructor: the
// constructor of another global locks it, and so do threads after main, for the first time or while the program ends. And
// threads that start and end at that time give their seats back.
#include <atomic>
#include <cstdlib>
#include <thread>

#include "expect.hpp"
#include "ligdrosa.hpp"

#if __cplusplus >= 202002L
#define CONSTANT constinit
#else
#define CONSTANT
#endif

// They are defined below. So their constructors would run after that of `first`, and their destructors before its own.
extern lfm::recursive_mutex later;
extern lfm::condition_variable changed;
static lfm::recursive_mutex &in_function();

static int locks; // guarded by `later`
static std::atomic<bool> goes_on{false};

static void lock_all() {
  std::lock_guard<lfm::recursive_mutex> lock(later), of_function(in_function());
  locks++;
  changed.notify_all();
}

// Waits until other threads have locked this often from now on.
static void wait_for_locks(int more) {
  std::unique_lock<lfm::recursive_mutex> lock(later);
  const int wanted = locks + more;
  changed.wait(lock, [&] { return locks >= wanted; });
}

static struct first_of_all {
  first_of_all() { lock_all(); }
  // All other globals are destroyed. The thread that main has detached still locks.
  ~first_of_all() { wait_for_locks(10); }
} first;

// It runs after what the library does at the end of the program.
__attribute__((destructor(101))) static void last_of_all() {
  for (int i = 0; i < 2 * LFM_USUAL_SEATS; i++) std::thread(lock_all).join();
  wait_for_locks(10);
  std::_Exit(0);
}

CONSTANT lfm::recursive_mutex later;
CONSTANT lfm::condition_variable changed;

static lfm::recursive_mutex &in_function() {
  static lfm::recursive_mutex mutex(8);
  return mutex;
}

int main() {
  EXPECT(locks, 1);
  std::thread([] {
    goes_on = true;
    for (;;) lock_all(), std::this_thread::sleep_for(std::chrono::milliseconds(1));
  }).detach();
  while (!goes_on) std::this_thread::yield();
  wait_for_locks(2);
  return 1; // the last function makes it 0
}
