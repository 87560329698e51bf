// Destructors that come early or late: that of a condition variable while its waits are about to return, and those of objects
// that lock after the seats of their thread were given back.
//
// The test wraps the system's calls, to stop a thread whose wait is over until another thread has woken it.
#include <errno.h>
#include <stdarg.h>
#include <sys/syscall.h>

#include <atomic>
#include <thread>
#include <vector>

#include "expect.hpp"
#include "ligdrosa.hpp"

enum stage { AT_ONCE, IS_OVER, GOES_ON };
static std::atomic<stage> now{AT_ONCE};
static thread_local bool stops; // when its wait is over

extern "C" {
long __real_syscall(long number, ...);
long __wrap_syscall(long number, ...);

// All calls of the library have at most six arguments.
long __wrap_syscall(long number, ...) {
  long of[6];
  va_list all;
  va_start(all, number);
  for (long &argument : of) argument = va_arg(all, long);
  va_end(all);
  const long answer = __real_syscall(number, of[0], of[1], of[2], of[3], of[4], of[5]);
  if (stops && number == SYS_futex && answer == -1 && errno == ETIMEDOUT) {
    now = IS_OVER;
    while (now != GOES_ON) std::this_thread::yield();
    errno = ETIMEDOUT;
  }
  return answer;
}
}

// The waiters need the mutex to return, and the thread that destroys the condition variable holds it.
static void a_condition_variable_that_ends_early() {
  const int WAITERS = 3;
  lfm::recursive_mutex mutex;
  std::unique_ptr<lfm::condition_variable> filled(new lfm::condition_variable());
  lfm::condition_variable all_wait;
  int waiting = 0;
  bool is_over = false;
  std::vector<std::thread> waiters;
  for (int i = 0; i < WAITERS; i++)
    waiters.emplace_back([&] {
      std::unique_lock<lfm::recursive_mutex> lock(mutex);
      if (++waiting == WAITERS) all_wait.notify_one();
      filled->wait(lock);
      EXPECT(is_over, true);
    });
  {
    std::unique_lock<lfm::recursive_mutex> lock(mutex);
    all_wait.wait(lock, [&] { return waiting == WAITERS; });
    is_over = true;
    filled->notify_all();
    filled.reset();
  }
  for (std::thread &waiter : waiters) waiter.join();
}

// The time of the wait is over, but it is woken before it has left the list. The destructor of the condition variable waits
// until it has.
static void a_condition_variable_with_times_that_ends_early() {
  lfm::recursive_mutex mutex;
  std::unique_ptr<lfm::condition_variable> filled(new lfm::condition_variable());
  std::thread waiter([&] {
    stops = true;
    std::unique_lock<lfm::recursive_mutex> lock(mutex);
    EXPECT(filled->wait_for(lock, std::chrono::milliseconds(1)) == std::cv_status::no_timeout, true);
    stops = false;
  });
  while (now != IS_OVER) std::this_thread::yield();
  filled->notify_one();
  std::thread lets_it_go([] {
    std::this_thread::sleep_for(std::chrono::milliseconds(50));
    now = GOES_ON;
  });
  filled.reset();
  EXPECT(now.load(), GOES_ON);
  waiter.join();
  lets_it_go.join();
}

// One seat for the first thread, and one for another at a time.
static lfm::recursive_mutex of_the_program(2);
static int ended; // guarded by it

struct locks_at_its_end {
  bool is_there = false;
  ~locks_at_its_end() {
    std::lock_guard<lfm::recursive_mutex> lock(of_the_program), again(of_the_program);
    ended++;
  }
};

// It is destroyed at the end of the program, after the first thread's objects.
static locks_at_its_end at_exit;

// Objects that are made before a thread takes its seat are destroyed late, and so is thread-specific data of pthread. Each of
// many threads finds a seat.
static void objects_that_end_late() {
  const int THREADS = 10;
  pthread_key_t key;
  EXPECT(pthread_key_create(&key, [](void *at) { delete static_cast<locks_at_its_end *>(at); }), 0);
  for (int i = 0; i < THREADS; i++)
    std::thread([&] {
      thread_local locks_at_its_end early;
      early.is_there = true;
      EXPECT(pthread_setspecific(key, new locks_at_its_end()), 0);
      std::lock_guard<lfm::recursive_mutex> lock(of_the_program);
    }).join();
  EXPECT(pthread_key_delete(key), 0);
  std::lock_guard<lfm::recursive_mutex> lock(of_the_program);
  EXPECT(ended, 2 * THREADS);
}

// A hold that is released late.
static void a_hold_that_ends_late() {
  for (int i = 0; i < 10; i++)
    std::thread([] {
      thread_local std::unique_lock<lfm::recursive_mutex> held;
      held = std::unique_lock<lfm::recursive_mutex>(of_the_program);
    }).join();
  EXPECT(of_the_program.try_lock(), true);
  of_the_program.unlock();
}

int main() {
  a_condition_variable_that_ends_early();
  a_condition_variable_with_times_that_ends_early();
  objects_that_end_late();
  a_hold_that_ends_late();
  return 0;
}
