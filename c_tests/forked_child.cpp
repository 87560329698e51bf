// A child that is forked while other threads take seats goes on at once. The fork waits until they have taken them, since what
// they change would be half done in the child. The child's threads take seats of the same pool, and destroy mutexes.
//
// The test wraps the library's call that takes a seat: once the first thread has its seats, such calls stop until the thread
// that forks has begun to.
#include <signal.h>
#include <sys/wait.h>
#include <unistd.h>

#include <atomic>
#include <chrono>
#include <thread>

#include "expect.hpp"
#include "ligdrosa.hpp"

static std::atomic<bool> stops{false};
static std::atomic<int> stopped{0};

extern "C" {
uint64_t __real_lfm_c_pool_take_seat(void *mutex, void *seat);
uint64_t __wrap_lfm_c_pool_take_seat(void *mutex, void *seat);

uint64_t __wrap_lfm_c_pool_take_seat(void *mutex, void *seat) {
  const uint64_t answer = __real_lfm_c_pool_take_seat(mutex, seat);
  if (!stops) return answer;
  stopped++;
  while (stops) std::this_thread::yield();
  return answer;
}
}

// Called by a fork before the library's own handler.
static void let_go() { stops = false; }

// The status with which the child ends, or -1 if it doesn't end within 20 seconds and is killed.
static int end_of(pid_t child) {
  int status = -1;
  for (int i = 0; i < 2000; i++) {
    if (waitpid(child, &status, WNOHANG) == child) return status;
    std::this_thread::sleep_for(std::chrono::milliseconds(10));
  }
  kill(child, SIGKILL);
  waitpid(child, &status, 0);
  return -1;
}

static lfm::recursive_mutex found(2);
static std::unique_ptr<lfm::recursive_mutex> ends_with_the_program(new lfm::recursive_mutex(2));
static lfm::mutex in_hand(2);
static thread_local lfm::seat own(in_hand);

static void lock_all() {
  std::lock_guard<lfm::recursive_mutex> first(found), second(*ends_with_the_program);
  lfm::seat_lock seat(own);
  std::lock_guard<lfm::seat_lock> third(seat);
}

// Tries those that a thread of the parent may hold, and locks one of the child.
static void lock_in_child() {
  lfm::recursive_mutex of_child;
  std::lock_guard<lfm::recursive_mutex> lock(of_child);
  for (lfm::recursive_mutex *mutex : {&found, ends_with_the_program.get()})
    if (mutex->try_lock()) mutex->unlock();
}

static void act_in_child() {
  lock_in_child();
  std::thread(lock_in_child).join();
  std::exit(0);
}

int main() {
  EXPECT(pthread_atfork(let_go, nullptr, nullptr), 0);
  lock_all();
  stops = true;
  std::thread threads[] = {std::thread([] { std::lock_guard<lfm::recursive_mutex> lock(found); }),
                           std::thread([] { std::lock_guard<lfm::recursive_mutex> lock(*ends_with_the_program); }),
                           std::thread([] { EXPECT(own.depth(), 0u); })};
  while (stopped == 0) std::this_thread::yield();
  const pid_t child = fork();
  if (child == 0) act_in_child();
  const int status = end_of(child);
  for (std::thread &thread : threads) thread.join();
  EXPECT(status, 0);
  lock_all();
  return 0;
}
