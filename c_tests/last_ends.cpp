// The thread that acquires a mutex last destroys it at once, though the unlock of the thread before it may not have returned.
// And such mutexes make room for later ones: all of them are of the first pool.
//
// The test wraps the call of the library that opens a pool, to count the pools.
#include <atomic>
#include <chrono>
#include <thread>
#include <vector>

#include "expect.hpp"
#include "ligdrosa.hpp"

static std::atomic<int> pools{0};

extern "C" {
uint64_t __real_lfm_c_pool_open(void *pool, uint64_t mutexes, uint64_t seats);
uint64_t __wrap_lfm_c_pool_open(void *pool, uint64_t mutexes, uint64_t seats);

uint64_t __wrap_lfm_c_pool_open(void *pool, uint64_t mutexes, uint64_t seats) {
  pools++;
  return __real_lfm_c_pool_open(pool, mutexes, seats);
}
}

// An object with a count of its users. The last user destroys it.
struct shared {
  lfm::recursive_mutex mutex{4};
  lfm::condition_variable is_left{};
  int users;
  explicit shared(int count) : users(count) {}
};

static void give_up(shared *object) {
  bool is_last;
  {
    std::lock_guard<lfm::recursive_mutex> lock(object->mutex);
    is_last = --object->users == 0;
    object->is_left.notify_all();
  }
  if (is_last) delete object;
}

// The owner destroys the object as soon as all others have left it.
static void wait_and_end(shared *object) {
  {
    std::unique_lock<lfm::recursive_mutex> lock(object->mutex);
    object->is_left.wait(lock, [&] { return object->users == 1; });
  }
  delete object;
}

static const int THREADS = 3, ROUNDS = 10000;
static const std::chrono::seconds LIMIT{2}; // on a busy machine there are fewer rounds
static std::atomic<shared *> objects[ROUNDS];

// In each round the threads meet at the object of that round. `is_owner` is whether the first waits for the others.
static void meet(bool is_owner) {
  std::atomic<int> arrived{0};
  for (auto &object : objects) object = nullptr;
  auto begun = std::chrono::steady_clock::now();
  auto work = [&](int number) {
    for (int i = 0; i < ROUNDS; i++) {
      if (number == 0 && std::chrono::steady_clock::now() - begun < LIMIT) objects[i] = new shared(THREADS);
      arrived++;
      for (int looks = 0; arrived < (i + 1) * THREADS; looks++)
        if (looks > 100) std::this_thread::yield();
      shared *object = objects[i];
      if (!object) return;
      if (is_owner && number == 0)
        wait_and_end(object);
      else
        give_up(object);
    }
  };
  std::vector<std::thread> threads;
  for (int number = 0; number < THREADS; number++) threads.emplace_back(work, number);
  for (std::thread &thread : threads) thread.join();
  EXPECT(pools.load(), 1);
}

int main() {
  meet(false);
  meet(true);
  return 0;
}
