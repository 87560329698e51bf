// One thread locks thousands of mutexes. A first lock of a mutex takes about as long among 4,000 of them as among 100, and so do
// later locks. And mutexes that another thread destroyed make room for later ones: no further pool is opened for them.
//
// The test wraps the call of the library that opens a pool, to count the mutexes of all pools.
#include <time.h>

#include <algorithm>
#include <atomic>
#include <thread>
#include <vector>

#include "expect.hpp"
#include "ligdrosa.hpp"

static std::atomic<size_t> room{0}; // how many mutexes the pools have

extern "C" {
uint64_t __real_lfm_c_pool_open(void *pool, uint64_t mutexes, uint64_t seats);
uint64_t __wrap_lfm_c_pool_open(void *pool, uint64_t mutexes, uint64_t seats);

uint64_t __wrap_lfm_c_pool_open(void *pool, uint64_t mutexes, uint64_t seats) {
  room += mutexes;
  return __real_lfm_c_pool_open(pool, mutexes, seats);
}
}

static const size_t FEW = 100, MANY = 4000;

static void lock_and_unlock(lfm::recursive_mutex &mutex) {
  mutex.lock();
  mutex.unlock();
}

// The processor time of this thread, in nanoseconds.
static double run_time() {
  timespec time;
  clock_gettime(CLOCK_THREAD_CPUTIME_ID, &time);
  return double(time.tv_sec) * 1e9 + double(time.tv_nsec);
}

// How long a lock and an unlock take, on average over FEW mutexes from this one on: the least of some measurements.
static double locks(std::vector<lfm::recursive_mutex> &all, size_t begin, int times) {
  double least = 1e30;
  for (int i = 0; i < times; i++) {
    const double begun = run_time();
    for (size_t k = begin; k < begin + FEW; k++) lock_and_unlock(all[k]);
    least = std::min(least, (run_time() - begun) / double(FEW));
  }
  return least;
}

static void mutexes_that_live() {
  std::vector<lfm::recursive_mutex> all(MANY);
  std::thread([&] {
    for (lfm::recursive_mutex &mutex : all) lock_and_unlock(mutex); // opens it
  }).join();
  std::vector<double> first;
  double later_among_few = 0;
  for (size_t i = 0; i < MANY; i += FEW) {
    first.push_back(locks(all, i, 1));
    if (i == 0) later_among_few = locks(all, i, 20);
  }
  EXPECT(*std::min_element(first.end() - 5, first.end()) < 5 * *std::min_element(first.begin(), first.begin() + 5), true);
  EXPECT(locks(all, MANY - FEW, 20) < 10 * later_among_few, true);
  EXPECT(room >= MANY, true);
  EXPECT(room < 3 * MANY, true);
}

// Another thread destroys each mutex that this one has locked.
static void mutexes_that_end() {
  for (size_t i = 0; i < MANY; i++) {
    lfm::recursive_mutex *mutex = new lfm::recursive_mutex(2);
    lock_and_unlock(*mutex);
    if (i % 2 == 0)
      std::thread([=] { delete mutex; }).join();
    else
      delete mutex;
  }
}

int main() {
  mutexes_that_end();
  const size_t before = room;
  std::vector<lfm::recursive_mutex> living(10);
  for (lfm::recursive_mutex &mutex : living) lock_and_unlock(mutex);
  mutexes_that_end();
  EXPECT(room.load(), before);
  mutexes_that_live();
  const size_t grown = room;
  mutexes_that_live();
  EXPECT(room.load(), grown);
  return 0;
}
