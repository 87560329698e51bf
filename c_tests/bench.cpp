// Times Ligdrosa's mutex and condition variable from C and C++, pthread's recursive mutex and std::recursive_mutex, and
// those of nsync and absl, in one process and in turn, so that other load on the machine affects them equally: bench [ROUNDS
// [MILLISECONDS]]. A line is
//
//     ROW|LOCK|MEDIAN|LEAST|GREATEST
//
// of the rounds: nanoseconds for a lock and an unlock, a round trip, a broadcast or a number through a queue. Rows that end
// in `most over fewest` are the most acquisitions of a thread, divided by the fewest of a thread. In rows with `in order` our
// locks queue at once, and the other mutexes, which have no such call, lock as they do. rust/examples/bench/main.rs has the
// same rows.
#include <time.h>

#include <algorithm>
#include <atomic>
#include <barrier>
#include <chrono>
#include <cstdio>
#include <functional>
#include <memory>
#include <numeric>
#include <random>
#include <string>
#include <thread>
#include <type_traits>
#include <vector>

#include "bench_locks.hpp"

static InHand in_hand;
static Found found;
static Posix posix;
static Standard<lfm::recursive_mutex, lfm::condition_variable> ours;
static Standard<std::recursive_mutex, std::condition_variable_any> standard;
#ifdef WITH_NSYNC
static Nsync nsync_mutex;
#endif
#ifdef WITH_ABSL
static Absl absl_mutex;
#endif
static uint64_t total;
static int rounds = 11, milliseconds = 50;

static uint64_t now() {
  auto time = std::chrono::steady_clock::now().time_since_epoch();
  return uint64_t(std::chrono::duration_cast<std::chrono::nanoseconds>(time).count());
}

// The processor time of the calling thread, to which no other thread adds.
static uint64_t own_time() {
  struct timespec time;
  clock_gettime(CLOCK_THREAD_CPUTIME_ID, &time);
  return uint64_t(time.tv_sec) * 1000000000 + uint64_t(time.tv_nsec);
}

// Turns of a loop that only take time, and take as long from each place that calls them.
[[gnu::noinline]] static void turn(uint64_t count) {
  for (uint64_t i = 0; i < count; i++) __asm__ volatile("" ::: "memory");
}

// How many turns take this many nanoseconds, by the quickest of many tries.
static uint64_t turns_of(double nanoseconds) {
  const uint64_t turns = 20000;
  uint64_t least = UINT64_MAX;
  for (int i = 0; i < 2000; i++) {
    uint64_t begun = now();
    turn(turns);
    least = std::min(least, now() - begun);
  }
  return uint64_t(nanoseconds * double(turns) / double(least));
}

template <class Lock> static double alone(Lock &lock) {
  const int pairs = 100000;
  uint64_t begun = own_time();
  for (int i = 0; i < pairs; i++) {
    lock.lock(0);
    total++;
    lock.unlock(0);
  }
  return double(own_time() - begun) / pairs;
}

// The thread holds already, all the time.
template <class Lock> static double deeper(Lock &lock) {
  lock.lock(0);
  double nanoseconds = alone(lock);
  lock.unlock(0);
  return nanoseconds;
}

// Another thread holds.
template <class Lock> static double refused_try(Lock &lock) {
  const int tries = 100000;
  double nanoseconds = 0;
  lock.lock(0);
  std::thread([&] {
    uint64_t begun = own_time();
    for (int i = 0; i < tries; i++)
      if (lock.try_lock(1)) std::abort();
    nanoseconds = double(own_time() - begun);
  }).join();
  lock.unlock(0);
  return nanoseconds / tries;
}

// One thread, and this many mutexes in a random order.
template <class Lock> static double among(size_t count) {
  const int pairs = 50000;
  std::unique_ptr<typename Lock::OfOneThread[]> locks(new typename Lock::OfOneThread[count]);
  std::vector<size_t> order(count);
  std::iota(order.begin(), order.end(), size_t(0));
  std::shuffle(order.begin(), order.end(), std::mt19937(1));
  uint64_t begun = 0;
  // the first round opens them
  for (int i = -int(count); i < pairs; i++) {
    if (i == 0) begun = own_time();
    auto &lock = locks[order[(size_t(i) + count) % count]];
    lock.lock(0);
    total++;
    lock.unlock(0);
  }
  return double(own_time() - begun) / pairs;
}

// A mutex of one hold.
template <class Lock> static double short_lived() {
  const int times = 50000;
  uint64_t begun = own_time();
  for (int i = 0; i < times; i++) {
    typename Lock::OfOneThread lock;
    lock.lock(0);
    total++;
    lock.unlock(0);
  }
  return double(own_time() - begun) / times;
}

// Runs the function in this many threads, which begin together, and returns the nanoseconds until all have ended. `beside` is
// done by the calling thread meanwhile.
static double in_threads(int threads, const std::function<void(int)> &work, const std::function<void()> &beside = [] {}) {
  std::barrier start(threads + 1);
  std::vector<std::thread> all;
  for (int thread = 0; thread < threads; thread++)
    all.emplace_back([&, thread] {
      start.arrive_and_wait();
      work(thread);
    });
  uint64_t begun = now();
  start.arrive_and_wait();
  beside();
  for (auto &thread : all) thread.join();
  return double(now() - begun);
}

struct Shares {
  double nanoseconds, most_over_fewest;
};

// This many threads, which hold for `inside` turns and stay outside for `outside` turns, until the time is over. Each holds at
// least once, also if it starts late on a busy machine.
template <class Lock> static Shares together(Lock &lock, int threads, uint64_t inside, uint64_t outside) {
  std::vector<uint64_t> gained(size_t(threads), 0);
  std::atomic<bool> is_over{false};
  total = 0;
  double nanoseconds = in_threads(
      threads,
      [&](int thread) {
        uint64_t count = 0;
        do {
          lock.lock(thread);
          total++;
          if (inside) turn(inside);
          lock.unlock(thread);
          if (outside) turn(outside);
          count++;
        } while (!is_over.load(std::memory_order_relaxed));
        gained[size_t(thread)] = count;
      },
      [&] {
        std::this_thread::sleep_for(std::chrono::milliseconds(milliseconds));
        is_over.store(true, std::memory_order_relaxed);
      });
  if (total != std::accumulate(gained.begin(), gained.end(), uint64_t(0))) std::abort();
  auto ends = std::minmax_element(gained.begin(), gained.end());
  return {nanoseconds / double(total), double(*ends.second) / double(std::max<uint64_t>(*ends.first, 1))};
}

// Two threads wake one another in turn: a round trip.
template <class Lock> static double ping_pong(Lock &lock) {
  const int trips = 1000;
  typename Lock::Condition conditions[2];
  int whose = 0;
  double nanoseconds = in_threads(2, [&](int thread) {
    for (int i = 0; i < trips; i++) {
      lock.lock(thread);
      while (whose != thread) conditions[thread].wait(lock, thread);
      whose = 1 - thread;
      conditions[1 - thread].wake_one(lock, thread);
      lock.unlock(thread);
    }
  });
  return nanoseconds / trips;
}

// One thread repeatedly wakes this many that wait: the time from the wake until each of them has held the mutex.
template <class Lock> static double broadcast(Lock &lock, int waiters) {
  const int times = 50;
  typename Lock::Condition go, all_wait;
  int generation = 0, waiting = 0;
  uint64_t begun = 0;
  in_threads(waiters + 1, [&](int thread) {
    lock.lock(thread);
    for (int i = 0; i < times; i++) {
      if (thread != waiters) {
        if (++waiting == waiters) all_wait.wake_one(lock, thread);
        while (generation <= i) go.wait(lock, thread);
        continue;
      }
      while (waiting != waiters) all_wait.wait(lock, thread);
      if (i == 0) begun = now(); // all wait for the first time
      waiting = 0;
      generation++;
      go.wake_all(lock, thread);
    }
    lock.unlock(thread);
  });
  return double(now() - begun) / times;
}

// As many threads put numbers into a queue of 16 places as take them out.
template <class Lock> static double queue(Lock &lock, int pairs_of_threads) {
  const uint64_t places = 16, numbers = 4000 / uint64_t(pairs_of_threads);
  typename Lock::Condition not_full, not_empty;
  uint64_t slots[places], put = 0, taken = 0;
  std::atomic<uint64_t> sum{0};
  double nanoseconds = in_threads(2 * pairs_of_threads, [&](int thread) {
    for (uint64_t number = 1, own = 0; number <= numbers; number++) {
      lock.lock(thread);
      if (thread % 2 == 0) {
        while (put - taken == places) not_full.wait(lock, thread);
        slots[put++ % places] = number;
        not_empty.wake_one(lock, thread);
      } else {
        while (put == taken) not_empty.wait(lock, thread);
        own += slots[taken++ % places];
        not_full.wake_one(lock, thread);
      }
      lock.unlock(thread);
      if (number == numbers) sum += own;
    }
  });
  uint64_t moved = numbers * uint64_t(pairs_of_threads);
  if (sum != moved * (numbers + 1) / 2) std::abort();
  return nanoseconds / double(moved);
}

using Figures = std::vector<double>;

static void print(const std::string &row, const char *lock, Figures figures) {
  std::sort(figures.begin(), figures.end());
  std::printf("%s|%s|%.1f|%.1f|%.1f\n", row.c_str(), lock, figures[figures.size() / 2], figures.front(), figures.back());
  std::fflush(stdout);
}

// Calls the function with the name of each lock and with the lock.
template <class Function> static void for_each_lock(Function function) {
  function("C in hand", in_hand);
  function("C here", found);
  function("pthread recursive", posix);
  function("C++", ours);
  function("std::recursive_mutex", standard);
#ifdef WITH_NSYNC
  function("nsync", nsync_mutex);
#endif
#ifdef WITH_ABSL
  function("absl", absl_mutex);
#endif
}

// Measures all locks in turn. One measurement gives a figure for each of these rows, or none if the lock cannot do it.
template <class Measure> static void tell(const std::vector<std::string> &rows, Measure measure) {
  struct Column {
    const char *lock;
    std::vector<Figures> of_rows;
  };
  std::vector<Column> columns;
  for_each_lock([&](const char *name, auto &) { columns.push_back({name, std::vector<Figures>(rows.size())}); });
  for (int i = 0; i < rounds; i++) {
    size_t at = 0;
    for_each_lock([&](const char *, auto &lock) {
      Figures found = measure(lock);
      for (size_t row = 0; row < found.size(); row++) columns[at].of_rows[row].push_back(found[row]);
      at++;
    });
  }
  for (size_t row = 0; row < rows.size(); row++)
    for (const Column &column : columns)
      if (!column.of_rows[row].empty()) print(rows[row], column.lock, column.of_rows[row]);
}

static void tell_one_thread() {
  tell({"alone: lock, unlock"}, [](auto &lock) { return Figures{alone(lock)}; });
  tell({"alone, in order"}, [](auto &lock) {
    InOrder ordered{lock};
    return Figures{alone(ordered)};
  });
  tell({"alone: once more, once less"}, [](auto &lock) {
    if constexpr (std::decay_t<decltype(lock)>::is_recursive)
      return Figures{deeper(lock)};
    else
      return Figures{};
  });
  tell({"try_lock that is refused"}, [](auto &lock) { return Figures{refused_try(lock)}; });
  tell({"opened, locked once and closed"}, [](auto &lock) { return Figures{short_lived<std::decay_t<decltype(lock)>>()}; });
  for (size_t count : {64, 4096, 65536})
    tell({"one among " + std::to_string(count)}, [=](auto &lock) {
      using Lock = std::decay_t<decltype(lock)>;
      // a process has no more seats in hand
      if (std::is_same_v<Lock, InHand> && count > LFM_MOST_SEATS) return Figures{};
      return Figures{among<Lock>(count)};
    });
}

static void tell_threads() {
  struct Load {
    const char *name;
    uint64_t inside, outside;
  };
  for (Load load : {Load{"short", 0, 0}, Load{"long", turns_of(500), 0}, Load{"thinking", 0, turns_of(1000)}})
    for (int threads : {2, 4, 8}) {
      auto measure = [=](auto &lock) {
        Shares shares = together(lock, threads, load.inside, load.outside);
        return Figures{shares.nanoseconds, shares.most_over_fewest};
      };
      std::string row = std::to_string(threads) + " threads, " + load.name, in_order = row + ", in order";
      tell({row, row + ", most over fewest"}, measure);
      tell({in_order, in_order + ", most over fewest"}, [=](auto &lock) {
        InOrder ordered{lock};
        return measure(ordered);
      });
    }
}

static void tell_conditions() {
  tell({"ping-pong, a round trip"}, [](auto &lock) { return Figures{ping_pong(lock)}; });
  for (int waiters : {4, 32})
    tell({"broadcast to " + std::to_string(waiters)}, [=](auto &lock) { return Figures{broadcast(lock, waiters)}; });
  for (int pairs : {1, 4})
    tell({"queue, " + std::to_string(pairs) + " to " + std::to_string(pairs)},
         [=](auto &lock) { return Figures{queue(lock, pairs)}; });
}

int main(int argc, char **argv) {
  if (argc > 1) rounds = std::atoi(argv[1]);
  if (argc > 2) milliseconds = std::atoi(argv[2]);
#ifdef WITH_ABSL
  // Debian builds absl with a search for deadlocks, which a build for release does not have
  absl::SetMutexDeadlockDetectionMode(absl::OnDeadlockCycle::kIgnore);
#endif
  // a second thread runs first: before that the C library makes no atomic steps
  std::thread([] {}).join();
  tell_one_thread();
  tell_threads();
  tell_conditions();
  return 0;
}
