// A bounded queue between threads, as one writes it with std::mutex: a mutex, two condition variables, and a wait with a time
// limit.
//
//     c++ -std=c++17 bounded_queue.cpp $(pkg-config --cflags --libs ligdrosa) -pthread
#include <ligdrosa.hpp>

#include <array>
#include <chrono>
#include <iostream>
#include <mutex>
#include <optional>
#include <thread>
#include <vector>

constexpr std::size_t places = 16;
constexpr int producers = 2, consumers = 2;
constexpr unsigned long numbers_of_each = 10000;

class Queue {
public:
  // Puts a number in, as soon as there is room.
  void put(unsigned long number) {
    std::unique_lock held(mutex_);
    not_full_.wait(held, [&] { return count_ < places; });
    numbers_[(first_ + count_++) % places] = number;
    not_empty_.notify_one();
  }

  // Tells the consumers that no number will be put in any more.
  void close() {
    std::lock_guard held(mutex_);
    is_closed_ = true;
    not_empty_.notify_all();
  }

  // Takes out the oldest number. If there is none, it waits for one, at most this long.
  template <class Duration> std::optional<unsigned long> take_for(Duration limit) {
    std::unique_lock held(mutex_);
    not_empty_.wait_for(held, limit, [&] { return count_ != 0 || is_closed_; });
    if (count_ == 0) return std::nullopt;
    unsigned long number = numbers_[first_];
    first_ = (first_ + 1) % places;
    count_--;
    not_full_.notify_one();
    return number;
  }

  // Whether no number is there, and none will be.
  bool is_over() {
    std::lock_guard held(mutex_);
    return is_closed_ && count_ == 0;
  }

private:
  lfm::recursive_mutex mutex_;
  lfm::condition_variable not_empty_, not_full_;
  std::array<unsigned long, places> numbers_{};
  std::size_t first_ = 0, count_ = 0;
  bool is_closed_ = false;
};

static Queue queue;

int main() {
  using namespace std::chrono_literals;
  if (!queue.take_for(10ms)) std::cout << "an empty queue: nothing came within 10 ms\n";

  std::vector<std::thread> putting, taking;
  std::array<unsigned long, consumers> sums{};
  for (int i = 0; i < producers; i++)
    putting.emplace_back([] {
      for (unsigned long number = 1; number <= numbers_of_each; number++) queue.put(number);
    });
  for (unsigned long &sum : sums)
    taking.emplace_back([&sum] {
      while (!queue.is_over()) sum += queue.take_for(500ms).value_or(0);
    });
  for (std::thread &thread : putting) thread.join();
  queue.close();
  for (std::thread &thread : taking) thread.join();

  unsigned long sum = 0;
  for (unsigned long of_one : sums) sum += of_one;
  std::cout << producers << " producers, " << consumers << " consumers: the sum is " << sum << '\n';
}
