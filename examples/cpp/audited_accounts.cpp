// Accounts between which threads transfer money as fast as they can, and an auditor that adds them up each millisecond. It
// locks in order: it queues at once, and from there on no thread that queues later is served before it.
//
//     c++ -std=c++17 audited_accounts.cpp $(pkg-config --cflags --libs ligdrosa) -pthread
#include <ligdrosa.hpp>

#include <array>
#include <atomic>
#include <chrono>
#include <iostream>
#include <mutex>
#include <numeric>
#include <thread>

constexpr std::size_t accounts = 4;
constexpr long in_each = 100;
constexpr int audits = 200;

class Bank {
public:
  void transfer(std::size_t from, std::size_t to) {
    std::lock_guard held(mutex_);
    accounts_[from]--;
    accounts_[to]++;
  }

  // The sum of all accounts, between two transfers.
  long audit() {
    mutex_.lock_in_order();
    std::lock_guard held(mutex_, std::adopt_lock);
    return std::accumulate(accounts_.begin(), accounts_.end(), 0L);
  }

private:
  lfm::recursive_mutex mutex_;
  std::array<long, accounts> accounts_{in_each, in_each, in_each, in_each};
};

static Bank bank;
static std::atomic<bool> is_over{false};

// Transfers from each account to the next, until the audits are over.
static void transfer() {
  for (std::size_t from = 0; !is_over; from++) bank.transfer(from % accounts, (from + 1) % accounts);
}

int main() {
  std::array<std::thread, 3> threads;
  for (std::thread &thread : threads) thread = std::thread(transfer);
  bool are_right = true;
  for (int i = 0; i < audits; i++) {
    std::this_thread::sleep_for(std::chrono::milliseconds(1));
    are_right &= bank.audit() == accounts * in_each;
  }
  is_over = true;
  for (std::thread &thread : threads) thread.join();
  if (!are_right) return 1;
  std::cout << audits << " audits beside " << threads.size() << " threads that transfer: each found " << accounts * in_each
            << '\n';
}
