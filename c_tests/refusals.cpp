// Which calls are refused, and that a refusal is an error of the standard library. And seats: seats in hand, more of them and
// more threads than a mutex was made for, and a mutex that is destroyed before the threads that used it end.
#include <atomic>
#include <thread>
#include <vector>

#include "expect.hpp"
#include "ligdrosa.hpp"

static_assert(sizeof(lfm::recursive_mutex) == sizeof(lfm_mutex), "a mutex has no more than that of ligdrosa.h");
static_assert(sizeof(lfm::condition_variable) == 32, "and so has a condition variable");
static_assert(std::is_nothrow_default_constructible<lfm::recursive_mutex>::value, "");
static_assert(std::is_nothrow_default_constructible<lfm::condition_variable>::value, "");
static_assert(std::is_nothrow_move_constructible<lfm::seat>::value, "");

static const int DEEPEST = 65535;

// Why a call is refused, or LFM_DONE.
template <class Call> static lfm_status refusal_of(Call call) {
  try {
    call();
  } catch (const lfm::refused &why) {
    return why.status();
  }
  return LFM_DONE;
}

static void errors_of_the_standard_library() {
  lfm::recursive_mutex mutex;
  std::error_code code;
  try {
    mutex.unlock();
  } catch (const std::system_error &why) {
    code = why.code();
    EXPECT(std::string(why.what()), std::string("ligdrosa refuses a call: ") + lfm_status_text(LFM_NOT_OWNER));
  }
  EXPECT(code == std::errc::operation_not_permitted, true);
  EXPECT(code.value(), LFM_NOT_OWNER);
  EXPECT(std::string(code.category().name()), "ligdrosa");
}

static void seats_in_hand() {
  lfm::mutex mutex(2);
  lfm::seat first(mutex), second(mutex);
  lfm::seat_lock one(first), other(second);
  std::unique_lock<lfm::seat_lock> lock(one);
  EXPECT(first.depth(), 1u);
  EXPECT(other.try_lock(), false);
  lock.unlock();
  EXPECT(other.try_lock(), true);
  other.unlock();
  other.lock_in_order();
  EXPECT(second.depth(), 1u);
  other.unlock();
  EXPECT(refusal_of([&] { one.unlock(); }), LFM_NOT_OWNER);
}

static void seats_that_move() {
  lfm::mutex mutex(2);
  std::vector<lfm::seat> seats;
  seats.emplace_back(mutex);
  lfm::seat_lock first(seats[0]);
  first.lock();
  seats.emplace_back(mutex);
  EXPECT(seats[0].depth(), 1u);
  first.unlock();
  EXPECT(refusal_of([&] { lfm::seat third(mutex); }), LFM_DONE);
  seats.pop_back();
  lfm::seat again(mutex), moved(std::move(again));
  EXPECT(moved.left() > 0, true);
  lfm::condition_variable changed;
  lfm::seat_lock blank(again);
  EXPECT(refusal_of([&] { blank.lock(); }), LFM_BLANK);
  EXPECT(refusal_of([&] { changed.notify_one_by(blank); }), LFM_BLANK);
  EXPECT(refusal_of([&] { changed.notify_all_by(blank); }), LFM_BLANK);
}

static void refusals_of_seats() {
  EXPECT(refusal_of([] { lfm::mutex none(0); }), LFM_LIMIT);
  EXPECT(refusal_of([] { lfm::mutex many(4096); }), LFM_LIMIT);
  lfm::mutex mutex(1, 1);
  lfm::seat first(mutex), second(mutex);
  lfm::seat_lock lock(first), other(second);
  for (int depth = 0; depth < DEEPEST; depth++) lock.lock();
  EXPECT(refusal_of([&] { lock.lock(); }), LFM_DEPTH_FULL);
  EXPECT(refusal_of([&] { (void)lock.try_lock(); }), LFM_DEPTH_FULL);
  EXPECT(refusal_of([&] { EXPECT(other.try_lock(), false); }), LFM_DONE);
  EXPECT(refusal_of([&] { other.unlock(); }), LFM_NOT_OWNER);
  for (int depth = 0; depth < DEEPEST; depth++) lock.unlock();
}

// More seats are in hand at a time than the process has numbers. When one is given back, there is one more.
static void all_numbers() {
  lfm::mutex mutex(1);
  std::vector<lfm::seat> seats;
  const auto take = [&] { return refusal_of([&] { seats.emplace_back(mutex); }); };
  seats.reserve(LFM_MOST_SEATS);
  lfm_status status = LFM_DONE;
  while (status == LFM_DONE && seats.size() < LFM_MOST_SEATS) status = take();
  EXPECT(status, LFM_NO_SEAT);
  EXPECT(seats.size() > LFM_MOST_SEATS - 100, true);
  lfm::recursive_mutex other;
  std::thread([&] {
    EXPECT(refusal_of([&] { other.lock(); }), LFM_NO_SEAT);
    lfm::condition_variable().notify_all();
  }).join();
  seats.pop_back();
  std::thread([&] { EXPECT(refusal_of([&] { lfm::guard hold(other); }), LFM_DONE); }).join();
  EXPECT(take(), LFM_DONE);
  EXPECT(take(), LFM_NO_SEAT);
}

static void refusals_of_threads() {
  EXPECT(refusal_of([] { lfm::recursive_mutex none(0); }), LFM_LIMIT);
  EXPECT(refusal_of([] { lfm::recursive_mutex none(4096); }), LFM_LIMIT);
  EXPECT(refusal_of([] { lfm::recursive_mutex none(1, 0); }), LFM_LIMIT);
  lfm::recursive_mutex mutex(1, 3), other;
  lfm::condition_variable condition;
  EXPECT(refusal_of([&] { mutex.unlock(); }), LFM_NOT_OWNER);
  std::unique_lock<lfm::recursive_mutex> lock(mutex), again(mutex);
  EXPECT(mutex.depth(), 2u);
  EXPECT(lfm_depth(mutex.own()), 2u);
  EXPECT(refusal_of([&] { condition.wait(lock); }), LFM_NESTED);
  std::unique_lock<lfm::recursive_mutex> not_held(other, std::defer_lock);
  EXPECT(refusal_of([&] { condition.wait(not_held); }), LFM_NOT_OWNER);
  lock.unlock();
  again.unlock();
  EXPECT(refusal_of([&] { mutex.unlock(); }), LFM_NOT_OWNER);
  for (int depth = 0; depth < DEEPEST; depth++) mutex.lock();
  EXPECT(refusal_of([&] { mutex.lock(); }), LFM_DEPTH_FULL);
  EXPECT(refusal_of([&] { (void)mutex.try_lock(); }), LFM_DEPTH_FULL);
  EXPECT(refusal_of([&] { (void)mutex.try_lock_for(std::chrono::seconds(1)); }), LFM_DEPTH_FULL);
  for (int depth = 0; depth < DEEPEST; depth++) mutex.unlock();
  // a thread that has not called yet may wake
  std::thread([&] {
    condition.notify_one();
    condition.notify_all();
  }).join();
}

// More threads than a mutex was made for use it at a time, and many more one after another.
static void more_threads_than_seats() {
  const int AT_A_TIME = 3 * LFM_USUAL_SEATS, LATER = 10;
  lfm::recursive_mutex mutex;
  std::atomic<int> arrived{0};
  std::atomic<bool> may_end{false};
  int total = 0;
  const auto count = [&] {
    lfm::guard hold(mutex);
    total++;
  };
  std::vector<std::thread> threads;
  for (int i = 0; i < AT_A_TIME; i++)
    threads.emplace_back([&] {
      count();
      arrived++;
      while (!may_end) std::this_thread::sleep_for(std::chrono::milliseconds(1));
    });
  while (arrived != AT_A_TIME) std::this_thread::yield();
  count();
  for (int i = 0; i < LATER; i++) std::thread(count).join();
  may_end = true;
  for (std::thread &thread : threads) thread.join();
  EXPECT(total, AT_A_TIME + 1 + LATER);
}

// A thread that gives its seat back doesn't keep another thread from the mutex, nor itself.
static void a_living_thread_gives_its_seat_back() {
  lfm::recursive_mutex mutex(1);
  const auto of_a_thread = [&] {
    lfm_status status = LFM_DONE;
    std::thread([&] { status = refusal_of([&] { lfm::guard hold(mutex); }); }).join();
    return status;
  };
  mutex.give_seat();
  mutex.lock();
  EXPECT(refusal_of([&] { mutex.give_seat(); }), LFM_HOLDING);
  mutex.unlock();
  EXPECT(of_a_thread(), LFM_DONE);
  mutex.give_seat();
  EXPECT(of_a_thread(), LFM_DONE);
  mutex.lock();
  mutex.unlock();
}

static lfm::recursive_mutex of_the_program(2);

static void mutexes_that_end() {
  std::lock_guard<lfm::recursive_mutex> lock(of_the_program);
  for (int i = 0; i < 100; i++) {
    lfm::recursive_mutex mutex(1);
    mutex.lock();
    mutex.unlock();
  }
  std::unique_ptr<lfm::recursive_mutex> mutex(new lfm::recursive_mutex(2));
  std::atomic<int> step{0};
  std::thread user([&] {
    mutex->lock();
    mutex->unlock();
    step = 1;
    while (step != 2) std::this_thread::yield();
  });
  while (step != 1) std::this_thread::yield();
  mutex.reset();
  step = 2;
  user.join();
}

int main() {
  errors_of_the_standard_library();
  seats_in_hand();
  seats_that_move();
  refusals_of_seats();
  refusals_of_threads();
  more_threads_than_seats();
  a_living_thread_gives_its_seat_back();
  mutexes_that_end();
  all_numbers();
  return 0;
}
