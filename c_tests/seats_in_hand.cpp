// Seats in hand: locks and waits with a time limit, wakes by a holder, and what wakes, takes and assertions tell. It throws
// and catches nothing, so it is compiled without exceptions too.
#include <signal.h>
#include <sys/wait.h>
#include <unistd.h>

#include <atomic>
#include <cstdlib>
#include <thread>

#include "clocks.hpp"
#include "expect.hpp"
#include "ligdrosa.h"

// A program may have functions of these names: the header calls its own.
inline void made(lfm_status) { std::abort(); }
inline bool has_acquired(lfm_status) { std::abort(); }

#include "ligdrosa.hpp"

using std::chrono::hours;
using std::chrono::milliseconds;
using std::chrono::steady_clock;
using std::chrono::system_clock;
using seat_hold = std::unique_lock<lfm::seat_lock>;

static const milliseconds SHORT(20);

static void locks_with_limits() {
  lfm::mutex mutex(2);
  lfm::seat first(mutex), second(mutex);
  lfm::seat_lock one(first), other(second);
  EXPECT(one.try_lock_for(SHORT), true);
  lasts(SHORT, [&] { EXPECT(other.try_lock_for(SHORT), false); });
  EXPECT(other.try_lock(), false);
  lasts(SHORT, [&] { EXPECT(other.try_lock_until(steady_clock::now() + SHORT), false); });
  lasts(SHORT, [&] { EXPECT(other.try_lock_until(system_clock::now() + SHORT), false); });
  lasts(2 * SHORT, [&] { EXPECT(other.try_lock_until(slow_clock::now() + SHORT), false); });
  EXPECT(other.try_lock_for(milliseconds(-1)), false);
  EXPECT(other.try_lock_until(steady_clock::time_point::min()), false);
  std::thread releases([&] {
    std::this_thread::sleep_for(milliseconds(5));
    one.unlock();
  });
  EXPECT(other.try_lock_for(hours(1)), true);
  releases.join();
  EXPECT(other.try_lock_until(slow_clock::now()), true); // a second hold
  EXPECT(second.depth(), 2u);
  other.unlock();
  other.unlock();
  seat_hold hold(one, SHORT);
  EXPECT(hold.owns_lock(), true);
}

static void waits_with_limits() {
  const auto timeout = std::cv_status::timeout;
  lfm::mutex mutex(1);
  lfm::seat only(mutex);
  lfm::seat_lock seat(only);
  lfm::condition_variable condition;
  seat_hold hold(seat);
  lasts(SHORT, [&] { EXPECT(condition.wait_for(hold, SHORT) == timeout, true); });
  lasts(SHORT, [&] { EXPECT(condition.wait_until(hold, steady_clock::now() + SHORT) == timeout, true); });
  lasts(SHORT, [&] { EXPECT(condition.wait_until(hold, system_clock::now() + SHORT) == timeout, true); });
  lasts(SHORT, [&] { EXPECT(condition.wait_for(hold, SHORT, [] { return false; }), false); });
  lasts(2 * SHORT, [&] { EXPECT(condition.wait_until(hold, slow_clock::now() + SHORT, [] { return false; }), false); });
  EXPECT(condition.wait_until(hold, steady_clock::now(), [] { return true; }), true);
  EXPECT(only.depth(), 1u);
}

// Two threads with seats in hand and one without take turns by one condition variable.
static void threads_take_turns() {
  const int ROUNDS = 2000;
  lfm::mutex of_seats(2);
  lfm::recursive_mutex another;
  lfm::condition_variable condition;
  int turn = 0;
  auto take_turns = [&](int own) {
    lfm::seat seat(of_seats);
    lfm::seat_lock lock(seat);
    for (int i = 0; i < ROUNDS; i++) {
      seat_hold hold(lock);
      condition.wait(hold, [&] { return turn % 2 == own; });
      turn++;
      if (i % 2 == 0) condition.notify_one_by(lock); else condition.notify_all_by(lock);
    }
  };
  std::thread even(take_turns, 0), odd(take_turns, 1);
  even.join();
  odd.join();
  EXPECT(turn, 2 * ROUNDS);
  std::unique_lock<lfm::recursive_mutex> lock(another);
  EXPECT(condition.wait_for(lock, milliseconds(1)) == std::cv_status::timeout, true);
}

static void wakes_tell_whether_one_waited() {
  lfm::mutex mutex(2);
  lfm::seat own(mutex);
  lfm::seat_lock lock(own);
  lfm::condition_variable condition;
  EXPECT(condition.notify_one() || condition.notify_all(), false);
  for (int way = 0; way < 4; way++) {
    bool is_waiting = false, is_over = false;
    std::thread waits([&] {
      lfm::seat seat(mutex);
      lfm::seat_lock by(seat);
      seat_hold hold(by);
      is_waiting = true;
      while (!is_over) condition.wait(hold);
    });
    seat_hold hold(lock);
    while (!is_waiting) hold.unlock(), std::this_thread::yield(), hold.lock();
    is_over = true;
    EXPECT(way == 0 ? condition.notify_one() : way == 1 ? condition.notify_all()
           : way == 2 ? condition.notify_one_by(lock) : condition.notify_all_by(lock), true);
    EXPECT(condition.notify_one_by(lock) || condition.notify_all_by(lock), false);
    hold.unlock();
    waits.join();
  }
}

// No take is used up.
static void takes_that_are_left() {
  lfm::mutex of_seats(3, 10);
  EXPECT(of_seats.takes_left(), 3 * LFM_MOST_TAKES);
  {
    lfm::seat seat(of_seats);
    lfm::seat_lock lock(seat);
    for (int i = 0; i < 20; i++) lock.lock(), lock.unlock();
    EXPECT(seat.left(), LFM_MOST_TAKES);
  }
  EXPECT(of_seats.takes_left(), 3 * LFM_MOST_TAKES);
  lfm::recursive_mutex mutex(2, 10);
  for (int i = 0; i < 20; i++) mutex.lock(), mutex.unlock();
  mutex.give_seat();
  EXPECT(mutex.takes_left(), 2 * LFM_MOST_TAKES);
}

// Expects that the call ends a child, with the text of a failed assertion.
template <class Call> static void ends(Call call) {
  int pipe_ends[2], status = 0;
  EXPECT(pipe(pipe_ends), 0);
  const pid_t child = fork();
  if (child == 0) {
    dup2(pipe_ends[1], STDERR_FILENO);
    signal(SIGABRT, SIG_DFL);
    call();
    _exit(0);
  }
  EXPECT(waitpid(child, &status, 0), child);
  EXPECT(WIFSIGNALED(status) && WTERMSIG(status) == SIGABRT, true);
  char text[64] = {};
  EXPECT(read(pipe_ends[0], text, sizeof text - 1) > 0, true);
  EXPECT(std::string(text).find("ligdrosa: the mutex is not held"), 0u);
  close(pipe_ends[0]);
  close(pipe_ends[1]);
}

static void assertions() {
  lfm::recursive_mutex mutex;
  {
    lfm::guard hold(mutex);
    mutex.assert_held();
  }
  lfm::mutex of_seats(1);
  lfm::seat seat(of_seats);
  lfm::seat_lock lock(seat);
  lock.lock();
  lock.assert_held();
  lock.unlock();
  ends([] { lfm::recursive_mutex().assert_held(); });
  ends([] {
    lfm::mutex own(1);
    lfm::seat of_child(own);
    lfm::seat_lock(of_child).assert_held();
  });
}

int main() {
  locks_with_limits();
  waits_with_limits();
  threads_take_turns();
  wakes_tell_whether_one_waited();
  takes_that_are_left();
  assertions();
  return 0;
}
