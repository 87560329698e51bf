// What the tests of times share: a clock of the program, and the time that a call takes.
#pragma once
#include <chrono>

#include "expect.hpp"

// A clock that goes half as fast as the system's.
struct slow_clock {
  using duration = std::chrono::duration<double, std::milli>;
  using rep = duration::rep;
  using period = duration::period;
  using time_point = std::chrono::time_point<slow_clock>;
  static constexpr bool is_steady = true;
  static time_point now() {
    return time_point(duration(std::chrono::steady_clock::now().time_since_epoch()) / 2);
  }
};

// Expects that the call takes at least this long.
template <class Call> void lasts(std::chrono::milliseconds least, Call call) {
  const auto begun = std::chrono::steady_clock::now();
  call();
  EXPECT(std::chrono::steady_clock::now() - begun >= least, true);
}
