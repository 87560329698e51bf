// Ligdrosa for C++11 to C++23, over ligdrosa.h, which states what is proved and what a program promises. The classes here are
// only tested.
//
// lfm::recursive_mutex is used as std::recursive_timed_mutex, and lfm::condition_variable as std::condition_variable:
//
//     lfm::recursive_mutex mutex;
//     lfm::condition_variable filled;
//
//     std::unique_lock<lfm::recursive_mutex> lock(mutex);
//     filled.wait(lock, [&] { return !queue.empty(); });
//
// A call that is refused throws lfm::refused, which is a std::system_error: what() and status() state the cause. In a file that
// is compiled without exceptions it ends the program with a text.
// Files of both kinds may be linked into one program. For each kind lfm::recursive_mutex and the other classes that may throw
// are separate types, so a function of one kind takes no mutex of the other. It takes the lfm_mutex (native_handle).
//
// A forked child calls lfm_after_fork(mutex.native_handle(), nullptr) before any other call of a mutex that its thread held as
// the parent forked. It sets *condition.native_handle() to lfm_condvar() if other threads may have waited at that condition
// variable.
//
// A thread that has its seat in hand uses lfm::mutex, lfm::seat, and lfm::seat_lock, which is the seat as a TimedLockable.
// The locks of the standard library take both Lockables, and so do lfm::condition_variable and std::condition_variable_any.
#pragma once

#include <dlfcn.h>

#include <chrono>
#include <condition_variable>
#include <cstdio>
#include <cstdlib>
#include <memory>
#include <mutex>
#include <string>
#include <system_error>
#include <type_traits>

#include "ligdrosa.h"

#if __cplusplus >= 201703L
#define LFM_MUST_USE [[nodiscard]]
#else
#define LFM_MUST_USE
#endif
// For clang's -Wthread-safety, which doesn't follow the bodies of these calls.
#define LFM_CALL(what) LFM_TELLS_CLANG(what) LFM_UNSEEN

// The linker keeps one of the inline functions of one name. So those that throw or abort have another name in each kind of
// file.
#ifdef __cpp_exceptions
#define LFM_KIND with_exceptions
#else
#define LFM_KIND without_exceptions
#endif

namespace lfm {

// The statuses as errors of the standard library.
class status_category : public std::error_category {
public:
  const char *name() const noexcept override { return "ligdrosa"; }
  std::string message(int status) const override { return lfm_status_text(static_cast<lfm_status>(status)); }
  std::error_condition default_error_condition(int status) const noexcept override {
    switch (status) {
      case LFM_NO_MEMORY: return std::errc::not_enough_memory;
      case LFM_NO_SEAT: case LFM_DEPTH_FULL: case LFM_SPENT: return std::errc::resource_unavailable_try_again;
      case LFM_NOT_OWNER: return std::errc::operation_not_permitted;
      case LFM_BUSY: return std::errc::device_or_resource_busy;
      default: return std::errc::invalid_argument;
    }
  }
};

// It is never destroyed, since threads may go on after main.
inline const std::error_category &category() {
  static const status_category &it = *new status_category();
  return it;
}

// A call was refused.
class refused : public std::system_error {
public:
  explicit refused(lfm_status status) : std::system_error(status, category(), "ligdrosa refuses a call") {}
  // Why.
  lfm_status status() const noexcept { return static_cast<lfm_status>(code().value()); }
};

// The greatest budget that a constructor takes.
constexpr uint64_t most_takes = uint64_t{1} << 36;

// Whether memory has static storage, in the program or in a shared object. Before glibc 2.34 it needs -ldl. In a program linked
// with -static, a C library without _dl_find_object finds none: then a static mutex is closed as the program ends.
inline bool is_static(void *memory) noexcept {
#ifdef DLFO_STRUCT_HAS_EH_DBASE // the C library has a search that takes no lock
  dl_find_object found;
  return _dl_find_object(memory, &found) == 0;
#else
  Dl_info found;
  return dladdr(memory, &found) != 0;
#endif
}

// The number of a clock in ligdrosa.h, or -1 if it is not one of the system.
template <class Clock> constexpr int number_of() {
  return std::is_same<Clock, std::chrono::steady_clock>::value   ? LFM_MONOTONIC
         : std::is_same<Clock, std::chrono::system_clock>::value ? LFM_REALTIME : -1;
}

// A number of nanoseconds that is no less than the span: 0 if the span is not above 0, and at most 285 years.
template <class Rep, class Period> uint64_t nanoseconds_of(const std::chrono::duration<Rep, Period> &span) {
  using namespace std::chrono;
  const double length = duration<double>(span).count();
  if (!(length > 0)) return 0;
  if (length > 9e9) return 9000000000000000000;
  const seconds whole = duration_cast<seconds>(span);
  return static_cast<uint64_t>((nanoseconds(whole) + duration_cast<nanoseconds>(span - whole)).count()) + 1;
}

template <class Clock, class Duration> timespec timespec_of(const std::chrono::time_point<Clock, Duration> &time) {
  const uint64_t since_epoch = nanoseconds_of(time.time_since_epoch());
  return {static_cast<time_t>(since_epoch / 1000000000), static_cast<long>(since_epoch % 1000000000)};
}

inline namespace LFM_KIND {

// Throws why a call was refused, or ends the program.
[[noreturn]] inline void refuse(lfm_status status) {
#ifdef __cpp_exceptions
  throw refused(status);
#else
  std::fprintf(stderr, "ligdrosa refuses a call: %s\n", lfm_status_text(status));
  std::abort();
#endif
}

// The status, or an exception if the call was refused.
inline lfm_status made(lfm_status status) {
  if (lfm_is_refused(status)) refuse(status);
  return status;
}

// Whether a try acquired the mutex. Throws if it was refused for another cause than LFM_BUSY.
inline bool has_acquired(lfm_status status) { return status != LFM_BUSY && !lfm_is_refused(lfm::made(status)); }

// Locks until this time by a call of ligdrosa.h, or for a clock that the program defines, by spans of time.
template <class Lock, class By, class Clock, class Duration>
bool lock_until(Lock &lock, lfm_status (*call)(By *, int, const timespec *), By *by,
                const std::chrono::time_point<Clock, Duration> &time) LFM_UNSEEN {
  const timespec at = timespec_of(time);
  const int clock = number_of<Clock>();
  if (clock >= 0) return lfm::has_acquired(call(by, clock, &at));
  while (!lock.try_lock_for(time - Clock::now()))
    if (time <= Clock::now()) return false;
  return true;
}

// A mutex that any thread may lock. A process has 4,095 numbers. Each thread that calls a mutex takes one, and so does each
// seat in hand. If none is left, these are refused as LFM_NO_SEAT. A lock with a time limit that queues takes one more. If
// half of all are used for that, it tries until its time is over.
//
// A mutex of static storage is initialized before the program runs, and its destructor does nothing. So constructors and
// destructors of globals may lock it, and so may threads that go on after main. Any other mutex may be destroyed by the thread
// that acquired it last, as soon as that thread has released it. If it is held then, what the library has of it is leaked, as
// is always that of a mutex which the program constructs in static storage at run time, as by a static std::optional.
class LFM_CAPABILITY recursive_mutex {
  lfm_mutex raw;

  // Throws LFM_LIMIT. If the initializer has to be constant, that doesn't compile.
  static constexpr uint32_t checked(uint64_t seats) {
    return seats - 1 < LFM_MOST_SEATS ? static_cast<uint32_t>(seats) : (refuse(LFM_LIMIT), 0);
  }

public:
  // It is opened by its first lock.
  constexpr recursive_mutex() noexcept : recursive_mutex(LFM_USUAL_SEATS) {}
  // The same. The number is 1 to 4,095, and limits nothing. Throws LFM_LIMIT.
  explicit constexpr recursive_mutex(uint64_t most_threads) : raw{nullptr, checked(most_threads), LFM_VERSION} {}
  // It is opened at once. The numbers limit nothing. Throws as lfm_mutex_new refuses.
  recursive_mutex(uint64_t most_threads, uint64_t budget) : raw() { lfm::made(lfm_mutex_new(&raw, most_threads, budget)); }
  recursive_mutex(const recursive_mutex &) = delete;
  recursive_mutex &operator=(const recursive_mutex &) = delete;
  ~recursive_mutex() {
    if (raw.core && !is_static(this)) lfm_mutex_close(&raw);
  }

  // The mutex for calls of ligdrosa.h.
  lfm_mutex *native_handle() noexcept { return &raw; }
  // The calling thread's seat, for calls of ligdrosa.h. Throws as lfm_seat_here refuses.
  lfm_seat *own() {
    lfm_status cause = LFM_DONE;
    lfm_seat *seat = lfm_seat_here(&raw, &cause);
    return seat ? seat : (refuse(cause), nullptr);
  }
  // How often the calling thread holds the mutex.
  uint64_t depth() noexcept { return lfm_depth_here(&raw); }
  // Ends the program with a text unless the calling thread holds the mutex.
  void assert_held() noexcept LFM_CALL(assert_capability(this)) { lfm_assert_held_here(&raw); }
  // For programs that call it: as lfm_takes_left.
  uint64_t takes_left() noexcept { return lfm_takes_left(&raw); }
  // Ends the seat that `own` has returned. Throws LFM_HOLDING if the thread holds.
  void give_seat() {
    const lfm_status status = lfm_seat_give_here(&raw);
    if (status != LFM_BLANK) lfm::made(status);
  }
  // Throws as lfm_lock_here refuses.
  void lock() LFM_CALL(acquire_capability()) { lfm::made(lfm_lock_here(&raw)); }
  // Locks, but queues at once.
  void lock_in_order() LFM_CALL(acquire_capability()) { lfm::made(lfm_lock_in_order_here(&raw)); }
  // False if at some moment of the call another thread held the mutex, asked for it or was releasing it. Otherwise throws as
  // lfm_try_lock_here refuses.
  LFM_MUST_USE bool try_lock() LFM_CALL(try_acquire_capability(true)) { return lfm::has_acquired(lfm_try_lock_here(&raw)); }
  // Locks as lock does, but at most until the time is over. It queues, so other threads that queue don't keep it from its turn.
  // After a false its place may stay in the queue: if its turn has not come, the thread's next lock waits from there.
  template <class Rep, class Period>
  LFM_MUST_USE bool try_lock_for(const std::chrono::duration<Rep, Period> &span) LFM_CALL(try_acquire_capability(true)) {
    return lfm::has_acquired(lfm_try_lock_for_here(&raw, nanoseconds_of(span)));
  }
  template <class Clock, class Duration>
  LFM_MUST_USE bool try_lock_until(const std::chrono::time_point<Clock, Duration> &time)
      LFM_CALL(try_acquire_capability(true)) {
    return lock_until(*this, lfm_try_lock_until_here, &raw, time);
  }
  // Throws as lfm_unlock_here refuses.
  void unlock() LFM_CALL(release_capability()) { lfm::made(lfm_unlock_here(&raw)); }
};

using recursive_timed_mutex = recursive_mutex;

// As std::lock_guard, but clang's -Wthread-safety understands it.
class LFM_TELLS_CLANG(scoped_lockable) guard {
  recursive_mutex &of;

public:
  explicit guard(recursive_mutex &mutex) LFM_CALL(acquire_capability(mutex)) : of(mutex) { of.lock(); }
  guard(const guard &) = delete;
  ~guard() LFM_CALL(release_capability()) { of.unlock(); }
};

// A mutex whose threads have seats in hand. All of its seats are destroyed before it.
class mutex {
  lfm_mutex raw{};

public:
  // The numbers limit nothing. Throws as lfm_mutex_new refuses.
  explicit mutex(uint64_t seats, uint64_t budget = most_takes) { lfm::made(lfm_mutex_new(&raw, seats, budget)); }
  mutex(const mutex &) = delete;
  mutex &operator=(const mutex &) = delete;
  ~mutex() { lfm_mutex_close(&raw); }
  // The mutex for calls of ligdrosa.h.
  lfm_mutex *native_handle() noexcept { return &raw; }
  // For programs that call it: as lfm_takes_left.
  uint64_t takes_left() noexcept { return lfm_takes_left(&raw); }
};

// A seat of a mutex, for one thread at a time. It is destroyed while it doesn't hold. A seat that holds is leaked, and no other
// seat acquires the mutex any more. The calls of an object that was moved from are refused as LFM_BLANK.
class seat {
  struct gives_back {
    void operator()(lfm_seat *seat) const noexcept {
      lfm_seat_give(seat);
      if (lfm_number(seat) == 0) delete seat;
    }
  };
  std::unique_ptr<lfm_seat, gives_back> raw{new lfm_seat()};

public:
  // Throws as lfm_seat_take refuses.
  explicit seat(mutex &of) { lfm::made(lfm_seat_take(of.native_handle(), raw.get())); }
  // The seat for calls of ligdrosa.h. It is not moved with the object.
  lfm_seat *native_handle() noexcept { return raw.get(); }
  // The seat's number, 1 to 4,095; how often it holds; and for programs that call it, as lfm_left.
  uint64_t number() noexcept { return lfm_number(raw.get()); }
  uint64_t depth() noexcept { return lfm_depth(raw.get()); }
  uint64_t left() noexcept { return lfm_left(raw.get()); }
};

// A seat as a TimedLockable.
class seat_lock {
  lfm_seat *of;

public:
  explicit seat_lock(seat &taken) noexcept : of(taken.native_handle()) {}
  explicit seat_lock(lfm_seat &taken) noexcept : of(&taken) {}
  // The seat for calls of ligdrosa.h.
  lfm_seat *native_handle() noexcept { return of; }
  // Ends the program with a text unless the seat holds the mutex.
  void assert_held() noexcept { lfm_assert_held(of); }
  // Throws as lfm_lock refuses.
  void lock() { lfm::made(lfm_lock(of)); }
  // Locks, but queues at once.
  void lock_in_order() { lfm::made(lfm_lock_in_order(of)); }
  // False if at some moment of the call another seat held the mutex, asked for it or was releasing it. Otherwise throws as
  // lfm_try_lock refuses.
  LFM_MUST_USE bool try_lock() { return lfm::has_acquired(lfm_try_lock(of)); }
  // Locks as lock does, but at most until the time is over. After a false its place may stay in the queue: if its turn has not
  // come, the seat's next lock waits from there.
  template <class Rep, class Period> LFM_MUST_USE bool try_lock_for(const std::chrono::duration<Rep, Period> &span) {
    return lfm::has_acquired(lfm_try_lock_for(of, nanoseconds_of(span)));
  }
  template <class Clock, class Duration>
  LFM_MUST_USE bool try_lock_until(const std::chrono::time_point<Clock, Duration> &time) {
    return lock_until(*this, lfm_try_lock_until, of, time);
  }
  // Throws as lfm_unlock refuses.
  void unlock() { lfm::made(lfm_unlock(of)); }
};

// A condition variable for any mutex. Its waits take a std::unique_lock of a recursive_mutex or of a seat_lock. A wait
// returns only after a notify or when its time is over, but another thread may hold the mutex in between: wait in a loop
// that tests the condition. Only a wait until a time on a clock that the program defines may return early. The condition
// variable may be destroyed once all waiting threads are notified, even if they have not returned, if no other notify is
// under way. In static storage its destructor does nothing, so no other may be constructed in its place before they have
// returned.
class condition_variable {
  lfm_condvar raw{};

  lfm_status wait_by(lfm_mutex *mutex) LFM_UNSEEN { return lfm_wait_here(&raw, mutex); }
  lfm_status wait_by(lfm_seat *seat) { return lfm_wait(&raw, seat); }
  lfm_status wait_by(lfm_mutex *mutex, uint64_t span) LFM_UNSEEN { return lfm_wait_for_here(&raw, mutex, span); }
  lfm_status wait_by(lfm_seat *seat, uint64_t span) { return lfm_wait_for(&raw, seat, span); }
  lfm_status wait_by(lfm_mutex *mutex, int clock, const timespec &at) LFM_UNSEEN {
    return lfm_wait_until_here(&raw, mutex, clock, &at);
  }
  lfm_status wait_by(lfm_seat *seat, int clock, const timespec &at) { return lfm_wait_until(&raw, seat, clock, &at); }
  static std::cv_status told(lfm_status status) {
    return lfm::made(status) == LFM_TIMED_OUT ? std::cv_status::timeout : std::cv_status::no_timeout;
  }

public:
  constexpr condition_variable() noexcept = default;
  condition_variable(const condition_variable &) = delete;
  condition_variable &operator=(const condition_variable &) = delete;
  ~condition_variable() {
    if (!is_static(this)) lfm_condvar_close(&raw);
  }
  // The condition variable for calls of ligdrosa.h.
  lfm_condvar *native_handle() noexcept { return &raw; }

  // Throws as lfm_wait refuses: LFM_NOT_OWNER, LFM_NESTED if the lock is not the only hold, and LFM_SPENT. After LFM_SPENT the
  // thread doesn't hold, so a program that goes on calls `release` of the lock.
  template <class Lock> void wait(std::unique_lock<Lock> &lock) { lfm::made(wait_by(lock.mutex()->native_handle())); }
  // Waits until the predicate is true.
  template <class Predicate, class Lock> void wait(std::unique_lock<Lock> &lock, Predicate predicate) {
    while (!predicate()) wait(lock);
  }

  // Waits for at most this long, or until this time. Throws as wait does.
  template <class Rep, class Period, class Lock>
  std::cv_status wait_for(std::unique_lock<Lock> &lock, const std::chrono::duration<Rep, Period> &span) {
    return told(wait_by(lock.mutex()->native_handle(), nanoseconds_of(span)));
  }
  template <class Clock, class Duration, class Lock>
  std::cv_status wait_until(std::unique_lock<Lock> &lock, const std::chrono::time_point<Clock, Duration> &time) {
    const timespec at = timespec_of(time);
    const int clock = number_of<Clock>();
    if (clock >= 0) return told(wait_by(lock.mutex()->native_handle(), clock, at));
    wait_for(lock, time - Clock::now()); // not in a loop, which could miss a notify between two waits
    return Clock::now() < time ? std::cv_status::no_timeout : std::cv_status::timeout;
  }

  // Waits until the predicate is true or the time is over, and returns the predicate.
  template <class Rep, class Period, class Predicate, class Lock>
  bool wait_for(std::unique_lock<Lock> &lock, const std::chrono::duration<Rep, Period> &span, Predicate predicate) {
    const std::chrono::nanoseconds most(static_cast<int64_t>(nanoseconds_of(span)));
    return wait_until(lock, std::chrono::steady_clock::now() + most, predicate);
  }
  template <class Clock, class Duration, class Predicate, class Lock>
  bool wait_until(std::unique_lock<Lock> &lock, const std::chrono::time_point<Clock, Duration> &time, Predicate predicate) {
    while (!predicate())
      if (wait_until(lock, time) == std::cv_status::timeout) return predicate();
    return true;
  }

  // Wakes the thread that has waited longest, or all waiting threads, and returns whether one waited.
  bool notify_one() noexcept { return lfm_wake_one(&raw) == LFM_DONE; }
  bool notify_all() noexcept { return lfm_wake_all(&raw) == LFM_DONE; }
  // The same by a thread that holds by this seat. Threads that wait for its mutex without a time limit are woken when the
  // seat releases it, so they don't find it held. notify_one and notify_all do so if the caller holds a recursive_mutex, unless
  // they have put off such wakes for another one. Throws LFM_BLANK if the seat was moved from.
  bool notify_one_by(seat_lock &holder) { return lfm::made(lfm_wake_one_by(&raw, holder.native_handle())) == LFM_DONE; }
  bool notify_all_by(seat_lock &holder) { return lfm::made(lfm_wake_all_by(&raw, holder.native_handle())) == LFM_DONE; }
};

} // namespace LFM_KIND
} // namespace lfm
