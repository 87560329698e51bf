// The mutexes that bench.cpp measures, with one interface. A thread passes its number, from 0 on, with each call. Each mutex
// has its kind of condition variable, and its form for one thread alone. Those of nsync and absl are there if WITH_NSYNC and
// WITH_ABSL are defined.
#pragma once
#ifdef WITH_ABSL
#include <absl/synchronization/mutex.h>
#endif
#ifdef WITH_NSYNC
#include <nsync.h>
#endif
#include <pthread.h>

#include <condition_variable>
#include <cstdlib>
#include <mutex>

#include "ligdrosa.hpp"

inline void made(lfm_status status) {
  if (lfm_is_refused(status)) std::abort();
}

// ligdrosa.h, with seats in hand.
template <int SEATS> struct InHandOf {
  static constexpr bool is_recursive = true;
  lfm_mutex mutex{};
  lfm_seat seats[SEATS]{};
  InHandOf() {
    made(lfm_mutex_new(&mutex, SEATS, LFM_MOST_TAKES));
    for (lfm_seat &seat : seats) made(lfm_seat_take(&mutex, &seat));
  }
  InHandOf(const InHandOf &) = delete;
  ~InHandOf() {
    for (lfm_seat &seat : seats) lfm_seat_give(&seat);
    lfm_mutex_close(&mutex);
  }
  void lock(int thread) { made(lfm_lock(&seats[thread])); }
  void lock_in_order(int thread) { made(lfm_lock_in_order(&seats[thread])); }
  bool try_lock(int thread) { return !lfm_is_refused(lfm_try_lock(&seats[thread])); }
  void unlock(int thread) { lfm_unlock(&seats[thread]); }

  struct Condition {
    lfm_condvar raw{};
    ~Condition() { lfm_condvar_close(&raw); }
    void wait(InHandOf &lock, int thread) { made(lfm_wait(&raw, &lock.seats[thread])); }
    void wake_one(InHandOf &lock, int thread) { lfm_wake_one_by(&raw, &lock.seats[thread]); }
    void wake_all(InHandOf &lock, int thread) { lfm_wake_all_by(&raw, &lock.seats[thread]); }
  };
  using OfOneThread = InHandOf<1>;
};
// The most threads that it has.
using InHand = InHandOf<33>;

// ligdrosa.h, with seats that find themselves.
struct Found {
  static constexpr bool is_recursive = true;
  lfm_mutex mutex = LFM_MUTEX_INIT;
  Found() = default;
  Found(const Found &) = delete;
  ~Found() { lfm_mutex_close(&mutex); }
  void lock(int) { made(lfm_lock_here(&mutex)); }
  void lock_in_order(int) { made(lfm_lock_in_order_here(&mutex)); }
  bool try_lock(int) { return !lfm_is_refused(lfm_try_lock_here(&mutex)); }
  void unlock(int) { lfm_unlock_here(&mutex); }

  struct Condition {
    lfm_condvar raw{};
    ~Condition() { lfm_condvar_close(&raw); }
    void wait(Found &lock, int) { made(lfm_wait_here(&raw, &lock.mutex)); }
    void wake_one(Found &, int) { lfm_wake_one(&raw); }
    void wake_all(Found &, int) { lfm_wake_all(&raw); }
  };
  using OfOneThread = Found;
};

// pthread's, recursive.
struct Posix {
  static constexpr bool is_recursive = true;
  pthread_mutex_t mutex;
  Posix() {
    pthread_mutexattr_t attributes;
    pthread_mutexattr_init(&attributes);
    pthread_mutexattr_settype(&attributes, PTHREAD_MUTEX_RECURSIVE);
    pthread_mutex_init(&mutex, &attributes);
  }
  Posix(const Posix &) = delete;
  ~Posix() { pthread_mutex_destroy(&mutex); }
  void lock(int) { pthread_mutex_lock(&mutex); }
  bool try_lock(int) { return pthread_mutex_trylock(&mutex) == 0; }
  void unlock(int) { pthread_mutex_unlock(&mutex); }

  struct Condition {
    pthread_cond_t raw = PTHREAD_COND_INITIALIZER;
    ~Condition() { pthread_cond_destroy(&raw); }
    void wait(Posix &lock, int) { pthread_cond_wait(&raw, &lock.mutex); }
    void wake_one(Posix &, int) { pthread_cond_signal(&raw); }
    void wake_all(Posix &, int) { pthread_cond_broadcast(&raw); }
  };
  using OfOneThread = Posix;
};

// A recursive mutex and a condition variable of C++.
template <class Mutex, class Waits> struct Standard {
  static constexpr bool is_recursive = true;
  Mutex mutex;
  void lock(int) { mutex.lock(); }
  void lock_in_order(int) requires requires(Mutex &of) { of.lock_in_order(); } { mutex.lock_in_order(); }
  bool try_lock(int) { return mutex.try_lock(); }
  void unlock(int) { mutex.unlock(); }

  struct Condition {
    Waits raw;
    void wait(Standard &lock, int) {
      std::unique_lock<Mutex> held(lock.mutex, std::adopt_lock);
      raw.wait(held);
      held.release();
    }
    void wake_one(Standard &, int) { raw.notify_one(); }
    void wake_all(Standard &, int) { raw.notify_all(); }
  };
  using OfOneThread = Standard;
};

// A mutex of one of the kinds above or below, whose lock queues at once, if the mutex has such a call.
template <class Kind> struct InOrder {
  Kind &mutex;
  void lock(int thread) {
    if constexpr (requires { mutex.lock_in_order(thread); })
      mutex.lock_in_order(thread);
    else
      mutex.lock(thread);
  }
  void unlock(int thread) { mutex.unlock(thread); }
};

#ifdef WITH_NSYNC
// nsync's.
struct Nsync {
  static constexpr bool is_recursive = false;
  nsync::nsync_mu mutex = NSYNC_MU_INIT;
  void lock(int) { nsync::nsync_mu_lock(&mutex); }
  bool try_lock(int) { return nsync::nsync_mu_trylock(&mutex) != 0; }
  void unlock(int) { nsync::nsync_mu_unlock(&mutex); }

  struct Condition {
    nsync::nsync_cv raw = NSYNC_CV_INIT;
    void wait(Nsync &lock, int) { nsync::nsync_cv_wait(&raw, &lock.mutex); }
    void wake_one(Nsync &, int) { nsync::nsync_cv_signal(&raw); }
    void wake_all(Nsync &, int) { nsync::nsync_cv_broadcast(&raw); }
  };
  using OfOneThread = Nsync;
};
#endif

#ifdef WITH_ABSL
// absl's.
struct Absl {
  static constexpr bool is_recursive = false;
  absl::Mutex mutex;
  void lock(int) { mutex.Lock(); }
  bool try_lock(int) { return mutex.TryLock(); }
  void unlock(int) { mutex.Unlock(); }

  struct Condition {
    absl::CondVar raw;
    void wait(Absl &lock, int) { raw.Wait(&lock.mutex); }
    void wake_one(Absl &, int) { raw.Signal(); }
    void wake_all(Absl &, int) { raw.SignalAll(); }
  };
  using OfOneThread = Absl;
};
#endif
