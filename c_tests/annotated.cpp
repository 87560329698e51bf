// clang's -Wthread-safety understands the mutex and the guard: it warns of nothing in this file, and with IS_WRONG of a read
// without the mutex. The file is only compiled.
#include "ligdrosa.hpp"

class counter {
  mutable lfm::recursive_mutex mutex;
  long count __attribute__((guarded_by(mutex))) = 0;

public:
  void add() {
    lfm::guard hold(mutex);
    count++;
  }
  bool try_add() {
    if (!mutex.try_lock()) return false;
    count++;
    mutex.unlock();
    return true;
  }
  void add_in_hold() {
    mutex.assert_held();
    count++;
  }
  void add_in_time() {
    mutex.lock_in_order();
    count++;
    mutex.unlock();
    if (!mutex.try_lock_for(std::chrono::seconds(1))) return;
    count++;
    mutex.unlock();
  }
  long get() const {
#ifndef IS_WRONG
    lfm::guard hold(mutex);
#endif
    return count;
  }
};

long use(counter &all);
long use(counter &all) {
  all.add();
  all.add_in_hold();
  all.add_in_time();
  return all.try_add() ? all.get() : 0;
}
