// A program and a shared object that hides its symbols each make their first mutex. A thread that has a seat of the program's
// mutex and locks the other acquires the other, and not the program's.
//
// This file is compiled twice: with IS_SHARED_OBJECT it makes the shared object.
#include "ligdrosa.hpp"

extern "C" __attribute__((visibility("default"))) lfm::recursive_mutex *mutex_of_shared_object();

#ifdef IS_SHARED_OBJECT

lfm::recursive_mutex *mutex_of_shared_object() {
  static lfm::recursive_mutex mutex;
  return &mutex;
}

#else

#include <thread>

#include "expect.hpp"

// Whether another thread acquires the mutex at once.
static bool is_free(lfm::recursive_mutex &mutex) {
  bool is_gained = false;
  std::thread([&] {
    is_gained = mutex.try_lock();
    if (is_gained) mutex.unlock();
  }).join();
  return is_gained;
}

int main() {
  lfm::recursive_mutex of_program, &of_shared_object = *mutex_of_shared_object();
  of_program.lock();
  of_program.unlock();
  of_shared_object.lock();
  EXPECT(is_free(of_shared_object), false);
  EXPECT(is_free(of_program), true);
  of_shared_object.unlock();
  EXPECT(lfm::is_static(&of_shared_object), true);
  EXPECT(lfm::is_static(&of_program), false);
  return 0;
}

#endif
