// A program of two files, one compiled with exceptions and one without. In the first a refused call throws, and in the second
// it ends the program. Both also call through a template of the standard library. This file is compiled to both.
#include <sys/wait.h>
#include <unistd.h>

#include "expect.hpp"
#include "ligdrosa.hpp"

void is_refused_without_exceptions();
void is_refused_without_exceptions_in_a_template();
void lock_without_exceptions(lfm_mutex *mutex);

// The last lock is refused: a hold can't be deeper.
static void lock_too_often() {
  lfm::recursive_mutex mutex;
  for (int depth = 0; depth < 65535; depth++) mutex.lock();
  std::unique_lock<lfm::recursive_mutex> lock(mutex);
}

#ifndef __cpp_exceptions

void is_refused_without_exceptions() { lfm::recursive_mutex().unlock(); }

void is_refused_without_exceptions_in_a_template() { lock_too_often(); }

void lock_without_exceptions(lfm_mutex *mutex) { lfm::made(lfm_lock_here(mutex)); }

#else

template <class Call> static lfm_status refusal_of(Call call) {
  try {
    call();
  } catch (const lfm::refused &why) {
    return why.status();
  }
  return LFM_DONE;
}

// The signal that ends a child which makes this call, or 0.
static int signal_of(void (*call)()) {
  const pid_t child = fork();
  if (child == 0) {
    close(STDERR_FILENO);
    call();
    _exit(0);
  }
  int status = 0;
  EXPECT(waitpid(child, &status, 0), child);
  return WIFSIGNALED(status) ? WTERMSIG(status) : 0;
}

int main() {
  EXPECT(refusal_of([] { lfm::recursive_mutex().unlock(); }), LFM_NOT_OWNER);
  EXPECT(refusal_of(lock_too_often), LFM_DEPTH_FULL);
  EXPECT(signal_of(is_refused_without_exceptions), SIGABRT);
  EXPECT(signal_of(is_refused_without_exceptions_in_a_template), SIGABRT);
  lfm::recursive_mutex mutex;
  lock_without_exceptions(mutex.native_handle());
  EXPECT(mutex.depth(), 1u);
  mutex.unlock();
  return 0;
}

#endif
