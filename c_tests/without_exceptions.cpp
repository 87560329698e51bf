// Without exceptions and run-time type information, a call that is refused ends the program with a text.
#include <signal.h>
#include <sys/wait.h>
#include <unistd.h>

#include <cstring>
#include <thread>

#include "expect.hpp"
#include "ligdrosa.hpp"

#if defined(__cpp_exceptions) || defined(__cpp_rtti)
#error "it is compiled with -fno-exceptions and -fno-rtti"
#endif

// What a child writes that makes this call. It has to end by an abort.
template <class Call> static std::string last_words(Call call) {
  int ends[2];
  EXPECT(pipe(ends), 0);
  const pid_t child = fork();
  if (child == 0) {
    dup2(ends[1], STDERR_FILENO);
    call();
    _exit(0);
  }
  close(ends[1]);
  std::string words;
  char byte;
  while (read(ends[0], &byte, 1) == 1) words += byte;
  close(ends[0]);
  int status = 0;
  EXPECT(waitpid(child, &status, 0), child);
  EXPECT(WIFSIGNALED(status) && WTERMSIG(status) == SIGABRT, true);
  return words;
}

static std::string text_of(lfm_status status) {
  return std::string("ligdrosa refuses a call: ") + lfm_status_text(status) + "\n";
}

static lfm::recursive_mutex mutex;
static lfm::condition_variable condition;

int main() {
  EXPECT(last_words([] { mutex.unlock(); }), text_of(LFM_NOT_OWNER));
  EXPECT(last_words([] {
    mutex.lock();
    std::unique_lock<lfm::recursive_mutex> lock(mutex);
    condition.wait(lock);
  }), text_of(LFM_NESTED));
  EXPECT(last_words([] { lfm::recursive_mutex too_many(4096); }), text_of(LFM_LIMIT));
  // a call that is not refused works as with exceptions
  int count = 0;
  auto add = [&] {
    for (int i = 0; i < 1000; i++) {
      lfm::guard hold(mutex);
      count++;
    }
  };
  std::thread one(add), other(add);
  one.join();
  other.join();
  EXPECT(count, 2000);
  std::unique_lock<lfm::recursive_mutex> lock(mutex, std::chrono::milliseconds(1));
  EXPECT(lock.owns_lock(), true);
  EXPECT(condition.wait_for(lock, std::chrono::milliseconds(1)) == std::cv_status::timeout, true);
  return 0;
}
