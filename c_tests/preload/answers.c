/* What each call of pthread's mutexes and condition variables answers: `answers ours` with libligdrosa_pthread.so
 * preloaded, and `answers system` without. Most answers are the same. Where they are not, EITHER has both, and the head of
 * c/pthread.c says so. A test ends with status 1 at its first wrong answer. */
#include "answers/mutexes.h"
#include "answers/conditions.h"
#include "answers/last_users.h"
#include "answers/forks.h"
#include "answers/passed_on.h"

int main(int words, char **word) {
  is_ours = words == 2 && strcmp(word[1], "ours") == 0;
  if (!is_ours && (words != 2 || strcmp(word[1], "system") != 0)) return 2;
  test_kinds();
  test_depth();
  test_places();
  test_times();
  test_broadcasts();
  test_signals();
  test_nested();
  test_many_threads();
  test_last_users();
  test_cancellation();
  test_shared();
  test_shared_condition();
  test_priorities();
  test_held_in_child();
  test_forks();
  return 0;
}
