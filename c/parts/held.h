/* The calls that end the program unless a seat holds the mutex. They change nothing. */

SLOW_PATH void end_as_not_held(void) {
  fputs("ligdrosa: the mutex is not held, though the program asserts it\n", stderr);
  abort();
}

static void assert_depth(uint64_t depth) {
  if (UNLIKELY(depth == 0)) end_as_not_held();
}

void lfm_assert_held(lfm_seat *seat) { assert_depth(lfm_depth(seat)); }
void lfm_assert_held_here(lfm_mutex *mutex) { assert_depth(lfm_depth_here(mutex)); }
