/* Whoever is last closes the mutex, and its memory goes at once. Its number may be opened again at once, too. */
#include "scenario.h"

static void open_users2(void) { open_mutex_only(); shared->users = 2; }
static void open_users3(void) { open_mutex_only(); shared->users = 3; }
static bool leave(lfm_mutex *mutex) {
  bool is_last = --shared->users == 0;
  section();
  released(lfm_unlock_here(mutex));
  return is_last;
}
static void last_closes(void) {
  lfm_mutex *mutex = shared->mutex;
  acquired(lfm_lock_in_order_here(mutex));
  if (leave(mutex)) close_it();
}
static void last_closes_barging(void) {
  lfm_mutex *mutex = shared->mutex;
  acquired(lfm_lock_here(mutex));
  if (leave(mutex)) close_it();
}

/* The last opens another mutex then, which gets the same number, while an unlock of the first may not have returned. */
static lfm_mutex *again(void) { return (lfm_mutex *)shared->extra; }
static void open_again2(void) { open_users2(); shared->extra = zeroed(sizeof(lfm_mutex)); }
static void lock_again(void) {
  acquired(lfm_lock_in_order_here(again()));
  section();
  released(lfm_unlock_here(again()));
}
static void last_opens_again(void) {
  lfm_mutex *mutex = shared->mutex;
  acquired(lfm_lock_in_order_here(mutex));
  if (!leave(mutex)) return;
  struct lfm_core *core = mutex->core;
  close_it();
  CHECK(lfm_mutex_new(again(), 1, 1) == LFM_DONE && again()->core == core);
  tell(&shared->told, 1);
  lock_again();
}
static void lock_if_again(void) { if (seen(&shared->told)) lock_again(); }
static void end_again(void) {
  CHECK(lfm_mutex_close(again()) == LFM_DONE);
  explorer_free(again());
  end();
}

/* The same by seats in hand, which are given back before the close; the last give may come beside it. */
static void open_users2_hand(void) { open2(); shared->users = 2; }
static void last_closes_hand(void) {
  once_in_order();
  give_mine();
  if (__atomic_sub_fetch(&shared->users, 1, __ATOMIC_ACQ_REL) == 0) close_it();
}
/* A close beside the last give: then the memory of the mutex and of that seat may go. */
static void closes_beside_gives(void) {
  for (int i = 0; i < 3; i++) {
    lfm_status status = lfm_mutex_close(shared->mutex);
    CHECK(status == LFM_DONE || status == LFM_NOT_BACK || status == LFM_HOLDING);
    if (status != LFM_DONE) continue;
    shared->closed = 1;
    explorer_memset(shared->mutex, 0x5A, sizeof *shared->mutex);
    explorer_free(shared->mutex);
    shared->mutex = NULL;
    for (int k = 0; k < MOST_FIBERS; k++) {
      explorer_free(shared->seats[k]);
      shared->seats[k] = zeroed(sizeof *shared->seats[k]);
    }
    return;
  }
}
static void open_one(void) {
  open_mutex_only();
  CHECK(lfm_seat_take(shared->mutex, shared->seats[0]) == LFM_DONE);
}
static void use_and_give(void) {
  lfm_seat *seat = mine();
  acquired(lfm_lock_in_order(seat));
  released(lfm_unlock(seat));
  CHECK(lfm_seat_give(seat) == LFM_DONE);
}
static void timed_use_and_give(void) {
  lfm_seat *seat = mine();
  lfm_status status = lfm_try_lock_for(seat, LONG_TIME);
  if (status == LFM_DONE) released(lfm_unlock(seat));
  CHECK(lfm_seat_give(seat) == LFM_DONE);
}

/* A thread leaves its deputy queued and ends. Another that knows that the call has returned, and acquires and releases, may
 * close then: the deputy is passed by. */
static void here_timed_and_tell(void) {
  here_timed();
  __atomic_fetch_add(&shared->users, 1, __ATOMIC_RELEASE);
}
static void here_in_order_and_tell(void) {
  here_in_order();
  __atomic_fetch_add(&shared->users, 1, __ATOMIC_RELEASE);
}
static void close_if_all_told(uint64_t users) { if (seen(&shared->users) == users) close_it(); }
static void here_closes(void) { here_in_order(); close_if_all_told(1); }
static void here_closes3(void) { here_in_order(); close_if_all_told(2); }
static void here_timed_self_close(void) { here_timed(); close_if_all_told(1); }
static void close_if_two_told(void) { close_if_all_told(2); }

/* A close beside an abandoned deputy: refused while the holder holds, and not after its unlock has returned. */
enum { NOT_RELEASED, RELEASING, RELEASED };
static void hold_and_release(void) {
  lfm_mutex *mutex = shared->mutex;
  acquired(lfm_lock_in_order_here(mutex));
  section();
  tell(&shared->told, RELEASING);
  released(lfm_unlock_here(mutex));
  tell(&shared->told, RELEASED);
}
static void close_beside_deputy(void) {
  if (here_timed()) return;
  uint64_t before = seen(&shared->told);
  lfm_status status = lfm_mutex_close(shared->mutex);
  CHECK(status == LFM_HOLDING || (status == LFM_DONE && seen(&shared->told) != NOT_RELEASED));
  CHECK(status == LFM_DONE || before != RELEASED);
  if (status != LFM_DONE) return;
  shared->closed = 1;
  explorer_free(shared->mutex);
  shared->mutex = NULL;
}

/* A close beside a thread that holds: it is refused, or comes after the release, and then the memory of the mutex goes. */
static void hold_and_tell(void) {
  lfm_mutex *mutex = shared->mutex;
  acquired(lfm_lock_in_order_here(mutex));
  tell(&shared->users, 1);
  section();
  tell(&shared->told, RELEASING);
  released(lfm_unlock_here(mutex));
}
static void close_if_told(void) {
  if (seen(&shared->users) != 1) return;
  lfm_status status = lfm_mutex_close(shared->mutex);
  CHECK(status == LFM_HOLDING || (status == LFM_DONE && seen(&shared->told) == RELEASING));
  if (status != LFM_DONE) return;
  shared->closed = 1;
  explorer_free(shared->mutex);
  shared->mutex = NULL;
}

const struct scenario close_scenarios[] = {
    {"close_while_held2", "a close beside a thread that holds",
     2, false, open_mutex_only, {hold_and_tell, close_if_told}, end},
    {"close_deputy2", "a close beside an abandoned deputy",
     2, false, open_mutex_only, {hold_and_release, close_beside_deputy}, end},
    {"close_deputy3", "a mutex is closed when all its calls have returned, one of which left its deputy queued",
     3, false, open_mutex_only, {here_timed_and_tell, here_in_order_and_tell, close_if_two_told}, end},
    {"here_timed_close", "a mutex is closed after a thread has ended whose deputy was queued",
     2, false, open_mutex_only, {here_timed_and_tell, here_closes}, end},
    {"here_timed_close3", "the same beside a third thread",
     3, false, open_mutex_only, {here_timed_and_tell, here_closes3, here_timed_and_tell}, end, true},
    {"here_timed_self_close", "a thread closes whose deputy may be queued",
     2, false, open_mutex_only, {here_timed_self_close, here_in_order_and_tell}, end},
    {"close2", "whoever is last closes", 2, false, open_users2, {last_closes, last_closes}, end},
    {"close_barging2", "the same with barging locks",
     2, false, open_users2, {last_closes_barging, last_closes_barging}, end},
    {"close3", "the same of three", 3, false, open_users3, {last_closes, last_closes, last_closes}, end, true},
    {"reopen2", "whoever is last closes, and opens another mutex with that number",
     2, false, open_again2, {last_opens_again, last_opens_again}, end_again},
    {"reopen3", "the same, and a third thread locks it",
     3, false, open_again2, {last_opens_again, last_opens_again, lock_if_again}, end_again},
    {"close_hand2", "whoever is last closes, with seats in hand",
     2, false, open_users2_hand, {last_closes_hand, last_closes_hand}, end},
    {"close_give2", "a close beside the last give", 2, false, open_one, {use_and_give, closes_beside_gives}, end},
    {"close_give3", "a close beside two gives", 3, false, open2, {use_and_give, use_and_give, closes_beside_gives}, end},
    {"close_timed_give3", "a close beside gives, one of which may leave its deputy queued",
     3, false, open2, {timed_use_and_give, use_and_give, closes_beside_gives}, end, true},
    {0}
};
