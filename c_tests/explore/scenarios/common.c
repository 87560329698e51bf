/* What the scenarios share: how they begin and end, and what several do. */
#include "scenario.h"

struct shared *shared;

void *zeroed(size_t bytes) { return explorer_calloc(1, bytes); }

void make_shared(void) {
  shared = zeroed(sizeof *shared);
  shared->mutex = zeroed(sizeof *shared->mutex);
  shared->condvar = zeroed(sizeof *shared->condvar);
  for (int i = 0; i < MOST_FIBERS; i++) shared->seats[i] = zeroed(sizeof *shared->seats[i]);
}
void end_early(void) { explorer_set_specific(NULL); explorer_end_thread(NULL); }
void end_in_last_round(void) { end_early(); explorer_set_specific(NULL); }
static void take_all(int count) {
  for (int i = 0; i < count; i++) CHECK(lfm_seat_take(shared->mutex, shared->seats[i]) == LFM_DONE);
}
void open_mutex_only(void) {
  make_shared();
  CHECK(lfm_mutex_new(shared->mutex, LFM_USUAL_SEATS, LFM_MOST_TAKES) == LFM_DONE);
  here(); /* so that the memory of participants is reserved */
  end_early();
}
void open2(void) { open_mutex_only(); take_all(2); }
void open3(void) { open_mutex_only(); take_all(3); }
void open4(void) { open_mutex_only(); take_all(4); }

static void free_state(void) {
  for (int i = 0; i < MOST_FIBERS; i++) explorer_free(shared->seats[i]);
  if (shared->condvar) explorer_free(shared->condvar);
  if (shared->mutex) explorer_free(shared->mutex);
  explorer_free(shared);
}
void end(void) {
  for (int i = 0; i < MOST_FIBERS; i++)
    if (lfm_number(shared->seats[i])) CHECK(lfm_seat_give(shared->seats[i]) == LFM_DONE);
  CHECK(shared->inside == 0);
  if (shared->mutex && !shared->closed) CHECK(lfm_mutex_close(shared->mutex) == LFM_DONE);
  if (shared->condvar) CHECK(lfm_condvar_close(shared->condvar) == LFM_DONE);
  free_state();
}

void section(void) {
  CHECK(shared->inside == 0);
  shared->inside = 1;
  shared->counter++;
  explorer_point();
  CHECK(shared->inside == 1);
  shared->inside = 0;
}
lfm_seat *mine(void) { return shared->seats[explorer_self()]; }
void acquired(lfm_status status) { CHECK(!lfm_is_refused(status)); }
void released(lfm_status status) { CHECK(status == LFM_DONE || status == LFM_POSTED || status == LFM_GRANTED); }

void once(void) { acquired(lfm_lock(mine())); section(); released(lfm_unlock(mine())); }
void once_in_order(void) { acquired(lfm_lock_in_order(mine())); section(); released(lfm_unlock(mine())); }
void twice_in_order(void) { once_in_order(); once_in_order(); }
void try_it(void) {
  lfm_status status = lfm_try_lock(mine());
  CHECK(status == LFM_DONE || status == LFM_BUSY);
  if (status == LFM_DONE) { section(); released(lfm_unlock(mine())); }
}
bool timed(void) {
  lfm_status status = lfm_try_lock_for(mine(), LONG_TIME);
  CHECK(status == LFM_DONE || status == LFM_BUSY);
  if (status == LFM_DONE) { section(); released(lfm_unlock(mine())); }
  return status == LFM_DONE;
}
void take_mine(void) { CHECK(lfm_seat_take(shared->mutex, mine()) == LFM_DONE); }
void give_mine(void) { CHECK(lfm_seat_give(mine()) == LFM_DONE); }
bool acquired_here(lfm_status status) {
  if (may_refuse_memory && status == LFM_NO_MEMORY) return false;
  acquired(status);
  return true;
}
void here(void) {
  if (!acquired_here(lfm_lock_here(shared->mutex))) return;
  section();
  released(lfm_unlock_here(shared->mutex));
}
void here_in_order(void) {
  if (!acquired_here(lfm_lock_in_order_here(shared->mutex))) return;
  section();
  released(lfm_unlock_here(shared->mutex));
}
bool here_timed(void) {
  lfm_status status = lfm_try_lock_for_here(shared->mutex, LONG_TIME);
  CHECK(status == LFM_DONE || status == LFM_BUSY);
  if (status == LFM_DONE) { section(); released(lfm_unlock_here(shared->mutex)); }
  return status == LFM_DONE;
}
void await_ready(void) {
  acquired(lfm_lock(mine()));
  while (!shared->ready) acquired(lfm_wait(shared->condvar, mine()));
  shared->ready--;
  section();
  released(lfm_unlock(mine()));
}
void make_ready_inside(void) {
  acquired(lfm_lock(mine()));
  shared->ready++;
  section();
  lfm_wake_one_by(shared->condvar, mine());
  released(lfm_unlock(mine()));
}
void close_it(void) {
  shared->closed = 1;
  CHECK(lfm_mutex_close(shared->mutex) == LFM_DONE);
  explorer_free(shared->mutex);
  shared->mutex = NULL;
}
uint64_t seen(const uint64_t *word) { return __atomic_load_n(word, __ATOMIC_ACQUIRE); }
void tell(uint64_t *word, uint64_t value) { __atomic_store_n(word, value, __ATOMIC_RELEASE); }
