/* The proved calls of a pool (crates/lfm_c) as docs/PROTOCOL.md describes their steps, one atomic operation each, so that the
 * explorer can switch between any two. It is a model: what is proved of the real ones is proved elsewhere. Without -t a push has
 * no stamp, so that states which differ in stamps alone are one: c/ligdrosa.c sees none. Then a push that would fail for its
 * stamp succeeds. */
#include <string.h>
#include "ligdrosa.h"
#include "explorer.h"

void *lfm_allocate(size_t bytes);

#ifndef MOST_MODEL_SEATS
#define MOST_MODEL_SEATS 8
#endif

struct record { uint64_t seat, stamp; };
/* The words of a mutex, how often its owner holds it, and its pop list, which only the party with the responsibility touches. */
struct mutex {
  uint64_t count, owner, handoff, push;
  uint64_t depth, popped;
  struct record pop[MOST_MODEL_SEATS];
};
struct words {
  uint64_t mutexes, seats;
  uint64_t taken; /* how many seats are; the latch of the C side protects it */
  uint64_t link[MOST_MODEL_SEATS + 1], wake[MOST_MODEL_SEATS + 1];
  struct mutex mutex[];
};
struct pool { struct words *words; };
/* `asleep` is the number from 1 of the mutex in which it sleeps, or 0. */
struct seat { struct words *words; uint32_t number, posts, asleep; };

size_t lfm_c_pool_size(void) { return sizeof(struct pool); }
size_t lfm_c_pool_align(void) { return 8; }
size_t lfm_c_pool_seat_size(void) { return sizeof(struct seat); }
size_t lfm_c_pool_seat_align(void) { return 8; }

/* The point of a call that makes none inside. */
static void begin_whole(void) { if (explorer_whole_calls) explorer_point(); }

/* One step. The hooks of -fsanitize=thread make a point before it, unless the calls are to be whole. */
#define STEP(type, call) (explorer_quiet = explorer_whole_calls, step_##type((call)))
static uint64_t step_word(uint64_t w) { explorer_quiet = false; return w; }
static bool step_bool(bool b) { explorer_quiet = false; return b; }
static uint64_t load(uint64_t *w) { return STEP(word, __atomic_load_n(w, 5)); }
static void store(uint64_t *w, uint64_t n) {
  explorer_quiet = explorer_whole_calls;
  __atomic_store_n(w, n, 5);
  explorer_quiet = false;
}
static bool exchange(uint64_t *w, uint64_t *from, uint64_t to) {
  return STEP(bool, __atomic_compare_exchange_n(w, from, to, 0, 5, 5));
}
static uint64_t add(uint64_t *w) { return STEP(word, __atomic_fetch_add(w, 1, 5)); }
static uint64_t subtract(uint64_t *w) { return STEP(word, __atomic_fetch_sub(w, 1, 5)); }
static uint64_t clear_head(uint64_t *w) { return STEP(word, __atomic_fetch_and(w, ~(uint64_t)65535, 5)); }

void lfm_c_blank_pool(void *at) { ((struct pool *)at)->words = 0; }
void lfm_c_blank_pool_seat(void *at) { explorer_memset(at, 0, sizeof(struct seat)); }

uint64_t lfm_c_pool_open(void *at, uint64_t mutexes, uint64_t seats) {
  struct pool *p = at;
  if (p->words) return LFM_TAKEN;
  if (seats == 0 || seats > MOST_MODEL_SEATS || mutexes == 0) return LFM_LIMIT;
  size_t bytes = sizeof(struct words) + mutexes * sizeof(struct mutex);
  struct words *w = lfm_allocate(bytes);
  if (!w) return LFM_NO_MEMORY;
  explorer_memset(w, 0, bytes);
  w->seats = seats;
  w->mutexes = mutexes;
  p->words = w;
  return LFM_DONE;
}
/* Seat 1 comes last, as that from which the others are split off. */
uint64_t lfm_c_pool_take_seat(void *at, void *seat) {
  struct words *w = ((struct pool *)at)->words;
  struct seat *s = seat;
  if (s->words) return LFM_TAKEN;
  if (!w) return LFM_BLANK;
  if (w->taken == w->seats) return LFM_NO_SEAT;
  w->taken++;
  s->number = w->taken == w->seats ? 1 : (uint32_t)w->taken + 1;
  s->words = w;
  return LFM_DONE;
}
uint64_t lfm_c_pool_number(void *at) { struct seat *s = at; return s->words ? s->number : 0; }
static bool is_mutex(struct seat *s, uint64_t mutex) { return s->words && mutex < s->words->mutexes; }
/* How often the seat holds the mutex. Another thread can't change that, so this load is no point. */
static uint64_t depth(struct seat *s, uint64_t mutex) {
  struct mutex *m = &s->words->mutex[mutex];
  explorer_quiet = true;
  uint64_t owner = __atomic_load_n(&m->owner, 5);
  explorer_quiet = false;
  return owner == s->number ? m->depth : 0;
}
uint64_t lfm_c_pool_depth(void *at, uint64_t mutex) {
  struct seat *s = at;
  return is_mutex(s, mutex) ? depth(s, mutex) : 0;
}
uint64_t lfm_c_pool_count(void *at, uint64_t mutex) {
  struct seat *s = at;
  begin_whole();
  return is_mutex(s, mutex) ? load(&s->words->mutex[mutex].count) : 0;
}

/* Collects the oldest record. It comes off the list when it is served. */
static bool collect(struct words *w, struct mutex *m, struct record *oldest, bool is_of_release) {
  if (!(is_of_release && m->popped)) {
    uint64_t found = clear_head(&m->push), seat = found & 65535;
    if (m->popped && seat == 0) explorer_fault("a call collects nothing beside a pop list");
    while (seat) {
      uint64_t link = load(&w->link[seat]);
      for (uint64_t i = m->popped; i > 0; i--) m->pop[i] = m->pop[i - 1];
      m->pop[0].seat = seat;
      m->pop[0].stamp = link >> 16;
      m->popped++;
      seat = link & 65535;
    }
  }
  if (!m->popped) return false;
  *oldest = m->pop[0];
  return true;
}
static void serve(struct mutex *m) {
  m->popped--;
  for (uint64_t i = 0; i < m->popped; i++) m->pop[i] = m->pop[i + 1];
  m->pop[m->popped].seat = m->pop[m->popped].stamp = 0;
}
static uint64_t grant(struct words *w, struct mutex *m, struct record oldest) {
  serve(m);
  if (!explorer_has_stamps) w->link[oldest.seat] = 0; /* nothing reads it any more */
  store(&w->wake[oldest.seat], 3 + 4 * oldest.stamp);
  return oldest.seat;
}
static uint64_t own(struct seat *s, uint64_t mutex) {
  s->words->mutex[mutex].depth = 1;
  s->asleep = 0;
  store(&s->words->mutex[mutex].owner, s->number);
  return LFM_DONE;
}
static uint64_t refusal(struct seat *s, uint64_t mutex) {
  if (!s->words) return LFM_BLANK;
  if (mutex >= s->words->mutexes) return LFM_LIMIT;
  if (s->asleep) return LFM_SEAT_ASLEEP;
  return depth(s, mutex) == 65535 ? LFM_DEPTH_FULL : 0;
}
/* What an ask does after it was counted, unless that acquired the mutex. */
static uint64_t ask_counted(struct seat *s, uint64_t mutex) {
  struct words *w = s->words;
  struct mutex *m = &w->mutex[mutex];
  uint64_t push = load(&m->push), stamp;
  do {
    stamp = explorer_has_stamps ? (push >> 16) + 1 : 1;
    store(&w->link[s->number], stamp << 16 | (push & 65535));
  } while (!exchange(&m->push, &push, stamp << 16 | s->number));
  s->asleep = (uint32_t)mutex + 1;
  uint64_t post = load(&m->handoff);
  if (!post || !exchange(&m->handoff, &post, 0)) return LFM_ASLEEP;
  struct record oldest;
  if (!collect(w, m, &oldest, false)) explorer_fault("a locker that took a post finds no record");
  if (oldest.seat != s->number) return LFM_ASLEEP | grant(w, m, oldest) << 8;
  serve(m);
  if (!explorer_has_stamps) w->link[s->number] = 0;
  return own(s, mutex);
}
uint64_t lfm_c_pool_ask(void *at, uint64_t mutex) {
  begin_whole();
  struct seat *s = at;
  uint64_t refused = refusal(s, mutex);
  if (refused) return refused;
  struct mutex *m = &s->words->mutex[mutex];
  if (add(&m->count) == 0) return own(s, mutex);
  if (load(&m->owner) != s->number) return ask_counted(s, mutex);
  m->depth++;
  subtract(&m->count);
  return LFM_AGAIN;
}
uint64_t lfm_c_pool_receive(void *at, uint64_t mutex) {
  begin_whole();
  struct seat *s = at;
  if (!s->words) return LFM_BLANK;
  if (s->asleep != mutex + 1) return LFM_NOT_WAITING;
  if ((load(&s->words->wake[s->number]) & 3) != 3) return LFM_ASLEEP;
  store(&s->words->wake[s->number], 0);
  return own(s, mutex);
}
uint64_t lfm_c_pool_try_lock(void *at, uint64_t mutex) {
  begin_whole();
  struct seat *s = at;
  uint64_t refused = refusal(s, mutex), free = 0, post;
  if (refused) return refused;
  struct mutex *m = &s->words->mutex[mutex];
  if (exchange(&m->count, &free, 1)) return own(s, mutex);
  if (load(&m->owner) == s->number) {
    m->depth++;
    return LFM_AGAIN;
  }
  post = load(&m->handoff);
  if (!post || !exchange(&m->handoff, &post, 0)) return LFM_BUSY;
  add(&m->count);
  return own(s, mutex);
}
uint64_t lfm_c_pool_unlock(void *at, uint64_t mutex) {
  begin_whole();
  struct seat *s = at;
  if (!s->words) return LFM_BLANK;
  if (mutex >= s->words->mutexes) return LFM_LIMIT;
  if (s->asleep) return LFM_SEAT_ASLEEP;
  struct words *w = s->words;
  struct mutex *m = &w->mutex[mutex];
  struct record oldest;
  if (depth(s, mutex) == 0) return LFM_NOT_OWNER;
  if (--m->depth) return LFM_STILL;
  store(&m->owner, 0);
  if (subtract(&m->count) == 1) return LFM_DONE;
  if (collect(w, m, &oldest, true)) return LFM_GRANTED | grant(w, m, oldest) << 8;
  uint64_t post = (uint64_t)++s->posts << 16 | s->number;
  store(&m->handoff, post);
  if ((load(&m->push) & 65535) == 0) return LFM_POSTED;
  if (!exchange(&m->handoff, &post, 0)) return LFM_POSTED;
  if (!collect(w, m, &oldest, false)) explorer_fault("a releaser that took its post back finds no record");
  return LFM_GRANTED | grant(w, m, oldest) << 8;
}
