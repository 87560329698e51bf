/* The participant of each thread: taken by its first call of a mutex, and given back when the thread ends. The calls that use it
 * are in here.h. No mutex is acquired or released here. */

/* Stands for the participant of a thread that has none. It has no seats, so no call takes the fast path. */
static struct participant nobody;

static _Thread_local struct {
  struct participant *by;
  lfm_seat *seats_here; /* those that lfm_seat_here has answered; a search for leaks finds them here */
  bool is_ending;       /* the destructors of its thread-specific data are called */
} own = {&nobody, NULL, false};

/* The key whose destructor gives a thread's participant back, which comes after the destructors of a thread's C++ objects. It is
 * made before a program's constructors run, and is there until after its destructors. If the system had none left then, it is
 * tried again whenever a thread takes a participant. The word is NO_KEY, IS_DROPPED or one more than the key. */
enum { NO_KEY = 0 };
#define IS_DROPPED UINT32_MAX
static uint32_t end_key;
_Static_assert(sizeof(pthread_key_t) <= sizeof end_key, "the word has room for a key, which is a small number");

/* Takes a seat of lfm_seat_here out of the list of its thread, and frees it: whether it was there. It may be null. */
static bool forget_seat_here(lfm_seat *seat) {
  lfm_seat **at = &own.seats_here;
  while (*at && *at != seat) at = &(*at)->next;
  if (!*at) return false;
  *at = seat->next;
  free(seat);
  return true;
}

/* Gives the thread's participant back, which holds nothing. A free may lock, and that is no reason to give it back then. */
SLOW_PATH void give_own_back(void) {
  struct participant *by = own.by;
  by->flags &= (uint8_t)~IS_LATE;
  while (own.seats_here) forget_seat_here(own.seats_here);
  part_with_deputies(by);
  own.by = &nobody;
  give_participant(by);
}

/* Has the thread's participant given back as soon as it may be, since its thread ends. */
static void make_late(struct participant *by) {
  by->flags |= IS_LATE;
  by->plain_pools = 0;
}

static void end_thread(void *at);

/* Makes the key if there is none. Of threads that make it at the same time one is first, and the others drop theirs. */
__attribute__((constructor(101))) static void make_end_key(void) {
  uint32_t found = NO_KEY;
  pthread_key_t key;
  if (__atomic_load_n(&end_key, __ATOMIC_ACQUIRE) != NO_KEY || pthread_key_create(&key, end_thread) != 0) return;
  if (!__atomic_compare_exchange_n(&end_key, &found, key + 1, false, __ATOMIC_ACQ_REL, __ATOMIC_ACQUIRE))
    pthread_key_delete(key);
}

/* Where this module begins and its dynamic section, as the linker defines them. */
extern const ElfW(Ehdr) __ehdr_start __attribute__((weak, visibility("hidden")));
extern ElfW(Dyn) _DYNAMIC[] __attribute__((weak, visibility("hidden")));

/* Whether this code is part of the program, or of a shared object that stays loaded (-z nodelete). */
static bool is_never_unloaded(void) {
  if (!&__ehdr_start || getauxval(AT_PHDR) == (uintptr_t)&__ehdr_start + __ehdr_start.e_phoff) return true;
  for (const ElfW(Dyn) *entry = _DYNAMIC; entry && entry->d_tag != DT_NULL; entry++)
    if (entry->d_tag == DT_FLAGS_1 && (entry->d_un.d_val & DF_1_NODELETE)) return true;
  return false;
}

/* If a shared object that has this code is unloaded, no thread that ends later calls it. Code that is never unloaded keeps the
 * key as the program ends: threads that go on meanwhile still give their participants back. */
__attribute__((destructor(101))) static void drop_end_key(void) {
  if (is_never_unloaded()) return;
  uint32_t found = __atomic_exchange_n(&end_key, IS_DROPPED, __ATOMIC_ACQ_REL);
  if (found != NO_KEY) pthread_key_delete(found - 1);
}

/* Has the calling thread's participant given back when it ends: whether there is memory. If it ends already, the system makes one
 * more round of destructors, or a call gives it back (IS_LATE). If there is no key, it is not given back by itself. While a
 * shared object is unloaded, the key may be gone at any moment: then the system refuses for another cause. */
static bool register_thread_end(void) {
  make_end_key();
  uint32_t found = __atomic_load_n(&end_key, __ATOMIC_ACQUIRE);
  return found == NO_KEY || found == IS_DROPPED || pthread_setspecific(found - 1, &own) != ENOMEM;
}

/* If the participant still holds, it is given back in the next round of destructors, or by the call that ends its last hold. */
static void end_thread(void *at) {
  (void)at;
  own.is_ending = true;
  if (own.by == &nobody) return;
  if (own.by->holds == 0) {
    give_own_back();
    return;
  }
  make_late(own.by);
  register_thread_end();
}

/* Takes a participant for the calling thread, or null and the cause. The thread has it before the system is asked to register it:
 * that may call malloc, which may lock. */
SLOW_PATH struct participant *take_first(lfm_status *cause) {
  struct participant *by = take_participant(cause);
  if (!by) return NULL;
  own.by = by;
  if (register_thread_end()) {
    if (own.is_ending) make_late(by);
    return by;
  }
  give_own_back();
  *cause = LFM_NO_MEMORY;
  return NULL;
}

/* The calling thread's participant, which it takes if it has none, or null and the cause. */
static struct participant *take_own(lfm_status *cause) { return own.by != &nobody ? own.by : take_first(cause); }
