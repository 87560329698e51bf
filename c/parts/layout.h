/* What lies in memory: the fields of a participant, a pool and a seat in hand, and how much room they have. No code is here. */

/* How many mutexes the first pool has, and how many pools and participants there are at most. A tool that explores interleavings
 * has fewer. */
#ifndef LFM_FIRST_POOL
#define LFM_FIRST_POOL 512
#define LFM_MOST_POOLS 15
#define LFM_MOST_PARTICIPANTS LFM_MOST_SEATS
#endif

enum { LINE = 64, POOL_BYTES = LINE, SEAT_BYTES = LINE, MOST_POOLS = LFM_MOST_POOLS };
enum { MOST_PARTICIPANTS = LFM_MOST_PARTICIPANTS, MOST_DEPUTIES = (MOST_PARTICIPANTS + 1) / 2 };

/* An open mutex as a word: the number of its pool, from 1, and below it its number there, from 1. The word of an lfm_mutex that
 * is not open is 0. */
typedef uint64_t mutex_word;

/* Flags of a participant. If one is set, its calls don't take the fast path. IS_WATCHED: its calls tell tools of locks and
 * unlocks. IS_LATE: its thread is ending, so the call that leaves it without a hold gives it back. */
enum { IS_WATCHED = 1, IS_LATE = 2 };

/* What a deputy does: see deputies.h. */
enum deputy_state { RESTS, TIMED, ABANDONED, PASSING, ORPHANED };

/* Who takes part in mutexes: a thread, a seat in hand, or a deputy. It has one number and one bell, and one seat in each pool.
 * Its own thread alone changes it, except for the bell and the state, and for the seats of a deputy that has abandoned its
 * place. */
struct participant {
  uint32_t plain_pools;          /* in how many pools it has a seat, or 0 if a flag is set */
  uint32_t pools;                /* in how many pools it has a seat: in the first ones */
  uint64_t holds;                /* how many mutexes it holds, by its own seats and by its deputies */
  struct participant *deputies;  /* those that it has taken and not given back */
  struct lfm_waiter *unrung;     /* the oldest waiter whose ring is put off until it releases `unrung_at`, or null */
  struct lfm_waiter *last_unrung;
  struct lfm_waiter *ringer; /* of those whose rings are put off, the one that rings for the last, or the only one */
  mutex_word unrung_at;
  uint16_t number;
  uint8_t flags;
  uint8_t spin_credit; /* 0 if its waits don't spin, unless as a trial: see condvar.h */
  uint16_t waits;      /* how many it has made, modulo 2^16 */

  /* what other threads change has a line of its own */
  uint32_t bell __attribute__((aligned(LINE))); /* rung when a seat of it was granted a mutex */
  uint32_t state;                               /* of a deputy */
  mutex_word at;                                /* of a deputy: the mutex in which it is queued or which it holds, or 0 */
  struct participant *next;                     /* the next deputy of the same participant */

  unsigned char seats[MOST_POOLS][SEAT_BYTES] __attribute__((aligned(LINE)));
} __attribute__((aligned(LINE)));

/* What the library keeps of a mutex beside its words in the pool. */
struct mutex_info {
  uint32_t in_hand; /* how many seats of lfm_seat_take are not given back, and above that in which process: see pools.h */
  uint32_t queued;  /* how many participants are queued by locks that have not returned */
  uint32_t forks;   /* how many forks lie between the first process and the one in which it was opened */
};

/* A pool of mutexes. */
struct pool {
  unsigned char handle[POOL_BYTES];
  struct numbers numbers; /* of its mutexes */
  uint32_t latch;         /* of the handle, by which seats are taken */
  struct participant *of_seat[MOST_PARTICIPANTS + 1];
  struct mutex_info infos[];
};

/* What the library has in a process. It is never given back. */
struct process {
  struct pool *pools[MOST_POOLS + 1]; /* by their numbers, from 1 on; null while a pool is not open */
  uint32_t count_of_pools;
  uint32_t latch; /* of pools that are opened */
  uint32_t forks; /* how many lie between the first process and this one */
  struct numbers numbers; /* of the participants */
  struct participant *participants; /* by their numbers, from 1 on; null while none was taken */
  uint32_t deputies;                /* how many of them are deputies */
};

/* A tool that explores interleavings keeps it among the memory that it watches. */
#ifndef LFM_PROCESS
static struct process the_process;
#define LFM_PROCESS the_process
#endif

/* A seat in hand, or one of lfm_seat_here: a participant with one mutex. */
struct lfm_seat {
  struct participant *by; /* null while the seat is not taken */
  mutex_word mutex;
  struct lfm_seat *next; /* of lfm_seat_here */
  uint32_t is_in_call;
  bool is_checked;
  bool is_of_library; /* its participant is that of a thread */
  uint32_t forks;     /* of a seat in hand: those of the process in which it was taken or made new */
  uint64_t unused[27];
} __attribute__((aligned(16)));

_Static_assert(sizeof(lfm_mutex) == 16 && sizeof(lfm_seat) == 256 && sizeof(lfm_condvar) == 32,
               "the header states these sizes, and rust/src/library.rs has them too");
_Static_assert(MOST_PARTICIPANTS < 1 << 16, "a number fits");
