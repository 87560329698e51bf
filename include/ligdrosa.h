/* Ligdrosa for C: a recursive mutex and a condition variable, for Linux. C++ and Rust call the same functions.
 *
 * Use
 *
 *     static lfm_mutex mutex = LFM_MUTEX_INIT;
 *     static lfm_condvar filled;                     zero, and so ready for any mutex
 *
 *     if (lfm_is_refused(lfm_lock_here(&mutex))) abort();
 *     while (count == 0)
 *       if (lfm_is_refused(lfm_wait_here(&filled, &mutex))) abort();
 *     ...                                            no other thread holds
 *     lfm_unlock_here(&mutex);
 *
 * Most programs need only the calls whose names end in `here`, and lfm_wake_one and lfm_wake_all. A status is tested by
 * lfm_is_refused, and not against 0: each one below LFM_BLANK is a success, such as LFM_AGAIN of a thread that held before.
 * lfm_status_text has its meaning in words. A program that goes on after a refused lock may call lfm_acquire_here, which
 * answers a bool. Null, a mutex that is neither open nor LFM_MUTEX_INIT, and a seat that is not taken are answered by
 * LFM_BLANK. An unlock or wait of an LFM_MUTEX_INIT that is not open yet is refused as LFM_NOT_OWNER. A refused call has
 * changed nothing, unless its comment says otherwise; but it may have opened an LFM_MUTEX_INIT and taken the thread's
 * number. Below, the statuses after *Refused* stand in the order in which a call tests them, LFM_NO_MEMORY where memory
 * is requested first.
 *
 * A thread has one number for all mutexes, from its first call until it ends. The calls whose names end in `here` find it.
 * The others are given a seat (lfm_seat_take), for programs that keep nothing in thread-local memory. Each such seat has a
 * number of its own, and so has each lock with a time limit that queues. A process has 4,095 numbers at a time. Only the
 * first call of a thread and the take of a seat, if they find none left, are refused as LFM_NO_SEAT.
 *
 * The library keeps its memory until the process ends: 80 bytes for each mutex of a pool, some 100 kB more for each pool,
 * and 1.1 kB for each number with its seats. The first pool has 512 mutexes, and each other one twice as many as the one
 * before. There are at most 15 pools, with 16,776,704 mutexes. Memory is requested only by calls that open a mutex or make
 * it new after a fork, by the first call of a thread, and by lfm_seat_take and lfm_seat_here.
 *
 * Only these may change errno: calls that open or close a mutex, make it new after a fork, take or give back a seat, the
 * first call of a thread, and calls by destructors of thread-specific data.
 *
 * What is proved
 *
 * The library calls functions named lfm_c_, which lock and unlock, but neither sleep nor wake. Proved are their answers, their
 * refusals and their steps, how many these are at most (a lock makes two more for each push that fails), and which seat they
 * grant the mutex.
 * That no two seats hold at once follows, in every sequentially consistent interleaving. The rest, which makes these calls,
 * is only tested: it puts threads to sleep and wakes them, tries before it queues, waits by the clock, gives out mutexes and
 * numbers, and has the condition variables. Its source argues why no wake-up is lost, and why nothing is touched after its
 * end. Trusted are the prover with its library, the compilers, the linker, the C library and Linux.
 *
 * What a program promises, and nothing checks
 *
 *   - An lfm_mutex is zero or LFM_MUTEX_INIT, and an lfm_seat and lfm_condvar zero, before their first call. They are
 *     touched by these calls alone. A mutex and a condition variable are moved only between calls, and a seat not while it
 *     is taken. All three are of one process: they don't lie in memory that processes share. All parts of a program that
 *     share a mutex call one copy of the library, such as libligdrosa.so, since each copy has mutexes of its own.
 *   - A seat is in one call at a time. It goes from one thread to another by a lock, a thread's start or join, or the like.
 *     If all files of a program are compiled with -DLFM_CHECKED, two threads in one seat of lfm_seat_take end it with a
 *     text. This does not check lfm_depth and lfm_assert_held.
 *   - No signal handler makes a call or forks. Handlers of pthread_atfork that were made before the library's own, which
 *     it makes as it is initialized, call no mutex, and leave the mask of signals as it was: they run with signals
 *     blocked. A fork waits for calls that open a mutex or take a number or a seat, and these wait for it: so the thread
 *     of such a call holds nothing that a fork or such a handler waits for, such as a stream (flockfile) while another thread
 *     flushes all streams.
 *   - A forked child calls a mutex that the forking thread held only after lfm_after_fork. It doesn't call one that another
 *     thread held, or that nobody held and another thread asked for or was releasing. All others it calls as its parent
 *     does. It may close each mutex and give back each seat: a seat of its parent is only forgotten, even if it holds, and
 *     keeps its number. A close of a mutex of the parent sees only a hold of the calling thread by calls that end in `here`.
 *     If other threads of the parent may have waited at a condition variable or been in a call of it, the child sets it to
 *     zero before it calls it: it has none of these threads. Numbers of threads that the child lacks stay taken. The child is
 *     one of fork: the library doesn't see those of _Fork, vfork and clone.
 *   - The proof of the call that opens a pool does not cover a forked child whose parent had other threads, since such a
 *     child may not call malloc. The library uses mmap in its place. For lfm_seat_here malloc has to be usable there.
 *   - While a mutex is opened by lfm_mutex_new or closed, no other call of it begins. See lfm_mutex_close.
 *   - A call that has begun returns: no signal handler jumps out of it, and its thread is not cancelled asynchronously. No
 *     call is a cancellation point.
 *
 * It needs Linux with addresses of 64 bits, and gcc or clang with C11 or C++11. Link libligdrosa.a or libligdrosa.so. */
#ifndef LIGDROSA_H
#define LIGDROSA_H

#if !defined(__linux__) || !defined(__LP64__)
#error "ligdrosa.h needs Linux with addresses of 64 bits"
#endif

#include <stdbool.h>
#include <stddef.h>
#include <stdint.h>
#include <time.h>

#ifdef __cplusplus
extern "C" {
#endif

/* The version of this header, and as one number. lfm_version tells that of the library. */
#define LFM_VERSION_MAJOR 0
#define LFM_VERSION_MINOR 1
#define LFM_VERSION_PATCH 0
#define LFM_VERSION (LFM_VERSION_MAJOR * 10000 + LFM_VERSION_MINOR * 100 + LFM_VERSION_PATCH)

/* What a call tells. Below LFM_BLANK the call was made, from there on it was refused. */
typedef enum lfm_status {
  /* a script writes the numbers from here */
  LFM_DONE = 0,      /* made: the seat holds the mutex, or released it and no other seat asked */
  LFM_AGAIN = 1,     /* the seat held before, and holds once more */
  LFM_STILL = 2,     /* the seat holds once less, and still holds */
  LFM_ASLEEP = 3,    /* the seat sleeps until it is granted the mutex; no call of this header answers it */
  LFM_POSTED = 4,    /* the mutex was released to a seat that had begun to ask */
  LFM_GRANTED = 5,   /* the mutex was released to the oldest queued seat */
  LFM_NOBODY = 6,    /* no thread waited, so none was woken */
  LFM_TIMED_OUT = 7, /* the wait ended since its time was over; the seat holds the mutex */

  LFM_BLANK = 16,        /* null, a mutex that is neither open nor LFM_MUTEX_INIT, or a seat that is not taken */
  LFM_TAKEN = 17,        /* the mutex is open, or the seat taken, already */
  LFM_LIMIT = 18,        /* a number is outside its limits */
  LFM_NO_MEMORY = 19,    /* memory was refused, or 16,776,704 mutexes are open */
  LFM_NO_SEAT = 20,      /* threads, seats and locks with a time limit have all 4,095 numbers */
  LFM_NOT_BACK = 21,     /* some seats are not given back */
  LFM_HOLDING = 22,      /* the seat holds the mutex, or for a close: some seat holds it or asks for it */
  LFM_FOREIGN = 23,      /* the seat is of another mutex or thread */
  LFM_OTHER_HEADER = 24, /* the library is of another version than this header */
  LFM_WAITED_FOR = 25,   /* a thread waits at the condition variable */

  LFM_SEAT_ASLEEP = 32,  /* the seat sleeps: it is in a call of another thread */
  LFM_NOT_OWNER = 33,    /* the seat doesn't hold the mutex */
  LFM_NESTED = 34,       /* the seat holds more than once, and a wait releases one hold alone */
  LFM_DEPTH_FULL = 35,   /* the seat holds 65,535 times already */
  /* the mutex has had 2^48 - 2^13 queued locks, or the number 2^47 posts, which at a million a second takes four years */
  LFM_SPENT = 36,
  LFM_NO_SUCH_SEAT = 37, /* no seat has this number; no call of this header answers it */
  LFM_NOT_WAITING = 38,  /* the seat doesn't sleep; no call of this header answers it */
  /* at some moment of the call another seat held the mutex, asked for it or was releasing it; or a lock's time was over */
  LFM_BUSY = 39
  /* to here */
} lfm_status;

/* Whether the call was refused. */
static inline bool lfm_is_refused(lfm_status status) { return status >= LFM_BLANK; }

#define LFM_API __attribute__((visibility("default"), nothrow))
/* The compiler warns if the status of such a call is not used. A program that ignores a refused lock goes on without the
 * mutex. */
#define LFM_MUST_TEST __attribute__((warn_unused_result))
#define LFM_NODISCARD LFM_MUST_TEST LFM_API

/* For clang's -Wthread-safety. Calls with a seat are not annotated: clang can't see of which mutex a seat is. It takes
 * the mutex to be held after lfm_lock_here, even if that was refused. A program that goes on after a refused lock tests
 * lfm_acquire_here or lfm_try_acquire_here, whose answers clang understands. Of the other calls that try, it sees in
 * `if (!lfm_try_lock_here(&mutex))` that the mutex is held, but clang 14 not in a test by lfm_is_refused or by `==`. The
 * form with `!` takes LFM_AGAIN for a failure, so it is for a thread that doesn't hold yet. */
#if defined(__clang__) && !defined(LFM_NO_THREAD_SAFETY)
#define LFM_TELLS_CLANG(what) __attribute__((what))
#else
#define LFM_TELLS_CLANG(what)
#endif
#define LFM_CAPABILITY LFM_TELLS_CLANG(capability("mutex"))
#define LFM_ACQUIRES(mutex) LFM_TELLS_CLANG(acquire_capability(mutex))
#define LFM_TRIES(mutex) LFM_TELLS_CLANG(try_acquire_capability(0, mutex))
#define LFM_RELEASES(mutex) LFM_TELLS_CLANG(release_capability(mutex))
#define LFM_NEEDS(mutex) LFM_TELLS_CLANG(requires_capability(mutex))
#define LFM_ASSERTS(mutex) LFM_TELLS_CLANG(assert_capability(mutex))
/* Of calls with a body, which clang doesn't follow. */
#define LFM_UNSEEN LFM_TELLS_CLANG(no_thread_safety_analysis)
#define LFM_IF_ACQUIRED(mutex) LFM_TELLS_CLANG(try_acquire_capability(1, mutex)) LFM_UNSEEN

/* The clocks that a call with a time limit takes: CLOCK_REALTIME and CLOCK_MONOTONIC of Linux. */
enum { LFM_REALTIME = 0, LFM_MONOTONIC = 1 };

/* How many numbers a process has, and how many seats LFM_MUTEX_INIT names. */
enum { LFM_MOST_SEATS = 4095, LFM_USUAL_SEATS = 64 };
/* The greatest budget that may be named. */
#define LFM_MOST_TAKES (UINT64_C(1) << 36)

struct lfm_core;
struct lfm_waiter;

/* A mutex, of 16 bytes. `core` is no address: it says which mutex of the library this is. While it is null the mutex is not
 * open, but LFM_MUTEX_INIT is opened by its first lock or seat. */
typedef struct LFM_CAPABILITY lfm_mutex {
  struct lfm_core *core;
  uint32_t seats;
  uint32_t version;
} lfm_mutex;

/* A mutex that is opened by its first lock or seat. If memory is refused, that call is refused. A static one need never be
 * closed. The number of seats is 1 to 4,095, and limits nothing: any thread may call the mutex. */
#define LFM_MUTEX_INIT_WITH(seats) {NULL, (seats), LFM_VERSION}
#define LFM_MUTEX_INIT LFM_MUTEX_INIT_WITH(LFM_USUAL_SEATS)

/* A seat of a mutex, of 256 bytes, for one thread at a time. It is aligned as memory of malloc is, and ends with bytes
 * that nothing uses, so that no two of them share a cache line wherever they lie. */
typedef struct lfm_seat lfm_seat;
#ifndef LFM_IN_LIBRARY /* which has the fields */
struct lfm_seat {
  uint64_t opaque[32];
} __attribute__((aligned(16)));
#endif

/* A condition variable, of 32 bytes: those that wait, the oldest first. */
typedef struct lfm_condvar {
  struct lfm_waiter *oldest;
  struct lfm_waiter *newest;
  uint32_t latch;
  uint32_t inside; /* how many waits with a time limit may still touch it */
  uint64_t unused;
} lfm_condvar;

/* Of the library: LFM_VERSION as it was compiled. */
LFM_API int lfm_version(void);
/* What the status means, in some words. */
LFM_API const char *lfm_status_text(lfm_status status);

/* Mutexes */

/* Opens a mutex. `version` is LFM_VERSION. The number of seats is 1 to 4,095, and the budget 1 to LFM_MOST_TAKES; neither
 * limits anything. It takes a few atomic operations, unless it opens a pool: then it may sleep while another thread opens
 * one or forks.
 * Refused: LFM_BLANK (null), LFM_TAKEN, LFM_OTHER_HEADER, LFM_LIMIT, LFM_NO_MEMORY. */
LFM_API lfm_status lfm_mutex_open(lfm_mutex *mutex, uint64_t seats, uint64_t budget, int version);
/* The same for programs that have this header. */
static inline lfm_status lfm_mutex_new(lfm_mutex *mutex, uint64_t seats, uint64_t budget) {
  return lfm_mutex_open(mutex, seats, budget, LFM_VERSION);
}

/* Ends the mutex, which is zero then, also if it was LFM_MUTEX_INIT: a later call doesn't open it anew, and is refused as
 * LFM_BLANK. The thread that acquired it last may close it once it has released it, though calls of others that released
 * it before have not returned yet, and then give back the memory of the lfm_mutex. It may also be closed during the last
 * lfm_seat_give, and then the memory of that lfm_seat may go too. A close may sleep while another thread opens a pool,
 * takes a seat in one or forks.
 * Refused: LFM_BLANK, LFM_NOT_BACK if a seat of lfm_seat_take is not given back, LFM_HOLDING, also if a timed lock has left
 * its number queued. The last is not seen if the calling thread has no number and is refused one. */
LFM_API lfm_status lfm_mutex_close(lfm_mutex *mutex);

/* Kept so that existing programs compile. It answers LFM_MOST_TAKES times the number of seats that was named. */
LFM_API uint64_t lfm_takes_left(lfm_mutex *mutex);

/* In a forked child, makes a mutex new that the thread which forked held, and then holds as often as before, or that no
 * seat held or asked for. If that thread held it, it makes this call itself. This call is the child's first of the mutex.
 * `seat` is the seat by which it held, or null if it calls those that end in `here`. Other seats in hand of the mutex are
 * forgotten: an lfm_seat is set to zero before it is taken anew. What the library had of the parent's mutex stays taken.
 * In the process that opened the mutex it changes nothing. It may sleep while another thread opens a pool, takes a seat
 * in one or forks.
 * Refused: LFM_BLANK; LFM_FOREIGN, also of a seat of the parent if the mutex is new already; LFM_NO_MEMORY, LFM_NO_SEAT, and
 * LFM_BUSY if the thread that forked did not hold the mutex, and another seat held it, asked for it or was releasing it. */
LFM_NODISCARD lfm_status lfm_after_fork(lfm_mutex *mutex, lfm_seat *seat);

/* Seats in hand */

/* Takes a seat of the mutex, with a number of its own. It may sleep while another thread opens a pool, takes a seat in one
 * or forks.
 * Refused: LFM_BLANK; if it opens the mutex, LFM_OTHER_HEADER, LFM_LIMIT, LFM_NO_MEMORY; LFM_TAKEN, LFM_NO_MEMORY and
 * LFM_NO_SEAT. */
LFM_API lfm_status lfm_seat_take(lfm_mutex *mutex, lfm_seat *seat);
LFM_API lfm_status lfm_seat_take_checked(lfm_mutex *mutex, lfm_seat *seat);
#ifdef LFM_CHECKED
#define lfm_seat_take lfm_seat_take_checked
#endif

/* Gives the seat back. A place that a timed lock of it has left in the queue is passed by in its turn. A seat of
 * lfm_seat_here is given back as by lfm_seat_give_here, which frees memory. Otherwise it never sleeps.
 * Refused: LFM_BLANK, LFM_HOLDING, LFM_SEAT_ASLEEP. A seat of lfm_seat_here: LFM_BLANK, LFM_FOREIGN if it was answered
 * another thread, LFM_HOLDING. */
LFM_API lfm_status lfm_seat_give(lfm_seat *seat);

/* The seat's number, 1 to 4,095, or 0 of a seat that is not taken. No two that are taken have the same, except those of
 * lfm_seat_here, which have the number of their thread. */
LFM_API uint64_t lfm_number(lfm_seat *seat);
/* How many times the seat holds. */
LFM_API uint64_t lfm_depth(lfm_seat *seat);
/* Ends the program with a text unless the seat holds the mutex, and else changes nothing. It never sleeps. */
LFM_API void lfm_assert_held(lfm_seat *seat);
/* Kept so that existing programs compile. It answers LFM_MOST_TAKES, or 0 of a seat that is not taken. */
LFM_API uint64_t lfm_left(lfm_seat *seat);

/* Locks */

/* Acquires the mutex or deepens the hold: LFM_DONE or LFM_AGAIN. It sleeps until then. It first tries a bounded number of
 * times, between pauses and naps, and so may come before threads that came earlier. Then it queues, and from there on no
 * thread that queues later is served before it.
 * Refused: LFM_BLANK, LFM_SEAT_ASLEEP, LFM_DEPTH_FULL, LFM_SPENT. */
LFM_NODISCARD lfm_status lfm_lock(lfm_seat *seat);

/* The same, but queues at once. */
LFM_NODISCARD lfm_status lfm_lock_in_order(lfm_seat *seat);

/* Acquires the mutex or deepens the hold, and never waits for a holder: LFM_DONE or LFM_AGAIN. It may come before seats that
 * are queued.
 * Refused: LFM_BLANK, LFM_SEAT_ASLEEP, LFM_DEPTH_FULL, LFM_SPENT and LFM_BUSY. */
LFM_NODISCARD lfm_status lfm_try_lock(lfm_seat *seat);

/* Locks as lfm_lock does, but at most until this many nanoseconds have passed, or until this time on this clock. It
 * queues, so other threads that queue don't keep it from its turn. It queues by another number, which the seat keeps for
 * its next such lock until it is given back or its thread ends. At most 2,048 numbers are used so: a lock that finds none
 * left tries until its time is over.
 *
 * If the time is over while it is queued, that number alone stays queued. The seat's next lock, with a time limit or
 * without, waits from the same place, unless it acquires the mutex by a try. If the turn of the place comes first, an
 * unlock passes it by. Until then lfm_mutex_close answers LFM_HOLDING. If its turn comes as the time ends, the call
 * acquires the mutex. A lock that takes such a number for the first time may take longer: it may sleep as the first call of
 * a thread.
 * Refused: as lfm_lock, and LFM_BUSY, which tells that the time is over. Before all these
 * lfm_try_lock_until is refused as LFM_BLANK if `time` is null, and as LFM_LIMIT if there is no such clock, or not 0 to
 * 999,999,999 nanoseconds in `time`. */
LFM_NODISCARD lfm_status lfm_try_lock_for(lfm_seat *seat, uint64_t nanoseconds);
LFM_NODISCARD lfm_status lfm_try_lock_until(lfm_seat *seat, int clock, const struct timespec *time);

/* The same as lfm_lock and lfm_try_lock, but they answer whether the call was made: then the seat holds. They don't tell why
 * a call was refused. */
static inline LFM_MUST_TEST bool lfm_acquire(lfm_seat *seat) { return !lfm_is_refused(lfm_lock(seat)); }
static inline LFM_MUST_TEST bool lfm_try_acquire(lfm_seat *seat) { return !lfm_is_refused(lfm_try_lock(seat)); }

/* Releases one hold: LFM_STILL if the seat still holds, else LFM_DONE, LFM_POSTED or LFM_GRANTED. It never sleeps. It makes
 * at most two calls of the system: one to wake the next thread that asked, if one has, and the rest for the threads at
 * condition variables that were woken in the hold, however many these are. If the system refuses FUTEX_WAKE_OP, which a sandbox
 * may do, an unlock that finds this out makes up to six. On its way to the next thread that waits, it passes by the places that
 * timed locks have left in the queue, and answers LFM_GRANTED also if the oldest place was one of these. No number bounds
 * these: more may be left before the unlock ends. The same holds of a lock that wakes another thread.
 * Refused: LFM_BLANK, LFM_SEAT_ASLEEP, LFM_NOT_OWNER. */
LFM_API lfm_status lfm_unlock(lfm_seat *seat);

/* Threads */

/* The calling thread's number as a seat of the mutex, or null if it is refused, with the cause. `cause` is not null, and
 * is read only after a refusal. No other thread calls by this seat. It ends by lfm_seat_give_here, when the thread closes
 * the mutex, or with the thread. The more such seats the thread has, the longer it takes to find one. The call may sleep
 * while another thread opens a pool, takes a seat in one or forks.
 *
 * A thread takes its number by its first call of a mutex, and gives it back when it ends, unless it holds then, or the
 * system had no thread-specific key left. Destructors of thread-specific data may call too. In each round of them the
 * library ends the seats that the thread has from lfm_seat_here, unless it holds, so a destructor calls lfm_seat_here
 * anew. A number that is taken in the last round, the fourth in glibc, may not be given back.
 * Refused: LFM_BLANK; if it opens the mutex, LFM_OTHER_HEADER, LFM_LIMIT, LFM_NO_MEMORY; if it takes the thread's number,
 * LFM_NO_MEMORY, LFM_NO_SEAT; and LFM_NO_MEMORY. */
LFM_API lfm_seat *lfm_seat_here(lfm_mutex *mutex, lfm_status *cause);

/* Ends what lfm_seat_here has answered of this mutex. The thread keeps its number until it ends.
 * Refused: LFM_BLANK, also if the thread has no seat in the mutex's pool, and LFM_HOLDING. */
LFM_API lfm_status lfm_seat_give_here(lfm_mutex *mutex);

/* The calls above by the calling thread. The first call of a thread, its first in each pool, and the first of a mutex may
 * sleep while another thread opens a pool, takes a seat in one or forks.
 * Refused: as lfm_seat_here if it opens the mutex or takes the thread's number, and then as the call above. */
LFM_NODISCARD lfm_status lfm_lock_here(lfm_mutex *mutex) LFM_ACQUIRES(*mutex);
LFM_NODISCARD lfm_status lfm_lock_in_order_here(lfm_mutex *mutex) LFM_ACQUIRES(*mutex);
LFM_NODISCARD lfm_status lfm_try_lock_here(lfm_mutex *mutex) LFM_TRIES(*mutex);
LFM_NODISCARD lfm_status lfm_try_lock_for_here(lfm_mutex *mutex, uint64_t nanoseconds) LFM_TRIES(*mutex);
LFM_NODISCARD lfm_status lfm_try_lock_until_here(lfm_mutex *mutex, int clock, const struct timespec *time) LFM_TRIES(*mutex);
static inline LFM_MUST_TEST bool lfm_acquire_here(lfm_mutex *mutex) LFM_IF_ACQUIRED(*mutex);
static inline LFM_MUST_TEST bool lfm_try_acquire_here(lfm_mutex *mutex) LFM_IF_ACQUIRED(*mutex);
static inline bool lfm_acquire_here(lfm_mutex *mutex) { return !lfm_is_refused(lfm_lock_here(mutex)); }
static inline bool lfm_try_acquire_here(lfm_mutex *mutex) { return !lfm_is_refused(lfm_try_lock_here(mutex)); }
/* These take no number: a thread that has none doesn't hold. */
LFM_API lfm_status lfm_unlock_here(lfm_mutex *mutex) LFM_RELEASES(*mutex);
LFM_API uint64_t lfm_depth_here(lfm_mutex *mutex);
LFM_API void lfm_assert_held_here(lfm_mutex *mutex) LFM_ASSERTS(*mutex);

/* Conditions */

/* Releases the mutex, which the seat holds once, waits until a wake, and acquires the mutex again: LFM_DONE. It returns only
 * after a wake, but another seat may hold the mutex in between: wait in a loop that tests what is waited for. If a wake
 * wakes one thread, that locks as by lfm_lock, and if it wakes more, they lock in order.
 * Refused: LFM_BLANK, LFM_SEAT_ASLEEP, LFM_NOT_OWNER, LFM_NESTED, and LFM_SPENT, after which the seat doesn't hold. */
LFM_NODISCARD lfm_status lfm_wait(lfm_condvar *condvar, lfm_seat *seat);

/* The same, but waits for at most this many nanoseconds, or until this time on this clock: LFM_DONE after a wake, or
 * LFM_TIMED_OUT.
 * Refused: as lfm_wait. Before that lfm_wait_until is refused for its time as lfm_try_lock_until. */
LFM_NODISCARD lfm_status lfm_wait_for(lfm_condvar *condvar, lfm_seat *seat, uint64_t nanoseconds);
LFM_NODISCARD lfm_status lfm_wait_until(lfm_condvar *condvar, lfm_seat *seat, int clock, const struct timespec *time);

/* The same, but the wait releases all holds of the seat, and acquires as many again. So it is never refused as LFM_NESTED. */
LFM_NODISCARD lfm_status lfm_wait_all_holds(lfm_condvar *condvar, lfm_seat *seat);
LFM_NODISCARD lfm_status lfm_wait_all_holds_until(lfm_condvar *condvar, lfm_seat *seat, int clock,
                                                  const struct timespec *time);

/* The same by the calling thread. */
LFM_NODISCARD lfm_status lfm_wait_here(lfm_condvar *condvar, lfm_mutex *mutex) LFM_NEEDS(*mutex);
LFM_NODISCARD lfm_status lfm_wait_for_here(lfm_condvar *condvar, lfm_mutex *mutex, uint64_t nanoseconds) LFM_NEEDS(*mutex);
LFM_NODISCARD lfm_status lfm_wait_until_here(lfm_condvar *condvar, lfm_mutex *mutex, int clock, const struct timespec *time)
    LFM_NEEDS(*mutex);
LFM_NODISCARD lfm_status lfm_wait_all_holds_here(lfm_condvar *condvar, lfm_mutex *mutex) LFM_NEEDS(*mutex);
LFM_NODISCARD lfm_status lfm_wait_all_holds_until_here(lfm_condvar *condvar, lfm_mutex *mutex, int clock,
                                                       const struct timespec *time) LFM_NEEDS(*mutex);

/* Wakes the thread that has waited longest, or all that wait: LFM_DONE or LFM_NOBODY. The caller may hold the mutex or
 * not, and needs no number. A thread that acquires the mutex after a wait has released it finds that wait. If no thread
 * waits, a wake is one load. Otherwise it may sleep until another call has left the list. Wakes go in the order of the
 * waits, and no lfm_wake_one wakes two.
 * Refused: LFM_BLANK (null). */
LFM_API lfm_status lfm_wake_one(lfm_condvar *condvar);
LFM_API lfm_status lfm_wake_all(lfm_condvar *condvar);
/* The same by a thread with a seat in hand. If that seat holds, threads that wait without a time limit and for its mutex
 * are woken when it releases the mutex, as by lfm_wake_one of a holder without one. So they don't find it held. The
 * unlock wakes the first four of them, or two if it also grants the mutex; half of that if the system refuses
 * FUTEX_WAKE_OP. Each that was woken so wakes at most two others, before it locks. A thread that holds two mutexes puts
 * off wakes for one of them, and makes those for the other at once. */
LFM_API lfm_status lfm_wake_one_by(lfm_condvar *condvar, lfm_seat *seat);
LFM_API lfm_status lfm_wake_all_by(lfm_condvar *condvar, lfm_seat *seat);

/* Ends a condition variable. All threads that waited have been woken, or have found that their time is over, but they may
 * still return: it sleeps until waits with a time limit have left it. If none had one, the memory may also be given back
 * without a close. In both cases a program promises that no call of it is under way but those waits and the wakes that woke
 * them: another wake might still look at it.
 * Refused: LFM_BLANK (null), and LFM_WAITED_FOR, also while a thread whose time is over has not run since. */
LFM_API lfm_status lfm_condvar_close(lfm_condvar *condvar);

#ifdef __cplusplus
}
#endif
#endif
