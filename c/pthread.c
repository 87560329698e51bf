/* libligdrosa_pthread.so: pthread's mutexes and condition variables over those of Ligdrosa, for programs that are not
 * compiled anew, on Linux with glibc 2.34 to 2.40:
 *
 *     LD_PRELOAD=/usr/local/lib/libligdrosa_pthread.so program
 *
 * Mutexes of all four kinds are Ligdrosa's, whether they are initialized by a call or by a constant, and so are condition
 * variables. The calls answer what POSIX says. With a glibc that has other condition variables, the program ends at its start,
 * with a text.
 *
 * A process has 4,095 numbers. A thread takes one by its first call, which is refused as EAGAIN if none is left, and
 * keeps it until it ends. A lock with a time limit that queues takes another one. If its time is over first, this one
 * stays in the queue until its turn. At most 2,048 are used so: a lock that finds none left tries until its time is over.
 * A thread that ends while it holds a mutex, or frees the memory of one that it holds, keeps its number for ever. There
 * are at most 16,776,704 mutexes at a time, and those that are never destroyed count by their places. A call that would
 * begin another one is refused as ENOMEM.
 *
 * What is passed on to the system:
 *
 *   - Mutexes that are robust, shared between processes, or have a protocol of priorities; and condition variables that are
 *     shared, or waited at with such a mutex. Until it is initialized anew, a condition variable is waited at with the
 *     system's mutexes only, or with others only. Another wait is refused as EINVAL.
 *   - All else of pthread: locks for reading and writing, barriers, semaphores, spin locks, pthread_once.
 *   - What glibc locks inside itself, and C11's mtx_lock, cnd_wait and so on. glibc calls its own functions for these.
 *   - What was linked statically.
 *
 * A mutex that lies in memory which processes share, but was not initialized as shared, is not known as one. It works in
 * glibc, and not here. A shared object that is opened with RTLD_DEEPBIND doesn't work either: it calls glibc's functions, and
 * the libraries that it calls have these, for the same mutexes.
 *
 * What differs from glibc:
 *
 *   - An unlock by a thread that doesn't hold is refused as EPERM also for a mutex of the normal kind. So such a mutex is no
 *     semaphore which one thread takes and another one gives back.
 *   - A second lock of a normal mutex by its holder sleeps for ever, as in glibc, but no other thread can end that.
 *   - A recursive mutex is held at most 65,535 times. A wait at a condition variable gives up all holds of it, and takes them
 *     again. That of glibc gives up one, so others are shut out.
 *   - pthread_cond_destroy is refused as EBUSY while a thread waits, and doesn't wait for it.
 *   - A lock tries before it queues. Those that are queued acquire the mutex in the order in which they queued. An unlock
 *     hands the mutex to the first, whatever its priority, and even if a handler of a signal has stopped its thread.
 *   - Threads that wait at a condition variable are woken in the order in which they began to wait. A wait ends only by a wake
 *     or at the end of its time.
 *   - A thread that waits without a time limit, and is signalled by a holder of its mutex, is woken when that unlocks.
 *   - A thread that sleeps at a condition variable is not woken by pthread_cancel. It acts on that at its next cancellation
 *     point after it was woken. A wait is a cancellation point before it sleeps, and when its time is over.
 *   - A thread that forks runs no handler of a signal until the fork is over. It waits for threads that hold a lock of malloc or
 *     a stream, even if a handler has stopped them, and others wait for it in their first calls. So a thread that holds a
 *     stream (flockfile), while one forks and another flushes all streams, makes no call of a mutex or condition variable but
 *     locks without a time limit and unlocks of mutexes that it has locked before in this process.
 *   - A mutex that the program never destroys, such as a std::mutex, keeps its memory in the library until another mutex
 *     lies in the same place. A mutex that was copied, or stored by an earlier run of the program or by another child, is
 *     another one, which nobody holds. It must not be copied back after it was destroyed in its place.
 *
 * In a forked child a mutex stays held for ever if another thread of the parent held it, was releasing it, or asked for
 * it while nobody held it. One that the forking thread held is made new at the fork, unless its memory can't be written
 * then, and one that nobody held or asked for by its first call. So the child goes on with them, also between handlers of
 * pthread_atfork. A condition variable forgets the parent's threads that wait there. Numbers of threads that the child
 * lacks stay taken. Children of _Fork, vfork and clone are not seen.
 *
 * Nothing here asks malloc for memory, since malloc may lock mutexes of its own by these calls. The system may ask it in a
 * thread's first call. No latch is held then.
 *
 * This is one compilation unit with the library, so that the fast paths are in line. A preloaded library has its
 * thread-local memory from the start. It is initialized before all others (-z initfirst), so that its handlers of
 * pthread_atfork are the last before a fork and the first after it. */
/* POSIX has a broadcast wake all. A ring that another waiter makes might never come, since a handler may stop that waiter. */
#define LFM_UNLOCK_RINGS_FOR_ALL 1
#include "ligdrosa.c"

#include <dlfcn.h>
#include <sys/random.h>

/* A test counts the calls that are made over Ligdrosa, and those that are passed on. */
#ifndef COUNT_CALL
#define COUNT_CALL(what) ((void)0)
#endif

#define EXPORTED __attribute__((visibility("default")))

#include "pthread/system.h"     /* the calls of the system under the same names */
#include "pthread/opened.h"     /* which mutex of the library belongs to which one of the program */
#include "pthread/mutexes.h"    /* the calls of mutexes */
#include "pthread/conditions.h" /* the calls of condition variables */
