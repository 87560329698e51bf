/* Ligdrosa for C, over pools of mutexes: all of include/ligdrosa.h that isn't proved. The calls named lfm_c_ are those of
 * crates/lfm_c, and are proved.
 *
 * This is one compilation unit in parts. Each part uses only parts above it. Its head says what it has, and what it leaves to
 * others. The argument that no wake-up is lost is in bell.h, waiter.h, deputies.h, lock.h and condvar.h. */
#ifndef _GNU_SOURCE
#define _GNU_SOURCE
#endif
#define LFM_IN_LIBRARY       /* layout.h has the fields of a seat */
#define LFM_NO_THREAD_SAFETY /* clang can't see how these calls acquire a mutex */
#include "ligdrosa.h"
#undef lfm_seat_take

#include <errno.h>
#include <link.h>
#include <pthread.h>
#include <signal.h>
#include <stdio.h>
#include <stdlib.h>
#include <string.h>
#include <sys/auxv.h>
#include <sys/mman.h>
#include <sys/syscall.h>
#include <unistd.h>

#define LIKELY(condition) __builtin_expect(!!(condition), 1)
#define UNLIKELY(condition) __builtin_expect(!!(condition), 0)
/* What is seldom done, out of line. */
#define SLOW_PATH __attribute__((noinline, cold)) static
/* What an uncontended lock or unlock does, in line. */
#define FAST_PATH static inline __attribute__((always_inline))
/* How many rounds a loop makes in which a thread waits for another and doesn't sleep. A round that finds nothing to do
 * changes nothing, so a tool that explores interleavings may make fewer. */
#ifndef LFM_ROUNDS
#define LFM_ROUNDS(count) (count)
#endif

#include "parts/proved.h"       /* the proved calls */
#include "parts/futex.h"        /* sleeping on a word; clocks and deadlines */
#include "parts/bell.h"         /* one thread waits for another */
#include "parts/latch.h"        /* a lock for a few steps */
#include "parts/tools.h"        /* what sanitizers are told; processors; memory */
#include "parts/numbers.h"      /* numbers that any thread takes and gives back */
#include "parts/layout.h"       /* the fields of participants, pools and seats */
#include "parts/forks.h"        /* the latches over a fork */
#include "parts/pools.h"        /* pools, and how mutexes of them are opened */
#include "parts/participants.h" /* who takes part in mutexes */
#include "parts/waiter.h"       /* a wait at a condition variable */
#include "parts/deputies.h"     /* wake-ups, and who queues for a lock with a time limit */
#include "parts/lock.h"         /* lock, try and unlock by a participant */
#include "parts/hand.h"         /* seats in hand */
#include "parts/threads.h"      /* the participant of each thread */
#include "parts/here.h"         /* the calls that find the thread's participant */
#include "parts/held.h"         /* the calls that end the program unless a seat holds */
#include "parts/end.h"          /* closing, and forked children */
#include "parts/condvar.h"      /* condition variables */
#include "parts/texts.h"        /* the version and the texts of statuses */
