/* The state that the explorer saves, compares and restores, and what its files share. All memory of the fibers lies in one
 * region at a fixed address. */
#ifndef STATE_H
#define STATE_H
#include <stdlib.h>
#include <string.h>
#include "explorer.h"

typedef uint64_t u64;
typedef uint32_t u32;
typedef uint8_t u8;

/* Each fiber has a heap. One is for what comes before and after the fibers, and the last for what lasts as long as the
 * process. */
enum { HEAP_OUTSIDE = MOST_FIBERS, HEAP_OF_PROCESS, HEAPS };
enum { HEAP = 16384, STACK = 32768, MOST_BLOCKS = 64, OWN = 32, MOST_TRANSITIONS = 48 };
enum status { READY, BLOCKED, FINISHED };
/* Where a fiber has stopped: before its start, a point of the scenario, an atomic operation, a sleep or wake by futex, a
 * choice. */
enum kind { START, POINT, ATOMIC, FUTEX_WAIT, FUTEX_WAKE, WOKEN, CHOICE };
/* How a sleep ends without a wake. */
enum { TIMEOUT = 200, SPURIOUS = 201 };

struct fiber {
  u64 sp, address, caller;
  void *specific;
  u32 value;
  u8 status, kind, timed, result, count, variant, toggled, writes;
  u64 own[OWN / 8]; /* the library's thread-local words */
};
struct block {
  u32 at, bytes, live; /* `live` is 0 once it was given back, and LASTS if it need not be */
};
enum { LASTS = 2 };
struct heap {
  u32 used, count;
  struct block blocks[MOST_BLOCKS];
};
struct region {
  struct fiber fibers[MOST_FIBERS];
  struct heap control[HEAPS];
  u8 heaps[HEAPS][HEAP] __attribute__((aligned(4096)));
  u8 stacks[MOST_FIBERS][STACK] __attribute__((aligned(4096)));
};
#define REGION ((struct region *)0x10000000000)

/* One step: this fiber goes on, in this variant: which sleeper it wakes, what it chooses, or how its sleep ends. */
struct transition {
  u8 fiber, variant;
};

/* Options */
extern int processors;
extern bool may_wake_spuriously, looks_for_ends, makes_all_rounds, makes_one_ring;
extern u64 most_states, seed;
extern volatile int is_time_over;

extern const struct scenario *scenario;
extern int fibers, current; /* how many, and which runs, or -1 */
extern const char *fault;   /* what was found, or null */
extern bool detects_races;

/* memory.c */
int heap_of(const void *at);
struct block *block_of(const void *at);
void touch(const void *at, size_t bytes, bool writes, bool atomic);

/* fibers.c */
void stop_at(int kind, const void *at, u64 caller, bool writes);
int transitions(struct transition *to, int *by_time);
void make(struct transition t);
void keep_own(void);
void begin_run(void);
void end_run(void);
bool all_finished(void);

/* races.c */
void make_shadows(void);
void begin_clocks(void);
void race_touch(u64 at, size_t bytes, bool writes, bool atomic, bool frees);
void acquires(const void *at, int order);
void releases(const void *at, int order, bool is_rmw);

/* saved.c */
u8 *save(u8 *to);
void restore(const u8 *from);
u64 hash_of(const u8 *at, size_t bytes);

/* found.c: the number of the state with this hash, which came from that state by this transition if it is new; and how a
 * state was found first */
u32 find_state(u64 hash, u32 origin, struct transition last, bool *is_new);
u64 states_found(void);
struct transition *path_to(u32 state, size_t *count);

/* ends.c */
void add_transition(u32 from, u32 to);
void add_end(u32 state, u64 hash);
u64 ends_found(void);
u64 sum_of_ends(void);
u64 count_states_without_end(u64 states, u32 *one);

/* search.c, chance.c, trace.c. The first two answer how the program ends. */
enum { RIGHT = 0, FAULTY = 1, CUT_OFF = 3 };
int explore_all(void);
int run_by_chance(u64 runs);
void print_trace(const struct transition *path, size_t count, const u8 *first);
#endif
