/* What the C file, the proved calls and the scenarios share with the explorer. */
#ifndef EXPLORER_H
#define EXPLORER_H
#include <stdbool.h>
#include <stddef.h>
#include <stdint.h>

enum { MOST_FIBERS = 4 };

/* Of the explorer, for the C file and the proved calls. */
void *explorer_malloc(size_t bytes);
void *explorer_calloc(size_t count, size_t bytes);
int explorer_memalign(void **at, size_t alignment, size_t bytes);
void explorer_free(void *at);
void *explorer_keep(size_t bytes); /* memory that lasts as long as the process, all 0, or null */
void *explorer_memset(void *at, int byte, size_t bytes);
void *explorer_memcpy(void *to, const void *from, size_t bytes);
long explorer_futex(uint32_t *word, int operation, uint32_t value, const void *time);
_Noreturn void explorer_fault(const char *what);
void explorer_touch(const void *at, size_t bytes, bool writes);
int explorer_processors(void);
int explorer_rounds(int count); /* how many of these rounds are made: see LFM_ROUNDS */
int explorer_rings(int count);  /* how many of these rings an unlock makes: see LFM_RINGS */
bool explorer_toggle_clock(void);
void explorer_set_specific(void *value);
extern bool may_refuse_memory; /* memory may be refused to a thread */
extern void *explorer_process; /* where the library's words of the process are */

/* Of the C file, for the explorer. */
size_t explorer_own_size(void);
void *explorer_own_at(void);
void explorer_end_thread(void *own);
void explorer_warm(void);
size_t explorer_process_size(void);
void explorer_check_all_given_back(void);

/* A scenario. Its state lies in memory of explorer_malloc. */
struct scenario {
  const char *name;
  const char *what;
  int fibers;
  bool timeouts_may_be_needed; /* a state in which only a timeout goes on is no fault */
  void (*setup)(void);
  void (*run[MOST_FIBERS])(void);
  void (*end)(void); /* after the last fiber, on the explorer's own stack */
  bool is_long;      /* it has too many states to be explored to its end in a minute */
};
/* The scenarios of one file of scenarios/, which end with one that has no name. */
extern const struct scenario lock_scenarios[], timed_scenarios[], deputy_scenarios[], seat_scenarios[], close_scenarios[],
    pool_scenarios[], wait_scenarios[], condvar_close_scenarios[], refused_close_scenarios[], two_mutexes_scenarios[];

/* For scenarios: a point at which others may run; a choice of 0 to count - 1; the number of the fiber; and a test. */
void explorer_point(void);
int explorer_choose(int count);
int explorer_self(void);
#define CHECK(condition) ((condition) ? (void)0 : explorer_fault("not so: " #condition))
extern bool explorer_whole_calls; /* the proved calls make no points inside */
extern bool explorer_has_stamps;
extern bool explorer_quiet;       /* the next atomic operations make no points */
#endif
