/* What the scenarios share. Their state lies in memory of the explorer. */
#ifndef SCENARIO_H
#define SCENARIO_H
#include "ligdrosa.h"
#include "explorer.h"

#define LONG_TIME ((uint64_t)60 * 1000000000)

struct shared {
  lfm_mutex *mutex;
  lfm_condvar *condvar;
  lfm_seat *seats[MOST_FIBERS]; /* memory of the program */
  uint64_t inside, counter, ready, waiting, woken, told, timed_out, users, closed;
  void *extra; /* what one scenario has in addition */
};
extern struct shared *shared;

/* Makes what the threads share, in a process that has opened no pool, or with the mutex open. Then the library has all that it
 * reserves for a process. */
void make_shared(void);
void open_mutex_only(void);
/* The same, and takes the first seats for the threads. */
void open2(void);
void open3(void);
void open4(void);
/* Memory that is zero. */
void *zeroed(size_t bytes);
/* The calling thread ends as far as the library knows. Then it may call again, as destructors of thread-specific data do. After
 * the second no more round of these comes. */
void end_early(void);
void end_in_last_round(void);
/* Gives back seats in hand, closes the mutex unless it is closed, and gives back what the threads shared. */
void end(void);

/* What a lock guards: accesses that are plain, so that a race is seen, and a point between. */
void section(void);
/* The seat of the calling thread. */
lfm_seat *mine(void);
/* Checks the status of a lock, or of an unlock that releases. */
void acquired(lfm_status status);
void released(lfm_status status);

void once(void);
void once_in_order(void);
void twice_in_order(void);
void try_it(void);
bool timed(void);
void take_mine(void);
void give_mine(void);
/* Whether the status is not refused. It is refused only if memory may be. */
bool acquired_here(lfm_status status);
void here(void);
void here_in_order(void);
bool here_timed(void);
void await_ready(void);
void make_ready_inside(void);
/* Closes the mutex, and gives its memory back at once. */
void close_it(void);
/* Words by which threads tell each other something beside the library, in order. */
uint64_t seen(const uint64_t *word);
void tell(uint64_t *word, uint64_t value);
#endif
