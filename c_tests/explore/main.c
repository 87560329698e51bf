/* explore [OPTION..] [SCENARIO]   explores every state of the scenario, or lists the scenarios
 *
 *   -r N  makes N runs by chance instead, and looks for data races as the memory orders of the code allow them
 *   -w    the proved calls are whole: no points inside
 *   -a    loops in which a thread waits without sleeping make all their rounds; otherwise one
 *   -n    an unlock rings for one waiter, so that the others ring for each other; otherwise for as many as it can
 *   -p N  with N processors; with 1, which is the default, no thread spins
 *   -s    the system may wake a sleeper for no reason
 *   -f    memory may be refused to a thread
 *   -t    the pushes of the model have stamps
 *   -m N  at most N states; -T N: at most N seconds of processor time; -S N: the seed of -r
 *   -l    no search for states from which no end is reached
 *
 * It ends with status 0 if it has found no fault, 1 if it has, and 3 if it was cut off. */
#define _GNU_SOURCE
#include <signal.h>
#include <stdio.h>
#include <sys/mman.h>
#include <sys/time.h>
#include <unistd.h>
#include "state.h"

int processors = 1;
bool may_refuse_memory, may_wake_spuriously, makes_all_rounds, makes_one_ring, looks_for_ends = true;
u64 most_states = 60000000, seed = 1;
volatile int is_time_over;

static void on_time_over(int signal) { (void)signal; is_time_over = 1; }
static void limit_processor_time(int seconds) {
  signal(SIGPROF, on_time_over);
  setitimer(ITIMER_PROF, &(struct itimerval){{0, 0}, {seconds, 0}}, NULL);
}

static const struct scenario *const files[] = {
    lock_scenarios, timed_scenarios, deputy_scenarios,        seat_scenarios,          close_scenarios,
    pool_scenarios, wait_scenarios,  condvar_close_scenarios, refused_close_scenarios, two_mutexes_scenarios,
};
enum { FILES = sizeof files / sizeof files[0] };

/* Lists the scenarios, or finds the one of this name. */
static const struct scenario *look_up(const char *name) {
  for (int i = 0; i < FILES; i++)
    for (const struct scenario *each = files[i]; each->name; each++) {
      if (!name) printf("%-24s %d threads: %s%s\n", each->name, each->fibers, each->what, each->is_long ? " (long)" : "");
      else if (strcmp(each->name, name) == 0) return each;
    }
  return NULL;
}

int main(int count, char **words) {
  u64 runs = 0;
  int option;
  while ((option = getopt(count, words, "r:wanp:sftm:S:lT:")) != -1) switch (option) {
      case 'r': runs = strtoull(optarg, NULL, 10); break;
      case 'w': explorer_whole_calls = true; break;
      case 'a': makes_all_rounds = true; break;
      case 'n': makes_one_ring = true; break;
      case 'p': processors = atoi(optarg); break;
      case 's': may_wake_spuriously = true; break;
      case 't': explorer_has_stamps = true; break;
      case 'T': limit_processor_time(atoi(optarg)); break;
      case 'f': may_refuse_memory = true; break;
      case 'm': most_states = strtoull(optarg, NULL, 10); break;
      case 'S': seed = strtoull(optarg, NULL, 10) * 2654435761u + 88172645463325252u; break;
      case 'l': looks_for_ends = false; break;
      default: return 2;
    }
  setvbuf(stdout, NULL, _IOLBF, 0);
  if (optind >= count) {
    look_up(NULL);
    return 0;
  }
  int flags = MAP_PRIVATE | MAP_ANONYMOUS | MAP_FIXED_NOREPLACE;
  if (explorer_own_size() > OWN || mmap(REGION, sizeof *REGION, PROT_READ | PROT_WRITE, flags, -1, 0) != REGION) {
    printf("explore: no memory at the place\n");
    return 2;
  }
  explorer_warm();
  keep_own();
  scenario = look_up(words[optind]);
  if (!scenario) {
    printf("explore: no scenario of this name\n");
    return 2;
  }
  return runs ? run_by_chance(runs) : explore_all();
}
