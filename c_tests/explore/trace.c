/* Prints how a fault is reached: the transitions from the start, each with its line. */
#include <stdio.h>
#include <unistd.h>
#include "state.h"

enum { ASLEEP = WOKEN + 10 }; /* in place of a kind */
static const char *kind_names[] = {"starts", "goes on", "atomic", "futex wait", "futex wake", "woken", "chooses"};

/* What is printed of a transition. */
struct printed {
  int fiber, kind, variant, status_after;
  u64 caller, address;
};

static struct printed make_and_keep(struct transition t) {
  struct fiber *f = &REGION->fibers[t.fiber];
  struct printed one = {t.fiber, f->status == BLOCKED ? ASLEEP : f->kind, t.variant, 0, f->caller, f->address};
  make(t);
  one.status_after = f->status;
  return one;
}

static void print(size_t number, const struct printed *one, const char *line) {
  const char *end_of_sleep = one->variant == TIMEOUT ? "its time is over" : "wakes for no reason";
  const char *what = one->kind == ASLEEP ? end_of_sleep : kind_names[one->kind];
  printf("  %3zu  thread %d  %-11s %s", number, one->fiber, what, one->caller ? line : "");
  if (one->address) printf("  [%lx]", (unsigned long)(one->address & 0xfffffff));
  if (one->kind == CHOICE) printf("  -> %d", one->variant);
  if (one->status_after == BLOCKED) printf("  sleeps");
  if (one->status_after == FINISHED) printf("  has ended");
  printf("\n");
}

/* Prints the transitions with the lines that addr2line says of their callers. */
static void print_all(const struct printed *all, size_t count) {
  char name[128], command[256], line[512];
  snprintf(name, sizeof name, "%s/explorer_trace.%d", P_tmpdir, getpid());
  FILE *list = fopen(name, "w");
  if (!list) return;
  for (size_t i = 0; i < count; i++) fprintf(list, "%#lx\n", (unsigned long)(all[i].caller ? all[i].caller - 1 : 0));
  fclose(list);
  snprintf(command, sizeof command, "addr2line -f -s -p -e /proc/%d/exe < %s", getpid(), name);
  FILE *lines = popen(command, "r");
  for (size_t i = 0; i < count; i++) {
    if (!lines || !fgets(line, sizeof line, lines)) line[0] = 0;
    line[strcspn(line, "\n")] = 0;
    print(i + 1, &all[i], line);
  }
  if (lines) pclose(lines);
  unlink(name);
}

void print_trace(const struct transition *path, size_t count, const u8 *first) {
  restore(first);
  fault = NULL;
  struct printed *all = calloc(count + 1, sizeof *all);
  size_t made = 0;
  while (made < count && !fault) {
    all[made] = make_and_keep(path[made]);
    made++;
  }
  print_all(all, made);
}
