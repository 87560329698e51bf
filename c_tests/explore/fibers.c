/* Fibers: each thread of a scenario is one. A fiber stops at each point, and the explorer decides which goes on. */
#include <setjmp.h>
#include <stdio.h>
#include "state.h"

bool explorer_whole_calls, explorer_quiet, explorer_has_stamps;
const struct scenario *scenario;
int fibers, current = -1;
const char *fault;
static u64 explorer_sp;
static u64 own_at_first[OWN / 8];
static bool is_ending;
static void *specific_outside; /* of what comes before and after the fibers */
void *explorer_process;
static jmp_buf end_failed;

void explorer_switch(u64 *from, u64 to);
__asm__(".text\n.globl explorer_switch\nexplorer_switch:\n"
        " push %rbp\n push %rbx\n push %r12\n push %r13\n push %r14\n push %r15\n"
        " mov %rsp,(%rdi)\n mov %rsi,%rsp\n pop %r15\n pop %r14\n pop %r13\n pop %r12\n pop %rbx\n pop %rbp\n ret\n");

static void to_explorer(void) {
  struct fiber *f = &REGION->fibers[current];
  explorer_switch(&f->sp, explorer_sp);
}

_Noreturn void explorer_fault(const char *what) {
  fault = what;
  if (current < 0 && is_ending) longjmp(end_failed, 1);
  if (current < 0) {
    printf("FAULT outside of the fibers: %s\n", what);
    exit(1);
  }
  to_explorer();
  __builtin_unreachable();
}

/* Points */

void stop_at(int kind, const void *at, u64 caller, bool writes) {
  if (current < 0 || (explorer_quiet && kind == ATOMIC)) return;
  if (kind == ATOMIC && (u64)at - (u64)REGION >= sizeof *REGION) return; /* what is the same in all states */
  struct fiber *f = &REGION->fibers[current];
  if (kind != CHOICE) f->count = 0;
  if (kind != FUTEX_WAIT && kind != FUTEX_WAKE) f->value = f->timed = f->result = 0;
  f->variant = 0;
  f->kind = (u8)kind;
  f->address = (u64)at;
  f->caller = caller;
  f->writes = writes;
  to_explorer();
}
#define CALLER ((u64)__builtin_return_address(0))
__attribute__((noinline)) void explorer_point(void) { stop_at(POINT, NULL, CALLER, false); }
__attribute__((noinline)) int explorer_choose(int count) {
  if (current < 0) return 0;
  REGION->fibers[current].count = (u8)count;
  stop_at(CHOICE, NULL, CALLER, false);
  return REGION->fibers[current].variant;
}
int explorer_self(void) { return current; }
int explorer_processors(void) { return processors; }
int explorer_rounds(int count) { return makes_all_rounds ? count : 1; }
int explorer_rings(int count) { return makes_one_ring ? 1 : count; }
bool explorer_toggle_clock(void) {
  if (current < 0 || processors == 1) return false;
  return REGION->fibers[current].toggled ^= 1;
}
void explorer_set_specific(void *value) {
  *(current >= 0 ? &REGION->fibers[current].specific : &specific_outside) = value;
}

/* Whether it failed as the time was over: -1 with errno then. */
long explorer_futex(u32 *word, int operation, u32 value, const void *time) {
  extern int *__errno_location(void);
  if (current < 0) explorer_fault("a futex call outside of the fibers");
  if (operation == 128 && time) { /* a nap */
    *__errno_location() = 110;
    return -1;
  }
  struct fiber *f = &REGION->fibers[current];
  bool wakes = (operation & 127) == 1;
  f->value = value;
  f->timed = !wakes && time;
  f->result = 0;
  if (!wakes) touch(word, 4, false, true);
  stop_at(wakes ? FUTEX_WAKE : FUTEX_WAIT, word, CALLER, false);
  f = &REGION->fibers[current];
  if (f->result == 0) return 0;
  *__errno_location() = f->result == TIMEOUT ? 110 : 11;
  return -1;
}

/* Fibers */

/* Ends the calling thread as the system does: a destructor that gives its key a value again has one more round. */
static void end_thread(void **specific) {
  enum { ROUNDS = 4 };
  for (int i = 0; i < ROUNDS && *specific; i++) {
    void *value = *specific;
    *specific = NULL;
    explorer_end_thread(value);
  }
}

static void begin(void) {
  scenario->run[current]();
  end_thread(&REGION->fibers[current].specific);
  REGION->fibers[current].status = FINISHED;
  to_explorer();
}

static void resume(int n) {
  struct fiber *f = &REGION->fibers[n];
  current = n;
  memcpy(explorer_own_at(), f->own, explorer_own_size());
  memset((void *)(f->sp - 1024), 0, 1024); /* what earlier calls left there is no part of the state */
  explorer_switch(&explorer_sp, f->sp);
  memcpy(f->own, explorer_own_at(), explorer_own_size());
  current = -1;
  if (f->status == FINISHED) {
    f->sp = (u64)REGION->stacks[n] + STACK;
    f->address = f->caller = 0;
    f->kind = f->timed = f->result = f->count = f->variant = f->toggled = f->writes = 0;
    f->value = 0;
    memset(f->own, 0, sizeof f->own);
    f->specific = NULL;
  } else if (f->sp < (u64)REGION->stacks[n] + 1024) {
    fault = "a fiber's stack is too small";
  }
}

static int sleepers_at(u64 address, int which) {
  int count = 0;
  for (int i = 0; i < fibers; i++)
    if (REGION->fibers[i].status == BLOCKED && REGION->fibers[i].address == address && count++ == which) return i;
  return which < 0 ? count : -1;
}

/* The transitions of the present state. `by_time` counts those that are timeouts or for no reason. */
int transitions(struct transition *to, int *by_time) {
  int count = 0;
  *by_time = 0;
  for (int i = 0; i < fibers; i++) {
    struct fiber *f = &REGION->fibers[i];
    if (f->status == BLOCKED) {
      if (f->timed) to[count++] = (struct transition){(u8)i, TIMEOUT}, ++*by_time;
      if (may_wake_spuriously) to[count++] = (struct transition){(u8)i, SPURIOUS}, ++*by_time;
    }
    if (f->status != READY) continue;
    int variants = f->kind == CHOICE ? f->count : f->kind == FUTEX_WAKE ? sleepers_at(f->address, -1) : 1;
    for (int v = 0; v < (variants ? variants : 1); v++) to[count++] = (struct transition){(u8)i, (u8)v};
  }
  return count;
}

void make(struct transition t) {
  struct fiber *f = &REGION->fibers[t.fiber];
  f->variant = t.variant;
  if (f->status == BLOCKED) {
    f->status = READY;
    f->result = t.variant == TIMEOUT ? TIMEOUT : 0;
  } else if (f->kind == FUTEX_WAIT) {
    struct block *b = block_of((void *)f->address);
    if (heap_of((void *)f->address) >= 0 && (!b || !b->live)) {
      fault = "a sleep at memory that was given back";
      return;
    }
    if (*(u32 *)f->address == f->value) {
      f->status = BLOCKED;
      return;
    }
    f->result = 11;
  } else if (f->kind == FUTEX_WAKE) {
    int woken = sleepers_at(f->address, t.variant);
    if (woken >= 0) {
      REGION->fibers[woken].status = READY;
      REGION->fibers[woken].kind = WOKEN;
      REGION->fibers[woken].result = 0;
    }
  }
  resume(t.fiber);
}

/* Runs */

/* The thread-local words of a thread that has just begun. */
void keep_own(void) { memcpy(own_at_first, explorer_own_at(), explorer_own_size()); }

/* Makes a call outside of the fibers, as by a thread that comes before or after all of them. */
static void make_outside(void (*call)(void)) {
  memcpy(explorer_own_at(), own_at_first, explorer_own_size());
  specific_outside = NULL;
  call();
  end_thread(&specific_outside);
}

void begin_run(void) {
  memset(REGION, 0, sizeof *REGION);
  fibers = scenario->fibers;
  current = -1;
  explorer_process = explorer_keep(explorer_process_size());
  make_outside(scenario->setup);
  for (int i = 0; i < fibers; i++) {
    struct fiber *f = &REGION->fibers[i];
    u64 *top = (u64 *)(REGION->stacks[i] + STACK);
    top[-2] = (u64)begin; /* the return address: the stack is as after a call then */
    f->sp = (u64)(top - 8);
    memcpy(f->own, own_at_first, sizeof own_at_first);
  }
}

bool all_finished(void) {
  for (int i = 0; i < fibers; i++)
    if (REGION->fibers[i].status != FINISHED) return false;
  return true;
}

/* Ends a run whose fibers have all finished. */
void end_run(void) {
  is_ending = true;
  if (setjmp(end_failed) == 0) {
    make_outside(scenario->end);
    explorer_check_all_given_back();
  }
  is_ending = false;
  for (int h = 0; h < HEAPS; h++)
    for (u32 i = 0; i < REGION->control[h].count; i++)
      if (REGION->control[h].blocks[i].live == 1 && !fault) fault = "memory is never given back";
}
