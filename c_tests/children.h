/* What the tests that fork share: a child that makes one call, and a call that ends the program with a text. */
#ifndef CHILDREN_H
#define CHILDREN_H
#include <sched.h>
#include <signal.h>
#include <sys/wait.h>
#include <unistd.h>
#include "expect.h"

/* The status with which the child ended, in which this was called. A child that hangs is ended by its alarm. */
static inline int in_child(void (*act)(void)) {
  enum { SECONDS = 60 };
  int status;
  pid_t child = fork();
  EXPECT(child >= 0, true);
  if (child == 0) {
    alarm(SECONDS);
    act();
    _exit(0);
  }
  EXPECT(waitpid(child, &status, 0), child);
  return status;
}

/* Expects that the call ends the program with a text that begins in this way. It is made in a child. */
static inline void expect_abort(void (*act)(void), const char *told) {
  char text[256] = {0};
  int status, ends[2];
  EXPECT(pipe(ends), 0);
  pid_t child = fork();
  EXPECT(child >= 0, true);
  if (child == 0) {
    EXPECT(dup2(ends[1], 2), 2);
    signal(SIGABRT, SIG_DFL);
    act();
    _exit(2);
  }
  EXPECT(waitpid(child, &status, 0), child);
  EXPECT(WIFSIGNALED(status) && WTERMSIG(status) == SIGABRT, true);
  EXPECT(read(ends[0], text, sizeof text - 1) > 0, true);
  EXPECT(strncmp(text, told, strlen(told)), 0);
  EXPECT(close(ends[0]) || close(ends[1]), 0);
}
#endif
