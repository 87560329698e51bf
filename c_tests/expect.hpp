// Compares an answer with the expected one. A test ends with status 1 at its first wrong answer.
#pragma once
#include <cstdio>
#include <cstdlib>

template <class A, class B> void wanted(const char *file, int line, const char *what, const A &found, const B &is) {
  if (found == is) return;
  std::fprintf(stderr, "%s:%d: %s is not as wanted\n", file, line, what);
  std::exit(1);
}
#define EXPECT(what, is) wanted(__FILE__, __LINE__, #what, what, is)
