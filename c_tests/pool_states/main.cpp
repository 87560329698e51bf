/* Every state of a pool of MUTEXES mutexes and SEATS seats, in which the seats make any calls that are not refused:
 *
 *   pool_states TAKES DEPTH
 *
 * All seats together acquire at most TAKES times a mutex that they don't hold, and each holds a mutex at most DEPTH times.
 * It compares each state with the rule of a pool, prints how many states there are, and ends with status 1 at the first
 * state or step that is wrong. Two states with the same hash of 64 bits count as one. */
#include <cstdio>
#include <cstdlib>
#include <cstring>
#include <vector>
#include "pool.hpp"

namespace {

using pool::State;

uint64_t hash_of(const State &state) {
  unsigned char bytes[sizeof state];
  memcpy(bytes, &state, sizeof state);
  uint64_t hash = 0x9e3779b97f4a7c15;
  for (unsigned char at : bytes) {
    hash = (hash ^ at) * 0xff51afd7ed558ccd;
    hash ^= hash >> 29;
  }
  return hash ? hash : 1;
}

/* The hashes of the states that were found, in a table with open addresses. */
class Found {
public:
  size_t count = 0;

  /* Whether the hash is new. */
  bool add(uint64_t hash) {
    if (count * 2 >= places.size()) grow();
    size_t at = hash % places.size();
    while (places[at] && places[at] != hash) at = (at + 1) % places.size();
    if (places[at]) return false;
    places[at] = hash;
    count++;
    return true;
  }

private:
  std::vector<uint64_t> places = std::vector<uint64_t>(1 << 16);

  void grow() {
    std::vector<uint64_t> before(places.size() * 2);
    before.swap(places);
    count = 0;
    for (uint64_t hash : before)
      if (hash) add(hash);
  }
};

class Search {
public:
  Search(int takes, int depth) : takes(takes), depth(depth) {
    State first{};
    for (pool::Seat &seat : first.seat) seat.mutex = pool::NOWHERE;
    found.add(hash_of(first));
    open.push_back(first);
  }

  void run() {
    while (!open.empty() && !pool::fault) {
      State state = open.back();
      open.pop_back();
      for (int seat = 1; seat <= SEATS && !pool::fault; seat++) go_on(state, seat);
    }
  }
  size_t states() const { return found.count; }
  uint64_t transitions() const { return made; }

private:
  int takes, depth;
  Found found;
  std::vector<State> open;
  uint64_t made = 0;

  void go_on(const State &state, int seat) {
    State next = state;
    if (state.seat[seat].next > pool::SLEEPS) {
      pool::step(next, seat);
      visit(next);
      return;
    }
    for (int mutex = 0; mutex < MUTEXES; mutex++)
      for (pool::Call call : {pool::LOCK, pool::TRY_LOCK, pool::UNLOCK, pool::RECEIVE}) {
        next = state;
        if (pool::start(next, seat, mutex, call, takes, depth)) visit(next);
      }
  }

  void visit(const State &state) {
    made++;
    pool::check_rule(state);
    if (found.add(hash_of(state))) open.push_back(state);
  }
};

}

int main(int count, char **arguments) {
  int takes = count == 3 ? atoi(arguments[1]) : 0, depth = count == 3 ? atoi(arguments[2]) : 0;
  if (takes < 1 || takes > pool::MOST_TAKES || depth < 1 || depth > pool::MOST_DEPTH) {
    fprintf(stderr, "usage: pool_states TAKES DEPTH\n");
    return 2;
  }
  Search search(takes, depth);
  search.run();
  printf("%zu states, %llu transitions: %s\n", search.states(), (unsigned long long)search.transitions(),
         pool::fault ? pool::fault : "all within the rule");
  return pool::fault ? 1 : 0;
}
