/* The rule of a pool: how its words agree with those of the lone tables. It is compared after each step. */
#include "pool.hpp"

namespace pool {
namespace {

bool is_same(Link a, Link b) { return a.stamp == b.stamp && a.seat == b.seat; }

/* The words of a mutex are those of its lone table. A post has a number of the seat's own in place of its number there. */
void check_words(const State &state, int mutex) {
  const Mutex &real = state.mutex[mutex];
  const LoneTable &lone = state.lone[mutex];
  expect(real.count == lone.count && real.owner == lone.owner, "count and owner are those of the lone table");
  expect(real.push_stamp == lone.push_stamp && real.push_head == lone.push_head, "the push word is that of the lone table");
  byte number = lone.poster ? state.numbers[mutex][lone.poster][lone.post] : 0;
  expect(real.poster == lone.poster && real.number == number, "a post has the number that its seat gave it");
  expect(number <= state.seat[lone.poster].posts, "the number of a post is at most the seat's");
  for (int seat = 1; seat <= SEATS; seat++)
    for (int post = 2; post <= lone.posts[seat]; post++)
      expect(state.numbers[mutex][seat][post - 1] < state.numbers[mutex][seat][post], "the numbers of posts rise");
}

/* A seat is queued, or sleeps, in one mutex at most. Its wake word is that of this mutex's lone table, and quiet in the
 * others. */
void check_wakes(const State &state, int mutex) {
  const LoneTable &lone = state.lone[mutex];
  for (int seat = 1; seat <= SEATS; seat++)
    if (state.seat[seat].mutex == mutex)
      expect(state.wake[seat] == lone.wake[seat], "the wake word of a seat is that of the mutex where it does not rest");
    else
      expect(lone.wake[seat] == 0, "the wake word of a seat that rests in a mutex is quiet there");
}

/* The link of a seat is that of the lone table from the store before its push until its record is collected. */
void check_links(const State &state, int mutex) {
  const LoneTable &lone = state.lone[mutex];
  for (int seat = 1; seat <= SEATS; seat++)
    if (state.seat[seat].mutex == mutex && state.seat[seat].next == EXCHANGE_PUSH)
      expect(is_same(state.link[seat], lone.link[seat]), "the link that a push will publish is that of the lone table");
  for (byte seat = lone.push_head; seat; seat = lone.link[seat].seat) {
    expect(state.seat[seat].mutex == mutex && state.seat[seat].is_queued, "a queued seat rests in all other mutexes alone");
    expect(is_same(state.link[seat], lone.link[seat]), "the link of a record in the push list is that of the lone table");
  }
}

/* The collected records are a chain in the link words, from the oldest on. A call that collects has not made it yet, or has
 * taken the record off that it is about to serve. */
void check_chain(const State &state, int mutex) {
  const LoneTable &lone = state.lone[mutex];
  int first = 0;
  for (int i = 0; i < lone.popped; i++)
    expect(state.seat[lone.pop[i].seat].mutex == mutex && state.seat[lone.pop[i].seat].is_queued,
           "a seat whose record is collected rests in all other mutexes alone");
  for (int seat = 1; seat <= SEATS; seat++) {
    const Seat &it = state.seat[seat];
    if (it.mutex != mutex || !it.collects) continue;
    if (!it.has_stored_oldest) return;
    first = 1;
  }
  byte at = state.mutex[mutex].oldest;
  for (int i = first; i < lone.popped && !fault; i++) {
    expect(is_same(Link{state.link[at].stamp, at}, lone.pop[i]), "the chain has the records of the pop list, oldest first");
    at = state.link[at].seat;
  }
  expect(at == 0, "the chain ends with the pop list");
}

/* The depth of a mutex's owner is in the carried word, where nothing is left by an owner that has released. */
void check_depth(const State &state, int mutex) {
  const Mutex &real = state.mutex[mutex];
  const LoneTable &lone = state.lone[mutex];
  if (!real.owner) {
    expect(real.more == 0, "without an owner there is no depth");
    return;
  }
  const Seat &owner = state.seat[real.owner];
  bool is_ahead = owner.mutex == mutex && owner.next == SUBTRACT_OF_HOLDER; /* it has stored the word, and not ended */
  expect(lone.depth[real.owner] + is_ahead == real.more + 1, "the depth of the owner is in the carried word");
}

}

void check_rule(const State &state) {
  for (int mutex = 0; mutex < MUTEXES; mutex++) {
    check_words(state, mutex);
    check_wakes(state, mutex);
    check_links(state, mutex);
    check_chain(state, mutex);
    check_depth(state, mutex);
  }
  for (int seat = 1; seat <= SEATS; seat++)
    if (state.seat[seat].mutex == NOWHERE)
      expect(state.wake[seat] == 0, "the wake word of a seat that rests in all mutexes is quiet");
}

}
