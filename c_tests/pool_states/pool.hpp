/* A state of a pool: the words that its threads share, what each seat knows, and for each mutex the table that it would have
 * by itself. No thread of a pool sees such a lone table. The rule of a pool (rule.cpp) says how the words agree with them.
 * Steps are in steps.cpp. */
#pragma once
#include <cstdint>

namespace pool {

using byte = uint8_t;

#ifndef MUTEXES
#define MUTEXES 2
#endif
#ifndef SEATS
#define SEATS 3
#endif
/* How many times all seats together may acquire a mutex that they don't hold, and how often a seat may hold one. */
constexpr int MOST_TAKES = 6, MOST_DEPTH = 2;
constexpr byte NOWHERE = 255;

/* The record of a seat: its stamp and another seat, or 0. Until the record is collected that is the seat pushed before it,
 * then the one pushed after it. */
struct Link {
  byte stamp, seat;
};

/* The words of a mutex of the pool. A post is a seat and a number that this seat has used for no other. `more` and `oldest`
 * share a word, which only the party with the responsibility touches: the holds beyond the first, and the seat whose record
 * is the oldest of those collected. */
struct Mutex {
  byte count, owner, poster, number, push_stamp, push_head, more, oldest;
};

/* The words of a mutex by itself, its pop list with the oldest record first, and what its seats know. A post is a seat and
 * the number of the post among those of this seat at this mutex. A wake word is 0, or a grant's stamp and 1. */
struct LoneTable {
  byte count, owner, poster, post, push_stamp, push_head, popped;
  Link link[SEATS + 1], pop[SEATS];
  byte wake[SEATS + 1], depth[SEATS + 1], posts[SEATS + 1];
};

enum Call : byte { NO_CALL, LOCK, TRY_LOCK, UNLOCK, RECEIVE };

/* What a seat does next: one operation on one word. docs/PROTOCOL.md has all but those that are marked, which a mutex by
 * itself does not make: it keeps its pop list and the depth of a seat in other memory. */
enum Next : byte {
  RESTS, SLEEPS,
  ADD_TO_COUNT, LOAD_OWNER, LOAD_MORE /* marked */, STORE_ONE_MORE /* marked */, SUBTRACT_OF_HOLDER,
  LOAD_PUSH, STORE_LINK, EXCHANGE_PUSH, LOAD_POST, TAKE_POST,
  CLEAR_HEAD, LOAD_LINK, TURN_LINK /* marked */,
  LOAD_OLDEST /* marked */, LOAD_TURNED /* marked */, STORE_OLDEST /* marked */,
  STORE_OWNER, GRANT,
  LOAD_DEPTH /* marked */, STORE_ONE_LESS /* marked */, CLEAR_OWNER, SUBTRACT_FROM_COUNT, POST, RECHECK, TAKE_BACK,
  TRY_COUNT, TRY_OWNER, TRY_POST, ACCEPT_POST, COUNT_ACCEPTED,
  LOAD_WAKE, STORE_WAKE
};

struct Seat {
  byte mutex; /* where it does not rest, or NOWHERE */
  Next next;
  Call call;
  bool is_queued; /* it sleeps when its call ends, unless it acquires before */
  byte posts;     /* in all mutexes */
  byte push_stamp, push_head;    /* as it has seen them */
  byte poster, number, post;     /* the post that it has seen or made; `post` is its number in the lone table */
  bool has_posted, collects, has_stored_oldest;
  byte collected, collected_before; /* in a walk through the links: the present record and the one before it */
  byte other;                       /* what the last load of a link or of the carried word has found beside the record */
  Link served;                      /* the record that it serves: stamp and seat */
};

struct State {
  Mutex mutex[MUTEXES];
  Link link[SEATS + 1];
  byte wake[SEATS + 1];
  Seat seat[SEATS + 1];
  LoneTable lone[MUTEXES];
  byte numbers[MUTEXES][SEATS + 1][MOST_TAKES + 1]; /* of each post: which number the seat gave it */
  byte takes;
};

/* What is wrong with a state or a step, or null. */
extern const char *fault;
inline void expect(bool is_so, const char *what) {
  if (!is_so && !fault) fault = what;
}

/* Starts a call of this seat at this mutex: whether it may. A refused call changes nothing. */
bool start(State &state, int seat, int mutex, Call call, int most_takes, int most_depth);

/* Makes the next step of the seat's call. */
void step(State &state, int seat);

/* Compares the words of the pool with its lone tables. */
void check_rule(const State &state);

}
