/* The steps of the calls, each on a word of the pool and on the same word of the mutex's lone table. A load finds the same
 * in both, and an exchange succeeds in both or in neither: the checks here and the rule say so. */
#include "pool.hpp"

namespace pool {

const char *fault = nullptr;

namespace {

/* One step of a call. */
class Step {
public:
  Step(State &state, int seat)
      : state(state), number(byte(seat)), me(state.seat[seat]), real(state.mutex[me.mutex]), lone(state.lone[me.mutex]) {}

  void make();

private:
  State &state;
  byte number;
  Seat &me;
  Mutex &real;
  LoneTable &lone;

  void queue();
  void collect();
  void serve();
  void release();
  void try_to_lock();
  void receive();

  void end();
  void exchange_push();
  bool exchange_post();
  void load_link();
  void remove_oldest();
  void own();
  void grant();
  void post();
};

void Step::make() {
  if (me.next < ADD_TO_COUNT) expect(false, "a seat without an open call makes a step");
  else if (me.next <= TAKE_POST) queue();
  else if (me.next <= STORE_OLDEST) collect();
  else if (me.next <= GRANT) serve();
  else if (me.next <= TAKE_BACK) release();
  else if (me.next <= COUNT_ACCEPTED) try_to_lock();
  else receive();
}

/* Ends the call. A seat that is queued sleeps in this mutex. */
void Step::end() {
  Seat after{};
  after.posts = me.posts;
  after.mutex = me.is_queued ? me.mutex : NOWHERE;
  after.is_queued = me.is_queued;
  after.next = me.is_queued ? SLEEPS : RESTS;
  me = after;
}

void Step::queue() {
  switch (me.next) {
  case ADD_TO_COUNT:
    me.next = real.count == 0 ? STORE_OWNER : LOAD_OWNER;
    real.count++, lone.count++;
    break;
  case LOAD_OWNER: me.next = real.owner == number ? LOAD_MORE : LOAD_PUSH; break;
  case LOAD_MORE: me.other = real.more, me.next = STORE_ONE_MORE; break;
  case STORE_ONE_MORE:
    real.more = me.other + 1;
    if (me.call == LOCK) { me.next = SUBTRACT_OF_HOLDER; break; }
    lone.depth[number]++;
    end();
    break;
  case SUBTRACT_OF_HOLDER: real.count--, lone.count--, lone.depth[number]++, end(); break;
  case LOAD_PUSH: me.push_stamp = real.push_stamp, me.push_head = real.push_head, me.next = STORE_LINK; break;
  case STORE_LINK:
    state.link[number] = lone.link[number] = Link{byte(me.push_stamp + 1), me.push_head};
    me.next = EXCHANGE_PUSH;
    break;
  case EXCHANGE_PUSH: exchange_push(); break;
  case LOAD_POST:
    me.poster = real.poster, me.number = real.number, me.post = lone.post;
    if (real.poster) me.next = TAKE_POST; else end();
    break;
  default:
    if (exchange_post()) me.next = CLEAR_HEAD, me.collects = true; else end();
  }
}

void Step::exchange_push() {
  if (real.push_stamp != me.push_stamp || real.push_head != me.push_head) {
    me.push_stamp = real.push_stamp, me.push_head = real.push_head, me.next = STORE_LINK;
    return;
  }
  real.push_stamp++, lone.push_stamp++;
  real.push_head = lone.push_head = number;
  me.is_queued = true;
  me.next = LOAD_POST;
}

/* Clears the handoff word if it has the post that the seat has seen. */
bool Step::exchange_post() {
  bool is_real = real.poster == me.poster && real.number == me.number;
  expect(is_real == (lone.poster == me.poster && lone.post == me.post), "an exchange of a post ends as in the lone table");
  if (is_real) real.poster = real.number = lone.poster = lone.post = 0;
  return is_real;
}

/* Finds the oldest record, and takes it off the chain. The walk from the newest record to the oldest turns each link. */
void Step::collect() {
  switch (me.next) {
  case LOAD_OLDEST:
    me.collects = true;
    me.served.seat = real.oldest;
    me.next = real.oldest ? LOAD_TURNED : CLEAR_HEAD;
    break;
  case LOAD_TURNED:
    me.served.stamp = state.link[me.served.seat].stamp;
    me.other = state.link[me.served.seat].seat;
    me.next = STORE_OLDEST;
    break;
  case CLEAR_HEAD:
    expect(real.oldest == 0 && lone.popped == 0, "records are collected only if none is left");
    me.collected = real.push_head, me.collected_before = 0;
    real.push_head = lone.push_head = 0;
    me.next = me.collected ? LOAD_LINK : POST;
    if (me.collected) break;
    expect(me.call == UNLOCK && !me.has_posted, "only a release that has not posted finds no record");
    me.collects = false;
    break;
  case LOAD_LINK: load_link(); break;
  case TURN_LINK:
    state.link[me.collected] = Link{me.served.stamp, me.collected_before};
    me.next = me.other ? LOAD_LINK : STORE_OLDEST;
    if (me.other) me.collected_before = me.collected, me.collected = me.other;
    else me.other = me.collected_before;
    break;
  default:
    real.oldest = me.other;
    me.has_stored_oldest = true;
    me.next = me.call == LOCK && me.served.seat == number ? STORE_OWNER : GRANT;
  }
}

void Step::load_link() {
  Link found = state.link[me.collected], expected = lone.link[me.collected];
  expect(found.stamp == expected.stamp && found.seat == expected.seat, "a link is that of the lone table");
  for (int i = lone.popped; i > 0; i--) lone.pop[i] = lone.pop[i - 1];
  lone.pop[0] = Link{expected.stamp, me.collected};
  lone.popped++;
  me.served = Link{found.stamp, me.collected};
  me.other = found.seat;
  me.next = TURN_LINK;
}

void Step::serve() {
  if (me.next == GRANT) grant(); else own();
}

void Step::remove_oldest() {
  expect(lone.popped > 0 && lone.pop[0].seat == me.served.seat && lone.pop[0].stamp == me.served.stamp,
         "the record that is served is the oldest");
  for (int i = 1; i < lone.popped; i++) lone.pop[i - 1] = lone.pop[i];
  lone.pop[--lone.popped] = Link{};
}

void Step::own() {
  if (me.served.seat) remove_oldest();
  real.owner = lone.owner = number;
  lone.depth[number] = 1;
  me.is_queued = false;
  end();
}

void Step::grant() {
  byte target = me.served.seat;
  const Seat &it = state.seat[target];
  expect(it.mutex == me.mutex && it.is_queued, "the target of a grant is queued in this mutex");
  remove_oldest();
  state.wake[target] = lone.wake[target] = me.served.stamp + 1;
  end();
}

void Step::release() {
  switch (me.next) {
  case LOAD_DEPTH: me.other = real.more, me.next = real.more ? STORE_ONE_LESS : CLEAR_OWNER; break;
  case STORE_ONE_LESS: real.more = me.other - 1, lone.depth[number]--, end(); break;
  case CLEAR_OWNER: real.owner = lone.owner = lone.depth[number] = 0, me.next = SUBTRACT_FROM_COUNT; break;
  case SUBTRACT_FROM_COUNT:
    real.count--, lone.count--;
    if (real.count) me.next = LOAD_OLDEST; else end();
    break;
  case POST: post(); break;
  case RECHECK:
    if (real.push_head) me.next = TAKE_BACK; else end();
    break;
  default:
    if (exchange_post()) me.next = CLEAR_HEAD, me.collects = true; else end();
  }
}

void Step::post() {
  byte post = ++lone.posts[number];
  me.posts++;
  state.numbers[me.mutex][number][post] = me.posts;
  real.poster = lone.poster = me.poster = number;
  real.number = me.number = me.posts;
  lone.post = me.post = post;
  me.has_posted = true;
  me.next = RECHECK;
}

void Step::try_to_lock() {
  switch (me.next) {
  case TRY_COUNT:
    me.next = real.count == 0 ? STORE_OWNER : TRY_OWNER;
    if (real.count == 0) real.count = lone.count = 1;
    break;
  case TRY_OWNER: me.next = real.owner == number ? LOAD_MORE : TRY_POST; break;
  case TRY_POST:
    me.poster = real.poster, me.number = real.number, me.post = lone.post;
    if (real.poster) me.next = ACCEPT_POST; else state.takes--, end();
    break;
  case ACCEPT_POST:
    if (exchange_post()) me.next = COUNT_ACCEPTED; else state.takes--, end();
    break;
  default: real.count++, lone.count++, me.next = STORE_OWNER;
  }
}

void Step::receive() {
  if (me.next == LOAD_WAKE) {
    expect(state.wake[number] == lone.wake[number], "a wake word is that of the lone table");
    if (state.wake[number]) me.next = STORE_WAKE; else end();
  } else {
    state.wake[number] = lone.wake[number] = 0;
    me.next = STORE_OWNER;
  }
}

}

bool start(State &state, int seat, int mutex, Call call, int most_takes, int most_depth) {
  Seat &me = state.seat[seat];
  byte depth = state.lone[mutex].depth[seat];
  if (call == RECEIVE) {
    if (me.next != SLEEPS || me.mutex != mutex) return false;
    me.next = LOAD_WAKE;
  } else {
    if (me.next != RESTS) return false;
    if (call == UNLOCK ? depth == 0 : depth == most_depth || (depth == 0 && state.takes == most_takes)) return false;
    if (call != UNLOCK && depth == 0) state.takes++;
    me.next = call == LOCK ? ADD_TO_COUNT : call == TRY_LOCK ? TRY_COUNT : LOAD_DEPTH;
  }
  me.mutex = byte(mutex);
  me.call = call;
  return true;
}

void step(State &state, int seat) { Step(state, seat).make(); }

}
