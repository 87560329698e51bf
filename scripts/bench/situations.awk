# The name that pages and charts have for a situation, whatever the program that measures it calls it.
function situation(name) {
  sub(/, pool$/, "", name)
  sub(/, short( section)?/, ", short sections", name)
  sub(/, (long|0\.5 us section)/, ", 0.5 us sections", name)
  sub(/, thinking/, ", 1 us between", name)
  sub(/^alone: once more, once less/, "recursive lock and unlock", name)
  sub(/^alone(: lock, unlock)?|^lock and unlock$/, "one thread, lock and unlock", name)
  sub(/^one among 4096/, "one of 4,096 mutexes", name)
  sub(/^one among 65536/, "one of 65,536 mutexes", name)
  sub(/^one among/, "one of", name)
  if (name ~ /^one of [0-9]+$/) name = name " mutexes"
  sub(/^ping-pong, a round trip/, "two threads take turns", name)
  if (sub(/, wake after unlock$/, ", unlock first", name)) sub(/^ping-pong/, "turns", name)
  else sub(/^queue,/, "bounded queue,", name)
  if (sub(/^(broadcast to|wake_all of)/, "wake all of", name)) {
    sub(/ that wait/, "", name)
    sub(/[0-9]+/, "& waiters", name)
  }
  return name
}
