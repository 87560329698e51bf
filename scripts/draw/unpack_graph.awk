# Undoes scripts/draw/pack_graph.awk: prints the text of a graph that the page holds. A text comes before the first line that
# has its number. A seat's events come in the order of the calls, and then by their targets.

# the number that is written to the base 36
function number(code,    i, value, digits) {
  digits = "0123456789abcdefghijklmnopqrstuvwxyz"
  for (i = code ~ /^-/ ? 2 : 1; i <= length(code); i++) value = value * 36 + index(digits, substr(code, i, 1)) - 1
  return code ~ /^-/ ? -value : value + 0
}

# the texts up to this one, if they are not printed yet. If the graph has no text of this number, the status is 1
function show_texts(last) {
  if (last >= texts) exit 1
  while (shown <= last) print "+" text[shown++]
}

# keeps an event of a seat for printing: its place in the order of the calls, its text and the next state
function keep(place, event, to) {
  kept_event[place] = event
  kept_to[place] = to
}

function rank_of(act,    words) {
  split(act, words, " ")
  return rank[words[1]] + words[2]
}

# what the checks of a seat refuse stands after its text, as in `unlock=NotOwner,receive=NotWaiting`
function keep_refusals(list, node,    count, items, i, parts, words) {
  count = split(list, items, ",")
  for (i = 1; i <= count; i++) {
    split(items[i], parts, "=")
    split(parts[1], words, " ")
    keep(rank_of(parts[1]), number_of[parts[1] "|" words[1] ": refused " parts[2] "|refused " parts[2]], node)
  }
}

function show_events(seat,    place) {
  for (place = 0; place <= last_rank; place++) {
    if (!(place in kept_event)) continue
    show_texts(kept_event[place])
    print seat, kept_event[place], kept_to[place]
    delete kept_event[place]
  }
}

BEGIN {
  # room for the targets of a send_lock, one for each seat
  count = split(". lock try_lock unlock receive start_wait send_lock", calls, " ")
  for (i = 1; i <= count; i++) rank[calls[i]] = i
  last_rank = count + 9
}

/^$/ { part++; next }

part == 0 { print "graph", $1, $2; next }

part == 1 {
  if (match($0, /(rests|sleeps in its [a-z_]+)\|/)) {
    refused[texts] = substr($0, RSTART + RLENGTH - 1)
    $0 = substr($0, 1, RSTART + RLENGTH - 2)
  }
  number_of[$0] = texts
  text[texts++] = $0
  next
}

{
  node = states++
  parts = split($0, choices, "|")
  words = split(choices[1], codes, " ")
  line = "="
  for (i = 1; i <= words; i++) {
    show_texts(number(codes[i]))
    line = line " " number(codes[i])
  }
  print line
  for (seat = 1; seat < parts; seat++) {
    split(refused[number(codes[seat + 2])], lists, "|")
    keep_refusals(lists[seat + 1], node)
    moves = split(choices[seat + 1], items, " ")
    for (i = 1; i <= moves; i++) {
      split(items[i], pair, ".")
      event = number(pair[1])
      split(text[event], act, "|")
      keep(rank_of(act[1]), event, node + number(pair[2]))
    }
    show_events(seat)
  }
}
