# Turns the output of `lfm_explain` into a picture of the queue: see scripts/draw/draw_queue. `title` is the heading,
# `schedule` is the file whose lines are named, and `moments` has a line for each moment with its caption. It needs
# scripts/draw/picture.awk.

# ---- reading: the push word, the links and the pop list, step by step

# reads a pair such as (3, 4) or (3, none) as its stamp and its seat; none is 0
function read_pair(pair,    parts) {
  gsub(/[()]/, "", pair)
  split(pair, parts, ", ")
  pair_stamp = parts[1]
  pair_seat = parts[2] == "none" ? 0 : parts[2]
}

# the text after the arrow, or all of it if nothing was written
function last_pair(text,    at) {
  at = index(text, " -> ")
  if (at) text = substr(text, at + 4)
  match(text, /\([0-9]+, [a-z0-9]+\)/)
  return substr(text, RSTART, RLENGTH)
}

function follow_push(rest) {
  if (rest ~ /^push exchange fails/ || rest ~ /^push load/) return
  if (rest ~ /^push clear-head/) {
    match(rest, /\([0-9]+, [a-z0-9]+\)/)
    read_pair(substr(rest, RSTART, RLENGTH))
    cleared = pair_seat
  }
  read_pair(last_pair(rest))
  push_stamp = pair_stamp
  push_seat = pair_seat
}

function follow_link(rest,    seat) {
  seat = rest
  sub(/^link\./, "", seat)
  sub(/ .*/, "", seat)
  read_pair(last_pair(rest))
  if (rest ~ / store /) {
    link_stamp[seat] = pair_stamp
    link_seat[seat] = pair_seat
  } else {
    pop = seat "#" pair_stamp (pop == "" ? "" : "," pop)
    cleared = pair_seat
  }
}

function see_step(rest, seat) {
  carrier = seat
  if (rest ~ /^push /) follow_push(rest)
  if (rest ~ /^link\./) follow_link(rest)
  if (rest ~ /, serve/) if (!sub(/^[^,]*,/, "", pop)) pop = ""
}

# keeps the queue of this moment, if it is a wanted one
function keep(moment,    i, seat) {
  for (i = 1; i <= panels; i++) if (wanted[i] == moment) {
    seen[i] = 1
    shown_push[i] = push_stamp " " push_seat
    shown_list[i] = chain(push_seat)
    shown_cleared[i] = cleared ? carrier " " cleared "," chain(cleared) : ""
    shown_pop[i] = pop
  }
}

# the records of a list, from this seat on, along the links
function chain(seat,    text) {
  for (; seat; seat = link_seat[seat]) text = text (text == "" ? "" : ",") seat " " link_stamp[seat] " " link_seat[seat]
  return text
}

BEGIN {
  panels = split(moments, wanted, "\n")
  for (i = 1; i <= panels; i++) {
    caption[i] = wanted[i]
    sub(/^[0-9.]*=/, "", caption[i])
    sub(/=.*/, "", wanted[i])
  }
  while ((getline text < schedule) > 0) schedule_line[++schedule_lines] = text
}

/^fault / {
  failed = 1
  exit
}

/ \| / {
  keep($1)
  next
}

{
  colon = index($0, ": ")
  name = substr($0, 1, colon - 1)
  sub(/^[0-9]+ [0-9]+ /, "", name)
  if (name !~ / /) next
  if ($1 != line) steps = 0
  line = $1
  steps++
  step_name[line "." steps] = substr($0, 1, colon - 1)
  sub(/^[0-9]+ [0-9]+ /, "", step_name[line "." steps])
  see_step(substr($0, colon + 2), $2)
  keep(line "." steps)
}

# ---- drawing

function box(x, y, wide, class, first, second) {
  printf "<rect x=\"%d\" y=\"%d\" width=\"%d\" height=\"40\" rx=\"4\" class=\"box %s\"/>\n", x, y, wide, class
  label(x + wide / 2, y + 17, "ink", "middle", escape(first))
  label(x + wide / 2, y + 33, "soft", "middle", escape(second))
}

function none_or_seat(seat) { return seat > 0 ? "seat " seat : "none" }

# draws a list of links, each after an arrow, from x on
function draw_links(x, y, items, from, many, class,    i, parts) {
  for (i = from; i <= many; i++) {
    split(items[i], parts, " ")
    printf "<path d=\"M%d %dh%d\" class=\"arrow plain\" marker-end=\"url(#plainhead)\"/>\n", x, y + 20, gap - 2
    x += gap
    box(x, y, cell, class, "link of " parts[1], "stamp " parts[2] ", " none_or_seat(parts[3]))
    x += cell
  }
}

function draw_push_list(i, y,    parts, many, items) {
  label(16, y + 24, "soft", "", "push list")
  split(shown_push[i], parts, " ")
  box(left, y, cell, "plain", "push word", "stamp " parts[1] ", " none_or_seat(parts[2]))
  many = split(shown_list[i], items, ",")
  draw_links(left + cell, y, items, 1, many, "plain")
}

function draw_cleared_list(i, y,    parts, many, items) {
  label(16, y + 24, "soft", "", "cleared list")
  many = split(shown_cleared[i], items, ",")
  if (!many) {
    label(left, y + 24, "soft", "", "none")
    return
  }
  split(items[1], parts, " ")
  box(left, y, cell, "edge", "point of seat " parts[1], "next: " none_or_seat(parts[2]))
  draw_links(left + cell, y, items, 2, many, "edge")
}

function draw_pop_list(i, y,    parts, many, items, j) {
  label(16, y + 24, "soft", "", "pop list")
  many = split(shown_pop[i], items, ",")
  if (!many) label(left, y + 24, "soft", "", "empty")
  for (j = 1; j <= many; j++) {
    split(items[j], parts, "#")
    box(left + (j - 1) * 90, y, 84, "grant", "seat " parts[1], "stamp " parts[2])
  }
}

# draws one moment from y on, and returns where the next begins
function draw_panel(i, y,    parts, moment) {
  split(wanted[i], parts, ".")
  moment = parts[2] ? "in line " parts[1] ", " schedule_line[parts[1]] ", after " step_name[parts[1] "." parts[2]] : "after line " parts[1] ", " schedule_line[parts[1]]
  label(16, y, "ink bold", "", escape(caption[i]))
  label(width - 16, y, "soft", "end", escape(moment))
  printf "<path d=\"M16 %dH%d\" class=\"rule\"/>\n", y + 8, width - 16
  y += 20
  draw_push_list(i, y)
  y += 50
  draw_cleared_list(i, shown_cleared[i] == "" ? y - 10 : y)
  y += shown_cleared[i] == "" ? 24 : 50
  draw_pop_list(i, shown_pop[i] == "" ? y - 10 : y)
  return y + (shown_pop[i] == "" ? 52 : 78)
}

function panel_height(i) { return 70 + (shown_cleared[i] == "" ? 24 : 50) + (shown_pop[i] == "" ? 52 : 78) }

function panel_end(i,    longest, many, items) {
  longest = split(shown_list[i], items, ",") + 1
  many = split(shown_cleared[i], items, ",")
  if (many > longest) longest = many
  return left + longest * (cell + gap)
}

END {
  for (i = 1; i <= panels; i++) if (!seen[i]) failed = 1
  if (failed) exit 1
  left = 104
  cell = 122
  gap = 30
  width = 520
  height = 58
  for (i = 1; i <= panels; i++) {
    if (panel_end(i) > width) width = panel_end(i)
    height += panel_height(i)
  }
  open_picture(title, width, height - 20)
  label(16, 26, "ink title", "", escape(title))
  y = 58
  for (i = 1; i <= panels; i++) y = draw_panel(i, y)
  print "</svg>"
}
