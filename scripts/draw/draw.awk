# Turns the output of `lfm_explain` into a picture: see scripts/draw/draw. `title` is the heading, and `schedule` is the file
# whose lines are shown at the left. It needs scripts/draw/picture.awk.

# ---- reading: one row for each start of a call, step and answer

function add_row(seat, kind, name, detail) {
  rows++
  row_seat[rows] = seat
  row_kind[rows] = kind
  row_name[rows] = name
  row_detail[rows] = detail
  if (line != shown_line) {
    row_line[rows] = line
    shown_line = line
  }
}

# sets the values at the side after this row
function set_side() {
  side_count[rows] = count
  side_owner[rows] = owner
  side_handoff[rows] = handoff
  side_queue[rows] = queue
}

# the responsibility leaves its place, and is at the new place from this row on
function go_to(place, seat,    parts) {
  if (at == "owner" || at == "carried") add_bar(at, at_seat, at_row, rows)
  if (at == "posted" && place ~ /^carried/) add_arrow("post", at_seat, at_row, seat, rows)
  if (at == "passed" && place ~ /^carried/) add_arrow("grant", at_seat, at_row, seat, rows)
  split(place, parts, ".")
  at = parts[1]
  at_seat = (at == "owner" || at == "carried") ? parts[2] : seat
  at_target = parts[2]
  at_row = rows
}

function add_bar(kind, seat, from, to) {
  bars++
  bar_kind[bars] = kind
  bar_seat[bars] = seat
  bar_from[bars] = from
  bar_to[bars] = to
}

function add_arrow(kind, from_seat, from, to_seat, to) {
  arrows++
  arrow_kind[arrows] = kind
  arrow_from_seat[arrows] = from_seat
  arrow_from[arrows] = from
  arrow_to_seat[arrows] = to_seat
  arrow_to[arrows] = to
}

# removes the space from a pair such as (1, 2), so that a comma with a space ends a part of the line
function close_pairs(text) {
  while (match(text, /\([0-9]+, /)) text = substr(text, 1, RSTART + RLENGTH - 2) substr(text, RSTART + RLENGTH)
  return text
}

function open_pairs(text) {
  gsub(/,/, ", ", text)
  return text
}

# updates the queue after a record was pushed, or after the oldest one left
function push_record(pair,    parts) {
  gsub(/[()]/, "", pair)
  split(pair, parts, ",")
  queue = (queue == "-" ? "" : queue ",") parts[2] "#" parts[1]
}

function serve_record() {
  if (index(queue, ",")) sub(/^[^,]*,/, "", queue)
  else queue = "-"
}

function read_step(seat, name, rest,    parts, many, i, words, fails, found, holds, detail, place) {
  many = split(close_pairs(rest), parts, ", ")
  fails = sub(/ fails /, " ", parts[1])
  split(parts[1], words, " ")
  found = words[3]
  holds = words[4] == "->" ? words[5] : found
  if (fails) detail = words[1] " is " found ", fails"
  else if (words[4] == "->") detail = words[1] " \342\206\222 " holds
  else detail = words[1] " is " found
  add_row(seat, "step", name, open_pairs(detail))
  if (words[1] == "count") count = holds
  if (words[1] == "owner") owner = holds
  if (words[1] == "handoff") handoff = holds
  for (i = 2; i <= many; i++) {
    if (parts[i] == "queue") push_record(holds)
    if (parts[i] ~ /^serve/) serve_record()
    if (parts[i] ~ / to /) {
      place = parts[i]
      sub(/.* to /, "", place)
      go_to(place, seat)
    }
  }
  set_side()
}

function read_answer(seat, text, state,    words) {
  split(state, words, " ")
  count = words[1]
  owner = words[2]
  handoff = words[3]
  queue = words[5]
  if (text ~ /^(begins|goes on)$/) return
  if (text ~ /^refused/ && refused_at == line) return
  if (seat < 1 || seat > seats) return
  if (answered_at == line) return
  add_row(seat, text ~ /^refused/ ? "refused" : "answer", text, "")
  if (text !~ /^refused/ || text ~ /(Busy|NotWaiting)$/) {
    end_call(seat)
  }
  if (text ~ /^ends (Asleep|None|Waiting)/) sleeps_from[seat] = rows
  set_side()
}

function end_call(seat) {
  if (opened[seat]) {
    calls++
    call_seat[calls] = seat
    call_from[calls] = opened[seat]
    call_to[calls] = rows
    opened[seat] = 0
  }
}

function wake(seat) {
  if (sleeps_from[seat]) {
    add_bar("asleep", seat, sleeps_from[seat], rows)
    sleeps_from[seat] = 0
  }
}

function read_begin(seat, name, rest) {
  if (seat < 1 || seat > seats) return
  sub(/,.*/, "", rest)
  if (rest == "begins") {
    add_row(seat, "begin", name, "")
    wake(seat)
    opened[seat] = rows
  } else {
    add_row(seat, rest ~ /^refused/ ? "refused" : "answer", name, rest)
    if (rest ~ /^refused/) refused_at = line
    else answered_at = line
  }
  set_side()
}

BEGIN {
  while ((getline text < schedule) > 0) schedule_line[++schedule_lines] = text
  at = "free"
}

/^fault / {
  failed = 1
  exit
}

/ \| / {
  bar_at = index($0, " | ")
  line = $1
  seat = $2
  text = substr($0, 1, bar_at - 1)
  state = substr($0, bar_at + 3)
  if (line == 1) {
    seats = $3
    rows = 0
    shown_line = 1
    first_state = state
    read_answer(0, "begins", state)
    next
  }
  sub(/^[0-9]+ [0-9]+ /, "", text)
  read_answer(seat, text, state)
  next
}

{
  line = $1
  seat = $2
  colon = index($0, ": ")
  name = substr($0, 1, colon - 1)
  sub(/^[0-9]+ [0-9]+ /, "", name)
  rest = substr($0, colon + 2)
  if (name ~ / /) read_step(seat, name, rest)
  else read_begin(seat, name, rest)
}

# ---- drawing

function x_of(seat) { return gutter + (seat - 1) * lane + 26 }
function y_of(row) { return head + row * pitch }

function draw_bar(kind, seat, from, to,    x, y, height) {
  x = x_of(seat)
  y = y_of(from)
  height = y_of(to) - y
  if (kind == "asleep") printf "<path d=\"M%d %dV%d\" class=\"asleep\"/>\n", x, y, y + height
  else if (kind == "owner") printf "<rect x=\"%d\" y=\"%d\" width=\"12\" height=\"%d\" class=\"own\"/>\n", x - 6, y, height
  else {
    printf "<rect x=\"%d\" y=\"%d\" width=\"12\" height=\"%d\" class=\"back\"/>\n", x - 6, y, height
    printf "<rect x=\"%d\" y=\"%d\" width=\"12\" height=\"%d\" fill=\"url(#stripes)\" class=\"edge\"/>\n", x - 6, y, height
  }
}

# where the label of a row ends; seven units a letter are more than the average width of the letters of the font
function label_end(row,    text) {
  text = row_name[row] (wide && row_detail[row] != "" ? " " row_detail[row] : "")
  gsub(/\342\206\222/, ">", text)
  return x_of(row_seat[row]) + 20 + length(text) * 7
}

# An arrow runs beside labels, and ends at the mark that it leads to, from the left. To the right it leaves its row behind the
# label, and goes down at the left of the lane that it leads to. To the left it leaves the mark, goes down at the left of its own
# lane, passes between two rows to the left of the other lane, and goes down there. In one lane it goes round at the left.
function draw_arrow(kind, from_seat, from, to_seat, to,    y1, y2, way, aside) {
  y1 = y_of(from)
  y2 = y_of(to)
  aside = kind == "post" ? 18 : 24
  if (from_seat < to_seat) way = "M" label_end(from) " " y1
  else way = "M" x_of(from_seat) - 6 " " y1
  if (from_seat > to_seat) way = way "H" x_of(from_seat) - aside "V" y2 - pitch / 2
  way = way "H" x_of(to_seat) - aside "V" y2 "H" x_of(to_seat) - 8
  printf "<path d=\"%s\" class=\"arrow %s\" marker-end=\"url(#%shead)\"/>\n", way, kind, kind
}

# the start of a call is hollow, a step is filled, a refusal is a cross, and an answer has no mark
function draw_mark(kind, x, y) {
  if (kind == "step") printf "<circle cx=\"%d\" cy=\"%d\" r=\"3.5\" class=\"mark\"/>\n", x, y
  if (kind == "begin") printf "<circle cx=\"%d\" cy=\"%d\" r=\"4\" class=\"hollow\"/>\n", x, y
  if (kind == "refused") printf "<path d=\"M%d %dl8 8m0 -8l-8 8\" class=\"cross\"/>\n", x - 4, y - 4
}

function draw_row(row,    x, y, kind, text_x) {
  x = x_of(row_seat[row])
  y = y_of(row)
  kind = row_kind[row]
  text_x = x + 12
  draw_mark(kind, x, y)
  if (kind == "begin") label(text_x, y + 4, "ink halo bold", "", escape(row_name[row]))
  else if (kind == "step") {
    label(text_x, y + 4, "ink halo", "", escape(row_name[row]) (wide && row_detail[row] != "" ? "<tspan class=\"soft\" dx=\"7\">" escape(row_detail[row]) "</tspan>" : ""))
  } else label(text_x, y + 4, "ink halo slant", "", escape(row_name[row] (row_detail[row] == "" ? "" : " " row_detail[row])))
}

# a value at the side: dark if it has changed, light if it has not
function draw_value(x, y, now, before) {
  label(x, y + 4, now == before ? "soft" : "ink", "", escape(now))
}

function draw_side(row, before,    y) {
  if (side_count[row] == side_count[before] && side_owner[row] == side_owner[before] && side_handoff[row] == side_handoff[before] && side_queue[row] == side_queue[before]) return
  y = y_of(row)
  draw_value(side, y, side_count[row], side_count[before])
  draw_value(side + 46, y, side_owner[row], side_owner[before])
  draw_value(side + 94, y, side_handoff[row], side_handoff[before])
  draw_value(side + 152, y, side_queue[row], side_queue[before])
}

# ---- the legend: the signs that the picture has, in rows no wider than the picture

# moves to the place of the next entry, which is as wide as its sign and its text
function next_entry(text,    wanted) {
  wanted = 46 + length(text) * 7
  if (legend_x + wanted > width - 16 && legend_x > gutter + 20) {
    legend_x = gutter + 20
    legend_y += 22
  }
  entry_x = legend_x
  legend_x += wanted
}

function mark_entry(text, kind) {
  next_entry(text)
  if (!drawing) return
  draw_mark(kind, entry_x + 6, legend_y)
  label(entry_x + 20, legend_y + 4, "soft", "", text)
}

function bar_entry(text, class) {
  next_entry(text)
  if (!drawing) return
  if (class == "asleep") printf "<path d=\"M%d %dv16\" class=\"asleep\"/>\n", entry_x + 6, legend_y - 8
  else printf "<rect x=\"%d\" y=\"%d\" width=\"12\" height=\"16\" %s/>\n", entry_x, legend_y - 8, class == "own" ? "class=\"own\"" : "fill=\"url(#stripes)\" class=\"edge\""
  label(entry_x + 20, legend_y + 4, "soft", "", text)
}

function arrow_entry(text, kind) {
  next_entry(text "  ")
  if (!drawing) return
  printf "<path d=\"M%d %dh22\" class=\"arrow %s\" marker-end=\"url(#%shead)\"/>\n", entry_x, legend_y, kind, kind
  label(entry_x + 32, legend_y + 4, "soft", "", text)
}

# places the entries from this height on, and draws them if `draws` is 1
function legend(y, draws) {
  legend_x = gutter + 20
  legend_y = y
  drawing = draws
  if (has["begin"]) mark_entry("start of a call", "begin")
  if (has["step"]) mark_entry("step", "step")
  if (has["refused"]) mark_entry("refused", "refused")
  if (has["owner"]) bar_entry("owns", "own")
  if (has["carried"]) bar_entry("carries", "stripe")
  if (has["asleep"]) bar_entry("sleeps", "asleep")
  if (has["post"]) arrow_entry("post to the step that takes it", "post")
  if (has["grant"]) arrow_entry("grant to the step that loads it", "grant")
}

END {
  if (failed || seats == 0) exit 1
  if (at == "owner" || at == "carried") add_bar(at, at_seat, at_row, rows + 1)
  for (s = 1; s <= seats; s++) if (sleeps_from[s]) add_bar("asleep", s, sleeps_from[s], rows + 1)
  for (s = 1; s <= seats; s++) if (opened[s]) {
    calls++
    call_seat[calls] = s
    call_from[calls] = opened[s]
    call_to[calls] = rows + 1
  }

  longest_queue = 5
  for (r = 1; r <= rows; r++) if (length(side_queue[r]) > longest_queue) longest_queue = length(side_queue[r])
  longest_line = 9
  for (l = 1; l <= schedule_lines; l++) if (length(schedule_line[l]) > longest_line) longest_line = length(schedule_line[l])
  wide = seats <= 3
  lane = wide ? 262 : 168
  gutter = 44 + longest_line * 7
  pitch = 19
  head = 66
  side = gutter + seats * lane + 20
  width = side + 172 + longest_queue * 7.5
  foot = head + (rows + 1) * pitch + 26
  for (r = 1; r <= rows; r++) has[row_kind[r]] = 1
  for (i = 1; i <= bars; i++) has[bar_kind[i]] = 1
  for (i = 1; i <= arrows; i++) has[arrow_kind[i]] = 1
  legend(foot, 0)
  height = legend_y + 22

  open_picture(title, width, height)
  label(16, 26, "ink title", "", escape(title))
  for (s = 1; s <= seats; s++) label(x_of(s), head - 14, "ink bold", "middle", "seat " s)
  label(16, head - 14, "soft", "", "line")
  label(side, head - 14, "soft", "", "count")
  label(side + 46, head - 14, "soft", "", "owner")
  label(side + 94, head - 14, "soft", "", "handoff")
  label(side + 152, head - 14, "soft", "", "queue")

  for (r = 1; r <= rows; r++) if (row_line[r]) {
    printf "<path d=\"M16 %.1fH%d\" class=\"rule\"/>\n", y_of(r) - pitch / 2, width - 16
    label(16, y_of(r) + 4, "soft", "", row_line[r])
    label(40, y_of(r) + 4, "ink", "", escape(schedule_line[row_line[r]]))
  }
  for (s = 1; s <= seats; s++) printf "<path d=\"M%d %dV%d\" class=\"lane\"/>\n", x_of(s), head, y_of(rows + 1)
  for (i = 1; i <= calls; i++) printf "<path d=\"M%d %dV%d\" class=\"call\"/>\n", x_of(call_seat[i]), y_of(call_from[i]), y_of(call_to[i])
  for (i = 1; i <= bars; i++) draw_bar(bar_kind[i], bar_seat[i], bar_from[i], bar_to[i])
  for (i = 1; i <= arrows; i++) draw_arrow(arrow_kind[i], arrow_from_seat[i], arrow_from[i], arrow_to_seat[i], arrow_to[i])
  for (r = 1; r <= rows; r++) draw_row(r)

  split(first_state, words, " ")
  side_count[0] = words[1]
  side_owner[0] = words[2]
  side_handoff[0] = words[3]
  side_queue[0] = words[5]
  label(side, head + 2, "soft", "", words[1])
  label(side + 46, head + 2, "soft", "", words[2])
  label(side + 94, head + 2, "soft", "", words[3])
  label(side + 152, head + 2, "soft", "", words[5])
  for (r = 1; r <= rows; r++) draw_side(r, r - 1)
  legend(foot, 1)
  print "</svg>"
}
