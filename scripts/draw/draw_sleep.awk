# Turns a file of rows into a picture of two threads and one word: see scripts/draw/draw_sleep. It needs
# scripts/draw/picture.awk.

# ---- reading

$1 == "title" || $1 == "word" || $1 == "lanes" {
  what = $1
  sub(/^[a-z]+ /, "")
  if (what == "title") title = $0
  else if (what == "word") at_first = $0
  else split($0, lane_name, "|")
  next
}

$1 == "scene" {
  sub(/^scene /, "")
  scenes++
  scene[scenes] = $0
  first[scenes] = rows + 1
  last[scenes] = rows
  next
}

{
  rows++
  side[rows] = $1
  kind[rows] = $2
  does[rows] = $3
  sub(/^[a-z]+ [a-z]+ [a-z-]+ /, "")
  text[rows] = $0
  last[scenes] = rows
}

# ---- drawing

function x_of(row) { return side[row] == "left" ? left : right }

function y_of(row) { return top_of_scene + (row - first[now]) * pitch }

function draw_mark(x, y, kind) {
  if (kind == "step") printf "<circle cx=\"%d\" cy=\"%d\" r=\"4\" class=\"mark\"/>\n", x, y
  else printf "<rect x=\"%d\" y=\"%d\" width=\"8\" height=\"8\" class=\"hollow\"/>\n", x - 4, y - 4
}

# an arrow between a thread and the word: from the word at a load, to it at a store
function draw_access(row,    edge, x, y) {
  x = x_of(row)
  y = y_of(row)
  edge = side[row] == "left" ? middle - half : middle + half
  x += side[row] == "left" ? 8 : -8
  if (does[row] == "load") printf "<path d=\"M%d %dH%d\" class=\"arrow plain\" marker-end=\"url(#plainhead)\"/>\n", edge, y, x
  if (does[row] == "store") printf "<path d=\"M%d %dH%d\" class=\"arrow grant\" marker-end=\"url(#granthead)\"/>\n", x, y, edge
}

function draw_row(row,    x, y) {
  x = x_of(row)
  y = y_of(row)
  draw_access(row)
  if (kind[row] == "wake") printf "<path d=\"M%d %dH%d\" class=\"arrow post\" marker-end=\"url(#posthead)\"/>\n", x - 8, y, left + 8
  draw_mark(x, y, kind[row])
  label(x + (side[row] == "left" ? -14 : 14), y + 4, "ink", side[row] == "left" ? "end" : "", escape(text[row]))
}

# the value of the word, in a box from the store of the value to the next store
function draw_value(value, from, to) {
  printf "<rect x=\"%d\" y=\"%d\" width=\"%d\" height=\"%d\" rx=\"3\" class=\"box %s\"/>\n", middle - half, from, 2 * half, to - from, value ~ /^GRANT/ ? "grant" : "plain"
  label(middle, from + 15, value ~ /^GRANT/ ? "ink bold" : "soft", "middle", escape(value))
}

function draw_word(    row, value, from, parts) {
  value = at_first
  from = top_of_scene - 20
  for (row = first[now]; row <= last[now]; row++) if (does[row] == "store") {
    draw_value(value, from, y_of(row))
    split(text[row], parts, ": ")
    value = parts[2]
    from = y_of(row)
  }
  draw_value(value, from, y_of(last[now]) + 20)
}

function draw_scene(    row, parked) {
  label(16, top_of_scene - 38, "ink bold", "", escape(scene[now]))
  printf "<path d=\"M16 %dH%d\" class=\"rule\"/>\n", top_of_scene - 30, width - 16
  printf "<path d=\"M%d %dV%d\" class=\"call\"/>\n", left, top_of_scene - 20, y_of(last[now]) + 20
  printf "<path d=\"M%d %dV%d\" class=\"call\"/>\n", right, top_of_scene - 20, y_of(last[now]) + 20
  for (row = first[now]; row <= last[now]; row++) {
    if (kind[row] == "park") parked = row
    if (kind[row] == "wake") {
      printf "<path d=\"M%d %dV%d\" class=\"halo\" style=\"stroke-width:6\"/>\n", left, y_of(parked), y_of(row)
      printf "<path d=\"M%d %dV%d\" class=\"asleep\"/>\n", left, y_of(parked), y_of(row)
    }
  }
  draw_word()
  for (row = first[now]; row <= last[now]; row++) draw_row(row)
}

function draw_legend(y,    x) {
  x = 24
  draw_mark(x, y, "step")
  label(x + 12, y + 4, "soft", "", "step of the protocol")
  x += 162
  draw_mark(x, y, "other")
  label(x + 12, y + 4, "soft", "", "no step")
  x += 84
  printf "<path d=\"M%d %dv16\" class=\"asleep\"/>\n", x, y - 8
  label(x + 12, y + 4, "soft", "", "sleeps")
  x += 78
  printf "<path d=\"M%d %dh22\" class=\"arrow plain\" marker-end=\"url(#plainhead)\"/>\n", x, y
  label(x + 32, y + 4, "soft", "", "load")
  x += 84
  printf "<path d=\"M%d %dh22\" class=\"arrow grant\" marker-end=\"url(#granthead)\"/>\n", x, y
  label(x + 32, y + 4, "soft", "", "store")
  x += 92
  printf "<path d=\"M%d %dh22\" class=\"arrow post\" marker-end=\"url(#posthead)\"/>\n", x, y
  label(x + 32, y + 4, "soft", "", "wake-up")
}

END {
  pitch = 26
  left = 270
  middle = 390
  half = 42
  right = 510
  width = 790
  gap = 84
  height = 60 + scenes * gap + (rows - scenes) * pitch + 50
  open_picture(title, width, height)
  label(16, 26, "ink title", "", escape(title))
  label(left, 52, "ink bold", "end", escape(lane_name[1]))
  label(middle, 52, "ink bold", "middle", escape(lane_name[2]))
  label(right, 52, "ink bold", "", escape(lane_name[3]))
  top_of_scene = 60 + gap - 22
  for (now = 1; now <= scenes; now++) {
    draw_scene()
    top_of_scene = y_of(last[now]) + gap
  }
  draw_legend(height - 22)
  print "</svg>"
}
