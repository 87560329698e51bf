# Turns rows into a picture of layers: see scripts/draw/draw_layers. It needs scripts/draw/picture.awk.

# ---- reading, and placing: `bottom` is where each column ends so far

BEGIN {
  bottom["left"] = bottom["right"] = 78
  gap = 6
}

{
  what = $1
  sub(/^[a-z]+ /, "")
}

what == "title" {
  title = $0
  next
}

function fill_up(place, end) {
  if (end > bottom[place]) height_of[last[place]] += end - bottom[place]
  bottom[place] = end
}

{
  layers++
  lines[layers] = split($0, parts, "|") - 2
  kind[layers] = parts[1]
  name_of[layers] = parts[2]
  for (i = 1; i <= lines[layers]; i++) text[layers, i] = parts[2 + i]
  place_of[layers] = what
  if (what == "both") {
    end = bottom["left"] > bottom["right"] ? bottom["left"] : bottom["right"]
    fill_up("left", end)
    fill_up("right", end)
  }
  y_of[layers] = bottom[what == "both" ? "left" : what]
  height_of[layers] = 34 + lines[layers] * 20
  if (what != "right") bottom["left"] += height_of[layers] + gap
  if (what != "left") bottom["right"] += height_of[layers] + gap
  last[what] = layers
}

# ---- drawing

function draw_layer(l,    x, wide, i) {
  wide = place_of[l] == "both" ? 608 : 299
  x = place_of[l] == "right" ? 325 : 16
  printf "<rect x=\"%d\" y=\"%d\" width=\"%d\" height=\"%d\" rx=\"5\" class=\"%s\"/>\n", x, y_of[l], wide, height_of[l], kind[l] == "user" ? "box plain" : kind[l]
  label(x + 11, y_of[l] + 23, "ink bold", "", escape(name_of[l]))
  for (i = 1; i <= lines[l]; i++) label(x + 11, y_of[l] + 24 + i * 20, "ink", "", escape(text[l, i]))
}

function draw_key(x, kind_of_it, what) {
  printf "<rect x=\"%d\" y=\"44\" width=\"22\" height=\"16\" rx=\"4\" class=\"%s\"/>\n", x, kind_of_it
  label(x + 30, 58, "ink", "", what)
  return x + 54 + width_of(what)
}

END {
  open_large_picture(title, bottom["left"] + 8)
  x = draw_key(16, "proved", "proved")
  x = draw_key(x, "tested", "only tested")
  draw_key(x, "trusted", "trusted")
  for (l = 1; l <= layers; l++) draw_layer(l)
  print "</svg>"
}
