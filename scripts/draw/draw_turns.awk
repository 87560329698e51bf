# Turns rows into a picture of the threads that hold a mutex over time: see scripts/draw/draw_turns. It needs
# scripts/draw/picture.awk.

# ---- reading

{
  what = $1
}

what ~ /^(title|line|text|lane)$/ {
  sub(/^[a-z]+ /, "")
  many = split($0, parts, "|")
}

what == "title" {
  title = $0
  next
}

what == "line" {
  moment[++moments] = $0
  next
}

what == "text" {
  texts++
  text_at[texts] = parts[1]
  text_lines[texts] = many - 1
  for (i = 2; i <= many; i++) text[texts, i - 1] = parts[i]
  if (many - 1 > most_lines) most_lines = many - 1
  next
}

what == "lane" {
  lanes++
  name_lines[lanes] = many
  for (i = 1; i <= many; i++) lane_name[lanes, i] = parts[i]
  next
}

{
  bars++
  bar_lane[bars] = lanes
  bar_kind[bars] = $1
  bar_from[bars] = $2
  bar_to[bars] = $3
  sub(/^[a-z]+ [0-9.]+ [0-9.]+ ?/, "")
  bar_text[bars] = $0
  if ($0 != "") has_text[lanes] = 1
}

# ---- drawing

function x_of(time) {
  return left + time * (624 - left) / 100
}

# as many marks or dashes as the first number of the text says, evenly from x to the end
function draw_series(kind, number, x, end, y,    i, step) {
  step = (end - x) / number
  for (i = 0; i < number; i++) {
    if (kind == "tries") printf "<path d=\"M%.1f %dv14\" class=\"edge\" style=\"stroke-width:3\"/>\n", x + (i + 0.5) * step, y - 7
    else printf "<path d=\"M%.1f %dh%.1f\" class=\"asleep\" style=\"stroke-width:6;stroke-dasharray:none\"/>\n", x + i * step + 2, y, step - 4
  }
}

function draw_bar(b,    y, x, end) {
  y = y_of[bar_lane[b]]
  x = x_of(bar_from[b])
  end = x_of(bar_to[b])
  if (bar_kind[b] == "holds") printf "<rect x=\"%.1f\" y=\"%d\" width=\"%.1f\" height=\"20\" rx=\"3\" class=\"own\"/>\n", x, y - 10, end - x - 2
  else if (bar_kind[b] == "waits") printf "<path d=\"M%.1f %dH%.1f\" class=\"call\"/>\n", x, y, end
  else draw_series(bar_kind[b], bar_text[b] + 0, x, end, y)
  if (bar_text[b] != "") label((x + end) / 2, y + 32, "ink", "middle", escape(bar_text[b]))
}

function overlap(    a, b) {
  for (a = 1; a < bars; a++) for (b = a + 1; b <= bars; b++) {
    if (bar_kind[a] == "holds" && bar_kind[b] == "holds" && bar_from[a] < bar_to[b] && bar_from[b] < bar_to[a]) return 1
  }
  return 0
}

END {
  if (overlap() || !lanes) exit 1
  left = 172
  y = 62 + most_lines * 21
  for (l = 1; l <= lanes; l++) {
    y_of[l] = y + 24
    y += (has_text[l] ? 72 : 52)
  }
  open_large_picture(title, y + 6)
  for (i = 1; i <= texts; i++) for (k = 1; k <= text_lines[i]; k++) label(x_of(text_at[i]), 40 + k * 21, "ink", "", escape(text[i, k]))
  for (l = 1; l <= lanes; l++) {
    printf "<path d=\"M%d %dH624\" class=\"lane\"/>\n", left, y_of[l]
    for (k = 1; k <= name_lines[l]; k++) label(16, y_of[l] + 6 + (k - (name_lines[l] + 1) / 2) * 20, "ink bold", "", escape(lane_name[l, k]))
  }
  for (i = 1; i <= moments; i++) printf "<path d=\"M%.1f 46V%d\" class=\"one\"/>\n", x_of(moment[i]), y - 4
  for (b = 1; b <= bars; b++) draw_bar(b)
  print "</svg>"
}
