# Turns figures into a chart of ratios: see scripts/draw/draw_chart. `name` is the chart that is drawn. It needs
# scripts/draw/picture.awk.

# ---- reading: the chart from the first file, the figures from the second

FNR == 1 {
  file++
}

/^#/ {
  next
}

{
  what = $1
  sub(/^[a-z]+ ?/, "")
  many = split($0, parts, "|")
}

file == 1 && what == "chart" {
  wanted = parts[1] == name
  if (wanted) title = parts[2]
}

file == 1 && wanted && what == "panel" {
  heading[++panels] = parts[1]
}

file == 1 && wanted && what == "column" {
  c = ++columns[panels]
  column_heading[panels, c] = parts[1]
  for (i = 2; i <= many; i++) source[panels, c, i - 1] = parts[i]
  sources[panels, c] = many - 1
}

file == 1 && wanted && what == "show" {
  row[panels, ++rows[panels]] = parts[1]
}

file == 2 && what == "part" {
  part = parts[1]
  base[part] = parts[3]
}

file == 2 && what == "series" {
  series_of[part] = many
  for (i = 1; i <= many; i++) part_series[part, i] = parts[i]
}

file == 2 && what == "row" {
  part_row[part, ++part_rows[part]] = parts[1]
  for (i = 1; i <= series_of[part]; i++) figure[part, part_series[part, i], parts[1]] = parts[1 + i]
}

# ---- which marks a chart has

# keeps the first cause for which there is no picture
function refuse(cause) {
  if (fault == "") fault = cause
}

# the ratio of a figure, or nothing
function ratio(part, series, row,    value) {
  value = figure[part, series, row]
  if (value == "" || value ~ /^x/) return substr(value, 2)
  if (base[part] == "") return value
  return figure[part, base[part], row] > 0 ? value / figure[part, base[part], row] : ""
}

# adds this series of a part to a column, under a name
function add_series(p, c, part, series, shown,    s, r) {
  for (s = 1; s <= series_of[part] && part_series[part, s] != series; s++);
  if (s > series_of[part]) refuse("no series " series " in " part)
  if (!((shown) in number)) {
    number[shown] = ++names
    name_of[names] = shown
  }
  for (s = 1; s <= marks[p, c] && mark_name[p, c, s] != shown; s++);
  if (s > marks[p, c]) marks[p, c] = s
  mark_name[p, c, s] = shown
  for (r = 1; r <= rows[p]; r++) add_value(p, c, s, r, ratio(part, series, row[p, r]))
}

function add_value(p, c, s, r, value) {
  if (value == "") return
  value += 0
  value_of[p, c, s, r] = value
  if (value > worst[p, r]) worst[p, r] = value
  if (value > greatest) greatest = value
  if (!least || value < least) least = value
}

# takes the rows of a part into a panel that names none
function take_rows(p, part,    r, i) {
  for (r = 1; r <= part_rows[part]; r++) {
    for (i = 1; i <= rows[p] && row[p, i] != part_row[part, r]; i++);
    if (i > rows[p]) rows[p] = i
    row[p, i] = part_row[part, r]
  }
}

# the part of a source; `series` and `shown` are set to its series and the name of that, if it names one
function part_of(source,    at) {
  series = shown = ""
  at = index(source, ".")
  if (at) {
    series = substr(source, at + 1)
    source = substr(source, 1, at - 1)
    at = index(series, "=")
    shown = substr(series, at + 1)
    series = substr(series, 1, at - 1)
  }
  if (!(source in series_of)) refuse("no part " source)
  return source
}

function gather(p,    c, i, s, part) {
  if (!rows[p]) for (c = 1; c <= columns[p]; c++) for (i = 1; i <= sources[p, c]; i++) take_rows(p, part_of(source[p, c, i]))
  for (c = 1; c <= columns[p]; c++) for (i = 1; i <= sources[p, c]; i++) {
    part = part_of(source[p, c, i])
    if (shown != "") add_series(p, c, part, series, shown)
    else for (s = 1; s <= series_of[part]; s++) {
      if (part_series[part, s] != base[part]) add_series(p, c, part, part_series[part, s], part_series[part, s])
    }
  }
  sort_rows(p)
}

# the rows with the greatest ratio first
function sort_rows(p,    r, j) {
  for (r = 1; r <= rows[p]; r++) {
    if (!worst[p, r]) refuse("no figure of " row[p, r])
    for (j = r; j > 1 && worst[p, order[p, j - 1]] < worst[p, r]; j--) order[p, j] = order[p, j - 1]
    order[p, j] = r
  }
}

# ---- drawing

function x_of(value) {
  return (log(value) - log(from)) / (log(to) - log(from)) * across
}

# each series has a mark of its own, by its shape too
function draw_mark(x, y, kind) {
  if (kind == 1) printf "<circle cx=\"%.1f\" cy=\"%.1f\" r=\"6\" class=\"first\"/>\n", x, y
  if (kind == 2) printf "<circle cx=\"%.1f\" cy=\"%.1f\" r=\"5.5\" class=\"second\"/>\n", x, y
  if (kind == 3) printf "<path d=\"M%.1f %.1fl6.5 6.5l-6.5 6.5l-6.5 -6.5z\" class=\"third\"/>\n", x, y - 6.5
  if (kind == 4) printf "<path d=\"M%.1f %.1fl6.5 11h-13z\" class=\"fourth\"/>\n", x, y - 6
  if (kind == 5) printf "<rect x=\"%.1f\" y=\"%.1f\" width=\"10\" height=\"10\" class=\"fifth\"/>\n", x - 5, y - 5
  if (kind == 6) printf "<path d=\"M%.1f %.1fl10 10m0 -10l-10 10\" class=\"sixth\"/>\n", x - 5, y - 5
}

function left_of(c) {
  return left + (c - 1) * (across + gap)
}

# the marks of a row in one column, one a little below the other, over a line from the least to the greatest
function draw_row(p, c, r, y,    s, x, low, high, present, drawn) {
  for (s = 1; s <= marks[p, c]; s++) if ((p, c, s, r) in value_of) {
    x = left_of(c) + x_of(value_of[p, c, s, r])
    if (!present++ || x < low) low = x
    if (x > high) high = x
  }
  if (present > 1) printf "<path d=\"M%.1f %.1fH%.1f\" class=\"rule\" style=\"stroke-width:3\"/>\n", low, y, high
  for (s = 1; s <= marks[p, c]; s++) if ((p, c, s, r) in value_of) {
    draw_mark(left_of(c) + x_of(value_of[p, c, s, r]), y + (++drawn - (present + 1) / 2) * 4, number[mark_name[p, c, s]])
  }
}

# the axis of a column, from this height to that: a line for each tick, and a strong one at 1
function draw_axis(c, top, bottom,    value) {
  for (value = first_tick; value < to * 1.01; value *= 10) {
    if (value > 0.99 && value < 1.01) printf "<path d=\"M%.1f %dV%d\" class=\"one\"/>\n", left_of(c) + x_of(1), top - 4, bottom + 4
    else printf "<path d=\"M%.1f %dV%d\" class=\"rule\"/>\n", left_of(c) + x_of(value), top, bottom
    if (wide && value * 3 < to) printf "<path d=\"M%.1f %dV%d\" class=\"rule\"/>\n", left_of(c) + x_of(value * 3), top, bottom
  }
}

function draw_ticks(c, y,    value, decade) {
  decade = x_of(10) - x_of(1)
  for (value = first_tick; value < to * 1.01; value *= 10) {
    # in a narrow column the number would touch the next one
    if (value > 9 && value < 11 && decade < 36 && to > 99) continue
    label(left_of(c) + x_of(value), y, value > 0.99 && value < 1.01 ? "ink bold" : "soft", "middle", value)
    if (wide && value * 3 < to) label(left_of(c) + x_of(value * 3), y, "soft", "middle", value * 3)
  }
}

# the least and greatest value of the axis: a power of ten, or three times one
function set_axis() {
  for (from = 1; from > least * 0.97; from /= 10);
  if (from * 3 < least * 0.97) from *= 3
  for (to = 1; to < greatest; to *= 10);
  if (to / 3 > greatest * 1.2) to /= 3
  for (first_tick = 1; first_tick / 10 > from * 0.99; first_tick /= 10);
}

function draw_legend(y,    i, x) {
  x = 16
  for (i = 1; i <= names; i++) {
    draw_mark(x + 7, y - 5, i)
    label(x + 18, y, "ink", "", escape(name_of[i]))
    x += 38 + width_of(name_of[i])
  }
}

function draw_panel(p, y,    c, r, top) {
  top = y
  for (c = 1; c <= columns[p]; c++) draw_axis(c, top, top + rows[p] * pitch)
  for (r = 1; r <= rows[p]; r++) {
    y = top + (r - 0.5) * pitch
    label(left - 14, y + 6, "ink", "end", escape(row[p, order[p, r]]))
    for (c = 1; c <= columns[p]; c++) draw_row(p, c, order[p, r], y)
  }
  return top + rows[p] * pitch
}

# the places of labels and columns
function set_places(    p, r, most) {
  for (p = 1; p <= panels; p++) {
    if (columns[p] > most) most = columns[p]
    for (r = 1; r <= rows[p]; r++) if (width_of(row[p, r]) + 30 > left) left = width_of(row[p, r]) + 30
  }
  left = int(left + 1)
  wide = most == 1
  # between the last number of an axis and a first one at the left end of the next
  gap = first_tick < from * 1.01 ? 46 : 26
  pitch = 27
  across = wide ? 640 - left - 32 : (640 - left - 20 - (most - 1) * gap) / most
}

# the legend, the headings of columns, or which side of the line is which, and the ticks; returns the height below them
function draw_head(    c) {
  draw_legend(58)
  if (wide) {
    label(left + x_of(1) - 12, 84, "soft", "end", "faster")
    label(left + x_of(1) + 12, 84, "soft", "", "slower")
  }
  for (c = 1; c <= columns[1]; c++) {
    label(left_of(c), 84, "ink bold", "", escape(column_heading[1, c]))
    draw_ticks(c, 108)
  }
  return 118
}

END {
  for (p = 1; p <= panels; p++) gather(p)
  if (!panels) refuse("it is not there")
  if (names > 6) refuse("more than six series")
  if (fault) {
    print "scripts/draw/draw_chart: " name ": " fault > "/dev/stderr"
    exit 1
  }
  set_axis()
  set_places()
  height = 118 + 14
  for (p = 1; p <= panels; p++) height += rows[p] * pitch + (heading[p] == "" ? 0 : 34)
  open_large_picture(title, height)
  y = draw_head()
  for (p = 1; p <= panels; p++) {
    if (heading[p] != "") {
      label(16, y + 22, "ink bold", "", escape(heading[p]))
      y += 34
    }
    y = draw_panel(p, y)
  }
  print "</svg>"
}
