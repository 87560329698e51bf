# Turns rows and the output of `lfm_explain` into a picture of a hand-off: see scripts/draw/draw_handoff. It needs
# scripts/draw/picture.awk.

# ---- reading: the moments from the first file, the states from the second

FNR == 1 {
  file++
}

file == 1 {
  what = $1
  sub(/^[a-z]+ ?/, "")
  many = split($0, parts, "|")
}

file == 1 && what == "title" {
  title = $0
}

file == 1 && what == "note" {
  note[++notes] = $0
}

file == 1 && what == "moment" {
  at[++moments] = parts[1]
  stands_out[moments] = parts[2]
  lines[moments] = many - 2
  if (lines[moments] > most_lines) most_lines = lines[moments]
  for (i = 3; i <= many; i++) caption[moments, i - 2] = parts[i]
}

# keeps a state and what each thread does in it, if it is one of the moments
function keep(line, state,    i, s, words) {
  split(state, words, " ")
  for (i = 1; i <= moments; i++) if (at[i] == line) {
    seen[i] = 1
    value[i, "count"] = words[1]
    owner[i] = words[2]
    value[i, "owner"] = words[2] == 0 ? "none" : words[2]
    post[i] = words[3]
    value[i, "handoff"] = words[3] == 0 ? "none" : "post"
    value[i, "queue"] = words[5] == "-" ? "empty" : words[5]
    for (s = 1; s <= 2; s++) does[i, s] = words[2] == s ? "holds" : call[s]
  }
}

file == 2 && / \| / {
  bar = index($0, " | ")
  text = substr($0, 1, bar - 1)
  if (text ~ / ends (Asleep|None|Waiting)/) call[$2] = "sleeps"
  else if (text ~ / ends /) call[$2] = "returned"
  else if (text ~ / (begins|goes on)$/) call[$2] = "on its way"
  keep($1, substr($0, bar + 3))
}

/^fault / {
  failed = 1
}

# ---- drawing

function row_y(k) {
  return top + 10 + (k - 1) * 34
}

# the arrows between the threads and the words
function draw_arrows(i, x,    s, taker) {
  split(post[i], parts, ".")
  if (post[i] != 0 && (i == 1 || post[i - 1] == 0)) {
    printf "<path d=\"M%d %dV%dH%d\" class=\"arrow post\" marker-end=\"url(#posthead)\"/>\n", x + 9 + (parts[1] - 1) * (wide - 18), threads_y - 2, row_y(4) + 14, parts[1] == 1 ? x + 26 : x + wide - 26
  }
  for (s = 1; s <= 2; s++) {
    taker = i > 1 && post[i] == 0 && post[i - 1] != 0 && owner[i] == s
    if (taker) printf "<path d=\"M%d %dH%dV%d\" class=\"arrow post\" marker-end=\"url(#posthead)\"/>\n", s == 1 ? x + 26 : x + wide - 26, row_y(4) + 14, x + 9 + (s - 1) * (wide - 18), threads_y - 3
    if (does[i, s] == "on its way") printf "<path d=\"M%d %dV%dH%d\" class=\"arrow plain\" stroke-dasharray=\"5 4\" marker-end=\"url(#plainhead)\"/>\n", x + 9 + (s - 1) * (wide - 18), threads_y - 2, row_y(3) + 14, s == 1 ? x + 26 : x + wide - 26
  }
}

function draw_words(i, x,    k, name) {
  split("count owner queue handoff", name, " ")
  for (k = 1; k <= 4; k++) {
    printf "<rect x=\"%d\" y=\"%d\" width=\"%d\" height=\"28\" rx=\"4\" class=\"%s\"/>\n", x + 28, row_y(k), wide - 56, name[k] == stands_out[i] ? "tested" : "box plain"
    label(x + 35, row_y(k) + 20, "soft", "", name[k])
    label(x + wide - 35, row_y(k) + 20, name[k] == stands_out[i] ? "ink bold" : "ink", "end", escape(value[i, name[k]]))
  }
}

function draw_thread(x, s, what) {
  printf "<rect x=\"%d\" y=\"%d\" width=\"90\" height=\"50\" rx=\"6\" class=\"%s\"/>\n", x, threads_y, what == "holds" ? "own" : "box plain"
  label(x + 45, threads_y + 21, what == "holds" ? "back bold" : "ink bold", "middle", "thread " s)
  label(x + 45, threads_y + 42, what == "holds" ? "back" : "soft", "middle", what)
}

END {
  for (i = 1; i <= moments; i++) if (!seen[i]) failed = 1
  if (failed || !moments) exit 1
  wide = 188
  top = 50 + most_lines * 21
  threads_y = row_y(4) + 28 + 22
  height = threads_y + 50 + 14 + notes * 23 + 8
  open_large_picture(title, height)
  for (i = 1; i <= moments; i++) {
    x = 16 + (i - 1) * (wide + 22)
    for (k = 1; k <= lines[i]; k++) label(x + 20, 58 + (k - 1) * 21, "ink", "", escape(caption[i, k]))
    label(x, 58, "ink bold", "", i)
    draw_words(i, x)
    draw_arrows(i, x)
    draw_thread(x, 1, does[i, 1])
    draw_thread(x + wide - 90, 2, does[i, 2])
  }
  for (k = 1; k <= notes; k++) label(16, threads_y + 50 + 6 + k * 23, "soft", "", escape(note[k]))
  print "</svg>"
}
