# Turns the output of two or more runs of lfm_bench into parts of docs/benchmarks.rows: see scripts/bench/bench_mutex. `part` is
# the name of the part that compares the ways of locking with std's mutex; plain condition variables are one if the output has
# them. A part with `_pool` after that name compares mutexes of a pool with ours and std's. It needs
# scripts/bench/situations.awk.

# ---- reading

function trimmed(text) {
  gsub(/^ +| +$/, "", text)
  return text
}

{
  name = trimmed(substr($0, 1, 32))
  cells = substr($0, 33)
}

# the head of a table: the titles have cells of ten characters, and the first title of each peer is that of its medians
cells ~ /^ +(ours|in order|pool) / {
  table = name
  titles = 0
  for (at = 1; at <= length(cells); at += 10) title[++titles] = trimmed(substr(cells, at, 10))
  if (cells ~ / plain /) has_plain = 1
  next
}

{
  run = ++runs[table, name]
  if (run == 1) row[table, ++rows[table]] = name
  split(cells, cell, " ")
  for (i = titles; i >= 1; i--) median[table, name, title[i], run] = cell[i]
}

# ---- writing

function mean(table, name, peer,    run, sum) {
  for (run = 1; run <= runs[table, name]; run++) sum += median[table, name, peer, run]
  return sum / runs[table, name]
}

# about three significant digits
function rounded(value) {
  return sprintf(value < 2 ? "%.2f" : value < 100 ? "%.1f" : "%.0f", value)
}

# the figure of a peer, or nothing if the table has none
function figure(table, name, peer) {
  return ((table, name, peer, 1) in median) && median[table, name, peer, 1] != "-" ? rounded(mean(table, name, peer)) : ""
}

# prints the rows of a table whose names match, with all ways of locking and std's mutex
function print_rows(table, fits,    i, name) {
  for (i = 1; i <= rows[table]; i++) if (row[table, i] ~ fits) {
    name = row[table, i]
    print_row(situation(name), figure(table, name, "in order"), figure(table, name, "barging"), figure(table, name, "plain"), \
      figure(table, name, "std"))
  }
}

function print_row(name, in_order, barging, plain, std) {
  print "row " name "|" in_order "|" barging (has_plain ? "|" plain : "") "|" std
}

function print_calls_of_one_thread(table,    i, name) {
  print "part one_thread|nanoseconds a call|"
  print "series ours|bare atomic steps|Rust's std"
  for (i = 1; i <= rows[table]; i++) {
    name = row[table, i]
    if (name ~ /lock|with/) {
      print "row " name "|" figure(table, name, "ours") "|" figure(table, name, "bare") "|" figure(table, name, "std")
    }
  }
}

# prints the rows of a pool, with our mutexes, as many as the pool has, and std's
function print_pool(table,    i, name) {
  print "part " part "_pool|nanoseconds|Rust's std"
  print "series pool|our mutexes|Rust's std"
  for (i = 1; i <= rows[table]; i++) {
    name = row[table, i]
    print "row " situation(name) "|" figure(table, name, "pool") "|" figure(table, name, "ours") "|" figure(table, name, "std")
  }
}

END {
  alone = "nanoseconds a call"
  if (part == "rattle_quiet") print_calls_of_one_thread(alone)
  print "part " part "|nanoseconds|Rust's std"
  print "series in order|barging" (has_plain ? "|plain" : "") "|Rust's std"
  print_rows("nanoseconds an acquisition", "")
  print_row(situation("alone"), figure(alone, "lock and unlock", "ours"), figure(alone, "lock_barging and unlock", "ours"), "", \
    figure(alone, "lock and unlock", "std"))
  print_rows("nanoseconds", "^(ping-pong|wake_all|(bounded )?queue)")
  if (rows["nanoseconds, pool"]) print_pool("nanoseconds, pool")
}
