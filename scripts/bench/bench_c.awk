# Makes the tables of scripts/bench/bench_c from the lines of its programs, ROW|LOCK|MEDIAN|LEAST|GREATEST. It needs
# scripts/bench/situations.awk. `form` is
#   table    for all rows a column for each lock, with the medians, and after most of them the ratio to its base
#   page     our ratios of some rows, as a table of docs/BENCHMARKS.md, the greatest first
#   rows     the ratios of all rows, as parts of docs/benchmarks.rows

# Adds the column of a lock; `base` is the lock that it is compared with, if it is.
function column(lock, heading, base, is_one_of_ours) {
  locks[++count] = lock
  headings[lock] = heading
  bases[lock] = base
  if (is_one_of_ours) ours[lock]
}

BEGIN {
  column("C in hand", "C, in hand", "pthread recursive", 1)
  column("C here", "C, here", "pthread recursive", 1)
  column("nsync", "nsync", "pthread recursive")
  column("pthread recursive", "pthread")
  column("C++", "C++", "std::recursive_mutex", 1)
  column("absl", "absl", "std::recursive_mutex")
  column("std::recursive_mutex", "std")
  column("Rust in hand", "Rust, in hand", "std::sync::Mutex", 1)
  column("Rust", "Rust", "std::sync::Mutex", 1)
  column("parking_lot", "parking_lot", "std::sync::Mutex")
  column("parking_lot, fair", "fair", "std::sync::Mutex")
  column("std::sync::Mutex", "std")
  split("opened, locked once and closed|one among 64|one among 4096|one among 65536|alone: lock, unlock|alone, in order|" \
    "alone: once more, once less|try_lock that is refused|8 threads, short|8 threads, short, in order|8 threads, long|" \
    "8 threads, thinking|8 threads, thinking, in order|ping-pong, a round trip|broadcast to 32|queue, 1 to 1|queue, 4 to 4",
    of_page, "|")
  for (at in of_page) is_of_page[of_page[at]]
}

{
  if (!($1 in known)) rows[++many] = $1
  known[$1]
  found[$2]
  median[$1, $2] = $3
}

function figure(value) {
  return value == "" ? "" : sprintf(value < 100 ? "%.1f" : "%.0f", value)
}

# The ratio of the lock's median in this row to that of its base, or nothing.
function ratio(row, lock,    value) {
  value = median[row, lock]
  if (value == "" || !(median[row, bases[lock]] > 0)) return ""
  value /= median[row, bases[lock]]
  return sprintf(value < 10 ? "%.2f" : value < 100 ? "%.1f" : "%.0f", value)
}

function is_of_shares(row) {
  return row ~ /, most over fewest$/
}

# Prints the table, with ratios, of the rows of shares, or of the other rows.
function table(what, shares,    at, row, name, line, lock) {
  line = sprintf("%-30s", what)
  for (at = 1; at <= count; at++)
    if (locks[at] in found) line = line sprintf("  %*s", bases[locks[at]] ? 13 : 7, headings[locks[at]])
  print line
  for (row = 1; row <= many; row++) {
    if (is_of_shares(rows[row]) != shares) continue
    name = rows[row]
    sub(/, most over fewest$/, "", name)
    line = sprintf("%-30s", name)
    for (at = 1; at <= count; at++) {
      lock = locks[at]
      if (!(lock in found)) continue
      line = line sprintf("  %7s", figure(median[rows[row], lock]))
      if (bases[lock]) line = line sprintf(" %5s", shares ? "" : ratio(rows[row], lock))
    }
    sub(/ +$/, "", line)
    print line
  }
}

# Puts the names of the rows that are not of shares into `order`, those with the greatest ratio of ours first, and returns
# how many there are.
function sort_rows(order,    row, j, lock, value, worst, lines) {
  for (row = 1; row <= many; row++) {
    if (is_of_shares(rows[row])) continue
    value = 0
    for (lock in ours) if (ratio(rows[row], lock) + 0 > value) value = ratio(rows[row], lock) + 0
    worst[rows[row]] = value
    for (j = ++lines; j > 1 && worst[order[j - 1]] < value; j--) order[j] = order[j - 1]
    order[j] = rows[row]
  }
  return lines
}

# The ratio, or a dash if there is none.
function cell(row, lock) {
  return ratio(row, lock) == "" ? "–" : ratio(row, lock)
}

# The table of a page.
function page(    at, i, line, lines, order) {
  lines = sort_rows(order)
  for (i = 0; i <= lines; i++) {
    if (i && !(order[i] in is_of_page)) continue
    line = i ? "| " situation(order[i]) : "|"
    for (at = 1; at <= count; at++)
      if (locks[at] in found && locks[at] in ours) line = line " | " (i ? cell(order[i], locks[at]) : headings[locks[at]])
    print line " |"
    if (i == 0) print rule(line)
  }
}

# The line below the headings of a table.
function rule(line) {
  gsub(/[^|]+/, "---", line)
  return line "|"
}

# A part with the ratios of these locks, of the rows that are in order, or of the others.
function print_part(name, locks_of_it, in_order,    at, i, line, lines, order, series, names, has_figures) {
  series = split(locks_of_it, names, "|")
  print "part " name "|ratios|"
  line = "series "
  for (at = 1; at <= series; at++) line = line (at > 1 ? "|" : "") (names[at] == "C here" ? "C" : names[at])
  print line
  lines = sort_rows(order)
  for (i = 1; i <= lines; i++) {
    if ((order[i] ~ /, in order$/) != in_order) continue
    line = situation(order[i])
    sub(/, in order$/, "", line)
    has_figures = 0
    for (at = 1; at <= series; at++) {
      line = line "|" ratio(order[i], names[at])
      if (ratio(order[i], names[at]) != "") has_figures = 1
    }
    if (has_figures) print "row " line
  }
}

END {
  if (form == "page") page()
  else if (form == "rows") {
    print_part("languages", "C here|C++|Rust", 0)
    print_part("languages_in_order", "C here|C++|Rust", 1)
    print_part("other_locks", "nsync|absl|parking_lot", 0)
  } else {
    table("nanoseconds; ratio", 0)
    print ""
    table("most over fewest", 1)
  }
}
