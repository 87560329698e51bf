# Whether each name that a page shows as Ligdrosa's is there: awk -f named_calls.awk SOURCE.. PAGE.md
# In the page, the second column of each table has such names as code: `lfm_wait(..)`, `lfm::guard`, `Mutex::new`. The page's
# heading above says of which language they are. A name has to stand in a header or crate of that language, not in a comment.
# It prints each name that is not there, and last how many are; its status is 0 if all are.
function language_of(text) { return text ~ /C\+\+|hpp$/ ? "C++" : text ~ /Rust|rs$/ ? "Rust" : "C" }

# spans(TEXT)   looks for each name that the text has as code
function spans(text,   count, part, i, name) {
  count = split(text, part, "`")
  for (i = 2; i <= count; i += 2) {
    name = part[i]
    sub(/[(< ].*/, "", name)
    sub(/^.*::/, "", name)
    if ((language, name) in known) found++
    else { printf "%s:%d: %s has no %s\n", FILENAME, FNR, language, name; missing++ }
  }
}

FILENAME !~ /\.md$/ {
  language = language_of(FILENAME)
  if ($0 ~ /^ *(\/\/|\/\*|\*)/) next
  count = split($0, word, /[^A-Za-z0-9_]+/)
  for (i = 1; i <= count; i++) known[language, word[i]]
  next
}
/^## / { language = language_of($0) }
/^\|/ && !/^\|---/ { split($0, cell, " [|] "); if (cell[2] != "Ligdrosa") spans(cell[2]) }
END {
  print found + 0 " names are there"
  exit missing > 0 || found == 0
}
