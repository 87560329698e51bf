# Lists the headings and links of the pages: see scripts/pages/links. It prints `anchor PAGE NAME` for each heading, as
# GitHub names it, and `link PAGE LINE TARGET` for each link and picture. Code in the text is neither a link nor a heading.

# The name of a heading: lower case, with hyphens for spaces and no other punctuation. A second one of the same name gets -1.
function name_of(heading,    name) {
  name = tolower(heading)
  gsub(/[^a-z0-9 _-]/, "", name)
  gsub(/ /, "-", name)
  return seen[FILENAME, name]++ ? name "-" (seen[FILENAME, name] - 1) : name
}

# The text of a line outside of code in backquotes, which may have started on an earlier line.
function plain(text,    count, parts, i, kept) {
  kept = ""
  count = split(text, parts, "`")
  for (i = 1; i <= count; i++) {
    if (!in_span) kept = kept parts[i]
    if (i < count) in_span = !in_span
  }
  return kept
}

FNR == 1 { in_code = 0 }
# code in backquotes ends at the latest with its row of a table, heading or item of a list
FNR == 1 || /^ *($|\||#|[-*+] |[0-9]+\. )/ { in_span = 0 }

/^ *(```|~~~)/ { in_code = !in_code; next }
in_code { next }

/^#+ / {
  heading = $0
  sub(/^#+ +/, "", heading)
  sub(/ +#*$/, "", heading)
  gsub(/\]\([^)]*\)/, "]", heading)
  print "anchor", FILENAME, name_of(heading)
}

{
  rest = plain($0)
  while (match(rest, /<a (id|name)="[^"]*"/)) {
    anchor = substr(rest, RSTART, RLENGTH)
    gsub(/^[^"]*"|"$/, "", anchor)
    print "anchor", FILENAME, anchor
    rest = substr(rest, 1, RSTART - 1) substr(rest, RSTART + RLENGTH)
  }
  while (match(rest, /\]\([^)]*\)|^\[[^\]]*\]: *[^ ]+|(src|srcset|href)="[^"]*"/)) {
    target = substr(rest, RSTART, RLENGTH)
    rest = substr(rest, RSTART + RLENGTH)
    sub(/^\]\(|^\[[^\]]*\]: *|^(src|srcset|href)="/, "", target)
    sub(/[)"]$/, "", target)
    sub(/ +".*$/, "", target)
    print "link", FILENAME, FNR, target
  }
}
