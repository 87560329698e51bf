# Prints each idiom of words.txt that stands in a page or a comment: "FILE:LINE: IDIOM (write: TEXT)". In a page every line is
# read except fenced code; in other files only comments. It prints last "read N", the number of files with words to read.
FILENAME == list {
  if ($0 !~ /^#/ && split($0, row, "\t") == 2) { pattern[++patterns] = row[1]; better[patterns] = row[2] }
  next
}
FNR == 1 {
  files++
  fenced = 0
  inside = 0
  kind = FILENAME
  sub(/^.*\//, "", kind)
  kind = kind ~ /\./ ? substr(kind, match(kind, /\.[a-z]*$/) + 1) : "script"
}
{ text = said($0) }
text != "" {
  text = tolower(text)
  # a sentence goes on in the next line: an idiom of two words may be cut there
  whole = held == FILENAME ":" FNR - 1 ? last " " text : text
  for (i = 1; i <= patterns; i++)
    if (text ~ pattern[i] || (whole != text && whole ~ pattern[i] && last !~ pattern[i]))
      printf "%s:%d: %s (write: %s)\n", FILENAME, FNR, pattern[i], better[i]
  last = text
  held = FILENAME ":" FNR
}
END { print "read " files + 0 }

# said(LINE): the words of a line that a reader reads, with no mark of a comment
function said(line,   at) {
  if (kind == "md") {
    if (line ~ /^```/) { fenced = !fenced; return "" }
    return fenced ? "" : line
  }
  if (kind == "edit") return FNR == 1 ? line : ""
  if (kind == "antt") return after(line, "--")
  if (kind == "rt" || kind == "rs") return after(line, "//")
  if (kind == "c" || kind == "h" || kind == "hpp" || kind == "cpp") return c_comment(line)
  if (kind == "txt") return line
  return line ~ /^#!/ ? "" : after(line, "#")
}

# after(LINE, MARK): what follows the mark if it begins the line or a word
function after(line, mark,   at) {
  at = index(line, mark)
  if (at == 0 || (at > 1 && substr(line, at - 1, 1) !~ /[ \t]/)) return ""
  line = substr(line, at + length(mark))
  sub(/^[\/!# ]*/, "", line)
  return line
}

# c_comment(LINE): the words of /* .. */, over several lines, and of //
function c_comment(line,   at, words) {
  words = ""
  while (line != "") {
    if (inside) {
      at = index(line, "*/")
      words = words (at ? substr(line, 1, at - 1) : line)
      if (!at) break
      inside = 0
      line = substr(line, at + 2)
    } else {
      at = match(line, /\/\*|\/\//)
      if (!at) break
      if (substr(line, at, 2) == "//") { words = words substr(line, at + 2); break }
      inside = 1
      line = substr(line, at + 2)
    }
  }
  sub(/^[ *]*/, "", words)
  return words
}
