# Writes docs/LAWS.md with the row of each law made from the comment of its function: see scripts/pages/laws. The arguments
# are the files of the laws, and then the page. A row is known by the link in its first cell. With `report` it does not print
# the page, but `pass` for each law whose row is up to date, and `fail` with the reason for each other one.

function trim(text) {
  gsub(/^[ \t]+|[ \t]+$/, "", text)
  return text
}

# the crate of a law's file, with crates/ before it
function crate_of(file,    parts) {
  split(file, parts, "/")
  return parts[1] "/" parts[2]
}

function is_file(file,    line, got) {
  got = (getline line < file)
  close(file)
  return got >= 0
}

# the number of the line on which a file of definitions declares a name, or 0
function declared_at(name, file,    line, number, found) {
  number = 0
  found = 0
  while (!found && (getline line < file) > 0) {
    number++
    if (line ~ ("(^|[ \t])pub (record |rel |def )?" name "([ \t]|$)")) found = number
  }
  close(file)
  return found
}

function add_link(list, name, target) {
  return list (list == "" ? "" : ", ") "[`" name "`](../" target ")"
}

function fault(text) {
  faults[++fault_count] = text
}

# The links of one half of a comment's last paragraph. A name in backquotes is declared in the next file that is named. A file
# without a name before it is linked by its own name. A file belongs to the crate of the law unless its path begins with
# crates/. The file with the proofs of all forms for schedules is linked only once, in the head of the page.
function links_of(text, crate, name_of_law,    list, part, count, parts, i, pending, names, file, base, at) {
  list = ""
  pending = 0
  count = split(text, parts, "`")
  for (i = 2; i <= count; i += 2) {
    part = parts[i]
    if (part !~ /\.antt$/) { names[++pending] = part; continue }
    file = part ~ /^crates\// ? part : crate "/" part
    base = part
    sub(/.*\//, "", base)
    sub(/\.antt$/, "", base)
    if (!is_file(file)) fault(name_of_law ": its comment names " file ", which is not there")
    if (pending == 0 && base != "InSchedules") list = add_link(list, base, file)
    for (at = 1; at <= pending; at++) {
      if (!declared_at(names[at], file)) fault(name_of_law ": " file " does not declare " names[at])
      list = add_link(list, names[at], file "#L" declared_at(names[at], file))
    }
    pending = 0
  }
  return list
}

# The row of the law that begins at line `number` of `file`.
function row_of(name, file, number,    at, definitions, proofs, crate, answers) {
  crate = crate_of(file)
  at = index(sources, "Proof")
  definitions = at ? substr(sources, 1, at - 1) : sources
  proofs = at ? substr(sources, at) : ""
  definitions = links_of(definitions, crate, name)
  if (definitions == "") definitions = "contract"
  if (proofs !~ /\.antt`/ && proofs != "") {
    sub(/^Proofs?: /, "", proofs)
    sub(/\.$/, "", proofs)
  } else if (proofs != "") {
    proofs = links_of(proofs, crate, name)
  } else {
    answers = file
    sub(/\/src\//, "/proofs/", answers)
    sub(/\.rt$/, "/" name "/Answers.antt", answers)
    proofs = is_file(answers) ? "[`Answers`](../" answers ")" : "tactics"
  }
  return "|[`" name "`](../" file "#L" number ")|" said "|" definitions "|" proofs "|"
}

FNR == 1 {
  said = ""
  sources = ""
  in_comment = 0
}

# ---- the files of the laws

FILENAME != page && /^\/\/\// {
  if (!in_comment) { said = ""; sources = "" }
  in_comment = 1
  text = trim(substr($0, 4))
  if (text ~ /^Definitions?: / || text ~ /^Proofs?: / || sources != "") sources = trim(sources " " text)
  else said = trim(said " " text)
  next
}

FILENAME != page && /^pub fn / {
  name = substr($0, 8)
  sub(/[<(].*/, "", name)
  if (!in_comment || said == "") fault(name " of " FILENAME " has no comment")
  key = FILENAME " " name
  row[key] = row_of(name, FILENAME, FNR)
  keys[++key_count] = key
  in_comment = 0
  next
}

FILENAME != page { in_comment = 0; next }

# ---- the page

/^\| ?\[`[a-z_]+`\]\(\.\.\/crates\/[a-z_\/]*\.rt(#L[0-9]+)?\) ?\|/ {
  name = $0
  sub(/^\| ?\[`/, "", name)
  sub(/`.*/, "", name)
  file = $0
  sub(/^[^(]*\(\.\.\//, "", file)
  sub(/(#L[0-9]+)?\).*/, "", file)
  key = file " " name
  if (!(key in row)) fault("docs/LAWS.md has a row for " name ", and " file " has no such law")
  else if (key in seen) fault("docs/LAWS.md has two rows for " name " of " file)
  else {
    seen[key] = 1
    if (row[key] == $0) passed++
    else if (report) fault("docs/LAWS.md says of " name " otherwise than its comment in " file)
    $0 = row[key]
  }
}

{ if (!report) print }

END {
  for (i = 1; i <= key_count; i++) {
    if (!(keys[i] in seen)) {
      split(keys[i], parts, " ")
      fault("docs/LAWS.md has no row for " parts[2] " of " parts[1])
    }
  }
  for (i = 1; report && i <= passed; i++) print "pass"
  for (i = 1; report && i <= fault_count; i++) print "fail " faults[i]
}
