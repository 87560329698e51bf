# shellcheck shell=bash
# Lists the crates that a crate depends on. The scripts that build or copy only some crates source this file.

# with_what_they_stand_on CRATE..   prints these crates and all that they depend on, lowest first, by ./crates.txt
with_what_they_stand_on() {
  printf '%s\n' "$@" | awk '
    NR == FNR { wanted[$1]; next }
    { order[++lines] = $0 }
    END {
      # a line comes after those of its dependencies, so one pass from the last line to the first finds them all
      for (line = lines; line > 0; line--) {
        words = split(order[line], word, /[ :]+/)
        if (word[1] in wanted) for (at = 2; at <= words; at++) wanted[word[at]]
      }
      for (line = 1; line <= lines; line++) {
        split(order[line], word, /[ :]+/)
        if (word[1] in wanted) print word[1]
      }
    }' - crates.txt
}
