# shellcheck shell=bash
# Counts what passed and what failed. The scripts that test source this file. Each failure is one line on standard output, and
# `finish` prints the counts as the last line.

passed=0
failed=0

pass() {
  passed=$((passed + 1))
}

# fail WORD..   counts a failure and prints it
fail() {
  failed=$((failed + 1))
  printf 'FAILED %s\n' "$*"
}

# make_work_folder   makes the folder `work`, which is removed when the script ends. If no folder can be made, that is the
# script's only failure, and its last line still has the counts
make_work_folder() {
  if ! work=$(realpath -e -- "$(mktemp -d)"); then
    fail 'mktemp makes no folder'
    finish
    exit 1
  fi
  trap 'rm -rf -- "$work"' EXIT
}

# count_apart FUNCTION   runs this function with counts and a work folder of its own, and writes what it printed and its counts
# beside that folder
count_apart() {
  local counts=$work/$1.counts work=$work/$1 passed=0 failed=0
  mkdir "$work"
  "$1" > "$work.said" 2>&1
  echo "$passed $failed" > "$counts"
}

# side_by_side FUNCTION..   runs these functions apart, as many at once as there are processors. Then it shows what each has
# printed, in this order, and adds its counts. A function that ends the shell before it is counted is a failure
side_by_side() {
  local name its_passed its_failed
  for name; do
    while [ "$(jobs -rp | wc -l)" -ge "$(nproc)" ]; do
      wait -n
    done
    count_apart "$name" &
  done
  wait
  for name; do
    cat "$work/$name.said"
    if read -r its_passed its_failed < "$work/$name.counts"; then
      passed=$((passed + its_passed))
      failed=$((failed + its_failed))
    else
      fail "$name: no counts"
    fi
  done
}

# finish   prints the counts; its status is 0 if something passed and nothing failed
finish() {
  printf '%d passed, %d failed\n' "$passed" "$failed"
  [ "$failed" = 0 ] && [ "$passed" != 0 ]
}
