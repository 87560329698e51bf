# shellcheck shell=bash
# shellcheck disable=SC2154 # work is a folder of the script that sources this file
# Finds other libraries whose mutexes c_tests/bench.cpp measures too. The scripts that compile it source this file.

# with_mutex_of NAME PACKAGE HEADER LIBRARY..   adds a library to `other_mutexes` if a trial finds it, and else says so
with_mutex_of() {
  printf '#include <%s>\nint main() {}\n' "$3" > "$work/trial.cpp"
  if g++ -std=c++20 -o "$work/trial" "$work/trial.cpp" "${@:4}" > "$work/said" 2>&1; then
    other_mutexes+=("-DWITH_${1^^}" "${@:4}")
  else
    echo "left out: $1, for want of $2"
    return 1
  fi
}

# find_other_mutexes   puts the compiler's options for them into `other_mutexes`: whether it finds all
find_other_mutexes() {
  local of_absl finds_all=0
  read -ra of_absl <<< "$(pkg-config --libs absl_synchronization 2> "$work/said")"
  other_mutexes=()
  with_mutex_of nsync libnsync-dev nsync.h -lnsync_cpp || finds_all=1
  with_mutex_of absl libabsl-dev absl/synchronization/mutex.h "${of_absl[@]}" || finds_all=1
  return "$finds_all"
}
