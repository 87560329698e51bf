# shellcheck shell=bash
# Chooses the processors that a script runs on, and starts busy programs. The scripts that measure or stress source this file.

# first_processors COUNT   prints the first COUNT of the processors that this script may run on, separated by commas
first_processors() {
  local from to
  taskset -cp "$$" | sed 's/.*: *//' | tr ',' '\n' | while IFS=- read -r from to; do
    seq "$from" "${to:-$from}"
  done | head -n "$1" | paste -sd,
}

# busy_programs COUNT COMMAND..   starts COUNT programs that only compute, each by the command, and keeps their process
# numbers in `busy`
busy_programs() {
  local started
  busy=()
  for ((started = $1; started > 0; started--)); do
    "${@:2}" sh -c 'while :; do :; done' &
    busy+=("$!")
  done
}

# end_busy_programs   ends these programs
end_busy_programs() {
  if [ "${#busy[@]}" != 0 ]; then
    kill -- "${busy[@]}"
    wait -- "${busy[@]}" 2> /dev/null
  fi
  busy=()
}
busy=()
