# shellcheck shell=bash
# Source packages of Debian, for scripts/further/foreign_tests and scripts/further/foreign_programs. They come from the
# addresses that this machine's own apt reads. What apt has on this machine stays as it is.

# make_apt FOLDER   the configuration of an apt that has all its files in FOLDER and knows source packages alone
make_apt() {
  local folder=$1 list parts addresses
  mkdir -p "$folder/lists/partial" "$folder/cache/archives/partial" "$folder/addresses"
  eval "$(apt-config shell list Dir::Etc::sourcelist/f parts Dir::Etc::sourceparts/d)"
  for addresses in "$list" "$parts"/*.list; do
    [ ! -e "$addresses" ] || sed -n 's/^[[:space:]]*deb[[:space:]]/deb-src /p' "$addresses"
  done > "$folder/addresses/own.list"
  for addresses in "$parts"/*.sources; do
    [ ! -e "$addresses" ] || { sed 's/^Types:.*/Types: deb-src/' "$addresses" && echo; }
  done > "$folder/addresses/own.sources"
  printf '%s\n' 'Dir::Etc::sourcelist "-";' "Dir::Etc::sourceparts \"$folder/addresses\";" "Dir::State::lists \"$folder/lists\";" \
    "Dir::Cache \"$folder/cache\";" 'Acquire::Languages "none";' 'APT::Sandbox::User "";' > "$folder/conf"
}

# fetch_source APT PACKAGE [OPTION..]   the source package into the current folder, by the apt in folder APT. It is unpacked
# there, unless the option --download-only is given. It ends in ten minutes
fetch_source() {
  local apt=$1 package=$2
  shift 2
  # by `&&`, since -e has no effect where a caller tests the result
  { [ -e "$apt/conf" ] || make_apt "$apt"; } \
    && { [ -e "$apt/is_updated" ] || APT_CONFIG=$apt/conf timeout 300 apt-get -q update; } \
    && : > "$apt/is_updated" \
    && APT_CONFIG=$apt/conf timeout 300 apt-get -q source "$@" "$package"
}

# unpacked_in FOLDER PACKAGE   the folder in FOLDER that the source package is unpacked in, or nothing
unpacked_in() {
  find "$1" -mindepth 1 -maxdepth 1 -type d -name "$2-*" | head -n 1
}
