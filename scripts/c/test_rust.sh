# shellcheck shell=bash
# The group of tests of rust/, the crate and its docs, by cargo. scripts/c/test_c sources this file, and runs it beside its own
# groups.
# shellcheck disable=SC2154 # work is the folder that test_c has made

# in_rust NAME FOLDER COMMAND..   counts this command of cargo for the crate in this folder, over the library in $work/archives
in_rust() {
  local name=$1 folder=$2
  shift 2
  LIGDROSA_OUT=$work/archives CARGO_TARGET_DIR=$work/rust \
    passes "$name" cargo "$@" --quiet --offline --manifest-path "$folder/Cargo.toml"
}

# builds_in_rust VARIABLES..   builds the crate by cargo with these variables, while LIGDROSA_OUT names a folder without a
# library
builds_in_rust() {
  timeout 120 env "$@" LIGDROSA_OUT="$work/nothing" CARGO_TARGET_DIR="$work/rust" \
    cargo build --quiet --offline --manifest-path rust/Cargo.toml > "$work/told" 2>&1
}

debian=/usr/share/cargo/registry
test_from_rust() {
  if command -v cargo > "$work/told" 2>&1; then
    mkdir "$work/archives" "$work/nothing"
    if ! builds_in_rust PKG_CONFIG_LIBDIR="$work/nothing" && grep -q scripts/c/build_c "$work/told"; then
      pass
    else
      fail 'rust/ without a library does not name scripts/c/build_c'
      tail -n 20 "$work/told"
    fi
    # the crate is built over an empty archive first: if cargo kept that build, the tests would not link
    printf '!<arch>\n' > "$work/archives/libligdrosa.a"
    in_rust 'rust/ over an empty archive' rust build
    cp out/libligdrosa.a "$work/archives"
    in_rust 'rust/ over an archive that has changed' rust test --no-run
    in_rust 'rust/' rust test
    RUSTDOCFLAGS=-Dwarnings in_rust 'the docs of rust/' rust doc
    if command -v pkg-config > "$work/told" 2>&1; then
      printf 'Name: ligdrosa\nDescription:\nVersion: 0\nlibdir=%s\n' "$work/archives" > "$work/archives/ligdrosa.pc"
      if builds_in_rust PKG_CONFIG_PATH="$work/archives"; then
        pass
      else
        fail 'rust/ does not find a library that is installed'
        tail -n 20 "$work/told"
      fi
    else
      left_out 'rust/ over a library that is installed, for want of pkg-config'
    fi
    if compgen -G "$debian/lock_api-0.4*" > "$work/told"; then
      in_rust 'rust/lock_api' rust/lock_api test --config 'source.crates-io.replace-with="debian"' \
        --config "source.debian.directory=\"$debian\""
    else
      left_out 'rust/lock_api, for want of librust-lock-api-dev'
    fi
  else
    left_out 'Rust by cargo'
  fi
}
