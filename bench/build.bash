# For the scripts of this folder, which source it at the repository's root. VICHRELKA_ARCHIVE is a static library to measure in place of the one that
# `tools/prove staticlib gateway` builds.
# shellcheck shell=bash

out=target/bench
mkdir -p "$out"
flags=() libs=()

# archive CRATE: the static library of a crate, as $linked
archive() {
  linked=target/staticlib/lib$1.a
  if [ "$1" = gateway ] && [ -n "${VICHRELKA_ARCHIVE:-}" ]; then
    linked=$VICHRELKA_ARCHIVE
  else
    tools/prove staticlib "$1" >/dev/null 2>&1 || { echo "bench: 'tools/prove staticlib $1' failed: run it to see why" >&2; exit 1; }
  fi
}

# peer NAME INCLUDE CALL LIBRARY..: WITH_NAME is defined if a program with that call compiles and links: a header without its library would stop the link
peer() {
  local name=$1 include=$2 call=$3
  shift 3
  if printf '%s\nint main(void) { %s; return 0; }\n' "$include" "$call" | gcc -x c -w -o "$out/has_peer" - "$@" >/dev/null 2>&1; then
    flags+=("-DWITH_$name")
    libs+=("$@")
  fi
}

# build PROGRAM SOURCE..: bench/PROGRAM.c with these, the archive and the peers
build() {
  local program=$1
  shift
  gcc -O2 -std=gnu11 -Wall -Wextra ${flags[@]+"${flags[@]}"} -Iinclude -o "$out/$program" "bench/$program.c" "$@" "$linked" ${libs[@]+"${libs[@]}"}
}
