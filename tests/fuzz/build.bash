# For the scripts of this folder: they source this file at the repository's root. VICHRELKA_ARCHIVE is a static library to test in place of the one
# that `tools/prove staticlib gateway` builds; SHIM a file of tests/planted/ that stands before it, to see that its slip is found.
# shellcheck shell=bash

out=target/fuzz
common=(tests/lend.c bench/table_plain.c bench/load_plain.c bench/book_plain.c bench/lease_plain.c bench/update_plain.c bench/sha256_plain.c
  tests/fuzz/message_plain.c tests/fuzz/listing_plain.c tests/fuzz/name_text_plain.c tests/fuzz/fuzz.c)

stop() {
  echo "fuzz: $1" >&2
  exit 1
}

# link PROGRAM COMPILER..: compiles and links these with the common part, the shim and the archive
link() {
  local program=$1 archive=${VICHRELKA_ARCHIVE:-} shim=()
  shift
  mkdir -p "$out"
  if [ -z "$archive" ]; then
    tools/prove staticlib gateway >"$out/staticlib.log" 2>&1 || stop "'tools/prove staticlib gateway' failed: run it to see why"
    archive=target/staticlib/libgateway.a
  fi
  if [ -n "${SHIM:-}" ]; then
    cc -std=c99 -O1 -Iinclude -c -o "$out/shim.o" "$SHIM" || stop "$SHIM does not compile"
    # the calls that it stands before, and no others
    mapfile -t shim < <(nm "$out/shim.o" | sed -n 's/.* T __wrap_/-Wl,--wrap=/p')
    shim+=("$out/shim.o")
  fi
  "$@" -std=gnu11 -O2 -g -Wall -Wextra -Iinclude -o "$program" "${common[@]}" ${shim[@]+"${shim[@]}"} "$archive" || stop "$program is not built"
}
