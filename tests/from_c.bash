# For the scripts of this folder that test the library from C: they source this file and call, in this order, `begin`, then `build` and `compare` or
# what they have themselves, then `finish` of tests/texts.bash, which comes with it. Settings from outside:
#   SEED, CASES        the generated cases (default 1, and what the script says)
#   JOBS               processes (default 2)
#   VICHRELKA_ARCHIVE  a static library to test in place of the one that `make` builds, once for all scripts
# shellcheck shell=bash

. tests/texts.bash
warn="-pedantic -Wall -Wextra -Werror"

# begin WHAT: a folder for what is built, and the archive
begin() {
  what=$1
  out=target/tests/$what
  mkdir -p "$out/planted"
  ulimit -c 0
  export PYTHONPYCACHEPREFIX="$PWD/target/tests/pycache"
  archive=${VICHRELKA_ARCHIVE:-}
  if [ -z "$archive" ]; then
    archive=target/staticlib/libvichrelka.a
    make --no-print-directory "$archive" >"$out/make.log" 2>&1 || stop "'make $archive' failed: run it to see why"
  fi
  [ -f "$archive" ] || stop "there is no $archive"
}

# sanitizers: the flags for AddressSanitizer and UBSan, as $sanitize; none if this compiler does not have them, which is said
sanitizers() {
  sanitize="-fsanitize=address,undefined -fno-sanitize-recover=all"
  echo 'int main(void) { return 0; }' >"$out/empty.c"
  # shellcheck disable=SC2086
  if ! { cc $sanitize -o "$out/empty" "$out/empty.c" && "$out/empty"; } >/dev/null 2>&1; then
    echo "$what: this compiler has no AddressSanitizer and UBSan, so without them"
    sanitize=
  fi
}

# build_harness NAME: the harness of tests/NAME_harness.c with the library; its objects are left in $harness, its flags in $sanitize
build_harness() {
  local part
  harness=()
  sanitizers
  for part in lend harness "${1}_harness"; do
    # shellcheck disable=SC2086
    cc -std=c99 -O1 -g $warn $sanitize -Iinclude -c -o "$out/$part.o" "tests/$part.c" || stop "$part.c does not compile"
    harness+=("$out/$part.o")
  done
  # shellcheck disable=SC2086
  cc $sanitize -o "$out/harness" "${harness[@]}" "$archive" || stop "the harness does not link"
  planted=()
}

# build SOURCE..: the harness, with the library and with each shim before it; the sources go with every shim. The shims have no sanitizer, as the
# library has none: what catches them is the harness.
build() {
  local shim object source job sanitize
  local shared=() harness=() running=()
  build_harness "$what"
  for source in "$@"; do
    object=$out/$(basename "$source" .c).o
    cc -std=c99 -O1 -c -o "$object" "$source" || stop "$source does not compile"
    shared+=("$object")
  done
  for shim in tests/planted/"$what"/*.c; do
    planted+=("$out/planted/$(basename "$shim" .c)")
    build_shim "$shim" "$sanitize" "${harness[@]}" ${shared[@]+"${shared[@]}"} &
    running+=($!)
    [ ${#running[@]} -lt "${JOBS:-2}" ] || { wait "${running[0]}" || exit 1; running=("${running[@]:1}"); }
  done
  for job in ${running[@]+"${running[@]}"}; do
    wait "$job" || exit 1
  done
}

# build_shim SHIM SANITIZE OBJECT..: the harness with this shim before the library; whoever waits for it has to stop if it did
build_shim() {
  local name sanitize=$2 object wraps
  name=$(basename "$1" .c)
  object=$out/planted/$name.o
  # shellcheck disable=SC2086
  cc -std=c99 -O1 $warn -Wno-unused-function -Wno-unused-variable -Iinclude -c -o "$object" "$1" ||
    stop "the shim $name does not compile"
  # the calls that it stands before, and no others
  wraps=$(nm "$object" | sed -n 's/.* T __wrap_/-Wl,--wrap=/p')
  [ -n "$wraps" ] || stop "the shim $name stands before no call"
  shift 2
  # shellcheck disable=SC2086
  cc $sanitize $wraps -o "$out/planted/$name" "$object" "$@" "$archive" || stop "the shim $name does not link"
}

# compare CASES: the library with the model, and the shims, by tests/WHAT_test.py; so many generated cases unless CASES is set
compare() {
  local status=0 last
  ASAN_OPTIONS=symbolize=0 python3 "tests/${what}_test.py" --harness "$out/harness" --planted ${planted[@]+"${planted[@]}"} \
    --seed "${SEED:-1}" --cases "${CASES:-$1}" --jobs "${JOBS:-2}" >"$out/log" 2>&1 || status=$?
  sed '$d' "$out/log"
  last=$(tail -n 1 "$out/log")
  [[ $last =~ ^([0-9]+)\ passed,\ ([0-9]+)\ failed$ ]] || stop "the comparison did not end: $last"
  passed=$((passed + BASH_REMATCH[1]))
  failed=$((failed + BASH_REMATCH[2]))
  [ "$status" -eq 0 ] || [ "${BASH_REMATCH[2]}" -ne 0 ] || failed=$((failed + 1))
}
