#!/usr/bin/env bash
# The header by itself, by gcc and clang as far as they are there, in several standards of C and of C++: it compiles without a warning and says what is so
# (tests/header.c, linked with the library), and whoever drops an answer is warned, at each call by itself (tests/dropped.c). For a compiler that has no word
# for that, the header is the same without it. A compiler for another machine is stopped. What the header says of the archive is so: what it needs from the
# host, and no data. The texts of the refusals are those of docs/REFUSALS.md (tools/refusal_texts). Last line: `N passed, M failed`.
set -euo pipefail
cd "$(dirname "$0")/.."
. tests/from_c.bash
begin header
log=$out/log
: >"$out/empty"
# the pragma: without a warning of what stands here
printf '#pragma GCC system_header\n#undef __STDC_VERSION__\n#define __STDC_VERSION__ 202311L\n' >"$out/c23.h"

# compile SOURCE COMPILER..: to an object, without a warning
compile() {
  local source=$1
  shift
  # shellcheck disable=SC2086
  LC_ALL=C "$@" $warn -Iinclude -c -o "$out/object.o" "$source" >"$log" 2>&1
}

# right COMPILER..: what the header says is so
right() {
  if compile tests/header.c "$@" && "$1" -o "$out/header" "$out/object.o" "$archive" && "$out/header"; then
    pass
  else
    fail "the header fails by $*"
    show "$log"
  fi
}

# dropped HOW COMPILER..: each call with its answer dropped is warned of, and nothing else is; or it is `silent`
dropped() {
  local how=$1 call status
  shift
  for call in "${calls[@]}"; do
    status=0
    compile tests/dropped.c "$@" "-DCALL=$call" || status=$?
    if [ "$how" = silent ]; then
      is "$call, dropped, by $*: status" 0 "$status"
    elif [ "$status" -ne 0 ] && [ "$(grep -c 'error:' "$log")" -eq 1 ] && grep -q 'error: ignoring return value.*unused-result' "$log"; then
      pass
    else
      fail "$call, dropped, by $*: status $status and no warning of that alone"
      show "$log"
    fi
  done
}

# has_standard COMPILER LANGUAGE STANDARD
has_standard() {
  "$1" -x "$2" "-std=$3" -c -o "$out/empty.o" "$out/empty" >/dev/null 2>&1
}

# by COMPILER LANGUAGE STANDARD..: in those that it has; once, if a compiler has two names
by() {
  local compiler=$1 language=$2 standard binary
  shift 2
  binary=$(command -v "$compiler") || { echo "header: there is no $compiler, so the header is not tried by it" && return; }
  binary=$language:$(readlink -f "$binary")
  case " $tried " in *" $binary "*) return ;; esac
  tried="$tried $binary"
  for standard; do
    if has_standard "$compiler" "$language" "$standard"; then
      right "$compiler" -x "$language" "-std=$standard"
      dropped warned "$compiler" -x "$language" "-std=$standard"
    else
      echo "header: $compiler has no $standard, so the header is not tried in it"
    fi
  done
  # as if it were another compiler, and as if its C2x were C23
  dropped silent "$compiler" -x "$language" "-std=$1" -U__GNUC__ -U__clang__
  if [ "$language" = c ] && has_standard "$compiler" c c2x; then
    dropped warned "$compiler" -std=c2x -include "$out/c23.h"
  fi
}

# for_machine WHAT COMPILER..: the header, by a compiler for a machine that has no C library here; `stopped` by the header's sentence alone, or `taken`
for_machine() {
  local how=$1 status=0 errors
  shift
  "$@" -ffreestanding -x c -c -o "$out/empty.o" "$out/empty" >/dev/null 2>&1 || { echo "header: not tried by $*, which does not work here" && return; }
  LC_ALL=C "$@" -ffreestanding -fsyntax-only -x c include/vichrelka.h >"$log" 2>&1 || status=$?
  errors=$(grep -c 'error:' "$log") || true
  machines=$((machines + 1))
  if [ "$how" = taken ]; then
    is "the header by $*: status" 0 "$status"
  elif [ "$status" -ne 0 ] && [ "$errors" -eq 1 ] && grep -q 'error:.*libvichrelka.a is machine code for x86-64' "$log"; then
    pass
  else
    fail "the header by $*: status $status, and not stopped by its sentence alone"
    show "$log"
  fi
}

# texts STATUS EDIT: tools/refusal_texts over a copy in which sed has made this edit of docs/REFUSALS.md; prints the header to $out/made
texts() {
  local copy=$out/texts status=0
  rm -rf "$copy"
  mkdir -p "$copy/docs" "$copy/include" "$copy/tools"
  cp tools/refusal_texts "$copy/tools"
  cp include/vichrelka.h "$copy/include"
  sed "$2" docs/REFUSALS.md >"$copy/docs/REFUSALS.md"
  "$copy/tools/refusal_texts" >"$out/made" 2>"$log" || status=$?
  is "tools/refusal_texts, with '$2' in its table: status" "$1" "$status"
}

mapfile -t calls < <(nm "$archive" 2>/dev/null | sed -n 's/.* T \(vichrelka_[a-z_]*\)$/\1/p' | sort)
is "the calls of the header, and those of the library" "${calls[*]}" "$(sed -n 's/^uint64_t \(vichrelka_[a-z_]*\)(.*/\1/p' include/vichrelka.h | sort | xargs)"

is "what the archive needs from the host" "memcpy memset" "$(nm -u "$archive" | sed -n 's/^ *U //p' | sort -u | xargs)"
is "the archive's data" "0 0" "$(size -t "$archive" | awk 'END { print $2, $3 }')"
is "lines of the header with 120 characters or more" "" "$(awk 'length > 119 { print FNR }' include/vichrelka.h | xargs)"

texts 0 ''
same "the texts of the refusals: run tools/refusal_texts --write" "$out/made" include/vichrelka.h
texts 0 's/another client holds the name/somebody else holds the name/'
has "another text" 'return "somebody else holds the name"' "$out/made"
texts 1 's/^| `HELD_BY_ANOTHER` | 30 |/| `HELD_BY_ANOTHER` | 29 |/'
texts 1 '/^| `ENTRY_DATA` | 24 |/d'
texts 1 's/the message is not a request/the message is "not a request"/'

machines=0
for machine in -m32 -mx32; do
  for compiler in gcc clang; do for_machine stopped "$compiler" "$machine"; done
done
for machine in aarch64-linux-gnu riscv64-linux-gnu x86_64-w64-mingw32 x86_64-pc-windows-msvc x86_64-apple-darwin; do
  for_machine stopped clang "--target=$machine"
done
for machine in x86_64-linux-gnu x86_64-linux-musl x86_64-unknown-freebsd; do for_machine taken clang "--target=$machine"; done
[ "$machines" -gt 0 ] || fail "the header was tried for no other machine"

# depth STATUS EXPECTED: what tools/stack says of the assembly code on standard input
depth() {
  local status=0
  cc -x assembler -c -o "$out/stack.o" - || stop "the assembly code does not compile"
  tools/stack "$out/stack.o" >"$out/stack" 2>"$log" || status=$?
  is "tools/stack: status" "$1" "$status"
  is "tools/stack" "$2" "$(xargs <"$out/stack")"
}

# bytes by hand: return address, pushed register and 5,000 of the call; the same of what it calls, with 16
depth 0 "5040 vichrelka_deep" <<'END'
vichrelka_deep:
    push %rbx
    sub $5000, %rsp
    call below
    add $5000, %rsp
    pop %rbx
    ret
below:
    sub $16, %rsp
    add $16, %rsp
    ret
END
depth 1 "" <<'END'
vichrelka_round:
    call below
    ret
below:
    call vichrelka_round
    ret
END
tools/stack "$archive" >"$out/stack" || fail "tools/stack fails on the archive"
is "the calls of which the stack is known" "${calls[*]}" "$(awk '{ print $2 }' "$out/stack" | sort | xargs)"
# the header says less than 5 KB, and 128 bytes may be used below the deepest frame
is "calls that take too much stack" "" "$(awk '$1 + 128 >= 5120' "$out/stack")"
# the figures that the header leads to
sed -n '/Bytes of stack/,/^$/p' docs/TRUST.md >"$out/figures"
while read -r bytes call; do
  bytes=$(sed -E 's/([0-9])([0-9]{3})$/\1,\2/' <<<"$bytes")
  if grep -q "[ (]$bytes\b" "$out/figures"; then pass; else fail "$call takes $bytes bytes of stack, and docs/TRUST.md does not say so"; fi
done <"$out/stack"

tried=
for compiler in cc gcc clang; do by "$compiler" c c99 c11 c2x; done
for compiler in c++ g++ clang++; do by "$compiler" c++ c++98 c++11 c++17 c++20; done
finish
