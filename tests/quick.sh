#!/usr/bin/env bash
# The small example of README.md, examples/quick.c: built by the line that it says itself, and as C99 without a warning by each compiler that is
# there. What it prints is compared with examples/quick.expected, which has the DHCID of RFC 4701, 3.6.2; Python makes that too. Then programs with
# one thing wrong, which have to be told. Last line: `N passed, M failed`, counting comparisons.
set -uo pipefail
cd "$(dirname "$0")/.." || exit 2
. tests/from_c.bash
begin quick
expected=examples/quick.expected

# prints WHAT PROGRAM: the program prints what is expected, and its status is 0
prints() {
  "$2" >"$out/printed" 2>&1
  is "$1: status" 0 $?
  same "$1" "$expected" "$out/printed"
}

# ---- the line in its comment; tests/install.sh compiles with what pkg-config prints, here the archive is in its place

line=$(sed -n 's,^ *\(cc .*\) && \./quick \*/$,\1,p' examples/quick.c)
is "the line that compiles it" "cc quick.c \$(pkg-config --cflags --libs vichrelka) -o quick" "$line"
line=${line/\$(pkg-config --cflags --libs vichrelka)/-Iinclude $archive}
line=${line/ quick.c/ examples/quick.c}
${line/-o quick/-o $out/quick} || stop "quick.c does not compile"
prints "as it says" "$out/quick"

# ---- without a warning

for compiler in cc clang; do
  command -v "$compiler" >/dev/null || { echo "quick: there is no $compiler, so without it"; continue; }
  if "$compiler" -std=c99 -Wall -Wextra -Wpedantic -Werror -Iinclude -o "$out/quick_$compiler" examples/quick.c "$archive"; then
    prints "$compiler" "$out/quick_$compiler"
  else
    fail "$compiler warns of quick.c"
  fi
done

# ---- the DHCID, by Python from RFC 4701's definition and nothing of the library

python3 - >"$out/made" <<'PYTHON'
import base64
import hashlib

identifier = bytes.fromhex("010708090a0b0c")  # type 1: the data of option 61
name = b"\3chi\7example\3com\0"
dhcid = base64.b64encode(b"\0\1\1" + hashlib.sha256(identifier + name).digest()).decode()
print("chi.example.com. A 192.0.2.7\nchi.example.com. DHCID " + dhcid)
PYTHON
same "what Python makes" "$expected" "$out/made"

# ---- one thing wrong: it prints something else, or says that it is refused

# wrong WHAT SED STATUS: quick.c with this changed has this status and does not print what is expected
wrong() {
  sed "$2" examples/quick.c >"$out/wrong.c"
  ! cmp -s examples/quick.c "$out/wrong.c" || fail "$1: nothing is changed"
  cc -std=c99 -Iinclude -o "$out/wrong" "$out/wrong.c" "$archive" || stop "$1 does not compile"
  "$out/wrong" >"$out/printed"
  is "$1: status" "$3" $?
  if cmp -s "$expected" "$out/printed"; then fail "$1 is not told"; else pass; fi
}

wrong "another client" 's/11, 12, 255/11, 13, 255/' 0
has "another client" "chi.example.com. A 192.0.2.7" "$out/printed"
wrong "another name" 's/"chi\.example/"phi.example/' 0
wrong "a name without its last dot" 's/com\.", 16/com", 15/' 1
has "a name without its last dot" "refused: " "$out/printed"
wrong "no request" 's/53, 1, 3,/53, 1, 1,/' 1
wrong "an address of the other family" 's/VICHRELKA_IPV4, address/VICHRELKA_IPV6, address/' 1
finish
