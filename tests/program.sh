#!/usr/bin/env bash
# The programs that check a listing, listing_check and load_check, and the script ./listing-check for people. The programs are held to the examples of
# examples/listings, whose answers were written from the customer's rules, to the edges of their input (none, the limit and one byte more, small pieces, a read
# or a write that fails), load_check also to what the library's load answers (the program test_loads), and the script to the places, the words and the exit
# statuses that it adds. What must fail is tried too: a wrong example, and a folder with none.
# Last line: `N passed, M failed`, counting comparisons.
set -uo pipefail
cd "$(dirname "$0")/.." || exit 2
check=$PWD/target/bin/listing_check
load=$PWD/target/bin/load_check
library=$PWD/target/bin/test_loads
program=$check
script=./listing-check
what=program
out=target/tests/program
. tests/texts.bash
rm -rf "$out"
mkdir -p "$out"
ulimit -c 0

# answers WHAT EXPECTED: what the program makes of standard input, with nothing on the error stream
answers() {
  "$program" >"$out/answer" 2>"$out/said"
  same "$1" "$2" "$out/answer"
  same "$1, error stream" /dev/null "$out/said"
}

# examples FOLDER: the program on every example
examples() {
  local listing expected count=0
  for listing in "$1"/*.listing; do
    [ -e "$listing" ] || break
    count=$((count + 1))
    expected=${listing%.listing}.expected
    if [ -f "$expected" ]; then
      answers "$listing" "$expected" <"$listing"
    else
      fail "$listing has no $expected beside it"
    fi
  done
  [ "$count" -gt 0 ] || fail "$1 has no example"
}

tools/prove check listing_check load_check test_loads >"$out/build.log" 2>&1 ||
  stop "'tools/prove check listing_check load_check test_loads' failed: run it to see why"
for made in "$check" "$load" "$library"; do
  [ -x "$made" ] || stop "there is no $made"
done

# ---- the examples

folder=examples/listings
examples "$folder"
for expected in "$folder"/*.expected; do
  [ -f "${expected%.expected}.listing" ] || fail "$expected has no listing beside it"
done
for listing in "$folder"/*.listing; do
  has "the table of examples" "\`${listing##*/}\`" "$folder/README.md"
done
for number in 20 21 22 24; do
  if grep -qs "^refused $number at " "$folder"/*.expected; then pass; else fail "no example is refused with $number"; fi
done

# an example with another answer is told, with both texts; so is a folder without examples
mkdir -p "$out/wrong" "$out/none"
cp "$folder/24-words-after.listing" "$out/wrong"
echo "refused 24 at 127" >"$out/wrong/24-words-after.expected"
(failed=0 && examples "$out/wrong" && exit "$failed") >"$out/wrong.log"
is "an example with a wrong answer" 1 $?
has "the answer that was expected of it" "refused 24 at 127" "$out/wrong.log"
has "the answer that it got" "refused 24 at 128" "$out/wrong.log"
(failed=0 && examples "$out/none" && exit "$failed") >"$out/none.log"
is "a folder without examples" 1 $?

# ---- the examples as a load answers them

# as_loaded LISTING: what load_check has to print: NAME.load; where there is none, the listing is faulty, and a load says what the check says
as_loaded() {
  if [ -f "${1%.listing}.load" ]; then echo "${1%.listing}.load"; else echo "${1%.listing}.expected"; fi
}

# loaded WHAT: does the library's load answer what load_check has just printed, in $out/answer? The listing is on standard input
loaded() {
  { echo '%x' && cat; } | "$library" >"$out/library" 2>/dev/null
  case $(head -n 1 "$out/answer") in
  'names '*) has "$1: the library" "x: loaded, answer 0" "$out/library" ;;
  *) has "$1: the library" "x: $(head -n 1 "$out/answer"), all bytes as they were" "$out/library" ;;
  esac
}

# loads WHAT EXPECTED: the listing on standard input, loaded by both
loads() {
  cat >"$out/listing"
  program=$load
  answers "$1" "$2" <"$out/listing"
  program=$check
  loaded "$1" <"$out/listing"
}

for listing in "$folder"/*.listing; do
  grep -qs '^refused' "$(as_loaded "$listing")" || is "$listing: its .load" "${listing%.listing}.load" "$(as_loaded "$listing")"
  loads "$listing, loaded" "$(as_loaded "$listing")" <"$listing"
done
for number in 32 35; do
  if grep -qs "^refused $number at 0" "$folder"/*.load; then pass; else fail "no example is refused with $number"; fi
done
# an example with another answer is told: by its own text, and by the library
echo "names 65" >"$out/expected"
(failed=0 && loads "wrong" "$out/expected" <"$folder/35-repeated.listing" && exit "$failed") >"$out/wrong.log"
is "a load with a wrong answer" 1 $?
cp "$folder/site.load" "$out/answer"
(failed=0 && loaded "wrong" <"$folder/35-repeated.listing" && exit "$failed") >"$out/wrong.log"
is "a load of which the library says something else" 1 $?

# names COUNT: as many names, a record each
names() {
  awk -v n="$1" 'BEGIN { for (i = 1; i <= n; i++) printf "n%d.example. A 192.0.2.1\n", i }'
}

# the offsets below are counted by hand: `a.example. A 192.0.2.1` has 22 bytes and its line end, and so with any one letter and the last digit
line() {
  printf '%s.example. %s\n' "$1" "${2:-A 192.0.2.1}"
}
said_by_load() {
  printf '%s\n' "$@" >"$out/expected"
}
said_by_load "names 0"
loads "nothing" "$out/expected" </dev/null
said_by_load "names 1"
{ line a; line A 'AAAA 1:2:3:4:5:6:7:8'; line a 'DHCID AAABxLmlskllE0MVjd57zHcWmEH3pCQ6VytcKD//7es/deY='; } >"$out/one"
loads "three records of one name" "$out/expected" <"$out/one"
said_by_load "names 64"
names 64 >"$out/64"
loads "64 names" "$out/expected" <"$out/64"
said_by_load "refused 32 at 0" "names 65"
names 65 >"$out/65"
loads "65 names" "$out/expected" <"$out/65"
said_by_load "refused 32 at 0" "names 300"
names 300 >"$out/300"
loads "300 names" "$out/expected" <"$out/300"
said_by_load "refused 35 at 0" "a.example. A at 0 and 23"
{ line a; line a; } >"$out/twice"
loads "a record twice" "$out/expected" <"$out/twice"
{ line a; line A 'A 192.0.2.2'; } >"$out/case"
loads "another address, and the name in upper case" "$out/expected" <"$out/case"
# behind 65 names: nine lines such as `n1.example. A 192.0.2.1` with 24 bytes, and 56 with 25: 9 * 24 + 56 * 25 = 1616
said_by_load "refused 35 at 0" "n1.example. A at 0 and 1616"
{ cat "$out/65"; line n1; } >"$out/65-twice"
loads "65 names and a record twice" "$out/expected" <"$out/65-twice"
# the second record decides which two: b's stands before a's
said_by_load "refused 35 at 0" "b.example. A at 23 and 46"
{ line a; line b; line b; line a; } >"$out/two-pairs"
loads "two pairs" "$out/expected" <"$out/two-pairs"
# and the first of them is the first there is
said_by_load "refused 35 at 0" "a.example. A at 0 and 46"
{ line a; line b; line a; line a; } >"$out/thrice"
loads "a record three times" "$out/expected" <"$out/thrice"
# comments, empty lines and parentheses do not count, and their bytes do: 4, 1, 23, and 18 + 18 for the entry over two lines
said_by_load "refused 35 at 0" "b.example. AAAA at 28 and 64"
{ printf '; x\n\n'; line a; line b 'AAAA (\n 1:2:3:4:5:6:7:8)' | sed 's/\\n/\n/'; line B 'IN aaaa 1:2:3:4:5:6:7:9'; } >"$out/spread"
loads "a record over two lines" "$out/expected" <"$out/spread"
# a DHCID twice, with other words between
said_by_load "refused 35 at 0" "a.example. DHCID at 0 and 89"
{ line a 'DHCID AAABxLmlskllE0MVjd57zHcWmEH3pCQ6VytcKD//7es/deY='; line a; line a 'DHCID AAIBY2/AuCccgoJbsaxcQc9TUapptP69lOjxfNuVAA2kjEA='; } >"$out/dhcids"
loads "two DHCIDs" "$out/expected" <"$out/dhcids"
# a fault of reading comes first, also behind the records that are alike
said_by_load "refused 24 at 46"
{ line a; line a; line b 'A 192.0.2'; } >"$out/fault-after"
loads "a record twice, and a fault after it" "$out/expected" <"$out/fault-after"
# the longest line there is: a name of 254 bytes and a DHCID twice, 310 bytes
awk 'BEGIN {
  label = sprintf("%63s", ""); gsub(/ /, "a", label)
  for (i = 0; i < 2; i++) printf "%s.%s.%s.%s. DHCID AAABxLmlskllE0MVjd57zHcWmEH3pCQ6VytcKD//7es/deY=\n", label, label, label, substr(label, 1, 61)
}' >"$out/long-twice"
said_by_load "refused 35 at 0" "$(head -n 1 "$out/long-twice" | cut -d ' ' -f 1,2) at 0 and 310"
loads "the longest line twice" "$out/expected" <"$out/long-twice"

# ---- how much

# records COUNT: so many records, as the writer spells them, each head with an address
records() {
  awk -v n="$1" 'BEGIN { for (i = 1; i <= n; i++) printf "head-%d.bay3.example.net. A 192.0.2.%d\n", i, i % 256 }'
}

# padded RECORDS SIZE: the records, and comment lines up to SIZE bytes
padded() {
  cat "$1"
  awk -v left="$(($2 - $(wc -c <"$1")))" 'BEGIN {
    for (; left > 100; left -= 80) printf ";%78s\n", "column"
    if (left > 0) printf ";%*s", left - 1, ""
  }'
}

answers "no input" /dev/null </dev/null
records 1500 >"$out/records"
padded "$out/records" 65536 >"$out/limit"
is "the size of a listing at the limit" 65536 "$(($(wc -c <"$out/limit")))"
answers "65,536 bytes" "$out/records" <"$out/limit"
echo "refused 17 at 0" >"$out/long"
padded "$out/records" 65537 >"$out/over"
is "the size of a listing over the limit" 65537 "$(($(wc -c <"$out/over")))"
answers "65,537 bytes" "$out/long" <"$out/over"
padded "$out/records" 200000 >"$out/far-over"
answers "200,000 bytes" "$out/long" <"$out/far-over"
head -c 65537 /dev/zero >"$out/zeros"
answers "65,537 bytes, none of them allowed" "$out/long" <"$out/zeros"
program=$load
answers "65,537 bytes, loaded" "$out/long" <"$out/over"
answers "200,000 bytes, loaded" "$out/long" <"$out/far-over"
names 64 >"$out/records-64"
padded "$out/records-64" 65536 >"$out/limit-64"
said_by_load "names 64"
answers "65,536 bytes, loaded" "$out/expected" <"$out/limit-64"
padded "$out/records-64" 65537 >"$out/over-64"
answers "65,537 bytes of 64 names, loaded" "$out/long" <"$out/over-64"
program=$check

# the longest lines, 310 bytes each: owners of 254 bytes in text, each another, and DHCIDs. As they are spelled already, they come out as they are
awk 'BEGIN {
  label = sprintf("%63s", ""); gsub(/ /, "a", label)
  last = substr(label, 1, 58)
  for (i = 100; i < 311; i++) printf "%s.%s.%s.%s%d. DHCID AAABxLmlskllE0MVjd57zHcWmEH3pCQ6VytcKD//7es/deY=\n", label, label, label, last, i
}' >"$out/longest"
is "the size of 211 longest lines" 65410 "$(($(wc -c <"$out/longest")))"
answers "the longest lines" "$out/longest" <"$out/longest"

# ---- in pieces

# pieces FILE SIZE PAUSE: the file, so many bytes at a time
pieces() {
  local size at=0
  size=$(wc -c <"$1")
  while [ "$at" -lt "$size" ]; do
    dd if="$1" bs="$2" skip="$((at / $2))" count=1 2>/dev/null
    at=$((at + $2))
    sleep "$3"
  done
}

answers "a listing in pieces" "$folder/site.expected" < <(pieces "$folder/site.listing" 97 0.02)
answers "65,536 bytes in pieces" "$out/records" < <(pieces "$out/limit" 4000 0)
answers "65,537 bytes in pieces" "$out/long" < <(pieces "$out/over" 4000 0)

# ---- a read or a write that fails

for program in "$check" "$load"; do
  echo "${program##*/}: standard input could not be read" >"$out/no-read"
  echo "${program##*/}: standard output could not be written" >"$out/no-write"
  "$program" <"$folder" >"$out/answer" 2>"$out/said"
  same "a folder as input" /dev/null "$out/answer"
  same "a folder as input, error stream" "$out/no-read" "$out/said"
  "$program" <&- >"$out/answer" 2>"$out/said"
  same "no input at all" /dev/null "$out/answer"
  same "no input at all, error stream" "$out/no-read" "$out/said"
  "$program" <"$folder/site.listing" 2>"$out/said" >&-
  same "no output, error stream" "$out/no-write" "$out/said"
  "$program" <"$folder/20-crlf.listing" 2>"$out/said" >&-
  same "no output for a refusal, error stream" "$out/no-write" "$out/said"
  if [ -e /dev/full ]; then
    "$program" <"$out/limit" 2>"$out/said" >/dev/full
    same "a full disk, error stream" "$out/no-write" "$out/said"
  fi
done
program=$check

# ---- the script

# scripted WHAT STATUS EXPECTED [ARGUMENT..]: the script's exit status and its output, with the tools on $path
path=$PATH
scripted() {
  local what=$1 status=$2 expected=$3
  shift 3
  PATH=$path "$script" "$@" >"$out/answer" 2>"$out/said"
  is "$what: status" "$status" $?
  same "$what: output" "$expected" "$out/answer"
}

# words KEY: the script has said what docs/REFUSALS.md says of a number, in both of its tables, or of a number and a word, in one row
words() {
  local rows column told
  told=$(tr -s ' \n' ' ' <"$out/said")
  case $1 in
  *' '*) rows=$(grep -F "| $1 |" docs/REFUSALS.md | sed 's/^| [^|]* | //; s/ |$//; s/ | /\n/') ;;
  *) rows=$(grep "^| $1 |" docs/REFUSALS.md | sed 's/^| [0-9]* | //; s/^`[A-Z_]*` | //; s/ |.*//') ;;
  esac
  is "docs/REFUSALS.md's words for $1" 2 "$(($(printf '%s\n' "$rows" | wc -l)))"
  while read -r column; do
    case $told in *"$column"*) pass ;; *)
      fail "refusal $1: expected the words '$column', but the script says"
      show "$out/said"
      ;;
    esac
  done <<<"$rows"
}

# place FILE NUMBER LINE KEY: a damaged example is shown at the beginning of its line, which follows
place() {
  local listing=$folder/$1.listing
  scripted "$listing" 1 "$folder/$1.expected" "$listing"
  is "$listing: where" "$listing:$3:1: refused $2" "$(head -n 1 "$out/said" | grep -o '^[^:]*:[0-9]*:[0-9]*: refused [0-9]*')"
  is "$listing: the entry" "$(sed -n "$3p" "$listing" | head -c 70 | cat -v | head -c 60)" "$(sed -n '2s/^    | //p' "$out/said" | head -c 60)"
  words "$4"
}

# the lines and the columns are counted by hand
place 20-crlf 20 1 '20 13'
has "20-crlf: the byte" ": byte 13 in line 1, column 101" "$out/said"
place 20-degree-sign 20 3 '20 byte'
has "20-degree-sign: the byte" ": byte 194 in line 3, column 52" "$out/said"
has "20-degree-sign: the byte made visible" "21 M-BM-0C" "$out/said"
place 20-nested 20 3 '20 parenthesis'
has "20-nested: the second (" ": ( in line 4, column 32" "$out/said"
has "20-nested: its lines" "(and 1 line more)" "$out/said"
place 20-stray 20 3 '20 parenthesis'
has "20-stray: the )" ": ) in line 3, column 50" "$out/said"
place 20-unclosed 20 3 '20 parenthesis'
has "20-unclosed: its (" ": ( in line 3, column 32" "$out/said"
has "20-unclosed: its lines" "(and 2 lines more)" "$out/said"
place 21-indented 21 3 21
place 21-no-final-dot 21 3 21
place 22-unknown-type 22 3 22
place 22-lifetime 22 3 22
place 22-type-missing 22 3 22
place 24-leading-zero 24 3 '24 A'
place 24-double-colon 24 3 '24 AAAA'
place 24-words-after 24 3 '24 A'
place 24-dhcid-line-lost 24 4 '24 DHCID'
has "24-dhcid-line-lost: its lines" "(and 1 line more)" "$out/said"
place 24-first-of-two 24 3 '24 A'
is "a fault of one line: no others are counted" "" "$(grep 'more)' "$out/said")"

# the type behind IN, in lower case and on a second line; no type at all is not asked for; a line that is too wide
echo "a.example. ( in ; a comment
 aaaa 1:2 )" >"$out/typed"
echo "refused 24 at 0" >"$out/typed.expected"
scripted "a type on the second line" 1 "$out/typed.expected" "$out/typed"
words '24 AAAA'
{ line a; printf '$TTL 3600\n'; } >"$out/directive"
echo "refused 21 at 23" >"$out/directive.expected"
scripted "a directive" 1 "$out/directive.expected" "$out/directive"
has "a directive: where" "$out/directive:2:1: refused 21: " "$out/said"
words '21 $'
awk 'BEGIN { printf "a.example. A "; for (i = 0; i < 40; i++) printf "12345"; print "" }' >"$out/wide"
scripted "a wide line" 1 "$out/typed.expected" "$out/wide"
# 90 bytes of it: 13, and 15 times 12345, and 12
has "a wide line is cut" "    | a.example. A $(awk 'BEGIN { for (i = 0; i < 15; i++) printf "12345" }')12..." "$out/said"
printf 'a.example. A 1.2.3.4 \000\n' >"$out/zero"
echo "refused 20 at 0" >"$out/zero.expected"
scripted "a zero byte" 1 "$out/zero.expected" "$out/zero"
has "a zero byte: which" ": byte 0 in line 1, column 22" "$out/said"

scripted "17" 1 "$out/long" "$out/far-over"
has "17: where" "$out/far-over: refused 17: " "$out/said"
has "17: the size" "200000" "$out/said"
words 17
scripted "a right listing" 0 "$folder/site.expected" "$folder/site.listing"
same "a right listing: error stream" /dev/null "$out/said"
scripted "standard input" 0 "$folder/site.expected" <"$folder/site.listing"
scripted "standard input by name" 1 "$folder/21-indented.expected" - <"$folder/21-indented.listing"
has "standard input: where" "(standard input):3:1: refused 21: " "$out/said"
scripted "a stream" 1 "$folder/24-words-after.expected" <(cat "$folder/24-words-after.listing")
has "a stream: where" ":3:1: refused 24: " "$out/said"
for listing in site 22-lifetime site; do
  sed "s,^,$folder/$listing.listing: ," "$folder/$listing.expected"
done >"$out/three"
scripted "three listings, one refused" 1 "$out/three" "$folder/site.listing" "$folder/22-lifetime.listing" "$folder/site.listing"
scripted "a listing that is not there, and two others" 2 "$out/three" "$folder/site.listing" "$out/nowhere" "$folder/22-lifetime.listing" "$folder/site.listing"
has "a listing that is not there" "$out/nowhere" "$out/said"
scripted "a folder" 2 /dev/null "$folder"
has "a folder" "$folder: is a folder: name its files" "$out/said"
scripted "a folder as standard input" 2 /dev/null <"$folder"
for option in --nonsense -x --loads; do
  scripted "the option $option" 2 /dev/null "$option" "$folder/site.listing"
  has "the option $option" "no such option: $option" "$out/said"
  has "the option $option: the usage" "usage: listing-check" "$out/said"
done

# ---- the options

echo "listing-check $(sed -n 's/^VERSION = //p' Makefile)" >"$out/version"
scripted "--version" 0 "$out/version" --version
is "the version" 1 "$(grep -c '^listing-check [0-9]*\.[0-9]*\.[0-9]*$' "$out/version")"
PATH=$path "$script" --help >"$out/answer"
has "--help" "usage: listing-check" "$out/answer"
cp "$folder/site.listing" "$out/-q"
(cd "$out" && ../../../listing-check -- -q) >"$out/answer" 2>"$out/said"
is "a file behind --: status" 0 $?
same "a file behind --" "$folder/site.expected" "$out/answer"
scripted "-q, right" 0 /dev/null -q "$folder/site.listing"
same "-q, right: error stream" /dev/null "$out/said"
scripted "-q, refused" 1 /dev/null -q "$folder/24-words-after.listing" "$folder/site.listing"
same "-q, refused: error stream" /dev/null "$out/said"
scripted "-q, not there" 2 /dev/null -q "$out/nowhere"
has "-q, not there" "$out/nowhere" "$out/said"

scripted "--load, right" 0 "$folder/site.load" --load "$folder/site.listing"
same "--load, right: error stream" /dev/null "$out/said"
scripted "--load, 35" 1 "$folder/35-repeated.load" --load "$folder/35-repeated.listing"
has "--load, 35: where" "$folder/35-repeated.listing:5:1: refused 35: " "$out/said"
has "--load, 35: which" ": acid-1.bay3.example.net. A, lines 3 and 5" "$out/said"
has "--load, 35: the first" "    | acid-1.bay3.example.net. A 192.0.2.31" "$out/said"
has "--load, 35: the second" "    | Acid-1.bay3.example.net. IN A 192.0.2.41 ; the new port" "$out/said"
has "--load, 35: what to do" "Keep the record that holds" "$out/said"
scripted "--load, 32" 1 "$folder/32-names.load" --load "$folder/32-names.listing"
has "--load, 32" "$folder/32-names.listing: refused 32: " "$out/said"
has "--load, 32: how many" ": 65 names, 1 too many" "$out/said"
has "--load, 32: what to do" "until 64 are left" "$out/said"
scripted "--load, a fault of reading" 1 "$folder/24-words-after.expected" --load "$folder/24-words-after.listing"
has "--load, a fault of reading: where" "$folder/24-words-after.listing:3:1: refused 24: " "$out/said"
scripted "--load, 17" 1 "$out/long" --load "$out/far-over"
scripted "--load, standard input" 1 "$folder/35-repeated.load" --load <"$folder/35-repeated.listing"
has "--load, standard input: which" "(standard input):5:1: refused 35: " "$out/said"
scripted "--load -q, 35" 1 /dev/null --load -q "$folder/35-repeated.listing"
scripted "the check alone calls them right" 0 "$folder/35-repeated.expected" "$folder/35-repeated.listing"

# every faulty entry: lines 2, 3, 4 and 6 of these; 23 bytes come before the first
{ line a; line b 'A 192.0.2'; printf 'b.example A 192.0.2.1\n$ORIGIN example.\n'; line c; line c 'CNAME a.example.'; line d; } >"$out/faults"
echo "refused 24 at 23" >"$out/faults.expected"
printf '2:1: refused 24\n3:1: refused 21\n4:1: refused 21\n6:1: refused 22\n' >"$out/faults.places"
for options in --all "--load --all"; do
  # shellcheck disable=SC2086
  scripted "$options" 1 "$out/faults.expected" $options "$out/faults"
  sed -n "s,^$out/faults:\([0-9]*:1: refused [0-9]*\):.*,\1,p" "$out/said" >"$out/places"
  same "$options: where" "$out/faults.places" "$out/places"
  has "$options: what it is" "a help, and not a verdict" "$out/said"
  sed -n 's/^    | //p' "$out/said" >"$out/entries"
  sed -n '2,4p; 6p' "$out/faults" >"$out/faults.entries"
  same "$options: the entries" "$out/faults.entries" "$out/entries"
done
scripted "without --all" 1 "$out/faults.expected" "$out/faults"
is "without --all: how many" 1 "$(grep -c ': refused ' "$out/said")"
scripted "--all, one fault" 1 "$folder/24-words-after.expected" --all "$folder/24-words-after.listing"
has "--all, one fault" "there is no other" "$out/said"
scripted "--all, every line of two bytes at its end" 1 "$folder/20-crlf.expected" --all "$folder/20-crlf.listing"
is "--all, every line: how many" 3 "$(grep -c ': refused 20: ' "$out/said")"
is "--all, every line: what to do, once" 1 "$(grep -c 'drops them all' "$out/said")"
awk 'BEGIN { for (i = 1; i <= 101; i++) print "a.example. A 192.0.2" }' >"$out/101"
echo "refused 24 at 0" >"$out/101.expected"
scripted "--all, 101 faults" 1 "$out/101.expected" --all "$out/101"
is "--all, 101 faults: how many are shown" 100 "$(grep -c ': refused 24: ' "$out/said")"
has "--all, 101 faults" "there are more: the first 100 are shown" "$out/said"
head -n 100 "$out/101" >"$out/100"
scripted "--all, 100 faults" 1 "$out/101.expected" --all "$out/100"
is "--all, 100 faults: how many are shown" 100 "$(grep -c ': refused 24: ' "$out/said")"
is "--all, 100 faults: no more" 0 "$(grep -c 'there are more' "$out/said")"
scripted "--all, right" 0 "$folder/site.expected" --all "$folder/site.listing"
same "--all, right: error stream" /dev/null "$out/said"
if [ "$(id -u)" -ne 0 ]; then
  cp "$folder/site.listing" "$out/secret"
  chmod 0 "$out/secret"
  scripted "a listing that may not be read" 2 /dev/null "$out/secret"
  chmod 600 "$out/secret"
fi
cp "$folder/21-no-final-dot.listing" "$out/a name: with blanks"
scripted "a name with blanks" 1 "$folder/21-no-final-dot.expected" "$out/a name: with blanks"
has "a name with blanks: where" "$out/a name: with blanks:3:1: refused 21: " "$out/said"

# the first use, in a copy of the repository with next to nothing in it: without the toolchain, with one that fails,
# and with one that builds; not below target/, since `rt ci` refuses links in the repository
scratch=$(mktemp -d "${TMPDIR:-/tmp}/vichrelka program.XXXXXX") || stop "no room for temporary files"
trap 'rm -rf "$scratch"' EXIT
fresh=$scratch/fresh
tools=$scratch/tools
mkdir -p "$fresh/docs" "$fresh/crates/listing_check" "$fresh/crates/load_check" "$fresh/tools" "$tools"
cp listing-check "$fresh"
cp docs/REFUSALS.md "$fresh/docs"
cp tools/prove "$fresh/tools"
for tool in awk cat cp dirname find fold grep head mkdir mktemp mv od readlink rm sed sh tail tee touch wc; do
  ln -s "$(command -v "$tool")" "$tools/$tool" || stop "$tool is missing"
done
script=$fresh/listing-check
path=$tools
scripted "no toolchain" 2 /dev/null "$folder/site.listing"
has "no toolchain" "rt, the Rattle toolchain" "$out/said"
printf '#!/bin/sh\necho "it is broken" >&2\nexit 1\n' >"$tools/rt"
chmod +x "$tools/rt"
scripted "a build that fails" 2 /dev/null "$folder/site.listing"
has "a build that fails" "it is broken" "$out/said"
has "a build that fails, what to do" "tools/prove check listing_check" "$out/said"
cat >"$tools/rt" <<'END'
#!/bin/sh
exec >&2
echo "crate base: modules loaded=1 checked=39"
echo "logic=proved functions=1 incremental=trusted"
echo "src/a.rt:1:1: error: the cause"
for i in 1 2 3 4 5 6 7; do echo "src/b.rt: error: what follows"; done
exit 1
END
scripted "a build with errors" 2 /dev/null --load "$folder/site.listing"
has "a build with errors: the first" "crates/load_check/src/a.rt:1:1: error: the cause" "$out/said"
is "a build with errors: no others" 0 "$(grep -c 'what follows' "$out/said")"
has "a build with errors: what was proved" "listing-check: base proved" "$out/said"
has "a build with errors, what to do" "tools/prove check load_check" "$out/said"
# rt runs what it has built, and its exit status is then the program's own
cat >"$tools/rt" <<END
#!/bin/sh
[ "\${PWD##*/} \$*" = "listing_check run" ] || exit 1
exec >&2
echo "library base: modules loaded=23 checked=0"
echo "crate text: modules loaded=1 checked=39"
echo "logic=proved functions=1 incremental=trusted"
mkdir -p out && cat '$program' >out/listing_check && chmod +x out/listing_check
echo "rt: running out/listing_check; to give it other input, run that file yourself"
exit 1
END
ln -s "$(command -v chmod)" "$tools/chmod"
scripted "the first use" 0 "$folder/site.expected" "$folder/site.listing"
has "the first use" "proving and building" "$out/said"
has "the first use: a line for a crate" "listing-check: text proved" "$out/said"
is "the first use: none for a crate that is proved already" 0 "$(grep -c 'base proved' "$out/said")"
scripted "the second use" 0 "$folder/site.expected" "$folder/site.listing"
same "the second use: error stream" /dev/null "$out/said"
rm "$tools/rt"
touch -d '1 minute' "$fresh/crates/newer"
scripted "newer sources without the toolchain" 0 "$folder/site.expected" "$folder/site.listing"
has "newer sources without the toolchain" "WARNING" "$out/said"

finish
