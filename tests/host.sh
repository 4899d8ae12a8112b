#!/usr/bin/env bash
# The example gateway of examples/host, from C99 and again with AddressSanitizer and UBSan: the stored examples, the accident in three ways among them, then
# damaged messages, every refusal that a command can lead to, a full table, files that are not there and lines that are no commands. Then books of names: what a
# power cut can leave of the last block, damaged ones, too large ones, and disks that are full. Then leases and ended leases with their reverse names, cut wherever the
# power can fail (docs/POWER.md), and a reverse side that is full or damaged. Then messages for a name server, compared with ones that are put together here, and every
# code of an answer to each. What it says is compared byte for byte, and its exit status. The DHCIDs of the examples are compared with those that Python makes from RFC 4701's definition. The words of a refusal are the
# header's: what is expected here has its number, and `...`.
# Last line: `N passed, M failed`, counting comparisons.
set -uo pipefail
cd "$(dirname "$0")/.." || exit 2
. tests/from_c.bash
begin host
sanitizers
folder=examples/host
top=$PWD/$out
hosts=("$top/host")
# shellcheck disable=SC2086
cc -std=c99 -O2 $warn -Iinclude -o "$out/host" "$folder/host.c" "$archive" || stop "host.c does not compile"
if [ -n "$sanitize" ]; then
  # shellcheck disable=SC2086
  cc -std=c99 -O1 -g $warn $sanitize -Iinclude -o "$out/sanitized" "$folder/host.c" "$archive" || stop "host.c does not compile with sanitizers"
  hosts+=("$top/sanitized")
fi
run=$top/run
rm -rf "$run"
mkdir -p "$run"
cp "$folder"/*.in "$folder"/*.hex "$folder"/*.listing "$run"

# a sed script that puts the header's words behind the number of a refusal
cat >"$out/words.c" <<'END'
#include <stdio.h>
#include <string.h>
#include <vichrelka.h>

int main(void)
{
    unsigned number;
    printf("/: refused /!b\n");
    for (number = 1; number < 64; number++) {
        const char *words = vichrelka_refusal_text(number);
        printf("s|\\(: refused %u\\( at [0-9]*, line [0-9]*\\)\\{0,1\\}: \\).*|\\1", number);
        for (; *words != '\0'; words++)
            printf("%s%c", strchr("&|\\", *words) != NULL ? "\\" : "", *words);
        printf("|\n");
    }
    return 0;
}
END
# shellcheck disable=SC2086
cc -std=c99 $warn -Iinclude -o "$out/words" "$out/words.c" || stop "the header's words are not to be had"
"$out/words" >"$out/words.sed"

# told WHAT STATUS EXPECTED [ARGUMENT]: each host, in the folder of the inputs, says what the file EXPECTED has, with the header's words, and exits with STATUS; commands
# are on standard input. No books are there but those of the folder $books, as books/; $left is a folder with what has to be left of them
told() {
  local what_for=$1 status=$2 expected=$out/worded host got
  sed -f "$out/words.sed" "$3" >"$expected"
  shift 3
  cat >"$out/commands"
  for host in "${hosts[@]}"; do
    rm -rf "$run"/*.book* "$run/books"
    [ -z "${books:-}" ] || cp -r "$books" "$run/books"
    (cd "$run" && exec "$host" "$@") <"$out/commands" >"$out/told" 2>"$out/errors"
    got=$?
    is "$what_for, ${host##*/}: status" "$status" "$got"
    same "$what_for, ${host##*/}" "$expected" "$out/told"
    same "$what_for, ${host##*/}: error stream" "${errors:-/dev/null}" "$out/errors"
    [ -z "${left:-}" ] || is "$what_for, ${host##*/}: the books that are left" "" "$(diff -rq "$left" "$run/books" 2>&1 | head -n 5)"
  done
}

# ---- the stored examples

for input in "$folder"/*.in; do
  told "${input##*/}" 1 "${input%.in}.expected" <"$input"
done
told "commands from a file" 1 "$folder/accident-line-lost.expected" accident-line-lost.in </dev/null
for expected in "$folder"/*.expected; do
  [ -f "${expected%.expected}.in" ] || fail "$expected has no input beside it"
  sed -f "$out/words.sed" "$expected" >"$out/text"
  same "the header's words (sed -i -f $out/words.sed $folder/*.expected puts them in): ${expected##*/}" "$out/text" "$expected"
done
(failed=0 && told "a wrong answer" 1 "$folder/day.expected" <"$folder/accident-whole.in" && exit "$failed") >"$out/wrong.log"
is "a wrong answer is told, once for each host" "${#hosts[@]}" $?

# what came over whole, with its DHCIDs on two lines, is the table that was written
told "the listing again" 1 "$folder/accident-whole.expected" <"$folder/accident-whole.in"
same "the old gateway's listing and the new one's" "$run/old.listing" "$run/new.listing"
# the damaged ones are the whole one without the lines that README.md says
sed 5d "$folder/carried-whole.listing" >"$out/text"
same "carried-line-lost.listing" "$out/text" "$folder/carried-line-lost.listing"
sed 4,6d "$folder/carried-whole.listing" >"$out/text"
same "carried-entry-lost.listing" "$out/text" "$folder/carried-entry-lost.listing"
# the DHCIDs that the host shows are all those, and no others, that Python makes
python3 "$folder/dhcids.py" | sed 's/ / DHCID /' | sort >"$out/dhcids"
grep -h '^[^; ]* DHCID ' "$folder"/*.expected | sort -u >"$out/shown"
same "the DHCIDs" "$out/dhcids" "$out/shown"

# ---- damaged messages, and the other refusals of a request: what makes them, and the answer

# message NAME SED: the acid head's message, changed
message() {
  sed "$2" "$folder/acid-1.hex" >"$run/$1.hex"
  ! cmp -s "$folder/acid-1.hex" "$run/$1.hex" || fail "$1.hex is the acid head's own"
}

message 1-short '/^63 82/d; /^35 01/,/^ff /d'
message 1-long '/^ff /s/ff/ff 00/'
head -c 3600 /dev/zero | tr '\0' 0 >>"$run/1-long.hex"
message 2-reply 's/^01 01 06 00/02 01 06 00/'
message 3-hlen 's/^01 01 06 00/01 01 11 00/'
message 4-no-end '/^ff /d'
message 5-twice '/^35 01 03/s/^/35 01 03 /'
message 6-overload '/^35 01 03/s/^/34 01 01 /'
message 7-discover 's/^35 01 03/35 01 01/'
message 8-identifier '/^3d 07/s/.*/3d 01 00/'
message 9-no-name '/^51 1c/,/^00$/d'
message odd '/^ff /s/ff/f/'
message words '/^ff /s/ff/end/'
: >"$run/empty.hex"
# relays around the feed head's message: type 12, 33 bytes of hops and addresses, option 9 with what is inside
relayed=$(sed 's/;.*//' "$folder/feed-1.hex" | tr -d ' \n')
for relay in 1 2 3 4 5 6 7 8 9; do
  relayed=0c$(printf '%066d' 0)0009$(printf '%04x' $((${#relayed} / 2)))$relayed
  echo "$relayed" >"$run/relays-$relay.hex"
done
mkdir "$run/folder.hex"
sed 's/$/ 192.0.2.31/; s/^/request 4 /' >"$out/text" <<'END'
1-short.hex
1-long.hex
empty.hex
2-reply.hex
3-hlen.hex
4-no-end.hex
5-twice.hex
6-overload.hex
7-discover.hex
8-identifier.hex
9-no-name.hex
odd.hex
words.hex
nowhere.hex
folder.hex
END
cat >>"$out/text" <<'END'
request 6 relays-9.hex 2001:db8:0:3:0:0:0:21
request 6 relays-8.hex 2001:db8:0:3:0:0:0:21
request 5 acid-1.hex 192.0.2.31
request 44 acid-1.hex 192.0.2.31
request 6 acid-1.hex 192.0.2.31
request 4 acid-1.hex 2001:db8:0:3:0:0:0:1f
request 4 acid-1.hex 192.0.2
request 4 acid-1.hex 192.0.2.31;
request 4 acid-1.hex 2001:db8::1f
set site-name
request 4 acid-1.hex 192.0.2.31
release 4 9-no-name.hex 192.0.2.31
show
END
lost="no message: look whether the file is there, and has hexadecimal digits in pairs and nothing else"
wrong="no such command, or not with so many words; README.md has them all"
none="no address: write four numbers with dots, or eight groups of hexadecimal digits with colons"
cat >"$out/expected" <<END
request 4 1-short.hex 192.0.2.31: refused 1: ...
request 4 1-long.hex 192.0.2.31: refused 1: ...
request 4 empty.hex 192.0.2.31: refused 1: ...
request 4 2-reply.hex 192.0.2.31: refused 2: ...
request 4 3-hlen.hex 192.0.2.31: refused 3: ...
request 4 4-no-end.hex 192.0.2.31: refused 4: ...
request 4 5-twice.hex 192.0.2.31: refused 5: ...
request 4 6-overload.hex 192.0.2.31: refused 6: ...
request 4 7-discover.hex 192.0.2.31: refused 7: ...
request 4 8-identifier.hex 192.0.2.31: refused 8: ...
request 4 9-no-name.hex 192.0.2.31: refused 9: ...
request 4 odd.hex 192.0.2.31: $lost
request 4 words.hex 192.0.2.31: $lost
request 4 nowhere.hex 192.0.2.31: $lost
request 4 folder.hex 192.0.2.31: $lost
request 6 relays-9.hex 2001:db8:0:3:0:0:0:21: refused 11: ...
request 6 relays-8.hex 2001:db8:0:3:0:0:0:21: feed-1.bay3.example.net.: answer 0: the name was free and is now this client's
request 5 acid-1.hex 192.0.2.31: refused 12: ...
request 44 acid-1.hex 192.0.2.31: refused 12: ...
request 6 acid-1.hex 192.0.2.31: refused 7: ...
request 4 acid-1.hex 2001:db8:0:3:0:0:0:1f: acid-1.bay3.example.net.: refused 16: ...
request 4 acid-1.hex 192.0.2: $none
request 4 acid-1.hex 192.0.2.31;: $none
request 4 acid-1.hex 2001:db8::1f: $none
set site-name: done
request 4 acid-1.hex 192.0.2.31: refused 9: ...
release 4 9-no-name.hex 192.0.2.31: refused 9: ...
show: records: 2
feed-1.bay3.example.net. AAAA 2001:0db8:0000:0003:0000:0000:0000:0021
feed-1.bay3.example.net. DHCID $(python3 "$folder/dhcids.py" | sed -n 's/^feed-1[^ ]* //p')
END
told "requests that are refused" 2 "$out/expected" <"$out/text"

# ---- listings

# heads COUNT: so many names with an address
heads() {
  awk -v n="$1" 'BEGIN { for (i = 1; i <= n; i++) printf "head-%d.bay3.example.net. A 192.0.2.%d\n", i, i }'
}

{ echo '; records: 64' && heads 64; } >"$run/full.listing"
{ echo '; records: 64' && heads 65; } >"$run/over.listing"
heads 64 >"$run/no-count.listing"
{ echo '; records: 63 or so' && heads 64; } >"$run/vague.listing"
{ heads 2 && heads 1; } >"$run/twice.listing"
head -c 65537 /dev/zero >"$run/long.listing"
: >"$run/empty.listing"
for example in 20-unclosed 21-indented 22-lifetime; do
  cp "examples/listings/$example.listing" "$run"
done
cat >"$out/expected" <<END
load full.listing: records: 64, as many as were written
count: names: 64, and there is room for 0 more
find head-1.bay3.example.net.: slot 0, kept by hand
head-1.bay3.example.net. A 192.0.2.1
find HEAD-64.bay3.example.net.: slot 63, kept by hand
head-64.bay3.example.net. A 192.0.2.64
find head-65.bay3.example.net.: refused 33: ...
request 4 acid-1.hex 192.0.2.31: acid-1.bay3.example.net.: refused 32: ...
load over.listing: NOT LOADED: records: 65, but 64 were written; fetch the file again, or say \`load-anyway FILE\`
load-anyway over.listing: refused 32: ...
load twice.listing: refused 35: ...
load long.listing: refused 17 at 0, line 1: ...
load 20-unclosed.listing: $(cat examples/listings/20-unclosed.expected), line 3: ...
load 21-indented.listing: $(cat examples/listings/21-indented.expected), line 3: ...
load 22-lifetime.listing: $(cat examples/listings/22-lifetime.expected), line 3: ...
load nowhere.listing: cannot be read: look whether the file is there
load folder.hex: cannot be read: look whether the file is there
clear head-64.bay3.example.net.: answer 0: the name is free
request 4 acid-1.hex 192.0.2.31: acid-1.bay3.example.net.: answer 0: the name was free and is now this client's
request 4 base-1.hex 192.0.2.32: base-1.bay3.example.net.: refused 32: ...
write full-again.listing: records: 65
load full-again.listing: records: 65, as many as were written
write nowhere/full.listing: not written: look whether the folder is there, may be written and has room
write folder.hex: not written: look whether the folder is there, may be written and has room
load no-count.listing: records: 64, and the file does not say how many were written
load vague.listing: records: 64, and the file does not say how many were written
load empty.listing: records: 0, and the file does not say how many were written
show: records: 0
END
told "listings, and a full table" 2 "$out/expected" < <(sed -n 's/: .*//p' "$out/expected")
is "what a write leaves beside its file" "" "$(find "$run" -name '*.new')"

# names with a DHCID alone, side by side and at both ends, go, the last one first; the others stay in their order
dhcid="DHCID AAABxLmlskllE0MVjd57zHcWmEH3pCQ6VytcKD//7es/deY="
printf '%s\n' "gone-1. $dhcid" "gone-2. $dhcid" "held. AAAA 2001:db8:0:0:0:0:0:1" "held. $dhcid" "hand. A 192.0.2.1" "gone-3. $dhcid" >"$run/alone.listing"
cat >"$out/expected" <<END
load alone.listing: records: 6, and the file does not say how many were written
count: names: 5, and there is room for 59 more
find held.: slot 2, held by a client
held. AAAA 2001:0db8:0000:0000:0000:0000:0000:0001
held. $dhcid
clear-without-address: gone-3. gone-2. gone-1. names: 3
clear-without-address: names: 0
find held.: slot 0, held by a client
held. AAAA 2001:0db8:0000:0000:0000:0000:0000:0001
held. $dhcid
show: records: 3
held. AAAA 2001:0db8:0000:0000:0000:0000:0000:0001
held. $dhcid
hand. A 192.0.2.1
END
told "names with a DHCID alone" 0 "$out/expected" < <(sed -n 's/: .*//p' "$out/expected")

# a name goes with its last address, and those behind it move up; one that has another address stays where it is (document 02, K1)
acid="DHCID $(python3 "$folder/dhcids.py" | sed -n '1s/^acid-1[^ ]* //p')"
feed="DHCID $(python3 "$folder/dhcids.py" | sed -n 's/^feed-1[^ ]* //p')"
printf '%s\n' "acid-1.bay3.example.net. A 192.0.2.31" "acid-1.bay3.example.net. $acid" "feed-1.bay3.example.net. A 192.0.2.34" \
  "feed-1.bay3.example.net. AAAA 2001:db8:0:3:0:0:0:21" "feed-1.bay3.example.net. $feed" "hand. A 192.0.2.1" >"$run/returned.listing"
cat >"$out/expected" <<END
load returned.listing: records: 6, and the file does not say how many were written
release 4 base-1-as-acid-1.hex 192.0.2.31: acid-1.bay3.example.net.: refused 30: ...
release 4 acid-1.hex 192.0.2.31: acid-1.bay3.example.net.: answer 0: the last address is gone, and the name is free
release 4 acid-1.hex 192.0.2.31: acid-1.bay3.example.net.: refused 33: ...
find hand.: slot 1, kept by hand
hand. A 192.0.2.1
release 4 feed-1-ipv4.hex 192.0.2.34: feed-1.bay3.example.net.: answer 0: the address is gone, the name stays this client's
release 4 feed-1-ipv4.hex 192.0.2.34: feed-1.bay3.example.net.: refused 34: ...
find feed-1.bay3.example.net.: slot 0, held by a client
feed-1.bay3.example.net. AAAA 2001:0db8:0000:0003:0000:0000:0000:0021
feed-1.bay3.example.net. $feed
release 6 feed-1.hex 2001:db8:0:3:0:0:0:21: feed-1.bay3.example.net.: answer 0: the last address is gone, and the name is free
show: records: 1
hand. A 192.0.2.1
END
told "names that are returned" 1 "$out/expected" < <(sed -n 's/: .*//p' "$out/expected")

# ---- books of names

# books that Python makes: those of restart.in, and what later steps have to leave
base="DHCID $(python3 "$folder/dhcids.py" | sed -n 's/^base-1[^ ]* //p')"
gateway="gateway.bay3.example.net. A 192.0.2.1"
acid_31="acid-1.bay3.example.net. A 192.0.2.31 $acid"
acid_41="acid-1.bay3.example.net. A 192.0.2.41 $acid"
base_32="base-1.bay3.example.net. A 192.0.2.32 $base"
base_33="base-1.bay3.example.net. A 192.0.2.33 $base"
feed_21="feed-1.bay3.example.net. AAAA 2001:db8:0:3::21 $feed"
held="held. AAAA 2001:db8::1 $dhcid"
hand="hand. A 192.0.2.1"
five=$(heads 5)
rm -rf "$out/made"
mkdir "$out/made"
python3 tests/host_books.py made "$out/made" <<END || stop "Python makes no books"
book names
$gateway
$acid_31
$base_32
$feed_21
$acid_41
gone base-1.bay3.example.net.
$base_33
book tidied
$gateway
$acid_41
$feed_21
$base_33
gone gateway.bay3.example.net.
book old
$gateway
$acid_31
$base_32
$feed_21
$acid_31
$base_32
book new
$gateway
$acid_31
$base_32
$feed_21
book whole-and-1
$five
$acid_31
book whole-and-2
$five
$acid_31
gone head-1.bay3.example.net.
book 256
head-1.bay3.example.net. A 192.0.2.6
$acid_31
book 192
gone-1. $dhcid
gone-2. $dhcid
$held
$hand
gone-3. $dhcid
gone gone-3.
gone gone-2.
gone gone-1.
book 193
$held
$hand
$acid_31
gone acid-1.bay3.example.net.
gone held.
gone hand.
book nothing
book small
head-1.bay3.example.net. A 192.0.2.68
$acid_41
$base_32
$feed_21
book away
$acid_31
$base_32
$acid_41
reverse names
192.0.2.31 acid-1.bay3.example.net.
2001:db8:0:3::21 feed-1.bay3.example.net.
192.0.2.41 acid-1.bay3.example.net.
192.0.2.33 base-1.bay3.example.net.
reverse old
192.0.2.31 acid-1.bay3.example.net.
192.0.2.32 base-1.bay3.example.net.
2001:db8:0:3::21 feed-1.bay3.example.net.
reverse acid
192.0.2.31 acid-1.bay3.example.net.
reverse 192
reverse small
192.0.2.31 acid-1.bay3.example.net.
192.0.2.32 base-1.bay3.example.net.
192.0.2.41 acid-1.bay3.example.net.
2001:db8:0:3::21 feed-1.bay3.example.net.
reverse away
192.0.2.31 acid-1.bay3.example.net.
192.0.2.32 base-1.bay3.example.net.
192.0.2.41 acid-1.bay3.example.net.
END

told "restart.in, with its books" 1 "$folder/restart.expected" <"$folder/restart.in"
for book in names tidied old new; do
  same "$book.book of restart.in" "$out/made/$book.book" "$run/$book.book"
done
# a clear and a tidying leave the reverse side, and a fresh book of another file begins an empty one
for book in names:names tidied:names old:old new:old; do
  same "the reverse side of ${book%:*}.book of restart.in" "$out/made/${book#*:}.book.reverse" "$run/${book%:*}.book.reverse"
done

# what a power cut can leave of the last block, which changes an address or says that a name is gone: the table is the one before the step or the one after
# it. Where an older block is whole in its place, by 0 to 3 bytes of the new one, the restart stops.
cut_off="CUT OFF: %d bytes, of a write that was cut or of a block that was damaged later: a client may have been told of that step"
bare="NO REVERSE SIDE is beside it: it begins empty, \`renew-reverse\` makes it of the table"
halted="NOT REPLAYED, nothing cut off: %d bytes are behind the %d sound blocks, and no write that was cut leaves them; a person has to decide: fetch the book again, \
or go on from the first %d bytes of it in another file"
for last in "request 4 acid-1.hex 192.0.2.41" "release 4 acid-1.hex 192.0.2.31"; do
  step=${last%% *}
  rm -rf "$run"/*.book* "$out/cuts"
  printf '%s\n' "new $step.book" "load by-hand.listing" "request 4 acid-1.hex 192.0.2.31" "request 4 base-1.hex 192.0.2.32" \
    "request 6 feed-1.hex 2001:db8:0:3:0:0:0:21" "write before.listing" "$last" "write after.listing" >"$out/text"
  (cd "$run" && exec "$top/host") <"$out/text" >"$out/told"
  is "a book to cut, $step: status" 0 $?
  has "a book to cut, $step" "; stored as block 4" "$out/told"
  python3 tests/host_books.py cuts "$run/$step.book" 1 "$run/before.listing" "$run/after.listing" "$out/cuts" "$cut_off" "$halted" "$bare" || stop "Python cuts no book"
  for way in nothing 0xff older; do
    books=$out/cuts/$way/books left=$out/cuts/$way/left told "a $step, cut at every byte, then $way" 1 "$out/cuts/$way/expected" <"$out/cuts/$way/in"
  done
done

# damaged books: nothing is cut off but a part of a block, or one block with a wrong check that is the last
rm -rf "$out/bad" "$out/left"
mkdir "$out/bad" "$out/left"
python3 tests/host_books.py bad "$out/bad" "$out/left" || stop "Python makes no damaged books"
unread="cannot be read and written: look whether the file is there; \`new FILE\` begins a book"
other="NOT REPLAYED, nothing cut off: no block is sound, and the file does not begin as a book; look whether it is one"
large="TOO LARGE: there is memory for 256 blocks; build this program with a larger BOOK_LIMIT, and tidy the book"
tidy="TIDY IT by \`tidy FILE\`: there is room for"

# cut_by BYTES, halted_by BYTES BLOCKS SOUND: what the host says, with these numbers
cut_by() {
  echo "${cut_off/\%d/$1}"
}
halted_by() {
  local said=${halted/\%d/$1}
  said=${said/\%d/$2}
  echo "${said/\%d/$3}"
}

cat >"$out/expected" <<END
book books/zeros.book: blocks: 0, names: 0; $(cut_by 512); $bare
book books/zeros-3.book: blocks: 0, names: 0; $(cut_by 3); $bare
book books/nothing.book: blocks: 0, names: 0; $bare
book books/full.book: blocks: 64, names: 64; $bare
book books/42-last.book: blocks: 4, names: 4; $(cut_by 512); $bare
book books/42-check.book: blocks: 4, names: 4; $(cut_by 512); $bare
book books/42-number.book: blocks: 4, names: 4; $(cut_by 512); $bare
book books/511.book: blocks: 4, names: 4; $(cut_by 511); $bare
book books/192.book: blocks: 192, names: 1; $bare
book books/193.book: blocks: 193, names: 1; $bare; $tidy 63 more blocks
book books/256.book: blocks: 256, names: 1; $bare; $tidy 0 more blocks
book books/whole.book: blocks: 5, names: 5; $bare
book books/42-and-a-byte.book: $(halted_by 513 4 2048): refused 42: ...
book books/42-middle.book: $(halted_by 1536 2 1024): refused 42: ...
book books/42-first.book: $(halted_by 2560 0 0): refused 42: ...
book books/43-middle.book: $(halted_by 1024 2 1024): refused 43: ...
book books/43-last.book: $(halted_by 512 4 2048): refused 43: ...
book books/43-kind.book: $(halted_by 512 4 2048): refused 43: ...
book books/43-gone.book: $(halted_by 512 4 2048): refused 43: ...
book books/43-upper.book: $(halted_by 512 4 2048): refused 43: ...
book books/43-and-a-byte.book: $(halted_by 513 4 2048): refused 43: ...
book books/40-names.book: $(halted_by 512 64 32768): refused 40: ...
book books/40-and-a-byte.book: $(halted_by 513 64 32768): refused 40: ...
book books/text.book: $other
book books/0-0-1.book: $other
book books/no-book.book: $other
book books/257.book: $large
book books/256-and-a-byte.book: $large
book nowhere.book: $unread
book folder.hex: $unread
book nowhere/a.book: $unread
new books/whole.book: NOT DONE: this file is there; go on from its book by \`book FILE\`, or give another name
new folder.hex: NOT DONE: this file is there; go on from its book by \`book FILE\`, or give another name
new nowhere/a.book: not written: look whether the folder is there, may be written and has room
tidy nowhere/a.book: not written: look whether the folder is there, may be written and has room
tidy folder.hex: not written: look whether the folder is there, may be written and has room
count: names: 5, and there is room for 59 more
END
books=$out/bad left=$out/left told "damaged books" 2 "$out/expected" < <(sed -n 's/: .*//p' "$out/expected")
is "what a book leaves beside its file" "" "$(find "$run" -name '*.new')"
cat >"$out/expected" <<END
tidy a.book: no book is kept: say \`book FILE\` to go on from one, or \`new FILE\` to begin one
book books/43-last.book: $(halted_by 512 4 2048): refused 43: ...
request 4 acid-1.hex 192.0.2.31: acid-1.bay3.example.net.: answer 0: the name was free and is now this client's
tidy books/43-last.book: no book is kept: say \`book FILE\` to go on from one, or \`new FILE\` to begin one
book: $wrong
tidy: $wrong
new a b: $wrong
END
cp "$out/bad/"* "$out/left"
books=$out/bad left=$out/left told "no book is kept" 2 "$out/expected" < <(sed -n 's/: .*//p' "$out/expected")

# a refused step leaves the book as it is, and so does a restart from another book that is refused; the steps after them are in it
cat >"$out/expected" <<END
book books/whole.book: blocks: 5, names: 5; $bare
request 4 acid-1.hex 192.0.2.31: acid-1.bay3.example.net.: answer 0: the name was free and is now this client's; stored as block 5
request 4 base-1-as-acid-1.hex 192.0.2.31: acid-1.bay3.example.net.: refused 30: ...
request 4 acid-1.hex 2001:db8:0:3:0:0:0:1f: acid-1.bay3.example.net.: refused 16: ...
request 4 7-discover.hex 192.0.2.31: refused 7: ...
request 4 nowhere.hex 192.0.2.31: $lost
release 4 base-1.hex 192.0.2.32: base-1.bay3.example.net.: refused 33: ...
release 4 acid-1.hex 192.0.2.32: acid-1.bay3.example.net.: refused 34: ...
clear head-9.bay3.example.net.: refused 33: ...
clear a..b.: refused 9: ...
load twice.listing: refused 35: ...
load nowhere.listing: cannot be read: look whether the file is there
clear-without-address: names: 0
book books/43-middle.book: $(halted_by 1024 2 1024): refused 43: ...
book nowhere.book: $unread
tidy nowhere/a.book: not written: look whether the folder is there, may be written and has room
END
cat >"$out/expected-too" <<END
clear HEAD-1.bay3.example.net.: answer 0: the name is free; stored as block 6
book books/whole.book: blocks: 7, names: 5
END
cp "$out/made/whole-and-1.book" "$out/left/whole.book"
cp "$out/made/acid.book.reverse" "$out/left/whole.book.reverse"
books=$out/bad left=$out/left told "refused steps and a book" 2 "$out/expected" < <(sed -n 's/: .*//p' "$out/expected")
cp "$out/made/whole-and-2.book" "$out/left/whole.book"
cat "$out/expected-too" >>"$out/expected"
books=$out/bad left=$out/left told "refused steps and a book, then accepted ones" 2 "$out/expected" < <(sed -n 's/: .*//p' "$out/expected")

# a book without room, which is tidied in its place; a fresh one after a load and after new; several steps by one command
cat >"$out/expected" <<END
book books/256.book: blocks: 256, names: 1; $bare; $tidy 0 more blocks
request 4 acid-1.hex 192.0.2.31: acid-1.bay3.example.net.: NOT DONE: the book has no room for the blocks of this; say \`tidy FILE\`, and then this again
clear head-1.bay3.example.net.: NOT DONE: the book has no room for the blocks of this; say \`tidy FILE\`, and then this again
clear-without-address: NOT DONE: the book has no room for the blocks of this; say \`tidy FILE\`, and then this again
count: names: 1, and there is room for 63 more
tidy books/256.book: blocks: 1, they were 256
request 4 acid-1.hex 192.0.2.31: acid-1.bay3.example.net.: answer 0: the name was free and is now this client's; stored as block 1
book books/192.book: blocks: 192, names: 1; $bare
request 4 acid-1.hex 192.0.2.31: acid-1.bay3.example.net.: answer 0: the name was free and is now this client's; stored as block 192; $tidy 63 more blocks
new: done; the book is begun anew, blocks: 0
book books/192.book: blocks: 0, names: 0
load alone.listing: records: 6, and the file does not say how many were written; the book is begun anew, blocks: 5
clear-without-address: gone-3. gone-2. gone-1. names: 3; stored as blocks 5 to 7
book books/192.book: blocks: 8, names: 2
tidy books/193.book: blocks: 2, they were 8
request 4 acid-1.hex 192.0.2.31: acid-1.bay3.example.net.: answer 0: the name was free and is now this client's; stored as block 2
clear acid-1.bay3.example.net.: answer 0: the name is free; stored as block 3
clear held.: answer 0: the name is free; stored as block 4
clear hand.: answer 0: the name is free; stored as block 5
tidy books/nothing.book: blocks: 0, they were 6
book books/nothing.book: blocks: 0, names: 0
book books/256.book: blocks: 2, names: 2
load-anyway over.listing: refused 32: ...
load over.listing: NOT LOADED: records: 65, but 64 were written; fetch the file again, or say \`load-anyway FILE\`
book books/full.book: blocks: 64, names: 64; $bare
load full.listing: records: 64, as many as were written; the book is begun anew, blocks: 64
END
rm -f "$out/left"/*
cp "$out/bad/"* "$out/left"
cp "$out/made"/{256,192,193,nothing}.book "$out/made/192.book.reverse" "$out/left"
for book in 256 193 nothing; do
  cp "$out/made/acid.book.reverse" "$out/left/$book.book.reverse"
done
books=$out/bad left=$out/left told "a book without room, and fresh ones" 2 "$out/expected" < <(sed -n 's/: .*//p' "$out/expected")

# a full disk: no file may have more than 35,840 bytes, which are 70 blocks, or a reverse side. The step that is not stored is said, no other is done before it is,
# and tidying stores it.
unstored="NOT STORED: tell no client yet, and look whether the book's file is there, it and its folder may be written, and there is room; the next step that is stored, \
or \`tidy FILE\`, stores this one too"
behind="NOT DONE: what was NOT STORED is still not stored; look whether the book's file is there, it and its folder may be written, and there is room; then say this \
again, or \`tidy FILE\` first"
cat >"$out/expected" <<END
book small.book: blocks: 68, names: 1; $bare
request 4 acid-1.hex 192.0.2.31: acid-1.bay3.example.net.: answer 0: the name was free and is now this client's; stored as block 68
request 4 base-1.hex 192.0.2.32: base-1.bay3.example.net.: answer 0: the name was free and is now this client's; stored as block 69
request 4 acid-1.hex 192.0.2.41: acid-1.bay3.example.net.: answer 1: the client holds the name, and has this address now; $unstored
request 6 feed-1.hex 2001:db8:0:3:0:0:0:21: feed-1.bay3.example.net.: $behind
release 4 base-1.hex 192.0.2.32: base-1.bay3.example.net.: $behind
clear base-1.bay3.example.net.: $behind
clear-without-address: $behind
renew-reverse: $behind
tidy full.book: not written: look whether the folder is there, may be written and has room
show-reverse: addresses: 3
31.2.0.192.in-addr.arpa. PTR acid-1.bay3.example.net.
32.2.0.192.in-addr.arpa. PTR base-1.bay3.example.net.
41.2.0.192.in-addr.arpa. PTR acid-1.bay3.example.net.
tidy small.book: blocks: 3, they were 71
request 6 feed-1.hex 2001:db8:0:3:0:0:0:21: feed-1.bay3.example.net.: answer 0: the name was free and is now this client's; stored as block 3
book small.book: blocks: 4, names: 4
find acid-1.bay3.example.net.: slot 1, held by a client
acid-1.bay3.example.net. A 192.0.2.41
acid-1.bay3.example.net. $acid
END
sed -n 's/: .*//p' "$out/expected" >"$out/text"
for host in "${hosts[@]}"; do
  rm -rf "$run"/*.book* "$run/books"
  head -c $((68 * 512)) "$out/bad/256.book" >"$run/small.book"
  [ ! -e /dev/full ] || ln -s /dev/full "$run/full.book.new"
  (cd "$run" && trap '' XFSZ && ulimit -f 35 && exec "$host") <"$out/text" 2>"$out/errors" | cat >"$out/told"
  is "a book on a full disk, ${host##*/}: status" 2 "${PIPESTATUS[0]}"
  same "a book on a full disk, ${host##*/}" "$out/expected" "$out/told"
  same "a book on a full disk, ${host##*/}: error stream" /dev/null "$out/errors"
  same "a book on a full disk, ${host##*/}: the book" "$out/made/small.book" "$run/small.book"
  same "a book on a full disk, ${host##*/}: the reverse side" "$out/made/small.book.reverse" "$run/small.book.reverse"
  is "a book on a full disk, ${host##*/}: what is left beside it" "" "$(cd "$run" && find . -name '*.new' -o -name '*.ended' -o -name 'full.book*')"
done

# the book's file is away for a while, and then has bytes behind the book, as a write that failed leaves them: the next step that is stored stores the ones before it
# too, and covers those bytes
cat >"$out/expected" <<END
new away.book: done; the book is begun anew, blocks: 0
request 4 acid-1.hex 192.0.2.31: acid-1.bay3.example.net.: answer 0: the name was free and is now this client's; stored as block 0
write at-first.listing: records: 2
request 4 base-1.hex 192.0.2.32: base-1.bay3.example.net.: answer 0: the name was free and is now this client's; $unstored
write away.listing: records: 4
request 4 acid-1.hex 192.0.2.41: acid-1.bay3.example.net.: what was NOT STORED is stored now; answer 1: the client holds the name, and has this address now; stored as block 2
END

# wait_for FILE: until the host has written it
wait_for() {
  local i
  for ((i = 0; i < 500; i++)); do
    [ ! -e "$1" ] || return 0
    sleep 0.02
  done
  fail "$1 is not written"
}

for host in "${hosts[@]}"; do
  rm -f "$run"/*.book* "$run/at-first.listing" "$run/away.listing" "$out/commands.pipe"
  mkfifo "$out/commands.pipe"
  (cd "$run" && exec "$host") <"$out/commands.pipe" >"$out/told" 2>"$out/errors" &
  job=$!
  exec 3>"$out/commands.pipe"
  sed -n '1,3s/: .*//p' "$out/expected" >&3
  wait_for "$run/at-first.listing"
  mv "$run/away.book" "$run/elsewhere"
  sed -n '4,5s/: .*//p' "$out/expected" >&3
  wait_for "$run/away.listing"
  mv "$run/elsewhere" "$run/away.book"
  head -c 100 /dev/urandom >>"$run/away.book"
  sed -n '6s/: .*//p' "$out/expected" >&3
  exec 3>&-
  wait "$job"
  is "a book that is away for a while, ${host##*/}: status" 2 $?
  same "a book that is away for a while, ${host##*/}" "$out/expected" "$out/told"
  same "a book that is away for a while, ${host##*/}: error stream" /dev/null "$out/errors"
  same "a book that is away for a while, ${host##*/}: the book" "$out/made/away.book" "$run/away.book"
  same "a book that is away for a while, ${host##*/}: the reverse side" "$out/made/away.book.reverse" "$run/away.book.reverse"
done

# ---- leases with their reverse names, and power cuts

# power.in is run above, with the stored examples. Its power.expected is from a scratch model of document 02 (K1, K5, K7), which read power.in before host.c first ran
# it. It shows rows 2 to 6 of both tables of docs/POWER.md. tests/host_power.py runs all seven of both, by their names there, for nine steps, in a process that ends at
# the cut and another one that restarts; then each step cut twice; then a lease and an ended one with the block cut at each of its 0 to 512 bytes. What is compared is
# what stands after the cut, what the second run answers, and both sides after it with those of the uncut run.
# Last, the process is ended, not by its own command, before each call of fsync, rename and remove, and the same is run again. That is what tests/host_power.c is for;
# with it nothing is put on the disk, which makes the thousands of restarts quick. The rows of a lease and of an ended one are run without it too.
power() {
  rm -rf "$run"/*.book* "$run/books"
  python3 tests/host_power.py <(python3 "$folder/dhcids.py") "$run" "$@" >"$out/power.log" 2>&1
  sed '$d' "$out/power.log"
  [[ $(tail -n 1 "$out/power.log") =~ ^([0-9]+)\ passed,\ ([0-9]+)\ failed$ ]] || stop "host_power.py $1 did not end: $(tail -n 1 "$out/power.log")"
  passed=$((passed + BASH_REMATCH[1]))
  failed=$((failed + BASH_REMATCH[2]))
}

stores="tests/host_power.c -Wl,--wrap=fsync,--wrap=rename,--wrap=remove"
stopped=("$top/stopped")
# shellcheck disable=SC2086
cc -std=c99 -O2 $warn -Iinclude -o "$out/stopped" "$folder/host.c" $stores "$archive" || stop "host.c does not link with host_power.c"
if [ -n "$sanitize" ]; then
  # shellcheck disable=SC2086
  cc -std=c99 -O1 -g $warn $sanitize -Iinclude -o "$out/stopped-sanitized" "$folder/host.c" $stores "$archive" || stop "host.c does not link with host_power.c and sanitizers"
  stopped+=("$top/stopped-sanitized")
fi
power all "${stopped[@]}"
power stops "${stopped[0]}"
power rows "${hosts[0]}"

# slip WHAT SCRIPT: a gateway with one slip, made by sed, has to be told by the rows of a lease and of an ended one
slip() {
  sed "$2" "$folder/host.c" >"$out/slip.c"
  # shellcheck disable=SC2086
  if cmp -s "$folder/host.c" "$out/slip.c"; then
    fail "$1: nothing is changed, so this tries nothing"
  elif ! cc -std=c99 -O0 -Iinclude -o "$out/slip" "$out/slip.c" $stores "$archive" 2>"$out/slip.log"; then
    fail "$1: it does not compile"
  else
    python3 tests/host_power.py <(python3 "$folder/dhcids.py") "$run" rows "$top/slip" >"$out/slip.log" 2>&1
    if tail -n 1 "$out/slip.log" | grep -q 'passed, [1-9][0-9]* failed$'; then pass; else fail "$1: not told"; fi
  fi
}

slip "the order turned round" 's/g->is_reverse_first = is_end;/g->is_reverse_first = !is_end;/'
slip "told too early" 's/^    is_stored = store(g);/    printf("answer %u: ", (unsigned)vichrelka_value(answer));\n&/'
slip "an ended lease is not kept" 's/g->has_ended = save(with_ending(path, g->path, ENDED).*/g->has_ended = 0, (void)lease, (void)path;/; s/return g->has_ended;/return 1;/'
slip "an ended lease is kept for ever" 's/g->has_ended = !forget(g->path);/g->has_ended = 0;/'
slip "an ended lease is not run again" 's/again = end_again(g, &ended);/again = ACCEPTED;/'
slip "33 is not taken as done" 's/(vichrelka_refusal(answer) == VICHRELKA_REFUSED_NAME_NOT_HELD ||/(/'
slip "the reverse side is written over" 's/with_ending(path, g->path, ".reverse.new")/with_ending(path, g->path, REVERSE)/'
slip "a restart reads no reverse side" 's/memcpy(g->reverse, reverse, sizeof g->reverse);/memset(g->reverse, 0, sizeof g->reverse);/'
slip "the reverse side is not stored" 's/g->is_reverse_changed = !save(.*/g->is_reverse_changed = 0;/'

# the power is off; cuts that are none
no_book="no book is kept: say \`book FILE\` to go on from one, or \`new FILE\` to begin one"
place="no such place: there are before, between, after, in-block N (0 to 512) and in-reverse N (0 to 34944)"
off="NOT DONE: the power is off; say \`restart\`"
cat >"$out/expected" <<END
cut before: $no_book
restart: $no_book
release 4 acid-1.hex 192.0.2.31: acid-1.bay3.example.net.: refused 33: ...
new a.book: done; the book is begun anew, blocks: 0
cut: $wrong
cut nowhere: $place
cut before 1: $place
cut in-block: $place
cut in-block 513: $place
cut in-block -1: $place
cut in-block 1x: $place
cut in-reverse 34945: $place
cut in-reverse: $place
cut in-block 1 2: $wrong
request 4 acid-1.hex 192.0.2.31: acid-1.bay3.example.net.: answer 0: the name was free and is now this client's; stored as block 0
cut before: done
cut after: done
clear acid-1.bay3.example.net.: answer 0: the name is free; stored as block 1
request 4 7-discover.hex 192.0.2.31: refused 7: ...
request 4 acid-1.hex 192.0.2.31: acid-1.bay3.example.net.: POWER CUT: both are stored; nobody was told, say \`restart\`
show: $off
show-reverse: $off
request 4 acid-1.hex 192.0.2.31: $off
new: $off
frobnicate: $wrong
book nowhere.book: $unread
count: $off
restart: blocks: 3, names: 1
restart: blocks: 3, names: 1
count: names: 1, and there is room for 63 more
show-reverse: addresses: 1
31.2.0.192.in-addr.arpa. PTR acid-1.bay3.example.net.
new: done; the book is begun anew, blocks: 0
show-reverse: addresses: 0
restart: blocks: 0, names: 0
show-reverse: addresses: 0
show-reverse a: $wrong
renew-reverse: addresses: 0, they were 0
restart a: $wrong
END
told "the power is off" 2 "$out/expected" < <(sed -n 's/: .*//p' "$out/expected")

# a reverse side of 128 addresses: a lease with another one is 46, with one that is there it is not, and an ended lease is not; made anew of the table it has room. It has
# then the addresses of both families of names with a DHCID, and of no others. A clear and a load leave it as it is
{
  echo "load by-hand.listing: records: 1, and the file does not say how many were written"
  for ((i = 0; i < 128; i++)); do
    echo "request 4 acid-1.hex 198.51.100.$i: acid-1.bay3.example.net.: answer $((i > 0)): $( ((i > 0)) && echo "the client holds the name, and has this address now" ||
      echo "the name was free and is now this client's")"
  done
  cat <<END
request 4 acid-1.hex 198.51.100.128: acid-1.bay3.example.net.: refused 46: ...
request 6 feed-1.hex 2001:db8:0:3:0:0:0:21: feed-1.bay3.example.net.: refused 46: ...
request 4 acid-1-successor.hex 198.51.100.128: acid-1.bay3.example.net.: refused 46: ...
request 4 acid-1-successor.hex 198.51.100.3: acid-1.bay3.example.net.: refused 30: ...
request 4 acid-1.hex 198.51.100.3: acid-1.bay3.example.net.: answer 1: the client holds the name, and has this address now
release 4 acid-1.hex 198.51.100.4: acid-1.bay3.example.net.: refused 34: ...
release 4 acid-1.hex 198.51.100.3: acid-1.bay3.example.net.: answer 0: the last address is gone, and the name is free
request 6 feed-1.hex 2001:db8:0:3:0:0:0:21: feed-1.bay3.example.net.: answer 0: the name was free and is now this client's
request 4 feed-1-ipv4.hex 192.0.2.34: feed-1.bay3.example.net.: refused 46: ...
renew-reverse: addresses: 1, they were 128
request 4 feed-1-ipv4.hex 192.0.2.34: feed-1.bay3.example.net.: answer 1: the client holds the name, and has this address now
request 4 acid-1.hex 198.51.100.128: acid-1.bay3.example.net.: answer 0: the name was free and is now this client's
clear acid-1.bay3.example.net.: answer 0: the name is free
show-reverse: addresses: 3
1.2.0.0.0.0.0.0.0.0.0.0.0.0.0.0.3.0.0.0.0.0.0.0.8.b.d.0.1.0.0.2.ip6.arpa. PTR feed-1.bay3.example.net.
34.2.0.192.in-addr.arpa. PTR feed-1.bay3.example.net.
128.100.51.198.in-addr.arpa. PTR acid-1.bay3.example.net.
renew-reverse: addresses: 2, they were 3
show-reverse: addresses: 2
34.2.0.192.in-addr.arpa. PTR feed-1.bay3.example.net.
1.2.0.0.0.0.0.0.0.0.0.0.0.0.0.0.3.0.0.0.0.0.0.0.8.b.d.0.1.0.0.2.ip6.arpa. PTR feed-1.bay3.example.net.
load full.listing: records: 64, as many as were written
show-reverse: addresses: 2
34.2.0.192.in-addr.arpa. PTR feed-1.bay3.example.net.
1.2.0.0.0.0.0.0.0.0.0.0.0.0.0.0.3.0.0.0.0.0.0.0.8.b.d.0.1.0.0.2.ip6.arpa. PTR feed-1.bay3.example.net.
renew-reverse: addresses: 0, they were 2
END
} >"$out/expected"
told "a full reverse side" 1 "$out/expected" < <(sed -n 's/: .*//p' "$out/expected")

# what is beside a book and is no reverse side, or no ended lease: nothing is cut off or replayed
rm -rf "$out/beside" "$out/left"
mkdir "$out/beside"
for side in short long text folder address name short-ended long-ended folder-ended wide; do
  head -c $((5 * 512 - 1)) "$out/bad/whole.book" >"$out/beside/$side.book"
done
head -c 34943 "$out/made/acid.book.reverse" >"$out/beside/short.book.reverse"
{ cat "$out/made/acid.book.reverse" && printf '\0'; } >"$out/beside/long.book.reverse"
{ printf x && tail -c +2 "$out/made/acid.book.reverse"; } >"$out/beside/text.book.reverse"
{ head -c 273 "$out/made/acid.book.reverse" && head -c $((127 * 273)) "$out/made/acid.book.reverse"; } >"$out/beside/address.book.reverse"
{ head -c 19 "$out/made/acid.book.reverse" && printf A && tail -c +21 "$out/made/acid.book.reverse"; } >"$out/beside/name.book.reverse"
mkdir "$out/beside/folder.book.reverse" "$out/beside/folder-ended.book.ended"
head -c 308 /dev/zero >"$out/beside/short-ended.book.ended"
head -c 310 /dev/zero >"$out/beside/long-ended.book.ended"
{ printf '\4\21' && head -c 307 /dev/zero; } >"$out/beside/wide.book.ended"
no_side="NOT REPLAYED, nothing cut off: FILE.reverse is no reverse side; fetch it again, or take it away, say this again and then \`renew-reverse\`"
no_ended="NOT REPLAYED, nothing cut off: FILE.ended is no ended lease; take it away, say this again and then \`release\` for the lease that had ended"
cat >"$out/expected" <<END
book books/short.book: $no_side
book books/long.book: $no_side
book books/text.book: $no_side
book books/address.book: $no_side
book books/name.book: $no_side
book books/folder.book: $no_side
book books/short-ended.book: $no_ended
book books/long-ended.book: $no_ended
book books/folder-ended.book: $no_ended
book books/wide.book: $no_ended
count: names: 0, and there is room for 64 more
END
cp -r "$out/beside" "$out/left"
books=$out/beside left=$out/left told "no reverse side, or no ended lease" 1 "$out/expected" < <(sed -n 's/: .*//p' "$out/expected")
# an ended lease that the library refuses is said, and kept no longer
rm -rf "$out/beside" "$out/left"
mkdir "$out/beside"
cp "$out/bad/whole.book" "$out/beside"
cp -r "$out/beside" "$out/left"
head -c 309 /dev/zero >"$out/beside/whole.book.ended"
printf '%s\n' "book books/whole.book: blocks: 5, names: 5; $bare" "an ended lease was kept, : refused 12: ..." "restart: blocks: 5, names: 5; $bare" >"$out/expected"
books=$out/beside left=$out/left told "an ended lease that is refused" 1 "$out/expected" < <(printf 'book books/whole.book\nrestart\n')

# files that cannot be written, since a folder is in the place of their other names: an ended lease that cannot be kept is not begun; a tidied and a fresh book whose
# reverse side cannot be stored are not written; a lease whose reverse side cannot be stored is not told, and answers 1 in the next process, with the folder away. On a
# full disk an ended lease whose block cannot be stored is kept over a restart, and done when the book is tidied
for host in "${hosts[@]}"; do
  rm -rf "$run"/*.book* "$run/books"
  cat >"$out/expected" <<END
new a.book: done; the book is begun anew, blocks: 0
request 4 acid-1.hex 192.0.2.31: acid-1.bay3.example.net.: answer 0: the name was free and is now this client's; stored as block 0
release 4 acid-1.hex 192.0.2.31: acid-1.bay3.example.net.: NOT DONE: the ended lease cannot be kept beside the book; look whether the folder may be written and has room, then this again
show-reverse: addresses: 1
31.2.0.192.in-addr.arpa. PTR acid-1.bay3.example.net.
tidy other.book: not written: look whether the folder is there, may be written and has room
new other.book: not written: look whether the folder is there, may be written and has room
request 4 base-1.hex 192.0.2.32: base-1.bay3.example.net.: answer 0: the name was free and is now this client's; stored as block 1
END
  mkdir -p "$run/a.book.ended.new/x" "$run/other.book.reverse.new/x"
  (cd "$run" && exec "$host") < <(sed -n 's/: .*//p' "$out/expected") >"$out/told" 2>&1
  is "files that cannot be written, ${host##*/}: status" 2 $?
  same "files that cannot be written, ${host##*/}" "$out/expected" "$out/told"
  is "files that cannot be written, ${host##*/}: what is left" "./a.book ./a.book.ended.new ./a.book.reverse ./other.book.reverse.new" \
    "$(cd "$run" && find . -maxdepth 1 -name '*.book*' | sort | tr '\n' ' ' | sed 's/ $//')"
  rm -r "$run/a.book.ended.new" "$run/other.book.reverse.new"
  mkdir -p "$run/a.book.reverse.new/x"
  cat >"$out/expected" <<END
book a.book: blocks: 2, names: 2
request 4 acid-1.hex 192.0.2.41: acid-1.bay3.example.net.: answer 1: the client holds the name, and has this address now; $unstored
request 4 acid-1.hex 192.0.2.41: acid-1.bay3.example.net.: $behind
load by-hand.listing: records: 1, and the file does not say how many were written; the book is begun anew, blocks: 1
request 4 acid-1.hex 192.0.2.41: acid-1.bay3.example.net.: $behind
END
  (cd "$run" && cp a.book b.book && cp a.book.reverse b.book.reverse && exec "$host") < <(sed -n '1,3s/: .*//p' "$out/expected") >"$out/told" 2>&1
  is "a reverse side that cannot be stored, ${host##*/}: status" 2 $?
  sed -n 1,3p "$out/expected" >"$out/expected-too"
  same "a reverse side that cannot be stored, ${host##*/}" "$out/expected-too" "$out/told"
  rm -r "$run/a.book.reverse.new"
  mkdir -p "$run/b.book.reverse.new/x"
  sed -i 's/a\.book/b.book/' "$out/expected"
  (cd "$run" && exec "$host") < <(sed -n 's/: .*//p' "$out/expected") >"$out/told" 2>&1
  same "a load while a reverse side cannot be stored, ${host##*/}" "$out/expected" "$out/told"
  rm -r "$run/b.book.reverse.new"
  cat >"$out/expected" <<END
book a.book: blocks: 3, names: 2
show-reverse: addresses: 2
31.2.0.192.in-addr.arpa. PTR acid-1.bay3.example.net.
32.2.0.192.in-addr.arpa. PTR base-1.bay3.example.net.
request 4 acid-1.hex 192.0.2.41: acid-1.bay3.example.net.: answer 1: the client holds the name, and has this address now; stored as block 3
END
  (cd "$run" && exec "$host") < <(sed -n 's/: .*//p' "$out/expected") >"$out/told" 2>&1
  same "a reverse side that could not be stored, again, ${host##*/}" "$out/expected" "$out/told"
  same "a reverse side that could not be stored, again, ${host##*/}: the file" "$out/made/away.book.reverse" "$run/a.book.reverse"
  # the book has as many blocks as the disk has room for, and the reverse side has room: only the first store of an ended lease is done
  python3 tests/host_books.py made "$run" <<END || stop "Python makes no full book"
book full
$(for ((i = 0; i < 68; i++)); do echo "$gateway"; done)
$acid_31
$feed_21
reverse full
192.0.2.31 acid-1.bay3.example.net.
2001:db8:0:3::21 feed-1.bay3.example.net.
END
  cat >"$out/expected" <<END
book full.book: blocks: 70, names: 3
release 4 acid-1.hex 192.0.2.31: acid-1.bay3.example.net.: answer 0: the last address is gone, and the name is free; $unstored
restart: blocks: 70, names: 3
an ended lease was kept, acid-1.bay3.example.net.: answer 0: the last address is gone, and the name is free; $unstored
release 6 feed-1.hex 2001:db8:0:3:0:0:0:21: feed-1.bay3.example.net.: $behind
tidy full.book: blocks: 2, they were 71
release 6 feed-1.hex 2001:db8:0:3:0:0:0:21: feed-1.bay3.example.net.: answer 0: the last address is gone, and the name is free; stored as block 2
restart: blocks: 3, names: 1
show-reverse: addresses: 0
END
  (cd "$run" && trap '' XFSZ && ulimit -f 35 && exec "$host") < <(sed '/^an ended/d; s/: .*//' "$out/expected") 2>"$out/errors" | cat >"$out/told"
  is "an ended lease on a full disk, ${host##*/}: status" 2 "${PIPESTATUS[0]}"
  same "an ended lease on a full disk, ${host##*/}" "$out/expected" "$out/told"
  is "an ended lease on a full disk, ${host##*/}: what is left beside it" "" "$(cd "$run" && find . -name '*.new' -o -name '*.ended')"
done

# ---- messages for a name server

# the messages of update.in, put together here from document 02's K8 and RFC 2136, 2.2 to 2.5, and with nothing of the library
# wire NAME, dhcid_of RECORD: in hexadecimal, a name in wire form, and a DHCID that is in base64
wire() {
  local label
  for label in ${1//./ } ""; do
    printf '%02x' ${#label}
    printf %s "$label" | od -An -v -tx1 | tr -d ' \n'
  done
}
dhcid_of() {
  base64 -d <<<"${1#DHCID }" | od -An -v -tx1 | tr -d ' \n'
}

# record HEAD TYPE CLASS LIFETIME DATA: a record of this head's name; update NUMBER PREREQUISITES UPDATES RECORD..: a message for the zone bay3.example.net.
record() {
  wire "$1.bay3.example.net."
  printf '%04x%04x%08x%04x%s' "$2" "$3" "$4" $((${#5} / 2)) "$5"
}
update() {
  printf '%04x28000001%04x%04x0000' "$1" "$2" "$3"
  wire bay3.example.net.
  printf 00060001
  shift 3
  printf %s "$@" $'\n'
}

# first_add, second_add, first_remove NUMBER HEAD DHCID TYPE ADDRESS; second_remove NUMBER HEAD DHCID. The types are 1 A, 28 AAAA, 49 DHCID and 255 ANY, the classes 1 IN,
# 254 NONE and 255 ANY
first_add() {
  update "$1" 1 2 "$(record "$2" 255 254 0 "")" "$(record "$2" "$4" 1 3600 "$5")" "$(record "$2" 49 1 3600 "$3")"
}
second_add() {
  update "$1" 1 2 "$(record "$2" 49 1 0 "$3")" "$(record "$2" "$4" 255 0 "")" "$(record "$2" "$4" 1 3600 "$5")"
}
first_remove() {
  update "$1" 2 1 "$(record "$2" 49 1 0 "$3")" "$(record "$2" "$4" 1 0 "$5")" "$(record "$2" "$4" 254 0 "$5")"
}
second_remove() {
  update "$1" 3 1 "$(record "$2" 49 1 0 "$3")" "$(record "$2" 1 254 0 "")" "$(record "$2" 28 254 0 "")" "$(record "$2" 49 254 0 "$3")"
}

acid_dhcid=$(dhcid_of "$acid") base_dhcid=$(dhcid_of "$base") feed_dhcid=$(dhcid_of "$feed")
{
  first_add 1 feed-1 "$feed_dhcid" 28 20010db8000000030000000000000021
  first_add 2 feed-1 "$feed_dhcid" 1 c0000222
  second_add 3 feed-1 "$feed_dhcid" 1 c0000222
  first_add 4 base-1 "$base_dhcid" 1 c0000220
  second_add 5 base-1 "$base_dhcid" 1 c0000220
  first_remove 6 base-1 "$base_dhcid" 1 c0000220
  first_remove 7 feed-1 "$feed_dhcid" 28 20010db8000000030000000000000021
  second_remove 8 feed-1 "$feed_dhcid"
  first_remove 9 feed-1 "$feed_dhcid" 1 c0000222
  second_remove 10 feed-1 "$feed_dhcid"
  first_add 11 acid-1 "$acid_dhcid" 1 c000021f
  first_remove 12 acid-1 "$acid_dhcid" 1 c000021f
  second_remove 13 acid-1 "$acid_dhcid"
} >"$out/expected"
is "how long the messages are" "190 178 178 178 178 182 206 244 182 244 178 182 244" "$(awk '{ print length($0) / 2 }' "$out/expected" | xargs)"
for host in "${hosts[@]}"; do
  rm -f "$run"/update.*[0-9]
  (cd "$run" && exec "$host" update.in) >"$out/told" 2>&1
  is "how many messages update.in writes, ${host##*/}" 13 "$(find "$run" -name 'update.*[0-9]' | wc -l)"
  (cd "$run" && cat update.{1..13}) >"$out/text"
  same "the messages of update.in, ${host##*/}" "$out/expected" "$out/text"
done

# answers of a server as N-CODE.hex, with the header alone: to the messages that are written below, with every code
for ((i = 1; i <= 8; i++)); do
  for ((code = 0; code < 16; code++)); do
    printf '%04xa80%x0000000000000000\n' "$i" "$code" >"$run/$i-$code.hex"
  done
done
echo 0001a800000000000000 >"$run/short-answer.hex"
echo 000128000000000000000000 >"$run/no-response.hex"
echo 000180000000000000000000 >"$run/no-update.hex"
# to message 7, with every other flag set, and more behind the header than any message has
echo "0007aff0ffffffffffffffff$(printf '%06000d' 0)" >"$run/long-answer.hex"
nothing_waits="no message waits for an answer: after \`zone NAME FILE\` each \`request\` and \`release\` that the table accepts writes one"
no_takeover="NOT DONE: a takeover has no message for a name server; with a zone it has to be \`set first-wins\`"
outside="NOT DONE: the name is not in the zone of the name server, which would not take it; give the client one that is"
unwritten="not written: look whether the folder is there, may be written and has room, and say \`again\`"
given="acid-1.bay3.example.net.: answer 0: the name was free and is now this client's"
renewed="acid-1.bay3.example.net.: answer 1: the client holds the name, and has this address now"
returned="acid-1.bay3.example.net.: answer 0: the last address is gone, and the name is free"
added="the first of an add, code 0: done, the name was not in use there and is now this client's"
in_use="the first of an add, code 6: the name is in use there, so the second message follows"
taken="the first of a remove, code 0: the address is gone there, so the second message follows"
not_there="the first of a remove, code 8: there is nothing of this client to delete there; if that is news, compare the zone with \`show\`"
gone="the second of a remove, code 0: done, the name is gone there"
no_such_code="no server that keeps to RFC 2136 gives this code here; the message waits on; a person has to look at the server and say \`again\`"

# waits NUMBER: what the host says of a step while this message waits
waits() {
  echo "NOT DONE: message $1 waits for its answer; say \`answered FILE\`, \`again\` to write it once more, or \`zone NAME FILE\` to give it up"
}

# other_codes NUMBER MESSAGE CODE..: what the host says of every code but these, one after the other, since the message waits on
other_codes() {
  local number=$1 message=$2 code
  shift 2
  for code in {0..15}; do
    case " $* " in *" $code "*) continue ;; esac
    printf '%s' "answered $number-$code.hex: message $number, the $message, code $code: "
    case $code in
      0 | 6 | 7 | 8) echo "$no_such_code" ;;
      *) echo "not carried out, and waits on; a person has to read the code (RFC 2136, 2.2), mend what it says and say \`again\`: refused 48: ..." ;;
    esac
  done
}

cat >"$out/expected" <<END
again: $nothing_waits
answered 1-0.hex: $nothing_waits
zone bay3..example.net. update: refused 9: ...
zone . update: refused 9: ...
zone bay3.example.net.: $wrong
zone bay3.example.net. update update: $wrong
again again: $wrong
answered: $wrong
request 4 acid-1.hex 192.0.2.31: $given
set latest-wins: done
zone bay3.example.net. update: $no_takeover
set first-wins: done
zone BAY3.example.net. update: done
set latest-wins: $no_takeover
set first-wins: done
request 4 acid-1.hex 2001:db8:0:3:0:0:0:1f: acid-1.bay3.example.net.: refused 16: ...
no message for the name server
request 4 7-discover.hex 192.0.2.31: refused 7: ...
request 4 acid-1.hex 192.0.2.31: $renewed
message 1, the first of an add, 178 bytes, by UDP
answered nowhere.hex: $lost
answered odd.hex: $lost
answered folder.hex: $lost
answered empty.hex: message 1, the first of an add, waits on: refused 47: ...
answered short-answer.hex: message 1, the first of an add, waits on: refused 47: ...
answered no-response.hex: message 1, the first of an add, waits on: refused 47: ...
answered no-update.hex: message 1, the first of an add, waits on: refused 47: ...
answered 2-0.hex: message 1, the first of an add, waits on: refused 47: ...
$(other_codes 1 "first of an add" 0 6)
release 4 acid-1.hex 192.0.2.31: acid-1.bay3.example.net.: $(waits 1)
answered 1-6.hex: message 1, $in_use
message 2, the second of an add, 178 bytes, by UDP
answered 1-6.hex: message 2, the second of an add, waits on: refused 47: ...
$(other_codes 2 "second of an add" 0 8)
answered 2-0.hex: message 2, the second of an add, code 0: done, the client holds the name there, and has this address now
again: $nothing_waits
release 4 acid-1.hex 192.0.2.31: $returned
message 3, the first of a remove, 182 bytes, by UDP
$(other_codes 3 "first of a remove" 0 8)
answered 3-0.hex: message 3, $taken
message 4, the second of a remove, 244 bytes, by UDP
$(other_codes 4 "second of a remove" 0 7 8)
again: message 4, the second of a remove, 244 bytes, by UDP
answered 4-8.hex: message 4, the second of a remove, code 8: done, nothing of this client is left there
answered 4-8.hex: $nothing_waits
request 4 acid-1.hex 192.0.2.31: $given
message 5, the first of an add, 178 bytes, by UDP
zone acid-1 update: refused 9: ...
again: message 5, the first of an add, 178 bytes, by UDP
zone bay3.example.net. update: done
again: $nothing_waits
zone bay4.example.net. update: done
request 4 base-1.hex 192.0.2.32: base-1.bay3.example.net.: $outside
release 4 acid-1.hex 192.0.2.31: acid-1.bay3.example.net.: $outside
zone ay3.example.net. update: done
release 4 acid-1.hex 192.0.2.31: acid-1.bay3.example.net.: $outside
zone acid-1.bay3.example.net. update: done
release 4 acid-1.hex 192.0.2.31: $returned
message 6, the first of a remove, 189 bytes, by UDP
answered 6-8.hex: message 6, $not_there
load full.listing: records: 64, as many as were written
zone net. nowhere/update: done
request 4 acid-1.hex 192.0.2.31: acid-1.bay3.example.net.: refused 32: ...
no message for the name server
new: done
request 4 acid-1.hex 192.0.2.31: $given
message 7, the first of an add, $unwritten
again: message 7, the first of an add, $unwritten
answered long-answer.hex: message 7, $added
END
told "messages and answers" 2 "$out/expected" < <(sed -n '/^message/d; s/: .*//p' "$out/expected")
is "what a message leaves beside its file" "" "$(find "$run" -name '*.new')"

# what the server refuses is a refusal, what it carries out is none: the exit status
cat >"$out/accepted" <<END
zone bay3.example.net. update: done
request 4 acid-1.hex 192.0.2.31: $given
message 1, the first of an add, 178 bytes, by UDP
answered 1-6.hex: message 1, $in_use
message 2, the second of an add, 178 bytes, by UDP
END
{
  cat "$out/accepted"
  cat <<END
answered 2-0.hex: message 2, the second of an add, code 0: done, the client holds the name there, and has this address now
release 4 acid-1.hex 192.0.2.31: $returned
message 3, the first of a remove, 182 bytes, by UDP
answered 3-0.hex: message 3, $taken
message 4, the second of a remove, 244 bytes, by UDP
answered 4-0.hex: message 4, $gone
END
} >"$out/expected"
told "what the server carries out" 0 "$out/expected" < <(sed -n 's/: .*//p' "$out/expected")
{ sed '$d' "$out/expected" && echo "answered 4-6.hex: message 4, the second of a remove, code 6: $no_such_code"; } >"$out/expected-too"
told "a code that no server gives" 1 "$out/expected-too" < <(sed -n 's/: .*//p' "$out/expected-too")
{ sed '9,$d' "$out/expected" && echo "answered 3-8.hex: message 3, $not_there"; } >"$out/expected-too"
told "a remove that the server refuses" 1 "$out/expected-too" < <(sed -n 's/: .*//p' "$out/expected-too")
{
  cat "$out/accepted"
  echo "answered 2-8.hex: message 2, the second of an add, code 8: another client holds the name there, or it is kept by hand; end this lease by \`release\`, or free the name \
there and say \`request\` again"
} >"$out/expected"
told "an add that the server refuses" 1 "$out/expected" < <(sed -n 's/: .*//p' "$out/expected")

# a message of more than 512 bytes goes by TCP, one of 512 does not: 81 bytes and the address's 4, those of the zone, and three times those of the name
long=$(printf 'a%.0s' {1..63}).$(printf 'b%.0s' {1..63})
cat >"$out/expected" <<END
set site-name: done
zone ddddd. update: done
site $long.cccc.ddddd.: done
request 4 acid-1.hex 192.0.2.31: $long.cccc.ddddd.: answer 0: the name was free and is now this client's
message 1, the first of an add, 512 bytes, by UDP
zone dddddd. update: done
site $long.ccc.dddddd.: done
request 4 acid-1.hex 192.0.2.31: $long.ccc.dddddd.: answer 0: the name was free and is now this client's
message 2, the first of an add, 513 bytes, by TCP
END
told "long messages" 0 "$out/expected" < <(sed -n 's/: .*//p' "$out/expected")

# a lease that is not stored sends nothing, since its client asks again; an ended one is kept, and does. A folder is in the place of the reverse side's other name
rm -rf "$out/beside"
mkdir "$out/beside"
for book in lease ended; do
  cp "$out/made/away.book" "$out/beside/$book.book"
  cp "$out/made/away.book.reverse" "$out/beside/$book.book.reverse"
  mkdir -p "$out/beside/$book.book.reverse.new/x"
done
cat >"$out/expected" <<END
zone bay3.example.net. update: done
book books/lease.book: blocks: 3, names: 2
request 4 acid-1.hex 192.0.2.31: $renewed; $unstored
no message for the name server
book books/ended.book: blocks: 3, names: 2
release 4 acid-1.hex 192.0.2.41: $returned; $unstored
message 1, the first of a remove, 182 bytes, by UDP
END
books=$out/beside told "messages of what is not stored" 2 "$out/expected" < <(sed -n 's/: .*//p' "$out/expected")

# a restart forgets the message that waits. An ended lease that was kept is carried after the restart, done already or not; it may have been sent before
cat >"$out/expected" <<END
new a.book: done; the book is begun anew, blocks: 0
zone bay3.example.net. update: done
cut after: done
request 4 acid-1.hex 192.0.2.31: acid-1.bay3.example.net.: POWER CUT: both are stored; nobody was told, say \`restart\`
no message for the name server
zone bay3.example.net. update: $off
restart: blocks: 1, names: 1
request 4 acid-1.hex 192.0.2.31: $renewed; stored as block 1
message 1, the first of an add, 178 bytes, by UDP
restart: blocks: 2, names: 1
again: $nothing_waits
cut between: done
release 4 acid-1.hex 192.0.2.31: acid-1.bay3.example.net.: POWER CUT: the first of two is stored; nobody was told, say \`restart\`
no message for the name server
again: $off
restart: blocks: 2, names: 1
an ended lease was kept, $returned; stored as block 2
message 2, the first of a remove, 182 bytes, by UDP
answered 2-8.hex: message 2, the first of a remove, code 8: there is nothing of this client to delete there, but an answer may have been lost, so the second message follows
message 3, the second of a remove, 244 bytes, by UDP
answered 3-0.hex: message 3, $gone
request 4 acid-1.hex 192.0.2.31: $given; stored as block 3
message 4, the first of an add, 178 bytes, by UDP
answered 4-0.hex: message 4, $added
cut after: done
release 4 acid-1.hex 192.0.2.31: acid-1.bay3.example.net.: POWER CUT: both are stored; nobody was told, say \`restart\`
no message for the name server
restart: blocks: 5, names: 0
an ended lease was kept, acid-1.bay3.example.net.: it was done already (33)
message 5, the first of a remove, 182 bytes, by UDP
answered 5-0.hex: message 5, $taken
message 6, the second of a remove, 244 bytes, by UDP
END
told "messages and power cuts" 2 "$out/expected" < <(sed -n '/^an ended/d; s/: .*//p' "$out/expected")

# an ended lease that was kept, and a zone after the restart that its name is not in: it is ended, and there is no message for it
rm -rf "$run"/*.book* "$out/beside"
mkdir "$out/beside"
printf '%s\n' "new kept.book" "request 4 acid-1.hex 192.0.2.31" "cut before" "release 4 acid-1.hex 192.0.2.31" >"$out/text"
(cd "$run" && exec "$top/host") <"$out/text" >"$out/told"
is "an ended lease to be kept: status" 1 $?
cp "$run"/kept.book* "$out/beside"
cat >"$out/expected" <<END
zone bay4.example.net. update: done
book books/kept.book: blocks: 1, names: 1
an ended lease was kept, $returned; stored as block 1
no message for the name server: refused 9: ...
again: $nothing_waits
END
books=$out/beside told "an ended lease outside the zone" 2 "$out/expected" < <(sed -n '/^an ended/d; /^no message/d; s/: .*//p' "$out/expected")

# ---- lines that are no commands

{
  printf '\n; a comment\n \t \nfrobnicate\nrequest 4 acid-1.hex\nload a listing\nshow show show show show show show\nset nothing\n'
  printf 'site acid-1\nclear a..b.\nclear a.(\nfind .\nfind a.b.\ncount\nclear-released\nclear-without-address\nfind\ncount a.\nSHOW\n\tshow\t\nsh\0w\nshow\r\n\303\244\n'
  printf 'clear %0600d\nnew' 0
} >"$out/text"
cat >"$out/expected" <<END
; a comment
frobnicate: $wrong
request 4 acid-1.hex: $wrong
load a listing: $wrong
show show show show show: $wrong
set nothing: no such setting: there are client-names, site-name, first-wins and latest-wins
site acid-1: refused 9: ...
clear a..b.: refused 9: ...
clear a.(: refused 9: ...
find .: refused 9: ...
find a.b.: refused 33: ...
count: names: 0, and there is room for 64 more
clear-released: $wrong
clear-without-address: names: 0
find: $wrong
count a.: $wrong
SHOW: $wrong
show: records: 0
sh?w: $wrong
show?: $wrong
??: $wrong
a line is too long: commands have 510 characters at most
new: done
END
told "lines that are no commands" 2 "$out/expected" <"$out/text"
told "no input" 0 /dev/null </dev/null
echo "usage: host [FILE], with a FILE of commands that can be read, or commands on standard input" >"$out/usage"
errors=$out/usage told "no file of commands" 2 /dev/null nowhere.in </dev/null
errors=$out/usage told "two files of commands" 2 /dev/null day.in day.in </dev/null
echo "host: the commands could not be read to their end, or the answers not be written" >"$out/usage"
errors=$out/usage told "a folder of commands" 2 /dev/null folder.hex </dev/null
if [ -e /dev/full ]; then
  (cd "$run" && exec "$top/host" day.in) >/dev/full 2>"$out/errors"
  is "a full disk: status" 2 $?
  same "a full disk: error stream" "$out/usage" "$out/errors"
fi
finish
