#!/usr/bin/env bash
# The pictures of the crates in docs/CRATES.md against crates.txt (tests/picture.py): every crate is once in the picture of the layers, above all that it uses, and nothing else is;
# in the ways each arrow leads from a crate to one that it uses, directly or through others. The drawing docs/crates.svg is what tools/drawing makes of crates.txt, byte for byte.
# Then the comparisons are tried: on pictures, drawings and lists with one thing changed, which they have to tell.
# Last line: `N passed, M failed`, a pass for the pictures, one for the drawing and one for each change.
set -uo pipefail
cd "$(dirname "$0")/.." || exit 2
. tests/texts.bash
what=picture
out=target/tests/picture
mkdir -p "$out" || exit 2

compare() {
  python3 -B tests/picture.py "$@"
}

if compare crates.txt docs/CRATES.md >"$out/said"; then
  pass
  echo "picture: $(tail -n 1 "$out/said")"
else
  fail "the pictures are not those of crates.txt"
  show "$out/said"
fi

# told WHAT TEXT FILE SCRIPT: the file, changed by a script of sed, is told from the right one with this text
told() {
  local list=crates.txt picture=docs/CRATES.md
  sed -e "$4" "$3" >"$out/changed"
  if cmp -s "$3" "$out/changed"; then
    fail "$1: nothing is changed, so this tries nothing"
    return
  fi
  if [ "$3" = crates.txt ]; then list=$out/changed; else picture=$out/changed; fi
  if compare "$list" "$picture" >"$out/said"; then
    fail "$1: not told"
  else
    has "$1" "$2" "$out/said"
  fi
}

picture=docs/CRATES.md
told "a crate is not in the picture" "octets is there 0 times" $picture '/```layers/,/^```$/s/octets/      /'
told "a crate that there is not" "nowhere is not a crate" $picture '/```layers/,/^```$/s/octets/octets nowhere/'
told "a crate twice" "octets is there 2 times" $picture '/```layers/,/^```$/s/octets/octets octets/'
told "a crate under another name" "octet is not a crate" $picture '/```layers/,/^```$/s/octets/octet/'
told "a crate below one that it uses" "words uses grammar, and is not above it" $picture '/```layers/,/^```$/{s/words/WORDS/;s/grammar/words/;s/WORDS/grammar/;}'
told "an arrow turned" "an arrow from dhcid to gateway, which it does not use" $picture '/```way/,/^```$/s/+-> dhcid /+<- dhcid /'
told "the two ends of an arrow exchanged" "an arrow from sha256_block to hash, which it does not use" $picture '/```way/,/^```$/{s/-> hash /-> SHA /;s/sha256_block/hash/;s/SHA/sha256_block /;}'
told "an arrow to a crate that is not used" "an arrow from dhcid to table, which it does not use" $picture '/```way/,/^```$/s/+-> message4 /+-> table /'
told "an arrow to no crate" "nowhere is not a crate" $picture '/```way/,/^```$/s/+-> message4 /+-> nowhere /'
told "no picture of the layers" "0 pictures of the layers" $picture 's/^```layers/```/'
told "no ways" "0 ways" $picture 's/^```way/```/'
told "a crate more in the list" "newcomer is there 0 times" crates.txt '$anewcomer: base'
told "a crate less in the list" "demands is not a crate" crates.txt '/^demands:/d'
told "a crate that no longer uses another" "an arrow from row to listing, which it does not use" crates.txt 's/^row:.*/row: base/'

# drawn LIST DRAWING: the drawing is that of the list
drawn() {
  tools/drawing "$1" >"$out/drawn.svg" 2>"$out/said" && cmp -s "$out/drawn.svg" "$2"
}

if drawn crates.txt docs/crates.svg; then
  pass
else
  fail "docs/crates.svg is not the drawing of crates.txt: run 'tools/drawing >docs/crates.svg', and look at it"
  show "$out/said"
fi

# redrawn WHAT FILE SCRIPT: the list or the drawing, changed by a script of sed, no longer go together
redrawn() {
  local list=crates.txt drawing=docs/crates.svg
  sed -e "$3" "$2" >"$out/changed"
  if cmp -s "$2" "$out/changed"; then
    fail "$1: nothing is changed, so this tries nothing"
    return
  fi
  if [ "$2" = crates.txt ]; then list=$out/changed; else drawing=$out/changed; fi
  if drawn "$list" "$drawing"; then fail "$1: not told"; else pass; fi
}

redrawn "a box with another name" docs/crates.svg 's/>octets</>octet</'
redrawn "a box that is gone" docs/crates.svg '/>octets</d'
redrawn "a colour" docs/crates.svg 's/#ddf4ff/#ffffff/'
redrawn "a program more in the list" crates.txt '$anewcomer: base io'
redrawn "a crate less in the list" crates.txt '/^harness:/d'
redrawn "a crate that uses one more" crates.txt 's/^octets: base/octets: base text/'
redrawn "a comment of the list" crates.txt 's/^# domain names/# names/'

# refused WHAT TEXT SCRIPT: the list, changed by a script of sed, is not drawn, with this text
refused() {
  sed -e "$3" crates.txt >"$out/changed"
  if drawn "$out/changed" docs/crates.svg; then fail "$1: drawn"; else has "$1" "$2" "$out/said"; fi
}

refused "a library in no column" "newcomer is in no column" '$anewcomer: base'
refused "a station that C cannot reach" "gateway does not use it" 's/^gateway:.*/gateway: base dhcid table/'
refused "messages that nobody reads" "which does not use it" 's/^dhcid:.*/dhcid: base hash name message message4/'
finish
