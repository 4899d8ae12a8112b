#!/usr/bin/env bash
# The documents as text (tests/documents.py): no long lines, no link or path that leads nowhere, and the README's examples are those of the repository and print what it shows.
# Then the comparison is tried, on a README with one thing changed, which it has to tell. Last line: `N passed, M failed`, a pass for the documents and one for each change.
set -uo pipefail
cd "$(dirname "$0")/.." || exit 2
. tests/texts.bash
what=documents
out=$PWD/target/tests/documents
rm -rf "$out"
mkdir -p "$out/tree" || exit 2

compare() {
  python3 -B tests/documents.py "$@"
}

# the checker that the README shows: built here, so that its first use says nothing more
./listing-check </dev/null >"$out/said" 2>&1 || fail "there is no checker: $(tail -n 1 "$out/said")"

mapfile -t documents < <(find . -name target -prune -o -name .git -prune -o -name '*.md' -print | sort)
if compare . "${documents[@]}" >"$out/said"; then
  pass
  echo "documents: ${#documents[@]} documents, $(tail -n 1 "$out/said")"
else
  fail "what does not hold of the documents:"
  show "$out/said"
fi

# a tree as this one, with a README of its own; it does not stay, since `rt ci` refuses links in the repository
trap 'rm -rf "$out/tree"' EXIT
for entry in *; do
  [ "$entry" = README.md ] || ln -s "$PWD/$entry" "$out/tree/$entry"
done

# told WHAT TEXT SCRIPT: README.md, changed by a script of sed, is told from the right one with this text
told() {
  sed -e "$3" README.md >"$out/tree/README.md"
  if cmp -s README.md "$out/tree/README.md"; then
    fail "$1: nothing is changed, so this tries nothing"
  elif compare "$out/tree" "$out/tree/README.md" >"$out/said"; then
    fail "$1: not told"
  else
    has "$1" "$2" "$out/said"
  fi
}

told "a long line" "README.md:3: 121 characters" "2a$(printf 'x%.0s' {1..121})"
told "a link to no file" "a link to docs/NOWHERE.md" 's,(docs/TRUST.md),(docs/NOWHERE.md),'
told "a link to no heading" "there is no such heading" 's,(docs/TRUST.md),(docs/TRUST.md#nowhere),'
told "a path to no file" '`tools/nowhere` is not there' '2aSee `tools/nowhere`.'
told "an example with another line" "the block is not examples/quick.c" '/^```c$/,/^```$/s/vichrelka_/vichrelkb_/'
told "another output of the example" "the block is not examples/quick.expected" 's/^chi.example.com. A 192.0.2.7$/chi.example.com. A 192.0.2.8/'
told "another line of the accident" "the block is not lines of" 's/refused 24 at 98/refused 24 at 99/'
told "the accident's lines in another order" "the block is not lines of" '/^load carried-entry-lost/{h;d;};/^request .* refused 31/G'
told "another output of the checker" "its commands print something else" 's/^gateway.bay3.example.net. A 192.0.2.1$/gateway.bay3.example.net. A 192.0.2.2/'
told "a README of more than a screen or two" "and not at most 150" '$a'"$(printf '\\\n%.0s' {1..100})"
finish
