#!/usr/bin/env bash
# What the definitions cite (tests/imports.py): no file of specs/ a file of proofs/, and those that say what a listing spells, in `grammar` and below it, nothing that reads one. So "written
# down without the reader" is looked at, and not only said. Then the look is tried, on a copy with one import planted, which it has to tell.
# Last line: `N passed, M failed`, a pass for the definitions and one for each copy.
set -uo pipefail
cd "$(dirname "$0")/.." || exit 2
. tests/texts.bash
what=imports
out=target/tests/imports
rm -rf "$out"
mkdir -p "$out" || exit 2
# outside the repository, where rt stops at a file that no check reads
tree=$(mktemp -d) || exit 2
trap 'rm -rf "$tree"' EXIT
mkdir "$tree/crates" || exit 2

look() {
  python3 -B tests/imports.py "$@"
}

if look . >"$out/found"; then
  pass
  echo "imports: $(tail -n 1 "$out/found")"
else
  fail "a definition cites what it should not"
  show "$out/found"
fi

cp crates.txt "$tree"
for specs in crates/*/specs; do
  mkdir -p "$tree/${specs%/specs}" && cp -R "$specs" "$tree/$specs" || exit 2
done

# planted FILE LINE: what the look says of a copy with this line in the file's header, or at its end
planted() {
  local file=$tree/$1 line=$2
  [ -f "$file" ] || stop "$1 is not there, so nothing can be planted in it"
  cp "$file" "$out/kept"
  if [[ $line == use\ * ]]; then
    { printf '%s\n' "$line" && cat "$out/kept"; } >"$file"
  else
    printf '%s\n' "$line" >>"$file"
  fi
  look "$tree" >"$out/said"
  cp "$out/kept" "$file"
}

# told WHAT FILE LINE WHY: the copy is told from the right one, with the file and this text
told() {
  planted "$2" "$3"
  has "$1" "$2 $4" "$out/said"
}

# untold WHAT FILE LINE: the copy is as good as the right one
untold() {
  planted "$2" "$3"
  same "$1" "$out/found" "$out/said"
}

listing=crates/grammar/specs/Listing.antt
told "a proof of the own crate" $listing 'use Rattle.grammar.proofs.Reader.{read}' "cites Rattle.grammar.proofs.Reader, which is no file of specs/"
told "a proof of a crate below" $listing 'use Rattle.name.proofs.NameLaws.{lowered}' "cites Rattle.name.proofs.NameLaws, which is no file of specs/"
told "a whole path in an expression" $listing 'read = Rattle.base.proofs.Lists.last_of' "cites Rattle.base.proofs.Lists.last_of, which is no file of specs/"
told "a crate as a whole, from which all can be named" $listing 'use Rattle.base as below' "cites Rattle.base, which is no file of specs/"
told "a crate as a whole, as a library" $listing 'use package.Rattle.base' "cites Rattle.base, which is no file of specs/"
told "what a crate passes on" $listing 'use Rattle.base.specs' "cites Rattle.base.specs, which is no file of specs/"
told "the words of an entry" $listing 'use Rattle.words.specs.NextIs.{NextIs}' "cites Rattle.words.specs.NextIs, of a crate that is not among"
told "the reader of a whole listing" crates/grammar/specs/Faults.antt 'use Rattle.listing.specs.Reading as reading' "cites Rattle.listing.specs.Reading, of a crate that is not among"
told "the reader of names" crates/name/specs/Name.antt 'use Rattle.name_text.specs.Promise.{lead}' "cites Rattle.name_text.specs.Promise, of a crate that is not among"
told "a crate of the ground that is not used" crates/text/specs/Digits.antt 'use Rattle.name.specs.Label.{lower}' "cites Rattle.name.specs.Label, of a crate that text does not use"
told "a crate above, from a promise" crates/text/specs/Field.antt 'use Rattle.address.specs.Address.{SpellsA}' "cites Rattle.address.specs.Address, of a crate that text does not use"
told "how words of a DHCID are read" $listing 'use Rattle.dhcid_text.specs.DhcidReading.{After}' "states a meaning and cites Rattle.dhcid_text.specs.DhcidReading, which states none"
told "functions that read, in the own crate" $listing 'use Rattle.grammar.specs.Reader.{read}' "states a meaning and cites Rattle.grammar.specs.Reader, which states none"
told "the test of a proper name" crates/name/specs/Name.antt 'use Rattle.name.specs.ProperTest.{is_proper}' "states a meaning and cites Rattle.name.specs.ProperTest, which states none"
told "a type of the code" crates/grammar/specs/Outcome.antt 'use Rattle.base.specs.declared.Answer.{Answer}' "states a meaning and cites Rattle.base.specs.declared.Answer, which states none"
told "another library" crates/base/specs/Bytes.antt 'use denote.Ref.{Ref}' "cites denote, which is none of the libraries"
told "what the toolchain says of references" crates/base/specs/Bytes.antt 'use Rattle.std.specs.Borrow.{Bor}' "cites Rattle.std.specs.Borrow, which is none of the libraries"
told "the toolchain's lemmas" crates/base/specs/Bytes.antt 'use Rattle.std.proofs.Common.{rules}' "cites Rattle.std.proofs.Common, which is no file of specs/"
told "the toolchain's lemmas, in a crate that reads" crates/row/specs/Row.antt 'use Rattle.std.proofs.Common.{rules}' "cites Rattle.std.proofs.Common, which is no file of specs/"
told "all crates" $listing 'use Rattle as all' "cites Rattle, which is no file of specs/"
told "a name that another line brought" $listing 'use Name.{text}' "cites Name, which is none of the libraries"
told "a proof, in a crate that reads" crates/row/specs/Row.antt 'use Rattle.grammar.proofs.ReaderLaws.{either}' "cites Rattle.grammar.proofs.ReaderLaws, which is no file of specs/"
told "a proof, in a demand" crates/demands/specs/Demand1.antt 'use Rattle.row.proofs.Theorems as row' "cites Rattle.row.proofs.Theorems, which is no file of specs/"
untold "a proof in a comment" $listing '-- proofs/Theorems.antt, Rattle.grammar.proofs.Reader, says "more'
untold "a proof in a text" $listing 'told = "-- Rattle.grammar.proofs.Reader"'
untold "what passes the libraries on" $listing 'use Rattle.std.specs.Prelude.{ℕ}'
untold "what the toolchain says of references, in a crate that reads" crates/row/specs/Row.antt 'use Rattle.std.specs.Borrow.{Bor}'
untold "a meaning" $listing 'use Rattle.text.specs.Digits.{Number}'
untold "a promise, in a promise" crates/text/specs/Field.antt 'use Rattle.text.specs.Reading.{Decodes}'

mv "$tree/crates/address/specs/Address.antt" "$tree/crates/address/specs/Addresses.antt"
look "$tree" >"$out/said"
has "a meaning under another name" "crates/address/specs/Address.antt is not there" "$out/said"
rm -rf "$tree/crates"
if look "$tree" >"$out/said"; then fail "no definitions: not told"; else has "no definitions" "no file of specs/ is there" "$out/said"; fi
finish
