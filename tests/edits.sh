#!/usr/bin/env bash
# The edits of crates/*/must-fail. An edit has one wrong program or several, with a blank line between them, each with a line `at: FUNCTION`: the function's folder below
# proofs/ (of functions that call each other and have one proof, that proof's folder) and, where more is to be said, a second word, the goal that refuses it (a `*` at its
# end stands for the rest of a name); or of a definition `at: FILE LAW`, a file proofs/FILE.antt and the law in it that no longer holds. A wrong program that does not
# say where it is refused is a failure; what only changes the imports for another one need not. That rt refuses such an edit says that one of them is refused. So each
# edit is tried here as rt tries it (tests/edits.py), and what `rt check` prints of it is kept, in target/tests/edits/logs/CRATE/EDIT.log. The log is asked that each is
# refused: an error stands in the function's own proof, or is the law's, that is about a fact, not that something else was not admitted, that a name is not known, that
# there is no such field, that a fact is of another form or that the prover met a limit. Of a goal without an answer in the repository, which `rt` proves by a search,
# that search must not have closed. Where another test in the code gives a goal another name, rt must have found that it is false.
# A search waits for the proofs of what the function calls, and one wrong program may take from another what its proof names: so those that are not refused so beside the
# others are tried without these, in EDIT.N-N.log, and what is left then each alone, in EDIT.N.log.
#
#   bash tests/edits.sh              what was tried, and has not changed since with all that it stands on, is not tried again
#   bash tests/edits.sh CRATE..      the wrong programs of these crates
#
# Last line: `N passed, M failed`, counting wrong programs; what tells them apart is tried first, and a slip of it is a failure.
set -uo pipefail
cd "$(dirname "$0")/.." || exit 2
. tests/texts.bash
what=edits

# unsaid EDIT: the wrong programs that do not say where they are refused, by their first lines; and an edit that has none
unsaid() {
  awk -v RS= '
    {
      changes = said = 0
      for (n = split($0, line, "\n"); n > 0; n--) {
        if (line[n] ~ /^old:/ && line[n] !~ /^old: ((ghost|pub|unfoldable) )*use /) changes++
        if (line[n] ~ /^at: *[^ ]/) said++
      }
      programs += said
      if (changes > 0 && said == 0) print line[1]
    }
    END { if (programs == 0) print "no wrong program that says where it is refused" }' "$1"
}

# places EDIT: of each line `at: ` the number of the wrong program that has it, and the line's words
places() {
  awk -v RS= '
    {
      said = 0
      n = split($0, line, "\n")
      for (i = 1; i <= n; i++)
        if (line[i] ~ /^at: /) {
          if (!said++) number++
          print number, substr(line[i], 5)
        }
    }' "$1"
}

# no errors of a fact: what is not known, what was not looked at, what has another form, where the prover stopped
no_fact='can be named from here|was not admitted|was rejected, was not checked|is not in scope|has no field|record `[^`]*` \(nearest|is applied to an argument but has type|antt ran out of |outgrew the memory limit'

# errors LOG FILE: the errors that stand in a file
errors() {
  awk -v file="./$2:" 'index($0, file) == 1 && substr($0, length(file) + 1) ~ /^[0-9]+:[0-9]+: error: /' "$1"
}

# refusals CRATE FOLDER GOAL LOG: the lines of the log that are this function's, or this law's, own refusals
refusals() {
  local goal=\`$3 own="fn $1::${2//\//::}: "
  case $3 in
  '') ;;
  *'*') goal=${goal%'*'} ;;
  *) goal=$goal\` ;;
  esac
  if [ -f "crates/$1/proofs/$2.antt" ]; then
    errors "$4" "proofs/$2.antt" | grep -aF ": error: $goal" | grep -avE "$no_fact"
    return
  fi
  { errors "$4" "proofs/$2/Answers.antt" && errors "$4" "proofs/$2/Invariants.antt"; } | grep -aF ": error: $goal" | grep -avE "$no_fact"
  # what rt notes of a function stands before the function's line; it knows less than it might where an invariant is not read
  if [ -z "$(errors "$4" "proofs/$2/Invariants.antt")" ]; then
    awk -v own="$own" -v goal="($goal" '
      index($0, own) == 1 { printf "%s", told }
      /^[a-z]+ [a-z0-9_]+::/ { told = "" }
      /^note: src\/.* the facts known there allow values at which this goal is false$/ && index($0, goal) { told = told $0 "\n" }' "$4"
  fi
  # behind the goals that a search did not close may stand what the function calls
  awk -v own="${own}no proof: " 'index($0, own) == 1' "$4" | sed -n 's/.*; `search` did not prove \([^;]*\).*/, \1/p' | grep -aF ", $goal"
}

out=target/tests/edits
mkdir -p "$out" || exit 2
one=$'The first.\nfile: src/lib.rt\nat: first\nold: 1\nnew: 2'
other=$'The second.\nfile: src/lib.rt\nold: 3\nnew: 4'
imports=$'What the first one needs.\nfile: specs/A.antt\nold: use A.{a}\nnew: use A.{a, b}'
tell() {
  printf '%s\n' "$2" >"$out/tried.edit"
  local told
  told=$(unsaid "$out/tried.edit")
  [ "$told" = "$3" ] || fail "$1: expected '$3', but what is told is '$told'"
}
tell "a wrong program that says where" "$one" ""
tell "and imports for it" "$one"$'\n\n'"$imports" ""
tell "a wrong program that does not say where" "$one"$'\n\n'"$other" "The second."
tell "one with two places" "$one"$'\nold: 5\nnew: 6' ""
tell "one that says nothing behind the word" "${one/at: first/at: }"$'\n\n'"$one" "The first."
tell "imports alone" "$imports" "no wrong program that says where it is refused"

# asked WHAT FOLDER GOAL EXPECTED LINE..: how many lines of a log, all of the crate `tried`, are refusals at the folder
asked() {
  local what_for=$1 folder=$2 goal=$3 expected=$4
  shift 4
  printf '%s\n' "$@" >"$out/tried.log"
  local told
  told=$(refusals "${crate:-tried}" "$folder" "$goal" "$out/tried.log" | wc -l)
  [ "$told" -eq "$expected" ] || fail "$what_for: expected $expected lines, but what is told is $told"
}
crate=
answers=./proofs/table/add/Answers.antt:13:40
asked "an answer that is refused" table/add "" 1 "$answers: error: \`returns\`: \`omega\`: the goal does not follow from what it read"
asked "a loop's invariant" table/add "" 1 "./proofs/table/add/Invariants.antt:9:1: error: \`invariant-loop-i\`: expected type \`A\`, but this has type \`B\`"
asked "the goal that is named" table/add returns-then-b-eq0 1 "$answers: error: \`returns-then-b-eq0\`: expected type \`A\`, but this has type \`B\`"
asked "how the goal's name begins" table/add 'returns-then-*' 1 "$answers: error: \`returns-then-b-eq0\`: expected type \`A\`, but this has type \`B\`"
asked "a goal whose name only begins so" table/add returns 0 "$answers: error: \`returns-then-b-eq0\`: expected type \`A\`, but this has type \`B\`"
asked "another goal than the one that is named" table/add 'loop-i*' 0 "$answers: error: \`returns-then-b-eq0\`: expected type \`A\`, but this has type \`B\`"
asked "another function's answer" table/add "" 0 "./proofs/table/add_one/Answers.antt:13:40: error: \`returns\`: expected type \`A\`, but this has type \`B\`" \
  "./proofs/other/table/add/Answers.antt:13:40: error: \`returns\`: expected type \`A\`, but this has type \`B\`"
asked "a note" table/add "" 0 "$answers: note: \`simp\` made 1 round(s) on the goal" "fn tried::table::add: not proved"
asked "a goal that there is not" table/add "" 0 "$answers: error: \`returns-2\`: \`goal.returns-2\`: module \`Rattle.tried.proofs.table.add.Goals\` has no \`returns-2\` that can be named from here" \
  "$answers: error: module \`Rattle.tried.proofs.table.add.Goals\` has no \`then-b-gt63\` that can be named from here (did you mean \`then-b-gt64\`?)"
asked "a field that there is not" table/add "" 0 "$answers: error: \`returns\`: record \`Rattle.tried.proofs.table.add.Lts.View.In\` has no field \`if-n-ne0\` (nearest: .if-n-eq0)"
asked "what something else took with it" table/add "" 0 "$answers: error: 1 declaration that depends on \`then-b\`, which was not admitted, was not checked: returns" \
  "$answers: error: 1 declaration that depends on \`then-b\`, which was rejected, was not checked: returns"
asked "a fact of another form" table/add "" 0 "$answers: error: \`returns\`: this is applied to an argument but has type \`n ≤ 5\`"
asked "a limit of the prover" table/add "" 0 "$answers: error: \`returns\`: antt ran out of the steps that the check of one declaration may take"
false='note: src/lib.rt:9:5: it is not proved that what the function ensures holds when it returns (`returns-then-b`); the facts known there allow values at which this goal is false'
asked "a goal that rt finds false" table/add 'returns-then-*' 1 "fn tried::table::one: proved" "$false" "note: to see how far" "fn tried::table::add: not proved"
asked "another goal than the one that rt finds false" table/add returns 0 "$false" "fn tried::table::add: not proved"
asked "a goal that rt finds false, of another function" table/add "" 0 "$false" "fn tried::table::one: not proved" "note: to see how far" "fn tried::table::add: not proved"
asked "a goal that rt finds false, without the invariant" table/add "" 0 "./proofs/table/add/Invariants.antt:9:1: error: module \`A\` has no \`a\` that can be named from here" \
  "$false" "fn tried::table::add: not proved"
asked "a goal that the search gave up" table/add "" 0 "${false/the facts*/\`search\` gave up at one of its limits}" "fn tried::table::add: not proved"
search='no proof: expected answers in ./proofs/table/add/Answers.antt; `search` did not prove `overflow_add-n`, `returns-then-b-eq0`'
asked "a search that does not close" table/add "" 1 "fn tried::table::add: $search"
asked "the goal that it does not close" table/add returns-then-b-eq0 1 "fn tried::table::add: $search; it calls \`tried::two\`, which is not proved"
asked "how the name of the goal begins that it does not close" table/add 'overflow_*' 1 "fn tried::table::add: $search"
asked "another goal than the one that it does not close" table/add returns 0 "fn tried::table::add: $search"
asked "another function's search" add "" 0 "fn tried::table::add: $search"
asked "a search that waits" table/add "" 0 "fn tried::table::add: no proof: it calls \`tried::two\`, which is not proved"
crate=base
law=$(basename "$(find crates/$crate/proofs -maxdepth 1 -name '*Laws.antt' | LC_ALL=C sort | head -n 1)" .antt)
asked "a law" "$law" one 1 "./proofs/$law.antt:9:3: error: \`one\`: expected type \`A\`, but this has type \`B\`"
asked "another law" "$law" one 0 "./proofs/$law.antt:9:3: error: \`one_more\`: expected type \`A\`, but this has type \`B\`"
asked "a law that cites one that does not hold" "$law" one 0 "./proofs/$law.antt:9:3: error: 1 declaration that depends on \`two\`, which was rejected, was not checked: one"

logs=$out/logs
left=$out/left
# ask: each line of `left`, CRATE EDIT N FOLDER GOAL, asks the log CRATE/EDIT.log, with what `part` has behind the edit's name; what is refused there is no longer left
ask() {
  local crate label number folder goal log
  mv "$left" "$left.before"
  while read -r crate label number folder goal; do
    log=$logs/$crate/$label${part[$crate $label $number]-}.log
    if [ ! -f "$log" ] || ! tail -n 1 "$log" | grep -q '^edits: tried, '; then
      fail "$crate/$label: the wrong program at $folder $goal was not tried: see $log"
    elif [ -n "$(refusals "$crate" "$folder" "$goal" "$log")" ]; then
      pass
    else
      echo "$crate $label $number $folder $goal" >>"$left.now"
    fi
  done <"$left.before"
  cat "$left.now" >"$left" 2>/dev/null || : >"$left"
  rm -f "$left.now"
}

# the wrong programs of an edit that are left, with commas between, and how many the edit has
declare -A part=() beside=() programs=()
: >"$left"
rm -f "$left.now"
for edit in crates/*/must-fail/*.edit; do
  crate=${edit#crates/}
  crate=${crate%%/*}
  [ $# -eq 0 ] || [[ " $* " == *" $crate "* ]] || continue
  label=$(basename "$edit" .edit)
  while read -r first; do
    fail "$crate/$label: a line \`at: \` has to say where it is refused: $first"
  done < <(unsaid "$edit")
  while read -r number folder goal; do
    echo "$crate $label $number $folder $goal" >>"$left"
    programs[$crate $label]=$number
  done < <(places "$edit")
done
python3 -B tests/edits.py "$logs" "$@" || fail "not every edit was tried"
ask

while read -r crate label number _; do
  case ,${beside[$crate $label]-}, in
  *",$number,"*) ;;
  *) beside[$crate $label]=${beside[$crate $label]+${beside[$crate $label]},}$number ;;
  esac
done <"$left"
for edit in "${!beside[@]}"; do
  numbers=${beside[$edit]}
  # all of them together was tried
  [ "$(tr -cd , <<<"$numbers" | wc -c)" -ge $((programs[$edit] - 1)) ] && continue
  echo "$edit $numbers"
  for number in ${numbers//,/ }; do part[$edit $number]=.${numbers//,/-}; done
done >"$out/parts"
python3 -B tests/edits.py --part "$logs" <"$out/parts" || fail "not every wrong program was tried without the others"
ask

cut -d ' ' -f 1-3 "$left" | uniq | while read -r crate label number; do
  [ "${programs[$crate $label]}" -eq 1 ] || echo "$crate $label $number"
done >"$out/parts"
while read -r crate label number; do part[$crate $label $number]=.$number; done <"$out/parts"
python3 -B tests/edits.py --part "$logs" <"$out/parts" || fail "not every wrong program was tried alone"
ask
while read -r crate label number folder goal; do
  fail "$crate/$label: the wrong program at $folder $goal is not refused by itself: see $logs/$crate/$label${part[$crate $label $number]-}.log"
done <"$left"
finish
