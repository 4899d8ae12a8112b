#!/usr/bin/env bash
# tools/moved on a small repository of its own, with one thing of each kind between two commits: what it prints is compared with the text below, of two commits, of a commit and the
# working tree, and of two logs of the gate. Last line: `N passed, M failed`.
set -uo pipefail
cd "$(dirname "$0")/.." || exit 2
. tests/texts.bash
what=moved
tool=$PWD/tools/moved
out=$PWD/target/tests/moved
rm -rf "$out"
mkdir -p "$out" || exit 2
# outside this repository, where rt stops at files that no check reads and at another repository
repository=$(mktemp -d) || exit 2
trap 'rm -rf "$repository"' EXIT
cd "$repository" || exit 2

# a repository that is this folder's, whatever the one that asks and its user say
# shellcheck disable=SC2046
unset $(git rev-parse --local-env-vars)
export GIT_CONFIG_GLOBAL=/dev/null GIT_CONFIG_NOSYSTEM=1
export GIT_AUTHOR_NAME=tests GIT_AUTHOR_EMAIL=tests@example.com GIT_COMMITTER_NAME=tests GIT_COMMITTER_EMAIL=tests@example.com

record() {
  git add -A || stop "git cannot add"
  git commit -qm "$1" || stop "git cannot commit"
}

git init -q . 2>/dev/null || stop "git cannot make a repository"
mkdir -p crates/low/{specs,src,proofs/read} crates/high/{specs,src,proofs}
cat >crates/low/specs/Form.antt <<'END'
-- the form
use Rattle.std.specs.Prelude.{ℕ, ◌+◌}

-- the limit
abbrev pub limit : ℕ
limit = 64

-- twice a number
unfoldable pub double : ℕ → ℕ
double n = n + n

-- an entry
pub record Entry : Type 0 where
  pub place : ℕ

abbrev pub place_of : Entry → ℕ
place_of e = e.place

abbrev pub spare : ℕ
spare = 7
END
cat >crates/low/src/lib.rt <<'END'
ghost use Rattle.low.specs.Form.{double, limit};

// a comment with a { in it
pub fn read(n: u32) -> u32
    requires { n ≤ limit }
    ensures { result ≡ double n }
{
    n + n
}

pub fn brace() -> u8 {
    b'{'
}

impl Reader {
    pub fn next(&self) -> u32
        ensures first { result ≡ 0 }
        ensures second { result ≡ 0 + 0 }
    {
        0
    }
}
END
cat >crates/low/proofs/Theorems.antt <<'END'
use Rattle.low.specs.Form.{double, spare}

pub doubled : (n : ℕ) → double n ≡ double n
doubled n = refl

pub spared : spare ≡ 7
spared = refl

pub kept : 0 ≡ 0
kept = refl
END
printf 'one\n' >crates/low/proofs/read/Answers.antt
cat >crates/high/specs/Use.antt <<'END'
use Rattle.low.specs.Form.{Entry, double, place_of}

-- what is used
abbrev pub used : Entry → ℕ
used e = double (place_of e)

-- what is said
abbrev pub said : ℕ
said = 1
END
record "the first"

sed -i -e 's/^limit = 64/limit = 256/' -e '/^-- twice/,/^$/d' -e 's/place : ℕ/offset : ℕ/' -e 's/^abbrev pub place_of/abbrev pub offset_of/' -e 's/^place_of e = e\.place/offset_of entry = entry.offset/' \
  -e '/spare/d' crates/low/specs/Form.antt
cat >crates/low/specs/Sums.antt <<'END'
-- sums
use Rattle.std.specs.Prelude.{ℕ, ◌+◌}

-- a number and itself
unfoldable pub double : ℕ → ℕ
double n =
    n + n

abbrev pub triple : ℕ → ℕ
triple n = n + n + n
END
sed -i -e 's/^-- what is said/-- what was said/' -e 's/place_of/offset_of/g' -e 's/^use .*/use Rattle.low.specs.Form.{Entry, offset_of}\nuse Rattle.low.specs.Sums.{double}/' crates/high/specs/Use.antt
sed -i -e 's/specs.Form.{double, limit}/specs.Form.{limit};\nghost use Rattle.low.specs.Sums.{double}/' -e 's/n ≤ limit/n < limit/' -e 's/^    n + n/    2 * n/' -e "s/b'{'/b'}'/" -e 's/pub fn next/fn next/' crates/low/src/lib.rt
sed -i -e 's/Form.{double, spare}/Sums.{double}/' -e '/spare/d' -e 's/^kept = refl/kept = by_hand/' crates/low/proofs/Theorems.antt
printf 'one\ntwo\n' >crates/low/proofs/read/Answers.antt
record "the second"

cat >"$out/expected" <<'END'
## Definitions

1 changed, 1 new, 1 gone, 1 moved, 1 with another name, 2 different by names alone (of what they cite, or of their variables), 1 different by comments alone, 0 as they were.

| File of `specs/` | Changed | New | Gone |
|---|---|---|---|
| low/Form | `limit` |  | `spare` |
| low/Sums |  | `triple` |  |

| Moved from | to | what |
|---|---|---|
| low/Form | low/Sums | `double` |

| In | has another name |
|---|---|
| low/Form | `place_of → offset_of`, `Entry.place → offset` |

## Contracts of public functions

1 changed, 1 gone, 1 as it was.

| Crate | Changed | New | Gone |
|---|---|---|---|
| low | `read (requires)` |  | `Reader::next (private now)` |

Bodies of functions that were there before and changed: 2 (low 2).

## Theorems

1 gone, 1 different by names alone, 1 with another proof alone, 0 as they were.

| Crate | Changed | New | Gone |
|---|---|---|---|
| low |  |  | `spared` |

The proof alone: low `kept`.

## Lines, in and out

| Crate | Code | Definitions | Laws | Answers |
|---|---:|---:|---:|---:|
| high |  | +4 −3 |  |  |
| low | +6 −5 | +14 −10 | +2 −4 | +1 −0 |
| **all** | +6 −5 | +18 −13 | +2 −4 | +1 −0 |
| **more** | +1 | +5 | −2 | +1 |
END
"$tool" HEAD^ HEAD >"$out/said" 2>&1
tail -n +3 "$out/said" >"$out/body"
same "two commits" "$out/expected" "$out/body"
is "the two commits" "# What moved from $(git rev-parse --short HEAD^) to $(git rev-parse --short HEAD)" "$(head -n 1 "$out/said")"

# the same change, not committed, the new file not known to git
git reset -q HEAD^
"$tool" HEAD >"$out/said" 2>&1
tail -n +3 "$out/said" >"$out/body"
same "a commit and the working tree" "$out/expected" "$out/body"
is "the working tree is left as it was" "?? crates/low/specs/Sums.antt" "$(git status --porcelain | grep -v '^ M')"

# nothing changed, and a commit that there is not
git add -A
git stash -q
"$tool" HEAD HEAD >"$out/said" 2>&1
has "nothing changed" "7 as they were." "$out/said"
if "$tool" nowhere >"$out/said" 2>&1; then fail "a commit that there is not is no fault"; else has "a commit that there is not" "moved: git rev-parse" "$out/said"; fi

# a name that means another thing in the same text is a change
mkdir -p crates/low/specs
printf 'use Rattle.std.specs.Prelude.{ℕ}\n\nabbrev pub place_of : ℕ → ℕ\nplace_of n = 0\n' >crates/low/specs/Other.antt
sed -i 's/^use .*/use Rattle.low.specs.Form.{Entry, double}\nuse Rattle.low.specs.Other.{place_of}/' crates/high/specs/Use.antt
"$tool" HEAD >"$out/said" 2>&1
has "a name that means another thing" "| high/Use | \`used\` |  |  |" "$out/said"

# a field is the record's own, though the file gets a constructor of its name
git checkout -q .
rm crates/low/specs/Other.antt
printf '\npub data Left : Type 0 where\n  place : Left\n' >>crates/low/specs/Form.antt
"$tool" HEAD >"$out/said" 2>&1
has "a constructor of a field's name" "1 new, 7 as they were." "$out/said"

cat >"$out/old.log" <<'END'
rt: low proved
rt: high proved
rt: must-fail low/one.edit: refused, as it must be: ./proofs/read/Answers.antt:30:15: error: `returns`: this is not so
gate: rt ci took 20 s
gate: tests/a.sh took 2 s
edits: tried 2 of low, 10 s
edits: tried 1 of low, 1 s
edits: tried 4 of high, 9 s
END
sed -e 's/^rt: high proved/rt: high is kept: an earlier run on this machine proved the same files over the same libraries/' -e 's/2 of low, 10 s/1 of low, 5 s/' -e 's/took 20 s/took 25 s/' "$out/old.log" >"$out/new.log"
cat >"$out/expected" <<'END'

Crates proved: 2 before, 1 after; known to be proved by earlier runs: 0 before, 1 after.

| Wrong programs of | Before | After | More |
|---|---:|---:|---:|
| low | 11 | 6 | −5 |
| 1 other, less than 5 s off | 9 | 9 | +0 |
| **all** | 20 | 15 | −5 |

Edits tried: 7 before, 6 after. Crates run side by side, so their seconds are more than those of `tests/edits.sh`.

| Part of the gate | Before | After | More |
|---|---:|---:|---:|
| rt ci | 20 | 25 | +5 |
| 1 other, less than 5 s off | 2 | 2 | +0 |
| **all** | 22 | 27 | +5 |
END
"$tool" HEAD HEAD --logs "$out/old.log" "$out/new.log" 2>&1 | sed '1,/^## Seconds/d' >"$out/said"
same "two logs" "$out/expected" "$out/said"
finish
