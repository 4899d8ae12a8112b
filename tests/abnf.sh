#!/usr/bin/env bash
# The listing check, called from C, against the grammar of docs/RULES.md, sections 6.1 and 6.2 (tests/README.md): texts that are derived from the ABNF
# have to be accepted, and any others exactly if the ABNF derives them too. Then the comparison itself is tried: it has to tell the library from every
# grammar with one thing changed (PLANTED in tests/abnf_test.py). Last line: `N passed, M failed`, counting texts and grammars.
set -euo pipefail
cd "$(dirname "$0")/.."
. tests/from_c.bash
begin abnf
build_harness listing
compare 2500
finish
