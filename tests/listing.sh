#!/usr/bin/env bash
# The listing check, called from C, against the model in Python (tests/README.md): hand-written edges, small forms, generated texts.
# Then the comparison itself is tried: it has to tell the library from every shim of tests/planted/listing/, and from `faithful` not.
# Last line: `N passed, M failed`, counting texts and shims. tests/from_c.bash has what can be set.
set -euo pipefail
cd "$(dirname "$0")/.."
. tests/from_c.bash
begin listing
# shellcheck disable=SC2119
build
compare 200000
finish
