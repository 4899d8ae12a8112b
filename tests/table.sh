#!/usr/bin/env bash
# Add, remove, clear, find and count on the table of names, called from C, against the model in Python (tests/README.md): hand-written edges, small forms,
# generated steps and damaged tables. Then the comparison itself is tried: it has to tell the library from every shim of tests/planted/table/,
# and from `faithful` not. Last line: `N passed, M failed`, counting steps and shims. tests/from_c.bash has what can be set.
set -euo pipefail
cd "$(dirname "$0")/.."
. tests/from_c.bash
begin table
# shellcheck disable=SC2119
build
compare 37500
finish
