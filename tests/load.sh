#!/usr/bin/env bash
# Load and write of the table of names, called from C, against the model in Python (tests/README.md): hand-written edges, small forms, generated
# tables and listings, whole round trips. Then the comparison itself is tried: it has to tell the library from every shim of tests/planted/load/,
# and from `faithful` not. Last line: `N passed, M failed`, counting calls and shims. tests/from_c.bash has what can be set.
set -euo pipefail
cd "$(dirname "$0")/.."
. tests/from_c.bash
begin load
# shellcheck disable=SC2119
build
compare 6000
finish
