#!/usr/bin/env bash
# UPDATE messages and the reading of answers, called from C, against the model in Python (tests/README.md): hand-written edges, small forms, generated
# calls with faults and without. Then one long sequence of adds and removes: the library's table beside the library's messages, which a name server in
# Python (tests/update_server.py) carries out. Then the comparisons themselves are tried: they have to tell the library from every shim of
# tests/planted/update/, and from `faithful` not. Last line: `N passed, M failed`, counting calls, steps and shims. tests/from_c.bash has what can be set.
set -euo pipefail
cd "$(dirname "$0")/.."
. tests/from_c.bash
begin update
# shellcheck disable=SC2119
build
compare 30000
# the table's calls by the table's own harness
mkdir -p "$out/table"
(out=$out/table && build_harness table) || stop "there is no harness for the table"
what=update_steps compare 8000
echo "update: no name server was asked here; tests/update/run does that, by hand"
finish
