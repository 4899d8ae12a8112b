#!/usr/bin/env bash
# PTR names, leases and ended leases on a table and its reverse side, called from C, against the model in Python (tests/README.md): hand-written
# edges, small forms, generated sequences, calls that are cut and run again, and damaged sides. Then the comparison itself is tried: it has to tell the
# library from every shim of tests/planted/lease/, and from `faithful` not. Last line: `N passed, M failed`, counting calls and shims.
# tests/from_c.bash has what can be set.
set -euo pipefail
cd "$(dirname "$0")/.."
. tests/from_c.bash
begin lease
# shellcheck disable=SC2119
build
compare 6000
finish
