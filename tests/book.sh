#!/usr/bin/env bash
# The book of names, called from C, against the model in Python (tests/README.md): hand-written edges, small forms, generated books with damage and
# torn ends. Then the comparison itself is tried: it has to tell the library from every shim of tests/planted/book/, and from `faithful` not.
# Last line: `N passed, M failed`, counting calls and shims. tests/from_c.bash has what can be set.
set -euo pipefail
cd "$(dirname "$0")/.."
. tests/from_c.bash
begin book
build bench/sha256_plain.c
compare 3200
finish
