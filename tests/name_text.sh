#!/usr/bin/env bash
# Names in text, from it and to it, called from C, against the model in Python (tests/README.md): hand-written edges, small forms, generated names.
# Then the comparison itself is tried: it has to tell the library from every shim of tests/planted/name_text/, and from `faithful` not.
# Last line: `N passed, M failed`, counting calls and shims. tests/from_c.bash has what can be set.
set -euo pipefail
cd "$(dirname "$0")/.."
. tests/from_c.bash
begin name_text
# shellcheck disable=SC2119
build
compare 60000
finish
