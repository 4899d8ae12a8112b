#!/usr/bin/env bash
# The slowest input that was found for each call of vichrelka.h, in microseconds: the least CPU time of some rounds. docs/SPEED.md has the table.
#
#   bash bench/slowest.sh       the slowest of each call
#   bash bench/slowest.sh -v    every input that was tried
set -euo pipefail
cd "$(dirname "$0")/.."
. bench/build.bash
archive gateway
build slowest
"$out/slowest" "$@"
