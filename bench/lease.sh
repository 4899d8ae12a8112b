#!/usr/bin/env bash
# A lease, its end and a PTR name against the same calls in plain C (gcc -O2), and a lease and its end against an add and a remove alone: microseconds or
# millions a second and the ratio, best of 40 rounds of CPU time. All have to give the same answers and leave the same bytes, or there is no figure.
set -euo pipefail
cd "$(dirname "$0")/.."
. bench/build.bash
archive gateway
build lease bench/lease_plain.c bench/table_plain.c
"$out/lease"
