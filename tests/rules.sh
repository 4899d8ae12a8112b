#!/usr/bin/env bash
# docs/RULES.md against the header, and against those who cite its sections; nothing is built. Then the checks themselves are tried: each has to tell
# files with one thing changed (PLANTED in tests/rules.py). Last line: `N passed, M failed`.
set -euo pipefail
cd "$(dirname "$0")/.."
export PYTHONPYCACHEPREFIX="$PWD/target/tests/pycache"
exec python3 tests/rules.py
