#!/bin/sh
# Looks up every name of docs/rules.md: each rule of docs/cell.md has its definition, its code, its proof and its test there.
# tests/rules.py has the check, which also tries itself: it changes names in a copy of the page, and each change has to be seen.
# It needs no kit and no program. The last line is 'N names checked, M wrong'.
set -eu

cd "$(dirname "$0")/.."

if ! command -v python3 > /dev/null 2>&1; then
    echo 'skipped: there is no python3 to look names up with'
    exit 0
fi

python3 -B tests/rules.py
