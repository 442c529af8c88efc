#!/bin/sh
# Looks whether a name of the definitions that have to be believed has two meanings. tests/names.py has the check, and
# tests/names.table the names that stand in several modules, with the reasons. It needs no kit and no program. The last line is
# 'N names of definitions, M of them with two meanings'.
set -eu

cd "$(dirname "$0")/.."

if ! command -v python3 > /dev/null 2>&1; then
    echo 'skipped: there is no python3 to look names up with'
    exit 0
fi

python3 -B tests/names.py "$@"
