#!/bin/sh
# Follows the links of README.md and of the pages of docs: each leads to a file of the repository, and where it names a heading
# to one of that page. tests/links.py has the check. It needs no kit and no program.
# tests/links.sh [PAGE..]: these pages alone.
set -eu

cd "$(dirname "$0")/.."

if ! command -v python3 > /dev/null 2>&1; then
    echo 'skipped: there is no python3 to follow links with'
    exit 0
fi

python3 -B tests/links.py "$@"
