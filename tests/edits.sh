#!/bin/sh
# Looks in a second whether each edit of wrong programs (crates/*/must-fail, tests/wrong_programs), disks, operations and rows
# can still be applied: its old texts have to stand exactly once in their files. It proves nothing.
set -eu

exec python3 "$(dirname "$0")/edits.py"
