#!/bin/sh
# Cuts acts of administrators short: a move, a move back, a release, a create, a restore, a remove, a recover and a backup, while a client
# stores and another one holds promises. Each is cut after each of its events: the administrator goes down and stays away; what it had
# sent is lost, or comes late, after another one's recovery or in the middle of it. Or it goes on, beside another one's recovery or after
# that. Or a message is lost once, or until its call is given up; or the node that a call goes to is down. Each step that writes to a
# disk is stopped at each device call besides, or the disk fails there, and the administrator goes on or is gone. Then all nodes begin
# again, another administrator recovers the volume, twice, and a third client stores.
# tests/judge.py says what is wrong with what is left, by the text alone. tests/judged.py first gives it wrong runs, made by hand.
# tests/cuts.sh [REFERENCE [ACT..]]: with a command as 'python3 FOLDER/afscell.py' each text has to be that program's too, byte for byte;
# '' is none. The acts are named in tests/cuts.py. JOBS cells are played at a time, 2 without a word; scripts and texts of those that
# fail are put into the folder that KEEP names. The last line has the number of cells.
# It is no part of the gate: there are thousands of cells. The program is the one that ./afscell or the gate built; AFSCELL names another.
set -eu

cd "$(dirname "$0")/.."

python3 tests/judged.py

reference=${1:-}
if [ $# -gt 0 ]; then shift; fi
if [ $# -gt 0 ]; then set -- --acts "$@"; fi
if [ -n "$reference" ]; then set -- --reference "$reference" "$@"; fi
if [ -n "${KEEP:-}" ]; then set -- --keep "$KEEP" "$@"; fi
exec python3 tests/cuts.py "${AFSCELL:-crates/afs_top/out/afs_top}" --jobs "${JOBS:-2}" "$@"
