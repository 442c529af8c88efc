#!/bin/sh
# Plays made histories of the location database over a disk in memory, and compares what it tells and sends, how many records stand on
# its disk and that disk's last bytes with what a reference program in another language answers. A history has 400 steps: messages, some
# of them spoiled, crashes with every pick, stops and failures of device calls, and restarts. tests/database.py makes the histories and
# asks the reference, tests/database.play is a program that plays them. It is tried and not proved, so it is no crate of the repository,
# and the script no part of the gate: run it when the database has changed. All is done in a copy.
# tests/database.sh [FIRST [LAST]]: the seeds, 1 to 200; AFSCELL_REFERENCE is the folder of the reference.
set -eu

cd "$(dirname "$0")/.."
reference=${AFSCELL_REFERENCE:-../shared/oracle}
first=${1:-1}
last=${2:-200}
# the reference program's name for the form in which all of the database is built
form=10

if ! [ -f "$reference/locdb.py" ] || ! command -v python3 > /dev/null 2>&1; then
    echo 'skipped: the reference program is not beside the repository'
    exit 0
fi

work=$(mktemp -d)
trap 'rm -rf "$work"' EXIT
trap 'exit 130' INT
trap 'exit 143' TERM

below='afs_num spec_history afs_disk afs_locdb'
mkdir "$work/crates" "$work/cases"
cp HANDLES "$work"
for crate in $(tests/needed.sh $below); do
    mkdir "$work/crates/$crate"
    for part in src specs proofs; do
        if [ -d "crates/$crate/$part" ]; then cp -R "crates/$crate/$part" "$work/crates/$crate"; fi
    done
    grep "^$crate:" crates.txt >> "$work/crates.txt"
done
play=$work/crates/afs_loc_play
mkdir -p "$play/src" "$play/specs" "$play/proofs"
cp tests/database.play "$play/src/main.rt"
: > "$play/specs/Lib.antt"
: > "$play/proofs/Lib.antt"
echo "afs_loc_play: $below" >> "$work/crates.txt"

# What the program is to read and to write, history by history.
python3 tests/database.py "$reference" "$first" "$((last - first + 1))" "$work/cases" "$form"

# Compiled once. It runs on an interpreter too, which would take hours: one step of that is enough.
cd "$play"
rt try --steps 1 --seconds "${SECONDS_TRIED:-600}" --cases "$work/cases" 2>&1 | cut -c1-200
