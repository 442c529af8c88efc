#!/bin/sh
# Dumps, clones and restores made volumes, and compares what comes of each with what a reference program in another language answers:
# the bytes of dumps, whole and in pieces; clones; the offset at which a stream is refused, piece by piece, and the volume that it
# makes. Each dump is cut at every length, has each of its count words set to the last value, and is spoiled in other ways; it is
# restored into an older copy of its volume, into a read-only and a read-write volume of another family, and into an empty one.
# tests/dumps.py makes the volumes and streams and asks the reference, tests/dumps.play is a program that plays them. It is tried
# and not proved, so it is no crate of the repository, and the script no part of the gate: run it when clones or dumps have changed.
# A thousand volumes take some twenty minutes. All is done in a copy.
# tests/dumps.sh [FIRST [LAST]]: the seeds, 1 to 1000; AFSCELL_REFERENCE is the folder of the reference.
set -eu

cd "$(dirname "$0")/.."
reference=${AFSCELL_REFERENCE:-../shared/oracle}
first=${1:-1}
last=${2:-1000}
# the reference program's name for the form in which all operations are built
form=5
# so many volumes at a time, since what a program that is tried writes is limited
batch=10

if ! [ -f "$reference/volume.py" ] || ! command -v python3 > /dev/null 2>&1; then
    echo 'skipped: the reference program is not beside the repository'
    exit 0
fi

work=$(mktemp -d)
trap 'rm -rf "$work"' EXIT
trap 'exit 130' INT
trap 'exit 143' TERM

below='afs_num afs_xdr afs_vnode afs_volume afs_clone afs_dump afs_restore'
mkdir "$work/crates" "$work/cases"
cp HANDLES "$work"
for crate in $(tests/needed.sh $below); do
    mkdir "$work/crates/$crate"
    for part in src specs proofs; do
        if [ -d "crates/$crate/$part" ]; then cp -R "crates/$crate/$part" "$work/crates/$crate"; fi
    done
    grep "^$crate:" crates.txt >> "$work/crates.txt"
done
play=$work/crates/afs_dump_play
mkdir -p "$play/src" "$play/specs" "$play/proofs"
cp tests/dumps.play "$play/src/main.rt"
: > "$play/specs/Lib.antt"
: > "$play/proofs/Lib.antt"
echo "afs_dump_play: $below" >> "$work/crates.txt"

# What the program is to read and to write, batch by batch.
seed=$first
while [ "$seed" -le "$last" ]; do
    count=$((last - seed + 1))
    if [ "$count" -gt "$batch" ]; then count=$batch; fi
    case=$work/cases/from$seed
    python3 tests/dumps.py "$reference" "$seed" "$count" "$case" "$case.stdout" "$form"
    seed=$((seed + count))
done

# Compiled once. It runs on an interpreter too, which would take hours: one step of that is enough.
cd "$play"
rt try --steps 1 --seconds "${SECONDS_TRIED:-600}" --cases "$work/cases" 2>&1 | cut -c1-200
