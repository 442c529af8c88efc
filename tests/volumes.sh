#!/bin/sh
# Plays made sequences of forty operations each on a volume, and compares the reply to each as a message, the versions that it
# tells, the volume's blocks and counters after it and at the end the images of all vnodes with what a reference program in
# another language answers. tests/volumes.py makes the sequences and asks the reference, tests/volumes.play is a program that
# plays them. It is tried and not proved, so it is no crate of the repository, and the script no part of the gate: run it when
# operations have changed. It takes a minute for twenty-five sequences. All is done in a copy.
# tests/volumes.sh [FIRST [LAST]]: the seeds, 1 to 500; AFSCELL_REFERENCE is the folder of the reference.
set -eu

cd "$(dirname "$0")/.."
reference=${AFSCELL_REFERENCE:-../shared/oracle}
first=${1:-1}
last=${2:-500}
# the reference program's name for the form in which all operations are built
form=5
# so many at a time, since what a program that is tried writes is limited
batch=25

if ! [ -f "$reference/volume.py" ] || ! command -v python3 > /dev/null 2>&1; then
    echo 'skipped: the reference program is not beside the repository'
    exit 0
fi

work=$(mktemp -d)
trap 'rm -rf "$work"' EXIT
trap 'exit 130' INT
trap 'exit 143' TERM

below='afs_num afs_xdr afs_fsrpc afs_vnode afs_volume afs_reads afs_changes'
mkdir "$work/crates"
cp HANDLES "$work"
for crate in $(tests/needed.sh $below); do
    mkdir "$work/crates/$crate"
    for part in src specs proofs; do
        if [ -d "crates/$crate/$part" ]; then cp -R "crates/$crate/$part" "$work/crates/$crate"; fi
    done
    grep "^$crate:" crates.txt >> "$work/crates.txt"
done
play=$work/crates/afs_volume_play
mkdir -p "$play/src" "$play/specs" "$play/proofs"
cp tests/volumes.play "$play/src/main.rt"
: > "$play/specs/Lib.antt"
: > "$play/proofs/Lib.antt"
echo "afs_volume_play: $below" >> "$work/crates.txt"

passed=0
failed=0
seed=$first
while [ "$seed" -le "$last" ]; do
    count=$((last - seed + 1))
    if [ "$count" -gt "$batch" ]; then count=$batch; fi
    python3 tests/volumes.py "$reference" "$seed" "$count" "$work/in" "$work/want" "$form"
    (cd "$play" && rt try < "$work/in" > "$work/got" 2> "$work/told") || true
    if cmp -s "$work/want" "$work/got"; then
        passed=$((passed + count))
        echo "ok: $seed to $((seed + count - 1))"
    else
        failed=$((failed + count))
        echo "failed: among $seed to $((seed + count - 1))"
        diff "$work/want" "$work/got" | head -n 6 | cut -c1-200 || true
        tail -n 3 "$work/told" | cut -c1-200
    fi
    seed=$((seed + count))
done

echo "$passed passed, $failed failed"
[ "$failed" -eq 0 ]
