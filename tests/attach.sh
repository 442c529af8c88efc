#!/bin/sh
# Measures how long it takes to attach a server's disk with a volume of 4,096 vnodes and so many records of changes of it: of
# what kind they are and how many at most are the two words, as `tests/attach.sh statuses 60000`; the kinds are statuses, names,
# renames and moves. It tells bytes, milliseconds and nanoseconds a byte for a quarter, half and all of them. Without words it
# shows that a record which brings a volume above 4,096 vnodes can't be taken. tests/attach.bench is the program. It is tried and
# not proved, so it is no crate of the repository, and the script no part of the gate. All is done in a copy.
set -eu

cd "$(dirname "$0")/.."

work=$(mktemp -d)
trap 'rm -rf "$work"' EXIT
trap 'exit 130' INT
trap 'exit 143' TERM

below='afs_num afs_disk afs_record afs_volume afs_volstore'
mkdir "$work/crates"
if [ -f HANDLES ]; then cp HANDLES "$work"; fi
for crate in $(tests/needed.sh $below); do
    mkdir "$work/crates/$crate"
    for part in src specs proofs; do
        if [ -d "crates/$crate/$part" ]; then cp -R "crates/$crate/$part" "$work/crates/$crate"; fi
    done
    grep "^$crate:" crates.txt >> "$work/crates.txt"
done
bench=$work/crates/afs_volstore_bench
mkdir -p "$bench/src" "$bench/specs" "$bench/proofs"
cp tests/attach.bench "$bench/src/main.rt"
: > "$bench/specs/Lib.antt"
: > "$bench/proofs/Lib.antt"
echo "afs_volstore_bench: $below" >> "$work/crates.txt"
cd "$bench"
rt try --seconds "${SECONDS_TRIED:-10000}" -- "$@"
