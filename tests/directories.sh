#!/bin/sh
# Measures what operations on a directory of a thousand names cost: refused ones, accepted ones, and one that is taken in.
# Nanoseconds for each call. tests/directories.bench is the program. It is tried and not proved, so it is no crate of the
# repository, and the script no part of the gate. All is done in a copy.
set -eu

cd "$(dirname "$0")/.."

work=$(mktemp -d)
trap 'rm -rf "$work"' EXIT
trap 'exit 130' INT
trap 'exit 143' TERM

below='afs_num afs_dir afs_vnode afs_volume afs_changes'
mkdir "$work/crates"
if [ -f HANDLES ]; then cp HANDLES "$work"; fi
for crate in $(tests/needed.sh $below); do
    mkdir "$work/crates/$crate"
    for part in src specs proofs; do
        if [ -d "crates/$crate/$part" ]; then cp -R "crates/$crate/$part" "$work/crates/$crate"; fi
    done
    grep "^$crate:" crates.txt >> "$work/crates.txt"
done
bench=$work/crates/afs_volume_bench
mkdir -p "$bench/src" "$bench/specs" "$bench/proofs"
cp tests/directories.bench "$bench/src/main.rt"
: > "$bench/specs/Lib.antt"
: > "$bench/proofs/Lib.antt"
echo "afs_volume_bench: $below" >> "$work/crates.txt"
cd "$bench"
rt try --steps 2000000000 --seconds "${SECONDS_TRIED:-600}"
