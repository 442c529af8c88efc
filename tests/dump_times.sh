#!/bin/sh
# Measures how long it takes to dump a volume of 4,096 vnodes and 32 MiB and to restore it from pieces of 32 KiB, and the same for a
# half and a quarter of it. tests/dumps.bench is the program. It is tried and not proved, so it is no crate of the repository, and
# the script no part of the gate. All is done in a copy.
set -eu

cd "$(dirname "$0")/.."

work=$(mktemp -d)
trap 'rm -rf "$work"' EXIT
trap 'exit 130' INT
trap 'exit 143' TERM

below='afs_num afs_dir afs_vnode afs_volume afs_dump afs_restore'
mkdir "$work/crates"
if [ -f HANDLES ]; then cp HANDLES "$work"; fi
for crate in $(tests/needed.sh $below); do
    mkdir "$work/crates/$crate"
    for part in src specs proofs; do
        if [ -d "crates/$crate/$part" ]; then cp -R "crates/$crate/$part" "$work/crates/$crate"; fi
    done
    grep "^$crate:" crates.txt >> "$work/crates.txt"
done
bench=$work/crates/afs_dump_bench
mkdir -p "$bench/src" "$bench/specs" "$bench/proofs"
cp tests/dumps.bench "$bench/src/main.rt"
: > "$bench/specs/Lib.antt"
: > "$bench/proofs/Lib.antt"
echo "afs_dump_bench: $below" >> "$work/crates.txt"
cd "$bench"
rt try --steps 1 --seconds "${SECONDS_TRIED:-600}" -- "$@"
