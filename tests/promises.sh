#!/bin/sh
# Measures what granting, giving up, withdrawing and ending promises cost with 65,536 held, against a list that is walked
# whole: nanoseconds for each call. tests/promises.bench is the program. It is tried and not proved, so it is no crate of the
# repository, and the script no part of the gate. All is done in a copy.
set -eu

cd "$(dirname "$0")/.."

work=$(mktemp -d)
trap 'rm -rf "$work"' EXIT
trap 'exit 130' INT
trap 'exit 143' TERM

below='afs_num spec_breaks afs_promise'
mkdir "$work/crates"
if [ -f HANDLES ]; then cp HANDLES "$work"; fi
for crate in $(tests/needed.sh $below); do
    mkdir "$work/crates/$crate"
    for part in src specs proofs; do
        if [ -d "crates/$crate/$part" ]; then cp -R "crates/$crate/$part" "$work/crates/$crate"; fi
    done
    grep "^$crate:" crates.txt >> "$work/crates.txt"
done
bench=$work/crates/afs_promise_bench
mkdir -p "$bench/src" "$bench/specs" "$bench/proofs"
cp tests/promises.bench "$bench/src/main.rt"
: > "$bench/specs/Lib.antt"
: > "$bench/proofs/Lib.antt"
echo "afs_promise_bench: $below" >> "$work/crates.txt"
cd "$bench"
rt try --seconds ${SECONDS_TRIED:-600}
