#!/bin/sh
# Measures how long a server takes to forward a volume of 8, 16 and 32 MiB to another server: its dump, the message that carries it, and the
# answer. tests/forwards.bench is the program, and says which words it takes. It is tried and not proved, so it is no crate of the
# repository, and the script no part of the gate. All is done in a copy.
set -eu

cd "$(dirname "$0")/.."

work=$(mktemp -d)
trap 'rm -rf "$work"' EXIT
trap 'exit 130' INT
trap 'exit 143' TERM

below='afs_num spec_history afs_disk afs_setup afs_volstore afs_server afs_volserv'
mkdir "$work/crates"
cp HANDLES "$work"
for crate in $(tests/needed.sh $below); do
    mkdir "$work/crates/$crate"
    for part in src specs proofs; do
        if [ -d "crates/$crate/$part" ]; then cp -R "crates/$crate/$part" "$work/crates/$crate"; fi
    done
    grep "^$crate:" crates.txt >> "$work/crates.txt"
done
bench=$work/crates/afs_forward_bench
mkdir -p "$bench/src" "$bench/specs" "$bench/proofs"
cp tests/forwards.bench "$bench/src/main.rt"
: > "$bench/specs/Lib.antt"
: > "$bench/proofs/Lib.antt"
echo "afs_forward_bench: $below" >> "$work/crates.txt"
cd "$bench"
echo "$*" | rt try --steps 1 --seconds "${SECONDS_TRIED:-600}"
