#!/bin/sh
# Steps a cell to the longest history that one may have: 4,194,304 entries, of events of which nothing comes. The event behind
# them is answered Limit, and so is the next, and the history stays. Nothing is let go meanwhile, so the entries that the cell
# keeps are all of them. tests/limit.play is a program that does so. It is tried and
# not proved, so it is no crate of the repository, and the script no part of the gate: it tells how long it takes, which a proof
# doesn't. All is done in a copy.
set -eu

cd "$(dirname "$0")/.."
work=$(mktemp -d)
trap 'rm -rf "$work"' EXIT
trap 'exit 130' INT
trap 'exit 143' TERM

below='afs_num spec_history afs_disk afs_cell'
mkdir "$work/crates"
if [ -f HANDLES ]; then cp HANDLES "$work"; fi
for crate in $(tests/needed.sh $below); do
    mkdir "$work/crates/$crate"
    for part in src specs proofs; do
        if [ -d "crates/$crate/$part" ]; then cp -R "crates/$crate/$part" "$work/crates/$crate"; fi
    done
    grep "^$crate:" crates.txt >> "$work/crates.txt"
done
play=$work/crates/afs_limit_play
mkdir -p "$play/src" "$play/specs" "$play/proofs"
cp tests/limit.play "$play/src/main.rt"
: > "$play/specs/Lib.antt"
: > "$play/proofs/Lib.antt"
echo "afs_limit_play: $below" >> "$work/crates.txt"

cat > "$work/want" <<'END'
4194304 events, 4194304 entries, then Limit
once more Limit, 4194304 entries
END
begun=$(date +%s)
(cd "$play" && rt try --seconds 1800 > "$work/got" 2> "$work/told") || tail -n 3 "$work/told" | cut -c1-200
ended=$(date +%s)
cat "$work/got"
echo "$((ended - begun)) seconds, with the build"
cmp -s "$work/want" "$work/got"
