#!/bin/sh
# Reads made scripts of all forms, good and bad, and compares what is read of each, or its first bad line and the reason, with
# what a reference program in another language reads. tests/scripts.py makes the scripts and asks the reference,
# tests/scripts.play is a program that reads them, on the ground of set-up. Half of the scripts have many lines of set-up. The
# program is tried and not proved, so it is no crate of the repository, and the script no part of the gate. All is done in a
# copy.
# tests/scripts.sh [FIRST [COUNT]]: the first seed and how many scripts; AFSCELL_REFERENCE is the folder of the reference.
set -eu

cd "$(dirname "$0")/.."
reference=${AFSCELL_REFERENCE:-../shared/oracle}
first=${1:-1}
count=${2:-2000}

if ! [ -f "$reference/script.py" ] || ! command -v python3 > /dev/null 2>&1; then
    echo 'skipped: the reference program is not beside the repository'
    exit 0
fi

work=$(mktemp -d)
trap 'rm -rf "$work"' EXIT
trap 'exit 130' INT
trap 'exit 143' TERM

below='afs_num spec_history afs_words afs_grammar afs_ground'
mkdir "$work/crates"
if [ -f HANDLES ]; then cp HANDLES "$work"; fi
for crate in $(tests/needed.sh $below); do
    mkdir "$work/crates/$crate"
    for part in src specs proofs; do
        if [ -d "crates/$crate/$part" ]; then cp -R "crates/$crate/$part" "$work/crates/$crate"; fi
    done
    grep "^$crate:" crates.txt >> "$work/crates.txt"
done
play=$work/crates/afs_scripts_play
mkdir -p "$play/src" "$play/specs" "$play/proofs"
cp tests/scripts.play "$play/src/main.rt"
: > "$play/specs/Lib.antt"
: > "$play/proofs/Lib.antt"
echo "afs_scripts_play: $below" >> "$work/crates.txt"

python3 tests/scripts.py "$reference" "$first" "$count" "$work/in" "$work/want"
(cd "$play" && rt try --seconds 600 < "$work/in" > "$work/got" 2> "$work/told") || tail -n 3 "$work/told" | cut -c1-200
if cmp -s "$work/want" "$work/got"; then
    echo "$count scripts are read alike, $(grep -c '^line' "$work/want") of them bad"
else
    diff "$work/want" "$work/got" | head -n 10 | cut -c1-200
    exit 1
fi
