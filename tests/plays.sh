#!/bin/sh
# Plays parts of a cell by themselves, as no script can: a client alone, the location database, a file server's store, and so on. A row
# is a file tests/plays/PART/NAME.row. Its comments tell its story. A line `> STEP` is a step, and the lines behind it are what comes of
# that. The first lines of tests/plays/player/PART.play say which steps there are. What comes of them was worked out from the rules,
# or is a reference program's; nothing here writes it.
# The player is made from the sources by `rt try`, which proves nothing. All is done in a copy. The last line is
# 'N plays passed, M failed'.
# tests/plays.sh [PART..]: the rows of these parts alone. With a folder CASES the player is given each of its files, as it reads rows,
# and has to print what stands in the file of that name with `.stdout`: so many rows are played that one run may not print them all.
set -eu

cd "$(dirname "$0")/.."

work=$(mktemp -d)
trap 'rm -rf "$work"' EXIT
trap 'exit 130' INT
trap 'exit 143' TERM

# Records of another program stand in a crate of tests, and the player takes them from there.
shared=crates/test_volstore/src/vectors.rt

# The crates that the player names.
below=$(cat tests/plays/player/*.play | sed -nE 's/.*((afs|spec|law|test)_[a-z_]*)::.*/\1/p' | sort -u | tr '\n' ' ')
mkdir "$work/crates" "$work/told"
cp HANDLES "$work"
for crate in $(tests/needed.sh $below); do
    mkdir "$work/crates/$crate"
    for part in src specs proofs; do
        if [ -d "crates/$crate/$part" ]; then cp -R "crates/$crate/$part" "$work/crates/$crate"; fi
    done
    grep "^$crate:" crates.txt >> "$work/crates.txt"
done
player=$work/crates/afs_player
mkdir -p "$player/src" "$player/specs" "$player/proofs"
for file in tests/plays/player/*.play; do
    name=${file##*/}
    cp "$file" "$player/src/${name%.play}.rt"
done
cp "$shared" "$player/src"
: > "$player/specs/Lib.antt"
: > "$player/proofs/Lib.antt"
echo "afs_player: $below" >> "$work/crates.txt"

if [ -n "${CASES:-}" ]; then
    (cd "$player" && rt try --steps 1 --seconds "${SECONDS_TRIED:-600}" --cases "$CASES")
    exit
fi

# The rows that are played, and what the player reads: of each row its part and its name, and its steps.
for row in tests/plays/*/*.row; do
    part=${row%/*}
    part=${part##*/}
    case " ${*:-$part} " in *" $part "*) echo "$row" ;; esac
done > "$work/rows"
while read -r row; do
    part=${row%/*}
    name=${row##*/}
    echo "${part##*/} ${name%.row}"
    sed -n 's/^> //p' "$row"
    echo
done < "$work/rows" | sed '$d' > "$work/read"

# The player runs on an interpreter too, which would take long: one step of that is enough.
(cd "$player" && rt try --steps 1 --seconds "${SECONDS_TRIED:-600}" < "$work/read") > "$work/out" 2> "$work/said" || :

if [ ! -s "$work/out" ]; then
    cut -c1-400 "$work/said"
    echo 'the player told nothing'
    exit 1
fi

# What is told of each row, without the line that names it.
awk -v told="$work/told" '/^= / { file = told "/" $2 "." $3; printf "" > file; next } file { print > file }' "$work/out"

passed=0
failed=0
while read -r row; do
    part=${row%/*}
    part=${part##*/}
    name=${row##*/}
    if grep -v '^#' "$row" | cmp -s - "$work/told/$part.${name%.row}"; then
        passed=$((passed + 1))
    else
        failed=$((failed + 1))
        echo "failed: $row"
        grep -v '^#' "$row" | diff - "$work/told/$part.${name%.row}" 2>&1 | head -n 10 | cut -c1-300 || :
    fi
done < "$work/rows"
if [ "$failed" != 0 ]; then cut -c1-400 "$work/said"; fi
times > "$work/times"
echo "the plays took $(tail -n 1 "$work/times" | awk '{ split($1, part, /[ms]/); print int(part[1] * 60 + part[2]) }') processor seconds"
echo "$passed plays passed, $failed failed"
[ "$failed" = 0 ] && [ "$passed" != 0 ]
