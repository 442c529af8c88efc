#!/bin/sh
# Compares made scripts, played by the built program and by a reference program: tests/seeds.sh REFERENCE COUNT [FIRST [KIND..]].
# REFERENCE is a command that plays a script as the program does, as 'python3 FOLDER/afscell.py'; COUNT scripts of each kind are
# made by tests/generate.py, with the seeds from FIRST, or 1, on. Each is played without and with --wire; output, status and the
# line on standard error have to be the same. Every tenth script of `disks`, `servers`, `asks` and `admins` is played over disks in a folder
# besides, by both, and the disks of the location database and of each server have to have the same bytes then. A reference program
# that reads a copy of a disk at the end leaves there what a record has written whose second or third device call failed or was
# stopped, where this one cuts it: such a script differs in that disk alone.
# It is no part of the gate: the reference program isn't in the repository.
# The program is the one that ./afscell or the gate built; AFSCELL names another one.
set -eu

cd "$(dirname "$0")/.."
program=${AFSCELL:-crates/afs_top/out/afs_top}
reference=$1
count=$2
first=${3:-1}
if [ $# -gt 3 ]; then shift 3; kinds=$*; else kinds='events disks acts caches servers asks admins'; fi

work=$(mktemp -d)
trap 'rm -rf "$work"' EXIT
trap 'exit 130' INT
trap 'exit 143' TERM

# Plays the script by a command, and keeps what came of it under this name: play NAME COMMAND..
play() {
    name=$1
    shift
    status=0
    "$@" < "$work/script" > "$work/$name.out" 2> "$work/$name.err" || status=$?
    echo "$status" > "$work/$name.status"
}

# Plays the script by both, with these words behind `replay`, and compares.
agree() {
    # the reference program is a command of several words
    play want $reference replay "$@"
    play got "$program" replay "$@"
    cmp -s "$work/want.status" "$work/got.status" && cmp -s "$work/want.out" "$work/got.out" &&
        { [ "$(cat "$work/want.status")" = 0 ] || cmp -s "$work/want.err" "$work/got.err"; }
}

# The same over disks in a folder of each.
agree_on_disks() {
    rm -rf "$work/want" "$work/got"
    mkdir "$work/want" "$work/got"
    play want $reference replay --disks "$work/want"
    play got "$program" replay --disks "$work/got"
    cmp -s "$work/want.out" "$work/got.out" && diff -r "$work/want" "$work/got" > /dev/null
}

differ() {
    unequal=$((unequal + 1))
    echo "$kind $seed differs: $1"
    diff "$work/want.out" "$work/got.out" | head -n 3 | cut -c 1-200 | sed 's/^/  output: /' || :
    diff "$work/want.err" "$work/got.err" | head -n 3 | sed 's/^/  error: /' || :
}

all=0
for kind in $kinds; do
    equal=0
    unequal=0
    none=0
    disks=0
    seed=$first
    while [ "$seed" -lt $((first + count)) ]; do
        python3 tests/generate.py "$kind" "$seed" "$program" > "$work/script"
        if ! agree; then differ 'without --wire'
        elif ! agree --wire; then differ 'with --wire'
        else equal=$((equal + 1)); fi
        if [ "$(cat "$work/want.status")" != 0 ]; then none=$((none + 1)); fi
        case $kind,$((seed % 10)) in
        disks,0 | servers,0 | asks,0 | admins,0)
            disks=$((disks + 1))
            agree_on_disks || differ 'over disks in a folder'
            ;;
        esac
        seed=$((seed + 1))
    done
    echo "$kind: $equal of $count equal, of which $none are no script; $disks compared over disks; unequal: $unequal"
    all=$((all + unequal))
done
[ "$all" -eq 0 ]
