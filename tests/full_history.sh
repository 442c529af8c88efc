#!/bin/sh
# Plays a script whose history is as long as one may be, 4,194,304 entries, with an event left: the program ends with status 8, has
# written that many entries, and no final part. One act less, and it ends with status 0. The client walks along a path of 500
# directories with a cache of one entry, so that each act has a call and a reply for each of them.
# Its last events are delivers of a place to which nothing is sent; a script with a deliver keeps all its messages, so no letting go
# is tried here. It takes some minutes and 3 GiB, so it is no part of the gate. The program is the one that
# ./afscell or the gate built; AFSCELL names another one.
set -eu

cd "$(dirname "$0")/.."
program=${AFSCELL:-crates/afs_top/out/afs_top}
work=$(mktemp -d)
trap 'rm -rf "$work"' EXIT
trap 'exit 130' INT
trap 'exit 143' TERM

# A walk of so many acts, and then so many events of which nothing comes: walks ACTS VOIDS
walks() {
    awk -v acts="$1" -v voids="$2" 'BEGIN {
        print "cell 1\nservers 1\nclients 1\ncache 1\nvolume proj s1 10000"
        path = "proj"
        for (i = 0; i < 500; i++) { path = path "/d"; print "dir " path }
        for (i = 0; i < acts; i++) print "do c1 list " path
        print "schedule"
        for (i = 0; i < acts; i++) print "act c1\ndrain"
        for (i = 0; i < voids; i++) print "deliver 18446744073709551615"
        print "end"
    }'
}

failed=0
# Plays a script, and compares status, entries and the number of final parts: judge NAME STATUS ENTRIES FINALS
judge() {
    status=0
    { "$program" replay < "$work/script" 2> "$work/err" || echo "status $?"; } |
        awk '/^entry / { entries++ } /^final$/ { finals++ } /^status / { status = $2 } END { print status + 0, entries + 0, finals + 0 }' > "$work/got"
    if [ "$(cat "$work/got")" = "$2 $3 $4" ]; then
        echo "passed: $1"
    else
        failed=1
        echo "failed: $1: status, entries and final parts are $(cat "$work/got"), wanted $2 $3 $4"
    fi
}

# how many entries an act has: its own, and two for each of the 501 directories
of_an_act=1003
most=4194304
acts=$((most / of_an_act))
walks "$acts" $((most - acts * of_an_act)) > "$work/script"
judge 'as many entries as a history may have' 0 "$most" 1
walks "$acts" $((most - acts * of_an_act + 1)) > "$work/script"
judge 'one event more' 8 "$most" 0
if [ "$(cat "$work/err")" != limit ]; then
    failed=1
    echo "failed: one event more: standard error has $(cat "$work/err")"
fi
exit "$failed"
