#!/bin/sh
# The program at its edge: standard streams that are closed or full, disks of a folder that are no files of their own, are changed
# by somebody else or fail, and little memory. AFSCELL names the program to test.
set -eu

cd "$(dirname "$0")/.."
program=${AFSCELL:-$PWD/crates/afs_top/out/afs_top}

work=$(mktemp -d)
trap 'rm -rf "$work"' EXIT
trap 'exit 130' INT
trap 'exit 143' TERM
passed=0
failed=0

# Judges what is true: holds NAME COMMAND..
holds() {
    name=$1
    shift
    if "$@"; then
        passed=$((passed + 1))
    else
        failed=$((failed + 1))
        echo "failed: $name"
    fi
}

# What the example prints is what its row wants, and the disks of its nodes are those that an undisturbed run leaves: node-0 is the
# location database's, node-1 the server's.
sed -e '1,/^----$/d' -e '/^---- wire$/,$d' tests/rows/example_open_close.row > "$work/text"
fresh() {
    rm -rf "$work/disks"
    mkdir "$work/disks"
}
fresh
status=0
"$program" replay --disks "$work/disks" < examples/open_close.afs > "$work/out" || status=$?
holds 'an undisturbed run' [ "$status" = 0 ]
holds 'its text' cmp -s "$work/text" "$work/out"
cp -r "$work/disks" "$work/whole"

# Both disks are whole.
are_whole() {
    cmp -s "$work/whole/node-0" "$work/disks/node-0" && cmp -s "$work/whole/node-1" "$work/disks/node-1"
}

# A closed stream isn't taken for a disk: the run has the fault of that stream, and its disks are whole, or were never made.
closed() {
    name=$1
    want=$2
    disk=$3
    fresh
    status=0
    : > "$work/out"
    case $name in
    input) "$program" replay --disks "$work/disks" <&- > "$work/out" 2> "$work/err" || status=$? ;;
    output) "$program" replay --disks "$work/disks" < examples/open_close.afs >&- 2> "$work/err" || status=$? ;;
    errors) "$program" replay --disks "$work/disks" < examples/open_close.afs > "$work/out" 2>&- || status=$? ;;
    'input and output') "$program" replay --disks "$work/disks" <&- >&- 2> "$work/err" || status=$? ;;
    'output and errors') "$program" replay --disks "$work/disks" < examples/open_close.afs >&- 2>&- || status=$? ;;
    'input and errors') "$program" replay --disks "$work/disks" <&- > "$work/out" 2>&- || status=$? ;;
    esac
    holds "closed: $name: status $status, wanted $want" [ "$status" = "$want" ]
    case $disk in
    whole) holds "closed: $name: the disks" are_whole ;;
    none) holds "closed: $name: no disk" [ -z "$(ls "$work/disks")" ] ;;
    esac
}
closed input 4 none
closed output 5 whole
closed errors 0 whole
holds 'closed: errors: the text' cmp -s "$work/text" "$work/out"
closed 'input and output' 4 none
closed 'output and errors' 5 whole
closed 'input and errors' 4 none

# A disk is a file of its own in its folder. What a link leads to stays as it is.
refused() {
    status=0
    "$program" replay --disks "$work/disks" < examples/open_close.afs > "$work/out" 2> "$work/err" || status=$?
    holds "$1: status $status, wanted 6" [ "$status" = 6 ]
    holds "$1: the line" [ "$(cat "$work/err")" = 'disk fault' ]
    holds "$1: nothing was written" [ ! -s "$work/out" ]
}
outside() {
    fresh
    printf 'kept outside' > "$work/outside"
}
for node in node-0 node-1; do
    outside
    ln -s "$work/outside" "$work/disks/$node"
    refused "$node: a symbolic link"
    holds "$node: a symbolic link: its file" [ "$(cat "$work/outside")" = 'kept outside' ]
    outside
    ln "$work/outside" "$work/disks/$node"
    refused "$node: a second name"
    holds "$node: a second name: its file" [ "$(cat "$work/outside")" = 'kept outside' ]
    fresh
    ln -s "$work/missing" "$work/disks/$node"
    refused "$node: a symbolic link to nothing"
    holds "$node: a symbolic link to nothing: nothing was made" [ ! -e "$work/missing" ]
    fresh
    mkdir "$work/disks/$node"
    refused "$node: a folder in the place of a disk"
    fresh
    mkfifo "$work/disks/$node"
    refused "$node: a pipe in the place of a disk"
done

# Disks that were there are begun anew, whichever node's they were.
fresh
cp "$work/whole/node-1" "$work/disks/node-0"
cp "$work/whole/node-0" "$work/disks/node-1"
status=0
"$program" replay --disks "$work/disks" < examples/open_close.afs > "$work/out" || status=$?
holds 'disks that were there' [ "$status" = 0 ]
holds 'disks that were there: their bytes' are_whole

# While a script is played somebody removes the folder, or cuts the file: the run ends with a fault of the disk, or its history
# has one. The script is long, and is written into a pipe, so that the run is in its middle.
long() {
    printf 'cell 1\nservers 1\nclients 1\nvolume proj s1 1000\nfile proj/a hex:616263\n'
    awk 'BEGIN { for (i = 0; i < 60000; i++) print "do c1 close proj/a hex:616263" }'
    echo schedule
    awk 'BEGIN { for (i = 0; i < 60000; i++) print "act c1\ndrain" }'
    echo end
}
long > "$work/long.afs"
disturb_once() {
    fresh
    "$program" replay --disks "$work/disks" < "$work/long.afs" > "$work/out" 2> "$work/err" &
    running=$!
    tries=0
    while [ ! -s "$work/disks/node-1" ] || [ "$(wc -c < "$work/disks/node-1")" -lt 20000 ]; do
        tries=$((tries + 1))
        [ "$tries" -lt 3000 ] || break
        sleep 0.01
    done
    "$@"
    status=0
    wait "$running" || status=$?
    [ "$status" = 6 ] || grep -q '^fault s1$' "$work/out"
}
# A run that had ended before it was disturbed says nothing: on a busy machine it is made again.
disturbed() {
    name=$1
    shift
    for attempt in 1 2 3 4 5; do
        if disturb_once "$@"; then
            passed=$((passed + 1))
            return 0
        fi
    done
    failed=$((failed + 1))
    echo "failed: $name: status $status at attempt $attempt, and no fault of the disk"
}
cut_short() { : > "$work/disks/node-1"; }
disturbed 'a file that was cut' cut_short
disturbed 'a folder that was removed' rm -r "$work/disks"

# A device that is full at the first byte: set-up fails, and nothing is told. A limit on files stands for such a device. It would
# cut standard error too, so both streams are pipes.
fresh
status=0
told=$(trap '' XFSZ && ulimit -f 0 && "$program" replay --disks "$work/disks" < examples/open_close.afs 2>&1) || status=$?
holds "a disk that fails at set-up: status $status, wanted 6" [ "$status" = 6 ]
holds 'a disk that fails at set-up: its line alone' [ "$told" = 'disk fault' ]

# The example, and behind it as many ticks as fill each buffer and pipe: all of its changes are on the disk before the first byte
# is written, and the final part comes when most was read. What has to be printed is the row's text with the ticks in it.
{
    sed '/^end$/d' examples/open_close.afs
    awk 'BEGIN { for (i = 0; i < 20000; i++) print "tick 1" }'
    echo end
} > "$work/ticks.afs"
{
    sed '/^final$/,$d' "$work/text"
    awk -v last="$(grep -c '^entry ' "$work/text")" 'BEGIN { for (i = 1; i <= 20000; i++) printf "entry %d clock\ntick 1\n", last + i }'
} > "$work/history"
{
    cat "$work/history"
    sed -n '/^final$/,$p' "$work/text"
} > "$work/all"

# A sink with little room holds a beginning.
status=0
(trap '' XFSZ && ulimit -f 20 && exec "$program" replay < "$work/ticks.afs") > "$work/out" 2> "$work/err" || status=$?
head -c "$(wc -c < "$work/out")" "$work/all" > "$work/beginning"
holds "a sink with little room: status $status, wanted 5" [ "$status" = 5 ]
holds 'a sink with little room: its line' [ "$(cat "$work/err")" = 'write fault' ]
holds 'a sink with little room: something was written' [ -s "$work/out" ]
holds 'a sink with little room: a beginning' cmp -s "$work/beginning" "$work/out"

# Once the first byte can be read, the disk has its last record, and the program waits for a reader. at_end STATUS all COMMAND..
# does something with the disk, and then reads the rest; with 'away' in the place of 'all' the reader goes away.
mkfifo "$work/pipe"
at_end() {
    want=$1
    reads=$2
    shift 2
    fresh
    (trap '' PIPE && exec "$program" replay --disks "$work/disks" < "$work/ticks.afs") > "$work/pipe" 2> "$work/err" &
    running=$!
    exec 3< "$work/pipe"
    head -c 1 <&3 > "$work/out"
    "$@"
    if [ "$reads" = all ]; then cat <&3 >> "$work/out"; fi
    exec 3<&-
    status=0
    wait "$running" || status=$?
    holds "$name: status $status, wanted $want" [ "$status" = "$want" ]
}
name='a disk that is whole at the end'
at_end 0 all true
holds "$name: the text" cmp -s "$work/all" "$work/out"
name='a disk that fails at the end'
at_end 6 all cut_short
holds "$name: its line" [ "$(cat "$work/err")" = 'disk fault' ]
holds "$name: the history alone" cmp -s "$work/history" "$work/out"

# Behind a sink that failed the script is played on, with all that its disks keep. The server's is read before the final part is written, so
# a failure there is what is told.
name='a reader that went away'
at_end 5 away true
holds "$name: its line" [ "$(cat "$work/err")" = 'write fault' ]
holds "$name: the disks" are_whole
name='a reader that went away, and a disk that fails at the end'
at_end 6 away cut_short
holds "$name: its line" [ "$(cat "$work/err")" = 'disk fault' ]

# With little memory the program ends well, with status 7 and its line, or is not even begun. Words that it had no memory for are
# not called wrong. Each limit is in kilobytes of address space, and they rise until the program ends with 0 four times.
if (ulimit -v 1000000) 2> /dev/null; then
    wrong=
    sevens=0
    ends=0
    limit=2000
    while [ "$ends" -lt 4 ] && [ "$limit" -le 40000 ]; do
        status=0
        (ulimit -v "$limit" && exec "$program" replay < examples/open_close.afs) > "$work/out" 2> "$work/err" || status=$?
        case $status in
        0) ends=$((ends + 1)) ;;
        7)
            sevens=$((sevens + 1))
            [ "$(cat "$work/err")" = 'out of memory' ] || wrong="$wrong $limit:line"
            ;;
        126 | 127 | 139) ;;
        *) wrong="$wrong $limit:$status" ;;
        esac
        limit=$((limit + 16))
    done
    holds "little memory: wrong statuses:$wrong" [ -z "$wrong" ]
    holds 'little memory: status 7 was met' [ "$sevens" -gt 0 ]
    holds 'little memory: it was enough at last' [ "$ends" -eq 4 ]

    # What was told is let go: a run of 100,000 messages needs little room. Where a deliver is left, which may name any place, all
    # messages are kept, and the same room is too little.
    walks() {
        awk -v last="$1" 'BEGIN {
            print "cell 1\nservers 1\nclients 1\ncache 1\nvolume proj s1 10000"
            path = "proj"
            for (i = 1; i < 100; i++) { path = path "/d"; print "dir " path }
            for (i = 0; i < 500; i++) print "do c1 list " path
            print "schedule"
            for (i = 0; i < 500; i++) print "act c1\ndrain"
            if (last != "") print last
            print "end"
        }'
    }
    # what the run has to be: each act reads 100 directories, by a call and a reply each
    walks '' > "$work/walks.afs"
    status=0
    (ulimit -v 12000 && exec "$program" replay < "$work/walks.afs") > "$work/out" 2> "$work/err" || status=$?
    holds "a long run in little memory: status $status, wanted 0" [ "$status" = 0 ]
    holds 'a long run in little memory: its messages' [ "$(grep -c '^sent ' "$work/out")" = 100000 ]
    holds 'a long run in little memory: its answers' [ "$(grep -c '^answer c1 0$' "$work/out")" = 500 ]
    walks 'deliver 1' > "$work/kept.afs"
    status=0
    (ulimit -v 12000 && exec "$program" replay < "$work/kept.afs") > "$work/kept" 2> "$work/err" || status=$?
    holds "a run that keeps its messages: status $status, wanted 7" [ "$status" = 7 ]
    head -c "$(wc -c < "$work/kept")" "$work/out" > "$work/beginning"
    holds 'a run that keeps its messages: something was written' [ -s "$work/kept" ]
    holds 'a run that keeps its messages: a beginning' cmp -s "$work/beginning" "$work/kept"
else
    echo 'skipped: little memory (the shell sets no limit)'
fi

echo "$passed passed, $failed failed"
[ "$failed" -eq 0 ]
