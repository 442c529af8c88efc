#!/bin/sh
# Runs the rows through the built program, each without and with --wire. A row is a file tests/rows/NAME.row:
#   a script, whose comments tell its story, or a line 'script FILE' for one that stands elsewhere;
#   ----
#   status 3, where the exit status isn't 0
#   error TEXT, where a line is told on standard error
#   what is printed
#   ---- wire, where messages are sent, and what is printed with --wire
#   ---- disk N, in some rows, for one node or several, and the bytes that this node's disk has at the end
# tests/refusals.table has the inputs that are no script. Then come words that are no form of the program, the summaries of some made scripts, a source and a
# sink that fail, disks in a folder, contents at the limit of a close, a directory and a volume that are full, a disk of
# the location database that is full, and scripts at the limits of their lines and volumes. Nothing here writes what is wanted of a row. tests/seeds.sh compares made scripts with
# a reference program.
# The program is the one that ./afscell or the gate built; AFSCELL names another one.
set -eu

cd "$(dirname "$0")/.."
program=${AFSCELL:-crates/afs_top/out/afs_top}

work=$(mktemp -d)
trap 'rm -rf "$work"' EXIT
trap 'exit 130' INT
trap 'exit 143' TERM

passed=0
failed=0

pass() {
    passed=$((passed + 1))
}

fail() {
    failed=$((failed + 1))
    printf 'failed: %s\n' "$1"
}

# Compares what was printed and told, and the status, with what stands in the files of these names.
judge() {
    if cmp -s "$work/out" "$work/want.out" && cmp -s "$work/err" "$work/want.err" && [ "$status" = "$want" ]; then
        pass
        return
    fi
    fail "$1"
    printf '  status %s, wanted %s\n' "$status" "$want"
    diff "$work/want.out" "$work/out" | head -n 10 | sed 's/^/  output: /' || true
    diff "$work/want.err" "$work/err" | head -n 3 | sed 's/^/  error: /' || true
}

# what is wanted: the status, the output's file and the line on standard error
wanted() {
    want=$1
    cat "$2" > "$work/want.out"
    if [ -n "$3" ]; then printf '%s\n' "$3" > "$work/want.err"; else : > "$work/want.err"; fi
}

# Runs the program with these words over a source, and judges it under this name: play NAME SOURCE WORDS..
play() {
    name=$1
    source=$2
    shift 2
    status=0
    "$program" "$@" < "$source" > "$work/out" 2> "$work/err" || status=$?
    judge "$name"
}

# Takes the row apart into files of the folder $work/row; fails where it has no line '----'.
take_apart() {
    rm -rf "$work/row"
    mkdir "$work/row"
    : > "$work/row/script"
    : > "$work/row/text"
    LC_ALL=C awk -v row="$work/row" '
        part == "" && $0 == "----" { part = "head"; next }
        part == "" { print > (row "/script"); next }
        part == "head" && sub(/^status /, "") { print > (row "/status"); next }
        part == "head" && sub(/^error /, "") { print > (row "/error"); next }
        part != "wire" && $0 == "---- wire" { part = "wire"; printf "" > (row "/wire"); next }
        part ~ /^wire|^disk/ && sub(/^---- disk /, "") { part = "disk-" $0; next }
        part ~ /^wire|^disk/ { print > (row "/" part); next }
        { part = "text"; print > (row "/text") }
        END { exit part == "" }
    ' "$1"
}

# Plays the row of this file, both ways.
row() {
    name=${1##*/}
    name=${name%.row}
    if ! take_apart "$1"; then
        fail "$name: the row doesn't say what is wanted"
        return
    fi
    script=$(sed -n '1s/^script //p' "$work/row/script")
    script=${script:-$work/row/script}
    if [ ! -f "$script" ]; then
        fail "$name: there is no $script"
        return
    fi
    want=0
    error=
    if [ -f "$work/row/status" ]; then want=$(cat "$work/row/status"); fi
    if [ -f "$work/row/error" ]; then error=$(cat "$work/row/error"); fi
    wanted "$want" "$work/row/text" "$error"
    play "$name" "$script" replay
    if [ -f "$work/row/wire" ]; then wanted "$want" "$work/row/wire" "$error"; fi
    play "$name with --wire" "$script" replay --wire
    disks=$(sed -n 's/^---- disk //p' "$1")
    if [ -n "$disks" ] || is_of_files "$script"; then
        rm -rf "$work/node"
        mkdir "$work/node"
        wanted "$want" "$work/row/text" "$error"
        play "$name over files" "$script" replay --disks "$work/node"
    fi
    for node in $disks; do
        od -An -v -tx1 "$work/node/node-$node" | tr -d ' \n' > "$work/row/left"
        tr -d '\n' < "$work/row/disk-$node" > "$work/row/bytes"
        if cmp -s "$work/row/bytes" "$work/row/left"; then pass; else fail "$name: the bytes of disk $node"; fi
    done
}

# Whether a disk goes down in this script, and one in a file keeps of it what one in memory does. A file keeps all that was
# written, as a disk in memory does by pick 1.
is_of_files() {
    grep -Eq '^(crash|stop|fail) (s|loc)' "$1" && ! grep -Eq '^stop (s[1-8]|loc) [0-9]+ [023]$' "$1"
}

# Writes each input of the table to a file of $work/refusals, and a line with its number, what is told and its name to
# standard output.
refusals() {
    LC_ALL=C awk -v folder="$work/refusals" '
        !is_table && $0 == "----" { is_table = 1; next }
        !is_table && /^#/ { next }
        !is_table { good[++lines] = $0; next }
        !/^\|/ { next }
        {
            sub(/^\| /, "")
            sub(/ \|$/, "")
            cells = split($0, cell, / \| /)
            split("", front)
            split("", line)
            split("", newline)
            for (i = 1; i <= lines; i++) { line[i] = good[i]; newline[i] = "\n" }
            for (i = 3; i <= cells; i++) {
                at = cell[i] + 0
                match(cell[i], /^[0-9]+ /)
                mark = substr(cell[i], RLENGTH + 1, 1)
                text = substr(cell[i], RLENGTH + 3)
                if (mark == "=") line[at] = text
                else if (mark == "<") front[at] = front[at] text "\n"
                else if (mark == "-") line[at] = newline[at] = ""
                else if (mark == "~") newline[at] = ""
                else exit 1
            }
            whole = ""
            for (i = 1; i <= lines; i++) whole = whole front[i] line[i] newline[i]
            file = folder "/" ++rows
            printf "%s%s", whole, front[lines + 1] > file
            close(file)
            sub(/ +$/, "", cell[1])
            sub(/ +$/, "", cell[2])
            print rows "|" cell[2] "|" cell[1]
        }
        END { exit rows == 0 }
    ' "$1"
}

# A program that isn't there, or doesn't play the smallest script, would fail each row.
take_apart tests/rows/nothing_to_do.row
"$program" replay < "$work/row/script" > /dev/null || {
    echo "the program isn't built (./afscell builds it), or it fails on the smallest script"
    echo '0 passed, 1 failed'
    exit 1
}

for file in tests/rows/*.row; do row "$file"; done

for example in examples/*.afs; do
    grep -qx "script $example" tests/rows/*.row || fail "$example has no row"
done

mkdir "$work/refusals"
if refusals tests/refusals.table > "$work/told"; then
    while IFS='|' read -r number told name; do
        wanted 3 /dev/null "script: $told"
        play "refused: $name" "$work/refusals/$number" replay
        play "refused: $name, with --wire" "$work/refusals/$number" replay --wire
    done < "$work/told"
else
    fail 'the table of refusals'
fi

usage() {
    name=$1
    shift
    wanted 2 /dev/null 'usage: afscell replay [--wire] [--disks DIR] | gen N'
    play "words: $name" examples/open_close.afs "$@"
}
usage 'none'
usage 'replay twice' replay replay
usage 'an empty word' ''
usage 'Replay' Replay
usage 'help' help
usage '--help' --help
usage 'run' run
usage 'run --wire' run --wire
usage 'gen' gen
usage 'gen 0' gen 0
usage 'gen 1001' gen 1001
usage 'gen 10000' gen 10000
usage 'gen 01' gen 01
usage 'gen +1' gen +1
usage 'gen -1' gen -1
usage 'gen 1 1' gen 1 1
usage 'gen and an empty word' gen ''
usage 'gen --' gen --
usage 'gen -- 1' gen -- 1
usage 'gen 1 --wire' gen 1 --wire
usage '1 gen' 1 gen
usage 'Gen 1' Gen 1
usage 'gen x' gen x
usage 'gen and a number behind a space' gen ' 1'
usage '--wire alone' --wire
usage '--wire before replay' --wire replay
usage '--wire twice' replay --wire --wire
usage '--Wire' replay --Wire
usage '-wire' replay -wire
usage '--wire=1' replay --wire=1
usage '--' replay --
usage '--wire --' replay --wire --
usage '--version' --version
usage '--help behind replay' replay --help
usage 'an empty word behind replay' replay ''
usage '--disks without a folder' replay --disks
usage '--disks= without a folder' replay --disks=
usage '--disks=-a' replay --disks=-a
usage '--disks and an empty word' replay --disks ''
usage '--disks before --wire' replay --disks --wire
usage '--disks twice' replay --disks disks --disks disks
usage '--disks before replay' --disks disks replay

# Made scripts: the summaries as a reference program printed them. No source is read, so one that fails is as good.
while IFS='|' read -r number acts entries sent changes zero other; do
    printf '%s\n' "gen $number" "acts $acts" "entries $entries" "sent $sent" "changes $changes" "zero $zero" "other $other" end > "$work/summary"
    wanted 0 "$work/summary" ''
    play "gen $number" /dev/null gen "$number"
    play "gen $number, over a source that fails" tests gen "$number"
done << END
1|14|220|206|4|14|0
4|44|376|332|18|44|0
100|1004|3846|2842|518|1004|0
1000|10004|36866|26862|5039|10004|0
END

# A folder can't be read.
wanted 4 /dev/null 'read fault'
play 'a source that fails' tests replay
play 'a source that fails, with --wire' tests replay --wire

# A full device takes nothing.
if [ -c /dev/full ]; then
    wanted 5 /dev/null 'write fault'
    status=0
    : > "$work/out"
    "$program" replay < examples/open_close.afs > /dev/full 2> "$work/err" || status=$?
    judge 'a sink that fails'
else
    echo 'skipped: a sink that fails (there is no /dev/full)'
fi

# Disks in a folder, in each spelling: the text is the same, and the disks of the location database and of the server lie there, and
# no other. A folder that isn't there can't lend one.
take_apart tests/rows/example_open_close.row
wanted 0 "$work/row/text" ''
mkdir "$work/disks"
for words in "--disks $work/disks" "--disks=$work/disks"; do
    rm -f "$work/disks"/*
    play 'disks in a folder' examples/open_close.afs replay $words
    if [ -s "$work/disks/node-0" ]; then pass; else fail 'disks in a folder: there is no disk of the location database'; fi
    if [ -s "$work/disks/node-1" ]; then pass; else fail 'disks in a folder: there is no disk of the server'; fi
    if [ "$(ls "$work/disks")" = "$(printf 'node-0\nnode-1')" ]; then pass; else fail 'disks in a folder: there are others'; fi
done
wanted 6 /dev/null 'disk fault'
play 'disks in a folder that is not there' examples/open_close.afs replay --disks "$work/none"

# A close of as many bytes as one may have, and of one more, which the server refuses.
{
    printf 'cell 1\nservers 1\nclients 1\nvolume proj s1 1000\nfile proj/a hex:616263\n'
    printf 'do c1 close @536870912.2.2 fill:65536:61\ndo c1 close @536870912.2.2 fill:65537:61\n'
    printf 'schedule\nact c1\ndrain\nact c1\ndrain\nend\n'
} > "$work/large.afs"
filled=$(awk 'BEGIN { for (i = 0; i < 65536; i++) printf "61" }')
{
    printf 'entry 1 c1\nbegin c1 close @536870912.2.2 fill:65536:61\nsent 1 c1 s1 call 133 1.1\n'
    printf 'entry 2 s1\ngiven 1\nchange s1 c1.1.1 1\nversion 536870912.2.2 2 2 f:%s\n' "$filled"
    printf 'sent 2 s1 c1 reply 133 1.1 0\nentry 3 c1\ngiven 2\nanswer c1 0\n'
    printf 'entry 4 c1\nbegin c1 close @536870912.2.2 fill:65537:61\nsent 3 c1 s1 call 133 1.2\n'
    printf 'entry 5 s1\ngiven 3\nsent 4 s1 c1 reply 133 1.2 27\nentry 6 c1\ngiven 4\nanswer c1 27\n'
    printf 'final\nvolume s1 536870912 proj 0 0\nvnode 536870912.1.1 2 1 1 d:a=2.2\n'
    printf 'vnode 536870912.2.2 1 2 2 f:%s\nend\n' "$filled"
} > "$work/large.text"
wanted 0 "$work/large.text" ''
play 'contents at the limit of a close' "$work/large.afs" replay

# What lies in a volume before its last name: its root has $2 files, and $3 directories with 1,024 files each. They are
# laid in this order, so file i has the vnode 2 * i. Prints the part $1: the lines of set-up, the names of the root, or the
# vnodes below it.
crowd() {
    awk -v part="$1" -v files="$2" -v directories="$3" '
        function file(i) { return sprintf("%d.%d", 2 * i, i + 1 + (i > files ? directories : 0)) }
        function directory(i) { return sprintf("%d.%d", 2 * i + 1, files + 1 + i) }
        function names_from(first, count,  i, names) {
            for (i = 1; i <= count; i++) names = names sprintf("%sn%04d=%s", i > 1 ? "," : "", i, file(first + i))
            return names
        }
        BEGIN {
            all = files + 1024 * directories
            if (part == "script") {
                for (i = 1; i <= files; i++) printf "file proj/n%04d hex:\n", i
                for (i = 1; i <= directories; i++) printf "dir proj/d%d\n", i
                for (i = 0; i < all - files; i++) printf "file proj/d%d/n%04d hex:\n", int(i / 1024) + 1, i % 1024 + 1
            }
            if (part == "names") {
                for (i = 1; i <= directories; i++) printf "d%d=%s,", i, directory(i)
                printf "%s", names_from(0, files)
            }
            if (part == "vnodes") for (i = 1; i <= all; i++) {
                printf "vnode 536870912.%s 1 1 1 f:\n", file(i)
                if (i > directories) continue
                printf "vnode 536870912.%s 2 1 1 d:%s\n", directory(i), names_from(files + 1024 * (i - 1), 1024)
            }
        }'
}

# One more name is made in the root of such a volume, and the next is refused with this code:
# last_name NAME FILES DIRECTORIES CODE
last_name() {
    all=$(($2 + 1024 * $3))
    new=$((2 * all + 2)).$((all + $3 + 2))
    names=$(crowd names "$2" "$3")
    {
        printf 'cell 1\nservers 1\nclients 1\nvolume proj s1 1000\n'
        crowd script "$2" "$3"
        printf 'do c1 make proj/x\ndo c1 make proj/y\nschedule\nact c1\ndrain\nact c1\ndrain\nend\n'
    } > "$work/crowd.afs"
    {
        printf 'entry 1 c1\nbegin c1 make proj/x\nsent 1 c1 s1 call 130 1.1\n'
        printf 'entry 2 s1\ngiven 1\ngrant s1 c1 536870912.1.1 1 7200\nsent 2 s1 c1 reply 130 1.1 0\n'
        printf 'entry 3 c1\ngiven 2\nread c1 536870912.1.1 1 fetched d:%s\nsent 3 c1 s1 call 137 1.2\n' "$names"
        printf 'entry 4 s1\ngiven 3\nchange s1 c1.1.2 2\nversion 536870912.1.1 2 2 d:%s,x=%s\n' "$names" "$new"
        printf 'version 536870912.%s 1 1 f:\ngrant s1 c1 536870912.%s 1 7200\nsent 4 s1 c1 reply 137 1.2 0\n' "$new" "$new"
        printf 'entry 5 c1\ngiven 4\ndrop c1 536870912.1.1\nanswer c1 0\n'
        printf 'entry 6 c1\nbegin c1 make proj/y\nsent 5 c1 s1 call 130 1.3\n'
        printf 'entry 7 s1\ngiven 5\ngrant s1 c1 536870912.1.1 2 7200\nsent 6 s1 c1 reply 130 1.3 0\n'
        printf 'entry 8 c1\ngiven 6\nread c1 536870912.1.1 2 fetched d:%s,x=%s\nsent 7 c1 s1 call 137 1.4\n' "$names" "$new"
        printf 'entry 9 s1\ngiven 7\nsent 8 s1 c1 reply 137 1.4 %s\nentry 10 c1\ngiven 8\nanswer c1 %s\n' "$4" "$4"
        printf 'final\nvolume s1 536870912 proj 0 0\nvnode 536870912.1.1 2 2 2 d:%s,x=%s\n' "$names" "$new"
        crowd vnodes "$2" "$3"
        printf 'vnode 536870912.%s 1 1 1 f:\nend\n' "$new"
    } > "$work/crowd.text"
    wanted 0 "$work/crowd.text" ''
    play "$1" "$work/crowd.afs" replay
}
last_name 'a directory of 1,024 names' 1023 0 27
last_name 'a volume of 4,096 vnodes' 1019 3 108

# The location database begins again until its disk is full. A journal begins with one byte, and each record has nine more. Its first
# record has 40 bytes, and 44 and the name for the one volume; the record of a start has 32. So 1,596 starts fit into 65,536
# bytes, and the next one doesn't.
starts=$(((65536 - 1 - (40 + 48 + 9)) / (32 + 9)))
{
    printf 'cell 1\nservers 1\ncapacity 65536\nvolume proj s1 1000\nschedule\n'
    awk -v n=$((starts + 1)) 'BEGIN { for (i = 1; i <= n; i++) print "crash loc 0\nrestart loc" }'
    printf 'crash loc 0\nrestart loc\nend\n'
} > "$work/full.afs"
{
    awk -v n="$starts" 'BEGIN {
        for (i = 1; i <= n; i++) printf "entry %d loc\ncrash loc\nentry %d loc\nrestart loc %d\n", 2 * i - 1, 2 * i, i + 1
        printf "entry %d loc\ncrash loc\nentry %d loc\nfull loc\n", 2 * n + 1, 2 * n + 2
        printf "entry %d none\nvoid\nentry %d loc\nfull loc\n", 2 * n + 3, 2 * n + 4
    }'
    printf 'final\nvolume s1 536870912 proj 0 0\nvnode 536870912.1.1 2 1 1 d:\nend\n'
} > "$work/full.text"
wanted 0 "$work/full.text" ''
play 'a disk of the location database that is full' "$work/full.afs" replay
rm -f "$work/disks"/*
play 'the same in a folder' "$work/full.afs" replay --disks "$work/disks"
want=$((1 + 40 + 48 + 9 + starts * (32 + 9)))
if [ "$(wc -c < "$work/disks/node-0")" -eq "$want" ]; then pass; else fail "its disk has not $want bytes"; fi

# Each of eight servers has as many volumes as it may have. One more is refused, at the first server and at the last.
at_servers() {
    printf 'cell 1\nservers 8\n'
    awk 'BEGIN { for (i = 0; i < 512; i++) printf "volume v%d s%d 1\n", i, i % 8 + 1 }'
    printf '%sschedule\nend\n' "$1"
}
at_servers '' > "$work/volumes.afs"
{
    echo final
    awk 'BEGIN {
        for (s = 1; s <= 8; s++) for (i = s - 1; i < 512; i += 8)
            printf "volume s%d %d v%d 0 0\nvnode %d.1.1 2 1 1 d:\n", s, 536870912 + i, i, 536870912 + i
    }'
    echo end
} > "$work/volumes.text"
wanted 0 "$work/volumes.text" ''
play 'as many volumes as a cell may have' "$work/volumes.afs" replay
wanted 3 /dev/null 'script: line 515: Limit'
for server in s1 s8; do
    at_servers "volume more $server 1
" > "$work/volumes.afs"
    play "one volume more at $server" "$work/volumes.afs" replay
done

# At the limit of a script's lines: 199,999 good ones and the end, and one more.
at_limit() {
    printf 'cell 1\nservers 1\nclients 1\nvolume v s1 1000\n'
    awk -v n="$1" 'BEGIN { for (i = 0; i < n; i++) print "#" }'
    printf 'schedule\nend\n'
}
at_limit 199994 > "$work/long.afs"
printf 'final\nvolume s1 536870912 v 0 0\nvnode 536870912.1.1 2 1 1 d:\nend\n' > "$work/long.text"
wanted 0 "$work/long.text" ''
play 'as many lines as a script may have' "$work/long.afs" replay
at_limit 199995 > "$work/long.afs"
wanted 3 /dev/null 'script: line 200001: Limit'
play 'one line more than a script may have' "$work/long.afs" replay

echo "$passed passed, $failed failed"
[ "$failed" -eq 0 ]
