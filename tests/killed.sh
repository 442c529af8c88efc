#!/bin/sh
# Kills the program in the middle of long runs whose disks are files, and looks at what each leaves of a server's disk and of the
# location database's: the first records of the run's journal, whole, and behind them nothing or a torn tail, which a node that takes
# the disk up cuts off. The same run is first played to its end, and tests/journals.py reads both files of each disk. A kill takes the program away and not the machine: what was
# written is still there, so it doesn't show that a sync is one.
# tests/killed.sh [KILLS [CHANGES]]: so often, 20, in a run of so many changes, 1,000. The program is the one that
# ./afscell or the gate built; AFSCELL names another one.
set -eu

cd "$(dirname "$0")/.."
program=${AFSCELL:-crates/afs_top/out/afs_top}
kills=${1:-20}
changes=${2:-1000}

if ! command -v python3 > /dev/null 2>&1; then
    echo 'skipped: there is no python3 to read journals with'
    exit 0
fi

work=$(mktemp -d)
trap 'rm -rf "$work"' EXIT
trap 'exit 130' INT
trap 'exit 143' TERM

# One client stores a file again and again, of 500 to 1,199 bytes, and each message is given. Every ten stores the location database
# begins again.
long_script() {
    awk -v changes="$changes" 'BEGIN {
        print "cell 1\nservers 1\nclients 1\nvolume proj s1 1000\nfile proj/a hex:616263"
        for (i = 0; i < changes; i++) printf "do c1 close proj/a fill:%d:%02x\n", 500 + i * 37 % 700, i % 256
        print "schedule"
        for (i = 0; i < changes; i++) {
            print "act c1\ndrain"
            if (i % 10 == 0) print "crash loc 1\nrestart loc"
        }
        print "end"
    }'
}

now() { date +%s%N; }

# Reads the disks of the killed run beside the whole ones, and tells of the server's.
are_fronts() {
    python3 tests/journals.py "$work/whole/node-0" "$work/killed/node-0" > "$work/database" 2>&1 || {
        cat "$work/database"
        return 1
    }
    python3 tests/journals.py "$work/whole/node-1" "$work/killed/node-1"
}

long_script > "$work/script"
mkdir "$work/whole"
began=$(now)
"$program" replay --disks "$work/whole" < "$work/script" > "$work/text"
took=$((($(now) - began) / 1000000))
if [ "$(grep -c '^answer c1 0$' "$work/text")" != "$changes" ]; then
    echo 'failed: the run that ends does not answer each change 0'
    exit 1
fi

passed=0
failed=0
inside=0
torn=0
while [ $((passed + failed)) -lt "$kills" ]; do
    rm -rf "$work/killed"
    mkdir "$work/killed"
    moment=$(awk -v seed="$(now)" -v took="$took" 'BEGIN { srand(substr(seed, length(seed) - 11)); printf "%.3f", rand() * took / 1000 }')
    "$program" replay --disks "$work/killed" < "$work/script" > /dev/null 2>&1 &
    running=$!
    sleep "$moment"
    kill -9 "$running" 2> /dev/null || :
    wait "$running" 2> /dev/null || :
    : >> "$work/killed/node-0"
    : >> "$work/killed/node-1"
    if are_fronts > "$work/told" 2>&1; then
        passed=$((passed + 1))
        read -r records tail < "$work/told"
        if [ "$records" -gt 0 ] && [ "$records" -le "$changes" ]; then inside=$((inside + 1)); fi
        if [ "$tail" -gt 0 ]; then torn=$((torn + 1)); fi
    else
        failed=$((failed + 1))
        echo "failed: killed after $moment seconds: $(cat "$work/told")"
    fi
done

echo "$inside kills in the middle of the run, $torn of them with a torn tail"
if [ "$inside" -eq 0 ]; then
    echo 'failed: no kill was in the middle of the run'
    failed=$((failed + 1))
fi
echo "$passed passed, $failed failed"
[ "$failed" -eq 0 ]
