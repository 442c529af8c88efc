#!/bin/sh
# The rows of the gate's own scripts. .ci/times is given made lists of processes, as rt ci starts them, and has to tell the seconds
# and minutes of each kind. .ci/run runs in a made folder, where scripts stand for the kit and for all tests: it has to run each of
# them, to fail where one fails, and to tell what the kit took from earlier runs.
set -eu

cd "$(dirname "$0")/.."
top=$PWD

work=$(mktemp -d)
trap 'rm -rf "$work"' EXIT
trap 'exit 130' INT
trap 'exit 143' TERM
passed=0
failed=0

pass() {
    passed=$((passed + 1))
}

fail() {
    failed=$((failed + 1))
    echo "failed: the gate: $1"
}

# Checks that a file is as wanted: same NAME FILE WANTED
same() {
    if printf '%s\n' "$3" | diff -u - "$2" > "$work/difference"; then
        pass
    else
        fail "$1"
        cat "$work/difference"
    fi
}

# ---- the times of made processes

# A line of a process: process NUMBER ABOVE TIME WORDS
process() {
    number=$1 above=$2 time=$3
    shift 3
    echo "$number $above $time $*" >> "$work/samples/$sample"
}

mkdir -p "$work/made" "$work/samples"
here=$$
low='rattle build --crate-name low src/lib.rt --extern std=std.rlib --jobs 2'
of_low='rattle check --crate-name low src/lib.rt --extern std=std.rlib --jobs 1'
of_top='rattle check --crate-name top src/main.rt --extern low=low.rlib --jobs 1'

sample=1
process "$here" 1 00:00:00 sh .ci/run
process 11 "$here" 00:00:01 python3 rt ci
# a proof, in two processes, and the same one of somebody else
process 21 11 00:00:10 "$low --statements -o out/rlib/low.rlib"
process 22 21 00:00:05 "$low --statements -o out/rlib/low.rlib"
process 99 1 00:09:00 "$low --statements -o out/rlib/low.rlib"
sample=2
process "$here" 1 00:00:00 sh .ci/run
process 11 "$here" 00:00:01 python3 rt ci
process 21 11 00:01:10 "$low --statements -o out/rlib/low.rlib"
process 22 21 00:00:55 "$low --statements -o out/rlib/low.rlib"
process 23 11 00:00:30 "$low --test --backend llvm -o out/low_tests.o"
sample=3
process "$here" 1 00:00:00 sh .ci/run
process 11 "$here" 00:00:01 python3 rt ci
process 23 11 01:00:30 "$low --test --backend llvm -o out/low_tests.o"
# an edit that is tried from nothing, as a crate's only edit is
process 24 11 00:00:20 "$of_low"
process 25 11 00:00:40 "$of_top -o /tmp/rt-proved-1-a/checked"
sample=4
process "$here" 1 00:00:00 sh .ci/run
process 11 "$here" 00:00:01 python3 rt ci
# two numbers stand for other processes now
process 22 11 00:00:03 "$of_low"
process 25 11 00:00:30 'rattle build --crate-name top src/main.rt --crate-checked /tmp/rt-proved-1-a/checked -o out/top.o'
process 26 11 00:00:07 "$of_top --incremental /tmp/rt-edits-1-a/0"
sample=5
process "$here" 1 00:00:00 sh .ci/run
process 12 "$here" 00:00:01 python3 tests/wrong_programs.py
process 27 12 1-00:00:01 "$of_low --only first --incremental /tmp/wrong-programs-a/b"

# The stand-ins of ps, of the clock and of waiting: each look is a minute after the one before, and the last one ends all.
cat > "$work/made/ps" << END
#!/bin/sh
[ ! -e '$work/looked' ] && { : > '$work/looked'; exit 0; }
look=\$((\$(cat '$work/look') + 1))
echo "\$look" > '$work/look'
[ "\$look" -lt 5 ] || : > '$work/ended'
cat "$work/samples/\$look"
END
cat > "$work/made/date" << END
#!/bin/sh
echo \$((1000 + 60 * \$(cat '$work/look')))
END
printf '#!/bin/sh\n' > "$work/made/sleep"
chmod +x "$work/made/ps" "$work/made/date" "$work/made/sleep"

echo 0 > "$work/look"
PATH=$work/made:$PATH .ci/times "$here" "$work/ended" > "$work/times"
same 'the seconds and minutes of each kind' "$work/times" "\
crate                proof   tests   edits   wrong
low                    125    3630      23   86401
top                     70       0       7       0
seconds                195    3630      30   86401
minutes                3.0     2.0     2.0     1.0"

# ---- the gate over stand-ins

home=$work/home
mkdir -p "$home/.ci" "$home/tests/wrong_programs/low" "$home/crates/low/must-fail" "$home/crates/afs_top/out" "$work/kit"
cp .ci/run .ci/times "$home/.ci"
: > "$home/crates/low/must-fail/one.edit"
: > "$home/tests/wrong_programs/low/two.edit"
: > "$home/tests/wrong_programs/low/three.edit"
printf '#!/bin/sh\nexec /bin/sleep 0.1\n' > "$work/kit/sleep"

# A stand-in writes down its name and its words, and fails where it is the one that has to.
cat > "$work/stand_in" << END
#!/bin/sh
echo "\${0##*/}\$(printf ' %s' "\$@")\${AFSCELL:+ with \$AFSCELL}" >> '$work/called'
case \${0##*/} in
rt) cat '$work/says' ;;
esac
[ "\$(cat '$work/fails')" != "\${0##*/}" ]
END
chmod +x "$work/stand_in" "$work/kit/sleep"
programs='edits rules links names ladder wrong_programs launcher plays gate rows edge killed'
for it in $programs; do cp "$work/stand_in" "$home/tests/$it.sh"; done
cp "$work/stand_in" "$work/kit/rt"
cp "$work/stand_in" "$home/crates/afs_top/out/afs_top"

# Runs the gate where this one fails: gate NAME
gate() {
    : > "$work/called"
    echo "$1" > "$work/fails"
    rm -f "$home/crates/afs_top/out/afscell.built"
    PATH=$work/kit:$PATH "$home/.ci/run" > "$work/out" 2>&1 || return 1
}

all_kept='rt: low is kept: an earlier run on this machine proved the same files over the same libraries
rt: ok; handles allowed: none; must-fail edits: 1 refused; done in this run: 1 of the 3 proofs (of crates and of their tests) and 0 of the 1 must-fail edits; the others are kept from earlier runs of the same files on this machine
3 passed, 0 failed'
none_kept='rt: ok; handles allowed: none; must-fail edits: 1 refused; every proof and must-fail edit was done in this run
3 passed, 0 failed'

echo "$all_kept" > "$work/says"
if gate nothing; then pass; else fail 'all stand-ins pass, and the gate does not'; fi
program=crates/afs_top/out/afs_top
same 'what the gate runs' "$work/called" "\
edits.sh 
rules.sh 
links.sh 
names.sh 
ladder.sh 
gate.sh 
rt ci
wrong_programs.sh --turn 0
launcher.sh 
plays.sh 
rows.sh  with $program
edge.sh  with $program
killed.sh 5 300 with $program"
if [ -e "$home/crates/afs_top/out/afscell.built" ]; then pass; else fail 'the launcher is not told what was built'; fi
same 'what the gate prints' "$work/out" "$all_kept
crate                proof   tests   edits   wrong
seconds                  0       0       0       0
minutes                0.0     0.0     0.0     0.0
proofs, edits and tests took 0 minutes, with 1 edit of the crates' must-fail
of these, done in this run: 1 of the 3 proofs (of crates and of their tests) and 0 of the 1 must-fail edits; the others are kept from earlier runs of the same files on this machine
kept from earlier runs: the proofs of 1 crate
twelve of the 2 other wrong programs took 0 minutes"

echo "$none_kept" > "$work/says"
if gate nothing && grep -q '^every proof and must-fail edit was done in this run$' "$work/out"; then pass; else fail 'what was proved from nothing'; fi
if grep -q '^kept from earlier runs: the proofs of 0 crates$' "$work/out"; then pass; else fail 'that nothing was kept'; fi

# a kit that keeps nothing says nothing of earlier runs
echo 'rt: ok; handles allowed: none
3 passed, 0 failed' > "$work/says"
if gate nothing; then pass; else fail 'a kit that keeps nothing passes, and the gate does not'; fi
same 'what the gate prints of a kit that keeps nothing' "$work/out" "$(cat "$work/says")
crate                proof   tests   edits   wrong
seconds                  0       0       0       0
minutes                0.0     0.0     0.0     0.0
proofs, edits and tests took 0 minutes, with 1 edit of the crates' must-fail
kept from earlier runs: the proofs of 0 crates
twelve of the 2 other wrong programs took 0 minutes"

for it in $programs; do
    if gate "$it.sh"; then fail "$it.sh fails, and the gate passes"; else pass; fi
    if [ "$(wc -l < "$work/called")" -eq 13 ]; then pass; else fail "$it.sh fails, and not all is run"; fi
done
echo '2 passed, 1 failed' > "$work/says"
if gate rt; then fail 'rt ci fails, and the gate passes'; else pass; fi
if [ ! -e "$home/crates/afs_top/out/afscell.built" ]; then pass; else fail 'rt ci fails, and the launcher takes what it built'; fi
rm "$home/$program"
if gate nothing; then fail 'no program was built, and the gate passes'; else pass; fi

echo "$passed passed, $failed failed"
[ "$failed" = 0 ]
