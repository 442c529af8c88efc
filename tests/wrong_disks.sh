#!/bin/sh
# Tries wrong disks, banks and journals: each tests/wrong_disks/NAME.edit changes the code of afs_disk or afs_journal, and
# then a function has to be refused by the prover, or a test of test_disk has to fail.
# Run it when a contract of the disks or the journal, or one of those tests, has changed. It takes 10 to 60 s an edit, so it is
# no part of the gate, which tries those in the crates' must-fail. With NAMEs it tries these alone. All is done in a copy: the
# repository stays as it is.
#
# An edit tells in its lines '# ' what is wrong, and then has
#   file: CRATE/src/FILE.rt what is changed
#   from: TEXT              the pairs that follow change the first place at or behind the first line with this text
#   old: TEXT               stands there; without 'from' it stands once in the file
#   new: TEXT               comes instead; a second one is a further line. More pairs of old and new may follow
#   refused: FUNCTION       what the prover has to refuse, by its path in the crate
#   fails: TEST             or the test that has to fail
# A refusal counts only where it is by the contract: not where the edit is no program, nor where a proof by hand names what is
# no longer there.
set -eu

cd "$(dirname "$0")/.."

work=$(mktemp -d)
trap 'rm -rf "$work"' EXIT
trap 'exit 130' INT
trap 'exit 143' TERM

passed=0
failed=0

pass() {
    passed=$((passed + 1))
    printf 'ok: %s\n' "$1"
}

# What was found stands in the file of the second name.
fail() {
    failed=$((failed + 1))
    printf 'failed: %s\n' "$1"
    cut -c1-300 "$2" | tail -n 20 | sed 's/^/  /'
}

finish() {
    echo "$passed passed, $failed failed"
    [ "$failed" -eq 0 ] || exit 1
    exit 0
}

mkdir "$work/crates"
if [ -f HANDLES ]; then cp HANDLES "$work"; fi
for crate in $(tests/needed.sh test_disk); do
    cp -R "crates/$crate" "$work/crates"
    grep "^$crate:" crates.txt >> "$work/crates.txt"
done

# The lines of the edit that begin with this word, without it.
told() {
    sed -n "s/^$2: //p" "$1"
}

# Prints the file of the second name, changed by the edit of the first; fails where an old text doesn't stand there, or without
# 'from' stands there twice.
changed() {
    LC_ALL=C awk '
        NR == FNR {
            if (sub(/^from: /, "")) { from = $0; next }
            if (sub(/^old: /, "")) { old[++pairs] = $0; begins[pairs] = from }
            else if (sub(/^new: ?/, "")) new[pairs] = (further[pairs]++ ? new[pairs] "\n" : "") $0
            next
        }
        {
            for (i = 1; i <= pairs; i++) {
                if (begins[i] != "" && index($0, begins[i]) > 0) reached[i] = 1
                if (begins[i] != "" && (!reached[i] || found[i])) continue
                line = ""
                while ((at = index($0, old[i])) > 0) {
                    found[i]++
                    line = line substr($0, 1, at - 1) new[i]
                    $0 = substr($0, at + length(old[i]))
                    if (begins[i] != "") break
                }
                $0 = line $0
            }
            print
        }
        END {
            for (i = 1; i <= pairs; i++) if (found[i] != 1) exit 1
            exit pairs == 0
        }
    ' "$1" "$2"
}

# The functions of a crate by these paths, proved in the copy. The log tells what came of each.
check() {
    : > "$work/log"
    for function in $2; do
        (cd "$work/crates/$1" && rt check --only "$function") >> "$work/log" 2>&1 || true
    done
}

run_tests() {
    (cd "$work/crates/test_disk" && rt try --test) > "$work/log" 2>&1 || true
}

# Where the edit is no program the log says nothing. Nor does it where a proof by hand names what is no longer there, unless
# a clause is left open beside those that are proved by hand.
says_nothing() {
    if grep -q 'error\[' "$work/log"; then return 0; fi
    grep -qE '(Answers|Invariants)\.antt:.*(has no|that can be named)' "$work/log" || return 1
    : > "$work/answered"
    for function in $2; do
        answers=$work/crates/$1/proofs/$(echo "$function" | sed 's/::/\//g')/Answers.antt
        if [ -f "$answers" ]; then sed -n 's/^pub \([^ ]*\) :.*/\1/p' "$answers" | sed 's/.*clause-//' >> "$work/answered"; fi
    done
    grep -o 'it is not proved that .*(`[^`]*`)' "$work/log" | sed 's/.*(`\([^`]*\)`)/\1/; s/.*clause-//' | sort -u > "$work/open"
    ! grep -qvxFf "$work/answered" "$work/open"
}

judge() {
    told "$1" refused > "$work/refused"
    told "$1" fails > "$work/fails"
    crate=$(told "$1" file)
    crate=${crate%%/*}
    if [ -s "$work/refused" ]; then
        check "$crate" "$(cat "$work/refused")"
        if says_nothing "$crate" "$(cat "$work/refused")"; then
            fail "$name: refused for another reason than its contract" "$work/log"
            return
        fi
        while read -r function; do
            if ! grep -qE "^fn $crate::$function: (no proof|not proved)" "$work/log"; then
                fail "$name: $function was not refused" "$work/log"
                return
            fi
        done < "$work/refused"
        pass "$name: the prover refuses $(cat "$work/refused" | tr '\n' ' ')"
    elif [ -s "$work/fails" ]; then
        run_tests
        while read -r test; do
            if ! grep -q "^test $test \.\.\. FAILED" "$work/log"; then
                fail "$name: $test did not fail" "$work/log"
                return
            fi
        done < "$work/fails"
        pass "$name: $(cat "$work/fails" | tr '\n' ' ')fails"
    else
        echo 'the edit does not tell what refuses it' > "$work/found"
        fail "$name" "$work/found"
    fi
}

# The edit is tried in the copy, and taken back.
try() {
    name=${1##*/}
    name=${name%.edit}
    if [ ! -f "$1" ] || [ ! -f "$work/crates/$(told "$1" file)" ]; then
        echo 'there is no such edit, or no file that it changes' > "$work/found"
        fail "$name" "$work/found"
        return
    fi
    file=$work/crates/$(told "$1" file)
    cp "$file" "$work/right"
    if ! changed "$1" "$work/right" > "$file"; then
        cp "$work/right" "$file"
        echo 'an old text does not stand there as it has to' > "$work/found"
        fail "$name" "$work/found"
        return
    fi
    judge "$1"
    cp "$work/right" "$file"
}

# The disks as they are are proved and pass the tests, or nothing below would tell anything.
for crate in afs_disk afs_journal; do
    (cd "$work/crates/$crate" && rt check) > "$work/log" 2>&1 || true
    if ! grep -q '^logic=proved' "$work/log"; then
        fail "$crate as it is was not proved" "$work/log"
        finish
    fi
done
run_tests
if ! grep -q '^test result: ok' "$work/log"; then
    fail 'the disks as they are do not pass the tests' "$work/log"
    finish
fi

if [ "$#" -eq 0 ]; then
    for edit in tests/wrong_disks/*.edit; do try "$edit"; done
else
    for name in "$@"; do try "tests/wrong_disks/$name.edit"; done
fi
finish
