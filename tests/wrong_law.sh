#!/bin/sh
# Tries wrong rows against the law over volumes: each tests/wrong_law/NAME.edit changes one
# definition of the rows (crates spec_rows and spec_breaks) or one lemma, and the proof of crate law_legal has to break at the lemmas
# of that case. Run it when the rows, what is legal or the proof has changed. It takes half a minute a row, so it is no part of
# the gate. With NAMEs it tries these alone. All is done in a copy: the repository stays as it is.
#
# An edit tells in its lines '# ' what is wrong, and then has
#   file: CRATE/specs/FILE.antt   what is changed; a further one may follow with its pairs, as where a proof has the same in
#                                 another form
#   old: TEXT                     stands there once
#   new: TEXT                     comes instead; a second one is a further line. More pairs of old and new may follow
#   breaks: FILE LEMMA            a lemma of crates/law_legal/proofs/FILE.antt that is refused, the first that of the case
# Of what the law (proofs/RunsAreLegal) stands on, just these lemmas have to be refused, not counting what stands on
# them, and the law must not be proved. 'breaks: nothing' says that the law holds all the same, for the reason that the edit
# tells. Worked runs may break as well, and the walks for other laws; they are told behind the lemmas.
set -eu

cd "$(dirname "$0")/.."

work=$(mktemp -d)
trap 'rm -rf "$work"' EXIT
trap 'exit 130' INT
trap 'exit 143' TERM

passed=0
failed=0

pass() {
    passed=$((passed + 1))
    printf 'ok: %s\n' "$1"
}

# What was found stands in the file of the second name.
fail() {
    failed=$((failed + 1))
    printf 'failed: %s\n' "$1"
    cut -c1-300 "$2" | head -n 20 | sed 's/^/  /'
}

finish() {
    echo "$passed passed, $failed failed"
    [ "$failed" -eq 0 ] || exit 1
    exit 0
}

# The file of proofs and those below it, each once.
stands_on() {
    while [ "$#" -gt 0 ]; do
        file=$1
        shift
        if grep -qx "$file" "$work/walk"; then continue; fi
        echo "$file" >> "$work/walk"
        set -- "$@" $(sed -n 's/^use Rattle\.law_legal\.proofs\.\([^.]*\)\..*/\1/p' "crates/law_legal/proofs/$file.antt" | sort -u)
    done
}

mkdir "$work/crates"
if [ -f HANDLES ]; then cp HANDLES "$work"; fi
for crate in $(tests/needed.sh law_legal); do
    cp -R "crates/$crate" "$work/crates"
    grep "^$crate:" crates.txt >> "$work/crates.txt"
done
# Runs that are worked out in the rows' own crate would be refused first, and the law then isn't tried.
rm -rf "$work"/crates/spec_rows/proofs/*
: > "$work/crates/spec_rows/proofs/Lib.antt"
model=$work/crates/law_legal
: > "$work/walk"
stands_on RunsAreLegal

# Proves the crate in the copy. What was refused is told in two files, sorted and without what only stands on it: in
# refused the lemmas of the walk, one 'FILE LEMMA' a line, and whole lines on other files than proofs; in others the rest.
check() {
    : > "$work/others"
    (cd "$model" && rt check) > "$work/log" 2>&1 || true
    grep ': error: ' "$work/log" | grep -vE ': error: [0-9]+ declarations? that depends? on ' \
        | sed -E 's/^(\.\/)?proofs\/([^:]*)\.antt:[0-9:]* error: [^`]*`([^`]*)`.*/\2 \3/' | sort -u > "$work/errors" || true
    awk -v others="$work/others" '
        NR == FNR { walk[$1]; next }
        NF == 2 && !($1 in walk) { print > others; next }
        { print }
    ' "$work/walk" "$work/errors" > "$work/refused"
}

is_proved() {
    grep -q '^fn law_legal::laws::runs_are_legal: proved' "$work/log"
}

# The lines of the edit that begin with this word, without it.
told() {
    sed -n "s/^$2: //p" "$1"
}

listed() {
    tr '\n' ',' < "$1" | sed 's/,$//; s/,/, /g'
}

# Prints the file of the second name, changed by the edit of the first; fails where an old text doesn't stand there once.
changed() {
    LC_ALL=C awk '
        NR == FNR {
            if (sub(/^old: /, "")) old[++pairs] = $0
            else if (sub(/^new: ?/, "")) new[pairs] = (further[pairs]++ ? new[pairs] "\n" : "") $0
            next
        }
        {
            for (i = 1; i <= pairs; i++) {
                line = ""
                while ((at = index($0, old[i])) > 0) {
                    found[i]++
                    line = line substr($0, 1, at - 1) new[i]
                    $0 = substr($0, at + length(old[i]))
                }
                $0 = line $0
            }
            print
        }
        END {
            for (i = 1; i <= pairs; i++) if (found[i] != 1) exit 1
            exit pairs == 0
        }
    ' "$1" "$2"
}

# What the edit changes in this file: the lines behind its name.
section() {
    awk -v file="file: $2" '/^file: / { here = ($0 == file) } here' "$1"
}

# The edit is tried in the copy, and taken back.
try() {
    name=${1##*/}
    name=${name%.edit}
    rm -rf "$work/right"
    mkdir "$work/right"
    bad=
    if [ ! -f "$1" ]; then bad='there is no such edit'; fi
    for file in $([ -z "$bad" ] && told "$1" file); do
        right=$work/right/$(echo "$file" | tr / -)
        if [ ! -f "$work/crates/$file" ]; then bad="there is no $file"; break; fi
        cp "$work/crates/$file" "$right"
        section "$1" "$file" > "$work/section"
        if ! changed "$work/section" "$right" > "$work/crates/$file"; then bad="an old text does not stand there once in $file"; fi
    done
    if [ -z "$bad" ]; then check; fi
    for file in $([ -f "$1" ] && told "$1" file); do
        right=$work/right/$(echo "$file" | tr / -)
        if [ -f "$right" ]; then cp "$right" "$work/crates/$file"; fi
    done
    if [ -z "$bad" ]; then judge "$1"; else echo "$bad" > "$work/found"; fail "$name" "$work/found"; fi
}

judge() {
    told "$1" breaks > "$work/breaks"
    sed '/^nothing$/d' "$work/breaks" | sort -u > "$work/wanted"
    beside=$(listed "$work/others")
    if [ -n "$beside" ]; then beside=" (beside the walk: $beside)"; fi
    if [ ! -s "$work/breaks" ]; then
        echo 'the edit does not tell what breaks' > "$work/found"
        sed 's/^/breaks: /' "$work/refused" >> "$work/found"
        sed 's/^/beside: /' "$work/others" >> "$work/found"
        if is_proved; then echo 'the law was proved' >> "$work/found"; fi
        fail "$name" "$work/found"
    elif ! cmp -s "$work/refused" "$work/wanted"; then
        diff "$work/wanted" "$work/refused" | sed -n 's/^< /wanted: /p; s/^> /refused: /p' > "$work/found"
        fail "$name" "$work/found"
    elif [ -s "$work/wanted" ] && is_proved; then
        fail "$name: the law was proved without these" "$work/wanted"
    elif [ ! -s "$work/wanted" ] && ! is_proved; then
        tail -n 3 "$work/log" > "$work/found"
        fail "$name: the law was not proved" "$work/found"
    elif [ -s "$work/wanted" ]; then
        pass "$name: refused at $(listed "$work/breaks")$beside"
    else
        pass "$name: the law holds$beside"
    fi
}

# The rows as they are keep the law, or nothing below would tell anything.
check
if ! is_proved || [ -s "$work/errors" ]; then
    tail -n 5 "$work/log" > "$work/found"
    fail 'the rows as they are were not proved' "$work/found"
    finish
fi

if [ "$#" -eq 0 ]; then
    for edit in tests/wrong_law/*.edit; do try "$edit"; done
else
    for name in "$@"; do try "tests/wrong_law/$name.edit"; done
fi
finish
