#!/bin/sh
# Prints the table of docs/sizes.md: of each crate the lines of code with its contracts, of tests, of definitions and of proofs,
# and how many edits make a wrong program of it, in the gate and outside. Empty lines count for nothing.
set -eu

cd "$(dirname "$0")/.."

# Lines of the files of this name below a folder.
lines() {
    if [ -d "$1" ]; then find "$1" -name "$2" -type f -exec cat {} + | grep -c . || :; else echo 0; fi
}

# Lines of a crate's tests: all of a crate of tests, files tests.rt, and in others what stands behind #[cfg(test)] and a module
# with a body.
test_lines() {
    find "$1" -name '*.rt' -type f | while read -r file; do
        case $file in
        */tests.rt | */tests/* | crates/test_*) grep -c . "$file" || : ;;
        *) awk '/^#\[cfg\(test\)\]/ { held = 1; next } held && /^mod .*\{/ { is_test = 1 } { held = 0 } is_test && /./ { n++ } END { print n + 0 }' "$file" ;;
        esac
    done | awk '{ n += $1 } END { print n + 0 }'
}

edits() {
    if [ -d "$1" ]; then find "$1" -name '*.edit' | wc -l | tr -d ' '; else echo 0; fi
}

echo '| Crate | Code | Tests | Definitions | Proofs | Wrong programs |'
echo '|---|---|---|---|---|---|'
sed -n 's/^\([a-z_0-9]*\)[^:]*:.*/\1/p' crates.txt | while read -r crate; do
    tests=$(test_lines "crates/$crate/src")
    code=$(($(lines "crates/$crate/src" '*.rt') - tests))
    echo "$crate $code $tests $(lines "crates/$crate/specs" '*.antt') $(lines "crates/$crate/proofs" '*.antt') $(($(edits "crates/$crate/must-fail") + $(edits "tests/wrong_programs/$crate")))"
done | awk '
    # 12345 as 12,345
    function spaced(n) {
        while (match(n, /[0-9][0-9][0-9][0-9]($|,)/)) n = substr(n, 1, RSTART) "," substr(n, RSTART + 1)
        return n
    }
    {
        printf "| `%s` | %s | %s | %s | %s | %s |\n", $1, spaced($2), spaced($3), spaced($4), spaced($5), $6
        for (i = 2; i <= 6; i++) all[i] += $i
    }
    END { printf "| all | %s | %s | %s | %s | %s |\n", spaced(all[2]), spaced(all[3]), spaced(all[4]), spaced(all[5]), all[6] }
'
