#!/bin/sh
# Plays made steps of a server's node, a file server and a volume server over one disk, and compares what it tells and sends, its volumes at
# the end and the bytes of its disk with what a reference program in another language answers. tests/volserver.py makes the steps and asks
# the reference; the player is that of tests/plays.sh, with the node alone. It is tried and not proved. The rows of the part, which the
# gate plays, are looked at too: what the reference answers to their steps has to be what they say. Run it when the volume server or the
# file server has changed. All is done in a copy.
# tests/volserver.sh [COUNT [FIRST [STEPS]]]: so many runs from this seed on, 500 from 1, each of so many steps, 20; AFSCELL_REFERENCE is the folder
# of the reference.
set -eu

cd "$(dirname "$0")/.."
reference=${AFSCELL_REFERENCE:-../shared/oracle}
count=${1:-500}
first=${2:-1}
steps=${3:-20}

if ! [ -f "$reference/volserver.py" ] || ! command -v python3 > /dev/null 2>&1; then
    echo 'skipped: the reference program is not beside the repository'
    exit 0
fi

work=$(mktemp -d)
trap 'rm -rf "$work"' EXIT
trap 'exit 130' INT
trap 'exit 143' TERM

status=0
for row in tests/plays/volserver/*.row; do
    python3 tests/volserver.py "$reference" row < "$row" > "$work/row"
    cmp -s "$row" "$work/row" || { echo "the reference answers otherwise: $row"; status=1; }
done

mkdir "$work/cases"
python3 tests/volserver.py "$reference" made "$first" "$count" "$steps" "$work/cases"
CASES=$work/cases tests/plays.sh > "$work/told" 2>&1 || :
grep -v ' output=expected ' "$work/told" | cut -c1-300 || :
tail -n 1 "$work/told" | grep -q ' fault=0 differs=0 no-answer=0 ' || status=1
[ "$status" != 0 ] || echo "$count runs of $steps steps each are as the reference's"
exit "$status"
