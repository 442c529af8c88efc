#!/bin/sh
# Tries wrong operations: the ideal operation can't be judged by a law of the cell, since it is what the cell does, so rows by
# computation judge it. Each tests/wrong_operations/NAME.edit changes one definition of crate spec_ideal, and the row that it
# names has to be refused; laws on all operations may be refused as well, and are counted. WRONG=dumps tries the clones and dumps of
# crate spec_dumps in the same way, by tests/wrong_dumps; WRONG=fold and WRONG=volrows try the records and the rows of a volume server
# (crates spec_fold and spec_volrows), by tests/wrong_fold and tests/wrong_volrows; WRONG=adminrows tries the acts of administrators (crate
# spec_adminrows) by tests/wrong_adminrows, and WRONG=copyrows clients of read-only volumes (crate spec_copyrows) by tests/wrong_copyrows.
# WRONG=walks, places, stamps, keys, latest, once, changed, owed, settled, replies, stamp_owners, courses, locks, stored_stamps, transactions, families, numbers, new_volumes, fences, stamp_origins, one_server, enabling, recovered, vanishing, in_service and answers try
# laws on runs with administrators: each those of the crate of that name (walks those of law_walks), by tests/wrong_walks and so on.
# Run it when the definitions or the rows have changed. It takes some 15 s an edit, so it is no part of the gate. With NAMEs it
# tries these alone. All is done in a copy: the repository stays as it is.
#
# An edit tells in its lines '# ' what is wrong, and then has
#   file: specs/FILE.antt   what is changed
#   old: TEXT               stands there once
#   new: TEXT               comes instead
#   breaks: FILE ROW        a row of proofs/FILE.antt that is refused
set -eu

cd "$(dirname "$0")/.."

# The crate whose definitions are changed, the folder of the edits, and a law that is proved where nothing is changed.
case ${WRONG:-operations} in
    operations) changed_crate=spec_ideal edits=tests/wrong_operations law=operations_leave_sound ;;
    dumps) changed_crate=spec_dumps edits=tests/wrong_dumps law=dumps_finish ;;
    fold) changed_crate=spec_fold edits=tests/wrong_fold law=records_leave_storable ;;
    volrows) changed_crate=spec_volrows edits=tests/wrong_volrows law=deeds_are_told ;;
    adminrows) changed_crate=spec_adminrows edits=tests/wrong_adminrows law=copy ;;
    copyrows) changed_crate=spec_copyrows edits=tests/wrong_copyrows law=copies_are_plain ;;
    places) changed_crate=law_places edits=tests/wrong_places law=lines_stand_well ;;
    stamps) changed_crate=law_stamps edits=tests/wrong_stamps law=entries_are_told ;;
    keys) changed_crate=law_keys edits=tests/wrong_keys law=calls_run_in_order ;;
    owed) changed_crate=law_owed edits=tests/wrong_owed law=quits_are_late ;;
    replies) changed_crate=law_replies edits=tests/wrong_replies law=runs_answer_their_calls ;;
    changed) changed_crate=law_changed edits=tests/wrong_changed law=changes_are_operations ;;
    settled) changed_crate=law_settled edits=tests/wrong_settled law=settles_follow_drops ;;
    latest) changed_crate=law_latest edits=tests/wrong_latest law=changes_are_later ;;
    once) changed_crate=law_once edits=tests/wrong_once law=changes_are_once ;;
    walks) changed_crate=law_walks edits=tests/wrong_walks law=senders_are_told ;;
    stamp_owners) changed_crate=law_stamp_owners edits=tests/wrong_stamp_owners law=stamps_have_owners ;;
    stored_stamps) changed_crate=law_stored_stamps edits=tests/wrong_stored_stamps law=surveys_are_stored ;;
    answers) changed_crate=law_answers edits=tests/wrong_answers law=answers_have_causes ;;
    transactions) changed_crate=law_transactions edits=tests/wrong_transactions law=transactions_are_asked_for ;;
    courses) changed_crate=law_courses edits=tests/wrong_courses law=calls_are_on_course ;;
    locks) changed_crate=law_locks edits=tests/wrong_locks law=grips_are_drawn ;;
    families) changed_crate=law_families edits=tests/wrong_families law=transactions_are_of_families ;;
    numbers) changed_crate=law_numbers edits=tests/wrong_numbers law=numbers_are_apart ;;
    new_volumes) changed_crate=law_new_volumes edits=tests/wrong_new_volumes law=each_entry_is_made_once ;;
    fences) changed_crate=law_fences edits=tests/wrong_fences law=claims_are_true ;;
    stamp_origins) changed_crate=law_stamp_origins edits=tests/wrong_stamp_origins law=stamps_are_brought ;;
    one_server) changed_crate=law_one_server edits=tests/wrong_one_server law=a_volume_accepts_at_one_server ;;
    enabling) changed_crate=law_enabling edits=tests/wrong_enabling law=volumes_are_enabled_alone ;;
    recovered) changed_crate=law_recovered edits=tests/wrong_recovered law=recoveries_end_alone ;;
    vanishing) changed_crate=law_vanishing edits=tests/wrong_vanishing law=a_volume_is_deleted_elsewhere ;;
    in_service) changed_crate=law_in_service edits=tests/wrong_in_service law=recoveries_end_in_service ;;
    *) echo 'WRONG is operations, dumps, fold, volrows, adminrows, copyrows, walks, places, stamps, keys, latest, once, changed, owed, settled, replies, stamp_owners, courses, locks, stored_stamps, transactions, families, numbers, new_volumes, fences, stamp_origins, one_server, enabling, recovered, vanishing, in_service or answers'; exit 1 ;;
esac

work=$(mktemp -d)
trap 'rm -rf "$work"' EXIT
trap 'exit 130' INT
trap 'exit 143' TERM

passed=0
failed=0

pass() {
    passed=$((passed + 1))
    printf 'ok: %s\n' "$1"
}

fail() {
    failed=$((failed + 1))
    printf 'failed: %s\n' "$1"
}

# The lines of the edit that begin with this word, without it.
told() {
    sed -n "s/^$2: //p" "$1"
}

mkdir "$work/crates"
if [ -f HANDLES ]; then cp HANDLES "$work"; fi
for crate in $(tests/needed.sh "$changed_crate"); do
    cp -R "crates/$crate" "$work/crates"
    grep "^$crate:" crates.txt >> "$work/crates.txt"
done
defined=$work/crates/$changed_crate

# Proves the crate in the copy; its errors in refused, one 'FILE LEMMA' a line.
check() {
    (cd "$defined" && rt check) > "$work/log" 2>&1 || true
    sed -nE 's/^(\.\/)?proofs\/([^:]*)\.antt:[0-9:]* error: `([^`]*)`.*/\2 \3/p' "$work/log" | sort -u > "$work/refused"
}

# Prints the file of the second name, changed by the edit of the first; fails where the old text doesn't stand there once.
changed() {
    LC_ALL=C awk '
        NR == FNR {
            if (sub(/^old: /, "")) old = $0
            else if (sub(/^new: /, "")) new = $0
            next
        }
        {
            line = ""
            while ((at = index($0, old)) > 0) {
                found++
                line = line substr($0, 1, at - 1) new
                $0 = substr($0, at + length(old))
            }
            print line $0
        }
        END { exit found != 1 }
    ' "$1" "$2"
}

# The edit is tried in the copy, and taken back.
try() {
    name=${1##*/}
    name=${name%.edit}
    file=$defined/$(told "$1" file)
    row=$(told "$1" breaks)
    cp "$file" "$work/right"
    if ! changed "$1" "$work/right" > "$file"; then
        cp "$work/right" "$file"
        fail "$name: the old text does not stand there once"
        return
    fi
    check
    cp "$work/right" "$file"
    if grep -qx "$row" "$work/refused"; then
        pass "$name: refused at $row, and $(($(wc -l < "$work/refused") - 1)) others"
    else
        fail "$name: $row was not refused"
        head -n 5 "$work/refused"
    fi
}

# The definitions as they are keep the rows, or nothing below would tell anything.
check
if [ -s "$work/refused" ] || ! grep -q "$law: proved" "$work/log"; then
    tail -n 5 "$work/log"
    echo 'the definitions as they are were not proved'
    exit 1
fi

if [ "$#" -eq 0 ]; then
    for edit in "$edits"/*.edit; do try "$edit"; done
else
    for name in "$@"; do try "$edits/$name.edit"; done
fi
echo "$passed passed, $failed failed"
[ "$failed" -eq 0 ]
