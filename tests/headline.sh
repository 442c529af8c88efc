#!/bin/sh
# Judges runs by what a user is told of them: tests/headline.sh [COUNT [FIRST [REFERENCE]]]. tests/headline/judge.py says what is wrong
# with a run, by its script and by its text with the bytes of messages alone. tests/headline/wrong.py first gives it wrong runs. Then it is
# given the texts of COUNT made scripts with administrators, 1,000 without a word, with the seeds from FIRST on. With a command as
# 'python3 FOLDER/afscell.py' each text has to be that program's too.
# It is no part of the gate. The program is the one that ./afscell or the gate built; AFSCELL names another.
set -eu

cd "$(dirname "$0")/.."

python3 tests/headline/wrong.py
exec python3 tests/headline/made.py "${AFSCELL:-crates/afs_top/out/afs_top}" "${1:-1000}" "${2:-1}" ${3:+"$3"}
