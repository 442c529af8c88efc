#!/bin/sh
# Tries wrong programs: each tests/wrong_programs/CRATE/NAME.edit changes the code of a function of that crate, and the prover has
# to refuse that function, by the clause of its contract that the edit is about. The gate tries those in crates/CRATE/must-fail in
# each run, the few that tell most, and twelve of these; all of a crate are tried by hand when its code has changed.
#
# tests/wrong_programs.sh [CRATE | CRATE/NAME ..]   those of these crates or names, or all
# tests/wrong_programs.sh --turn NUMBER             twelve of them, others for the next number
#
# An edit has the form that tests/edits.py reads, with its files named from the crate's folder, and then
#   refused: FUNCTION   the function that has to be refused, by its path in the crate; there may be more than one
#   clause: NAME        the clause, or another goal, that has to stay open: what the edit breaks. There may be more than one
# Each is tried in a copy of its crate, by a check of those functions alone, over the libraries that stand built in
# crates/*/out/rlib: rt ci and rt check leave them there. Where one is not there, or older than its sources, the status is 2.
#
# An edit fails here where it can't be applied or compiled, where the function is accepted or only another one is refused, and where
# its clause is not among those that stay open. Where it tells no clause, one of the function's contract has to stay open, which
# what a loop keeps and an overflow are not; such an edit has no turn. Where files of answers are complained of, which may only
# name what the edit took away, and the clause does not stay open beside them, it is tried once more without these files. It fails
# where that clause stays open in the right program too, once these files are gone: then nothing but a proof by hand refused it.
set -eu

exec python3 "$(dirname "$0")/wrong_programs.py" "$@"
