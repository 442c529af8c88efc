"""Reads the edits of wrong programs, disks, operations and rows, and looks whether each can still be applied.

python3 tests/edits.py: each old text of an edit has to stand exactly once in its file, or once at or after the line that 'from'
names. It prints a line for each edit of which that is not so, then how many were looked at, and ends with status 1 if there was one.

An edit is a file of lines, of which these are read here:
  file: PATH   what the pairs that follow change
  from: TEXT   they change the first place at or after the first line with this text
  old: TEXT    stands there
  new: TEXT    comes instead; a second one is a further line
Other lines begin with another word and a colon, or with a #. A line that begins otherwise is the rest of a text, and nobody would read it.
"""

import dataclasses
import glob
import os
import re
import sys

ROOT = os.path.dirname(os.path.dirname(os.path.abspath(__file__)))


class Misfit(Exception):
    """An edit that cannot be applied."""


@dataclasses.dataclass
class Pair:
    """A text that an edit replaces, and the number of the line that names it."""

    file: str
    after: str
    old: str
    line: int
    new: list = dataclasses.field(default_factory=list)


def values(path, word):
    """The lines of an edit that begin with this word, without it."""
    with open(path, encoding="utf-8") as lines:
        return [line.rstrip("\n")[len(word) + 2 :] for line in lines if line.startswith(f"{word}: ")]


def pairs_of(path):
    pairs, file, after = [], "", ""
    with open(path, encoding="utf-8") as lines:
        for number, line in enumerate(lines, 1):
            word, _, text = line.rstrip("\n").partition(":")
            text = text[1:] if text.startswith(" ") else text
            if word == "file":
                file, after = text.strip(), ""
            elif word == "from":
                after = text
            elif word == "old":
                pairs.append(Pair(file, after, text, number))
            elif word == "new":
                if not pairs:
                    raise Misfit(f"line {number}: a new text stands before any old one")
                pairs[-1].new.append(text)
            elif line.strip() and not re.match(r"#|[a-z]+:", line):
                raise Misfit(f"line {number}: it begins with no word that is read")
    if not pairs:
        raise Misfit("it has no old text")
    return pairs


def replaced(text, pair):
    """The text of a file with the pair's new text in place of its old one."""
    begin = 0
    if pair.after:
        found = text.find(pair.after)
        if found < 0:
            raise Misfit(f"line {pair.line - 1}: no line of {pair.file} has the text of 'from'")
        begin = text.rfind("\n", 0, found) + 1
    count = text.count(pair.old, begin) if pair.old else 0
    if count == 0 or count > 1 and not pair.after:
        raise Misfit(f"line {pair.line}: the old text stands {count} times in {pair.file}")
    at = text.index(pair.old, begin)
    return text[:at] + "\n".join(pair.new) + text[at + len(pair.old) :]


def changed(path, folder):
    """The texts of the files below the folder that the edit changes, each by its path there."""
    texts, right = {}, {}
    for pair in pairs_of(path):
        if not pair.new:
            raise Misfit(f"line {pair.line}: no new text follows")
        if pair.file not in texts:
            try:
                with open(os.path.join(folder, pair.file), encoding="utf-8") as file:
                    texts[pair.file] = right[pair.file] = file.read()
            except OSError:
                raise Misfit(f"there is no file {pair.file}") from None
        texts[pair.file] = replaced(texts[pair.file], pair)
    if texts == right:
        raise Misfit("it changes nothing")
    return texts


def places():
    """Each edit of the repository, with the folder that its files are named from."""
    for path in sorted(glob.glob(f"{ROOT}/crates/*/must-fail/*.edit")):
        yield path, os.path.dirname(os.path.dirname(path))
    for path in sorted(glob.glob(f"{ROOT}/tests/wrong_programs/*/*.edit")):
        yield path, f"{ROOT}/crates/{os.path.basename(os.path.dirname(path))}"
    for kind, folder in (("disks", "crates"), ("law", "crates"), ("operations", "crates/spec_ideal"), ("dumps", "crates/spec_dumps"), ("fold", "crates/spec_fold"), ("volrows", "crates/spec_volrows"), ("adminrows", "crates/spec_adminrows"), ("copyrows", "crates/spec_copyrows"), ("walks", "crates/law_walks"), ("places", "crates/law_places"), ("stamps", "crates/law_stamps"), ("keys", "crates/law_keys"), ("latest", "crates/law_latest"), ("once", "crates/law_once"), ("changed", "crates/law_changed"), ("owed", "crates/law_owed"), ("replies", "crates/law_replies"), ("settled", "crates/law_settled"), ("stamp_owners", "crates/law_stamp_owners"), ("courses", "crates/law_courses"), ("locks", "crates/law_locks"), ("stored_stamps", "crates/law_stored_stamps"), ("transactions", "crates/law_transactions"), ("families", "crates/law_families"), ("numbers", "crates/law_numbers"), ("new_volumes", "crates/law_new_volumes"), ("fences", "crates/law_fences"), ("stamp_origins", "crates/law_stamp_origins"), ("one_server", "crates/law_one_server"), ("enabling", "crates/law_enabling"), ("recovered", "crates/law_recovered"), ("vanishing", "crates/law_vanishing"), ("in_service", "crates/law_in_service")):
        for path in sorted(glob.glob(f"{ROOT}/tests/wrong_{kind}/*.edit")):
            yield path, f"{ROOT}/{folder}"


def main():
    count, misfits = 0, 0
    for path, folder in places():
        count += 1
        try:
            changed(path, folder)
        except Misfit as why:
            misfits += 1
            print(f"{os.path.relpath(path, ROOT)}: {why}")
    print(f"{count - misfits} of {count} edits can be applied")
    return 1 if misfits or not count else 0


if __name__ == "__main__":
    sys.exit(main())
