"""Looks whether a word of the definitions that have to be believed has two meanings: whether one name is declared in more than one
module.

python3 tests/names.py [--all] [--texts]

Believed are the definitions that tests/believed.py lists for the clauses of the program's top call and for its law; with --all those
of all crates are looked through. A name may stand in several modules where tests/names.table has it, with the reason; a name in that
table which stands once is told as well. A definition that only hands on another of its name is no second one. --texts prints the
comment of each. The last line tells how many names are declared and how many of them stand in more than one place without a reason.
"""

import collections
import pathlib
import re
import subprocess
import sys

TOP = pathlib.Path(__file__).resolve().parent.parent
TABLE = TOP / "tests/names.table"
HEAD = re.compile(r"^(?:(?:abbrev|unfoldable|opaque|pub) )*(?:(?:record|data) )?(\S+)(?= |:|$)")
BEGINS = re.compile(r"(abbrev|unfoldable|opaque|pub|data|record) ")
GOES_ON = re.compile(r"(pub )?(use|mod) |infix|syntax ")


class Definition:
    def __init__(self, module, name, line, comment):
        self.module, self.name, self.line, self.comment, self.text = module, name, line, comment, []

    def hands_on(self):
        """Whether it is nothing but another definition of the same name."""
        return " ".join(self.text).split("=")[-1].strip() == self.name


def definitions(file):
    module = f"{file.parts[-3]}/specs/{file.stem}" if file.parent.name == "specs" else str(file.relative_to(TOP / "crates"))[:-5]
    found, comment, current = [], [], None
    for number, line in enumerate(file.read_text(encoding="utf-8").splitlines(), 1):
        if line.startswith("--"):
            comment.append(line[2:].strip())
            current = None
        elif not line.strip() or GOES_ON.match(line):
            comment, current = [], None
        elif BEGINS.match(line):
            current = Definition(module, HEAD.match(line)[1].rstrip(":"), number, " ".join(comment))
            current.text.append(line)
            found.append(current)
            comment = []
        elif current:
            current.text.append(line)
    return found


def believed():
    """The module and the name of each definition that has to be believed."""
    said = subprocess.run([sys.executable, "-B", TOP / "tests/believed.py", "--list"], check=True, capture_output=True, text=True)
    return set(re.findall(r"(?m)^  crates/(\S+)\.antt (\S+) \d+$", said.stdout))


def reasons():
    """The names that may stand in more than one module, each with the reason above it."""
    table, reason = {}, None
    for line in TABLE.read_text(encoding="utf-8").splitlines():
        if line.startswith("  "):
            table.update((name, reason) for name in line.split())
        elif line and not line.startswith("#"):
            reason = line
    return table


def in_several(known):
    """The names that more than one definition declares."""
    by_name = collections.defaultdict(list)
    for it in known:
        if not it.hands_on():
            by_name[it.name].append(it)
    return {name: them for name, them in by_name.items() if len(them) > 1}


def tried():
    """The check is tried: of two definitions of one name it has to tell, and not of one that hands on the other."""
    one, other, handed = Definition("a", "word", 1, ""), Definition("b", "word", 1, ""), Definition("c", "word", 1, "")
    one.text, other.text, handed.text = ["word x = x"], ["word x = 0"], ["word = word"]
    return [] if in_several([one, other]) and not in_several([one, handed]) else ["two definitions of one name aren't told"]


def main(words):
    among = None if "--all" in words else believed()
    files = sorted((TOP / "crates").glob("*/specs/**/*.antt"))
    known = [it for file in files for it in definitions(file) if among is None or (it.module, it.name) in among]
    several, table, faults = in_several(known), reasons(), tried()
    faults += [f"{name} stands in tests/names.table and in one place" for name in sorted(table.keys() - several.keys()) if among]
    for name in sorted(several.keys() - table.keys()):
        faults.append(f"{name} is declared in more than one place: " + ", ".join(f"{it.module}:{it.line}" for it in several[name]))
        if "--texts" in words:
            faults += [f"    {it.module}: {it.comment}" for it in several[name]]
    for fault in faults:
        print(fault)
    print(f"{len({it.name for it in known}):,} names of definitions, {len(several.keys() - table.keys())} of them with two meanings")
    return 1 if faults else 0


if __name__ == "__main__":
    sys.exit(main(sys.argv[1:]))
