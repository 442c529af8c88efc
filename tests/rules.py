"""Looks up every name of docs/rules.md, and that each section of docs/cell.md has a rule there.

python3 tests/rules.py: a row of a table there has five cells: the rule, its definition, its code, its proof and its test. Names
stand between backquotes. One with a slash is a file or a folder, and the names that follow are looked up in it, each as what its
column says: a word that is declared, a function that is there, a public contract, or one of its clauses where the text says so,
a lemma, a row, a test. Where a column has `none`, the list at the end of the page says why. Then the check itself is tried: a
name is changed in the page's text, and the check has to see it. The last line tells how many names were looked up.
"""

import os
import re
import sys
from dataclasses import dataclass, field
from functools import lru_cache

from pages import anchor, anchors, links, prose_lines, table_rows, text_of, HEADING

PAGE = "docs/rules.md"
RULED = "docs/cell.md"
COLUMNS = ("rule", "definition", "code", "proof", "test")
FEWEST_RULES = 60
# This section of the page says why a column has none, and these of the other page state no rule.
REASONS = "Where a column has none"
WITHOUT_RULES = ("Where each rule stands", "What is promised of all this")


# Each file is read once.
text_in = lru_cache(None)(text_of)


# ---- files of definitions and proofs

DECLARED = re.compile(r"^(?:(?:abbrev|unfoldable|opaque|pub) )*(\w+) :|^(?:(?:opaque|pub) )*(?:record|data) (\w+) [:({]", re.MULTILINE)


@lru_cache(None)
def declared_in(path):
    """The words of a file. They stand at the beginning of a line; fields and cases stand further in, and are none."""
    return {plain or shaped for plain, shaped in DECLARED.findall(text_in(path))}


# ---- files of code


@dataclass
class Function:
    """A function of a file of code, and what stands between its name and its body."""

    owner: str
    is_public: bool
    is_test: bool
    clauses: set = field(default_factory=set)
    has_contract: bool = False


OWNER = re.compile(r"(?:pub )?(?:unsafe )?(impl|trait)\b(.*)")
FUNCTION = re.compile(r" *(pub(?:\(\w+\))? )?(?:const )?fn (\w+)")


def owner_named(kind, rest):
    """The type of an implementation, and whether it is one of a trait; or the trait itself."""
    without = rest
    while "<" in without:
        shorter = re.sub(r"<[^<>]*>", "", without)
        if shorter == without:
            break
        without = shorter
    of_trait = kind == "trait" or " for " in without
    name = without.split(" for ")[-1]
    return re.search(r"\w+", name).group(), of_trait


@lru_cache(None)
def functions_in(path):
    """The functions of a file of code, by their names; a method is named Type::name."""
    functions = {}
    owner, of_trait, is_test, open_head = "", False, False, None
    for line in text_in(path).splitlines():
        if line == "}":
            owner, of_trait = "", False
        block = OWNER.match(line)
        if block:
            owner, of_trait = owner_named(*block.groups())
        head = FUNCTION.match(line)
        if head:
            name = f"{owner}::{head.group(2)}" if owner else head.group(2)
            open_head = Function(owner, head.group(1) == "pub " or of_trait, is_test)
            functions[name] = open_head
        if open_head:
            clause = re.match(r" *ensures (\w+ )?\{", line)
            if clause:
                open_head.has_contract = True
                open_head.clauses.add((clause.group(1) or "").strip())
            elif line.strip() in ("{", "{}") or re.match(r" *(?:\)|pub |fn |const ).*\{$", line):
                open_head = None
        if line.strip() and not line.strip().startswith("#"):
            is_test = False
        if line.strip() == "#[test]":
            is_test = True
    return functions


@lru_cache(None)
def items_in(path):
    """The constants, types and traits of a file of code."""
    return set(re.findall(r"^(?:pub(?:\(\w+\))? )?(?:const|static|struct|enum|trait) (\w+)", text_in(path), re.MULTILINE))


# ---- what is wrong with a name, in its column


def place_of(named):
    """Where a file or a folder lies that the page names."""
    if named.startswith("tests/"):
        return named
    if "/specs/" in named or "/proofs/" in named:
        return f"crates/{named}.antt"
    return f"crates/{named}"


FOLDERS = {
    "definition": r"(afs|spec|law)_\w+/specs/[\w/]+",
    "code": r"(afs|spec)_\w+/src/[\w/]+\.rt",
    "proof": r"(afs|spec|law)_\w+/(src/[\w/]+\.rt|proofs/[\w/]+)",
    "test": r"tests/[\w./]+|(afs|spec|test)_\w+/(src/[\w/]+\.rt|must-fail)",
}


def folders_of(named):
    """A wrong program of a crate stands in its must-fail or in tests/wrong_programs, and may go from one to the other."""
    crate = re.fullmatch(r"(?:tests/wrong_programs/)?((?:afs|spec|law|test)_\w+)(?:/must-fail)?", named)
    return [f"crates/{crate.group(1)}/must-fail", f"tests/wrong_programs/{crate.group(1)}"] if crate else [place_of(named)]


def is_there(named):
    return any(os.path.exists(place) for place in folders_of(named))


def file_fault(column, named):
    if not re.fullmatch(FOLDERS[column], named):
        return f"{named} is no place for a {column}"
    return None if is_there(named) else f"there is no {named}"


def word_fault(named, name):
    return None if name in declared_in(place_of(named)) else f"{name} is not declared in {named}"


def code_fault(named, name):
    place = place_of(named)
    return None if name in functions_in(place) or name in items_in(place) else f"there is no {name} in {named}"


def contract_fault(named, name):
    """The proof of a rule may be a public contract, or a law, which is one whose function does nothing."""
    function = functions_in(place_of(named)).get(name)
    if not function:
        return f"there is no {name} in {named}"
    if not function.is_public:
        return f"{name} in {named} is not public"
    return None if function.has_contract else f"{name} in {named} has no contract"


def clause_fault(named, function, name):
    found = functions_in(place_of(named)).get(function)
    return None if found and name in found.clauses else f"{function} in {named} has no clause {name}"


def test_fault(named, name):
    place = place_of(named)
    if named.endswith(".table"):
        found = re.search(rf"^\| {re.escape(name)} +\|", text_in(place), re.MULTILINE)
    elif named.endswith(".rt"):
        function = functions_in(place).get(name)
        found = function and function.is_test
    else:
        files = [os.path.join(folder, name) for folder in folders_of(named)]
        found = any(os.path.exists(file + ending) for file in files for ending in (".row", ".edit"))
    return None if found else f"there is no {name} in {named}"


def name_fault(column, named, function, name):
    if function:
        return clause_fault(named, function, name)
    if column == "test":
        return test_fault(named, name)
    if named.endswith(".rt"):
        return code_fault(named, name) if column == "code" else contract_fault(named, name)
    return word_fault(named, name)


# ---- the page


@dataclass
class Check:
    """How many names were looked up, and what was found wrong, each with the number of its line."""

    names: int = 0
    faults: list = field(default_factory=list)

    def look(self, number, fault):
        self.names += 1
        self.tell(number, fault)

    def tell(self, number, fault):
        if fault:
            self.faults.append((number, fault))


def lone_fault(column, named):
    """A script may stand for itself; other files and folders have names after them."""
    is_script = column == "test" and named.endswith(".sh")
    return None if is_script else f"{named} has no name after it"


def check_cell(check, number, column, cell):
    """Looks up the names of a cell. What follows the word `clause` are clauses of the function before, up to a semicolon."""
    named, function, is_clause, names = None, None, False, 0
    for at, part in enumerate(cell.split("`")):
        if at % 2 == 0:
            is_clause = "clause" in part or is_clause and ";" not in part
        elif "/" in part:
            if named and not names:
                check.tell(number, lone_fault(column, named))
            named, function, is_clause, names = part, None, False, 0
            check.look(number, file_fault(column, named))
        elif not named or not is_there(named):
            check.look(number, f"{part} has no file before it")
        else:
            names += 1
            check.look(number, name_fault(column, named, function if is_clause else None, part))
            function = function if is_clause else part
    if not named:
        check.tell(number, f"the {column} names no file")
    elif not names:
        check.tell(number, lone_fault(column, named))


def check_rule(check, number, cell, count, sections):
    """A rule has its number, a sentence, and a link to its section of the other page."""
    if not re.match(rf"{count}\. [\w`-]", cell):
        check.tell(number, f"the rule does not begin with its number, {count}")
    targets = [target for _, target in links(cell)]
    wanted = os.path.basename(RULED) + "#"
    if len(targets) != 1 or not targets[0].startswith(wanted):
        check.tell(number, f"rule {count} does not link to one section of {RULED}")
    else:
        section = targets[0][len(wanted):]
        check.look(number, None if section in sections else f"{RULED} has no section {section}")


def reasons_in(text):
    """The rules for which the list at the end says why a column has none, each with the number of its line."""
    found, is_list = {}, False
    for number, line in prose_lines(text):
        heading = HEADING.fullmatch(line)
        if heading:
            is_list = heading.group(2) == REASONS
        item = re.match(r"- ([\d, ]+): \w", line)
        if is_list and item:
            found.update((int(rule), number) for rule in re.findall(r"\d+", item.group(1)))
    return found


def sections_with_text(text):
    """The sections that say something by themselves, by their anchors; not those without rules, and not the page's head."""
    found, current = [], None
    for _, line in prose_lines(text):
        heading = HEADING.fullmatch(line)
        if heading:
            level, words = heading.groups()
            current = None if len(level) == 1 or words in WITHOUT_RULES else anchor(words)
        elif line.strip() and current and current not in found:
            found.append(current)
    return found


def checked(page, ruled):
    """What the check finds in these two pages."""
    check = Check()
    sections, missing = anchors(ruled), {}
    count = 0
    for number, cells in table_rows(page):
        count += 1
        if len(cells) != len(COLUMNS) or not all(cells):
            check.tell(number, f"the row of rule {count} has not {len(COLUMNS)} cells, or an empty one")
            continue
        check_rule(check, number, cells[0], count, sections)
        for column, cell in list(zip(COLUMNS, cells))[1:]:
            if cell == "none":
                missing[count] = number
            else:
                check_cell(check, number, column, cell)
    reasons = reasons_in(page)
    for rule in sorted(missing.keys() - reasons.keys()):
        check.tell(missing[rule], f"nothing says why rule {rule} has none in a column")
    for rule in sorted(reasons.keys() - missing.keys()):
        check.tell(reasons[rule], f"rule {rule} has no column with none")
    linked = {target.partition("#")[2] for _, cells in table_rows(page) for _, target in links(cells[0])}
    for section in sections_with_text(ruled):
        check.look(1, None if section in linked else f"no rule is of the section {section} of {RULED}")
    if count < FEWEST_RULES:
        check.tell(1, f"there are {count} rules, fewer than {FEWEST_RULES}")
    return check


# ---- the check is tried: each change of the page has to be told with these words


def replaced(old, new):
    return lambda text: text.replace(old, new, 1)


TRIALS = (
    ("a misspelt function", replaced("`names_call`", "`names_cal`"), "is not declared"),
    ("a misspelt method", replaced("`FileServer::handle`", "`FileServer::handel`"), "there is no FileServer::handel"),
    ("a method of another type", replaced("`FileServer::handle`", "`CacheManager::handle`"), "there is no CacheManager::handle"),
    ("a definition in another file", replaced("`spec_rows/specs/ServerRow` `admits`", "`spec_rows/specs/ClientRow` `admits`"), "admits is not declared"),
    ("a file that is not there", replaced("`spec_rows/specs/ServerRow`", "`spec_rows/specs/ServersRow`"), "there is no spec_rows/specs/ServersRow"),
    ("a clause that is none", replaced("`FileServer::handle`, clause `step`", "`FileServer::handle`, clause `steep`"), "has no clause steep"),
    ("a private function for a proof", replaced("`FileServer::handle`, clause `step`", "`FileServer::take`"), "is not public"),
    ("a law that is none", replaced("`calls_run_once`", "`calls_run_twice`"), "there is no calls_run_twice"),
    ("a row that is not there", replaced("`call_given_twice`", "`call_given_thrice`"), "there is no call_given_thrice"),
    ("a line of refusals that is not there", replaced("`nine servers`", "`ten servers`"), "there is no ten servers"),
    ("an empty cell", lambda text: re.sub(r"\| none \|", "|  |", text, count=1), "or an empty one"),
    ("a cell too few", lambda text: re.sub(r"\| none \|", "|", text, count=1), "has not 5 cells"),
    ("a section that is not there", replaced("(cell.md#", "(cell.md#no-"), "has no section no-"),
    ("a column with none and no reason", lambda text: re.sub(r"^- [\d, ]+:", "-", text, count=1, flags=re.MULTILINE), "nothing says why"),
    ("a section without a rule", lambda text: re.sub(r"^\|.*cell\.md#walks.*\n", "", text, flags=re.MULTILINE), "no rule is of the section walks"),
    ("few rules", lambda text: "\n".join(line for line in text.splitlines() if not re.match(r"\| \d\d", line)), "fewer than"),
)


def tried(page, ruled):
    """The trials that fail: the change changes nothing, or the check doesn't tell it."""
    failed = []
    for story, change, wanted in TRIALS:
        changed = change(page)
        if changed == page or not any(wanted in fault for _, fault in checked(changed, ruled).faults):
            failed.append(story)
    return failed


def main():
    page, ruled = text_of(PAGE), text_of(RULED)
    check = checked(page, ruled)
    for number, fault in check.faults:
        print(f"{PAGE}:{number}: {fault}")
    failed = [] if check.faults else tried(page, ruled)
    for story in failed:
        print(f"the check does not see {story}")
    print(f"{check.names} names checked, {len(check.faults) + len(failed)} wrong")
    return 1 if check.faults or failed else 0


if __name__ == "__main__":
    sys.exit(main())
