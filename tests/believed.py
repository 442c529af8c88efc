#!/usr/bin/env python3
"""Counts what a reader has to believe: the definitions on which the contract of a function stands, with all that these stand on.

usage: tests/believed.py [--list] [FILE WORD | FILE fn NAME]..

With no words it tells this of the clauses of `cell_main`, and of `Legal` alone. FILE is a file of definitions (.antt) and WORD a
definition in it, or FILE is a file of code (.rt) and NAME a function whose clauses are meant. With --list it prints each definition.

Lines that aren't empty are counted, comments with the definition that they stand over. A type that code declares counts with its
lines, and a trait with its clauses. Words of the proved standard library are not counted. It goes by the names of imports, so a
definition that is named is counted although a clause may only need a part of it.
"""
import functools
import pathlib
import re
import sys

TOP = pathlib.Path(__file__).resolve().parent.parent
CRATES = TOP / "crates"
IMPORT = re.compile(r"^\s*(?:pub |ghost )*use Rattle\.(\w+)\.specs\.([\w.]+?)(?:\.\{([^}]*)\}|\.(\w+)(?: as (\w+))?|(?: as (\w+))?);?$")
HEAD = re.compile(r"^(?:abbrev |unfoldable |opaque )*(?:pub )?(?:(?:record|data) )?([^\s:(]+(?:\.[^\s:(]+)?)(?= |:|$)")
WORDS = re.compile(r"[^\s()\[\]{},;λ]+")


class Block:
    """A definition or a declared type: where it stands, its text, and how many lines it has with its comment."""

    def __init__(self, file, name, lines, comment):
        self.file, self.name, self.lines = file, name, lines
        self.count = sum(1 for line in [*comment, *lines] if line.strip())


def is_head(line):
    return bool(re.match(r"(abbrev|unfoldable|opaque|pub|data|record) ", line))


@functools.lru_cache(maxsize=None)
def definitions(file):
    """Returns the definitions of a file by their names, in the order in which they stand there."""
    found, comment, current = {}, [], None
    for line in file.read_text(encoding="utf-8").splitlines():
        if line.startswith("--"):
            comment.append(line)
            current = None
        elif not line.strip() or re.match(r"(pub )?(use|mod) |infix|syntax ", line):
            comment, current = [], None
        elif is_head(line):
            current = Block(file, HEAD.match(line)[1], [line], comment)
            found.setdefault(current.name, []).append(current)
            comment = []
        elif current:
            current.lines.append(line)
            current.count += 1
    return found


@functools.lru_cache(maxsize=None)
def imports(file):
    """Returns what a file's imports name: each word with the file and the word there, and each name of a module with its file."""
    words, modules = {}, {}
    for line in file.read_text(encoding="utf-8").splitlines():
        met = IMPORT.match(line)
        if not met or not (CRATES / met[1]).is_dir():
            continue
        crate, path, names, last, short, other = met.groups()
        if names is not None:
            for name in (it.strip() for it in names.split(",") if it.strip()):
                word, _, local = name.partition(" as ")
                words[local or word] = (crate, path, word)
        else:
            whole = f"{path}.{last}" if last else path
            modules[short or other or whole.rsplit(".", 1)[-1]] = (crate, whole)
    return words, modules


def spec_file(crate, path):
    return CRATES / crate / "specs" / (path.replace(".", "/") + ".antt")


@functools.lru_cache(maxsize=None)
def declared(crate, path):
    """Returns the type that code declares: path is declared.MODULE.TYPE, with .TheVariants where its variants are meant."""
    parts = path.split(".")[1:]
    if parts[-1] == "TheVariants":
        parts.pop()
    name = parts[-1]
    module = CRATES / crate / "src" / ("/".join(parts[:-1]) + ".rt")
    for file in [module] if module.is_file() else sorted((CRATES / crate / "src").rglob("*.rt")):
        lines = file.read_text(encoding="utf-8").splitlines()
        for at, line in enumerate(lines):
            if re.match(rf"\s*pub (?:struct|enum|type|trait) {name}\b", line):
                end = at
                if not line.rstrip().endswith((";", "}")):
                    depth = re.match(r"\s*", line)[0]
                    while end < len(lines) - 1 and lines[end].rstrip() not in (depth + "}", depth + "};"):
                        end += 1
                first = at
                while first and lines[first - 1].strip().startswith(("///", "#[")):
                    first -= 1
                return Block(file, name, lines[at : end + 1], lines[first:at])
    return None


def trait(name, file):
    """Returns the trait of this name, where the file of code imports it."""
    items = rf"(?:{name}|\{{[^}}]*\b{name}\b[^}}]*\}})"
    met = re.search(rf"^use ((?:afs|spec)_\w+)::(?:[\w:]+::)?{items};", file.read_text(encoding="utf-8"), re.M)
    return declared(met[1], f"declared.{name}") if met else None


def operators(known, text):
    """Returns the operators among the known words whose parts stand in the text."""
    return [it for it in known if "◌" in it and all(part in text for part in it.split("◌") if part)]


def named(text, file):
    """Yields the definitions and declared types that a text of this file names."""
    words, modules = imports(file)
    own = definitions(file) if file.suffix == ".antt" else {}
    said = set(WORDS.findall(text))
    for word in {*said, *(it.partition(".")[0] for it in said), *operators([*own, *words], text)}:
        yield from own.get(word, [])
        if word in words:
            yield from at(*words[word])
    for word in said:
        prefix, _, rest = word.partition(".")
        if prefix in modules and rest:
            yield from at(*modules[prefix], rest.split(".")[0])


def at(crate, path, word):
    """Yields what an import names: a definition, or a type that code declares."""
    if path.startswith("declared"):
        block = declared(crate, path if path.count(".") > 1 else f"{path}.{word}")
        return [block] if block else []
    file = spec_file(crate, path)
    if not file.is_file():
        sys.exit(f"believed: there is no {file}")
    return definitions(file).get(word, [])


def without_comments(lines):
    return "\n".join(re.sub(r"\s--.*|^--.*|\s*///.*", "", line) for line in lines)


def believed(start):
    """Returns the blocks that these stand on, themselves among them, each once."""
    seen, left = {}, list(start)
    while left:
        block = left.pop()
        key = (block.file, block.name, block.lines[0])
        if key in seen:
            continue
        seen[key] = block
        left += named(without_comments(block.lines), block.file)
    return list(seen.values())


def clauses(file, name):
    """Returns what the clauses of a function name, and the traits of its type parameters."""
    lines = file.read_text(encoding="utf-8").splitlines()
    first = next(i for i, line in enumerate(lines) if re.match(rf"\s*pub fn {name}\b", line))
    last = next(i for i in range(first, len(lines)) if lines[i].rstrip() == re.match(r"\s*", lines[first])[0] + "{")
    text = without_comments(lines[first:last])
    traits = [it for it in re.findall(r"[A-Z]\w+: ([A-Z]\w+)", text)] + ["Disk"] * ("Bank" in text)
    found = [it for it in (trait(one, file) for one in traits) if it]
    bank = [it.file for it in found if it.name == "Bank"]
    found += [it for it in (declared(bank[0].relative_to(CRATES).parts[0], "declared.Disk") if bank else None,) if it]
    return [*named(text, file), *found]


def tell(title, blocks, listing):
    files = {it.file for it in blocks}
    print(f"{title}: {len(blocks):,} definitions, {sum(it.count for it in blocks):,} lines, in {len(files)} files")
    if listing:
        for block in sorted(blocks, key=lambda it: (str(it.file), it.name)):
            print(f"  {block.file.relative_to(TOP)} {block.name} {block.count}")


def main(words):
    listing = "--list" in words
    words = [it for it in words if it != "--list"]
    if not words:
        tell("the clauses of cell_main", believed(clauses(CRATES / "afs_top/src/cell.rt", "cell_main")), listing)
        tell("Legal", believed(definitions(CRATES / "law_legal/specs/Legal.antt")["Legal"]), listing)
        return
    while words:
        file = (TOP / words.pop(0)).resolve()
        word = words.pop(0)
        start = clauses(file, word := words.pop(0)) if word == "fn" else definitions(file)[word]
        tell(word, believed(start), listing)


main(sys.argv[1:])
