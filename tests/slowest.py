#!/usr/bin/env python3
"""Prints what takes longest to prove: for crates that were proved in this clone by `rt lib` or `rt check`, the seconds of each function.

usage: tests/slowest.py [--most N] [CRATE..]

A check keeps what it proved in `crates/CRATE/out/incremental`, a file for each module, and writes it as soon as it is through with that
module. So a module took as long as it stood behind the file before. That is exact where one process checked a crate alone (one job),
from nothing. With more jobs the times of two functions can be told of each other, and each sum comes out too small. A gap of more than
a minute is left out, since it tells of two runs.

For each crate stands the sum, and behind it what the parts took: `Lts` is the compiled form, `Proof` its goals, `Tie` what joins both;
the rest are definitions, lemmas and contracts. Then come the functions, the slowest first, thirty unless --most says otherwise.
"""
import collections
import pathlib
import re
import sys

TOP = pathlib.Path(__file__).resolve().parent.parent
PARTS = {"Lts", "Tie", "Proof", "Kinds", "Code", "Answers", "Goals", "Key", "Invariants", "Layout", "Reads", "Named", "Carried", "Statement", "Met", "Symbol", "TheLink"}
LONGEST_GAP = 60


def modules(crate):
    """Returns each module of the crate with its seconds."""
    folder = TOP / "crates" / crate / "out" / "incremental"
    found = sorted((it.stat().st_mtime, it.name.removesuffix(".oantt")) for it in folder.rglob("*.oantt") if it.parent.name != "records")
    return [(name, time - before) for (before, _), (time, name) in zip(found, found[1:]) if time - before <= LONGEST_GAP]


def function_of(module):
    """Returns the function that a module of proofs belongs to and its part, or the module itself and none."""
    names = module.split(".")
    part = next((at for at, it in enumerate(names) if re.sub(r"-[\d-]+$", "", it) in PARTS), None)
    if names[0].endswith("-proofs") and part is not None:
        return ".".join(names[1:part]), re.sub(r"-[\d-]+$", "", names[part])
    return ".".join(names[1:2]), ""


def main(words):
    most = 30
    if words[:1] == ["--most"]:
        most, words = int(words[1]), words[2:]
    crates = words or sorted(it.name for it in (TOP / "crates").iterdir() if (it / "out" / "incremental").is_dir())
    slowest = collections.Counter()
    for crate in crates:
        parts = collections.Counter()
        for module, seconds in modules(crate):
            function, part = function_of(module)
            parts[part if part in ("Lts", "Proof", "Tie") else "rest"] += seconds
            if part:
                slowest[f"{crate} {function}"] += seconds
        print(f"{crate}: {sum(parts.values()):.0f} s ({', '.join(f'{part} {seconds:.0f}' for part, seconds in parts.most_common())})")
    for function, seconds in slowest.most_common(most):
        print(f"{seconds:7.1f} s  {function}")


if __name__ == "__main__":
    main(sys.argv[1:])
