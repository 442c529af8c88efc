"""Tries wrong programs: tests/wrong_programs.sh tells what it does and how it judges."""

import collections
import concurrent.futures
import dataclasses
import functools
import glob
import os
import re
import shutil
import signal
import subprocess
import sys
import tempfile
import threading
import time

import edits

FOLDER = f"{edits.ROOT}/tests/wrong_programs"
PARTS = ("src", "specs", "proofs")
IN_A_TURN = 12

# A line of the prover on a place of the crate.
PLACE = re.compile(r"(?:note: )?(?:\./)?((?:src|specs|proofs)/\S+?):\d+:\d+: (.*)")
# Its last words on a function.
FUNCTION = re.compile(r"fn (\S+): (proved|not proved|no proof|could not tell)(?:: (.*))?")
# Where a name of the crate is gone, a text was not read, so no contract was tried.
UNREADABLE = re.compile(r"is not in scope|has no field|is no name|operand is missing|expected the end|cannot continue")


class Stop(Exception):
    """What keeps all edits from being tried."""


@dataclasses.dataclass
class Said:
    """What the prover said of a crate with an edit: the goals that it left open, and the files of proofs that it complained of."""

    status: int
    text: str
    functions: dict
    goals: list
    files: dict


@functools.lru_cache(maxsize=None)
def kit():
    told = subprocess.run(["rt", "doc"], stdout=subprocess.PIPE, text=True, check=True)
    return os.path.dirname(told.stdout.strip())


@functools.lru_cache(maxsize=None)
def named_below():
    """The libraries that crates.txt names for each crate."""
    found = {}
    with open(f"{edits.ROOT}/crates.txt", encoding="utf-8") as lines:
        for line in lines:
            name, colon, libraries = line.partition("#")[0].partition(":")
            if colon:
                found[name.split()[0]] = libraries.split()
    return found


def ours_below(crate):
    """The repository's libraries that a crate stands on."""
    found = []
    for name in named_below()[crate]:
        if name in named_below():
            found += [it for it in (*ours_below(name), name) if it not in found]
    return found


def rlib(crate):
    return f"{edits.ROOT}/crates/{crate}/out/rlib/{crate}.rlib"


@functools.lru_cache(maxsize=None)
def lacks(crate):
    """Why a library can't be used, if it can't. The time of its folder is that at which it was laid there."""
    if not os.path.isfile(f"{rlib(crate)}/format"):
        return f"the library {crate} is not built: run rt lib in crates/{crate}, or rt ci"
    built = os.stat(rlib(crate)).st_ctime
    for part in PARTS:
        for at, _, names in os.walk(f"{edits.ROOT}/crates/{crate}/{part}"):
            for name in names:
                if os.stat(f"{at}/{name}").st_mtime > built:
                    return f"the library {crate} is older than {os.path.relpath(f'{at}/{name}', edits.ROOT)}: run rt lib in crates/{crate}, or rt ci"
    return None


def head(crate):
    """The file with which a crate begins: a program's is another than a library's."""
    return "src/main.rt" if os.path.isfile(f"{edits.ROOT}/crates/{crate}/src/main.rt") else "src/lib.rt"


def command(crate, functions, kept):
    """The kit's prover on some functions of the crate in the current folder, as rt check calls it."""
    words = [f"{kit()}/bin/rattle", "check", "--crate-name", crate, head(crate), "--extern", f"std={kit()}/rlibs/std.rlib"]
    words += ["-L", f"dependency={kit()}/rlibs"]
    for name in named_below()[crate]:
        words += ["--extern", f"{name}={rlib(name) if name in named_below() else f'{kit()}/rlibs/{name}.rlib'}"]
    for name in ours_below(crate):
        words += ["-L", f"dependency={os.path.dirname(rlib(name))}"]
    words += ["--antt-project", f"{kit()}/rattle/logic/antt-project.json", "--logic-built", f"{kit()}/logic_built", "--jobs", "1"]
    for name in functions:
        words += ["--only", name]
    return [*words, "--incremental", kept]


def goals_in(text):
    """The goals that a complaint names: each stands in brackets, or the complaint begins with it."""
    return re.findall(r"\(`([^`]+)`\)", text) or re.findall(r"\A(?:error: |warning: )?`([^`]+)`", text)


def check(crate, room, functions, kept):
    how = {"cwd": room, "stdin": subprocess.DEVNULL, "stdout": subprocess.PIPE, "stderr": subprocess.STDOUT}
    for _ in range(2):
        ran = subprocess.run(command(crate, functions, kept), **how, text=True, errors="replace")
        if ran.returncode != -signal.SIGKILL:
            break
        # It was killed, most likely for memory: once more.
    said = Said(ran.returncode, ran.stdout, {}, [], {})
    for line in ran.stdout.splitlines():
        place, function = PLACE.match(line), FUNCTION.match(line)
        if function:
            said.functions[function[1].partition("::")[2]] = function[2], function[3] or ""
        elif place and place[1].startswith("proofs/"):
            said.files.setdefault(place[1], []).extend(goals_in(place[2]))
        elif place and "is not proved that" in place[2]:
            said.goals += goals_in(place[2])
    return said


def clause(goal):
    """What a goal is about: the clause that a function ensures, or else the goal's whole name."""
    if not goal.startswith("returns"):
        return goal
    return re.sub(r"-\d+\Z", "", goal.rpartition("clause-")[2]) if "clause-" in goal else "returns"


def of_contract(goals):
    """The clauses of the function and of its types that these goals are about: not what a loop keeps, or an overflow."""
    return sorted({clause(it) for it in goals if it.startswith(("returns", "invariant_of"))})


class Edit:
    def __init__(self, path):
        self.path = path
        self.crate = os.path.basename(os.path.dirname(path))
        self.name = f"{self.crate}/{os.path.splitext(os.path.basename(path))[0]}"
        self.functions = edits.values(path, "refused")
        self.clauses = edits.values(path, "clause")

    def unlike(self, said):
        """Why what the prover said is no refusal of the functions that the edit names, if it is none."""
        last = said.text.strip().splitlines()[-1:]
        if "error[" in said.text:
            return "it is no program: " + next(it for it in said.text.splitlines() if "error[" in it)[:160]
        for line in said.text.splitlines():
            place = PLACE.match(line)
            if place and place[1].startswith(("src/", "specs/")) and UNREADABLE.search(re.sub(r"`[^`]*`", "", place[2])):
                return f"the prover cannot read it: {line[:160]}"
        for name in self.functions:
            verdict, why = said.functions.get(name, ("", ""))
            if verdict == "proved":
                return f"{name} is ACCEPTED"
            if verdict == "could not tell":
                return f"the prover gives no verdict on {name}"
            if why.startswith("it calls "):
                return f"it is refused in another function alone: {why}"
            if not verdict:
                return f"nothing was said of {name}: {last[0][:160] if last else 'no line'}"
        return None

    def is_refused(self, goals):
        """Whether the clauses that the edit tells are among these goals, or any of the contract, where it tells none."""
        found = {clause(it) for it in goals}
        return found.issuperset(self.clauses) if self.clauses else bool(of_contract(goals))

    def judge(self, room, kept):
        """Whether the contract refuses the edit, and what to say of it."""
        said, without = check(self.crate, room, self.functions, kept), ""
        why = self.unlike(said)
        by_hand = [it for it in said.files if os.path.basename(it) in ("Answers.antt", "Proof.antt")]
        if not why and by_hand and not self.is_refused(said.goals):
            # A proof by hand may only name what the edit took away: without it the clause has to stay open.
            for file in by_hand:
                os.remove(f"{room}/{file}")
            said, without = check(self.crate, room, self.functions, kept), " without the answers by hand"
            why = self.unlike(said)
        if why:
            return False, f"{why}{without}"
        where, found = " and ".join(self.functions), {clause(it) for it in said.goals}
        if not self.is_refused(said.goals):
            wanted = ", ".join(self.clauses) or "a clause of its contract"
            return False, f"{where} is refused by {', '.join(sorted(found)) or 'no goal'}{without}, and not by {wanted}"
        if without and self.is_open_in_the_right_program(room, kept, said.goals):
            return False, f"{where} is refused{without} as the right program is without them, which says nothing of the contract"
        refusing = self.clauses or of_contract(said.goals)
        others = len(found.difference(refusing))
        return True, f"{where} is refused by {', '.join(refusing)}{f' and {others} more' if others else ''}{without}"

    def is_open_in_the_right_program(self, room, kept, goals):
        """Whether what stays open with the edit does so in the right program too, without the proofs by hand that are gone here."""
        for file in {it.file for it in edits.pairs_of(self.path)}:
            shutil.copyfile(f"{edits.ROOT}/crates/{self.crate}/{file}", f"{room}/{file}")
        right = {clause(it) for it in check(self.crate, room, self.functions, kept).goals}
        return right.issuperset(self.clauses or of_contract(goals))

    def attempt(self, kept):
        """Tries the edit in a copy of the crate."""
        if not self.functions:
            return False, "it has no line 'refused: FUNCTION'"
        crate = f"{edits.ROOT}/crates/{self.crate}"
        with tempfile.TemporaryDirectory(dir=os.path.dirname(kept)) as room:
            for part in PARTS:
                if os.path.isdir(f"{crate}/{part}"):
                    shutil.copytree(f"{crate}/{part}", f"{room}/{part}")
            try:
                texts = edits.changed(self.path, crate)
            except edits.Misfit as misfit:
                return False, str(misfit)
            for file, text in texts.items():
                with open(f"{room}/{file}", "w", encoding="utf-8") as out:
                    out.write(text)
            return self.judge(room, kept)


def every_edit():
    return [Edit(it) for it in sorted(glob.glob(f"{FOLDER}/*/*.edit"))]


def in_turn(number):
    """Twelve of the edits that tell their clause, others for the next number: the first of each crate, then the second, and so on."""
    settled, found = [it for it in every_edit() if it.clauses], collections.Counter()
    ranks = {}
    for it in settled:
        ranks[it.name] = found[it.crate]
        found[it.crate] += 1
    settled.sort(key=lambda it: ranks[it.name])
    first = number * IN_A_TURN % max(1, len(settled))
    return (settled[first:] + settled[:first])[:IN_A_TURN]


def chosen(words):
    """The edits of a turn, of these crates or of these names, or all."""
    if words[:1] == ["--turn"] and len(words) == 2:
        return in_turn(int(words[1]))
    every = every_edit()
    for word in words:
        if not any(word in (it.crate, it.name) for it in every):
            raise Stop(f"there are no wrong programs {word}")
    return [it for it in every if not words or it.crate in words or it.name in words]


def stop_on_lacking(tried):
    """Stops where a library below is not there, since nothing is proved here but the functions that were changed."""
    below = sorted({name for crate in {it.crate for it in tried} for name in ours_below(crate)})
    found = [it for it in map(lacks, below) if it]
    if found:
        raise Stop("\n".join(found))


def try_all(tried):
    """Tries the edits, two at a time where there are four processors, and returns how many were refused."""
    refused, printing, own = [], threading.Lock(), threading.local()
    lanes = 2 if len(os.sched_getaffinity(0)) >= 4 else 1
    with tempfile.TemporaryDirectory(prefix="wrong-programs-") as work:

        def kept(crate):
            """A folder for what is proved of the functions that the changed ones call, while a lane tries edits of one crate."""
            if getattr(own, "crate", None) != crate:
                shutil.rmtree(getattr(own, "kept", work + "/none"), ignore_errors=True)
                own.crate, own.kept = crate, tempfile.mkdtemp(dir=work)
            return own.kept

        def one(edit):
            began = time.time()
            is_refused, text = edit.attempt(kept(edit.crate))
            with printing:
                refused.append(is_refused)
                print(f"{'ok' if is_refused else 'failed'}: {edit.name}: {text} ({time.time() - began:.0f} s)", flush=True)

        with concurrent.futures.ThreadPoolExecutor(lanes) as pool:
            begun = [pool.submit(one, edit) for edit in tried]
            try:
                for it in begun:
                    it.result()
            finally:
                for it in begun:
                    it.cancel()
    return sum(refused)


def main(words):
    signal.signal(signal.SIGTERM, lambda *_: sys.exit(143))
    try:
        tried = chosen(words)
        stop_on_lacking(tried)
    except Stop as why:
        print(why)
        return 2
    refused = try_all(tried)
    print(f"{refused} of {len(tried)} wrong programs were refused")
    return 0 if tried and refused == len(tried) else 1


if __name__ == "__main__":
    sys.exit(main(sys.argv[1:]))
