"""Cuts acts of administrators short at each place, lets another administrator recover, and looks at what is left.

tests/cuts.sh says what is done; docs/cuts.md has the table.
"""

import argparse
import concurrent.futures
import os
import subprocess
import sys

import judge

SERVERS = ["s1", "s2", "s3"]
DISKS = ["loc", *SERVERS]
# that every client asks first for a read-only copy
FIRST_SITE = "s2"
# How many device calls a stop lets pass, and its pick. A record is four: it is written, synced, then its gate is written and synced.
# What a stop leaves of what isn't synced matters behind a write alone.
STOPS = [(0, 0), (1, 0), (1, 1), (1, 2), (1, 3), (2, 0), (3, 0), (3, 1), (3, 2), (3, 3)]
FAILS = [1, 2, 3, 4]

HEAD = ["cell 1", "servers 3", "clients 3", "admins 3", "volume proj s1 1000", "file proj/a hex:61", "file proj/b hex:62"]
COPIES = ["do a1 addsite proj s2", "do a1 addsite proj s3", "do a1 release proj", "do a1 backup proj"]
MOVES = ["do a3 move proj s2", "do a1 recover proj"]


def closes(volume, names="ab"):
    """Stores of client c1, into files of these names by turns, each of other bytes."""
    return [f"do c1 close {volume}/{names[number % len(names)]} hex:{0x30 + number:02x}" for number in range(12)]


def opens(*files):
    """Client c2 reads files of proj and of its copies."""
    return [f"do c2 open proj{file}" for file in files]


def plays(node, count=1):
    """So many acts of a node, one after the other, each to its end."""
    return [f"act {node}", "drain"] * count


def give(count):
    """So many messages are given, the lowest places first."""
    return ["give"] * count


def beside(*steps):
    """The act goes on by so many messages, then a client begins an act of its own; and so on. At last all messages are given."""
    return ["act a1", *(event for step in steps for event in (give(step) if isinstance(step, int) else [f"act {step}"])), "drain"]


# What client c2 reads: the volume; a file of each copy before the act; beside it the file that it hasn't; both, beside and afterwards.
FILES = opens("/a", "/b")
COPIES_READ = opens(".readonly/a", ".backup/a", ".readonly/b", ".backup/b", *[".readonly/a", ".readonly/b"] * 4)
RELEASES_READ = opens(".readonly/a", ".readonly/a", ".readonly/b", *[".readonly/a", ".readonly/b"] * 4)

# Client c2 holds promises on what c1 stores, which has begun to do so, and on the copies.
BEFORE = [*plays("c1"), *plays("a1", 4), *plays("c1"), *plays("c2", 4)]

# Each act: its volume, its tasks, what goes before it, and the act with what clients do meanwhile.
ACTS = {
    "move": ("proj", [*closes("proj"), *COPIES_READ, *COPIES, "do a1 move proj s2"], BEFORE,
             beside(8, "c2", 7, "c1", 16, "c2", 14, "c1", 22, "c2", 8, "c1")),
    "move back": ("proj", [*closes("proj"), *RELEASES_READ, *COPIES[:2], "do a1 move proj s2", "do a1 release proj", "do a1 move proj s1"], BEFORE,
                  beside(8, "c2", 6, "c1", 16, "c2", 8, "c1", 18, "c2", 22, "c1")),
    "release": ("proj", [*closes("proj"), *RELEASES_READ, *COPIES[:2], "do a1 addsite proj s1", *["do a1 release proj"] * 2], BEFORE,
                beside(5, "c2", 6, "c1", 24, "c2", 8, "c1", 22, "c2", 10, "c1")),
    "first release": ("proj", [*closes("proj"), *RELEASES_READ, *COPIES[:2], "do a1 release proj"], [*plays("c1"), *plays("a1", 2), *plays("c2", 2)],
                      beside(9, "c1", 22, "c2", 6, "c1", 29, "c2")),
    "create": ("more", ["do c1 make more/g", *closes("more", "g"), "do a1 create more s2 1000", "do c3 make more/a"], plays("c2", 2),
               beside(12, "c1", 6, "c1", 4, "c1")),
    "restore": ("copy", [*closes("proj")[:1], *closes("copy"), "do a1 dump proj week 0", "do a1 restore copy s2 week"],
                [*plays("c1"), *plays("a1"), *plays("c2", 2)], beside(14, "c1", 6, "c1", 4, "c1")),
    "remove": ("proj", [*closes("proj"), *COPIES_READ, *COPIES, "do a1 remove proj"], BEFORE, beside(5, "c2", 6, "c1", 8, "c2", 6, "c1", 10, "c2", 4, "c1")),
    "recover, not decided": ("proj", [*closes("proj"), *COPIES_READ, *COPIES, *MOVES], [*BEFORE, "act a3", *give(41), "crash a3", "drain"],
                             beside(9, "c1", 10, "c2", 12, "c1", 6, "c2", 16, "c1")),
    "recover, decided": ("proj", [*closes("proj"), *COPIES_READ, *COPIES, *MOVES], [*BEFORE, "act a3", *give(44), "crash a3", "drain"],
                         beside(9, "c1", 10, "c2", 12, "c1", 6, "c2", 8, "c1")),
    "backup": ("proj", [*closes("proj"), *COPIES_READ, *COPIES, "do a1 backup proj"], BEFORE, beside(5, "c2", 8, "c1", 6, "c2", 4, "c1")),
}


# ---- plays of scripts


class Play:
    """A text, as far as cuts are made of it: the entries' nodes and lines, and of each message sender, receiver and half."""

    def __init__(self, text):
        self.entries = []
        self.sent = {}
        for line in text[:text.index("final\n")].split("\n")[:-1]:
            words = line.split(" ")
            if words[0] == "entry":
                self.entries.append((words[2], []))
            else:
                self.entries[-1][1].append(line)
            if words[0] == "sent":
                self.sent[int(words[1])] = tuple(words[2:5])

    def given(self, first):
        """The places that were given, from this entry on."""
        return [int(line.split(" ")[1]) for _, lines in self.entries[first:] for line in lines if line.startswith("given ")]


class Program:
    """A command that plays scripts."""

    def __init__(self, command):
        self.command = command.split(" ")

    def text(self, script):
        run = subprocess.run([*self.command, "replay", "--wire"], input=script.encode(), capture_output=True, check=False)
        if run.returncode:
            sys.exit(f"{self.command[-1]} ends with status {run.returncode}, {run.stderr.decode()[:200]}, at the script\n{script}")
        return run.stdout.decode("latin-1")

    def play(self, script):
        return Play(self.text(script))


# ---- an act whole, event by event


class Whole:
    """An act that is played whole. Its part of the events gives each message by name."""

    def __init__(self, program, volume, tasks, before, part):
        self.program = program
        self.has_copies = any(" addsite " in task for task in tasks)
        ends = [f"do c3 close {volume}/a hex:7a", *(f"do c3 open {volume}{kind}/a" for kind in ("", ".readonly", ".backup"))]
        self.head = [*HEAD, *FILES, *tasks, *[f"do a2 recover {volume}"] * 3, *ends]
        self.before = self.spelled([], before)
        self.part = self.spelled(self.before, part, True)
        self.play = program.play(self.script(self.before + self.part))
        self.first = len(self.play.entries) - len(self.part)
        self.under_way = self.follow()

    def script(self, events):
        return "\n".join([*self.head, "schedule", *events, "end"]) + "\n"

    def spelled(self, done, part, by_name=False):
        """The events of a part behind others, with each `give`, and each drain where messages are given by name, as deliveries."""
        events = []
        for event in part:
            if event == "give" or (event == "drain" and by_name):
                first = len(self.program.play(self.script(done + events)).entries)
                places = self.program.play(self.script([*done, *events, "drain"])).given(first)
                events += [f"deliver {place}" for place in (places[:1] if event == "give" else places)]
            else:
                events.append(event)
        return events

    def follow(self):
        """Behind each event of the part: how many messages were sent so far, and which of them were not given."""
        states = []
        sent, waiting = 0, set()
        for _, lines in self.play.entries:
            for line in lines:
                words = line.split(" ")
                if words[0] == "sent":
                    sent = int(words[1])
                    waiting.add(sent)
                elif words[0] == "given":
                    waiting.discard(int(words[1]))
            states.append((sent, sorted(waiting)))
        return states[self.first - 1:]


# ---- cells


class Cell:
    """A script with one cut: its kind, behind which event of the act, where more than one such cut is there its note, the events, and
    what the text has to show of it: how lines begin and end, in this order."""

    def __init__(self, kind, at, note, events, shows):
        self.kind = kind
        self.at = at
        self.note = note
        self.events = events
        self.shows = shows

    def is_shown(self, text):
        lines = iter(text.split("\n"))
        return all(any(line.startswith(start) and line.endswith(end) for line in lines) for start, end in self.shows)


def timeouts(node, *callees):
    return [f"timeout {node} {callee}" for callee in callees]


def goes_on(node):
    """A node is there again, and whoever may wait for it asks again."""
    callers = ["c1", "c2", *(server for server in SERVERS if node not in ("loc", server))]
    return [f"restart {node}", "drain", *(f"timeout {caller} {node}" for caller in callers), "drain"]


def ending(late=None):
    """A store; a recovery, and the late message where there is one; a store and reads of copies; a recovery that finds nothing to do;
    another client."""
    again = [f"deliver {late}", "drain", *plays("a2")] if late else []
    return ["drain", *plays("c1"), *plays("a2"), *again, *plays("c1"), *plays("c2", 2), *plays("a2"), *plays("c3", 5)]


class Cuts:
    """All cells of an act."""

    def __init__(self, whole):
        self.whole = whole

    def cells(self):
        for at in range(1, len(self.whole.part) + 1):
            yield from self.behind(at)
            yield from self.inside(at)

    def start(self, at, named=()):
        """So many events of the act. A place that is named before it is sent is lost: no drain gives it."""
        return [*self.whole.before, *(f"deliver {place}" for place in named), *self.whole.part[:at]]

    def waiting(self, at):
        """The act's messages under way behind so many events: place, whether it is a call, caller and callee."""
        for place in self.whole.under_way[at][1]:
            sender, receiver, half = self.whole.play.sent[place]
            if "a1" in (sender, receiver) or {sender, receiver} <= set(SERVERS):
                yield (place, True, sender, receiver) if half == "call" else (place, False, receiver, sender)

    def behind(self, at):
        """The act is cut behind so many events."""
        waiting = list(self.waiting(at))
        calls = [place for place, is_call, caller, _ in waiting if is_call and caller == "a1"]
        yield Cell("administrator gone", at, "", [*self.start(at, calls), "crash a1", *ending()], [("crash a1", "")])
        if self.whole.has_copies:
            yield self.first_site_down(at, calls)
        if waiting:
            yield from self.overtaken(at, [place for place, *_ in waiting])
        for place, is_call, caller, callee in waiting:
            yield from self.lost(at, place, caller, callee)
            if is_call and callee in DISKS:
                yield from self.late(at, place)
            if is_call and callee in DISKS and callee != caller:
                yield self.down(at, caller, callee)

    def first_site_down(self, at, calls):
        """The administrator is gone. Client c2 reads a copy; its first site goes down, promises end, and c2 reads once more."""
        reads = ["drain", *plays("c2"), f"crash {FIRST_SITE} 0", "tick 7200", *plays("c2")]
        reads += [event for _ in range(3) for event in (*timeouts("c2", FIRST_SITE), "drain")]
        shows = [("crash a1", ""), ("begin c2 open", ""), (f"crash {FIRST_SITE}", ""), ("tick", ""), (f"restart {FIRST_SITE}", "")]
        events = [*self.start(at, calls), "crash a1", *reads, *goes_on(FIRST_SITE), *ending()]
        return Cell("gone, first site down", at, "", events, shows)

    def lost(self, at, place, caller, callee):
        """A message is lost, and sent again; or all of them are lost, until the call is given up."""
        more = [self.whole.under_way[at][0] + 1, self.whole.under_way[at][0] + 2]
        once = [*self.start(at, [place]), *timeouts(caller, callee), *ending()]
        given_up = [*self.start(at, [place, *more]), *timeouts(caller, callee) * 3, *ending()]
        yield Cell("message lost", at, place, once, [(f"timeout {caller} {callee} ", " 1")])
        yield Cell("call given up", at, place, given_up, [(f"timeout {caller} {callee} ", " 3")])

    def overtaken(self, at, places):
        """The administrator goes on, beside another one's recovery, or when that is over."""
        beside = [*self.start(at), *plays("a2"), *ending()]
        yield Cell("beside a recovery", at, "", beside, [("begin a2 ", ""), ("given ", f" {places[0]}"), ("answer a2 ", "")])
        over = [*self.start(at, places), "drain", *plays("a2"), *(f"deliver {place}" for place in places), *ending()]
        yield Cell("overtaken", at, "", over, [("begin a2 ", ""), ("answer a2 ", ""), ("given ", f" {places[0]}")])

    def late(self, at, place):
        """The administrator is gone, and its call comes after the recovery; or in it, before the recovery locks the entry, or when the
        entry is locked and no server has the recovery's stamp."""
        gone = [*self.start(at, [place]), "crash a1"]
        shows = [("crash a1", ""), ("answer a2 ", ""), (f"given {place}", f"given {place}")]
        yield Cell("gone, a call late", at, place, [*gone, *ending(place)], shows)
        begun = [*gone, "drain", *plays("c1"), "act a2"]
        sent = len(self.whole.program.play(self.whole.script(begun)).sent)
        shows = [("crash a1", ""), ("begin a2", ""), (f"given {place}", f"given {place}"), ("answer a2 ", "")]
        for kind, count in (("gone, a call before the lock", 1), ("gone, a call in the recovery", 3)):
            steps = [f"deliver {sent + more}" for more in range(count)]
            yield Cell(kind, at, place, [*begun, *steps, f"deliver {place}", *ending()], shows)

    def down(self, at, caller, callee):
        """The node that a call goes to is down, until whoever waits for it has given up, and so has the recovery that follows."""
        waits = ["drain", *(event for _ in range(3) for event in (*timeouts(caller, callee), "drain"))]
        waits += [event for _ in range(3) for event in (*timeouts("a1", callee), "drain")]
        waits += ["act c2", "drain", *(event for _ in range(3) for event in (*timeouts("c2", callee), "drain"))]
        shows = [(f"crash {callee}", ""), (f"timeout {caller} {callee} ", " 3"), (f"restart {callee}", "")]
        return Cell("node down", at, callee, [*self.start(at), f"crash {callee} 0", *waits, *goes_on(callee), *ending()], shows)

    def inside(self, at):
        """The last of so many events is a step of a node whose disk stops it or fails in the middle."""
        node = self.whole.play.entries[self.whole.first + at - 1][0]
        if node not in DISKS or not self.writes(at, node):
            return
        event = self.whole.part[at - 1]
        for calls, pick in STOPS:
            stopped = [*self.start(at - 1), f"stop {node} {calls} {pick}", event]
            note = f"{node} {calls} {pick}"
            shows = [(f"stop {node}", ""), (f"crash {node}", ""), (f"restart {node}", "")]
            yield Cell("stopped, and gone", at, note, [*stopped, "crash a1", *goes_on(node), *ending()], shows)
            yield Cell("stopped", at, note, [*stopped, *goes_on(node), *timeouts("a1", node), *ending()], shows)
        for call in FAILS:
            failed = [*self.start(at - 1), f"fail {node} {call}", event]
            shows = [(f"fail {node}", ""), (f"fault {node}", ""), (f"restart {node}", "")]
            yield Cell("disk failed", at, f"{node} {call}", [*failed, *goes_on(node), *timeouts("a1", node), *ending()], shows)

    def writes(self, at, node):
        """Whether the step makes a device call: a stop before the first one ends it then."""
        play = self.whole.program.play(self.whole.script([*self.start(at - 1), f"stop {node} 0 0", self.whole.part[at - 1]]))
        return f"crash {node}" in play.entries[-1][1]


# ---- what comes of them


def left_alone(program):
    """What a move leaves that nobody disturbs and nobody recovers: how many cuts there are, and how many copies accept stores then."""
    whole = Whole(program, "proj", ["do a1 move proj s2"], [], ["act a1", "drain"])
    counts = {}
    for at in range(1, len(whole.part) + 1):
        text = program.text(whole.script([*whole.part[:at], "crash a1"]))
        copies = judge.copies_of([line.split(" ") for line in text[text.index("final\n"):].split("\n")[1:-2]])
        accepting = sum(number == judge.FIRST and kind == flags == 0 for _, number, _, kind, flags, _ in copies)
        counts[accepting] = counts.get(accepting, 0) + 1
    return f"a move alone, {len(whole.part)} cuts, not recovered: {counts.get(0, 0)} with no copy that accepts stores, {counts.get(2, 0)} with two"


class Tried:
    """What came of a cell: what is wrong with it, and how many stores were acknowledged, reads of copies shown, and releases refused."""

    def __init__(self, program, reference, whole, cell):
        self.cell = cell
        self.script = whole.script(cell.events)
        self.text = program.text(self.script)
        judged = judge.judged(self.script, self.text)
        self.faults = judged.faults
        self.counts = len(judged.stored), judged.copies_read, judged.refused
        if not cell.is_shown(self.text):
            self.faults.append("the cut isn't shown")
        if reference and reference.text(self.script) != self.text:
            self.faults.append("the text isn't the reference's")

    def keep(self, folder, act):
        name = f"{act} {self.cell.kind} {self.cell.at} {self.cell.note}".replace(",", "").replace(" ", "_")
        for end, contents in ((".afs", self.script), (".text", self.text)):
            with open(os.path.join(folder, name + end), "w", encoding="latin-1") as file:
                file.write(contents)


def words_of():
    parser = argparse.ArgumentParser(description="tests/cuts.sh says what this does")
    parser.add_argument("program", help="the command that plays scripts")
    parser.add_argument("--reference", help="a command that has to print the same")
    parser.add_argument("--jobs", type=int, default=2, help="how many cells at a time")
    parser.add_argument("--keep", help="a folder for scripts and texts of cells that fail")
    parser.add_argument("--acts", nargs="*", default=list(ACTS), help="these acts alone")
    return parser.parse_args()


def main():
    words = words_of()
    program = Program(words.program)
    reference = Program(words.reference) if words.reference else None
    all_cells = failed = 0
    shown = [0, 0, 0]
    with concurrent.futures.ThreadPoolExecutor(words.jobs) as pool:
        for act in words.acts:
            whole = Whole(program, *ACTS[act])
            counts = {}
            for tried in pool.map(lambda cell: Tried(program, reference, whole, cell), Cuts(whole).cells()):
                counts[tried.cell.kind] = counts.get(tried.cell.kind, 0) + 1
                shown = [sum(pair) for pair in zip(shown, tried.counts)]
                if tried.faults:
                    failed += 1
                    print(f"failed: {act}, {tried.cell.kind} behind event {tried.cell.at} {tried.cell.note}: {'; '.join(tried.faults)[:400]}")
                    if words.keep:
                        tried.keep(words.keep, act)
            all_cells += sum(counts.values())
            print(f"{act}, {len(whole.part)} events: {', '.join(f'{kind} {count}' for kind, count in counts.items())}", flush=True)
    print(left_alone(program))
    stores, reads, refused = shown
    print(f"{all_cells} cells, {failed} failed; {stores} stores were acknowledged, {reads} reads of copies shown, {refused} older releases refused")
    return 1 if failed or not all_cells else 0


if __name__ == "__main__":
    sys.exit(main())
