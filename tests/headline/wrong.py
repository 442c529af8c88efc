"""Gives tests/headline/judge.py good runs and wrong ones, each made out of a good one: python3 tests/headline/wrong.py.

The good runs are tests/headline/kept, and tests/judged/recovered and copies. A wrong run changes lines of some entries of one, and is wrong
for one reason: the first fault that the judge tells has to be of the condition that is named here. A line that is replaced has to stand
just once in its entry. It prints each run that isn't judged so, then how many were, and ends with status 1 if there was such a run.
"""

import os
import sys

import judge

HERE = os.path.dirname(os.path.abspath(__file__))
RUNS = {"kept": os.path.join(HERE, "kept"), **{name: os.path.join(HERE, "..", "judged", name) for name in ("recovered", "copies")}}
FILE, ROOT = "536870912.2.2", "536870912.1.1"


def coded(code):
    """The line of a reply with another code: it stands in the line and in the bytes."""
    def change(line):
        words = line.split(" ")
        digits = words[-1]
        return " ".join([*words[:7], str(code), digits[:64] + f"{code & 0xffffffff:08x}" + ("" if code else digits[72:])])
    return change


def worded(place, value):
    """The line of a message with another word at this place; from the end where that is below 0."""
    def change(line):
        front, _, digits = line.rpartition(" ")
        at = place * 8 if place >= 0 else len(digits) + place * 8
        return f"{front} {digits[:at]}{value:08x}{digits[at + 8:]}"
    return change


def to(text):
    return lambda line: text


def gone(line):
    return None


def twice(line):
    return [line, line]


def ahead(*lines):
    """Lines before this one."""
    return lambda line: [*lines, line]


def behind(*lines):
    return lambda line: [line, *lines]


# the condition; the run; what is wrong; the changes: of an entry the line that begins so, and what comes in its place.
# A line that begins with 'sent N' is told by its place.
WRONG = [
    ("whole", "kept", "a cached read shows other bytes", [(7, f"read c1 {FILE}", to(f"read c1 {FILE} 1 cached f:616264"))]),
    ("whole", "kept", "a read shows a mode that was never set", [(28, f"read c1 {FILE}", to(f"read c1 {FILE} 3 cached s:1,1,3,420"))]),
    ("whole", "kept", "a read shows other rights", [(31, "read", to(f"read c1 {ROOT} 1 fetched a:300a300a"))]),
    ("whole", "kept", "a read shows a version that was never stored", [(7, f"read c1 {FILE}", to(f"read c1 {FILE} 2 cached f:616263"))]),
    ("not older", "kept", "a client goes back behind its own change", [(28, f"read c1 {FILE}", to(f"read c1 {FILE} 1 cached s:1,1,3,420"))]),
    ("newest", "kept", "a client reads by a promise that has ended", [(17, "tick", to("tick 7200"))]),
    ("newest", "kept", "a client reads by a promise that it has dropped", [(16, "begin", behind(f"drop c1 {FILE}"))]),
    ("newest", "kept", "a client reads what it stored, without a promise", [(61, "read", behind(f"read c2 {FILE} 4 cached f:31"))]),
    ("newest", "kept", "a client that crashed reads by an old promise", [(199, "begin", behind(f"read c3 {FILE} 5 cached f:33"))]),
    ("fetched", "kept", "a fetched read shows other bytes than its reply", [(24, "read", to(f"read c1 {FILE} 2 fetched f:646567"))]),
    ("fetched", "kept", "a fetched read shows an older version than its reply", [(24, "read", to(f"read c1 {FILE} 1 fetched f:616263"))]),
    ("fetched", "kept", "a read is told as fetched, and nothing was asked", [(7, f"read c1 {FILE}", to(f"read c1 {FILE} 1 fetched f:616263"))]),
    ("came", "kept", "a client that has a status shows contents", [(210, f"read c3 {FILE}", to(f"read c3 {FILE} 5 cached f:33"))]),
    ("read", "kept", "a client reads without an act", [(15, "answer", behind(f"read c2 {FILE} 2 cached f:646566"))]),
    ("release", "copies", "a reply tells another release than it shows", [(0, "sent 211", worded(-6, 3))]),
    ("not older", "copies", "a client reads an older backup", [(0, "sent 185", worded(-6, 1))]),
    ("settle", "kept", "a break is settled, and the client dropped nothing", [(80, "drop", gone)]),
    ("settle", "kept", "a break is settled without the client's reply", [(81, "given", gone)]),
    ("waits", "kept", "a store is answered while its break is open", [("move", (14, "sent 11"), 11)]),
    ("waits", "kept", "a kept reply goes out while a break on all is open", [(52, "settle", gone)]),
    ("quit", "kept", "a break is given up without a timeout", [(14, "timeout", gone)]),
    ("timeout", "kept", "a timeout is left out", [(13, "timeout", gone)]),
    ("timeout", "kept", "a call is timed out that was never sent", [(12, "timeout", to("timeout s1 c1 1.7 1"))]),
    ("owes", "kept", "a change owes no break", [(11, "owe", gone)]),
    ("owes", "kept", "a fence owes nothing", [(136, "owe", gone)]),
    ("owes", "kept", "a restart owes a client nothing", [(44, "owe s1 c3", gone)]),
    ("owes", "kept", "a break has the number of an earlier one", [(79, "owe", to(f"owe s1 c2 {ROOT} 3"))]),
    ("acknowledged", "kept", "a store is answered 0 and changes nothing", [(173, "change", gone), (173, "version", gone)]),
    ("once", "kept", "a call makes a change twice", [(11, "version", behind("change s1 c2.1.2 1", f"version {FILE} 3 3 f:646566"))]),
    ("change", "kept", "a store makes other bytes than its own", [(11, "version", to(f"version {FILE} 2 2 f:646567"))]),
    ("change", "kept", "a version is left out", [(11, "version", to(f"version {FILE} 3 3 f:646566"))]),
    ("change", "kept", "a mode raises the data version", [(26, "version", to(f"version {FILE} 3 3 f:646566"))]),
    ("change", "kept", "a directory keeps the name that was removed", [(65, "version 536870912.1.1", to(f"version {ROOT} 3 3 d:a=2.2,d=3.3,n=6.5"))]),
    ("change", "kept", "a store is taken behind the fence", [(167, "given", behind("change s1 c2.1.10 1", f"version {FILE} 5 4 f:33"))]),
    ("change", "kept", "a store without the right to it", [(35, "answer", behind()), (34, "given", behind("change s1 c1.1.7 1", "version 536870912.3.3 2 2 d:k=4.4,z=8.6"))]),
    ("call", "kept", "an act sends other bytes than its own", [("script", "do c2 close proj/a hex:646566", "do c2 close proj/a hex:646567"), (8, "begin", to("begin c2 close proj/a hex:646567"))]),
    ("call", "kept", "an act sets another mode than its own", [("script", "do c1 chmod proj/a 600", "do c1 chmod proj/a 644"), (25, "begin", to("begin c1 chmod proj/a 644"))]),
    ("call", "kept", "a client calls for another user", [("script", "user c3 amy", "user c3 bob")]),
    ("begin", "kept", "an act begins that the script doesn't have next", [(6, "begin", to("begin c1 open proj/a"))]),
    ("one call", "kept", "a call is sent again with other bytes", [(45, "sent", worded(-1, 0x32000000))]),
    ("message", "kept", "a line tells another code than its bytes", [(59, "sent", lambda line: line.replace(" 17 ", " 2 "))]),
    ("message", "kept", "a node sends in another's name", [("move", (59, "sent"), 58)]),
    ("given", "kept", "a message is given that was never sent", [(11, "given", to("given 999"))]),
    ("grant", "kept", "a promise is of an old version", [(23, "grant", to(f"grant s1 c1 {FILE} 1 14400"))]),
    ("grant", "kept", "a promise lasts too long", [(23, "grant", to(f"grant s1 c1 {FILE} 2 14401"))]),
    ("grant", "kept", "a server promises what it has fenced", [(167, "given", behind(f"grant s1 c2 {FILE} 4 14400"))]),
    ("reply", "kept", "a reply is of a boot that never ran its call", [(59, "sent", worded(5, 1))]),
    ("code", "kept", "a server refuses with another code", [(59, "sent", coded(2)), (60, "answer", to("answer c2 2"))]),
    ("code", "kept", "a server refuses what is allowed", [(101, "sent", coded(13))]),
    ("newest", "kept", "a server tells an old version", [(23, "sent", worded(-14, 1))]),
    ("drop", "kept", "a client drops in another's entry", [(15, "answer", ahead(f"drop c1 {FILE}"))]),
    ("restart", "kept", "a server begins an old boot", [(44, "restart", to("restart s1 1"))]),
    ("enable", "kept", "the new copy comes into service before the fence", [(136, "fence", ahead("enable 536870912 s2"))]),
    ("enable", "kept", "a copy comes into service before the deciding write", [(148, "given", behind("enable 536870912 s2"))]),
    ("enable", "kept", "a copy comes into service twice", [(152, "enable", twice)]),
    ("enable", "kept", "the database doesn't name the server that comes into service", [(150, "located", to("located 536870912 s1"))]),
    ("fence", "kept", "a copy goes out of service twice", [(136, "owe s1 c2", ahead("fence 536870912 s1"))]),
    ("vanish", "kept", "the copy that the database names is deleted", [(158, "vanish", to("vanish 536870912 s2"))]),
    ("site", "kept", "the database tells another server than its lines", [(164, "unlocked", ahead("located 536870912 s1"))]),
    ("made", "kept", "a restored volume has other contents", [(241, "version 536870914.2.2", to("version 536870914.2.2 1 4 f:34"))]),
    ("made", "kept", "a restored volume keeps its indexes", [(241, "version 536870914.1.1", to("version 536870914.1.1 4 4 d:a=2.2"))]),
    ("made", "kept", "a volume is made twice", [(241, "enable", ahead("made s1 536870914 0"))]),
    ("recovered", "recovered", "a recovery ends before the volume is in service", [(0, "enable 536870912 s2", gone)]),
    ("recovered", "recovered", "a recovery leaves the old copy", [(0, "vanish 536870912 s1", gone)]),
    ("answer", "kept", "an act is answered with another code than its reply's", [(60, "answer", to("answer c2 2"))]),
    ("answer", "kept", "an act is answered -1 without a third timeout", [(60, "answer", to("answer c2 -1"))]),
    ("answer", "kept", "a name that is there isn't found", [(7, "answer", to("answer c1 2"))]),
    ("answer", "kept", "a read is answered 0 that read nothing", [(32, "answer", to("answer c1 0"))]),
    ("answer", "kept", "a refused store is answered 0", [(63, "answer", to("answer c2 0"))]),
    ("answer", "kept", "the first busy reply is an answer", [(60, "answer", to("answer c2 106"))]),
    ("answer", "kept", "a client answers 103 and asks nobody", [(168, "given", behind("answer c2 103"))]),
    ("answer", "kept", "a move is answered with a code that no call had", [(165, "answer", to("answer a1 104"))]),
    ("answer", "kept", "a move to its own server is answered 0", [(272, "answer", to("answer a1 0"))]),
    ("answer", "kept", "an act that nothing stopped is stuck", [(165, "answer", to("answer a1 0 stuck"))]),
    ("answer", "copies", "a client refuses a release for one that it hasn't read", [(0, "answer c2 105", to("answer c2 105 1 2"))]),
    ("end", "kept", "the last store is lost", [("final", "vnode 536870912.2.2 1 5 4 f:33", "vnode 536870912.2.2 1 4 3 f:31")]),
    ("end", "kept", "a second copy is in service", [("final", "volume s2 536870912 proj 0 0", "volume s1 536870912 proj 0 0\nvolume s2 536870912 proj 0 0")]),
    ("end", "kept", "no copy is in service", [("final", "volume s2 536870912 proj 0 0", "volume s2 536870912 proj 0 2")]),
]


class Run:
    """A script and the lines of its text, by entry."""

    def __init__(self, name):
        with open(RUNS[name] + ".afs", encoding="latin-1") as script, open(RUNS[name] + ".text", encoding="latin-1") as text:
            self.script = script.read()
            lines = text.read().split("\n")
        final = lines.index("final")
        self.final = lines[final:]
        self.entries = {0: []}
        number = 0
        for line in lines[:final]:
            if line.startswith("entry "):
                number = int(line.split(" ")[1])
            self.entries.setdefault(number, []).append(line)

    def find(self, entry, start):
        """Where such lines stand: in this entry, or in any where that is 0."""
        places = [(number, at) for number, lines in self.entries.items() if entry in (0, number) for at, line in enumerate(lines) if (line + " ").startswith(start + " ") or (entry and line.startswith(start))]
        if not places:
            sys.exit(f"no line {start} in entry {entry}")
        return places

    def change(self, entry, start, how):
        places = self.find(entry, start)
        if len(places) > 1 and how is not gone:
            sys.exit(f"{len(places)} lines {start} in entry {entry}")
        for number, at in reversed(places):
            new = how(self.entries[number][at])
            self.entries[number][at:at + 1] = new if isinstance(new, list) else [new] if new else []

    def move(self, place, entry):
        (number, at), = self.find(*place)
        self.entries[entry].append(self.entries[number].pop(at))

    def replace(self, part, old, new):
        if part == "script":
            if self.script.count(old + "\n") != 1:
                sys.exit(f"{old} isn't one line of the script")
            self.script = self.script.replace(old + "\n", new + "\n")
        else:
            at = self.final.index(old)
            self.final[at:at + 1] = new.split("\n")

    def text(self):
        return "\n".join([line for lines in self.entries.values() for line in lines] + self.final)


def wrong_run(name, changes):
    run = Run(name)
    for change in changes:
        if change[0] == "move":
            run.move(change[1], change[2])
        elif change[0] in ("script", "final"):
            run.replace(*change)
        else:
            run.change(*change)
    return run


def main():
    failed = 0
    for name in RUNS:
        found = judge.faults(Run(name).script, Run(name).text())
        if found:
            failed += 1
            print(f"failed: the good run {name}: {found[:3]}")
    for condition, name, what, changes in WRONG:
        run = wrong_run(name, changes)
        found = judge.faults(run.script, run.text())
        told = found[0].split(": ")[1] if found else None
        if told != condition:
            failed += 1
            print(f"failed: {what} ({condition}): {found[:2]}"[:400])
    count = len(RUNS) + len(WRONG)
    print(f"{count - failed} runs judged rightly, {failed} not; {len({condition for condition, *_ in WRONG})} conditions")
    return 1 if failed else 0


if __name__ == "__main__":
    sys.exit(main())
