"""Gives tests/judge.py good runs and wrong ones, each made by hand out of a good one: python3 tests/judged.py.

The good runs are tests/judged/recovered and tests/judged/copies. Each wrong run changes some lines of one's text, and tells a part of
what the judge has to say of it. A line that is replaced has to stand in the text, and one of which there are several is told by the
line before it. It prints a line for each run that isn't judged so, then how many were judged, and ends with status 1 if there was one.
"""

import os
import sys

import judge

FOLDER = os.path.join(os.path.dirname(os.path.abspath(__file__)), "judged")
VOLUME = "volume s2 536870912 proj 0 0"
FILES = ["vnode 536870912.1.1 2 1 1 d:a=2.2", "vnode 536870912.2.2 1 4 4 f:33"]
COPY = "volume s2 536870913 proj.readonly 1 0"
FENCE = "fence 536870912 s1"
THIRD = ["change s2 c1.1.7 1", "version 536870912.2.2 4 4 f:33"]

# what is wrong; the lines that go and those that come, more than once; a part of what is said
OF_RECOVERED = [
    ("another copy accepts stores too", [([COPY], ["volume s1 536870912 proj 0 0", *FILES, COPY])], "accepts stores at ['s1', 's2']"),
    ("no copy accepts stores", [([VOLUME], ["volume s2 536870912 proj 0 2"])], "accepts stores at [], and the database says s2"),
    ("the copy that accepts stores is at another server", [([VOLUME], ["volume s1 536870912 proj 0 0"])], "accepts stores at ['s1'], and the database says s2"),
    ("the last store is lost", [(FILES, [FILES[0], "vnode 536870912.2.2 1 3 3 f:32"])], "isn't made of its last versions"),
    ("an acknowledged store made no version", [(THIRD, []), (FILES, [FILES[0], "vnode 536870912.2.2 1 3 3 f:32"])], "made 0 versions"),
    ("an acknowledged store made other bytes", [(THIRD, [THIRD[0], "version 536870912.2.2 4 4 f:34"])], "and version 4 of 536870912.2.2 is another one"),
    ("a store takes effect twice", [(THIRD, [*THIRD, THIRD[0], "version 536870912.2.2 5 5 f:33"])], "call c1.1.7 makes a change once more"),
    ("a version is left out", [(THIRD, [THIRD[0], "version 536870912.2.2 5 5 f:33"])], "has version 5 behind 3"),
    ("the new copy comes into service before the fence", [([FENCE], ["enable 536870912 s2", FENCE])], "comes into service at s2 beside ['s1']"),
    ("the new copy comes into service before the deciding write", [([FENCE], [FENCE, "enable 536870912 s2"])], "where the database doesn't say"),
    ("a store is taken behind the fence", [([FENCE], [FENCE, "change s1 c2.1.9 1", "version 536870912.2.2 4 4 f:39"])], "s1 makes a change of 536870912.2.2"),
    ("a copy goes out of service twice", [([FENCE], [FENCE, FENCE])], "where it wasn't in"),
    ("the copy that the database names is deleted", [(["vanish 536870912 s1"], ["vanish 536870912 s1", "vanish 536870912 s2"])], "is deleted at s2, where the database says"),
    ("a recovery ends before the volume is in service", [(["enable 536870912 s2"], [])], "accepts stores at [], and the database says s2"),
    ("the database tells another server than its lines", [(["located 536870912 s2"], ["located 536870912 s1"])], "the entry of volume 536870912 names ['s2']"),
    ("a clone is left", [([COPY], ["volume s1 536870915 proj 1 0", COPY])], "volume 536870915 (proj) is left at s1"),
    ("a copy for reading is at no site", [([COPY], ["volume s1 536870913 proj.readonly 1 0"])], "volume 536870913 (proj.readonly) is left at s1"),
    ("a copy for reading was never so", [(["vnode 536870913.2.2 1 2 2 f:31"], ["vnode 536870913.2.2 1 3 3 f:31"])], "and was never so"),
    ("a read shows what wasn't stored", [(["read c2 536870912.2.2 4 fetched f:33"], ["read c2 536870912.2.2 4 fetched f:32"])], "which wasn't stored so"),
    ("the second recovery changes something", [(["entry 168 a2"], ["entry 168 a2", "fence 536870912 s2", "enable 536870912 s2"])], "the last recovery changes something"),
    ("the second recovery is stuck", [(["entry 172 a2", "given 162", "answer a2 0"], ["entry 172 a2", "given 162", "answer a2 103 stuck"])], "answered 103 stuck"),
    ("the last store is refused", [(["entry 181 c1", "given 170", "answer c1 0"], ["entry 181 c1", "given 170", "answer c1 106"])], "the last close is answered 106"),
    ("the text is cut", [(["end"], [])], "the text isn't whole"),
]


ROOT = "d:a=2.2,b=4.3"
FIRST_READ = ["entry 87 c2", "given 82", "read c2 536870913.2.2 1 fetched f:61"]
OTHER_READ = ["entry 97 c3", "given 90", "read c3 536870913.2.2 1 fetched f:61"]
LAST_READ = ["entry 242 c2", "given 211", "read c2 536870913.2.2 1 fetched f:61", "answer c2 0"]
LAST_OF_BACKUP = ["entry 258 c3", "given 225", "read c3 536870915.2.2 2 fetched f:31", "answer c3 0"]
LATER = ["change s1 c1.1.2 1", "version 536870912.2.2 2 2 f:31"]
NEWER = "read c2 536870913.2.2 2 fetched f:31"
OLD_SITE = ["volume s3 536870913 proj.readonly 1 0", f"vnode 536870913.1.1 2 1 1 {ROOT}", "vnode 536870913.2.2 1 1 1 f:61"]
AGAIN = "c2 reads 536870913.1.1 at release 1, and has read release 3"


def of_copies(good):
    """The wrong runs of copies, as those above. The place of a message stands for its line."""
    sent = {int(line.split(" ")[1]): line for line in good if line.startswith("sent ")}

    def tells(place, release):
        """The reply at this place tells another release."""
        return [sent[place]], [f"{sent[place][:-48]}{release:08x}{sent[place][-40:]}"]

    clone = sent[30]
    return [
        ("a read of a copy shows what wasn't stored", [(FIRST_READ, [*FIRST_READ[:2], "read c2 536870913.2.2 1 fetched f:63"])],
         "with version 1, which isn't that of release 1"),
        ("a read of a copy shows a version behind its release", [(FIRST_READ, [*FIRST_READ[:2], "read c2 536870913.2.2 2 fetched f:31"])],
         "with version 2, which isn't that of release 1"),
        ("two clients read one release as it was at two moments",
         [([clone], []), (LATER, [*LATER, clone]), (OTHER_READ, [*OTHER_READ[:2], "read c3 536870913.2.2 2 fetched f:31"])],
         "with version 2, which isn't that of release 1"),
        ("a client uses an older release", [(["answer c2 105 1 3"], [f"read c2 536870913.1.1 1 fetched {ROOT}", "answer c2 0"])], AGAIN),
        ("a client that didn't begin again uses an older release", [(["crash c2"], [])], AGAIN),
        ("a client has cached an older release", [([NEWER], [NEWER, "read c2 536870913.4.3 1 cached f:62"])],
         "c2 reads 536870913.4.3 at release 1, and has read release 3"),
        ("a client reads an older backup", [tells(185, 1)], "c2 reads 536870915.1.1 at release 1, and has read release 2"),
        ("a release was never made", [tells(223, 9)], "is read at release 9, of which no clone was made"),
        ("a site tells a release that it wasn't given", [tells(200, 3)], "s3 tells release 3 of volume 536870913"),
        ("a copy in service is of a release that its site wasn't given", [(OLD_SITE, [*OLD_SITE[:2], "vnode 536870913.2.2 1 2 2 f:31"])],
         "isn't what a release was that s3 was given"),
        ("a client refuses a release for one that it hasn't read", [(["answer c2 105 1 3"], ["answer c2 105 1 2"])], "c2 refuses release 1 of proj for 2"),
        ("a copy isn't read that is in service", [(LAST_READ, [*LAST_READ[:2], "answer c2 103"])], "the last open of proj.readonly is answered 103"),
        ("a backup isn't read that is in service", [(LAST_OF_BACKUP, [*LAST_OF_BACKUP[:2], "answer c3 -1"])], "the last open of proj.backup is answered -1"),
        ("a backup is read that isn't in service", [(["volume s1 536870915 proj.backup 2 0"], ["volume s1 536870915 proj.backup 2 2"])],
         "the last open of proj.backup is answered 0"),
    ]


def changed(lines, pairs):
    """The lines with these changes, each of which has to be possible in one place."""
    for old, new in pairs:
        places = [at for at in range(len(lines) - len(old) + 1) if lines[at:at + len(old)] == old]
        if len(places) != 1:
            sys.exit(f"{old} stands in {len(places)} places")
        lines = lines[:places[0]] + new + lines[places[0] + len(old):]
    return lines


def run(name):
    """A good run: its script, and the lines of its text."""
    with open(f"{FOLDER}/{name}.afs", encoding="latin-1") as script, open(f"{FOLDER}/{name}.text", encoding="latin-1") as text:
        return script.read(), text.read().split("\n")


def main():
    recovered, copies = run("recovered"), run("copies")
    runs = [("the good run of recovered", recovered, [], None), ("the good run of copies", copies, [], None)]
    runs += [(name, recovered, pairs, said) for name, pairs, said in OF_RECOVERED]
    runs += [(name, copies, pairs, said) for name, pairs, said in of_copies(copies[1])]
    failed = 0
    for name, (script, good), pairs, said in runs:
        found = judge.faults(script, "\n".join(changed(good, pairs)))
        if not (any(said in fault for fault in found) if said else not found):
            failed += 1
            print(f"failed: {name}: {found}")
    print(f"{len(runs) - failed} runs judged rightly, {failed} not")
    return 1 if failed else 0


if __name__ == "__main__":
    sys.exit(main())
