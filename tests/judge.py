"""Says what is wrong with a run in which administrators were at work: python3 tests/judge.py SCRIPT TEXT.

It reads a script and the text that `replay --wire` printed for it, and nothing else; in particular no answer of an administrator is
believed. It follows the lines: which copy of each volume accepts stores, where the location database says that it is, and each
version. In the end the final part has to agree with that, and so has the entry that the database itself told last, whose bytes stand
in its replies. A line of output is a fault: there is none where the run is good, and the status is 0 then.

What has to hold, of each volume:
- a copy comes into service only where no other one accepts stores, and where the database says;
- a change is made at a copy that accepts stores, once for a call, and each version follows the one before;
- no copy is deleted where the database says;
- where a recovery ends, and in the end, the copy that the database names accepts stores, and no other one; where it names none, none;
- in the end that copy is made of the last versions, and each close that was answered 0 is one of the versions, or was changed later;
- what is read is a version that was stored;
- in the end nothing is left of a volume with an entry but what the entry names, and each copy for reading that is on line is the
  volume as it was at one moment: a read-only one as it was at a release whose dump its server was given;
- the last recovery is answered 0 and changes nothing, where there is an entry; where there is none it is answered 363524;
- the last close is answered 0 exactly where there is an entry.

A read of a copy, read-only or backup, has a release: the reply that brought it tells its number. What has to hold of it:
- a server tells of a read-only copy no release but one whose dump it was given;
- all that is read of a release, by whichever client, is the volume as it was at one moment, when a clone of that number was made;
- no client reads an older release than it has read of that copy since it began, of a backup than it has read of that file;
- where it answers 105, the newer number is that of the newest release that it has read, and the older one was told to it;
- the last open of a copy is answered 0 exactly where the first site of the entry that has the copy has it in service: a site that has
  it out of service answers 106, and no client goes on behind that.
"""

import re
import sys

FIRST = 536870912
NO_ENTRY = "363524"
# of calls: those that ask the database for an entry, and the one that deletes one
ASKING = ("503", "504", "508")
DELETES = "502"
STORE = "133"
# those whose replies have what a client reads, and those that clone a volume
READING = ("130", "131", "132", "155")
CLONING = ("105", "120")
# that brings a piece of a dump
RESTORE = "102"
DUMP = bytes.fromhex("00000001b3a11322")
OLDER = "105"
READ_ONLY = ".readonly"
BACKUP = ".backup"
BASE = re.compile(r"\.(readonly|backup)$")
FIXED = ("fence", "enable", "vanish", "made", "located", "released")


def contents(word):
    """BYTES of a script as the body of a file."""
    if word.startswith("fill:"):
        _, count, byte = word.split(":")
        return "f:" + byte * int(count)
    return "f:" + word[4:]


class Words:
    """The words of a message's bytes."""

    def __init__(self, digits):
        self.bytes = bytes.fromhex(digits)
        self.at = 0

    def word(self):
        self.at += 4
        return int.from_bytes(self.bytes[self.at - 4:self.at], "big")

    def after(self, count):
        """The words behind so many."""
        self.at += 4 * count
        return self

    def opaque(self):
        length = self.word()
        start = self.at
        self.at += (length + 3) // 4 * 4
        return self.bytes[start:start + length]


class Entry:
    """An entry of the location database, as a reply of it tells."""

    def __init__(self, words):
        self.name = words.opaque().decode("latin-1")
        self.volume, self.copy, self.backup, _ = (words.word() for _ in range(4))
        sites = [(f"s{words.word()}", words.word()) for _ in range(words.word())]
        self.sites = [server for server, _ in sites]
        self.homes = [server for server, flags in sites if flags & 4]
        self.copies = {server for server, flags in sites if flags & 2}

    def keeps(self, server, number):
        """Whether the entry has this volume at this server."""
        here = server in self.homes
        return (number == self.volume and here) or (number == self.copy and server in self.copies) or (number == self.backup and here)


class Release:
    """A number of clones of a volume: what the volume may have been when the first was made. Each read leaves fewer."""

    def __init__(self, moments):
        self.moments = moments

    def is_at(self, fits):
        """Whether the volume may have been so. If it may, it was."""
        left = [moment for moment in self.moments if fits(moment)]
        self.moments = left or self.moments
        return bool(left)


class Act:
    """An act that runs: its words, and the calls of it that may change something."""

    def __init__(self, words):
        self.words = words
        self.keys = set()
        self.lines = []
        self.sites = {}              # where volumes were when it began

    def name(self):
        """Of the volume that it names, without the kind of a copy."""
        return BASE.sub("", self.words[1].partition("/")[0])

    def kind(self):
        """The kind of the copy that it names, if it names one."""
        found = BASE.search(self.words[1].partition("/")[0]) if len(self.words) > 1 else None
        return found and found[0]


class Judge:
    """Follows a text line by line, and notes what is wrong."""

    def __init__(self, script):
        self.faults = []
        self.site = {}               # of each volume the server that the database names
        self.accepting = {}          # of each volume the servers that accept its stores
        self.names = {}              # of each volume its name
        self.versions = {}           # of each file its versions (index, data version, body) so far
        self.moments = {}            # of each volume what it was made of, at each moment
        self.changed = {}            # of each call that made a change the versions: file and index
        self.calls = {}              # of each place the opcode of the call there
        self.clones = {}             # of each place of a call that clones its key
        self.ran = None              # the opcode of what the database was given last
        self.asked = {}              # of the calls that ask the database, by key, the name or number
        self.told = {}               # what the database told last of each name
        self.acts = {}               # of each node the act that runs
        self.stored = []             # the closes that were answered 0: file, body, keys
        self.last_close = None       # the last close that is over, and its answer
        self.copies = {}             # of the number of each copy its volume and kind
        self.cloning = {}            # of each call that clones and isn't answered, by key, the last moment of its volume when it came first
        self.answered = set()        # the keys of those that are
        self.releases = {}           # of each volume its releases, by number
        self.dumped = {}             # of each place of a call with the first piece of a dump the volume that it is of, and its release
        self.brought = {}            # of each server and volume the releases whose dumps the server was given
        self.offered = {}            # of each client and copy the releases that servers have told it
        self.subjects = {}           # of each call that reads the volume it is about
        self.told_release = {}       # of each place of a reply to such a call the release that it tells
        self.place = None            # the place that this entry was given
        self.fetched = {}            # of each client and fid the release of what it has fetched last
        self.seen = {}               # of each client and copy, of a backup each client and fid, the newest release that it has read
        self.copies_read = 0         # how often a client has read of a copy
        self.refused = 0             # how often a client has answered 105
        self.last_opens = {}         # of each kind of copy the last open of one that is over: its name and answer
        self.recoveries = []         # the recoveries that are over: the act, its answer, and whether it is stuck
        self.at = 0
        self.set_up(script)

    def fault(self, text):
        self.faults.append(f"entry {self.at}: {text}")

    # ---- the script

    def set_up(self, script):
        """Volumes and the files in their roots. Other set-up isn't used by these scripts."""
        numbers = {}
        trees = {}
        for line in script.split("\n"):
            words = line.split(" ")
            if words[0] == "volume":
                number = FIRST + len(numbers)
                numbers[words[1]] = number
                self.names[number] = words[1]
                self.site[number] = words[2]
                self.accepting[number] = {words[2]}
                trees[words[1]] = {}
            elif words[0] == "file":
                volume, name = words[1].split("/")
                trees[volume][name] = contents(words[2])
            elif words[0] in ("dir", "link", "acl"):
                sys.exit("the judge doesn't know these lines of set-up")
        for volume, files in trees.items():
            places = {name: f"{2 * at + 2}.{at + 2}" for at, name in enumerate(files)}
            names = ",".join(f"{name}={places[name]}" for name in sorted(files, key=str.encode))
            self.versions[f"{numbers[volume]}.1.1"] = [(1, 1, "d:" + names)]
            for name, body in files.items():
                self.versions[f"{numbers[volume]}.{places[name]}"] = [(1, 1, body)]
            self.remember(numbers[volume])

    def remember(self, volume):
        self.moments.setdefault(volume, []).append(self.newest(volume))

    def newest(self, volume):
        """What a volume is made of by its last versions: of each vnode index, data version and body."""
        front = f"{volume}."
        last = {fid[len(front):]: versions[-1] for fid, versions in self.versions.items() if fid.startswith(front)}
        return {vnode: version for vnode, version in last.items() if version[2] != "gone"}

    # ---- the lines of entries

    def read(self, text):
        lines = text.split("\n")
        if lines[-2:] != ["end", ""] or "final" not in lines:
            self.fault("the text isn't whole")
            return
        final = lines.index("final")
        node = None
        at = 0
        while at < final:
            words = lines[at].split(" ")
            if words[0] == "entry":
                self.at = int(words[1])
                self.place = None
                node = words[2]
            count = int(words[3]) if words[0] in ("change", "made") else 0
            self.line(node, words, [line.split(" ") for line in lines[at + 1:at + 1 + count]])
            at += 1 + count
        self.end([line.split(" ") for line in lines[final + 1:-2]])

    def line(self, node, words, versions):
        take = getattr(self, "on_" + words[0], None)
        if take:
            take(node, words, versions)
        if words[0] in FIXED and node != "none":
            for act in self.acts.values():
                act.lines.append(words[0])

    def on_begin(self, node, words, _):
        self.acts[node] = Act(words[2:])
        self.acts[node].sites = dict(self.site)

    def on_sent(self, node, words, _):
        _, place, sender, receiver, half, opcode, key = words[:7]
        if half == "call":
            self.calls[place] = opcode
            if receiver == "loc" and opcode in ASKING:
                self.asked[f"{sender}.{key}"] = asked_for(opcode, words[7])
            if opcode == STORE and sender in self.acts:
                self.acts[sender].keys.add(f"{sender}.{key}")
            if opcode in READING + CLONING:
                self.subjects[f"{sender}.{key}"] = subject_of(opcode, words[7])
            if opcode in CLONING:
                self.clones[place] = f"{sender}.{key}"
            if opcode == RESTORE:
                self.dumped[place] = dumped_in(words[7])
        elif half == "reply" and sender == "loc" and opcode in ASKING:
            self.hear(self.asked[f"{receiver}.{key}"], opcode, words[7], words[8])
        elif half == "reply" and opcode in CLONING:
            self.is_cloned(f"{receiver}.{key}", words[7], words[8])
        elif half == "reply" and opcode in READING and words[7] == "0":
            self.tells(place, sender, receiver, self.subjects[f"{receiver}.{key}"], words[8])

    def is_cloned(self, key, code, digits):
        """A server answers a call that clones. Where it has made the clone its reply has the number of the release."""
        first = self.cloning.pop(key, None)
        self.answered.add(key)
        if code == "0" and first is not None:
            release, volume = Words(digits).after(10).word(), self.subjects[key]
            self.releases.setdefault(volume, {}).setdefault(release, Release(self.moments.get(volume, [])[first:]))

    def made(self, volume, release):
        """A release of a volume, if it was made. Where its server was stopped in the step that made the clone, and nobody asked again,
        no reply tells of it; then it is the one behind the last."""
        known = self.releases.get(volume, {})
        left = [at for key, at in self.cloning.items() if self.subjects[key] == volume]
        if left and release == max(known, default=0) + 1:
            self.releases.setdefault(volume, {})[release] = Release(self.moments[volume][left[-1]:left[-1] + 1])
        return self.releases.get(volume, {}).get(release)

    def tells(self, place, server, client, number, digits):
        """A server tells what it has. The number of the release stands first in the last six words."""
        release = int(digits[-48:-40], 16)
        self.told_release[place] = release
        self.offered.setdefault((client, number), set()).add(release)
        if self.kind(number) == READ_ONLY and release not in self.brought.get((server, self.copies[number][0]), []):
            self.fault(f"{server} tells release {release} of volume {number}, which it wasn't given")

    def kind(self, number):
        return self.copies.get(number, (number, None))[1]

    def hear(self, asked, opcode, code, digits):
        """What the database answers: an entry, or that there is none."""
        if code == "0":
            entry = Entry(Words(digits).after(10 if opcode == "508" else 9))
            self.told[entry.name] = entry
            self.copies |= {number: (entry.volume, kind) for number, kind in ((entry.copy, READ_ONLY), (entry.backup, BACKUP)) if number}
        elif code == NO_ENTRY:
            gone = [name for name, entry in self.told.items() if entry and asked in (name, entry.volume)]
            for name in gone or [asked]:
                self.told[name] = None

    def on_given(self, node, words, _):
        self.place = words[1]
        if node == "loc":
            self.ran = self.calls.get(words[1], self.ran)
        if words[1] in self.dumped:
            volume, release = self.dumped[words[1]]
            self.brought.setdefault((node, volume), set()).update(release)
        if words[1] in self.clones:
            key = self.clones[words[1]]
            if key not in self.answered:
                self.cloning.setdefault(key, len(self.moments.get(self.subjects[key], [])) - 1)

    def on_located(self, _, words, __):
        self.site[int(words[1])] = words[2]

    def on_unlocked(self, _, words, __):
        if self.ran == DELETES:
            self.site[int(words[1])] = None

    def on_enable(self, _, words, __):
        volume = int(words[1])
        if self.accepting.get(volume):
            self.fault(f"volume {volume} comes into service at {words[2]} beside {sorted(self.accepting[volume])}")
        if self.site.get(volume) != words[2]:
            self.fault(f"volume {volume} comes into service at {words[2]}, where the database doesn't say")
        self.accepting.setdefault(volume, set()).add(words[2])

    def on_fence(self, _, words, __):
        volume = int(words[1])
        if words[2] not in self.accepting.get(volume, ()):
            self.fault(f"volume {volume} goes out of service at {words[2]}, where it wasn't in")
        self.accepting[volume].discard(words[2])

    def on_vanish(self, _, words, __):
        volume = int(words[1])
        if self.site.get(volume) == words[2]:
            self.fault(f"volume {volume} is deleted at {words[2]}, where the database says that it is")
        self.accepting.setdefault(volume, set()).discard(words[2])

    def on_recovered(self, _, words, __):
        self.one_accepts(int(words[1]), self.accepting.get(int(words[1]), set()))

    def one_accepts(self, volume, servers):
        """Where the database says, and nowhere else."""
        site = self.site.get(volume)
        if servers != ({site} if site else set()):
            self.fault(f"volume {volume} accepts stores at {sorted(servers)}, and the database says {site}")

    def on_made(self, _, words, versions):
        volume = int(words[2])
        if any(fid.startswith(f"{volume}.") for fid in self.versions):
            self.fault(f"volume {volume} is made twice")
        for _, fid, index, data, body in versions:
            self.versions[fid] = [(int(index), int(data), body)]
        self.remember(volume)

    def on_change(self, _, words, versions):
        server, key = words[1:3]
        if key in self.changed:
            self.fault(f"call {key} makes a change once more")
        self.changed[key] = [(fid, int(index)) for _, fid, index, _, _ in versions]
        for _, fid, index, data, body in versions:
            volume = int(fid.split(".")[0])
            if server not in self.accepting.get(volume, ()):
                self.fault(f"{server} makes a change of {fid}, and doesn't accept stores of it")
            before = self.versions.setdefault(fid, [])
            if int(index) != (before[-1][0] + 1 if before else 1):
                self.fault(f"{fid} has version {index} behind {before[-1][0] if before else 0}")
            before.append((int(index), int(data), body))
        for volume in {int(fid.split(".")[0]) for _, fid, _, _, _ in versions}:
            self.remember(volume)

    def on_read(self, _, words, __):
        client, fid, index, how, body = words[1:6]
        number, _, vnode = fid.partition(".")
        if self.kind(int(number)):
            self.read_of_copy(client, int(number), vnode, how, (int(index), body))
        elif fid in self.versions and is_whole(body):
            if (int(index), body) not in [(version[0], version[2]) for version in self.versions[fid]]:
                self.fault(f"{fid} is read with version {index}, which wasn't stored so")

    def read_of_copy(self, client, number, vnode, how, version):
        """What a client reads of a copy is what the volume was at a release, and that isn't older than what it has read."""
        volume, kind = self.copies[number]
        self.copies_read += 1
        if how == "fetched":
            self.fetched[client, number, vnode] = self.told_release.get(self.place, 0)
        release = self.fetched.get((client, number, vnode), 0)
        made = self.made(volume, release)
        if not made:
            self.fault(f"{number}.{vnode} is read at release {release}, of which no clone was made")
        elif not made.is_at(lambda moment: is_version(moment.get(vnode), *version)):
            self.fault(f"{number}.{vnode} is read with version {version[0]}, which isn't that of release {release}")
        known = (client, number, None if kind == READ_ONLY else vnode)
        if release < self.seen.get(known, 0):
            self.fault(f"{client} reads {number}.{vnode} at release {release}, and has read release {self.seen[known]}")
        self.seen[known] = max(release, self.seen.get(known, 0))

    def on_answer(self, node, words, _):
        act = self.acts.pop(node, None)
        kind = act and act.kind()
        if kind and act.words[0] == "open":
            self.last_opens[kind] = act.name(), words[2]
        if kind == READ_ONLY and words[2] == OLDER:
            self.is_newer(node, act.name(), int(words[3]), int(words[4]))
        if act and act.words[0] == "close":
            self.last_close = act, words[2]
            if words[2] == "0":
                self.stored.append((contents(act.words[2]), act.keys))
        if act and act.words[0] == "recover":
            self.recoveries.append((act, words[2], len(words) > 3))

    def is_newer(self, client, name, older, newer):
        """A client has refused a release, as it has read a newer one."""
        self.refused += 1
        numbers = [number for number, (volume, kind) in self.copies.items() if (self.names.get(volume), kind) == (name, READ_ONLY)]
        offered = {release for number in numbers for release in self.offered.get((client, number), ())}
        read = [self.seen.get((client, number, None)) for number in numbers]
        if not (older < newer and older in offered and newer in read):
            self.fault(f"{client} refuses release {older} of {name} for {newer}, and has read {read}")

    def on_crash(self, _, words, __):
        node = words[1]
        self.acts.pop(node, None)
        self.fetched = {known: release for known, release in self.fetched.items() if known[0] != node}
        self.seen = {known: release for known, release in self.seen.items() if known[0] != node}

    # ---- the end

    def had_entry(self, act):
        """Whether the volume that an act names had an entry when the act began."""
        return any(self.names.get(volume) == act.name() and site for volume, site in act.sites.items())

    def end(self, lines):
        copies = copies_of(lines)
        self.learn_names(copies)
        for volume in sorted({*self.site, *self.accepting, *(number for _, number, _, kind, _, _ in copies if kind == 0)}):
            here = [copy for copy in copies if copy[1] == volume and copy[3] == 0 and copy[4] == 0]
            self.one_accepts(volume, {copy[0] for copy in here})
            self.entry_agrees(volume)
            for copy in here:
                if copy[5] != self.newest(volume):
                    self.fault(f"volume {volume} at {copy[0]} isn't made of its last versions")
        for body, keys in self.stored:
            self.is_kept(body, keys)
        for server, number, name, kind, flags, vnodes in copies:
            self.belongs(server, number, name)
            if kind and not flags:
                self.is_one_moment(server, number, name, vnodes)
        self.last_recovery()
        self.last_store()
        for kind, (name, code) in self.last_opens.items():
            self.last_open(name, kind, code, copies)

    def learn_names(self, copies):
        """New volumes have the names that the database told."""
        for name, entry in self.told.items():
            if entry:
                self.names[entry.volume] = name

    def entry_agrees(self, volume):
        """What the database told last is what its lines say."""
        name = self.names.get(volume)
        entry = self.told.get(name)
        if name not in self.told:
            return
        homes = entry.homes if entry and entry.volume == volume else []
        site = self.site.get(volume)
        if homes != ([site] if site else []):
            self.fault(f"the entry of volume {volume} names {homes}, and its lines {site}")

    def is_kept(self, body, keys):
        """A close that was answered 0 made one version, of these bytes, and the last one is that or a later one."""
        made = [version for key in keys for version in self.changed.get(key, [])]
        if len(made) != 1:
            self.fault(f"a close of {body} was answered 0 and made {len(made)} versions")
            return
        fid, index = made[0]
        if [version[2] for version in self.versions[fid] if version[0] == index] != [body]:
            self.fault(f"a close of {body} was answered 0, and version {index} of {fid} is another one")

    def belongs(self, server, number, name):
        """A volume with an entry leaves nothing but what that names."""
        entry = self.told.get(BASE.sub("", name))
        if entry and not entry.keeps(server, number):
            self.fault(f"volume {number} ({name}) is left at {server}, and no entry names it there")

    def is_one_moment(self, server, number, name, vnodes):
        base = BASE.sub("", name)
        moments = [moment for volume, known in self.names.items() if known == base for moment in self.moments.get(volume, [])]
        if vnodes not in moments:
            self.fault(f"volume {number} ({name}) at {server} is on line, and was never so")
        elif self.kind(number) == READ_ONLY:
            volume = self.copies[number][0]
            brought = [self.made(volume, release) for release in self.brought.get((server, volume), ())]
            if not any(made and made.is_at(lambda moment: moment == vnodes) for made in brought):
                self.fault(f"volume {number} ({name}) at {server} isn't what a release was that {server} was given")

    def last_open(self, name, kind, code, copies):
        """The copy is read exactly where it is in service at the first site of the entry that has it."""
        entry = self.told.get(name)
        flags = {server: flags for server, number, found, _, flags, _ in copies if entry and found == name + kind and entry.keeps(server, number)}
        first = next((server for server in entry.sites if server in flags), None) if entry else None
        if (code == "0") != (flags.get(first) == 0):
            self.fault(f"the last open of {name}{kind} is answered {code}")

    def last_recovery(self):
        if not self.recoveries:
            return
        act, code, is_stuck = self.recoveries[-1]
        if (code, is_stuck) != (("0" if self.had_entry(act) else NO_ENTRY), False):
            self.fault(f"the last recovery is answered {code}{' stuck' if is_stuck else ''}")
        if act.lines:
            self.fault(f"the last recovery changes something: {act.lines}")

    def last_store(self):
        if self.last_close:
            act, code = self.last_close
            if (code == "0") != self.had_entry(act):
                self.fault(f"the last close is answered {code}")


def asked_for(opcode, digits):
    """The name or the number that a call asks for."""
    words = arguments(digits)
    return words.opaque().decode("latin-1") if opcode == "504" else words.word()


def subject_of(opcode, digits):
    """The volume that a call reads or clones. One that asks for many statuses has their count first."""
    return arguments(digits).after(1 if opcode == "155" else 0).word()


def dumped_in(digits):
    """The volume that a call restores, and the release of a dump whose first piece it brings; none where it brings another one."""
    words = arguments(digits)
    volume = words.word()
    piece = Words(words.after(3).opaque().hex())
    if piece.bytes[:8] != DUMP:
        return volume, []
    piece.after(4).opaque()
    return volume, [piece.after(8).word()]


def arguments(digits):
    """What a call asks for, behind the eight words of its header and the name of its user."""
    words = Words(digits).after(8)
    words.opaque()
    return words


def is_whole(body):
    """Whether a read shows a whole body, and no status or access list."""
    return body[:2] in ("f:", "d:", "l:")


def is_version(version, index, body):
    """Whether this version is what was read."""
    return version is not None and version[0] == index and (version[2] == body or not is_whole(body))


def copies_of(lines):
    """The volumes of a final part: server, number, name, kind, flags and vnodes."""
    copies = []
    for words in lines:
        if words[0] == "volume":
            _, server, number, name, kind, flags = words
            copies.append((server, int(number), name, int(kind), int(flags), {}))
        else:
            _, fid, _, index, data, body = words
            copies[-1][5][fid.partition(".")[2]] = (int(index), int(data), body)
    return copies


def judged(script, text):
    """The judge of the text that was printed for a script."""
    judge = Judge(script)
    judge.read(text)
    return judge


def faults(script, text):
    """What is wrong with it."""
    return judged(script, text).faults


def main():
    with open(sys.argv[1], encoding="latin-1") as script, open(sys.argv[2], encoding="latin-1") as text:
        found = faults(script.read(), text.read())
    print("\n".join(found))
    return 1 if found else 0


if __name__ == "__main__":
    sys.exit(main())
