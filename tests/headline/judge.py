"""Says what is wrong with a run, by the text alone: python3 tests/headline/judge.py SCRIPT TEXT.

It reads a script and the text that `replay --wire` printed for it, and follows the ideal cell: one list of versions for each object, the
servers that accept stores of each volume, and where the location database says that it is. Each line, each reply of a server and each
answer has to be good after all that stands before it, as docs/tested.md tells. A line of output is a fault, with the entry and the
condition that it breaks; there is none where the run is good, and the status is 0 then.
"""

import sys

import ideal
from messages import Dump, Message, Status, fid_text

FIRST = 536870912
TERM = 7200
LAST_TIMEOUT = 3
NO_ENTRY = 363524
SUPERSEDED = (1492325131, 363541)
PASSING = (106, 110)
GONE_AWAY = (103, 111)
READING = (130, 131, 132, 155)
GRANTING = (130, 132, 137, 141, 155)
CREATE_VOLUME, RESTORE, CLONE, SET_FLAGS, TRANS_CREATE, RECLONE = 100, 102, 105, 106, 108, 120
CREATE_ENTRY, DELETE_ENTRY, BY_ID, BY_NAME, SET_LOCK = 501, 502, 503, 504, 508
LOOKING = (BY_ID, BY_NAME)
GIVE_UP, BREAK, BREAK_ALL = 147, 204, 205
CALL_OF = {"close": 133, "setacl": 134, "chmod": 135, "rm": 136, "make": 137, "mv": 138, "symlink": 139, "ln": 140, "mkdir": 141, "rmdir": 142}
TO_PARENT = ("make", "mkdir", "rm", "rmdir", "symlink")
KINDS = (".readonly", ".backup")


class Version:
    """A version of an object: what its line tells, and the rest of it where that is known."""

    def __init__(self, index, version, body, vnode=None):
        self.index, self.version, self.body = index, version, body
        self.status = vnode.status() if vnode else None
        self.access = "a:" + vnode.access.hex() if vnode and vnode.access is not None else None

    def shows(self, body):
        """Whether a read may show this as it is."""
        return body == {"s": self.status, "a": self.access}.get(body[0], self.body)


class Grant:
    """A promise of a server to a client on an object."""

    def __init__(self, entry, boot, index, expiry):
        self.entry, self.boot, self.index, self.expiry = entry, boot, index, expiry
        self.withdrawn = self.dropped = self.owed = False


class Owe:
    """A break that a server owes."""

    def __init__(self, entry, boot, subject, expiry, sent):
        self.entry, self.boot, self.subject, self.expiry = entry, boot, subject, expiry
        self.first_place = sent          # the places of messages from here on were sent later
        self.ended = self.dropped = False


class Ran:
    """What ran a call: an entry of its callee, in a boot; where that was interrupted, the restart that may tell its lines."""

    def __init__(self, entry, expected):
        self.entries = [entry]
        self.expected = expected         # the codes that its reply may have, if they are known
        self.fixed = False               # it made a change, or took a volume out of service


class Act:
    """An act that runs."""

    def __init__(self, words, at):
        self.words = words
        self.at = at
        self.reads = []                  # fid, index, how, body
        self.calls = []                  # its calls, each once
        self.codes = []                  # the codes of their replies, and -1 for each that was given up
        self.offers = []                 # older releases that servers told it
        self.stored = None               # the entry of the location database that it has locked
        self.locked = self.recovering = False

    def operands(self):
        """The paths and fids that it names."""
        return self.words[1:3] if self.words[0] in ("mv", "ln") else self.words[1:2]


def base_of(word):
    """The name of a path's volume, and the kind of copy that it names."""
    name = word.partition("/")[0]
    for kind in KINDS:
        if name.endswith(kind):
            return name[:-len(kind)], kind
    return name, ""


class Cell:
    """The ideal cell behind some lines, and what else a text has told."""

    def __init__(self, script):
        self.clock = 0
        self.volumes = {}                # of each read-write volume the ideal one
        self.versions = {}               # of each object its versions
        self.writable = {}               # of each volume the servers that accept its stores
        self.copies = {}                 # and those that have a read-write copy of it
        self.site = {}                   # and the server that the database names
        self.names = {}                  # of each name the volumes that had it
        self.family = {}                 # of a read-only volume or a backup its read-write volume and its kind
        self.clients = []
        self.acts = {}                   # of each node its acts in order
        self.users = {}
        self.set_up(script)

    def set_up(self, script):
        numbers = {}
        for line in script.split("\n"):
            words = line.split(" ")
            if words[0] == "clients":
                self.clients = [f"c{number}" for number in range(1, int(words[1]) + 1)]
            elif words[0] == "user":
                self.users[words[1]] = ideal.unescaped(words[2])
            elif words[0] == "volume":
                number = numbers[words[1]] = FIRST + len(numbers)
                self.names.setdefault(words[1], []).append(number)
                self.volumes[number] = ideal.Volume(number, int(words[3]))
                self.site[number] = words[2]
                self.writable[number] = {words[2]}
                self.copies[number] = {words[2]}
            elif words[0] in ("dir", "file", "link", "acl"):
                name, _, path = words[1].partition("/")
                names = [ideal.unescaped(part) for part in path.split("/")] if path else []
                ideal.lay(self.volumes[numbers[name]], words[0], names, ideal.contents(words[2]) if len(words) > 2 else b"")
            elif words[0] == "do":
                self.acts.setdefault(words[1], []).append(words[2:])
        for volume in self.volumes.values():
            self.tell_all(volume)

    def tell_all(self, volume):
        """The first versions of a volume."""
        for number, vnode in volume.vnodes.items():
            self.versions[(volume.number, number, vnode.unique)] = [Version(*vnode.told(), vnode)]

    def last(self, fid):
        versions = self.versions.get(fid)
        return versions[-1] if versions else None

    def at(self, fid, index):
        return next((version for version in self.versions.get(fid, []) if version.index == index), None)


class Entry:
    """An entry of a text."""

    def __init__(self, number, node):
        self.number, self.node = number, node
        self.lines = []
        self.sent = []

    def named(self, word):
        return [line for line in self.lines if line[0] == word]


def entries_of(text):
    """The entries of a text, and the lines of its final part."""
    lines = text.split("\n")
    if lines[-2:] != ["end", ""] or "final" not in lines:
        raise ValueError("the text isn't whole")
    final = lines.index("final")
    entries = []
    for line in lines[:final]:
        words = line.split(" ")
        if words[0] == "entry":
            entries.append(Entry(int(words[1]), words[2]))
        elif words[0] == "sent":
            entries[-1].sent.append((words, Message(int(words[1]), bytes.fromhex(words[-1]))))
        else:
            entries[-1].lines.append(words)
    return entries, [line.split(" ") for line in lines[final + 1:-2]]


class Judge:
    """Follows a text, and notes what is wrong."""

    def __init__(self, script, text):
        self.faults = []
        self.cell = Cell(script)
        try:
            self.entries, self.final = entries_of(text)
        except ValueError as fault:
            self.faults.append(str(fault))
            return
        self.entry = None
        self.seen = {}                   # of each client and object the newest index that it has seen
        self.grants = {}                 # of each server, client and object the last promise
        self.by_entry = {}               # of each entry, client and object the promise that was made there
        self.rests_on = {}               # of each client and object the promise of its last fetched read
        self.learned = {}                # of each client and object the contents that came to it since it last crashed
        self.owes = {}                   # of each server, client and number the break
        self.last_owe = {}               # of each server the number of its last break in its boot
        self.last_start = {}             # of each server the clock of its last start
        self.boots = {}
        self.down = set()
        self.interrupted = {}            # of each node that is down what its last entry was given
        self.messages = {}               # by place
        self.calls = {}                  # of each key the first message of the call
        self.ran = {}                    # of each callee, key and boot what ran it
        self.changed = {}                # of each key that made a change its objects and their indexes
        self.acts = {}                   # of each node the act that runs
        self.begun = {}                  # of each node how many acts
        self.timeouts = {}               # of each caller and key the count of the last
        self.demands = {}                # what has to be owed before this entry ends
        self.given = None                # the message of this entry
        self.codes = self.codes_told()
        self.releases = {}               # of each volume and release the entries behind which it may be
        self.unknown = {}                # of each volume the entries in which a clone may have been made that no reply tells of
        self.read_release = {}           # of each client and volume, of a backup each object, the newest release that it has read
        self.fetched_release = {}        # of each client and object the release of its last fetched read
        self.history = {}                # of each volume the entries behind which it changed, and its indexes
        self.held = {}                   # of each server the volumes of which a transaction was asked for in its boot
        self.dumps = {}                  # of each server and volume the pieces of the last dump from an administrator
        self.made = {}                   # of each server and volume what the call that made it named
        self.database_ran = None         # the opcode that the location database was given last
        self.last_given = {}             # of each server its last entry that was given something
        self.looked_up = set()           # the calls that the database was given in each boot
        self.is_first = False            # it is given this one for the first time in its boot, so its reply is no kept one
        self.sites_left = {}             # of each act of a client its refusals by sites of copies
        for volume in self.cell.volumes.values():
            self.note(volume, -1)
        for self.entry in self.entries:
            self.follow()
        self.end()

    def fault(self, condition, text):
        self.faults.append(f"entry {self.entry.number}: {condition}: {text}")

    def codes_told(self):
        """Of each callee, key and boot the code that a reply tells."""
        return {(m.sender, m.key(), m.boot): m for entry in self.entries for _, m in entry.sent if m.half == "reply"}

    def note(self, volume, entry):
        """What a volume is made of from this entry on."""
        known = {(number, vnode.unique): vnode.index for number, vnode in volume.vnodes.items()}
        self.history.setdefault(volume.number, []).append((entry, known))

    # ---- an entry

    def follow(self):
        entry = self.entry
        self.given = None
        self.demands = {}
        was_down = entry.node in self.down
        lines = list(entry.lines)
        while lines:
            words = lines.pop(0)
            versions = []
            if words[0] in ("change", "made"):
                versions = [lines.pop(0) for _ in range(int(words[3]))]
            take = getattr(self, "on_" + words[0], None)
            if take:
                take(words, versions)
        for server, client, fid in self.demands:
            self.fault("owes", f"{server} owes {client} no break on {fid_text(fid)}")
        for words, message in entry.sent:
            self.on_sent(words, message, was_down)
        if entry.node[0] == "s" and entry.node not in self.down:
            self.ends_by_clock()

    def ends_by_clock(self):
        for owe in self.owes.values():
            if owe.expiry <= self.cell.clock:
                owe.ended = True

    def on_tick(self, words, _):
        self.cell.clock += int(words[1])
        self.ends_by_clock()

    # ---- messages

    def on_sent(self, words, message, was_down):
        cell = self.cell
        if message.tells() != [words[2], words[3], words[4], words[5], *words[6:-1]] or not message.is_whole:
            self.fault("message", f"message {message.place} isn't what its line tells")
        if message.sender != self.entry.node:
            self.fault("message", f"{self.entry.node} sends a message of {message.sender}")
        self.messages[message.place] = message
        for field in message.fields:
            if hasattr(field, "sites"):
                self.learn(field)
        if message.half == "call":
            self.asks(message)
        elif message.half == "reply" and message.sender[0] == "s":
            self.replies(message)
        elif message.half == "reply" and message.sender == "loc":
            self.database_tells(message)

    def learn(self, location):
        """An entry tells which numbers are of one family."""
        cell = self.cell
        if location.volume not in cell.names.setdefault(location.name, []):
            cell.names[location.name].append(location.volume)
        for number, kind in ((location.copy, ".readonly"), (location.backup, ".backup")):
            if number:
                cell.family[number] = location.volume, kind

    def database_tells(self, message):
        if message.opcode in LOOKING and message.code == 0 and self.is_first:
            location = message.fields[-1]
            if self.cell.site.get(location.volume) != location.home():
                self.fault("site", f"the database tells {location.home()} for volume {location.volume}, and its lines {self.cell.site.get(location.volume)}")

    def asks(self, message):
        """A call that is sent: one call under one key, and of a client the one that its act asks."""
        key = message.key()
        first = self.calls.setdefault(key, message)
        if (first.receiver, first.opcode, first.stamp, first.user) != (message.receiver, message.opcode, message.stamp, message.user) or not same_fields(first, message):
            self.fault("one call", f"two calls are sent under {key}")
        act = self.acts.get(message.sender)
        if act and first is message:
            act.calls.append(message)
            if message.sender[0] == "c":
                self.is_asked_by(act, message)
            if message.opcode == BY_NAME and act.locked:
                act.recovering = True

    def is_asked_by(self, act, message):
        """What changes something is just what the act says, for the client's user."""
        if message.user != self.cell.users.get(message.sender, b"guest"):
            self.fault("call", f"{message.sender} calls for another user")
        if message.opcode not in ideal.CHANGES:
            return
        word = act.words[0]
        if CALL_OF.get(word) != message.opcode:
            self.fault("call", f"{word} asks for call {message.opcode}")
            return
        fields = message.fields
        wanted = []
        if word in TO_PARENT:
            wanted = [self.parent_of(act, act.words[1]), last_name(act.words[1])]
        elif word == "mv":
            wanted = [self.parent_of(act, act.words[1]), last_name(act.words[1]), self.parent_of(act, act.words[2]), last_name(act.words[2])]
        elif word == "ln":
            wanted = [self.parent_of(act, act.words[2]), last_name(act.words[2]), self.object_of(act, act.words[1])]
        else:
            wanted = [self.object_of(act, act.words[1])]
        if fields[:len(wanted)] != wanted:
            self.fault("call", f"{' '.join(act.words)[:80]} asks for {fields[:len(wanted)]}, and not for {wanted}")
        data = {"close": -1, "setacl": 1, "symlink": 2}.get(word)
        if data is not None and fields[data] != ideal.contents(act.words[2]):
            self.fault("call", f"{word} sends other bytes than its own")
        if word == "chmod" and (fields[1][0], fields[1][4]) != (8, int(act.words[2], 8)):
            self.fault("call", "chmod sets another mode")

    # ---- paths, by what the act has read

    def start_of(self, act, word):
        """The volumes that a path may name: those of which the act has read or asked something come last."""
        name, kind = base_of(word)
        numbers = self.cell.names.get(ideal.unescaped(name).decode("latin-1"), [])
        if kind:
            numbers = [number for number, known in self.cell.family.items() if known[0] in numbers and known[1] == kind]
        used = {fid[0] for fid, *_ in act.reads} | {fid[0] for call in act.calls if call.receiver != "loc" for fid in call.objects()}
        return sorted(numbers, key=lambda number: number in used)

    def walked(self, act, word, parts):
        """The object behind these names, or the code that the walk ends with; None where the act hasn't read so far."""
        found = None
        for volume in self.start_of(act, word):
            fid = (volume, 1, 1)
            for place, part in enumerate(parts):
                if fid[1] % 2 == 0:
                    fid = 20
                    break
                body = next((read[3] for read in reversed(act.reads) if read[0] == fid and read[3][:2] == "d:"), None)
                if body is None:
                    fid = None
                    break
                names = dict(pair.split("=") for pair in body[2:].split(",") if pair)
                if ideal.escaped(part) not in names:
                    fid = 2
                    break
                vnode, unique = names[ideal.escaped(part)].split(".")
                fid = (volume, int(vnode), int(unique))
            if fid is not None:
                found = fid
        return found

    def object_of(self, act, word):
        if word[0] == "@":
            return tuple(int(part) for part in word[1:].split("."))
        return self.walked(act, word, parts_of(word))

    def parent_of(self, act, word):
        return self.walked(act, word, parts_of(word)[:-1])

    # ---- what is given

    def on_given(self, words, _):
        place = int(words[1])
        message = self.messages.get(place)
        if message is None or message.receiver != self.entry.node:
            self.fault("given", f"message {place} wasn't sent to {self.entry.node}")
            return
        self.given = message
        node = self.entry.node
        if message.half == "call" and node == "loc":
            self.database_ran = message.opcode
            known = message.key(), message.boot
            self.is_first = known not in self.looked_up and message.boot == self.boots.get(node, 1)
            self.looked_up.add(known)
        if message.half == "call" and node[0] == "s":
            self.last_given[node] = self.entry
            self.takes_call(message)
        elif message.half != "call" and node[0] in "ca":
            self.takes_reply(message)

    def takes_call(self, message):
        """The first entry in a boot that is given a call with that boot's number runs it."""
        server = self.entry.node
        known = server, message.key(), message.boot
        if message.boot != self.boots.get(server, 1) or known in self.ran:
            return
        expected = self.expected(server, message) if message.sender[0] == "c" else None
        self.ran[known] = Ran(self.entry.number, expected)
        reply = self.codes.get(known)
        if message.opcode == TRANS_CREATE:
            self.held.setdefault(server, set()).add(message.fields[1])
        if message.opcode == CREATE_VOLUME:
            self.held.setdefault(server, set()).add(message.fields[1])
            self.made[server, message.fields[1]] = message
            if message.fields[3] == 0 and reply and reply.code == 0 and not self.entry.named("crash") and not self.entry.named("fault"):
                self.cell.copies.setdefault(message.fields[1], set()).add(server)
        if message.opcode == RESTORE and message.sender[0] == "a":
            before = self.dumps.get((server, message.fields[0]), b"") if message.fields[2] else b""
            self.dumps[server, message.fields[0]] = before + message.fields[4]
        if message.opcode in (CLONE, RECLONE):
            self.clones(message, reply)

    def clones(self, message, reply):
        """A clone is made in this entry, or in the restart behind it."""
        volume = message.fields[0]
        stopped = self.entry.named("crash") or self.entry.named("fault")
        if reply and reply.code == 0 and not stopped:
            self.releases.setdefault((volume, reply.fields[1]), []).append(self.entry.number)
        elif stopped or not reply:
            self.unknown.setdefault(volume, []).append(self.entry.number)

    def expected(self, server, message):
        """The codes that a call of a client may be answered with, by the ideal volumes as they are now."""
        if message.opcode == GIVE_UP or not message.objects():
            return None
        numbers = {fid[0] for fid in message.objects()[:1 if message.opcode in ideal.CHANGES else None]}
        if not all(number in self.cell.volumes for number in numbers):
            copies = all(number in self.cell.family for number in numbers)
            return None if copies and message.opcode not in ideal.CHANGES else {20, 21, 30, 102, *PASSING, *GONE_AWAY}
        if not all(server in self.cell.writable.get(number, ()) for number in numbers):
            return {*PASSING, *GONE_AWAY}
        code = 0
        fields = [[fid] for fid in message.objects()] if message.opcode == 155 else [message.fields]
        for each in fields:
            opcode = 132 if message.opcode == 155 else message.opcode
            code, _ = ideal.operate(self.cell.volumes[each[0][0]], opcode, each, message.user)
            if code:
                break
        allowed = {code, 108} if code == 0 and message.opcode in ideal.CHANGES else {code}
        return allowed | set(PASSING) if numbers & self.held.get(server, set()) else allowed

    def takes_reply(self, message):
        """A client or an administrator is given the reply to the last call of its act."""
        act = self.acts.get(self.entry.node)
        if not (act and act.calls and message.half == "reply"):
            return
        call = act.calls[-1]
        if (message.key(), message.sender, message.opcode) != (call.key(), call.receiver, call.opcode):
            return
        act.codes.append((call, message.code))
        if message.opcode == SET_LOCK and message.code == 0:
            act.stored = message.fields[1]
            act.locked = True
            act.recovering = act.recovering or act.words[0] == "recover"
        if message.opcode == CREATE_ENTRY and message.code == 0:
            act.locked = True

    # ---- promises

    def on_grant(self, words, _):
        server, client, fid, index, expiry = words[1], words[2], fid_of(words[3]), int(words[4]), int(words[5])
        cell = self.cell
        last = cell.last(fid)
        message = self.given
        if server != self.entry.node or not (message and message.half == "call" and message.sender == client and message.opcode in GRANTING):
            self.fault("grant", f"{server} promises {client} {words[3]} without a call for it")
        if expiry != cell.clock + TERM:
            self.fault("grant", f"a promise ends at {expiry}, and it is {cell.clock}")
        if fid[0] in cell.volumes:
            if server not in cell.writable.get(fid[0], ()):
                self.fault("grant", f"{server} promises {words[3]}, and doesn't accept stores of it")
            if last is None or last.index != index:
                self.fault("grant", f"{server} promises version {index} of {words[3]}, and the last is {last and last.index}")
        grant = Grant(self.entry.number, self.boots.get(server, 1), index, expiry)
        self.grants[server, client, fid] = grant
        self.by_entry[self.entry.number, client, fid] = grant

    def live(self, test):
        """The promises that last, and on which no break is owed, that pass a test."""
        for known, grant in self.grants.items():
            if test(*known) and grant.expiry > self.cell.clock and grant.boot == self.boots.get(known[0], 1) and not (grant.withdrawn or grant.dropped or grant.owed):
                yield known, grant

    def withdraw(self, test):
        """Promises are withdrawn; a break is owed for each that lasts, in this entry."""
        for known, _ in list(self.live(test)):
            self.demands[known] = True
        for known, grant in self.grants.items():
            if test(*known):
                grant.withdrawn = True

    def on_owe(self, words, _):
        server, client, number = words[1], words[2], int(words[4])
        subject = None if words[3] == "all" else fid_of(words[3])
        boot = self.boots.get(server, 1)
        if number <= self.last_owe.get((server, boot), 0):
            self.fault("owes", f"break {number} of {server} comes behind {self.last_owe[server, boot]}")
        self.last_owe[server, boot] = number
        grant = self.grants.get((server, client, subject))
        expiry = grant.expiry if grant else self.cell.clock + TERM
        if subject:
            if grant and subject[0] not in self.cell.volumes:
                grant.withdrawn = True           # no line tells that a copy is restored or cloned anew
            if not grant or not grant.withdrawn:
                self.fault("owes", f"{server} owes {client} a break on {words[3]}, which wasn't withdrawn")
            else:
                grant.owed = True
            self.demands.pop((server, client, subject), None)
        self.owes[server, client, number] = Owe(self.entry.number, boot, subject, expiry, len(self.messages) + 1)

    def on_drop(self, words, _):
        client = words[1]
        if client != self.entry.node:
            self.fault("drop", f"{client} drops something in an entry of {self.entry.node}")
        if words[2] == "all":
            self.drops(client, lambda server, fid: server == words[3])
        else:
            self.drops(client, lambda server, fid: fid == fid_of(words[2]))

    def drops(self, client, test):
        for (server, other, fid), grant in self.grants.items():
            if other == client and test(server, fid):
                grant.dropped = True
        for (other, fid), (server, grant) in self.rests_on.items():
            if other == client and test(server, fid) and grant:
                grant.dropped = True
        for (server, other, _), owe in self.owes.items():
            if other == client and (test(server, owe.subject) if owe.subject else test(server, None)):
                owe.dropped = True
        if self.given and self.given.half == "call":
            for known in [known for known in self.learned if known[0] == client and self.given.opcode == BREAK and known[1] in self.given.fields[0]]:
                del self.learned[known]

    def on_settle(self, words, _):
        server, client, number = words[1], words[2], int(words[3])
        owe = self.owes.get((server, client, number))
        if owe is None or owe.ended:
            self.fault("settle", f"{server} settles break {number} of {client}, which isn't owed")
            return
        if not owe.dropped:
            self.fault("settle", f"{server} settles break {number}, and {client} has dropped nothing since")
        message = self.given
        if not (message and message.half == "reply" and message.sender == client and self.carries(server, client, message.key(), owe)):
            self.fault("settle", f"{server} settles break {number} of {client} without its reply")
        owe.ended = True

    def on_quit(self, words, _):
        server, client, number = words[1], words[2], int(words[3])
        owe = self.owes.get((server, client, number))
        if owe is None or owe.ended:
            self.fault("quit", f"{server} gives up break {number} of {client}, which isn't owed")
            return
        keys = [f"{server}.{line[3]}" for line in self.entry.named("timeout") if line[1:3] == [server, client] and line[4] == str(LAST_TIMEOUT)]
        if not any(self.carries(server, client, key, owe) for key in keys):
            self.fault("quit", f"{server} gives up break {number} of {client} without a third timeout of its call")
        owe.ended = True

    def carries(self, server, client, key, owe):
        """Whether the call under a key brings this break: it was sent when that was owed."""
        call = self.calls.get(key)
        if call is None or call.receiver != client or call.sender != server or call.place < owe.first_place:
            return False
        return call.opcode == BREAK_ALL if owe.subject is None else call.opcode == BREAK and owe.subject in call.fields[0]

    def on_timeout(self, words, _):
        caller, callee, pair, count = words[1], words[2], words[3], int(words[4])
        key = f"{caller}.{pair}"
        call = self.calls.get(key)
        if call is None or call.receiver != callee or caller != self.entry.node:
            self.fault("timeout", f"{caller} has no call {pair} to {callee}")
        if count != self.timeouts.get(key, 0) + 1 or count > LAST_TIMEOUT:
            self.fault("timeout", f"timeout {count} of {key} comes behind {self.timeouts.get(key, 0)}")
        self.timeouts[key] = count
        act = self.acts.get(caller)
        if act and count == LAST_TIMEOUT and call:
            act.codes.append((call, -1))

    # ---- replies of servers

    def replies(self, message):
        if message.receiver[0] not in "ca" and message.receiver[0] != "s":
            return
        server = message.sender
        ran = self.ran.get((server, message.key(), message.boot))
        if ran is None:
            if not -455 <= message.code <= -453:
                self.fault("reply", f"{server} answers {message.key()}, which it didn't run in boot {message.boot}")
            return
        if ran.expected is not None and message.code not in ran.expected:
            self.fault("code", f"{server} answers {message.key()} (call {message.opcode}) {message.code}, and not {sorted(ran.expected)}")
        if message.code != 0:
            return
        boot = self.boots.get(server, 1)
        for (owner, client, number), owe in self.owes.items():
            if owner == server and not owe.ended and owe.boot == boot:
                if owe.subject is not None and owe.entry in ran.entries:
                    self.fault("waits", f"{server} answers {message.key()} while break {number} of {client} is open")
                elif owe.subject is None and ran.fixed:
                    self.fault("waits", f"{server} answers {message.key()} while its break {number} on all of {client} is open")
        if message.receiver[0] == "c" and message.opcode in READING and ran.entries == [self.entry.number]:
            self.is_newest(message)

    def is_newest(self, message):
        """What a server tells of a read-write volume are last versions."""
        call = self.calls[message.key()]
        fids = call.objects()
        statuses = message.fields[0] if message.opcode == 155 else [next(field for field in message.fields if isinstance(field, Status))]
        for fid, status in zip(fids, statuses):
            last = self.cell.last(fid)
            if fid[0] in self.cell.volumes and (last is None or status.index != last.index):
                self.fault("newest", f"{message.sender} tells version {status.index} of {fid_text(fid)}, and the last is {last and last.index}")

    # ---- changes

    def on_change(self, words, lines):
        server, key = words[1], words[2]
        cell = self.cell
        call = self.calls.get(key)
        versions = [version_of(line) for line in lines]
        numbers = {fid[0] for fid, *_ in versions}
        if key in self.changed:
            self.fault("once", f"call {key} makes a change once more")
        self.changed[key] = [(fid, index) for fid, index, *_ in versions]
        if self.entry.node != server or call is None or call.receiver != server:
            self.fault("change", f"{server} makes a change for {key}, which it wasn't sent")
            return
        for number in numbers:
            if server not in cell.writable.get(number, ()):
                self.fault("change", f"{server} makes a change of volume {number}, and doesn't accept stores of it")
        for known, ran in self.ran.items():
            if known[:2] == (server, key):
                ran.fixed = True
                if self.entry.number not in ran.entries:
                    ran.entries.append(self.entry.number)
        volume = cell.volumes.get(call.fields[0][0])
        code, after = ideal.operate(volume, call.opcode, call.fields, call.user) if volume and call.opcode in ideal.CHANGES else (None, None)
        if code != 0:
            self.fault("change", f"{server} makes a change for {key}, and the ideal cell answers {code}")
        else:
            wanted = [((volume.number, vnode, unique), *rest) for vnode, unique, *rest in ideal.versions_between(volume, after)]
            if wanted != versions:
                self.fault("change", f"{server} makes {versions} for {key}, and not {wanted}"[:400])
            cell.volumes[volume.number] = after
            self.note(after, self.entry.number)
        for fid, index, version, body in versions:
            vnode = after.vnodes.get(fid[1]) if after else None
            cell.versions.setdefault(fid, []).append(Version(index, version, body, vnode))
        changed = {fid for fid, *_ in versions}
        self.withdraw(lambda owner, client, fid: owner == server and fid in changed and client != call.sender)

    def on_made(self, words, lines):
        server, number = words[1], int(words[2])
        cell = self.cell
        versions = [version_of(line) for line in lines]
        if number in cell.volumes:
            self.fault("made", f"volume {number} is made twice")
            return
        call = self.made.get((server, number))
        dump = self.dumps.get((server, number))
        volume = ideal.restored(number, Dump(dump)) if dump else ideal.Volume(number, call.fields[5] if call else 0)
        wanted = sorted((vnode, each.unique, *each.told()) for vnode, each in volume.vnodes.items())
        if [((number, vnode, unique), *rest) for vnode, unique, *rest in wanted] != versions:
            self.fault("made", f"volume {number} is made as {versions}, and not as {wanted}"[:400])
        cell.volumes[number] = volume
        cell.copies.setdefault(number, set()).add(server)
        cell.tell_all(volume)
        self.note(volume, self.entry.number)

    # ---- where stores are accepted

    def on_enable(self, words, _):
        volume, server = int(words[1]), words[2]
        cell = self.cell
        if cell.writable.get(volume):
            self.fault("enable", f"volume {volume} comes into service at {server} beside {sorted(cell.writable[volume])}")
        if cell.site.get(volume) != server:
            self.fault("enable", f"volume {volume} comes into service at {server}, and the database says {cell.site.get(volume)}")
        cell.writable.setdefault(volume, set()).add(server)

    def on_fence(self, words, _):
        self.takes_out(int(words[1]), words[2])
        if words[2] not in self.cell.writable.get(int(words[1]), ()):
            self.fault("fence", f"volume {words[1]} goes out of service at {words[2]}, where it wasn't in")
        self.cell.writable.setdefault(int(words[1]), set()).discard(words[2])

    def on_vanish(self, words, _):
        volume, server = int(words[1]), words[2]
        if self.cell.site.get(volume) == server:
            self.fault("vanish", f"volume {volume} is deleted at {server}, where the database says that it is")
        self.takes_out(volume, server)
        self.cell.writable.setdefault(volume, set()).discard(server)
        self.cell.copies.setdefault(volume, set()).discard(server)

    def takes_out(self, volume, server):
        """All promises on a volume are withdrawn, and the call waits for their breaks."""
        self.withdraw(lambda owner, client, fid: owner == server and fid[0] == volume)
        given = self.given or self.interrupted.get(server)
        if given and given.half == "call":
            for known, ran in self.ran.items():
                if known[:2] == (server, given.key()):
                    ran.fixed = True

    def on_located(self, words, _):
        self.cell.site[int(words[1])] = words[2]

    def on_unlocked(self, words, _):
        if self.database_ran == DELETE_ENTRY:
            self.cell.site[int(words[1])] = None

    def on_recovered(self, words, _):
        volume = int(words[1])
        site = self.cell.site.get(volume)
        if self.cell.writable.get(volume, set()) != {site}:
            self.fault("recovered", f"volume {volume} accepts stores at {sorted(self.cell.writable.get(volume, ()))}, and the database says {site}")
        if self.cell.copies.get(volume, set()) - {site}:
            self.fault("recovered", f"volume {volume} is left at {sorted(self.cell.copies[volume] - {site})}")

    # ---- nodes that stop and start

    def on_crash(self, words, _):
        node = words[1]
        self.stops(node)
        if node[0] in "ca":
            self.acts.pop(node, None)
            self.drops(node, lambda server, fid: True)
            for table in (self.rests_on, self.learned, self.read_release, self.fetched_release):
                for known in [known for known in table if known[0] == node]:
                    del table[known]

    def on_fault(self, words, _):
        self.stops(words[1])

    def on_full(self, words, _):
        self.down.add(words[1])

    def stops(self, node):
        if node not in self.down:
            self.interrupted[node] = self.given
        self.down.add(node)
        for known, grant in self.grants.items():
            if known[0] == node:
                grant.withdrawn = True
        for known, owe in self.owes.items():
            if known[0] == node:
                owe.ended = True

    def on_restart(self, words, _):
        node, boot = words[1], int(words[2])
        if node not in self.down or boot <= self.boots.get(node, 1):
            self.fault("restart", f"{node} begins boot {boot}")
        self.down.discard(node)
        self.boots[node] = boot
        self.interrupted.pop(node, None)
        self.held.pop(node, None)
        if node[0] == "s":
            owed = {line[2] for line in self.entry.named("owe") if line[1] == node and line[3] == "all"}
            for client in self.cell.clients:
                if client not in owed:
                    self.fault("owes", f"{node} begins again and owes {client} no break on all")

    # ---- acts

    def on_begin(self, words, _):
        node = words[1]
        count = self.begun.get(node, 0)
        acts = self.cell.acts.get(node, [])
        if count >= len(acts) or acts[count] != words[2:]:
            self.fault("begin", f"{' '.join(words[1:])[:80]} isn't the next act of {node}")
        if node in self.acts:
            self.fault("begin", f"{node} begins an act beside another")
        self.begun[node] = count + 1
        self.acts[node] = Act(words[2:], self.entry.number)

    def on_read(self, words, _):
        client, fid, index, how, body = words[1], fid_of(words[2]), int(words[3]), words[4], " ".join(words[5:])
        act = self.acts.get(client)
        if act is None or client != self.entry.node:
            self.fault("read", f"{client} reads {words[2]} and runs no act")
            return
        act.reads.append((fid, index, how, body))
        if how == "fetched":
            self.is_brought(client, act, fid, index, body)
        if fid[0] in self.cell.volumes:
            self.of_volume(client, act, fid, index, how, body)
        else:
            self.of_copy(client, fid, index, how, body)
        self.has_come(client, fid, index, how, body)

    def is_brought(self, client, act, fid, index, body):
        """What is fetched just now is what the reply to the act's call brings."""
        message = self.given
        wanted = {"s": (132, 155), "a": (131,)}.get(body[0], (130,))
        if not (message and message.half == "reply" and message.code == 0 and message.opcode in wanted and act.calls and message.key() == act.calls[-1].key()):
            self.fault("fetched", f"{client} reads {fid_text(fid)}, and no reply brings it")
            return
        fids = self.calls[message.key()].objects()
        statuses = message.fields[0] if message.opcode == 155 else [next(field for field in message.fields if isinstance(field, Status))]
        if (fid, index) not in [(each, status.index) for each, status in zip(fids, statuses)]:
            self.fault("fetched", f"{client} reads version {index} of {fid_text(fid)}, and its reply has {[status.index for status in statuses][:5]}")
        if message.opcode == 130 and body[:2] in ("f:", "l:") and bytes.fromhex(body[2:]) != message.fields[0]:
            self.fault("fetched", f"{client} reads other bytes of {fid_text(fid)} than its reply has")

    def of_volume(self, client, act, fid, index, how, body):
        """A read of a read-write volume."""
        cell = self.cell
        name = fid_text(fid)
        version = cell.at(fid, index)
        last = cell.last(fid)
        if version is None or version.body == "gone" or not version.shows(body):
            self.fault("whole", f"version {index} of {name} is read as {body[:60]}")
        if index < self.seen.get((client, fid), 0):
            self.fault("not older", f"{client} reads version {index} of {name}, and has seen {self.seen[client, fid]}")
        self.seen[client, fid] = max(index, self.seen.get((client, fid), 0))
        if body[:2] == "a:":
            return                           # the act has just asked for it, and the reply told the last version
        server, grant = self.promise(client, fid, how)
        if grant is None:
            self.fault("newest", f"{client} reads {name} without a promise")
        elif grant.expiry <= cell.clock:
            self.fault("newest", f"{client} reads {name} by a promise that ended at {grant.expiry}")
        elif grant.dropped:
            self.fault("newest", f"{client} reads {name} by a promise that it has dropped")
        elif not grant.withdrawn and last and index != last.index:
            self.fault("newest", f"{client} reads version {index} of {name}, and the last is {last.index}")
        if how == "fetched":
            self.rests_on[client, fid] = server, grant

    def promise(self, client, fid, how):
        """The server and the promise that a read rests on."""
        if how != "fetched":
            return self.rests_on.get((client, fid), (None, None))
        message = self.given
        if not (message and message.half == "reply"):
            return None, None
        ran = self.ran.get((message.sender, message.key(), message.boot))
        grants = [self.by_entry.get((entry, client, fid)) for entry in ran.entries] if ran else []
        return message.sender, next((grant for grant in grants if grant), None)

    def has_come(self, client, fid, index, how, body):
        """What a read shows came to the client by a call, or was stored by it, since it began."""
        known = self.learned.setdefault((client, fid), {"bodies": set(), "statuses": set()})
        if body[0] in "fdl" and body[1] == ":":
            if how == "cached" and body not in known["bodies"]:
                self.fault("came", f"{client} shows {body[:40]} of {fid_text(fid)}, which never came to it")
            known["bodies"].add(body)
        elif body[0] == "s" and how == "cached" and not known["bodies"] and not known["statuses"]:
            self.fault("came", f"{client} shows a status of {fid_text(fid)}, which never came to it")
        known["statuses"].add(index)

    # ---- copies

    def of_copy(self, client, fid, index, how, body):
        """A read of a read-only volume or a backup shows the volume as it was when the clone of its release was made."""
        if fid[0] not in self.cell.family:
            self.fault("read", f"{client} reads {fid_text(fid)}, of which no volume is known")
            return
        volume, kind = self.cell.family[fid[0]]
        if how == "fetched":
            self.fetched_release[client, fid] = self.given.release() if self.given else None
        release = self.fetched_release.get((client, fid))
        own = (volume, fid[1], fid[2])
        version = self.cell.at(own, index)
        if version is None or version.body == "gone" or not version.shows(body):
            self.fault("whole", f"version {index} of {fid_text(fid)} is read as {body[:60]}")
        if release is None or not any(self.index_behind(own, cut) == index for cut in self.cuts(volume, release)):
            self.fault("release", f"{client} reads version {index} of {fid_text(fid)} at release {release}, where it wasn't the last")
        known = (client, fid[0] if kind == ".readonly" else fid)
        if release is not None and release < self.read_release.get(known, 0):
            self.fault("not older", f"{client} reads {fid_text(fid)} at release {release}, and has read release {self.read_release[known]}")
        self.read_release[known] = max(release or 0, self.read_release.get(known, 0))

    def cuts(self, volume, release):
        """The entries behind which a volume may first have had a release."""
        known = self.releases.get((volume, release))
        return [known[0]] if known else self.unknown.get(volume, [])

    def index_behind(self, fid, entry):
        """The last index of an object behind an entry, or behind the restart that tells it whole."""
        known = {}
        for at, indexes in self.history.get(fid[0], []):
            if at <= entry:
                known = indexes
        return known.get(fid[1:])

    # ---- answers

    def on_answer(self, words, _):
        node, code = words[1], int(words[2])
        act = self.acts.pop(node, None)
        if act is None or node != self.entry.node:
            self.fault("answer", f"{node} answers, and runs no act")
        elif node[0] == "c":
            self.client_answers(node, act, code, words[3:])
        else:
            self.admin_answers(node, act, code, words[3:])

    def client_answers(self, client, act, code, more):
        reason = self.cause(client, act, code, more)
        if reason:
            self.fault("answer", f"{client} answers {' '.join(act.words)[:60]} {code}: {reason}")
        if code == 0 and act.words[0] in CALL_OF:
            keys = [call.key() for call in act.calls]
            made = [key for key in keys if key in self.changed]
            if not made:
                self.fault("acknowledged", f"{client} answers {act.words[0]} 0, and nothing was changed")
            for key in made:
                for fid, index in self.changed[key]:
                    self.seen[client, fid] = max(index, self.seen.get((client, fid), 0))
                if act.words[0] == "close":
                    fid = self.changed[key][0][0]
                    self.learned.setdefault((client, fid), {"bodies": set(), "statuses": set()})["bodies"].add("f:" + ideal.contents(act.words[2]).hex())

    def cause(self, client, act, code, more):
        """None where the answer has its cause, else what is missing."""
        word = act.words[0]
        here = [known for known in act.codes if self.given and self.given.half == "reply" and known[0].key() == self.given.key()] if act.codes else []
        told = here[-1][1] if here and here[-1] is act.codes[-1] else None
        timed = any(line[4] == str(LAST_TIMEOUT) for line in self.entry.named("timeout"))
        is_copy = any(self.is_copy(operand) for operand in act.operands())
        refusals = [known for known in act.codes if known[0].receiver != "loc" and known[1] not in (0, -1, *PASSING)]
        if code == 105:
            return self.older(client, act, more)
        if code == 0:
            if told not in (0, None) or timed:
                return "its last call failed"
            if act.calls and word != "giveup" and told is None and not all(read[2] == "cached" for read in act.reads[-1:]):
                return "no reply came"
            return None if word in CALL_OF or word == "giveup" else self.has_read(act)
        if code == -1:
            return None if timed and not (is_copy and refusals) or is_copy and not refusals else "no third timeout"
        if code in (2, 20, 21, 22) and self.own_code(act) == code:
            return None
        if code in PASSING:
            passing = [known for known in act.codes if known[1] in PASSING]
            return None if told == code and len(passing) == 9 else "it isn't the ninth such reply"
        if code == NO_ENTRY:
            looked = self.given and self.given.half == "reply" and self.given.sender == "loc" and self.given.opcode in LOOKING
            return None if looked else "the database wasn't asked"
        if is_copy and refusals and refusals[-1][1] == code:
            return None
        if code in GONE_AWAY and refusals and refusals[-1][1] == code:
            return self.is_not_moved(act, told)
        return None if told == code else "no reply has that code"

    def is_copy(self, operand):
        if operand[:1] == "@":
            return int(operand[1:].split(".")[0]) not in self.cell.volumes
        return bool(base_of(operand)[1])

    def older(self, client, act, more):
        offered, seen = (int(word) for word in more)
        numbers = [number for number in self.cell.family if self.cell.family[number][1] == ".readonly"]
        if seen not in [self.read_release.get((client, number)) for number in numbers]:
            return f"it hasn't read release {seen}"
        told = [self.messages[place].release() for place in self.messages if self.messages[place].receiver == client and self.messages[place].half == "reply"
                and self.messages[place].opcode in READING and self.messages[place].key() in [call.key() for call in act.calls]]
        return None if offered < seen and offered in told else f"no server told it release {offered}"

    def has_read(self, act):
        """What an act that reads has to have read."""
        word = act.words[0]
        wanted = {"open": "f:", "list": "d:", "readlink": "l:", "stat": "s:", "getacl": "a:"}.get(word)
        if word == "statall":
            return None if any(read[3][:2] == "d:" for read in act.reads) else "it has read no directory"
        fid = self.object_of(act, act.words[1])
        return None if any(read[0] == fid and read[3][:2] == wanted for read in act.reads) else "it hasn't read that"

    def own_code(self, act):
        """The code that the act gives itself, by what it has read."""
        word = act.words[0]
        if word in (*TO_PARENT, "mv", "ln"):
            paths = [(path, word != "ln" or place == 1) for place, path in enumerate(act.operands())]
            if any(is_parent and "/" not in path for path, is_parent in paths):
                return 22
            ends = [self.parent_of(act, path) if is_parent else self.object_of(act, path) for path, is_parent in paths]
            codes = [end if isinstance(end, int) else 20 for end, (_, is_parent) in zip(ends, paths) if isinstance(end, int) or (end and is_parent and end[1] % 2 == 0)]
            if codes:
                return codes[0]
            return 22 if len(paths) == 2 and all(ends) and ends[0][0] != ends[1][0] else None
        end = self.object_of(act, act.words[1])
        if isinstance(end, int):
            return end
        read = next((body for fid, _, _, body in reversed(act.reads) if fid == end and body[:2] in ("f:", "d:", "l:")), None)
        if read is None:
            return None
        codes = {"open": {"d:": 21, "l:": 22}, "readlink": {"d:": 21, "f:": 22}, "list": {"f:": 20, "l:": 20}, "statall": {"f:": 20, "l:": 20}}
        return codes.get(word, {}).get(read[:2])

    def is_not_moved(self, act, told):
        """103 and 111 are answers where the database, asked again, names the same server, or the fifth time."""
        looks = [call for call in act.calls if call.receiver == "loc"]
        if told in GONE_AWAY:
            return None if len(looks) >= 4 else "the database wasn't asked again"
        location = self.given.fields[-1] if self.given and self.given.half == "reply" and self.given.sender == "loc" and self.given.code == 0 else None
        asked = next((call.receiver for call in reversed(act.calls) if call.receiver != "loc"), None)
        return None if location and location.home() == asked else "the database names another server"

    def admin_answers(self, admin, act, code, more):
        """Its first failure, or what another administrator's lock makes of it."""
        failures = [known for _, known in act.codes if known != 0]
        last_failed = bool(act.codes) and act.codes[-1][1] != 0 and (self.given is not None or bool(self.entry.named("timeout")))
        stuck = more == ["stuck"]
        last = act.codes[-1][1] if act.codes else 0
        if last_failed and act.locked and last in SUPERSEDED:
            good = code == last and not stuck
        elif stuck:
            good = act.recovering and (code == failures[0] if failures else code == 103)
        elif failures:
            good = code == failures[0]
        elif code == 22:
            good = act.words[0] in ("addsite", "move") and self.is_there(act)
        elif code == 2:
            good = act.words[0] == "restore" and not act.calls
        else:
            good = code == 0 and bool(act.calls) and not (act.words[0] in ("addsite", "move") and self.is_there(act))
        if not good:
            self.fault("answer", f"{admin} answers {' '.join(act.words)[:60]} {code}{' stuck' if stuck else ''}, and its calls failed with {failures[:5]}")

    def is_there(self, act):
        """By the entry that it has locked the site or the volume is there already."""
        if act.stored is None:
            return False
        return act.words[2] in act.stored.copies() if act.words[0] == "addsite" else act.words[2] == act.stored.home()

    # ---- the end

    def end(self):
        """In the end each volume in service is the ideal one, and stands where stores are accepted."""
        found = {}
        volume = None
        for words in self.final:
            if words[0] == "volume":
                volume = words[1], int(words[2]), int(words[4]), int(words[5])
                found[volume] = {}
            else:
                found[volume][words[1]] = (int(words[3]), int(words[4]), " ".join(words[5:]))
        for number in sorted({*self.cell.writable, *(number for _, number, kind, _ in found if kind == 0)}):
            here = {server for server, other, kind, flags in found if (other, kind, flags) == (number, 0, 0)}
            unsure = {server for server in self.down if self.interrupted.get(server)}
            if here - unsure != self.cell.writable.get(number, set()) - unsure:
                self.fault("end", f"volume {number} is in service at {sorted(here)}, and accepts stores at {sorted(self.cell.writable.get(number, ()))}")
        for (server, number, kind, flags), vnodes in found.items():
            if kind == 0 and flags == 0 and server in self.cell.writable.get(number, ()):
                self.is_ideal(server, number, vnodes)

    def is_ideal(self, server, number, vnodes):
        volumes = [self.cell.volumes[number]]
        call = self.interrupted.get(server)
        if server in self.down and call and call.half == "call" and call.opcode in ideal.CHANGES and call.fields[0][0] == number:
            code, after = ideal.operate(volumes[0], call.opcode, call.fields, call.user)
            volumes += [after] if code == 0 else []
        wanted = [{f"{number}.{vnode}.{each.unique}": each.told() for vnode, each in volume.vnodes.items()} for volume in volumes]
        if vnodes not in wanted:
            differ = [fid for fid in {*vnodes, *wanted[0]} if vnodes.get(fid) != wanted[0].get(fid)]
            self.fault("end", f"volume {number} at {server} isn't made of its last versions: {differ[:3]}")


def fid_of(word):
    return tuple(int(part) for part in word.split("."))


def version_of(words):
    """A version line: fid, index, data version, body."""
    return fid_of(words[1]), int(words[2]), int(words[3]), " ".join(words[4:])


def parts_of(word):
    return [ideal.unescaped(part) for part in word.split("/")[1:]]


def last_name(word):
    return parts_of(word)[-1] if "/" in word else None


def same_fields(one, other):
    """Whether two calls name the same; entries of the location database are told apart by their bytes, which are compared elsewhere."""
    plain = [(a, b) for a, b in zip(one.fields, other.fields) if not hasattr(a, "sites")]
    return len(one.fields) == len(other.fields) and all(a == b for a, b in plain)


def faults(script, text):
    """What is wrong with the text that was printed for a script."""
    return Judge(script, text).faults


def main():
    with open(sys.argv[1], encoding="latin-1") as script, open(sys.argv[2], encoding="latin-1") as text:
        found = faults(script.read(), text.read())
    print("\n".join(found))
    return 1 if found else 0


if __name__ == "__main__":
    sys.exit(main())
