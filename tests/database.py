"""Makes histories of the location database, and tells what the reference program does in each.

python3 tests/database.py FOLDER FIRST COUNT CASES FORM: from this seed on so many histories of 400 steps, for tests/database.play. Each is a
file of the folder CASES, beside it with `.stdout` what the reference's locdb.py in FOLDER tells and sends by the rules of this form.
A step is a message, a crash with some pick, a stop or a failure of a device call to come, a restart, or a look at the disk. Messages are
calls of the database by many callers. Some are cut, have bytes too many or another bit, come again, name an older boot, or have a
number that is skipped.

No ReplaceEntry gives an entry another read-write number than that of the entry whose lock is held: two entries may share a number then,
and the reference finds the one that came first, where the database finds the one whose read-write number is lowest.
No message comes in the database's own name: the database answers -455, and the reference runs it.
"""

import random
import sys

folder, first, count, cases, form = sys.argv[1:]
sys.path.insert(0, folder)

from disk import Disk, Failed, Full  # noqa: E402
from locdb import Loc  # noqa: E402
from rules import Rules  # noqa: E402
from script import VolumeLine  # noqa: E402
from shapes import CALL, Entry, Head, encode_call  # noqa: E402
from store import BadRecord, LocState, Store  # noqa: E402

STEPS = 400
FIRST_ID = 536870912
LAST = 4294967295
CALLERS = ["c1", "c2", "c16", "a1", "a4", "s1", "s8"]
NAMES = [b"v0", b"v1", b"v2", b"proj", b"x.y-z_1", b"12", b"a.readonly", b"", b"n" * 22, b"n" * 23]
OPCODES = [501, 501, 502, 503, 504, 505, 506, 506, 506, 508, 508, 508, 509, 509, 510, 507]
FLAGS = [4, 2, 3, 8, 0]


class Outs:
    def __init__(self):
        self.lines, self.sent = [], []

    def line(self, text):
        self.lines.append(text)

    def send(self, data):
        self.sent.append(data)


class History:
    def __init__(self, seed):
        self.rng = random.Random(seed)
        self.rules = Rules("R" + form)
        self.steps, self.want = [], []
        self.numbers, self.old = {}, []
        rng = self.rng
        room = rng.choice([100000000, 100000000, 100000000, 3000, 1500])
        volumes = [("v%d" % i, rng.randrange(1, 9)) for i in range(rng.randrange(5))]
        self.steps += ["k %d" % room] + ["v %d %s" % (server, name) for name, server in volumes]
        self.state = LocState()
        for i, (name, server) in enumerate(volumes):
            line = VolumeLine(FIRST_ID + i, name.encode(), server, 1000)
            self.state.entries[line.id] = (line.entry(), None)
        self.state.next_id += len(volumes)
        self.disk = Disk(room)
        store = Store.create(self.disk, self.state, self.rules, 1)
        self.up, self.told = Loc(store), store.mark()

    # -- what is sent

    def ids(self):
        own = [0, 5, 536870920, self.state.next_id - 1]
        for entry, _ in self.state.entries.values():
            own += [entry.rw, entry.rw, entry.rw, entry.ro, entry.backup]
        return own

    def sites(self, most):
        return tuple((self.rng.randrange(1, 9), self.rng.choice(FLAGS)) for _ in range(self.rng.randrange(most)))

    def entry(self, own):
        """An entry, like this one or another that is listed, or new."""
        rng = self.rng
        if own is not None and rng.random() < 0.8:
            changes = [{}, {"ro": rng.choice([0, self.state.next_id - 1, 7])}, {"backup": rng.choice([0, self.state.next_id - 1])},
                       {"sites": self.sites(10)}, {"name": rng.choice(NAMES)}, {"flags": rng.randrange(LAST)}]
            return own._replace(**rng.choice(changes))
        if rng.random() < 0.6:
            some = [rng.randrange(2**31), rng.choice([0, 0, rng.randrange(2**31)]), rng.choice([0, 0, rng.randrange(2**31)])]
            return Entry(b"n%d" % rng.randrange(10**6), *some, 0x1000, self.sites(9))
        some = [rng.choice(self.ids()), rng.choice([0, 0] + self.ids()), rng.choice([0, 0, 0] + self.ids())]
        return Entry(rng.choice(NAMES), *some, rng.choice([0x1000, 0x7000, LAST]), self.sites(17))

    def call(self):
        rng, state = self.rng, self.state
        caller, epoch = rng.choice(CALLERS), rng.choice([1, 1, 1, 2])
        number = max(1, self.numbers.get((caller, epoch), 0) + rng.choice([1, 1, 1, 1, 2, 0]))
        self.numbers[caller, epoch] = number
        boot = state.boot if rng.random() < 0.95 else rng.choice([state.boot - 1, state.boot + 1])
        opcode = rng.choice(OPCODES)
        entries = list(state.entries.values())
        if opcode in (502, 506, 509) and rng.random() < 0.9:
            entries = [x for x in entries if x[1] is not None] or entries
        own, lock = rng.choice(entries) if entries else (None, None)
        id_ = rng.choice([own.rw, own.rw, own.ro, own.backup]) if own is not None and rng.random() < 0.85 else rng.choice(self.ids())
        stamp = lock[1] if lock is not None and rng.random() < 0.85 else rng.choice([0, state.next_stamp, rng.randrange(5)])
        entry = self.entry(own)
        if opcode == 506 and own is not None:
            entry = entry._replace(rw=own.rw)
            id_ = own.rw
        fields = {501: [entry], 502: [id_], 503: [id_], 504: [rng.choice(NAMES + [own.name] * 9 if own is not None else NAMES)], 505: [],
                  506: [id_, entry], 508: [id_, rng.choice([16, 32, 64, 128, 16, 16, 0, 256, 17]), rng.choice([0, 0, 1, 2])], 509: [id_],
                  510: [rng.choice([0, 1, 2, 3, 5, LAST])]}
        head = Head(CALL, caller, "loc" if rng.random() < 0.97 else "s1", epoch, number, boot, stamp, opcode)
        user = rng.choice([b"", b"", b"", b"guest", b"u" * 64])
        if opcode in fields:
            return encode_call(head, user, fields[opcode])
        data = encode_call(head._replace(opcode=505), user, [])
        return data[:28] + opcode.to_bytes(4, "big") + data[32:]

    def message(self):
        rng = self.rng
        if self.old and rng.random() < 0.12:
            return rng.choice(self.old)
        data = self.call()
        self.old.append(data)
        kind = rng.random()
        if kind < 0.05:
            return data[:rng.randrange(len(data) + 1)]
        if kind < 0.08:
            return data + bytes(rng.randrange(1, 5))
        if kind < 0.11:
            spoiled = bytearray(data)
            spoiled[rng.randrange(len(spoiled))] ^= 1 << rng.randrange(8)
            return data if spoiled[4:8] == bytes(4) else bytes(spoiled)
        if kind < 0.12:
            return data[:3] + bytes([rng.choice([2, 3])]) + data[4:]
        return data

    # -- steps

    def give(self, data):
        self.steps.append("g " + data.hex())
        if self.up is None:
            self.want.append("void")
            return
        outs = Outs()
        try:
            self.up.receive(data, 0, outs)
        except Failed as failed:
            self.want.append("stopped" if failed.stopped else "failed")
            if failed.stopped:
                self.disk.crash(self.disk.pick)
            self.disk.disarm()
            self.up = None
            return
        self.told = self.up.store.mark()
        self.want += outs.lines + ["sent " + sent.hex() for sent in outs.sent]

    def crash(self, pick):
        self.steps.append("c %d" % pick)
        if self.up is None:
            self.want.append("void")
            return
        self.disk.disarm()
        self.disk.crash(pick)
        self.up = None
        self.want.append("crash")

    def restart(self):
        self.steps.append("r")
        if self.up is not None:
            self.want.append("void")
            return
        state = LocState()
        try:
            store, lines = Store.attach(self.disk, state, self.told, self.rules, 1)
        except BadRecord:
            self.want.append("bad")
            return
        self.want += lines
        try:
            store.boot()
        except Full:
            self.want.append("full")
            self.told = store.mark()
            return
        self.state, self.up, self.told = state, Loc(store), store.mark()
        self.want.append("restart %d" % state.boot)

    def look(self):
        self.steps.append("d")
        self.want.append("records %d" % self.up.store.mark()[1] if self.up is not None else bytes(self.disk.now).hex())

    def step(self):
        rng = self.rng
        kind = rng.random()
        if kind < 0.02:
            self.crash(rng.randrange(4))
        elif kind < 0.05 and self.up is not None:
            passes, pick = rng.randrange(6), rng.randrange(4)
            self.steps.append("s %d %d" % (passes, pick))
            self.disk.arm(passes, pick)
        elif kind < 0.07 and self.up is not None:
            call = rng.randrange(1, 6)
            self.steps.append("f %d" % call)
            self.disk.fail_at(call)
        elif self.up is None and kind < 0.8 or kind > 0.99:
            self.restart()
        elif kind < 0.15:
            self.look()
        else:
            self.give(self.message())

    def play(self):
        for _ in range(STEPS):
            self.step()
        self.crash(0)
        self.look()


for seed in range(int(first), int(first) + int(count)):
    history = History(seed)
    history.play()
    with open("%s/from%d" % (cases, seed), "w") as out:
        out.write("\n".join(history.steps) + "\n")
    with open("%s/from%d.stdout" % (cases, seed), "w") as out:
        out.write("\n".join(history.want) + "\n")
