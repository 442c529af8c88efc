"""Tells what a reference program does in the steps of a server's node, and makes such steps.

python3 tests/volserver.py FOLDER row < ROW: a row of tests/plays/volserver again, with its comments and its steps, and what the reference in FOLDER
(its server.py and volserver.py) tells and sends in each. python3 tests/volserver.py FOLDER made FIRST COUNT STEPS CASES: so many steps that are made, for each of so
many seeds, as the player reads them, 125 runs in a file; and beside each file one with `.stdout` of what it has to print, in the folder CASES.
tests/plays/player/volserver.play says what the steps are.

A made run is of messages, of which some are cut, spoiled, of another boot or come again; of answers to the server's own calls, timeouts,
ticks, stops and failures of device calls, crashes with each pick, and restarts. At its end stand its volumes and the bytes of its disk.
"""

import random
import sys

folder = sys.argv[1]
sys.path.insert(0, folder)

import shapes  # noqa: E402
import text  # noqa: E402
import volume  # noqa: E402
from call import Outs  # noqa: E402
from disk import Disk, Failed, Full  # noqa: E402
from rules import Rules  # noqa: E402
from script import read_script  # noqa: E402
from server import Server  # noqa: E402
from store import BadRecord, Store, VolState  # noqa: E402

CELL = "cell 1\nservers 2\nclients %d\nadmins 2\nvolume proj s1 1000\nfile proj/a hex:616263\nend\n"
AMPLE = 268435456
HEADER = 32
PROJ = 536870912
# The volumes whose forwardings are shown.
SHOWN = range(PROJ, PROJ + 12)


def written(word):
    """The bytes of a field, or none where the word is a number."""
    if word.startswith("hex:"):
        return bytes.fromhex(word[4:])
    if word.startswith("text:"):
        return word[5:].encode()
    if word.startswith("fill:"):
        count, byte = word[5:].split(":")
        return bytes.fromhex(byte) * int(count)
    return None


def head(node, number, boot, stamp, opcode):
    words = [1, shapes.node_number(node), 1, 1, number, boot, stamp, opcode]
    return b"".join(word.to_bytes(4, "big") for word in words)


class Spelled:
    """A call with these fields behind its header and its user: its bytes, where counts stand in it, and where pad bytes do."""

    def __init__(self, node, number, boot, stamp, opcode, fields):
        self.data, self.counts, self.pads = head(node, number, boot, stamp, opcode), [], []
        self.put(b"guest" if node.startswith("c") else b"")
        for word in fields:
            value = written(word)
            if value is None:
                self.data += (int(word) % 2**32).to_bytes(4, "big")
            else:
                self.put(value)

    def put(self, value):
        self.counts.append(len(self.data))
        self.data += len(value).to_bytes(4, "big") + value
        while len(self.data) % 4:
            self.pads.append(len(self.data))
            self.data += b"\0"


class Bench:
    """A server's node with its disk, up or down, and those who call it."""

    def __init__(self, rules):
        self.rules = rules
        self.now, self.numbers, self.last, self.awaited = 0, {}, {}, {}
        self.up, self.disk, self.told = None, None, None

    def begin(self, clients, room=None):
        script = read_script((CELL % clients).encode(), self.rules)

        def made(capacity):
            state = VolState("s1")
            state.volumes = script.build(self.rules)[1]
            self.disk = Disk(capacity)
            return Store.create(self.disk, state, self.rules, script.format)

        store = made(AMPLE)
        if room is not None:
            store = made(store.length() + room)
        self.clients = script.clients
        self.up, self.told = Server("s1", store, self.clients, self.rules), store.mark()

    # -- steps of the node

    def guarded(self, work):
        outs = Outs()
        try:
            work(outs)
        except Failed as failed:
            if failed.stopped:
                self.disk.crash(self.disk.pick)
            self.disk.disarm()
            self.up = None
            return ["%s s1" % ("crash" if failed.stopped else "fault")]
        self.told = self.up.store.mark()
        return self.shown(outs.lines, outs.parcels)

    def shown(self, lines, parcels):
        """What a step tells and sends. Flag 4 and its line of a volume that is shut aren't built yet."""
        lines = [line for line in lines if not line.startswith("shut ")]
        for parcel in parcels:
            parcel.place = parcels.index(parcel) + 1
            if parcel.head.half == shapes.CALL:
                self.awaited[parcel.head.to] = parcel.head
        return lines + [text.sent(parcel, True) for parcel in parcels]

    def give(self, data):
        if self.up is None:
            return ["void"]
        return self.guarded(lambda outs: self.up.receive(data, self.now, outs))

    def boot(self):
        return self.up.store.state.boot if self.up is not None else 1

    def next_number(self, node):
        self.numbers[node] = self.numbers.get(node, 0) + 1
        return self.numbers[node]

    def spelled(self, node, stamp, opcode, fields):
        return Spelled(node, self.next_number(node), self.boot(), int(stamp), int(opcode), fields)

    def call(self, node, stamp, opcode, *fields):
        data = self.spelled(node, stamp, opcode, fields).data
        self.last[node] = data
        return self.give(data)

    def again(self, node):
        data = self.last[node]
        return self.give(data[:20] + self.boot().to_bytes(4, "big") + data[24:])

    def answered(self, node, half, boot):
        h = self.awaited[node]
        words = [half, shapes.node_number(node), 1, h.epoch, h.number, boot, 0, h.opcode]
        return b"".join(word.to_bytes(4, "big") for word in words)

    def answer(self, node, code):
        return self.give(self.answered(node, 2, 1) + (int(code) % 2**32).to_bytes(4, "big"))

    def notice(self, node, boot):
        return self.give(self.answered(node, 3, int(boot)))

    def timeout(self, node):
        if self.up is None or self.up.waits_on(node) is None:
            return ["void"]
        return self.guarded(lambda outs: self.up.timeout(node, self.now, outs))

    def wake(self):
        if self.up is None:
            return ["void"]
        return self.guarded(lambda outs: self.up.wake(self.now, outs))

    def tick(self, count):
        self.now += int(count)
        return []

    # -- its disk

    def stop(self, passes, pick):
        if self.up is None:
            return ["void"]
        self.disk.arm(int(passes), int(pick))
        return []

    def fail(self, call):
        if self.up is None:
            return ["void"]
        self.disk.fail_at(int(call))
        return []

    def crash(self, pick):
        if self.up is None:
            return ["void"]
        self.up = None
        self.disk.crash(int(pick))
        self.disk.disarm()
        return ["crash s1"]

    def restart(self):
        if self.up is not None:
            return ["void"]
        try:
            store, lines = Store.attach(self.disk, VolState("s1"), self.told, self.rules, 2)
        except BadRecord:
            return ["fault s1"]
        self.told = store.mark()
        try:
            effects = store.boot()
        except Full:
            return lines + ["full s1"]
        self.told = store.mark()
        self.up = Server("s1", store, self.clients, self.rules)
        outs = self.up.begin(self.now)
        return self.shown(lines + ["restart s1 %d" % store.state.boot] + effects + outs.lines, outs.parcels)

    # -- what is there

    def volumes(self):
        if self.up is None:
            return ["void"]
        state, out = self.up.store.state, []
        for id_, v in sorted(state.volumes.items()):
            line = "%d family %d kind %d flags %d quota %d unique %d counter %d release %d" % (
                id_, v.family, v.kind, v.flags, v.quota, v.unique, v.counter, v.release)
            held = self.up.volserver.held_flags(id_)
            line += " stamp %d" % state.stamps[v.family] if state.stamps.get(v.family) else ""
            line += " new" if id_ in state.new else ""
            out.append(line + (" held %d" % held if held else ""))
        return out + ["%d forwarded s%d" % (id_, state.forwardings[id_]) for id_ in SHOWN if id_ in state.forwardings]

    def bytes(self):
        if self.up is None:
            return [bytes(self.disk.now).hex()]
        return ["records %d" % self.up.store.mark()[1]]

    # -- calls that are no calls

    def spoil(self, node, stamp, opcode, *fields):
        """What comes of a call that is cut at each length, has a word more, another pad byte, or a count that is too high or low."""
        call = self.spelled(node, stamp, opcode, fields)
        data, tries = call.data, []
        tries += [("cut", data[:length]) for length in range(len(data))]
        tries.append(("longer", data + bytes(4)))
        tries += [("padded", data[:at] + b"\1" + data[at + 1:]) for at in call.pads]
        for at in call.counts:
            count = int.from_bytes(data[at:at + 4], "big")
            for other in (count + 4, 2**32 - 1):
                tries.append(("counted", data[:at] + other.to_bytes(4, "big") + data[at + 4:]))
        out = []
        for label, spoiled in tries:
            spoiled = spoiled[:16] + self.next_number(node).to_bytes(4, "big") + spoiled[20:] if len(spoiled) >= 20 else spoiled
            told = self.give(spoiled)
            what = "%s: %s" % (label, "nothing" if not told else ", ".join(" ".join(line.split(" ")[3:6] + line.split(" ")[7:8]) for line in told))
            if out and out[-1][1] == what:
                out[-1][0] += 1
            else:
                out.append([1, what])
        return ["%d times %s" % (count, what) for count, what in out]


def play(bench, line):
    """What a step shows."""
    word, *words = line.split(" ")
    if word == "begin":
        bench.begin(*[int(w) for w in words])
        return []
    if word == "give":
        return bench.give(written(words[0]))
    return getattr(bench, word)(*words)


# -- stops and failures at each device call

CALLS = 4


def halted(before, line, halt):
    """What comes of a step whose disk stops or fails so, of two restarts, and of the same call again; and what is there in between."""
    bench = Bench(RULES)
    for step in before:
        play(bench, step)
    play(bench, halt)
    out = play(bench, line)
    if bench.up is not None:
        out += bench.crash(halt.split(" ")[2] if halt.startswith("stop") else "0")
    out += bench.restart() + bench.bytes() + bench.volumes() + bench.crash("0") + bench.restart()
    return out + bench.again(line.split(" ")[1])


def each(before, line):
    """Of each stop and of each failure; those of which the same comes stand together."""
    found = {}
    for passes in range(CALLS):
        for pick in range(4):
            found.setdefault(tuple(halted(before, line, "stop %d %d" % (passes, pick))), []).append("stop %d %d" % (passes, pick))
    for call in range(1, CALLS + 1):
        found.setdefault(tuple(halted(before, line, "fail %d" % call)), []).append("fail %d" % call)
    return [line for told, halts in found.items() for line in ["with " + ", ".join(halts)] + list(told)]


def told(steps):
    """The lines of a row of these steps."""
    bench, before, out = Bench(RULES), [], []
    for line in steps:
        out.append("> " + line)
        if line.startswith("before "):
            before.append(line[7:])
        elif line.startswith("halt "):
            out += each(before, line[5:])
        else:
            out += play(bench, line)
    return out


# The reference program's number for the rules by which all is built that a server has so far.
FORM = 10
RULES = Rules("R%d" % FORM)

# So many made runs are one case of the player: it may print a megabyte in each.
TOGETHER = 125


def row(lines):
    comments = [line for line in lines if line.startswith("#")]
    steps = [line[2:] for line in lines if line.startswith("> ")]
    return comments + told(steps)


# -- made steps

CLONE, NEW = PROJ + 1, PROJ + 8
VOLUMES = [PROJ, PROJ, PROJ, CLONE, NEW]
OPCODES = [100, 101, 102, 103, 104, 105, 106, 107, 108, 109, 111, 113, 116, 120]
OFTEN = OPCODES + [100, 100, 102, 102, 102, 102, 103, 103, 105, 106, 106, 106, 106, 106, 108, 108, 120, 110]
CODES = [0, 0, 0, 1492325131, 1492325135, -1]


class Made:
    """A row whose steps are made, with what comes of each."""

    def __init__(self, seed):
        self.rng, self.bench, self.lines = random.Random(seed), Bench(RULES), []
        room = self.rng.choice(["", "", "", " %d" % self.rng.choice([0, 60, 120, 200, 400, 700, 1500])])
        self.do("begin %d%s" % (self.rng.choice([0, 1, 1, 2]), room))
        self.dumps = [volume.dump(self.state().volumes[PROJ], 0)]

    def do(self, line):
        self.lines.append("> " + line)
        self.lines += play(self.bench, line)

    def state(self):
        return self.bench.up.store.state

    # -- messages

    def client(self):
        rng = self.rng
        who = rng.choice(["c1", "c1", "c2"])
        fid = "%d %s" % (rng.choice(VOLUMES), rng.choice(["1 1", "2 2", "2 2"]))
        stored = rng.randrange(6)
        return who, rng.choice([
            "132 " + fid, "132 " + fid, "130 %s 0 2147483647" % fid, "149 %d" % rng.choice(VOLUMES), "155 1 " + fid,
            "133 %s 0 0 0 0 0 0 0 %d %d fill:%d:62" % (fid, stored, stored, stored), "133 %s 0 0 0 0 0 0 0 %d %d fill:%d:62" % (fid, stored, stored, stored),
            "137 %d 1 1 text:%s 0 0 0 0 0 0" % (rng.choice(VOLUMES), rng.choice("bcd")), "147 1 %s 1 1 7200 2" % fid, "153", "108 1 1 1"])

    def piece(self, number):
        """The fields of a Restore: most often the next piece of a dump, or all that is left of it."""
        rng, trans = self.rng, self.bench.up.volserver.trans.get(number)
        at = len(trans.given) if trans else 0
        dump = bytearray(rng.choice(self.dumps))
        if rng.random() < 0.2:
            dump[rng.randrange(len(dump))] ^= 1 << rng.randrange(8)
        offset = at + (4 if rng.random() < 0.1 else 0)
        if rng.random() < 0.4:
            some = dump[at:at + rng.choice([4, 40, 100])] if rng.random() < 0.8 else dump[:rng.randrange(len(dump))]
            return "%d %d hex:%s" % (offset, 0 if rng.random() < 0.8 else 1, some.hex())
        return "%d 1 hex:%s" % (offset, dump[at:].hex())

    def volumes(self):
        """Who calls, with which stamp, and the call."""
        rng, state, server = self.rng, self.state(), self.bench.up.volserver
        who = rng.choice(["a1", "a1", "a1", "a2", "a2", "s2", "loc"] if rng.random() < 0.2 else ["a1", "a1", "a2"])
        opcode = rng.choice(OFTEN)
        if not server.trans and rng.random() < 0.75:
            opcode = 108 if rng.random() < 0.8 else 100
        if opcode == 101 and rng.random() < 0.5:
            opcode = 104
        id_ = rng.choice(sorted(state.volumes)) if state.volumes and rng.random() < 0.85 else rng.choice(VOLUMES)
        number = rng.choice(sorted(server.trans)) if server.trans and rng.random() < 0.92 else rng.choice([0, 1, server.last_trans + 1])
        family = state.volumes[id_].family if id_ in state.volumes else PROJ
        if number in server.trans and opcode not in (100, 108, 116):
            family = server.trans[number].family
        if rng.random() < 0.05:
            family = rng.choice(VOLUMES)
        if opcode == 100 and rng.random() < 0.8:
            family = id_ = rng.choice([NEW, NEW + 1])
        flags = rng.choice([0, 0, 1, 2, 3, 4])
        stamp = max(state.stamps.get(family, 0) + rng.choice([0] * 10 + [1, 1, -1]), 0)
        other = rng.choice([CLONE, CLONE, NEW, PROJ])
        fields = {
            100: "%d text:%s %d %d %d" % (id_, rng.choice(["new", "proj", ""]), rng.choice([0, 0, 1, 2]), flags, rng.choice([0, 1, 1000])),
            103: "%d %d 2 %d" % (number, rng.choice([0, 0, 1]), rng.choice([5, 9])),
            105: "%d %d text:%s %d" % (number, other, rng.choice(["proj", "proj.backup"]), rng.choice([0, 1, 1, 2])),
            106: "%d %d" % (number, flags), 108: "%d %d" % (id_, rng.choice([0, 1, 2, 2, 3])),
            109: "%d %d %d" % (number, rng.choice([0, 0, 1]), rng.choice([0, 0, 4, 1000])),
            111: "%d %d" % (number, rng.choice([1, 2, 2, 9])), 116: "", 120: "%d %d" % (number, other)}
        if opcode == 102:
            rest = "%d %s" % (number, self.piece(number))
        else:
            rest = fields.get(opcode, str(number))
        return who, stamp, ("%d %d %s" % (opcode, family, rest)).strip()

    def odd(self):
        """A call that is cut or spoiled, of another boot or of another number."""
        rng, bench = self.rng, self.bench
        who, stamp, rest = self.volumes()
        opcode, *fields = rest.split(" ")
        number = max(bench.numbers.get(who, 0) + rng.choice([1, 0, -1, 2]), 0)
        spelled = Spelled(who, number, max(bench.boot() + rng.choice([0, 0, 1, -1]), 0), stamp, int(opcode), fields)
        data = bytearray(spelled.data)
        kind = rng.random()
        if kind < 0.3:
            data = data[:rng.randrange(len(data) + 1)]
        elif kind < 0.4:
            data += bytes(rng.randrange(1, 5))
        elif kind < 0.7:
            data[rng.randrange(len(data))] ^= 1 << rng.randrange(8)
        # Its own name is no caller's.
        if data[4:8] != b"\0\0\0\1":
            self.do("give hex:" + data.hex())

    # -- steps

    def told(self, calls):
        return self.rng.choice(sorted(calls)) if calls else None

    def step(self):
        rng, bench = self.rng, self.bench
        kind = rng.random()
        if bench.up is None:
            return self.do("restart" if kind < 0.85 else "call a1 0 116 %d" % PROJ)
        server, awaiting = self.told(bench.up.volserver.calls), self.told(bench.up.fileserver.calls)
        if kind < 0.04:
            return self.do("stop %d %d" % (rng.randrange(6), rng.randrange(4)))
        if kind < 0.06:
            return self.do("fail %d" % rng.randrange(1, 6))
        if kind < 0.08:
            return self.do("crash %d" % rng.randrange(4))
        if kind < 0.10:
            return self.do("wake")
        if kind < 0.13:
            return self.do("tick %d" % rng.choice([1, 100, 7200]))
        if kind < 0.18 and server:
            return self.do("timeout " + server)
        if kind < 0.21 and awaiting:
            return self.do("timeout " + awaiting)
        if kind < 0.30 and server:
            return self.do("answer %s %d" % (server, rng.choice(CODES)) if rng.random() < 0.85 else "notice %s %d" % (server, rng.choice([1, 2, 3])))
        if kind < 0.38 and awaiting:
            return self.do("answer %s 0" % awaiting if rng.random() < 0.9 else "notice %s 2" % awaiting)
        if kind < 0.46:
            return self.do("call %s 0 %s" % self.client())
        if kind < 0.50 and bench.last:
            return self.do("again " + rng.choice(sorted(bench.last)))
        if kind < 0.54:
            return self.odd()
        self.do("call %s %d %s" % self.volumes())
        if rng.random() < 0.1 and bench.up is not None and PROJ in self.state().volumes:
            self.dumps.append(volume.dump(self.state().volumes[PROJ], rng.choice([0, 0, 1])))

    def whole(self, steps):
        for _ in range(steps):
            self.step()
        for line in ["volumes", "bytes", "crash 1", "bytes"]:
            self.do(line)
        return self.lines


if __name__ == "__main__":
    if sys.argv[2] == "row":
        print("\n".join(row(sys.stdin.read().split("\n"))))
    else:
        first, count, steps = [int(word) for word in sys.argv[3:6]]
        for begin in range(first, first + count, TOGETHER):
            read, wanted = [], []
            for seed in range(begin, min(begin + TOGETHER, first + count)):
                name, lines = "volserver by_%d" % seed, Made(seed).whole(steps)
                read.append("\n".join([name] + [line[2:] for line in lines if line.startswith("> ")]))
                wanted += ["= " + name] + lines
            with open("%s/from_%d" % (sys.argv[6], begin), "w") as out:
                out.write("\n\n".join(read))
            with open("%s/from_%d.stdout" % (sys.argv[6], begin), "w") as out:
                out.write("\n".join(wanted) + "\n")
