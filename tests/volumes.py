"""Makes sequences of operations on a volume, and tells what the reference program says of them.

python3 tests/volumes.py FOLDER SEED COUNT OUT.in OUT.want FORM: from this seed on so many sequences of forty operations each, for
tests/volumes.play, and what the reference's volume.py in FOLDER answers by the rules of this form: replies as messages, versions,
blocks and, at the end of a sequence, the images of all vnodes.
"""

import random
import sys

sys.path.insert(0, sys.argv[1])

import shapes  # noqa: E402
import volume  # noqa: E402
from rules import Rules  # noqa: E402
from xdr import Writer  # noqa: E402

VOLUME = 536870912
USERS = [b"alice", b"bob", b"carol"]
NAMES = [b"a", b"b", b"c", b"d", b"ab", b"Z", b"n" * 255, b"m" * 253, b"n" * 256, b".", b"..", b"x/y", b"", b"a\0"]
LISTS = [
    b"1\n0\nsystem:anyuser\t127\n",
    b"1\n0\nsystem:anyuser\t127\n",
    b"1\n1\nsystem:anyuser\t127\nbob\t4\n",
    b"2\n0\nsystem:anyuser\t9\nalice\t127\n",
    b"1\n0\nalice\t127\n",
    b"2\n1\nalice\t95\nbob\t64\nsystem:anyuser\t16\n",
    b"1\n0\nsystem:anyuser\t128\n",
    b"21\n0\n",
    b"0\n0\n",
    b"",
]


class Player:
    """One sequence: the reference's volume, what the player is to read, and what it is to print."""

    def __init__(self, rng, rules):
        self.rng, self.rules = rng, rules
        self.given, self.wanted = Writer(), []
        self.number = 0
        kind = rng.choice([0] * 14 + [1, 2])
        quota = rng.choice([1, 2, 2, 3, 4, 8, 40, 100, 1000, 1000])
        self.volume = volume.Volume(VOLUME, VOLUME, b"proj", kind, 0, quota)
        self.given.words(0, VOLUME, kind, quota)

    def vnodes(self, types):
        return [v for v in self.volume.vnodes.values() if v.type in types]

    def fid(self, types=(1, 2, 3)):
        rng = self.rng
        found = self.vnodes(types)
        if found and rng.random() < 0.93:
            v = rng.choice(found)
            return shapes.Fid(VOLUME, v.vnode, v.unique)
        any_fid = [shapes.Fid(VOLUME, rng.randrange(0, 12), rng.randrange(0, 8)), shapes.Fid(VOLUME, 1, 1)]
        return rng.choice(any_fid + [self.of(v) for v in self.vnodes((1, 2, 3))])

    @staticmethod
    def of(v):
        return shapes.Fid(VOLUME, v.vnode, v.unique)

    def elsewhere(self, fid):
        return fid._replace(volume=VOLUME + 1) if self.rng.random() < 0.04 else fid

    def named(self, fid):
        """A name of this directory, or any other."""
        v = self.volume.find(fid)
        if v is not None and v.type == 2 and self.rng.random() < 0.7:
            names = list(volume.parse_dir(v.contents))
            if names:
                return self.rng.choice(names)
        return self.name()

    def name(self):
        rng = self.rng
        return rng.choice(NAMES[:6]) if rng.random() < 0.8 else rng.choice(NAMES)

    def status(self):
        rng = self.rng
        mask = rng.choice([0, 0, 8, 31, rng.randrange(32), 32, 64])
        return shapes.Ss(mask, *[rng.choice([0, 1, 7, rng.randrange(2**32)]) for _ in range(5)])

    def contents(self):
        rng = self.rng
        length = rng.choice([0, 1, 3, rng.randrange(100), 1024, 1025, 2048, rng.randrange(5000), 65536, 65537])
        return bytes([rng.randrange(256)]) * length

    def operation(self):
        rng = self.rng
        op = rng.choice([130, 131, 132, 133, 133, 134, 135, 136, 137, 137, 137, 138, 138, 138, 138, 139, 140, 140, 141, 141, 141, 142, 149, 155])
        return op, getattr(self, f"call_{op}")(rng)

    def call_130(self, rng):
        return [self.fid(), rng.choice([0, 0, 0, 1, -1]), rng.choice([2147483647, 2147483647, 2147483647, 0, -5])]

    def call_131(self, rng):
        return [self.fid((2, 2, 1)) if rng.random() < 0.3 else self.fid((2,))]

    def call_132(self, rng):
        return [self.fid()]

    def call_133(self, rng):
        contents = self.contents()
        length = len(contents)
        stored = [0, length, length]
        if rng.random() < 0.08:
            stored[rng.randrange(3)] = rng.choice([-1, 1, length + 1])
        return [self.fid((1,)) if rng.random() < 0.9 else self.fid(), self.status(), *stored, contents]

    def call_134(self, rng):
        return [self.fid((2,)) if rng.random() < 0.9 else self.fid(), rng.choice(LISTS)]

    def call_135(self, rng):
        return [self.fid(), self.status()]

    def directory(self):
        return self.fid((2,)) if self.rng.random() < 0.95 else self.fid()

    def call_136(self, rng):
        d = self.directory()
        return [d, self.named(d)]

    def call_137(self, rng):
        return [self.directory(), self.name(), self.status()]

    def call_138(self, rng):
        d = self.directory()
        e = self.elsewhere(d if rng.random() < 0.4 else self.directory())
        return [d, self.named(d), e, self.named(e) if rng.random() < 0.5 else self.name()]

    def call_139(self, rng):
        return [self.directory(), self.name(), rng.choice([b"", b"a/b", b"t" * 1024]), self.status()]

    def call_140(self, rng):
        d = self.directory()
        v = self.volume.find(d)
        fid = self.fid((1, 3))
        if v is not None and v.type == 2 and rng.random() < 0.7:
            names = [t for t in volume.parse_dir(v.contents).values() if t[0] % 2 == 0]
            if names:
                fid = shapes.Fid(VOLUME, *rng.choice(names))
        return [d, self.name(), self.elsewhere(fid)]

    def call_141(self, rng):
        return [self.directory(), self.name(), self.status()]

    def call_142(self, rng):
        d = self.directory()
        return [d, self.named(d)]

    def call_149(self, rng):
        return [VOLUME]

    def call_155(self, rng):
        return [[self.fid() for _ in range(rng.randrange(1, 5))]]

    def head(self, half, op):
        return shapes.Head(half, "c1", "s1", 1, self.number, 1, 0, op)

    def refused(self, op, code):
        self.replied(op, code, None)

    def replied(self, op, code, fields):
        self.wanted.append("reply " + shapes.encode_reply(self.head(shapes.REPLY, op), code, fields).hex())

    def read(self, op, args, user):
        if op != 155:
            answer = volume.read_call(self.volume, op, args, user, self.rules)
            return self.refused(op, answer) if isinstance(answer, int) else self.replied(op, 0, answer)
        statuses = []
        for fid in args[0]:
            answer = volume.read_call(self.volume, 132, [fid], user, self.rules)
            if isinstance(answer, int):
                return self.refused(op, answer)
            statuses.append(answer[0])
        return self.replied(op, 0, [statuses, [volume.NO_CB] * len(statuses), volume.vs_of(self.volume)])

    def change(self, op, args, user, now):
        change = volume.apply(self.volume, op, args, user, now, self.rules)
        if isinstance(change, int):
            return self.refused(op, change)
        self.replied(op, 0, change.reply)
        for fid, index, data_version, v in change.versions:
            self.wanted.append(f"version {fid.volume}.{fid.vnode}.{fid.unique} {index} {data_version} {body(v)}")
        self.volume.take_in(change)
        self.wanted.append(f"blocks {self.volume.blocks} counter {self.volume.counter} unique {self.volume.unique}")

    def play(self):
        op, args = self.operation()
        user, now = self.rng.choice(USERS), self.rng.randrange(1000)
        self.number += 1
        self.given.words(1, now).opaque(shapes.encode_call(self.head(shapes.CALL, op), user, args))
        if op in volume.CHANGING:
            self.change(op, args, user, now)
        else:
            self.read(op, args, user)

    def end(self):
        self.given.word(2)
        for number in sorted(self.volume.vnodes):
            w = Writer()
            volume.write_image(w, self.volume.vnodes[number])
            self.wanted.append("vnode " + w.bytes().hex())


def body(v):
    if v is None:
        return "gone"
    if v.type == 2:
        names = volume.parse_dir(v.contents)
        return "d:" + "".join(f",{name.hex()}={names[name][0]}.{names[name][1]}" for name in sorted(names))
    return ("f:" if v.type == 1 else "s:") + v.contents.hex()


def main():
    seed, count = int(sys.argv[2]), int(sys.argv[3])
    rules = Rules("R" + sys.argv[6])
    with open(sys.argv[4], "wb") as given, open(sys.argv[5], "w", encoding="ascii") as wanted:
        for number in range(seed, seed + count):
            player = Player(random.Random(number), rules)
            for _ in range(40):
                player.play()
            player.end()
            given.write(player.given.bytes())
            wanted.write("".join(line + "\n" for line in player.wanted))


if __name__ == "__main__":
    main()
