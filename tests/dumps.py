"""Makes volumes, their dumps and spoiled ones, and tells what the reference program makes of them.

python3 tests/dumps.py FOLDER SEED COUNT OUT.in OUT.want FORM: from this seed on so many volumes, for tests/dumps.play. Each has gone
through up to thirty operations, and a copy of it was kept on the way. It is dumped whole and since the copy's counter, and cloned.
Each dump is cut at every length, has each of its count words set to the last value of a word, and is spoiled in other ways. What comes
of it is restored, in pieces, into the copy, into a read-only volume of another family, into a read-write one of another family, and
into an empty volume.
OUT.want has what the reference's volume.py in FOLDER answers by the rules of this form.
"""

import random
import struct
import sys

import volumes
from volumes import volume
from rules import Rules
from xdr import Writer

OTHER = 536870920
LAST = 4294967295


def sum_of(data):
    """Tells bytes apart in a line: FNV, 32 bits."""
    total = 2166136261
    for byte in data:
        total = ((total ^ byte) * 16777619) & LAST
    return total


def images(v):
    w = Writer()
    for number in sorted(v.vnodes):
        volume.write_image(w, v.vnodes[number])
    return w.bytes()


def told(v):
    name = v.name.hex() or "-"
    numbers = f"{v.id} {v.family} {name} {v.kind} {v.flags} {v.quota} {v.unique} {v.counter} {v.release} {len(v.vnodes)}"
    return f"volume {numbers} {sum_of(images(v))}"


class Player(volumes.Player):
    """A volume with few bytes in its files, so that a dump of it can be cut at every length."""

    def contents(self):
        rng = self.rng
        return bytes([rng.randrange(256)]) * rng.choice([0, 1, 2, 3, 4, 5, rng.randrange(60)])

    def name(self):
        rng = self.rng
        return rng.choice([b"a", b"b", b"c", b"ab", b"d", b"Z", b"long" * 5])

    def act(self):
        op, args = self.operation()
        if op not in volume.CHANGING:
            return
        change = volume.apply(self.volume, op, args, b"alice", self.rng.randrange(1000), self.rules)
        if not isinstance(change, int):
            self.volume.take_in(change)


def with_word(data, at, word):
    return data[:at] + struct.pack(">I", word) + data[at + 4:]


def word_at(data, at):
    return struct.unpack_from(">I", data, at)[0]


def opaque_end(data, at):
    count = word_at(data, at)
    return at + 4 + count + -count % 4


def layout(data):
    """Of a dump: where its count words stand, also those in directories, and where each image begins and ends."""
    counts, places = [16], []
    at = opaque_end(data, 16) + 4 + 32
    counts.append(at)
    at += 4 + 8 * word_at(data, at)
    while word_at(data, at) == 3:
        begin, kind = at, word_at(data, at + 12)
        acl = at + 64
        contents = opaque_end(data, acl)
        counts += [acl, contents]
        if kind == volume.DIR:
            name = contents + 8
            counts.append(contents + 4)
            for _ in range(word_at(data, contents + 4)):
                counts.append(name)
                name = opaque_end(data, name) + 8
        at = opaque_end(data, contents)
        places.append((begin, at))
    return counts, places


def spoiled(rng, data):
    """Streams that are wrong in one place, or by chance in none."""
    counts, places = layout(data)
    for at in counts:
        yield with_word(data, at, LAST)
    for _ in range(20):
        at = 4 * rng.randrange(len(data) // 4)
        yield with_word(data, at, rng.choice([0, 1, 2, 3, 4, 5, 7, 33, 1025, 4097, 2097153, LAST, rng.randrange(2**32), word_at(data, at) + 1 & LAST]))
    for _ in range(4):
        at = rng.randrange(len(data))
        yield data[:at] + bytes([rng.randrange(256)]) + data[at + 1:]
    yield data + bytes([rng.randrange(256)])
    if places:
        begin, end = rng.choice(places)
        yield data[:begin] + data[end:]
        yield data[:end] + data[begin:end] + data[end:]
    if len(places) > 1:
        (a, b), (c, d) = sorted(rng.sample(places, 2))
        yield data[:a] + data[c:d] + data[b:c] + data[a:b] + data[d:]
    listed = counts[1]
    if word_at(data, listed):
        at = listed + 4 + 8 * rng.randrange(word_at(data, listed))
        yield with_word(data[:at] + data[at + 8:], listed, word_at(data, listed) - 1)
        yield with_word(data, at + 4, rng.randrange(9))


def fed(data):
    try:
        volume.check_feed(data)
    except volume.BadDump as bad:
        return bad.offset
    return None


def finished(old, data):
    try:
        return told(volume.restored(old, data))
    except volume.BadDump as bad:
        return f"bad {bad.offset}"


class Case:
    """A volume, what the player is to read of it, and what it is to print."""

    def __init__(self, seed, rules):
        self.rng = random.Random(seed)
        self.given, self.wanted = Writer(), []
        player = Player(self.rng, rules)
        acts = self.rng.randrange(31)
        kept = self.rng.randrange(acts + 1)
        self.empty = player.volume.copy()
        self.copy = player.volume.copy()
        for number in range(acts):
            if number == kept:
                self.copy = player.volume.copy()
            player.act()
        self.volume = player.volume

    def give(self, v):
        self.given.words(0, v.id, v.family).opaque(v.name)
        self.given.words(v.kind, v.flags, v.quota, v.unique, v.counter, v.release, len(v.vnodes)).raw(images(v))

    def as_target(self, v, id_, family, kind):
        """The volume under another number, family and kind, with a name and flags of its own."""
        t = v.copy()
        t.id, t.family, t.kind, t.name, t.flags = id_, family, kind, b"copy", self.rng.choice([0, 2])
        return t

    def targets(self):
        copy = self.copy
        yield self.as_target(copy, copy.id, copy.family, copy.kind)
        yield self.as_target(copy, OTHER + 1, OTHER, 1)
        yield self.as_target(copy, OTHER, OTHER, 0)
        yield self.as_target(self.empty, copy.id, copy.family, copy.kind)

    def dump(self, since, piece):
        data = volume.dump(self.volume, since)
        self.given.words(1, since, piece)
        self.wanted.append(f"dump {len(data)} {sum_of(data)} in {-(-len(data) // piece)}")
        return data

    def clone(self):
        kind = self.rng.choice([1, 2])
        self.given.words(2, OTHER, kind).opaque(b"proj.clone")
        first = volume.clone_of(self.volume, OTHER, b"proj.clone", kind)
        first.flags = 2
        self.wanted += [told(first), told(volume.reclone(self.volume, first))]

    def restore(self, old, data):
        sizes = []
        while sum(sizes) < len(data):
            sizes.append(min(self.rng.choice([1, 2, 3, 7, 64, 300, 4000]), len(data) - sum(sizes)))
        self.given.word(3).opaque(data).word(len(sizes)).words(*sizes)
        taken, refused = 0, None
        for number, size in enumerate(sizes):
            taken += size
            refused = fed(data[:taken])
            if refused is not None:
                self.wanted.append(f"refused {number} {refused}")
                break
        self.wanted.append(finished(old, data))

    def cut(self, old, data):
        """At each length: what is fed, and what it comes to where it ends there. Lengths with the same answer are told once."""
        self.given.word(4).opaque(data)
        last = None
        for length in range(len(data) + 1):
            offset = fed(data[:length])
            answer = f"{'-' if offset is None else offset} {finished(old, data[:length])}"
            if answer != last:
                self.wanted.append(f"cut {length} {answer}")
            last = answer

    def play(self):
        self.give(self.volume)
        whole = self.dump(0, self.rng.choice([64, 97, 32768]))
        since = self.dump(self.copy.counter, self.rng.choice([64, 32768]))
        self.clone()
        for number, target in enumerate(self.targets()):
            self.give(target)
            for data in (whole, since):
                self.restore(target, data)
                for stream in spoiled(self.rng, data):
                    self.restore(target, stream)
            if number == 0:
                self.cut(target, whole)
                self.cut(target, since)


def main():
    seed, count = int(sys.argv[2]), int(sys.argv[3])
    rules = Rules("R" + sys.argv[6])
    with open(sys.argv[4], "wb") as given, open(sys.argv[5], "w", encoding="ascii") as wanted:
        for number in range(seed, seed + count):
            case = Case(number, rules)
            case.play()
            given.write(case.given.bytes())
            wanted.write("".join(line + "\n" for line in case.wanted))


if __name__ == "__main__":
    main()
