"""The ideal volume: what a volume is by its accepted operations alone, without caches, crashes and copies.

An operation is refused with a code, or gives the volume after it. Which vnodes it has changed shows by comparing the two.
"""

import re

from messages import Reader

FILE, DIRECTORY, LINK = "f", "d", "l"
TYPES = {FILE: 1, DIRECTORY: 2, LINK: 3}
MODES = {FILE: 420, DIRECTORY: 493, LINK: 511}
READ, WRITE, INSERT, LOOKUP, DELETE, ADMINISTER = 1, 2, 4, 8, 16, 64
EVERYBODY = b"1\n0\nsystem:anyuser\t127\n"
LARGEST_FILE, MOST_NAMES, MOST_VNODES, LONGEST_LIST = 65536, 1024, 4096, 20
WHOLE = 2147483647
CHANGES = {133, 134, 135, 136, 137, 138, 139, 140, 141, 142}
NUMBER = re.compile(rb"0|[1-9][0-9]*")
PLAIN = set(b"abcdefghijklmnopqrstuvwxyzABCDEFGHIJKLMNOPQRSTUVWXYZ0123456789._-")


class Refused(Exception):
    """The code with which an operation is refused."""

    def __init__(self, code):
        super().__init__(code)
        self.code = code


def escaped(name):
    return "".join(chr(byte) if byte in PLAIN else f"%{byte:02X}" for byte in name)


def unescaped(word):
    return re.sub(rb"%(..)", lambda found: bytes([int(found[1], 16)]), word.encode("latin-1"))


def access(text):
    """The positive and the negative entries of an access list, each with its rights."""
    lines = text.split(b"\n")
    if len(lines) < 3 or lines[-1] or not all(NUMBER.fullmatch(line) for line in lines[:2]):
        raise Refused(22)
    counts = [int(line) for line in lines[:2]]
    entries = [line.split(b"\t") for line in lines[2:-1]]
    if sum(counts) != len(entries) or sum(counts) > LONGEST_LIST:
        raise Refused(22)
    for entry in entries:
        if len(entry) != 2 or not 1 <= len(entry[0]) <= 64 or not NUMBER.fullmatch(entry[1]) or int(entry[1]) > 127:
            raise Refused(22)
    lists = entries[:counts[0]], entries[counts[0]:]
    if any(len({name for name, _ in entries}) != len(entries) for entries in lists):
        raise Refused(22)
    return [[(name, int(rights)) for name, rights in entries] for entries in lists]


def rights_of(text, user):
    """What a user may do by an access list."""
    sums = []
    for entries in access(text):
        rights = 0
        for name, more in entries:
            if name in (user, b"system:anyuser"):
                rights |= more
        sums.append(rights)
    return sums[0] & ~sums[1]


class Vnode:
    """A file, a directory or a link."""

    def __init__(self, unique, kind, body, access_list=None):
        self.unique = unique
        self.kind = kind
        self.body = body                 # bytes; of a directory a vnode and a unique number by each name
        self.access = access_list        # of a directory
        self.mode = MODES[kind]
        self.links = 0
        self.parent = None
        self.index = self.version = 1

    def copy(self):
        other = Vnode(self.unique, self.kind, dict(self.body) if self.kind == DIRECTORY else self.body, self.access)
        other.mode, other.links, other.parent, other.index, other.version = self.mode, self.links, self.parent, self.index, self.version
        return other

    def length(self):
        if self.kind == DIRECTORY:
            return 4 + sum(4 + (len(name) + 3) // 4 * 4 + 8 for name in self.body)
        return len(self.body)

    def text(self):
        if self.kind == DIRECTORY:
            return "d:" + ",".join("%s=%d.%d" % (escaped(name), *self.body[name]) for name in sorted(self.body))
        return f"{self.kind}:{self.body.hex()}"

    def status(self):
        return f"s:{TYPES[self.kind]},{self.links},{self.length()},{self.mode}"

    def told(self):
        """What a version line and a final part tell of it."""
        return self.index, self.version, self.text()

    def rest(self):
        """What it has beside its contents."""
        return self.mode, self.links, self.parent, self.access


class Volume:
    """A read-write volume."""

    def __init__(self, number, quota):
        self.number = number
        self.quota = quota
        self.next_unique = 2
        self.vnodes = {1: Vnode(1, DIRECTORY, {}, EVERYBODY)}
        self.count()

    def copy(self):
        other = Volume(self.number, self.quota)
        other.next_unique = self.next_unique
        other.vnodes = {number: vnode.copy() for number, vnode in self.vnodes.items()}
        return other

    def count(self):
        """Counts the names of each vnode, and finds its directory; what has no name goes."""
        parents = {}
        links = dict.fromkeys(self.vnodes, 0)
        for number, vnode in self.vnodes.items():
            if vnode.kind == DIRECTORY:
                for child, _ in vnode.body.values():
                    parents[child] = (number, vnode.unique)
                    links[child] += 1
        for number in [number for number in self.vnodes if number != 1 and not links[number]]:
            del self.vnodes[number]
        for number, vnode in self.vnodes.items():
            vnode.parent = parents.get(number)
            vnode.links = links[number]
            if vnode.kind == DIRECTORY:
                vnode.links = 2 + sum(self.vnodes[child].kind == DIRECTORY for child, _ in vnode.body.values())

    def blocks(self):
        return sum((vnode.length() + 1023) // 1024 for vnode in self.vnodes.values())

    # ---- what an operation looks at

    def find(self, fid):
        vnode = self.vnodes.get(fid[1])
        if vnode is None or vnode.unique != fid[2]:
            raise Refused(102)
        return vnode

    def directory(self, fid):
        vnode = self.find(fid)
        if vnode.kind != DIRECTORY:
            raise Refused(20)
        return vnode

    def need(self, fid, rights, user):
        """The rights of a file or a link are those of its directory."""
        vnode = self.vnodes[fid[1]]
        holder = vnode if vnode.kind == DIRECTORY else self.vnodes[vnode.parent[0]]
        if rights & ~rights_of(holder.access, user):
            raise Refused(13)

    def named(self, directory, name):
        place = directory.body.get(name)
        return self.vnodes[place[0]] if place else None

    def make(self, parent, name, vnode):
        """A new vnode takes the lowest free number of its parity."""
        if len(self.vnodes) >= MOST_VNODES:
            raise Refused(108)
        number = 3 if vnode.kind == DIRECTORY else 2
        while number in self.vnodes:
            number += 2
        self.vnodes[number] = vnode
        parent.body[name] = (number, vnode.unique)
        self.next_unique += 1

    def room(self):
        if self.blocks() > self.quota:
            raise Refused(109)


def usable(name):
    """A new name."""
    if not 1 <= len(name) <= 255 or b"/" in name or b"\0" in name or name in (b".", b".."):
        raise Refused(22)


def known_bits(setting):
    if setting[0] > 31:
        raise Refused(22)


def set_by(vnode, setting):
    if setting[0] & 8:
        vnode.mode = setting[4]


# ---- reading calls

def fetch_data(volume, user, fid, at, length):
    vnode = volume.find(fid)
    volume.need(fid, LOOKUP if vnode.kind == DIRECTORY else READ, user)
    if (at, length) != (0, WHOLE):
        raise Refused(22)


def fetch_rights(volume, user, fid):
    volume.directory(fid)
    volume.need(fid, LOOKUP, user)


def fetch_status(volume, user, fid):
    volume.find(fid)
    volume.need(fid, LOOKUP, user)


# ---- calls that change something. Each is given a copy of the volume, and says what it has written although it is as before

def store_data(volume, user, fid, setting, at, length, whole, data):
    vnode = volume.find(fid)
    if vnode.kind == DIRECTORY:
        raise Refused(21)
    volume.need(fid, WRITE, user)
    known_bits(setting)
    if vnode.kind == LINK or at != 0 or length != len(data) or whole != len(data):
        raise Refused(22)
    if len(data) > LARGEST_FILE:
        raise Refused(27)
    vnode.body = data
    set_by(vnode, setting)
    return {fid[1]}, {fid[1]}


def store_rights(volume, user, fid, text):
    directory = volume.directory(fid)
    volume.need(fid, ADMINISTER, user)
    access(text)
    directory.access = text
    return {fid[1]}, set()


def store_status(volume, user, fid, setting):
    vnode = volume.find(fid)
    volume.need(fid, WRITE, user)
    known_bits(setting)
    set_by(vnode, setting)
    return {fid[1]}, set()


def enters(volume, user, fid, name):
    """A directory that is to have a further name."""
    directory = volume.directory(fid)
    volume.need(fid, INSERT, user)
    usable(name)
    return directory


def has_room_for(directory, name):
    if name in directory.body:
        raise Refused(17)
    if len(directory.body) >= MOST_NAMES:
        raise Refused(27)


def create(volume, user, fid, name, setting, kind=FILE, body=b""):
    directory = enters(volume, user, fid, name)
    known_bits(setting)
    has_room_for(directory, name)
    vnode = Vnode(volume.next_unique, kind, body, directory.access if kind == DIRECTORY else None)
    set_by(vnode, setting)
    volume.make(directory, name, vnode)
    return set(), set()


def make_directory(volume, user, fid, name, setting):
    return create(volume, user, fid, name, setting, DIRECTORY, {})


def make_link(volume, user, fid, name, text, setting):
    return create(volume, user, fid, name, setting, LINK, text)


def link(volume, user, fid, name, target):
    volume.find(fid)
    is_here = target[0] == volume.number
    other = volume.find(target) if is_here else None
    directory = enters(volume, user, fid, name)
    if not is_here or other.kind != FILE or other.parent != (fid[1], fid[2]):
        raise Refused(22)
    has_room_for(directory, name)
    directory.body[name] = (target[1], target[2])
    return set(), set()


def remove_file(volume, user, fid, name):
    directory = volume.directory(fid)
    target = volume.named(directory, name)
    if target and target.kind == DIRECTORY:
        raise Refused(21)
    volume.need(fid, DELETE, user)
    if target is None:
        raise Refused(2)
    del directory.body[name]
    return set(), set()


def remove_directory(volume, user, fid, name):
    directory = volume.directory(fid)
    target = volume.named(directory, name)
    if target and target.kind != DIRECTORY:
        raise Refused(20)
    volume.need(fid, DELETE, user)
    if target is None:
        raise Refused(2)
    if target.body:
        raise Refused(39)
    del directory.body[name]
    return set(), set()


def is_below(volume, directory, other):
    """Whether a directory is another one or stands under it."""
    while directory is not other:
        if directory.parent is None:
            return False
        directory = volume.vnodes[directory.parent[0]]
    return True


def rename(volume, user, fid, name, new_fid, new_name):
    is_here = new_fid[0] == volume.number
    volume.find(fid)
    if is_here:
        volume.find(new_fid)
    old = volume.directory(fid)
    new = volume.directory(new_fid) if is_here else None
    source = volume.named(old, name)
    target = volume.named(new, new_name) if new else None
    if source and target:
        if source.kind == DIRECTORY != target.kind:
            raise Refused(20)
        if source.kind != DIRECTORY == target.kind:
            raise Refused(21)
    volume.need(fid, DELETE, user)
    if new:
        volume.need(new_fid, INSERT | DELETE if target else INSERT, user)
    usable(new_name)
    if new is None or (old is new and name == new_name):
        raise Refused(22)
    if source:
        if source is target or (source.kind == DIRECTORY and is_below(volume, new, source)):
            raise Refused(22)
        if source.kind != DIRECTORY and source.links > 1 and old is not new:
            raise Refused(22)
    if source is None:
        raise Refused(2)
    if target and target.kind == DIRECTORY and target.body:
        raise Refused(39)
    if old is not new and target is None and len(new.body) >= MOST_NAMES:
        raise Refused(27)
    new.body[new_name] = old.body[name]
    del old.body[name]
    return set(), set()


READS = {130: fetch_data, 131: fetch_rights, 132: fetch_status}
WRITES = {133: store_data, 134: store_rights, 135: store_status, 136: remove_file, 137: create, 138: rename, 139: make_link, 140: link,
          141: make_directory, 142: remove_directory}


def operate(volume, opcode, fields, user):
    """A call on a volume: its code, and the volume after it where that is 0 and it changes something."""
    try:
        if opcode in READS:
            READS[opcode](volume, user, *fields)
            return 0, None
        after = volume.copy()
        written, rewritten = WRITES[opcode](after, user, *fields)
        after.count()
        after.room()
    except Refused as refusal:
        return refusal.code, None
    number_on(volume, after, written, rewritten)
    return 0, after


def number_on(before, after, written, rewritten):
    """Each vnode that was changed has the next index, and the next data version where its contents were."""
    for number, vnode in after.vnodes.items():
        old = before.vnodes.get(number)
        if old and old.unique == vnode.unique:
            has_body = old.body != vnode.body or number in rewritten
            if has_body or old.rest() != vnode.rest() or number in written:
                vnode.index, vnode.version = old.index + 1, old.version + has_body


def versions_between(before, after):
    """The versions that an operation makes, by ascending vnode: vnode, unique, index, data version, body."""
    made = []
    for number, vnode in after.vnodes.items():
        old = before.vnodes.get(number)
        if not old or old.unique != vnode.unique or old.index != vnode.index:
            made.append((number, vnode.unique, *vnode.told()))
    for number, old in before.vnodes.items():
        if number not in after.vnodes:
            made.append((number, old.unique, old.index + 1, old.version + 1, "gone"))
    return sorted(made)


# ---- set-up

def contents(word):
    """BYTES of a script."""
    if word.startswith("fill:"):
        _, count, byte = word.split(":")
        return bytes.fromhex(byte) * int(count)
    return bytes.fromhex(word[4:])


def lay(volume, word, names, data):
    """A line of set-up: a directory, a file, a link or an access list."""
    at = volume.vnodes[1]
    for name in names[:-1] if word != "acl" else names:
        at = volume.named(at, name)
    if word == "acl":
        at.access = data
    else:
        kind = {"dir": DIRECTORY, "file": FILE, "link": LINK}[word]
        volume.make(at, names[-1], Vnode(volume.next_unique, kind, {} if kind == DIRECTORY else data, at.access if kind == DIRECTORY else None))
    volume.count()


def restored(number, dump):
    """The volume of a new family that a dump makes of an empty one: each index is 1. A root without an image is the empty one's."""
    volume = Volume(number, dump.quota)
    volume.next_unique = dump.unique
    volume.vnodes = {} if 1 in dump.images else volume.vnodes
    for vnode, unique in dump.live:
        if vnode not in dump.images:
            continue
        words, access_list, body = dump.images[vnode]
        kind = {1: FILE, 2: DIRECTORY, 3: LINK}[words[2]]
        made = Vnode(unique, kind, names_in(body) if kind == DIRECTORY else body, access_list if kind == DIRECTORY else None)
        made.version, made.mode = words[4], words[8]
        volume.vnodes[vnode] = made
    volume.count()
    return volume


def names_in(body):
    """The names of a directory's spelling."""
    reader = Reader(body)
    return {reader.opaque(): (reader.word(), reader.word()) for _ in range(reader.word())}
