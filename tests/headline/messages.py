"""The fields of messages, read from the bytes that `--wire` prints.

A letter stands for a field: f a fid, u a word, i a signed word, o bytes, s what a store sets, S a status, c a promise, v the words on a
volume, e an entry of the location database, l a volume that a server lists; behind * it is a list of them.
"""

CALLS = {
    130: "fii", 131: "f", 132: "f", 133: "fsiiio", 134: "fo", 135: "fs", 136: "fo", 137: "fos", 138: "fofo", 139: "foos", 140: "fof", 141: "fos",
    142: "fo", 147: "*f*c", 149: "u", 153: "", 155: "*f", 204: "*f*c", 205: "", 206: "",
    100: "uuouuu", 101: "uu", 102: "uuuuo", 103: "uuuuu", 104: "uu", 105: "uuuou", 106: "uuu", 107: "uu", 108: "uuu", 109: "uuuu", 111: "uuu",
    113: "uu", 116: "u", 120: "uuu",
    501: "e", 502: "u", 503: "u", 504: "o", 505: "", 506: "ue", 508: "uuu", 509: "u", 510: "u",
}
REPLIES = {
    130: "oScv", 131: "oSv", 132: "Scv", 133: "Sv", 134: "Sv", 135: "Sv", 136: "Sv", 137: "fSScv", 138: "SSv", 139: "fSSv", 140: "SSv", 141: "fSScv",
    142: "Sv", 147: "", 149: "uuuuo", 153: "uu", 155: "*S*cv", 204: "", 205: "", 206: "",
    100: "u", 101: "", 102: "", 103: "", 104: "", 105: "uu", 106: "", 107: "u", 108: "u", 109: "uo", 111: "", 113: "uuuuuuu", 116: "*l", 120: "uu",
    501: "u", 502: "", 503: "e", 504: "e", 505: "u", 506: "", 508: "ue", 509: "", 510: "ue",
}
WORDS = {"s": 6, "S": 21, "c": 3, "v": 6, "l": 4}


def node_name(number):
    if number == 0:
        return "loc"
    return f"s{number}" if number <= 8 else f"c{number - 100}" if number <= 116 else f"a{number - 200}"


def fid_text(fid):
    return "%d.%d.%d" % fid


class Status:
    """A status of a vnode."""

    def __init__(self, words):
        self.type, self.links, self.length, self.version = words[1:5]
        self.mode = words[9]
        self.index = words[16]


class Location:
    """An entry of the location database."""

    def __init__(self, reader):
        self.name = reader.opaque().decode("latin-1")
        self.volume, self.copy, self.backup, self.flags = (reader.word() for _ in range(4))
        self.sites = [(node_name(reader.word()), reader.word()) for _ in range(reader.word())]

    def home(self):
        """The server of the read-write volume."""
        return next((server for server, flags in self.sites if flags & 4), None)

    def copies(self):
        """The servers that have the read-only volume, in order."""
        return [server for server, flags in self.sites if flags & 2]

    def ids(self):
        return [number for number in (self.volume, self.copy, self.backup) if number]


class Reader:
    """Reads fields one after the other."""

    def __init__(self, data):
        self.data = data
        self.at = 0

    def word(self):
        self.at += 4
        return int.from_bytes(self.data[self.at - 4:self.at], "big")

    def signed(self):
        word = self.word()
        return word - (1 << 32) if word >> 31 else word

    def opaque(self):
        length = self.word()
        start = self.at
        self.at += (length + 3) // 4 * 4
        return self.data[start:start + length]

    def field(self, letter):
        if letter == "u":
            return self.word()
        if letter == "i":
            return self.signed()
        if letter == "o":
            return self.opaque()
        if letter == "f":
            return (self.word(), self.word(), self.word())
        if letter == "e":
            return Location(self)
        words = [self.word() for _ in range(WORDS[letter])]
        return Status(words) if letter == "S" else words

    def fields(self, letters):
        found = []
        repeated = False
        for letter in letters:
            if letter == "*":
                repeated = True
                continue
            found.append([self.field(letter) for _ in range(self.word())] if repeated else self.field(letter))
            repeated = False
        return found


class Message:
    """A message of a text: its place, its header, and its fields."""

    def __init__(self, place, data):
        reader = Reader(data)
        half, sender, receiver, self.epoch, self.number, self.boot, self.stamp, self.opcode = (reader.word() for _ in range(8))
        self.place = place
        self.half = {1: "call", 2: "reply", 3: "boot"}[half]
        self.sender, self.receiver = node_name(sender), node_name(receiver)
        self.user = reader.opaque() if self.half == "call" else None
        self.code = reader.signed() if self.half == "reply" else None
        letters = CALLS[self.opcode] if self.half == "call" else REPLIES[self.opcode] if self.code == 0 else ""
        self.fields = reader.fields(letters)
        self.is_whole = reader.at == len(data)

    def key(self):
        """The key of the call that this is, or answers."""
        caller = self.sender if self.half == "call" else self.receiver
        return f"{caller}.{self.epoch}.{self.number}"

    def callee(self):
        return self.receiver if self.half == "call" else self.sender

    def objects(self):
        """The fids that a call of a client names."""
        letters = CALLS[self.opcode]
        if letters[:2] == "*f":
            return list(self.fields[0])
        return [value for letter, value in zip(letters, self.fields) if letter == "f"]

    def tells(self):
        """Half, sender, receiver, opcode, pair and code, as its line tells them."""
        words = [self.sender, self.receiver, self.half, str(self.opcode), f"{self.epoch}.{self.number}"]
        return words + ([str(self.code)] if self.half == "reply" else [])

    def release(self):
        """The release number that a reply about a volume carries."""
        letters = REPLIES[self.opcode].replace("*", "")
        return self.fields[letters.index("v")][0] if self.code == 0 and "v" in letters else None


class Dump:
    """A dump: the volume's own number and family, and the images of its vnodes."""

    def __init__(self, data):
        reader = Reader(data)
        reader.fields("uuu")
        self.volume = reader.word()
        self.name = reader.opaque()
        self.since = reader.word()
        _, _, self.family, self.kind, self.quota, self.unique, self.counter, self.release = (reader.word() for _ in range(8))
        self.live = [(reader.word(), reader.word()) for _ in range(reader.word())]
        self.images = {}
        while reader.word() == 3:
            words = [reader.word() for _ in range(15)]
            self.images[words[0]] = (words, reader.opaque(), reader.opaque())
