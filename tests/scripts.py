"""Makes scripts, good and bad, and what a reference program reads of them.

scripts.py REFERENCE SEED COUNT IN WANT: writes COUNT scripts from that seed on to IN, each behind the level of its form and
its length, and to WANT what is to be printed of each."""
import random
import sys

reference, seed, count, into, want = sys.argv[1], int(sys.argv[2]), int(sys.argv[3]), sys.argv[4], sys.argv[5]
sys.path.insert(0, reference)
import script as S
import stages
import text
from rules import Rules

NODES = ["c1", "c2", "c16", "c17", "c0", "s1", "s2", "s8", "s9", "a1", "a4", "a5", "loc", "c01", "x1", "c", "s", "1", "lo"]
NAMES = ["a", "b", "proj", "v.readonly", "x%20y", "x%2Fy", "%41", "%4", "%", "%G0", "a%c3", "n" * 255, "n" * 256, "n" * 257, "..", "-_.", "%00", "%FF%FE", "p" * 32, "p" * 33]
VOLUMES = ["proj", "v0", "v1", "123", "x.backup", "v.readonly", "n" * 22, "n" * 23, "A_b-c.d", "a%20", "proj"]
NUMBERS = ["0", "1", "2", "3", "4", "8", "9", "16", "17", "64", "256", "257", "1000", "999", "16384", "16385", "65535", "65536", "268435456", "268435457", "4294967295", "4294967296", "18446744073709551615", "18446744073709551616", "99999999999999999999", "100000000000000000000", "00", "01", "-1", "", "1x", "600000000"]
BYTES = ["hex:", "hex:61", "hex:6162", "hex:6", "hex:6G", "hex:6A", "hex", "fill:0:00", "fill:5:61", "fill:01:61", "fill:5:6", "fill:5:6A", "fill:2097152:00", "fill:2097153:00", "fill:99999999999:00", "fill:5:61:", "fill:", "fill::61", "hex:" + "61" * 1024, "hex:" + "61" * 1025, "fill:1024:62", "fill:1025:62", "text"]
CLIENT = dict(S.CLIENT_ACTS)
ADMIN = dict(S.ADMIN_ACTS)


def mostly(r, good, bad, odds):
    return r.choice(good) if r.random() < odds else r.choice(bad)


class Maker:
    def __init__(self, r, odds):
        self.r, self.odds = r, odds
        self.servers = self.clients = self.admins = 0

    def pick(self, good, bad):
        return mostly(self.r, good, bad, self.odds)

    def number(self, low, high):
        good = [str(n) for n in {low, high, min(high, low + 1), self.r.randint(low, min(high, low + 50))}]
        return self.pick(good, NUMBERS)

    def node(self, kinds):
        good = ["loc"] if "l" in kinds else []
        for letter, n in (("s", self.servers), ("c", self.clients), ("a", self.admins)):
            if letter in kinds:
                good += ["%s%d" % (letter, i) for i in range(1, n + 1)]
        return self.pick(good or ["c1"], NODES)

    def name(self):
        return self.pick(["a", "b", "dir", "x%20y", "%FF", "n" * 20], NAMES)

    def path(self):
        first = self.pick(["proj", "v0", "v1", "v0.readonly"], VOLUMES + NAMES)
        depth = self.r.choice([0, 1, 1, 1, 2, 2, 3, 5])
        return "/".join([first] + [self.name() for _ in range(depth)])

    def setup_path(self):
        first = self.pick(self.laid or ["proj"], VOLUMES + NAMES)
        return "/".join([first] + [self.name() for _ in range(self.r.choice([0, 1, 1, 1, 2, 2, 3]))])

    def hex(self, data):
        return "hex:" + data.hex()

    def list_text(self):
        """The text of an access list, mostly a good one."""
        r = self.r
        names = r.sample(["alice", "bob", "system:anyuser", "system:administrators", "u" * 40], r.choice([0, 1, 1, 2, 3]))
        cut = r.randrange(len(names) + 1)
        lines = ["%d\n%d\n" % (cut, len(names) - cut)] + ["%s\t%d\n" % (n, r.choice([0, 1, 9, 127])) for n in names]
        data = "".join(lines).encode()
        return self.pick([data], [b"", b"1\n", data + b"x", data.replace(b"\t", b" "), data[:-1], b"0\n0\n" + b" " * 1100])

    def setups(self):
        """Many lines of set-up, most of them good."""
        r, odds = self.r, self.odds
        self.odds = r.choice([1.0, 1.0, 0.999, 0.99])
        places = {v: [[]] for v in self.laid}
        others = {v: [] for v in self.laid}
        large = r.random() < 0.2
        lines = []
        for k in range(r.choice([3, 10, 30, 60, 120, 300] + ([1100, 4200] if large else []))):
            v = r.choice(self.laid)
            word = r.choice(["dir", "dir", "file", "file", "file", "link", "acl"])
            if large and r.random() < 0.9:
                word = "file"
            if large and r.random() < 0.95:
                parent = places[v][0] if k < 1000 or len(places[v]) < 5 else places[v][k // 1000]
            else:
                parent = self.pick(places[v], others[v] + [["none"]])
            name = "%s%d" % (word[0], k)
            if r.random() > self.odds:
                name = r.choice([p[-1] for p in places[v] + others[v] if p] + ["n" * 255, "n" * 256, "%2F", "..", "%00", "."])
            path = parent + [name]
            if word == "acl":
                path = self.pick(places[v], others[v] + [["none"], parent + ["x"]])
                lines.append([word, "/".join([v] + path), self.hex(self.list_text())])
                continue
            (places if word == "dir" else others)[v].append(path)
            line = [word, "/".join([v] + path)]
            if word == "file":
                size = r.choice([0, 1, 3, 4, 100, 1024, 1025] + ([] if large else [5000, 20000, 65535, 65536]))
                line.append(self.pick(["fill:%d:61" % size, self.hex(bytes(r.randrange(256) for _ in range(size % 50)))], ["fill:65537:00", "fill:2097152:00", "fill:2097153:00"]))
            elif word == "link":
                line.append(self.pick([self.hex(b"to"), "fill:1024:78", "hex:"], ["fill:1025:78"]))
            lines.append(line)
        self.odds = odds
        return lines

    def fid(self):
        return "@" + ".".join([self.pick(["536870912", "1"], NUMBERS), self.pick(["2", "1", "4"], NUMBERS), self.pick(["2", "3"], NUMBERS)][:self.r.choice([3] * 40 + [2, 4])])

    def operand(self):
        return self.fid() if self.r.random() < 0.4 else self.path()

    def bytes(self):
        return self.pick(["hex:", "hex:6162", "fill:7:61", "hex:00ff", "fill:1024:00"], BYTES)

    def words(self, letters):
        out = []
        for k in letters:
            if k == "P":
                out.append(self.operand())
            elif k == "p":
                out.append(self.path() if self.r.random() < 0.97 else self.fid())
            elif k in "BLA":
                out.append(self.bytes())
            elif k == "M":
                out.append(self.pick(["0", "7", "644", "7777", "755"], ["00", "8", "10000", "77777", "0644", "", "rw"]))
            elif k == "N":
                out.append(self.name())
            elif k == "S":
                out.append(self.node("s"))
            elif k == "Q":
                out.append(self.number(1, 16384))
            elif k == "T":
                out.append(self.pick(["d1", "full"], VOLUMES))
            elif k == "U":
                out.append(self.number(0, 4294967295))
        return out

    def task(self):
        node = self.node("ca")
        table = ADMIN if node[:1] == "a" else CLIENT
        if self.r.random() > self.odds:
            table = self.r.choice([ADMIN, CLIENT, {"lock": "P", "opens": "P", "ope": "P"}])
        word = self.r.choice(sorted(table))
        return ["do", node, word] + self.words(table[word])

    def event(self):
        word = self.r.choice(S.EVENTS)
        out = [word]
        if word == "act":
            out.append(self.node("ca"))
        elif word == "deliver":
            out.append(self.number(1, 18446744073709551615))
        elif word == "timeout":
            a = self.node("sca")
            out += [a, self.node("sc" if a[:1] == "s" else "ls")]
        elif word == "wake":
            out.append(self.node("s"))
        elif word == "tick":
            out.append(self.pick(["1", "7200", "300000000", "500000000"], NUMBERS))
        elif word == "crash":
            n = self.node("lsca")
            out.append(n)
            if n[:1] in "ls":
                out.append(self.number(0, 3))
        elif word == "restart":
            out.append(self.node("lsca"))
        elif word == "stop":
            out += [self.node("ls"), self.number(0, 4294967295), self.number(0, 3)]
        elif word == "fail":
            out += [self.node("ls"), self.number(1, 4294967295)]
        return out

    def is_built(self, level, e):
        if e[0] == "act" and not self.clients and not self.admins:
            return False
        if e[0] in ("stop", "fail", "wake") and level < 6:
            return e[0] != "wake" and level >= 4 and "loc" not in e
        if level < 7 and "loc" in e[1:]:
            return False
        if e[0] == "timeout" and e[1][:1] == "s":
            return level >= 6
        if e[0] in ("crash", "restart") and e[1][:1] == "s":
            return level >= 4
        return True

    def plan(self):
        kind = self.pick(["lose", "repeat", "crash"], ["loses", "wake", ""])
        out = ["plan", kind]
        if kind == "crash":
            return out + [self.node("s"), self.number(1, 4294967295)]
        return out + [self.node("lsca"), self.node("lsca"), self.number(1, 4294967295)]

    def script(self, level):
        r = self.r
        one = lambda: r.random() < self.odds
        self.servers = r.choice([1, 1, 2, 3, 8]) if level >= 7 or not one() else 1
        self.clients = r.choice([1, 1, 2, 5, 16, 0] if self.odds == 1 else [0, 1, 2, 16]) if level >= 6 or not one() else 1
        lines = [["cell", self.pick(["1"], NUMBERS)], ["servers", str(self.servers)]]
        if r.random() < 0.97:
            lines.append(["clients", str(self.clients)])
        else:
            self.clients = 0
        if level >= 9 and r.random() < 0.5:
            self.admins = r.choice([0, 1, 4])
            lines.append(["admins", str(self.admins)])
        if (level >= 6 or not one()) and r.random() < 0.3:
            lines.append(["cache", self.number(1, 256)])
        if (level >= 4 or not one()) and r.random() < 0.3:
            lines.append(["capacity", self.number(65536, 268435456) if r.random() < 0.5 else str(r.choice([65536, 70000, 100000, 300000, 1000000]))])
        if level >= 5 or not one():
            for _ in range(r.choice([0, 0, 1, 3]) if self.clients or not one() else 0):
                lines.append(["user", self.node("c"), self.pick(["alice", "bob%20x"], NAMES + ["u" * 64, "u" * 65])])
        names = ["proj", "v0", "v1"] if level >= 7 or not one() else ["proj"]
        names = names[:r.choice([1, 2, 3])]
        self.laid = names
        many = level >= 5 and r.random() < 0.5
        for n in names:
            quota = str(r.choice([1, 100, 1000, 5000] + [16384] * 12)) if many else self.number(1000 if level < 5 and one() else 1, 16384)
            lines.append(["volume", self.pick([n], VOLUMES), self.node("s"), quota])
        if many:
            lines += self.setups()
        for _ in range(0 if many else r.choice([0, 0, 0, 1, 2, 4]) if level >= 5 else r.choice([0, 1, 1, 2])):
            word = r.choice(["dir", "file", "link", "acl"]) if level >= 5 or not one() else "file"
            lines.append([word, self.setup_path()] + ([self.bytes()] if word != "dir" else []))
        for _ in range(r.choice([0, 1, 2, 4, 8]) if self.clients or self.admins or not one() else 0):
            t = self.task()
            while level < 6 and one() and t[2] in ("statall", "giveup"):
                t = self.task()
            if level < 5 and one():
                t = ["do", self.node("c"), r.choice(["open", "close"]), "@536870912.%d.2" % r.choice([2, 4])]
                if t[2] == "close":
                    t.append(self.bytes())
            lines.append(t)
        if level >= 10 or not one():
            for _ in range(r.choice([0, 0, 1, 2])):
                lines.append(self.plan())
        if r.random() < 0.8:
            lines.append(["schedule"])
            for _ in range(r.choice([0, 2, 5, 10])):
                e = self.event()
                while one() and not self.is_built(level, e):
                    e = self.event()
                lines.append(e)
        lines.append(["end"])
        return lines


def spoil(r, lines):
    """One change of the lines."""
    at = r.randrange(len(lines))
    kind = r.randrange(12)
    if kind == 0:
        lines.insert(at, list(r.choice(lines)))
    elif kind == 1:
        del lines[at]
    elif kind == 2:
        other = r.randrange(len(lines))
        lines[at], lines[other] = lines[other], lines[at]
    elif kind == 3:
        lines[at].append(r.choice(["", "x", "1"]))
    elif kind == 4 and len(lines[at]) > 1:
        del lines[at][r.randrange(1, len(lines[at]))]
    elif kind == 5:
        lines[at].insert(r.randrange(len(lines[at]) + 1), "")
    elif kind == 6:
        lines[at][0] = r.choice(["cel", "format", "Act", "schedule", "end", "drain", "lock", "dirs", "plan", "wake"])
    elif kind == 7:
        lines.insert(at, [r.choice(["", "# a remark", "#", " #"])])
    elif kind == 8:
        lines.append([r.choice(["", "# behind", "end", "tick 1"])])
    elif kind == 9:
        k = r.randrange(len(lines[at]))
        word = lines[at][k]
        if word:
            p = r.randrange(len(word))
            lines[at][k] = word[:p] + r.choice("%/@.:0aZ\t\x00\xe9 ") + word[p + 1:]
    elif kind == 10:
        k = r.randrange(len(lines[at]))
        lines[at][k] = r.choice(NODES + NAMES + NUMBERS + BYTES)


def made(n):
    r = random.Random(n)
    level = r.choice([3, 4, 5, 6, 7, 8, 9, 10, 10, 10, 10])
    lines = Maker(r, r.choice([1.0, 1.0, 0.99, 0.97, 0.9])).script(level)
    for _ in range(r.choice([0, 0, 1, 1, 2])):
        if lines:
            spoil(r, lines)
    data = "".join(" ".join(words) + "\n" for words in lines).encode("latin-1")
    ending = r.randrange(12)
    if ending == 0:
        data = data[:-1]
    elif ending == 1:
        data += b"x"
    elif ending == 2:
        data = data[:r.randrange(len(data) + 1)]
    return level, data


def told(level, data):
    rules = Rules("R%d" % level)
    try:
        s = S.read_script(data, rules, stages.early(rules))
    except S.ScriptFault as f:
        return "line %d: %s\n" % (f.line, f.reason)
    out = ["cell %d %d %d %d %d" % (s.servers, s.clients, s.admins, s.cache, s.capacity)]
    out += s.user_lines
    for v in s.volumes:
        out.append("volume %d %s s%d %d" % (v.id, v.name.decode(), v.server, v.quota))
        out += [x.text for x in s.setup if x.names[0] == v.name]
    out += ["do %s %s" % (d.node, d.act.text) for d in s.acts]
    out += ["plan " + " ".join(str(x) for x in p) for p in s.plans]
    if s.schedule is not None:
        out.append("schedule")
        out += [S.event_text(e) for e in s.schedule]
    return "\n".join(out + ["end", ""])


class Users(dict):
    def __init__(self, lines):
        super().__init__()
        self.lines = lines

    def __setitem__(self, client, name):
        super().__setitem__(client, name)
        self.lines.append("user c%d %s" % (client, text.escape(name)))


begin = S.Script.__init__


def with_user_lines(self, *given, **named):
    begin(self, *given, **named)
    self.user_lines = []
    self.users = Users(self.user_lines)


S.Script.__init__ = with_user_lines
with open(into, "wb") as scripts, open(want, "w", encoding="latin-1") as texts:
    for n in range(seed, seed + count):
        level, data = made(n)
        scripts.write(bytes([level]) + len(data).to_bytes(4, "big") + data)
        texts.write(told(level, data))
