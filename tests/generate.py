"""Makes a script from a seed: python3 tests/generate.py KIND SEED PROGRAM.

The kinds of one server: `events`, one client or none, whose messages are lost, repeated, reordered and time out, and which crashes
and begins again; `disks`, the same with a server and a location database that crash, and whose disks stop or fail; `acts`, every act
on a tree of directories, files and links with access lists and users; `caches`, up to 16 clients with small caches, and a clock that
passes the ends of promises. Those of up to eight: `servers`, volumes on several of them, clients, and all these accidents at each
node; `asks`, acts on volumes that the script doesn't have, or on copies that no volume has, and accidents of the location database;
`admins`, administrators beside clients, whose acts are on volumes of the script and on new ones, and all these accidents at each
node; three acts of clients in five ask for a read-only volume or a backup. About one script in eight of `events`, `acts`, `asks` and
`admins` is spoiled in one place, so that it may be none.

PROGRAM is a program that plays scripts, as the built one. It is asked how far a script goes: how many messages were sent, and
which lines it refuses. What it prints beside that plays no part, and nothing here says what is right: tests/seeds.sh compares.
"""

import random
import subprocess
import sys

ACCESS_LISTS = [
    b"2\n0\nsystem:anyuser\t9\namy\t127\n",
    b"1\n0\nbob\t127\n",
    b"1\n0\nguest\t127\n",
    b"2\n1\nsystem:anyuser\t127\namy\t127\nbob\t2\n",
    b"1\n0\nsystem:anyuser\t127\n",
    b"0\n0\n",
]
FIDS = [(1, 1), (2, 2), (4, 3), (3, 2), (6, 4), (8, 5)]
READERS = ["open"] * 7 + ["list"] * 3 + ["stat"] * 4 + ["statall"] * 3 + ["readlink", "getacl", "giveup"]
WRITERS = ["close"] * 6 + ["make", "mkdir", "rm", "mv"] * 2 + ["rmdir", "ln", "symlink", "chmod", "setacl"]
ERRANDS = ["create", "restore", "addsite", "backup", "release", "move", "dump", "recover"] * 2 + ["addsite", "release", "move", "remove"]
NEW_VOLUMES = ["new1", "new2", "new3"]
LABELS = ["l1", "l2"]


class Kind:
    """What scripts of a kind have, and how many of their acts ask for a volume that isn't there."""

    def __init__(self, clients, caches, disks, trees, spoiled, servers=(1,), asks=0.02, admins=()):
        self.clients = clients
        self.caches = caches
        self.disks = disks
        self.trees = trees
        self.spoiled = spoiled
        self.servers = servers
        self.asks = asks
        self.admins = admins


KINDS = {
    "events": Kind([0, 1, 1, 1, 1, 1, 1, 1], [64, 3], False, 0.3, 0.125),
    "disks": Kind([1, 1, 2, 3], [64], True, 0.3, 0),
    "acts": Kind([1, 1, 2, 3], [64, 8, 3], True, 0.9, 0.125),
    "caches": Kind([1, 2, 3, 4, 6, 16], [1, 2, 3, 4, 6, 8, 16, 64], True, 0.5, 0),
    "servers": Kind([1, 2, 3, 4], [64, 16, 3], True, 0.4, 0, (1, 2, 3, 4, 5, 6, 7, 8), 0.05),
    "asks": Kind([1, 1, 2, 3], [64, 3], True, 0.2, 0.125, (1, 1, 2, 3, 8), 0.5),
    "admins": Kind([0, 1, 1, 2, 2, 3], [64, 3], True, 0.3, 0.125, (1, 2, 2, 3, 3, 8), 0.05, (1, 1, 2, 4)),
}


class Script:
    """A script that grows, and how far a program gets with it."""

    def __init__(self, program, lines):
        self.program = program
        self.lines = lines
        self.events = []
        self.sent = 0
        self.down = set()
        self.called = {}

    def text(self):
        return "\n".join([*self.lines, "schedule", *self.events, "end"]) + "\n"

    def play(self):
        return subprocess.run([self.program, "replay"], input=self.text().encode(), capture_output=True, check=False)

    def clean(self):
        """Takes out each line that is refused."""
        while True:
            told = self.play().stderr.decode()
            if not told.startswith("script: line "):
                return
            del self.lines[int(told.split()[2].rstrip(":")) - 1]

    def look(self):
        """How many messages were sent by now, which nodes are down, and whom each node called last."""
        self.sent = 0
        self.down = set()
        self.called = {}
        for line in self.play().stdout.decode().split("\n"):
            words = line.split(" ")
            if words[0] == "sent":
                self.sent += 1
                if words[4] == "call":
                    self.called[words[2]] = words[3]
            elif words[0] in ("crash", "fault", "full"):
                self.down.add(words[1])
            elif words[0] == "restart":
                self.down.discard(words[1])


def head(rng, kind):
    clients = rng.choice(kind.clients)
    servers = rng.choice(kind.servers)
    lines = ["cell 1", f"servers {servers}"]
    if clients or rng.random() < 0.5:
        lines.append(f"clients {clients}")
    admins = rng.choice(kind.admins) if kind.admins else 0
    if admins:
        lines.append(f"admins {admins}")
    if rng.random() < 0.7:
        lines.append(f"cache {rng.choice(kind.caches)}")
    if kind.disks and rng.random() < 0.3:
        lines.append(f"capacity {rng.choice([65536, 70000, 100000, 1048576])}")
    for client in range(1, clients + 1):
        if rng.random() < 0.5 * kind.trees:
            lines.append(f"user c{client} {rng.choice(['amy', 'bob', 'carol', 'guest'])}")
    return servers, clients, admins, lines


def tree(rng, kind, name):
    """Set-up lines of a volume, and the paths of its directories and files."""
    lines = []
    directories = []
    if rng.random() < kind.trees:
        directories = rng.choice([[], ["d"], ["d", "e"], ["d", "d/f"], ["d", "e", "d/f"]])
    lines += [f"dir {name}/{path}" for path in directories]
    files = []
    for number in range(rng.choice([1, 2, 3, 6, 20])):
        path = rng.choice(["", *(f"{directory}/" for directory in directories)]) + f"f{number}"
        contents = rng.choice(["hex:616263", "hex:", f"fill:{rng.choice([0, 1, 100, 1024, 2000])}:61"])
        lines.append(f"file {name}/{path} {contents}")
        files.append(path)
    if rng.random() < 0.5 * kind.trees:
        lines.append(f"link {name}/l hex:{rng.choice(['78797a', '6430'])}")
    if rng.random() < 0.5 * kind.trees:
        path = rng.choice(["", *(f"/{directory}" for directory in directories)])
        lines.append(f"acl {name}{path} hex:{rng.choice(ACCESS_LISTS).hex()}")
    return lines, directories, files


def trees(rng, kind, servers):
    """Volumes at these servers, with what is laid in them: the lines, and the paths of each volume by its name and number."""
    count = 1 if max(kind.servers) == 1 else rng.choice([1, 2, servers, servers, servers + 2])
    lines = []
    laid = []
    paths = []
    for number in range(count):
        name = ["proj", "docs", "a_b-c.d"][number] if number < 3 else f"v{number}"
        lines.append(f"volume {name} s{rng.randrange(1, servers + 1)} {rng.choice([12, 30, 1000, 10000, 10000])}")
        more, directories, files = tree(rng, kind, name)
        laid += more
        paths.append(Paths(rng, name, 536870912 + number, directories, files))
    return lines + laid, paths


class Paths:
    """Paths of a tree, and some that aren't there."""

    def __init__(self, rng, volume, number, directories, files):
        self.rng = rng
        self.volume = volume
        self.number = number
        self.directories = directories
        self.files = files
        self.names = [path.split("/")[-1] for path in files][:8] + ["d", "e", "l", "x", "y", "a%25b", "f0"]

    def any(self):
        rng = self.rng
        if rng.random() < 0.1:
            vnode, unique = rng.choice(FIDS)
            return f"@{self.number}.{vnode}.{unique}"
        if rng.random() < 0.45 and self.files:
            return f"{self.volume}/{rng.choice(self.files)}"
        parts = [self.volume]
        if rng.random() < 0.4 and self.directories:
            parts.append(rng.choice(self.directories))
        if rng.random() < 0.9:
            parts.append(rng.choice(self.names))
        return "/".join(parts)

    def directory(self):
        return self.rng.choice([self.volume, *(f"{self.volume}/{path}" for path in self.directories), self.any()])


class Copy:
    """Paths of a copy of a volume. Copies have numbers that acts of administrators have drawn."""

    def __init__(self, rng, volume):
        self.rng = rng
        self.volume = volume
        self.kind = rng.choice([".readonly", ".readonly", ".backup"])

    def any(self):
        return self.of_copy(self.volume.any())

    def directory(self):
        return self.of_copy(self.volume.directory())

    def of_copy(self, path):
        if path[0] == "@":
            return f"@{536870912 + self.rng.randrange(16)}.{path.partition('.')[2]}"
        name, slash, rest = path.partition("/")
        return f"{name}{self.kind}{slash}{rest}"


class Forest:
    """The paths of all volumes, and of volumes that aren't there."""

    def __init__(self, rng, kind, volumes, released):
        self.rng = rng
        self.asks = kind.asks
        self.volumes = volumes
        self.has_copies = bool(kind.admins)
        self.released = [volume for volume in volumes if volume.volume == released]

    def unknown(self):
        rng = self.rng
        known = rng.choice(self.volumes).volume
        names = ["nosuch", f"{known}.readonly", f"{known}.backup", f"{known}.readonly.backup", ".readonly", "007", "n" * 32, "%FF"]
        number = rng.choice([0, 7, 536870911, self.volumes[-1].number + 1, 4294967295])
        name = rng.choice(names)
        return rng.choice([name, f"{name}/f0", f"{name}/d/x", f"@{number}.1.1", f"@{number}.2.2"])

    def volume(self):
        """A volume, or a copy of one."""
        if self.has_copies and self.rng.random() < 0.6:
            return Copy(self.rng, self.rng.choice(self.released * 20 + self.volumes))
        return self.rng.choice(self.volumes)

    def any(self):
        return self.unknown() if self.rng.random() < self.asks else self.volume().any()

    def two(self):
        """Two paths, mostly of one volume."""
        if self.rng.random() < 0.7:
            volume = self.volume()
            return f"{volume.any()} {volume.any()}"
        return f"{self.any()} {self.any()}"

    def directory(self):
        return self.unknown() if self.rng.random() < self.asks else self.volume().directory()


def act(rng, paths):
    word = rng.choice(READERS + WRITERS)
    if word in ("list", "statall", "getacl"):
        return f"{word} {paths.directory()}"
    if word == "close":
        contents = [f"fill:{rng.randrange(40)}:{rng.randrange(256):02x}", f"hex:{rng.randbytes(rng.randrange(8)).hex()}",
                    f"fill:{rng.choice([1024, 5000, 20000])}:41"]
        return f"close {paths.any()} {rng.choice(contents)}"
    if word in ("mv", "ln"):
        return f"{word} {paths.two()}"
    if word == "symlink":
        return f"symlink {paths.any()} hex:616263"
    if word == "chmod":
        return f"chmod {paths.any()} {rng.choice(['644', '600', '755', '0644'])}"
    if word == "setacl":
        return f"setacl {paths.directory()} hex:{rng.choice([*ACCESS_LISTS, b'x']).hex()}"
    return word if word == "giveup" else f"{word} {paths.any()}"


def releases(rng, name, servers):
    """The first errands in most scripts: this volume gets sites, and copies there."""
    sites = [f"addsite {name} s{rng.randrange(1, servers + 1)}" for _ in range(rng.choice([1, 2, 3]))]
    return [*sites, f"release {name}", *rng.choice([[], [f"backup {name}"]])] if rng.random() < 0.8 else []


def errand(rng, names, servers):
    """An act of an administrator, mostly on a volume of the script or one that another act has made."""
    word = rng.choice(ERRANDS)
    name = rng.choice([*names * 4, *NEW_VOLUMES]) if rng.random() < 0.97 else "nosuch"
    server = f"s{rng.randrange(1, servers + 1)}"
    if word == "create":
        return f"create {rng.choice([*NEW_VOLUMES, name])} {server} {rng.choice([1, 12, 1000])}"
    if word == "restore":
        return f"restore {rng.choice([*NEW_VOLUMES, name])} {server} {rng.choice(LABELS)}"
    if word == "dump":
        return f"dump {name} {rng.choice(LABELS)} {rng.choice([0, 0, 0, 1, 3, 10, 4294967295])}"
    return f"{word} {name} {server}" if word in ("addsite", "move") else f"{word} {name}"


class Nodes:
    """The nodes of a cell, and what no step asks them for."""

    def __init__(self, rng, kind, servers, clients, admins):
        self.rng = rng
        self.has_disks = kind.disks
        self.asks = kind.asks
        self.servers = [f"s{number}" for number in range(1, servers + 1)]
        self.clients = [f"c{number}" for number in range(1, clients + 1)]
        self.admins = [f"a{number}" for number in range(1, admins + 1)]
        self.actors = [*self.clients, *self.admins]

    def client(self):
        return self.rng.choice(self.clients)

    def actor(self):
        """A node that has acts."""
        return self.rng.choice(self.actors)

    def with_disk(self):
        """A server, or the location database, the oftener the more it is asked."""
        return "loc" if self.rng.random() < self.asks else self.rng.choice(self.servers)

    def accident(self):
        """Something that no step asks for."""
        rng = self.rng
        events = [f"tick {rng.choice([1, 10, 100, 3000, 7199, 7200, 7300])}", f"deliver {1 + rng.randrange(10**6)}",
                  f"wake {rng.choice(self.servers)}"]
        if self.clients:
            client = self.client()
            events += [f"crash {client}", f"restart {client}", f"timeout {client} {self.with_disk()}",
                       f"timeout {rng.choice(self.servers)} {client}"]
        if self.admins:
            admin = rng.choice(self.admins)
            events += [f"crash {admin}", f"restart {admin}", f"timeout {admin} {self.with_disk()}",
                       f"timeout {rng.choice(self.servers)} {rng.choice(self.servers)}"]
        if self.has_disks:
            node = self.with_disk()
            events += [f"crash {node} {rng.randrange(4)}", f"restart {node}", f"stop {node} {rng.randrange(6)} {rng.randrange(4)}",
                       f"fail {node} {rng.randrange(1, 6)}"]
        return rng.choice(events)

    def timeout(self, called):
        """A call that may wait: mostly the last one of its node."""
        rng = self.rng
        caller = rng.choice([*self.actors, *self.servers])
        if caller in called and rng.random() < 0.8:
            return f"timeout {caller} {called[caller]}"
        asked = self.client() if self.clients else rng.choice(self.servers)
        return rng.choice([f"timeout {self.actor()} {self.with_disk()}", f"timeout {rng.choice(self.servers)} {asked}"])


def schedule(rng, kind, nodes, script):
    """Plays on: messages mostly come in order, some are lost, late or repeated."""
    script.look()
    named = set(range(1, script.sent + 1))
    wild = rng.choice([0, 0.02, 0.1, 0.3])
    lost = rng.choice([0, 0.05, 0.3])
    for step in range(rng.choice([150, 300, 600]) if nodes.admins else rng.choice([20, 60, 150, 300])):
        if step % 3 == 0:
            script.look()
        flying = [place for place in range(1, script.sent + 1) if place not in named]
        chance = rng.random()
        if chance < wild:
            script.events.append(nodes.accident())
        elif chance < 0.62 and flying:
            place = flying[0] if rng.random() < 0.7 else rng.choice(flying)
            named.add(place)
            if rng.random() >= lost:
                script.events.append(f"deliver {place}")
        elif chance < 0.66 and script.sent:
            place = 1 + rng.randrange(script.sent)
            named.add(place)
            script.events.append(f"deliver {place}")
        elif chance < (0.82 if nodes.admins else 0.9) and nodes.actors:
            script.events.append(f"act {nodes.actor()}")
        elif chance < 0.94 and nodes.actors:
            script.events.append(nodes.timeout(script.called))
        elif chance < 0.97 and script.down:
            script.events.append(f"restart {rng.choice(sorted(script.down))}")
        elif chance < (0.995 if nodes.admins else 0.98):
            script.events.append("drain")
            script.look()
            named.update(range(1, script.sent + 1))
    if rng.random() < 0.6:
        ends = ["loc", *nodes.servers] if kind.disks else []
        script.events += [f"restart {node}" for node in [*ends, *nodes.actors]] + ["drain"]


def spoil(rng, text):
    """The text with one line or one letter changed."""
    lines = text.split("\n")[:-1]
    place = rng.randrange(len(lines))
    how = rng.randrange(6)
    if how == 0:
        del lines[place]
    elif how == 1:
        lines.insert(place, lines[rng.randrange(len(lines))])
    elif how == 2:
        lines[place] += rng.choice([" ", " x", " 0", "0", "%"])
    elif how == 3:
        words = lines[place].split(" ")
        words[rng.randrange(len(words))] = rng.choice(["", "0", "007", "4294967296", "9", "c2", "s2", "a1", "loc", "hex:6", "proj/..", "@1.2", "x"])
        lines[place] = " ".join(words)
    elif how == 4 and lines[place]:
        letter = rng.randrange(len(lines[place]))
        lines[place] = lines[place][:letter] + rng.choice("aZ0/% .:@#") + lines[place][letter + 1:]
    else:
        return text[: rng.randrange(len(text))]
    return "\n".join(lines) + "\n"


def make(name, seed, program):
    kind = KINDS[name]
    rng = random.Random(f"{name} {seed}")
    servers, clients, admins, lines = head(rng, kind)
    more, volumes = trees(rng, kind, servers)
    names = [volume.volume for volume in volumes]
    if admins:
        volumes += [Paths(rng, name, volumes[0].number, [], []) for name in NEW_VOLUMES]
    released = rng.choice(names) if admins else ""
    paths = Forest(rng, kind, volumes, released)
    nodes = Nodes(rng, kind, servers, clients, admins)
    tasks = []
    if clients:
        tasks = [f"do {nodes.client()} {act(rng, paths)}" for _ in range(rng.choice([3, 10, 30, 60]))]
    first = releases(rng, released, servers) if admins else []
    if admins:
        tasks += [f"do a1 {words}" for words in first]
        tasks += [f"do {rng.choice(nodes.admins)} {errand(rng, names, servers)}" for _ in range(rng.choice([3, 6, 12, 24]))]
    script = Script(program, [*lines, *more, *tasks])
    script.clean()
    if first:
        # mostly they are played undisturbed
        script.events += ["act a1", "drain"] * rng.choice([0, len(first), len(first)])
    schedule(rng, kind, nodes, script)
    text = script.text()
    return spoil(rng, text) if rng.random() < kind.spoiled else text


if __name__ == "__main__":
    sys.stdout.write(make(sys.argv[1], int(sys.argv[2]), sys.argv[3]))
