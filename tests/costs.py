"""Counts what acts cost over one server and over eight, and what walks and lists cost by their length.

python3 tests/costs.py [PROGRAM [PART]]: the program that the gate built, or this one; PART of a name picks some acts. Instructions are
counted by Callgrind. What one act takes is the difference of two lengths of a script, so nothing of set-up is in it. The eight volumes
of a script stand on one server, or each on its own, and the acts go round among them. An act over eight servers may take at most 1.1
times what it takes over one. A level of a path may take at most 1.1 times as much in the last 300 of 500 as in the first 200, and a name
of a directory so in the last 512 of 1,024 as in the first 512. It is no part of the gate: counting takes minutes.
"""

import re
import subprocess
import sys

PROGRAM = sys.argv[1] if len(sys.argv) > 1 else "crates/afs_top/out/afs_top"
PART = sys.argv[2] if len(sys.argv) > 2 else ""
VOLUMES = 8
MOST = 1.1


def instructions(script):
    """How many the program takes to play a script, each of whose acts has to be answered."""
    words = ["valgrind", "--tool=callgrind", "--callgrind-out-file=/dev/null", PROGRAM, "replay"]
    run = subprocess.run(words, input=script.encode(), capture_output=True, check=False)
    counted = re.search(rb"Collected : (\d+)", run.stderr)
    answers = run.stdout.count(b"\nanswer ")
    if run.returncode or not counted or answers != script.count("\ndo "):
        sys.exit(f"not counted: status {run.returncode}, {answers} answers: {run.stderr.decode()[-300:]}")
    return int(counted.group(1))


def played(head, acts):
    """The script of these acts, each played to its end."""
    tasks = [f"do {client} {act}" for client, act in acts]
    events = [event for client, _ in acts for event in (f"act {client}", "drain")]
    return "\n".join(["cell 1", *head, *tasks, "schedule", *events, "end"]) + "\n"


def per_act(script, count):
    """What one act of a script takes, where `script` makes one of so many acts."""
    return (instructions(script(2 * count)) - instructions(script(count))) / count


# ---- acts over some servers


def over(servers, clients, cache, acts):
    """The script of these acts, with eight volumes on these servers; each volume has a file of ten bytes."""
    head = [f"servers {servers}", f"clients {clients}", f"cache {cache}"]
    head += [f"volume v{volume} s{volume % servers + 1} 16384" for volume in range(VOLUMES)]
    head += [f"file v{volume}/a fill:10:61" for volume in range(VOLUMES)]
    return played(head, acts)


def round_of(act, client="c1"):
    """So many acts, where each is made of the number of a volume and how many came before it."""
    return lambda count: [(client, act(number % VOLUMES, number)) for number in range(count)]


def file_of(volume):
    return f"@{536870912 + volume}.2.2"


def stores_and_reads(count):
    """Another client opens each file before it is stored, so that each store owes a break."""
    acts = [("c2", f"open {file_of(number % VOLUMES)}") for number in range(count)]
    stores = [("c1", f"close {file_of(number % VOLUMES)} fill:10:{number % 256:02x}") for number in range(count)]
    return [act for pair in zip(acts, stores) for act in pair]


# name: clients, cache, the acts of a count, the count
ACTS = {
    "cached open": (1, 64, round_of(lambda volume, _: f"open {file_of(volume)}"), 800),
    "fetched open": (1, 1, round_of(lambda volume, _: f"open {file_of(volume)}"), 400),
    "open by path": (1, 1, round_of(lambda volume, _: f"open v{volume}/a"), 200),
    "close of 10 bytes": (1, 64, round_of(lambda volume, number: f"close {file_of(volume)} fill:10:{number % 256:02x}"), 400),
    "make": (1, 64, round_of(lambda volume, number: f"make v{volume}/n{number}"), 200),
    "status": (1, 1, round_of(lambda volume, _: f"stat {file_of(volume)}"), 400),
    "an open and a close that breaks it": (2, 64, stores_and_reads, 200),
    "giveup of one promise": (1, 64, round_of(lambda _, number: "giveup" if number % 2 else f"open {file_of(number // 2 % VOLUMES)}"), 400),
    "a volume that isn't there": (1, 64, round_of(lambda _, number: f"list nosuch{number % 10}"), 400),
}


# ---- walks and lists


def walks(depth):
    """So many lists of a directory at this depth, each read by a call."""
    head = ["servers 1", "clients 1", "cache 1", "volume proj s1 16384"]
    path = "proj"
    for _ in range(depth):
        path += "/d"
        head.append(f"dir {path}")
    return lambda count: played(head, [("c1", f"list {path}")] * count)


def lists(names):
    """So many lists of a directory of this many names, each read by a call."""
    head = ["servers 1", "clients 1", "cache 1", "volume proj s1 16384", "dir proj/d", "dir proj/e"]
    head += [f"file proj/d/n{name:04} hex:" for name in range(names)]
    return lambda count: played(head, [("c1", f"list proj/{'de'[number % 2]}") for number in range(count)])


# name: the script, its three lengths, how many acts
LENGTHS = {
    "level of a path": (walks, (1, 200, 500), 4),
    "name of a list": (lists, (1, 512, 1024), 8),
}


def main():
    above = 0
    for name, (clients, cache, acts, count) in ACTS.items():
        if PART not in name:
            continue
        one, eight = (per_act(lambda length: over(servers, clients, cache, acts(length)), count) for servers in (1, 8))
        above += eight > MOST * one
        print(f"{name}: {one:,.0f} instructions over one server, {eight:,.0f} over eight, {eight / one:.3f} times", flush=True)
    for name, (make, lengths, count) in LENGTHS.items():
        if PART not in name:
            continue
        costs = [per_act(make(length), count) for length in lengths]
        first, last = ((costs[at + 1] - costs[at]) / (lengths[at + 1] - lengths[at]) for at in (0, 1))
        above += last > MOST * first
        print(f"{name}: {first:,.0f} instructions up to {lengths[1]}, {last:,.0f} up to {lengths[2]}, {last / first:.3f} times", flush=True)
    print(f"{above} above {MOST} times")
    return 1 if above else 0


if __name__ == "__main__":
    sys.exit(main())
