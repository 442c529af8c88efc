"""Measures what a move of a volume takes: python3 tests/moves.py [PROGRAM [PLAIN]].

The volume has 1,000 files of 1 KiB and goes to and fro between two servers. Instructions are counted by Callgrind; those of one move are the
difference of two lengths of a script, so nothing of set-up is in it. Processor time is the difference of 100 moves and none, the least
of three rounds by turns. It has in it what the final part takes more where the disks are longer; so the time while moves are played is
told as well, from the answer to the tenth to that of the ninetieth. Memory is the largest in use in a run of two moves. PLAIN is another
program that plays these scripts: it has to print the same, with the bytes of each message, and the program may take at most 1.25 times
its time and 1.5 times its memory. It is no part of the gate: counting takes a minute, and needs valgrind, GNU time and Linux. The program is the
one that the gate built, or PROGRAM.
"""

import os
import re
import subprocess
import sys
import tempfile

PROGRAM = sys.argv[1] if len(sys.argv) > 1 else "crates/afs_top/out/afs_top"
PLAIN = sys.argv[2] if len(sys.argv) > 2 else None
FILES = 1000
BYTES = 1024
ANSWER = b"\nanswer a1 0\n"
MOST_TIME = 1.25
MOST_MEMORY = 1.5


def script(moves):
    head = ["cell 1", "servers 2", "clients 0", "admins 1", "volume proj s1 16384"]
    files = [f"file proj/n{number:04} fill:{BYTES}:{number % 256:02x}" for number in range(FILES)]
    tasks = [f"do a1 move proj s{2 - number % 2}" for number in range(moves)]
    return "\n".join([*head, *files, *tasks, "schedule", *["act a1", "drain"] * moves, "end", ""]).encode()


def instructions(program, moves):
    words = ["valgrind", "--tool=callgrind", "--callgrind-out-file=/dev/null", program, "replay"]
    run = subprocess.run(words, input=script(moves), capture_output=True, check=False)
    counted = re.search(rb"Collected : (\d+)", run.stderr)
    if run.returncode or not counted or run.stdout.count(ANSWER) != moves:
        sys.exit(f"not counted: status {run.returncode}: {run.stderr.decode()[-300:]}")
    return int(counted.group(1))


def used(program, moves):
    """Processor seconds and the largest memory in use, in KiB."""
    words = ["/usr/bin/time", "-f", "%U %S %M", program, "replay"]
    run = subprocess.run(words, input=script(moves), stdout=subprocess.DEVNULL, stderr=subprocess.PIPE, check=True)
    user, system, memory = run.stderr.split()
    return float(user) + float(system), int(memory)


def played(program):
    """Processor seconds of a move while moves are played: from the answer to the tenth to that of the ninetieth."""
    at, text = [], b""
    with tempfile.TemporaryFile() as file:
        file.write(script(100))
        file.seek(0)
        with subprocess.Popen([program, "replay"], stdin=file, stdout=subprocess.PIPE) as run:
            while piece := os.read(run.stdout.fileno(), 65536):
                with open(f"/proc/{run.pid}/schedstat", encoding="ascii") as told:
                    now = int(told.read().split()[0]) / 1e9
                text += piece
                at += [now] * text.count(ANSWER)
                text = text[1 - len(ANSWER) :]
    if run.returncode or len(at) != 100:
        sys.exit(f"not measured: status {run.returncode}, {len(at)} of 100 moves were answered")
    return (at[89] - at[9]) / 80


def measured(programs):
    """Of each program the instructions of a move, its processor seconds with what the final part takes more and without, and the memory of two moves."""
    rounds = [[((used(program, 100)[0] - used(program, 0)[0]) / 100, played(program)) for program in programs] for _ in range(3)]
    for at, program in enumerate(programs):
        counted = (instructions(program, 4) - instructions(program, 2)) / 2
        seconds, alone = (min(times) for times in zip(*(one[at] for one in rounds)))
        yield counted, seconds, alone, used(program, 2)[1]


def main():
    programs = [PROGRAM, PLAIN] if PLAIN else [PROGRAM]
    if PLAIN:
        texts = {subprocess.run([program, "replay", "--wire"], input=script(4), capture_output=True, check=True).stdout for program in programs}
        if len(texts) != 1:
            sys.exit("the plain program prints another text")
    values = list(measured(programs))
    for program, (counted, seconds, alone, memory) in zip(programs, values):
        print(f"{program}: {counted:,.0f} instructions and {seconds * 1000:.2f} ms of a processor a move ({alone * 1000:.2f} while it is played), {memory:,} KiB")
    if not PLAIN:
        return 0
    counted, seconds, alone, memory = (one / other for one, other in zip(*values))
    print(f"{counted:.2f} times the instructions, {seconds:.2f} times the time ({alone:.2f} while it is played) and {memory:.2f} times the memory of the plain program")
    return 1 if seconds > MOST_TIME or memory > MOST_MEMORY else 0


if __name__ == "__main__":
    sys.exit(main())
