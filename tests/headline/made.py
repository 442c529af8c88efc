"""Plays made scripts and judges their texts: python3 tests/headline/made.py PROGRAM COUNT [FIRST [REFERENCE]].

PROGRAM and REFERENCE are commands that play a script, as the built program does. COUNT scripts with administrators are made by
tests/generate.py, with the seeds from FIRST on, or from 1. Of each that is a script the text with the bytes of messages is judged, and it
has to be the reference's, where one is named. It prints what is wrong, and what was played; the status is 1 if something was wrong.
"""

import os
import subprocess
import sys

sys.path.insert(1, os.path.join(os.path.dirname(os.path.abspath(__file__)), ".."))

import generate
import judge


def played(command, script):
    """The status and the text of a replay."""
    run = subprocess.run([*command.split(" "), "replay", "--wire"], input=script.encode(), capture_output=True, check=False)
    return run.returncode, run.stdout.decode("latin-1")


def main():
    program, count = sys.argv[1], int(sys.argv[2])
    first = int(sys.argv[3]) if len(sys.argv) > 3 else 1
    reference = sys.argv[4] if len(sys.argv) > 4 else None
    wrong = none = entries = answers = 0
    for seed in range(first, first + count):
        script = generate.make("admins", seed, program)
        status, text = played(program, script)
        found = ["the text isn't the reference's"] if reference and played(reference, script) != (status, text) else []
        if status:
            none += 1
        else:
            found += judge.faults(script, text)
            entries += text.count("\nentry ") + 1
            answers += text.count("\nanswer a")
        if found:
            wrong += 1
            print(f"seed {seed}: {'; '.join(found[:3])}"[:600])
    print(f"{count} made scripts, of which {none} are none; {entries} entries, {answers} answers of administrators; {wrong} wrong")
    return 1 if wrong else 0


if __name__ == "__main__":
    sys.exit(main())
