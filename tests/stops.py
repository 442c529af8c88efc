"""Writes the rows of a disk that stops or fails inside a change, as a reference program plays them.

python3 tests/stops.py FOLDER: a client stores a file; just before the server is given the call, its disk is set to stop after K
device calls, 0 to 4, with each pick, or to fail at the Kth, 1 to 4. A change has four device calls. Then the server begins again
where it went down, the client's call times out, and all that is under way is delivered. FOLDER has the reference's afscell.py. Of each run the
reference alone tells what is printed; here it is only looked that the act is answered 0 and that one change is told. So
tests/rows/stop_K_pick_PICK.row and tests/rows/fail_at_K.row come out as they stand.
"""

import os
import subprocess
import sys

PROGRAM = os.path.join(sys.argv[1], "afscell.py")
ROWS = os.path.join(os.path.dirname(os.path.abspath(__file__)), "rows")
SCRIPT = """\
# {story}
cell 1
servers 1
clients 1
volume proj s1 1000
file proj/a hex:616263
do c1 close @536870912.2.2 hex:646566
schedule
act c1
{event}
deliver 1
restart s1
timeout c1 s1
drain
end
"""


def told(script, *words):
    """What the reference prints of the script."""
    run = subprocess.run([sys.executable, PROGRAM, "replay", *words], input=script.encode(), capture_output=True, check=True)
    return run.stdout.decode()


def write(name, story, event):
    script = SCRIPT.format(story=story, event=event)
    text = told(script)
    lines = text.splitlines()
    answers = [line for line in lines if line.startswith("answer ")]
    changes = [line for line in lines if line.startswith("change ")]
    if answers != ["answer c1 0"] or changes != ["change s1 c1.1.1 1"]:
        sys.exit(f"{name}: {answers}, {changes}")
    with open(os.path.join(ROWS, name + ".row"), "w") as row:
        row.write(f"{script}----\n{text}---- wire\n{told(script, '--wire')}")


def main():
    for calls in range(5):
        for pick in range(4):
            stopped = f"The disk stops its server after {calls} device calls of a change, with pick {pick}"
            if calls == 4:
                stopped = f"The disk is set to stop its server after 4 device calls, with pick {pick}, and a change has no fifth"
            story = stopped + ": the change is made once."
            write(f"stop_{calls}_pick_{pick}", story, f"stop s1 {calls} {pick}")
    for call in range(1, 5):
        story = f"The disk fails at device call {call} of a change: the change is made once."
        write(f"fail_at_{call}", story, f"fail s1 {call}")


main()
