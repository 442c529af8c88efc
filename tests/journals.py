"""Reads the disk of a node that was killed, beside that of the same run that ended.

python3 tests/journals.py WHOLE KILLED: the two files. A record of a journal is a gate, 1 where the record counts, two words with
the length and the number of the record, its body, and the gate of the next; the records that count are cut off at the first
that doesn't (docs/formats.md, Journal). What was killed must have the first of the whole run's records, each as it stands
there, and behind them a torn tail: a closed gate and as much of the next record as had been written, which a node that
takes the disk up cuts off. It prints how many records count and how long the tail is.
"""

import sys


def records(disk):
    """Where the gate of each record that counts stands, and at last the gate that is behind them."""
    gates = [0]
    while True:
        gate = gates[-1]
        length = int.from_bytes(disk[gate + 1 : gate + 5], "big")
        number = int.from_bytes(disk[gate + 5 : gate + 9], "big")
        after = gate + 9 + length
        if disk[gate : gate + 1] != b"\1" or number != len(gates) or after >= len(disk):
            return gates
        gates.append(after)


def torn(whole, killed):
    """Why the killed disk is none that a kill leaves, or None."""
    gates, all_gates = records(killed), records(whole)
    gate = gates[-1]
    if all_gates[-1] + 1 != len(whole) or whole[all_gates[-1]] != 0:
        return "the run that ended left a torn tail"
    if not killed:
        return None
    if gates != all_gates[: len(gates)] or killed[:gate] != whole[:gate]:
        return f"its {len(gates) - 1} records aren't the first of the run"
    if killed[gate] != 0:
        return f"the gate behind its {len(gates) - 1} records is open"
    written = whole[gate + 1 : all_gates[len(gates)]] + b"\0" if len(gates) < len(all_gates) else b""
    if not written.startswith(killed[gate + 1 :]):
        return f"the tail behind its {len(gates) - 1} records is no front of the next"
    return None


def main():
    whole, killed = (open(name, "rb").read() for name in sys.argv[1:3])
    reason = torn(whole, killed)
    if reason is not None:
        sys.exit(reason)
    gates = records(killed)
    print(len(gates) - 1, len(killed[gates[-1] + 1 :]))


if __name__ == "__main__":
    main()
