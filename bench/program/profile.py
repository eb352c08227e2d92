"""Profiles the program on generated input, and prints which part of the time goes into what.

From the top of the repository, with the program built and with `perf` installed: python3 bench/program/profile.py
"""

import re
import subprocess
import sys
import tempfile

sys.dont_write_bytecode = True

from measure import CASES, PROGRAM

# The groups, with the names of functions that belong to each. The first that fits counts.
GROUPS = [
    ("memory", r"alloc|free|unlink_chunk"),
    ("moves", r"memmove|memcpy|memset"),
    ("system", r"\[k\]"),
    ("battle", r"battle|raids|draws|pcg"),
    ("cells", r"Held|::copy|btree|lazy::taking"),
    ("game", r"lazy|closure|laziness|fleet_rec|happenings|rates|prices|planet_cell|account_cell|orders|udivti"),
    ("text", r"fmt|_text|str::|itoa|memchr|founding"),
    ("loop", r"command"),
]

ROW = re.compile(r"\s+([\d.]+)%\s+\S+\s+(.*)")


def group_of(function):
    return next((name for name, pattern in GROUPS if re.search(pattern, function)), "rest")


def shares(source):
    """The share of each group in a run over this input."""
    with tempfile.NamedTemporaryFile(suffix=".perf") as data:
        record = ["perf", "record", "-q", "-F", "4000", "-o", data.name, PROGRAM, ".", "trial"]
        with open(source, "rb") as script:
            subprocess.run(record, stdin=script, stdout=subprocess.DEVNULL, stderr=subprocess.DEVNULL, check=True)
        report = ["perf", "report", "-q", "--stdio", "--percent-limit", "0", "-i", data.name]
        text = subprocess.run(report, capture_output=True, text=True, check=True).stdout
    totals = {}
    for row in filter(None, map(ROW.match, text.splitlines())):
        group = group_of(row[2])
        totals[group] = totals.get(group, 0) + float(row[1])
    return totals


def main():
    names = [name for name, _ in GROUPS] + ["rest"]
    print("| input | " + " | ".join(names) + " |")
    print("|---" * (len(names) + 1) + "|")
    for case, text in CASES:
        with tempfile.NamedTemporaryFile("w", suffix=".txt") as script:
            script.write("\n".join(text()) + "\n")
            script.flush()
            totals = shares(script.name)
        print(f"| {case} | " + " | ".join(f"{totals.get(name, 0):.0f}" for name in names) + " |", flush=True)


if __name__ == "__main__":
    main()
