#!/usr/bin/env python3
"""The gate's time crate by crate, out of what it printed: tests/times.py LOG [LATER]
Seconds of a crate's proof, by the line of tests/run that tells them (none where it was kept from an earlier run), and its must-fail edits,
whose seconds `rt ci` does not tell; of two runs, those of both side by side."""
import re
import sys

PROVED = re.compile(r"^== seconds of the proofs: (.*)$", re.M)
KEPT = re.compile(r"^rt: (\w+) is kept: ", re.M)
REFUSED = re.compile(r"^rt: must-fail (\w+)/[\w.-]+: refused, as it must be", re.M)


def times(path):
    with open(path, encoding="utf-8") as log:
        text = log.read()
    told = " ".join(PROVED.findall(text)).split()
    rows = {crate: ["kept", 0] for crate in KEPT.findall(text)}
    rows.update((crate, [int(seconds), 0]) for crate, seconds in zip(told[::2], told[1::2]))
    for crate in REFUSED.findall(text):
        rows[crate][1] += 1
    rows["in all"] = [sum(cell for cell in column if cell != "kept") for column in zip(*rows.values())]
    return rows


def main():
    if len(sys.argv) not in (2, 3):
        sys.exit("usage: tests/times.py LOG [LATER]")
    runs = [times(path) for path in sys.argv[1:]]
    names = [f"{column}{when}" for when in ["", ", later"][: len(runs)] for column in ["proof", "edits"]]
    print("| crate | " + " | ".join(names) + " |")
    print("|---" * (1 + len(names)) + "|")
    crates = [crate for crate in runs[-1] if crate != "in all"] + ["in all"]
    for crate in crates:
        cells = [str(cell) for run in runs for cell in run.get(crate, ["", ""])]
        print(f"| {crate} | " + " | ".join(cells) + " |")


main()
