"""Runs a command of the gate and says how many processor minutes each crate took, by kind.

    dev/bench/gate rt ci                    the whole gate, from nothing
    dev/bench/gate rt must-fail pip_kern    a crate's edits

Kinds: the crate's own proof, with the second check of a program for Rattle's own compiler; the proof and the build of
its tests; and its edits, with their seed (one more check of the whole crate). Processes are looked at every second, so
one that ends between two looks loses up to that; what a process had used when it was seen last is counted."""

from __future__ import annotations

import os
import re
import subprocess
import sys
import time
from collections import defaultdict

Used = defaultdict[tuple[str, str], dict[int, int]]      # by crate and kind: the seconds of each process
Rows = dict[int, tuple[int, int, str]]                   # by process: the one that it came from, seconds, and its words
KINDS = ("proof", "tests", "edits")
NAME = re.compile("--crate-name (\\S+)")


def main() -> None:
    if len(sys.argv) < 2 or sys.argv[1] in ("-h", "--help"):
        sys.exit((__doc__ or "").strip())
    begun, used = time.monotonic(), Used(dict)
    with subprocess.Popen(sys.argv[1:]) as child:
        while child.poll() is None:
            rows = processes()
            for pid, (_, seconds, _) in rows.items():
                if key := key_of(pid, child.pid, rows):
                    used[key][pid] = seconds
            time.sleep(1)
    show(used, time.monotonic() - begun)
    sys.exit(child.returncode)


def processes() -> Rows:
    told = subprocess.run(["ps", "-eo", "pid=,ppid=,cputimes=,args="], stdout=subprocess.PIPE, check=True).stdout
    lines = (line.split(maxsplit=3) for line in told.decode(errors="replace").splitlines())
    return {int(pid): (int(parent), int(seconds), "".join(words)) for pid, parent, seconds, *words in lines}


def key_of(pid: int, top: int, rows: Rows) -> tuple[str, str] | None:
    """The crate and the kind of a process below `top` that is of the prover, or came from one that is."""
    key = None
    while pid in rows and pid != top:
        parent, _, words = rows[pid]
        if not key and (name := NAME.search(words)):
            key = name[1], "tests" if " --test" in words else "edits" if is_of_edit(pid) else "proof"
        pid = parent
    return key if pid == top else None


def is_of_edit(pid: int) -> bool:
    """Whether a process works in the copy of a crate for an edit; no, if it has ended, or its folder is gone."""
    try:
        return "/rt-edit-" in os.readlink(f"/proc/{pid}/cwd")
    except OSError:
        return False


def show(used: Used, wall: float) -> None:
    row = "{:18}" + "{:>9}" * (len(KINDS) + 1)
    print(row.format("minutes", *KINDS, "all"))
    rows = {crate: [sum(used.get((crate, kind), {}).values()) / 60 for kind in KINDS]
            for crate in sorted({crate for crate, _ in used})}
    rows["all"] = [sum(column) for column in zip(*rows.values())] or [0.0] * len(KINDS)
    for crate, spent in rows.items():
        print(row.format(crate, *(f"{minutes:.1f}" for minutes in [*spent, sum(spent)])))
    print(f"{sum(rows['all']):.0f} processor minutes in {wall / 60:.0f} minutes")
