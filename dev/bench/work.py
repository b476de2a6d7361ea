"""How much of the bound on its reads an event takes, at most, as far as a search finds.

    dev/bench/work [--seeds N] [FILE ..]

Scripts are run by a process over the export that counts reads: these files, or else the worst scripts of
`dev/bench/worst`, and N that are drawn (1000). A line for each kind of event says what the worst one read, its bound
(docs/GUARANTEES.md, "How long an event can take"), and the script and its line. An event that reads more than its bound
stops it."""

from __future__ import annotations

import argparse
import subprocess
from collections.abc import Iterator
from pathlib import Path

from common import calling
from common.calling import ensure
from exporter.building import Program
from reference import generate
from . import worst

READS = Program("pip_reads", "the process that counts reads", Path(__file__).resolve().parent / "reads",
                ("pip_frames", "pip_kern", "pip_script", "pip_switch"))
# The worst scripts known: of chains of partitions, and of each event at the end of a chain.
WORST = ("chain 30 200000 create", "chain 30 200000 prepare", *(f"events 90 {event}" for event in worst.EVENTS))


def main() -> None:
    calling.guarded("work", work)


def work() -> int:
    parser = argparse.ArgumentParser(prog="work", description="Says how much of its bound an event reads, at most.")
    parser.add_argument("--seeds", type=int, default=1000, metavar="N", help="how many scripts are drawn")
    parser.add_argument("files", nargs="*", metavar="FILE", help="scripts to run, and no others")
    given = parser.parse_args()
    program = READS.path()
    found: dict[str, tuple[float, str]] = {}
    for name, text in scripts(given.files, given.seeds):
        for share, kind, told in counted(program, name, text):
            if share > found.get(kind, (-1.0, ""))[0]:
                found[kind] = share, told
    for kind, (share, told) in sorted(found.items()):
        print(f"{kind}: {told}, {share:.2f}")
    return 0


def scripts(files: list[str], seeds: int) -> Iterator[tuple[str, bytes]]:
    """The scripts, each with its name."""
    if files:
        yield from ((name, calling.contents(name)) for name in files)
        return
    for name in WORST:
        yield name, "\n".join(worst.lines(*name.split())).encode()
    yield from ((f"seed {seed}", generate.case("script", seed)[1]) for seed in range(seeds))


def counted(program: str, name: str, text: bytes) -> Iterator[tuple[float, str, str]]:
    """The share of its bound that the worst event of each kind reads in a script, the kind, and what is said of it."""
    done = subprocess.run([program], input=text, stdout=subprocess.PIPE, stderr=subprocess.PIPE)
    ensure(not done.returncode, f"{name}: {done.stderr.decode().strip().splitlines()[1:2]}")
    for line in done.stdout.decode().splitlines():
        reads, bound, at, share, kind = line.split(" ", 4)
        yield float(share), kind, f"{reads} of {bound} in line {at} of {name}"
