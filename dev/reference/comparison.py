"""Runs the built program and the reference over generated cases, and says the first difference. Searches and
certificates are compared with the plain program.

    python3 dev/reference/compare.py script --cases 20000 --seed 1

Only the commands that are named are compared."""

from __future__ import annotations

import argparse
import functools
import multiprocessing
import os
import signal
import subprocess
import tempfile

from common import calling
from common.calling import first_difference
from . import coming, commands, generate

Answer = tuple[bytes, int]                                   # output and status
# words and input; what the reference answers, and the program
Difference = tuple[list[str], bytes, Answer, Answer]
SECONDS = 120            # a run of the built program that takes longer counts as a difference


def difference(path: str, command: str, seed: int) -> Difference | None:
    """None, or the case of this seed and what both answer to it."""
    words, text = generate.case(command, seed)
    expected = commands.told(words, text)
    try:
        done = subprocess.run(calling.called(path, words), input=text, stdout=subprocess.PIPE, timeout=SECONDS)
    except subprocess.TimeoutExpired:
        return words, text, expected, (b"nothing in time", -1)
    got = done.stdout, done.returncode
    if command == "against" and (wrong := coming.wrong(words, text, done.stdout)):
        got = "\n".join(["wrong:", *wrong]).encode(), done.returncode
    return None if got == expected else (words, text, expected, got)


def do_no_more(*_: object) -> None:
    """A worker at Ctrl-C: its program is stopped by that, too, and the one that waits for the worker ends it."""
    signal.pause()


def first_case(path: str, command: str, cases: int, seed: int, jobs: int | None) -> tuple[int, Difference] | None:
    """The first seed whose case differs, with the difference; None where all agree."""
    seeds = range(seed, seed + cases)
    with multiprocessing.Pool(jobs, signal.signal, (signal.SIGINT, do_no_more)) as pool:
        found = pool.imap(functools.partial(difference, path, command), seeds, chunksize=20)
        return next(((at, other) for at, other in zip(seeds, found) if other), None)


def described(command: str, seed: int, found: Difference) -> str:
    """A difference in words; the input goes into a file."""
    words, text, (expected, status), (output, got) = found
    with tempfile.NamedTemporaryFile(prefix=f"pip-{command}-{seed}-", delete=False) as file:
        file.write(text)
    told = [f"{command}: the case of seed {seed} differs: pip {' '.join(words)} < {file.name}"]
    if status != got:
        told.append(f"  status: the reference has {status}, the program {got}")
    if expected != output:
        place, ours, theirs = first_difference(expected.split(b"\n"), output.split(b"\n"))
        mine, other = (repr(line[:200]) if line is not None else "nothing more" for line in (ours, theirs))
        told.append(f"  line {place + 1} of the output: the reference has {mine}, the program {other}")
    return "\n".join(told)


def main() -> None:
    calling.guarded("compare", compare)


def compare() -> int:
    parser = argparse.ArgumentParser(description="Compares the built program with the reference.")
    parser.add_argument("commands", nargs="+", choices=generate.COMMANDS)
    parser.add_argument("--cases", type=int, default=1000)
    parser.add_argument("--seed", type=int, default=1)
    calling.take_program(parser)
    parser.add_argument("--jobs", type=int, default=os.cpu_count())
    given = parser.parse_args()
    program = calling.direct(given.program)
    for command in given.commands:
        if found := first_case(program, command, given.cases, given.seed, given.jobs):
            print(described(command, *found))
            return 1
        print(f"{command}: {given.cases} cases from seed {given.seed} agree")
    return 0
