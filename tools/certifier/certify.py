"""A certificate of all that can happen to an image: a search is cut into parts, `part` checks each by itself, and
`merge` merges the lines of all.

What it says at the end is the merge's word. The search and the cutting needn't be trusted for that: a part that is
wrong is refused, or asks for a key that no part has. A run that was ended is gone on with: parts whose lines are there
aren't checked again.
"""

from __future__ import annotations

import argparse
import contextlib
import fcntl
import hashlib
import os
import signal
import subprocess
import sys
import time
from collections.abc import Iterable, Iterator, Sequence
from concurrent.futures import ThreadPoolExecutor, as_completed
from pathlib import Path

from authors import asmx
from common import calling
from common.calling import Failed, ensure
from common.machine import image as images
from debugger.building import SEARCHES

HERE = Path(__file__).resolve().parent
CHECK_PARTS = HERE / "check_parts"
SORTED = {**os.environ, "LC_ALL": "C"}
SEARCH_BYTES, PART_BYTES, LINE_BYTES = 50, 300, 90        # of memory for a state, and of disk for a line, about
MOST = (1 << 32) - 1
NO_MEMORY = (5, -signal.SIGABRT)         # how the search ends where it gets none
MEANINGS = {"open": "a key that a part asks no part has: a part is missing, or two states had one hash",
            "twice": "two parts have one key: take the folder away, and begin again",
            "apart": "the lines are of different certificates: take the folder away, and begin again",
            "no": "no part has the first key: the first part is missing",
            "bad": "a file of lines is damaged: remove the files .lines of the folder, and they are made again"}


def main() -> None:
    parser = argparse.ArgumentParser(prog="certify", description="A certificate of all that can happen to an image.")
    parser.add_argument("file", metavar="FILE", help="an image, or an assembly text or source of tools/asmx")
    for name, least, default, what in (
            ("from", 0, 0, "no line comes before that many turns"), ("states", 1, 1000000000, "room of the search"),
            ("size", 1, 1000000, "states of a part, about"),
            ("workers", 1, os.cpu_count() or 1, "how many search, and how many parts are checked at once")):
        parser.add_argument(f"--{name}", type=calling.within(least, MOST, f"--{name}"), default=default, metavar="N",
                            dest="first" if name == "from" else name, help=f"{what}: {default}")
    parser.add_argument("--to", type=Path, metavar="FOLDER",
                        help="where parts and lines are kept: a folder beside the file, named after it")
    parser.add_argument("--cut", action="store_true", help="stop when parts are there, for others to check them")
    calling.take_program(parser)
    calling.started(parser, certify)


def certify(given: argparse.Namespace) -> int:
    data, _ = asmx.image_of(given.program, given.file)
    with contextlib.suppress(images.BadImage):               # the search says what is bad
        ensure(not images.parted(data)[1], "there is a menu after the image, and a certificate is of the image alone")
    folder: Path = given.to or Path(given.file).with_suffix(".parts")
    folder.mkdir(parents=True, exist_ok=True)
    program = calling.lab(given.program)
    with alone(folder):
        parts = cut(given, data, folder)
        waiting = [part for part in parts if not is_checked(part)]
        if len(waiting) < len(parts):
            say(f"{len(parts) - len(waiting)} of {len(parts)} parts were checked before")
        if given.cut:
            return 0
        check(program, given, folder, waiting)
        begun = time.monotonic()
        status = merge(program, [lines_of(part) for part in parts])
        say(f"merged in {time.monotonic() - begun:.1f} s")
        return status


def say(text: str) -> None:
    print(text, file=sys.stderr, flush=True)


@contextlib.contextmanager
def alone(folder: Path) -> Iterator[None]:
    """The folder is this run's as long as it lasts."""
    with (folder / "lock").open("w", encoding="ascii") as lock:
        try:
            fcntl.flock(lock, fcntl.LOCK_EX | fcntl.LOCK_NB)
        except OSError:
            raise Failed(f"another run works in {folder}") from None
        yield


def lines_of(part: Path) -> Path:
    return part.with_suffix(".lines")


def is_checked(part: Path) -> bool:
    """Whether the lines of a part are there, whole: the last one says what it is a part of."""
    path = lines_of(part)
    if not path.exists():
        return False
    with path.open("rb") as file:
        file.seek(max(0, path.stat().st_size - (1 << 16)))
        last = file.read().splitlines(keepends=True)[-1:]
    if last and last[0].startswith(b"part ") and last[0].endswith(b"\n"):
        return True
    say(f"{path} is cut short, and is made again")
    return False


def cut(given: argparse.Namespace, data: bytes, folder: Path) -> list[Path]:
    """The parts, which are searched and cut where they aren't there yet."""
    told = folder / "cut"
    whose = f"{hashlib.sha256(data).hexdigest()} from {given.first} size {given.size}"
    if not told.exists():
        begun = time.monotonic()
        say(f"searching; about {SEARCH_BYTES} bytes of memory a state")
        words = [str(each) for each in (given.first, given.size, given.states, given.workers, folder)]
        done = subprocess.run([SEARCHES.path(), "cut", *words], input=data, stdout=subprocess.PIPE, check=False)
        said = done.stdout.decode().strip()
        ensure(not said.startswith("stopped "), f"there are more than {given.states} states: give more --states")
        ensure(done.returncode not in NO_MEMORY, f"the search had no memory: it takes about {SEARCH_BYTES} bytes a "
               "state")
        ensure(not done.returncode, f"the search ended with status {done.returncode}: {said}")
        (folder / "image").write_bytes(data)
        (folder / "from").write_text(f"{given.first}\n", encoding="utf-8")
        told.write_text(f"{whose}\n{said}\n", encoding="utf-8")
        say(f"{said}, in {time.monotonic() - begun:.1f} s")
    before, cut_into = told.read_text(encoding="utf-8").split("\n", 1)
    ensure(before == whose, f"{folder} has parts of another image, or of another --from or --size: take it away")
    states = int(cut_into.split()[1])
    say(f"checks take {PART_BYTES * given.size * given.workers >> 20} MB of memory or more, "
        f"and about {3 * LINE_BYTES * states >> 20} MB of disk")
    return sorted(folder.glob("*.part"))


def check(program: str, given: argparse.Namespace, folder: Path, parts: Sequence[Path]) -> None:
    """Checks parts, as many at once as there are workers. Where one fails, or at Ctrl-C, the others end, too."""
    begun, running = time.monotonic(), set[int]()
    pool = ThreadPoolExecutor(given.workers)
    try:
        checks = [pool.submit(check_one, program, folder, part, running) for part in parts]
        for done, each in enumerate(as_completed(checks), 1):
            each.result()
            if done == len(parts) or done % max(len(parts) // 20, 1) == 0:
                say(f"{done} of {len(parts)} parts checked, {time.monotonic() - begun:.1f} s")
    finally:
        pool.shutdown(wait=False, cancel_futures=True)
        for group in list(running):
            with contextlib.suppress(ProcessLookupError):
                os.killpg(group, signal.SIGTERM)


def check_one(program: str, folder: Path, part: Path, running: set[int]) -> None:
    with subprocess.Popen([CHECK_PARTS, folder, part], env={**os.environ, "LAB": program}, stderr=subprocess.PIPE,
                          text=True, start_new_session=True) as process:
        running.add(process.pid)
        _, said = process.communicate()
        running.discard(process.pid)
    ensure(not process.returncode, said.strip() or f"the check of {part.name} was ended")


def merge(program: str, lines: Iterable[Path]) -> int:
    """Merges the lines of all parts, and says what the merge says; its status."""
    names = b"\0".join(os.fsencode(path) for path in lines)
    with subprocess.Popen(["sort", "-m", "--batch-size=512", "--files0-from=-"], env=SORTED, stdin=subprocess.PIPE,
                          stdout=subprocess.PIPE) as sorting:
        assert sorting.stdin
        with subprocess.Popen([program, "merge"], stdin=sorting.stdout, stdout=subprocess.PIPE, text=True) as merging:
            sorting.stdin.write(names)
            sorting.stdin.close()
            assert merging.stdout
            line = ""
            for line in merging.stdout:
                sys.stdout.write(line)
            status = merging.wait()
    if status and (meaning := MEANINGS.get(line.split()[0] if line else "")):
        say(f"certify: {meaning}")
    return status if status or not sorting.returncode else 3
