"""How the tools find and call the programs, pip and the lab's. None of them builds one: only ./pip and ./lab do."""

from __future__ import annotations

import argparse
import contextlib
import functools
import itertools
import os
import subprocess
import sys
from collections.abc import Callable, Iterator, Sequence
from typing import NoReturn, TypeVar

REPOSITORY = os.path.dirname(os.path.dirname(os.path.dirname(os.path.abspath(__file__))))
WRAPPER, LAB_WRAPPER = (os.path.join(REPOSITORY, name) for name in ("pip", "lab"))
PROVED, UNPROVED = "proved", "unproved"      # programs by what ./pip and ./lab call them
MARK = "UNPROVED"        # a file by which ./pip, ./lab and the tools see that a release is unproved
LAB = ("slots", "every", "against", "apart", "part", "merge")        # the commands of the lab
# Where the lab's program is, seen from the folder of pip's: beside it, and at the same place of its own crate.
BESIDE = {"pip": ("pip_lab", os.path.join(os.pardir, os.pardir, "pip_lab", "out", "pip_lab")),
          "program.py": ("lab.py",),
          "pip-plain": ("pip-plain",)}       # the plain program has the commands of both
MOST = 1 << 24           # bytes of a script or of an assembly text


T = TypeVar("T")


class Failed(Exception):
    """Why a tool can't do its work, as a sentence."""


def ensure(good: object, why: str) -> None:
    """Without what has to be good a tool can't do its work."""
    if not good:
        raise Failed(why)


def there(found: T | None, why: str) -> T:
    """What has to be there for a tool to do its work."""
    if found is None:
        raise Failed(why)
    return found


def take_program(parser: argparse.ArgumentParser) -> None:
    """The options --program and --unproved of a tool."""
    parser.add_argument("--program", default=os.environ.get("PIP") or PROVED, metavar="PATH",
                        help="the program pip, beside which the lab's is; without it the environment's PIP and LAB, "
                             "else those that ./pip and ./lab have proved and built")
    parser.add_argument("--unproved", dest="program", action="store_const", const=UNPROVED,
                        help="the program that ./pip --unproved has built by cargo: the same text, and nothing is "
                             "proved of it")


def take_image(parser: argparse.ArgumentParser) -> None:
    """The file of a tool that shows runs of it, and the option --source."""
    parser.add_argument("file", metavar="FILE",
                        help="an image, of which - is standard input, or an assembly text or source of tools/asmx")
    take_source(parser)


def take_source(parser: argparse.ArgumentParser) -> None:
    """The option --source of a tool that shows a run."""
    parser.add_argument("--source", metavar="FILE", help="of an image: the text that it was made of, for its names")


def take_jobs(parser: argparse.ArgumentParser) -> None:
    """The option --jobs of a tool that does the same many times."""
    parser.add_argument("--jobs", type=within(1, 1024, "--jobs"), default=os.cpu_count(), metavar="N",
                        help="how many at once; without it one a processor")


@functools.lru_cache(maxsize=None)
def direct(program: str) -> str:
    """The program pip itself, by a path or by what ./pip of this checkout has built."""
    return found(program, WRAPPER)


@functools.lru_cache(maxsize=None)
def lab(program: str) -> str:
    """The lab's program: the environment's LAB, or what ./lab has built, or the one that is beside the program pip."""
    given = os.environ.get("LAB")
    if given:
        return found(given, LAB_WRAPPER)
    if program in (PROVED, UNPROVED) or is_same(program, WRAPPER):
        return found(program if program == UNPROVED else PROVED, LAB_WRAPPER)
    folder, name = os.path.split(program)
    paths = [os.path.normpath(os.path.join(folder, path)) for path in BESIDE.get(name, ())]
    there = next(filter(os.path.isfile, paths), None)
    if there is None:
        raise Failed(f"no program of the lab is beside {program}: say by the environment's LAB which one it is")
    return there


def called(program: str, words: Sequence[str]) -> list[str]:
    """The words that call the program of a command: a command of the lab takes the lab's."""
    return [(lab if words and words[0] in LAB else direct)(program), *words]


def is_same(program: str, wrapper: str) -> bool:
    return os.path.realpath(program) == os.path.realpath(wrapper)


def found(program: str, wrapper: str) -> str:
    """A program by its path, or by what this wrapper has built."""
    if is_same(program, wrapper):
        program = PROVED
    if program not in (PROVED, UNPROVED):
        return program
    there = built(wrapper)
    if program not in there and os.path.exists(os.path.join(os.path.dirname(wrapper), MARK)):
        program = UNPROVED
    if program not in there:
        raise Failed(missing(program, there, wrapper))
    if program == UNPROVED:
        print("unproved: cargo built this program of the same text, and nothing is proved of it", file=sys.stderr)
    return there[program]


def built(wrapper: str = WRAPPER) -> dict[str, str]:
    """The paths of the programs that are there, proved and unproved, and as new as the sources. Nothing is built."""
    with running(wrapper):
        told = subprocess.run([wrapper, "--built"], stdin=subprocess.DEVNULL, stdout=subprocess.PIPE, text=True).stdout
    lines = [line.split(" ", 1) for line in told.splitlines()]
    return {line[0]: line[1] for line in lines}


def missing(program: str, found: dict[str, str], wrapper: str = WRAPPER) -> str:
    """Which program there is, and how the one that isn't there comes to be."""
    name = "./lab" if wrapper == LAB_WRAPPER else "./pip"
    first = "merge < /dev/null" if wrapper == LAB_WRAPPER else "script < examples/first.pip"
    by_cargo = f"{name} --unproved {first} builds one by cargo in about a minute, and nothing is proved of it"
    proves = f"{name} {first} proves and builds it, in a quarter of an hour or more"
    if program == UNPROVED:
        there = "the proved one is, and is taken without --unproved" if PROVED in found else "nor is a proved one"
        return f"no program that cargo built is here, as new as the sources, and {there}: {by_cargo}"
    if UNPROVED in found:
        return ("no proved program is here, as new as the sources, but one that cargo built is: say --unproved; "
                f"{proves}")
    return f"no program is here, as new as the sources: {proves}; {by_cargo}, and --unproved takes that"


def contents(path: str, most: int = MOST) -> bytes:
    """The bytes of a file; `-` is standard input."""
    try:
        if path == "-":
            text = sys.stdin.buffer.read(most + 1)
        else:
            with open(path, "rb") as file:
                text = file.read(most + 1)
    except (OSError, ValueError) as error:
        raise Failed(f"{path} can't be read: {getattr(error, 'strerror', None) or error}") from None
    if len(text) > most:
        raise Failed(f"{path} has more than {most} bytes")
    return text


def write(path: str, content: bytes) -> None:
    """Writes a file."""
    try:
        with open(path, "wb") as file:
            file.write(content)
    except (OSError, ValueError) as error:
        raise Failed(f"{path}: {getattr(error, 'strerror', None) or error}") from None


@contextlib.contextmanager
def running(program: str) -> Iterator[None]:
    """Where a process begins: a program that can't be run is a failure."""
    try:
        yield
    except OSError as error:
        raise Failed(f"{program} can't be run: {error.strerror}") from None


def output(program: str, words: Sequence[str], text: bytes, seconds: float | None = None) -> tuple[bytes, int]:
    """What the program of a command writes, and its status."""
    call = called(program, words)
    try:
        with running(call[0]):
            done = subprocess.run(call, input=text, stdout=subprocess.PIPE, timeout=seconds)
    except subprocess.TimeoutExpired:
        raise Failed(f"{' '.join(call)} took more than {seconds} seconds") from None
    if done.returncode not in (0, 2, 6, 9):
        raise Failed(f"{' '.join(call)} ends with status {done.returncode}")
    return done.stdout, done.returncode


def text_of(program: str, words: Sequence[str], text: bytes) -> list[str]:
    """The lines that the program writes with status 0; another status is a failure that shows its last line."""
    told, status = output(program, words, text)
    lines = told.decode("ascii", "replace").splitlines()
    if status:
        raise Failed(f"{' '.join(words)} ends with status {status}: {lines[-1] if lines else 'nothing written'}")
    return lines


def first_difference(ours: Sequence[T], theirs: Sequence[T]) -> tuple[int, T | None, T | None]:
    """The first place at which lines differ, and what is there; None where they have ended."""
    pairs = itertools.zip_longest(ours, theirs)
    return next((place, *pair) for place, pair in enumerate(pairs) if pair[0] != pair[1])


def number(text: str, least: int, most: int, what: str) -> int:
    """A number of the command line, decimal or `0x`, within its bounds."""
    try:
        value = int(text, 16) if text.startswith("0x") else int(text) if text.isascii() and text.isdecimal() else None
    except ValueError:
        value = None
    if value is None or not least <= value <= most:
        raise Failed(f"{what} is a number from {least} to {most}, and not {text!r}")
    return value


def within(least: int, most: int, what: str) -> Callable[[str], int]:
    """The type of an argument that is such a number."""
    return lambda text: number(text, least, most, what)


def started(parser: argparse.ArgumentParser, work: Callable[[argparse.Namespace], int | None]) -> NoReturn:
    """Runs a tool with what its command line says."""
    guarded(parser.prog, lambda: work(parser.parse_args()))


def guarded(tool: str, work: Callable[[], int | None]) -> NoReturn:
    """Runs a tool. A failure, also a full device, is one line and status 2; a closed pipe ends it quietly."""
    try:
        status = work()
        sys.stdout.flush()
    except BrokenPipeError:
        status = 1
    except (Failed, OSError) as failed:
        print(f"{tool}: {reason(failed)}", file=sys.stderr)
        status = 2
    except KeyboardInterrupt:
        print(f"{tool}: stopped", file=sys.stderr)
        status = 130
    sys.exit(status if can_flush() else status or 2)


def reason(failed: Exception) -> str:
    """Why something failed, as a sentence without the error's number."""
    if not isinstance(failed, OSError):
        return str(failed)
    return f"{failed.filename}: {failed.strerror}" if failed.filename else str(failed.strerror or failed)


def can_flush() -> bool:
    """Whether the output can be written. If not, what is left goes nowhere, lest Python speak of it."""
    try:
        sys.stdout.flush()
    except OSError:
        os.dup2(os.open(os.devnull, os.O_WRONLY), 1)
        return False
    return True
