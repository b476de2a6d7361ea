"""Runs a program for a check, and says what is wrong."""

from __future__ import annotations

import contextlib
import glob
import os
import re
import shutil
import signal
import subprocess
import sys
import tempfile
import time
from collections.abc import Callable, Iterable, Iterator, Mapping, Sequence
from concurrent.futures import ThreadPoolExecutor
from typing import Any, TypeVar

from common.blocks import blocks, escaped, repeated
from common import calling
from common.calling import REPOSITORY as REPOSITORY, first_difference
from reference import generate

T = TypeVar("T")
U = TypeVar("U")
Output = tuple[bytes, int]           # what a program writes to standard output, and its status
Case = tuple[str, list[str], bytes]  # what is said of it, the words of a command, and its input
Check = Callable[[str], None]        # is given the program's path, and raises Differs or Skipped
SECONDS = 300            # no run of a check takes that long, even on a machine whose processors are busy


def contents(*parts: str) -> bytes:
    """The bytes of a file, by its path from the top of the repository, or by its whole path."""
    with open(os.path.join(REPOSITORY, *parts), "rb") as file:
        return file.read()


def text_of(*parts: str) -> str:
    return contents(*parts).decode()


def paths(pattern: str) -> list[str]:
    """The files of the repository of such a path from its top, in order."""
    return sorted(glob.glob(os.path.join(REPOSITORY, pattern), recursive=True))


def told_path(path: str) -> str:
    """A path as messages have it, from the top of the repository."""
    return os.path.relpath(path, REPOSITORY)


def write(content: str | bytes, *parts: str) -> str:
    """Writes a file, in a folder that is made where there is none, and answers its path."""
    path = os.path.join(*parts)
    os.makedirs(os.path.dirname(path), exist_ok=True)
    with open(path, "wb") as file:
        file.write(content if isinstance(content, bytes) else content.encode())
    return path


def write_program(content: str, *parts: str) -> str:
    path = write(content, *parts)
    os.chmod(path, 0o755)
    return path


@contextlib.contextmanager
def planted(files: Mapping[str, str]) -> Iterator[str]:
    """A folder with these texts by their paths."""
    with tempfile.TemporaryDirectory() as place:
        for path, text in files.items():
            write(text, place, path)
        yield place


def planted_for(check: str) -> contextlib.AbstractContextManager[str]:
    """A folder with the files that are planted for a check: those of data/planted.txt."""
    titled = {title.partition(" ")[::2]: text for title, text in blocks("data/planted.txt", __file__).items()}
    return planted({path: repeated(text) for (name, path), text in titled.items() if name == check})


class Differs(Exception):
    """What a check found, as a sentence."""


class Skipped(Exception):
    """Why a check can't be made here, as `no cargo`."""


def ensure(good: object, why: str) -> None:
    """Refuses what isn't good."""
    if not good:
        raise Differs(why)


def needed(name: str) -> str:
    """The path of a tool; a check for which it is missing is skipped."""
    path = shutil.which(name)
    if path is None:
        raise Skipped(f"no {name}")
    return path


def run(command: Sequence[str | bytes], text: bytes = b"", **streams: Any) -> Output:
    """What a command writes to standard output, and its status."""
    if "stdin" not in streams:
        streams["input"] = text
    streams.setdefault("stdout", subprocess.PIPE)
    streams.setdefault("cwd", REPOSITORY)
    done = subprocess.run(command, timeout=SECONDS, **streams)
    return done.stdout, done.returncode


def wait_until(is_so: Callable[[], object], why: str) -> None:
    """Waits half a minute at most for something that has to come."""
    limit = time.monotonic() + 30
    while not is_so():
        ensure(time.monotonic() <= limit, why)
        time.sleep(0.05)


def heed_interrupts() -> None:
    """What a shell put into the background ignores Ctrl-C, and hands that on."""
    signal.signal(signal.SIGINT, signal.SIG_DFL)


def stand_ins(place: str, text: str, program: str) -> str:
    """Writes stand-ins of pip and of the lab's program beside it, in whose text {program} is the one they stand for,
    and answers the path of pip's."""
    write_program(text.format(program=calling.lab(program)), place, "pip_lab")
    return write_program(text.format(program=program), place, "pip")


def finished(what: str, words: Sequence[str], seconds: float | None = None, **settings: Any) -> str:
    """What a command writes that has to end well."""
    done = subprocess.run(words, stdin=subprocess.DEVNULL, stdout=subprocess.PIPE, stderr=subprocess.STDOUT,
                          timeout=seconds, **settings)
    told: str = done.stdout.decode("utf-8", "replace")
    ensure(not done.returncode, f"{what} ends with {done.returncode}:\n{told[-4000:]}")
    return told


WITHOUT_PROGRAM = ("exercise", "grade")


def folders_of(place: str) -> list[str]:
    """The folders in which a checkout has its commands."""
    return [os.path.join(place, folder) for folder in ("tools", "class", "dev")]


def command_of(name: str, place: str = REPOSITORY) -> str:
    """The path of a command of a checkout."""
    paths = [os.path.join(folder, name) for folder in folders_of(place)]
    return next(filter(os.path.isfile, paths), paths[0])


def called(name: str, *words: str, program: str | None = None, place: str = REPOSITORY) -> list[str]:
    """The words that call a tool of a checkout, with a program if there is one and the tool takes it."""
    takes = program is not None and name not in WITHOUT_PROGRAM and "." not in name
    return [sys.executable, "-B", command_of(name, place), *words, *(["--program", program or ""] * takes)]


def tool(program: str | None, name: str, *words: str, text: bytes = b"", place: str = REPOSITORY,
         **settings: Any) -> tuple[str, str, int]:
    """Output, messages and status of a tool, with a program if it needs one."""
    settings = {"stdout": subprocess.PIPE, "cwd": place, **settings}
    done = subprocess.run(called(name, *words, program=program, place=place), input=text, timeout=SECONDS,
                          stderr=subprocess.PIPE, **settings)
    messages = done.stderr.decode()
    ensure("Traceback" not in messages, f"{name} {' '.join(words)}: {messages[-400:]}")
    return (done.stdout or b"").decode("utf-8", "replace"), messages, done.returncode


def copied(place: str, *names: str, without: Sequence[str] = ()) -> None:
    """Copies files and folders of the repository, without what was built and these."""
    left_out = shutil.ignore_patterns("out", "__pycache__", *without)
    for name in names:
        source, target = os.path.join(REPOSITORY, name), os.path.join(place, name)
        os.makedirs(os.path.dirname(target), exist_ok=True)
        if os.path.isdir(source):
            shutil.copytree(source, target, ignore=left_out)
        else:
            shutil.copy(source, target)


def says(program: str | None, words: Sequence[str], status: int = 0, *parts: str, text: bytes = b"",
         kind: str = ":") -> str:
    """What a tool writes, with a program if it needs one. It has to end with the status, and to say these parts: by the
    kind anywhere, with nothing on standard error (`>`), or on standard output (`!`)."""
    output, messages, got = tool(program, *words, text=text)
    missing = [part for part in parts if part not in output + messages]
    if got != status or missing or kind == ">" and messages or kind == "!" and output:
        raise Differs(f"{' '.join(words)} of {text[:40]!r}: status {got}, where {status} is due; {missing} is "
                      f"missing in {output[-300:]!r} and {messages[-300:]!r}")
    return output


LINES = re.compile(rb"@(.*?\n)@(\d+)", re.S)      # a line that comes again and again
SAID = re.compile(r"(\d+)([:>!]) (.*)")


def session(title: str, program: str, **paths: str) -> None:
    """Makes the commands of a block of data/sessions.txt, each of which has to end and to say as it is there."""
    with tempfile.TemporaryDirectory() as place:
        paths = {"PLACE": place, "FILE": os.path.join(place, "answer"), **paths}
        for command in blocks("data/sessions.txt", __file__)[title].split("$ ")[1:]:
            head, *lines = command.splitlines()
            told, _, given = head.partition(" < ")
            text = LINES.sub(lambda found: found[1] * int(found[2]), escaped(given))
            write(text, paths["FILE"])
            words = [word.format_map(paths) for word in told.split(" ")]
            said = SAID.fullmatch(lines[0])
            assert said
            named = dict(line[2:].split(" ", 1) for line in lines if line.startswith("= "))
            parts = [said[3], *(line for line in lines[1:] if not line.startswith("= ")), *named.values()]
            output = says(program, words, int(said[1]), *(escaped(part).decode() for part in parts), text=text,
                          kind=said[2])
            for name, part in named.items():
                paths[name] = number_of(output, escaped(part).decode())


def number_of(told: str, part: str) -> str:
    """What begins the first line with this part."""
    return next(line.split()[0] for line in told.splitlines() if part in line)


def expect(what: str, got: tuple[bytes | None, int], wanted: tuple[bytes | None, int]) -> None:
    """Refuses a pair of output and status that isn't the one wanted."""
    if got == wanted:
        return
    (output, status), (text, due) = got, wanted
    ensure(status == due, f"{what}: status {status}, where {due} is due; it wrote {short(output)}")
    place, ours, theirs = first_difference((text or b"").split(b"\n"), (output or b"").split(b"\n"))
    raise Differs(f"{what}: line {place + 1} of the output is {short(theirs)}, where {short(ours)} is due")


def same(what: str, got: object, due: object) -> None:
    if got != due:
        raise Differs(f"{what}: {got!r}, where {due!r} is due")


def each(judge: Callable[[T], U], work: Iterable[T]) -> list[U]:
    """Judges all of these, as many at once as there are processors; what the first of them raises counts."""
    with ThreadPoolExecutor(os.cpu_count()) as pool:
        return list(pool.map(judge, work))


def generated(first: int, count: int) -> Iterator[Case]:
    """The cases of that many seeds of each command."""
    for command in generate.COMMANDS:
        for seed in range(first, first + count):
            yield f"{command} with the case of seed {seed}", *generate.case(command, seed)


def agree(what: str, other: Callable[[Sequence[str]], list[str]], program: str, cases: Iterable[Case]) -> None:
    """Refuses another program, by the words that call it for those of a command, that doesn't answer each case as the
    program does."""
    def judge(case: Case) -> None:
        told, words, text = case
        expect(f"{what}, {told}", run(other(words), text, stderr=subprocess.DEVNULL),
               run(calling.called(program, words), text))

    each(judge, cases)


def part(pattern: str, text: str) -> str:
    """The group of a pattern that a text has."""
    found = re.search(pattern, text, re.S)
    if found is None:
        raise Differs(f"{pattern!r} isn't in {text[:200]!r}")
    return found[1]


def short(text: bytes | None) -> str:
    return "missing" if text is None else repr(text if len(text) < 200 else text[:200] + b"..")
