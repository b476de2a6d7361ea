"""One work of a class, judged in a process of its own, which reads the student's folder alone and has limits of time
and memory. It is asked and answers by JSON on its streams."""

from __future__ import annotations

import json
import os
import resource
import signal
import stat
import subprocess
import sys
import threading
from collections.abc import Sequence
from dataclasses import dataclass

from authors import asmx
from common import FOLDERS, calling
from common.calling import Failed, ensure
from . import judging, likeness

SECONDS = 10
MEMORY = 1 << 30
RUN = (f"import sys; sys.path[:0] = {FOLDERS!r}; import runpy; "
       "runpy.run_module('exercises.alone', run_name='__main__')")


@dataclass(frozen=True)
class Work:
    """What is to be judged."""

    exercise: str
    is_program: bool
    path: str                    # in the student's folder, to which no link leads
    seed: str | None
    secret: str
    examples: Sequence[str]      # files of examples/ that a work may include


@dataclass(frozen=True)
class Found:
    """What was said of a work: why it can't be judged, or each claim; which files it reads; and what it is like."""

    why: str = ""
    holds: Sequence[bool] = ()
    refused: bool = False
    files: Sequence[str] = ()
    essence: Sequence[str] = ()


# Inside the process

class OwnFiles(asmx.Files):
    """The files of a student's folder, and some examples by their names: regular files, by no link and no `..`."""

    def __init__(self, examples: Sequence[str]) -> None:
        super().__init__()
        self.examples = examples
        self.read: list[str] = []

    def inner(self, path: asmx.Word) -> str:
        if path in self.examples:
            return os.path.join(calling.REPOSITORY, "examples", path)
        if os.path.isabs(path) or os.pardir in path.split("/"):
            raise path.wrong("a work includes files of its own folder, and examples that are allowed")
        return os.path.join(os.path.dirname(path.place.file), path)

    def contents(self, path: str) -> bytes:
        self.count += 1
        ensure(self.count <= asmx.MOST_FILES, f"more than {asmx.MOST_FILES} files are included")
        self.read.append(path)
        is_example = path.startswith(os.path.join(calling.REPOSITORY, "examples") + os.sep)
        return regular(path, not is_example)


def regular(path: str, is_own: bool = True) -> bytes:
    """The bytes of a regular file. Where it is a student's own, no link leads there."""
    ensure(not is_own or os.path.realpath(path) == os.path.normpath(path), f"{path} is a link")
    try:
        with open(os.open(path, os.O_RDONLY | os.O_NOFOLLOW | os.O_NONBLOCK), "rb") as file:
            ensure(stat.S_ISREG(os.fstat(file.fileno()).st_mode), f"{path} is no regular file")
            text = file.read(calling.MOST + 1)
    except OSError as error:
        raise Failed(f"{path} can't be read: {error.strerror}") from None
    ensure(len(text) <= calling.MOST, f"{path} has more than {calling.MOST} bytes")
    return text


def found(work: Work) -> Found:
    files = OwnFiles(work.examples)
    try:
        text = regular(work.path)
        verdict = judging.judged(work.exercise, work.path, text, work.is_program, work.seed, work.secret, files)
    except (Failed, MemoryError, RecursionError) as failed:
        return Found(str(failed) or "it needs too much memory", files=files.read)
    holds = [good for good, _, _ in verdict.claims]
    return Found("", holds, bool(verdict.refused), files.read, likeness.essence(verdict.plain, work.is_program))


def main() -> None:
    resource.setrlimit(resource.RLIMIT_CPU, (SECONDS, SECONDS))
    resource.setrlimit(resource.RLIMIT_AS, (MEMORY, MEMORY))
    resource.setrlimit(resource.RLIMIT_CORE, (0, 0))
    work = Work(**json.load(sys.stdin))
    json.dump(vars(found(work)), sys.stdout)


# Outside

class Processes:
    """The processes that judge now, so that all of them can be ended, with their children. They have a folder of their
    own for a while."""

    def __init__(self, place: str) -> None:
        self.place = place
        self.lock = threading.Lock()
        self.running: set[subprocess.Popen[bytes]] = set()
        self.is_over = False

    def judge(self, work: Work) -> Found:
        # With the standard library alone, and with what Python has compiled kept, it begins sooner.
        words = [sys.executable, "-S", "-E", "-X", f"pycache_prefix={self.place}", "-c", RUN]
        with self.lock:
            if self.is_over:
                return Found("it was stopped")
            process = subprocess.Popen(words, cwd=calling.REPOSITORY, stdin=subprocess.PIPE, stdout=subprocess.PIPE,
                                       stderr=subprocess.DEVNULL, start_new_session=True)
            self.running.add(process)
        try:
            told, _ = process.communicate(json.dumps(vars(work)).encode(), timeout=SECONDS)
        except subprocess.TimeoutExpired:
            return Found(f"it takes more than {SECONDS} seconds")
        finally:
            with self.lock:
                self.running.discard(process)
            end(process)
        if process.returncode:
            return Found(f"it needs more than {SECONDS} seconds or {MEMORY >> 20} MB")
        return Found(**json.loads(told))

    def end_all(self) -> None:
        with self.lock:
            self.is_over = True
            for process in self.running:
                end(process)


def end(process: subprocess.Popen[bytes]) -> None:
    """Ends a process and what it began."""
    try:
        os.killpg(process.pid, signal.SIGKILL)
    except ProcessLookupError:
        pass
    process.wait()


if __name__ == "__main__":
    main()
