"""A script on its way in the program: its lines one by one, and between them `peek` and `reg`, which change nothing."""

from __future__ import annotations

import subprocess
from collections.abc import Sequence

from common.calling import Failed, direct, running

MOST_AT_ONCE = 1000       # lines whose answers fit into a pipe
MOST_FED = 16_000_000     # bytes of one input, below the program's own limit


class BadLine(Exception):
    """The program refuses a line."""


class Asked:
    """The program with a script up to some line. Where an input has grown too long, it begins anew with those lines."""

    def __init__(self, program: str) -> None:
        self.program = program
        self.lines: list[bytes] = []
        self.begin()

    def begin(self) -> None:
        with running(self.program):
            # In a session of its own: Ctrl-C on the terminal is for the tool, and the program ends with its input.
            self.process = subprocess.Popen([direct(self.program), "script"], stdin=subprocess.PIPE,
                                            stdout=subprocess.PIPE, start_new_session=True)
        self.fed = 0

    def end(self) -> None:
        self.process.kill()
        self.process.communicate()

    def line(self, line: bytes) -> str:
        """The answer of a line of the script that has one."""
        answer, = self.answers([line])
        self.lines.append(line)
        return answer

    def look(self, lines: list[bytes]) -> list[str]:
        """The answers of lines that only look."""
        if self.fed > MOST_FED:
            self.end()
            self.begin()
            self.answers(self.lines)
        return self.answers(lines)

    def answers(self, lines: list[bytes]) -> list[str]:
        found: list[str] = []
        for first in range(0, len(lines), MOST_AT_ONCE):
            part = lines[first:first + MOST_AT_ONCE]
            text = b"".join(line + b"\n" for line in part)
            self.fed += len(text)
            assert self.process.stdin is not None
            try:
                self.process.stdin.write(text)
                self.process.stdin.flush()
            except BrokenPipeError:
                pass
            found += [self.answer() for _ in part]
        return found

    def answer(self) -> str:
        assert self.process.stdout is not None
        answer = self.process.stdout.readline().decode("ascii", "replace")
        if answer.startswith("bad line"):
            raise BadLine
        if not answer.endswith("\n"):
            raise Failed(f"{self.program} script ended too early, with status {self.process.wait()}")
        return answer[:-1]

    # What only looks

    def words(self, frame: int, indexes: Sequence[int]) -> list[int]:
        """The words of a frame at some indexes."""
        answers = self.look([b"peek %d %d" % (frame, index) for index in indexes])
        return [int(answer, 16) for answer in answers]

    def registers(self, cpu: int) -> list[int] | None:
        """r0 to r15 and the pc of a processor, or None where it runs nothing."""
        answers = self.look([b"reg %d %d" % (cpu, register) for register in range(17)])
        return None if answers[0] == "idle" else [int(answer, 16) for answer in answers]
