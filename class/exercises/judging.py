"""The judge of class/judge, as class/exercise and class/grade ask it, and what it says of a work."""

from __future__ import annotations

import os
import secrets
import subprocess
import unicodedata
from dataclasses import dataclass, field

from authors import asmx, why
from common import calling, meanings
from common.calling import REPOSITORY, ensure
from debugger import sources
from judge import building
from common.machine import script

SECRET_BYTES = 8
SOLUTIONS = os.path.join(REPOSITORY, "examples", "solutions")


def ask(act: str, name: str = "", seed: str | None = None, secret: str = "", text: bytes = b"") -> str:
    """What the judge answers: class/judge/src/lib.rs says which lines."""
    seed = unicodedata.normalize("NFC", seed or "")      # a folder's name may have an accent beside its letter
    ensure(not any("\n" in word for word in (name, seed, secret)), "a name and a seed have one line")
    head = "\n".join((act, name, seed, secret, ""))
    program = building.JUDGE.path()
    with calling.running(program):
        done = subprocess.run([program], input=head.encode() + text, stdout=subprocess.PIPE)
    ensure(not done.returncode, f"the judge ends with status {done.returncode}")
    return done.stdout.decode("utf-8", "replace")


@dataclass(frozen=True)
class Exercise:
    is_program: bool
    goals: int


def exercises() -> dict[str, Exercise]:
    """The exercises in their order."""
    lines = [line.split() for line in ask("list").splitlines()]
    return {name: Exercise(kind == "program", int(goals)) for _, name, kind, goals in lines}


def values(name: str, seed: str | None) -> dict[str, tuple[int, str]]:
    """The values of an exercise, each as a number and as its text has it."""
    lines = [line.split(" ", 3) for line in ask("values", name, seed).splitlines()]
    return {value: (int(number), told) for _, value, number, told in lines}


def solutions() -> dict[str, str]:
    """The path of the solution of each exercise."""
    return {os.path.splitext(file)[0]: os.path.join(SOLUTIONS, file) for file in os.listdir(SOLUTIONS)}


def plain_solution(name: str, is_program: bool) -> bytes:
    """Its text; of a source of tools/asmx what it becomes."""
    path = solutions()[name]
    return asmx.text_of(asmx.processed(path)[0]) if is_program else calling.contents(path)


def drawn() -> str:
    """A secret for one verdict."""
    return secrets.token_hex(SECRET_BYTES)


@dataclass
class Judged:
    """What is said of a work: of each claim whether it holds, with its hint where it doesn't; or why it is refused."""

    name: str
    secret: str
    claims: list[tuple[bool, str, str]] = field(default_factory=list)
    remarks: list[str] = field(default_factory=list)
    refused: list[str] = field(default_factory=list)
    plain: bytes = b""               # the text that was judged: of a source of tools/asmx what it becomes

    @property
    def count(self) -> int:
        return sum(good for good, _, _ in self.claims)

    @property
    def is_whole(self) -> bool:
        return bool(self.claims) and self.count == len(self.claims)

    def missing(self) -> list[str]:
        """The claims that don't hold."""
        return [told for good, told, _ in self.claims if not good]

    def lines(self, all_hints: bool) -> list[str]:
        if self.refused:
            return self.refused
        found = [f"{self.name}: {self.count} of {len(self.claims)} goals are reached"]
        hinted = False
        for good, told, hint in self.claims:
            found.append(f"  {'yes' if good else 'no '}  {told}")
            if not good and (all_hints or not hinted):
                found.append(f"       hint: {hint}")
                hinted = True
        return found + [f"  {remark}" for remark in self.remarks]


def judged(name: str, path: str, text: bytes, is_program: bool, seed: str | None = None, secret: str | None = None,
           files: asmx.Files | None = None) -> Judged:
    """What a work reaches. A program may be a source of tools/asmx, which includes what `files` allows."""
    found = Judged(name, secret or drawn(), plain=text)
    answer = ask("judge", name, seed, found.secret, text)
    source: asmx.Text | None = None
    used: asmx.Lines = []
    if is_program and path != "-":
        try:
            lines, source = asmx.processed(path, files)
        except asmx.Wrong as wrong:
            if answer.startswith("refused "):
                found.refused = [f"{name}: the text is refused", str(wrong)]
                return found
        if source and answer.startswith("refused "):
            used = lines
            found.plain = asmx.text_of(used)
            answer = ask("judge", name, seed, found.secret, found.plain)
    read(found, answer, path, is_program, source, used)
    return found


def read(found: Judged, answer: str, path: str, is_program: bool, source: asmx.Text | None, lines: asmx.Lines) -> None:
    """Takes the judge's answer apart. `lines` are those that were judged, of a source."""
    trouble: list[str] = []
    for line in answer.splitlines():
        word, _, rest = line.partition(" ")
        ensure(word != "cant", rest)
        if word == "refused":
            found.refused = refusal(found, rest, path, is_program, lines)
        elif word in ("yes", "no"):
            found.claims.append((word == "yes", rest, ""))
        elif word == "hint":
            found.claims[-1] = (*found.claims[-1][:2], rest)
        elif word == "say":
            found.remarks.append(rest)
        elif word == "trouble":
            trouble.append(of_program(rest.split("\t"), source) if is_program else of_script(rest.split("\t")))
        elif word == "more":
            trouble.append(f"and {rest} more")
    found.remarks += ["what was refused or parked:", *trouble] if trouble else []


def refusal(found: Judged, rest: str, path: str, is_program: bool, lines: asmx.Lines) -> list[str]:
    place, _, kind = rest.partition(" ")
    if len(lines) >= int(place):
        return [f"{found.name}: the text is refused", str(next(asmx.refused(lines, lambda text: (int(place), kind))))]
    texts = script.lines(found.plain)
    cause = why.cause_of(why.ASSEMBLY if is_program else why.SCRIPT, texts, int(place), kind)
    return [f"{found.name}: line {place} is refused", *why.told(path, int(place), texts, cause)]


def of_script(parts: list[str]) -> str:
    number, line, answer = parts
    return f"line {number}: {line} -> {answer} ({meanings.of_answer(answer, line)})"


def of_program(parts: list[str], source: asmx.Text | None) -> str:
    step, cpu, partition, address, line = parts
    where = place_of(source, int(address, 16)) if source and address != "-" else ""
    return f"{where}step {step}: processor {cpu}, partition {partition}: {line} ({meanings.of_answer(line)})"


def place_of(source: asmx.Text, address: int) -> str:
    """The line that an instruction of the root is from, and the name at or before it; nothing where it isn't in the
    source."""
    for page in source.pages:
        index = (address - page.address) // 4
        for item in page.items:
            if item.at <= index < item.at + item.size:
                name = sources.nearest(source.names_in(page), index)
                return f"{os.path.basename(item.place.file)}:{item.place.line}{f' ({name})' if name else ''}, "
    return ""
