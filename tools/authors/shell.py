"""A script typed line by line: each answer in words, and a bad line is explained and costs nothing.

    tools/shell [FILE]"""

from __future__ import annotations

import argparse
import io
import sys

from common import calling, meanings
from common.calling import Failed, ensure, text_of
from common.draw import texts
from common.machine import script
from step import states, walk
from step.asking import Asked, BadLine
from . import why

PROMPT = "pip> "
HELP = """a line of a script    is answered by the program: boot 64 1 begins a machine; all forms are in docs/FORMATS.md
undo [N]              takes back the last line that has an answer, or the last N; also a park
list                  the lines so far
tree                  the partitions: name, address in the parent, pages, and what runs where
audit                 whether the frames lay out a sound tree, by the program's own audit
save FILE, load FILE  write the lines as a script, or begin again with those of one
help, quit            this, and the end; Ctrl-D ends, too"""


def is_blank(line: bytes) -> bool:
    return not line or line.startswith(b"#")


class Session:
    """The lines so far, remarks among them, and the program that has answered them."""

    def __init__(self, program: str) -> None:
        self.program = program
        self.asked = Asked(program)
        self.kept: list[bytes] = []

    def again(self, lines: list[bytes]) -> list[str]:
        """The program begins again with these lines; their answers."""
        self.asked.end()
        self.asked, self.kept = Asked(self.program), list(lines)
        told = [line for line in lines if not is_blank(line)]
        answers = self.asked.answers(told)
        self.asked.lines = told
        return answers

    def say(self, line: bytes) -> list[str]:
        """The answer of a line in words; of a bad one why it is bad, and the session stays as it was."""
        if is_blank(line) and len(line) <= why.LONGEST:
            self.kept.append(line)
            return []
        try:
            answer = self.asked.line(line)
        except BadLine:
            self.again(self.kept)
            lines = [*self.kept, line.split(b"\n")[0]]
            cause = why.cause_of(why.SCRIPT, lines, len(lines), "")
            return [f"bad line, nothing is changed: {cause.here}", *why.told("", len(lines), lines, cause)[1:]]
        self.kept.append(line)
        meaning = meanings.of_answer(answer, line.decode())
        return [answer + (f"    # {meaning}" if meaning else "")]

    # The words of the shell, each with what is after it

    def on_undo(self, operand: str) -> list[str]:
        """Takes back the last lines that have an answer, with the remarks after them."""
        count = calling.number(operand or "1", 1, 1 << 24, "the number of lines")
        places = [place for place, line in enumerate(self.kept) if not is_blank(line)][-count:]
        if not places:
            return ["there is no line to take back"]
        gone = self.kept[places[0]:]
        self.again(self.kept[:places[0]])
        return [f"taken back: {line.decode('utf-8', 'replace')}" for line in gone if not is_blank(line)]

    def on_list(self, _: str) -> list[str]:
        lines = enumerate(self.kept, 1)
        return [f"{place:>4}  {line.decode('utf-8', 'replace')}" for place, line in lines] or ["no line yet"]

    def on_help(self, _: str) -> list[str]:
        return HELP.split("\n")

    def on_load(self, path: str) -> list[str]:
        """Begins again with the lines of a file, up to a bad one."""
        before, lines = list(self.kept), script.lines(calling.contents(path))
        self.again([])
        last: list[str] = []
        for place, line in enumerate(lines, 1):
            told, count = self.say(line), len(self.kept)
            if count != place:
                return [f"{path}, line {place} is bad, and the lines before it are kept:", *told]
            last = told or last
        if not last:
            self.again(before)
            raise Failed(f"{path} has no line with an answer")
        return [f"{len(self.kept)} lines; the last answer: {last[0]}"]

    def on_save(self, path: str) -> list[str]:
        calling.write(path, b"".join(line + b"\n" for line in self.kept))
        return [f"{len(self.kept)} lines are in {path}"]

    def looked(self) -> walk.Looker:
        ensure(self.asked.lines, "there is no machine yet: boot 64 1 begins one")
        return walk.Looker(self.asked.words)

    def on_tree(self, _: str) -> list[str]:
        """The partitions, each below its parent."""
        found, runs = texts.partitions("\n".join(walk.tree_lines(walk.partitions(self.looked())))), self.runs()
        return [x.line([cpu for cpu, name in enumerate(runs) if name == x.name]) for x in found]

    def runs(self) -> list[int]:
        """What runs on each processor, a partition's name or 0, by the program's answers so far."""
        lines = self.asked.lines
        found = [1] + [0] * (int(lines[0].split()[2], 0) - 1)
        for line, answer in zip(lines, text_of(self.program, ["script"], b"".join(line + b"\n" for line in lines))):
            states.runs_after(found, line.split(b" ")[1], answer.split())
        return found

    def on_audit(self, _: str) -> list[str]:
        """What the program's audit says of the words in which the tree is."""
        looker = self.looked()
        found = walk.partitions(looker)
        frames = int(self.asked.lines[0].split()[1], 0)
        output = calling.output(self.program, ["audit", str(frames)], walk.core_text(looker.seen).encode())[0]
        last = output.decode().splitlines()[-1]
        rows = sum(len(x.rows) for x in found)
        return [f"{last}    # {len(found)} partition{'s' * (len(found) > 1)} and {rows} rows, each word as the tree "
                "wants it" if last == "yes" else last]


# The words of the shell, and whether something is after each: must, may or mustn't
WORDS = {"undo": "may", "list": "no", "tree": "no", "audit": "no", "save": "must", "load": "must", "help": "no"}


def answered(session: Session, text: str) -> list[str]:
    """What the shell says to a typed line."""
    word, _, operand = text.strip().partition(" ")
    try:
        if word not in WORDS:
            return session.say(text.encode("utf-8", "surrogateescape"))
        if WORDS[word] == "must" and not operand or WORDS[word] == "no" and operand:
            return [f"{word} has {'a file' if WORDS[word] == 'must' else 'nothing'} after it: see help"]
        told: list[str] = getattr(session, "on_" + word)(operand.strip())
        return told
    except Failed as failed:
        return [str(failed)]


def typed() -> str | None:
    """The next line; None at the end. On a terminal Ctrl-C gives the line up, and no more."""
    while True:
        try:
            return input(PROMPT if sys.stdin.isatty() else "")
        except EOFError:
            return None
        except KeyboardInterrupt:
            if not sys.stdin.isatty():
                raise
            print()


def main() -> None:
    parser = argparse.ArgumentParser(description="A script typed line by line: each answer in words, and a bad line "
                                                 "costs nothing.", epilog=HELP,
                                     formatter_class=argparse.RawDescriptionHelpFormatter)
    parser.add_argument("file", nargs="?", metavar="FILE", help="begin with the lines of this script")
    calling.take_program(parser)
    calling.started(parser, work)


def work(given: argparse.Namespace) -> int:
    on_terminal = sys.stdin.isatty()
    if isinstance(sys.stdin, io.TextIOWrapper):
        sys.stdin.reconfigure(errors="surrogateescape")
    if on_terminal:
        import readline                              # the history and the arrow keys of input()
        readline.set_auto_history(True)
        print("A script line by line; help says what else there is. boot 64 1 begins a machine.")
    session = Session(given.program)
    try:
        if given.file:
            show(session.on_load(given.file))
        while (line := typed()) is not None and line != "quit":
            show(answered(session, line))
        if on_terminal:
            print()
    finally:
        session.asked.end()
    return 0


def show(lines: list[str]) -> None:
    if lines:
        print("\n".join(lines), flush=True)
