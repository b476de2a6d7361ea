"""class/exercise: each cheat of class/exercises/cheats misses the goals that it names; where nothing is drawn no more.

EXERCISE.txt there has a block for each work (common/blocks.py): a title at the left edge, and below it the text, four
columns further in. NAME.pip, NAME.s or NAME.asmx is a whole text, and NAME.edit an edit of the exercise's solution:
`old: ` is a line, or a part of one, that is in it once, and the lines `new: ` after it take its place; without any it
goes. `file: ` names another file than the solution, whose edited text is judged. The first lines of a block are
`# misses: ` and a goal; a line `# says: ` has words of the verdict. A block good_NAME is another way that reaches all
goals, so that no goal asks for more than the exercise: `# misses: nothing`."""

from __future__ import annotations

import functools
import os
import re
import tempfile
from collections import Counter
from dataclasses import dataclass

from common.blocks import blocks
from common.calling import Failed
from exercises import exercise, judging
from judge import building
from .exporting import need_cargo
from .running import REPOSITORY, Differs, each, ensure, text_of, told_path, write

CHEATS = os.path.join(REPOSITORY, "class", "exercises", "cheats")
LEAST_CHEATS, LEAST_GOOD = 10, 5     # of each exercise


@dataclass(frozen=True)
class Cheat:
    name: str            # of the exercise
    title: str
    text: str

    @property
    def told(self) -> str:
        return f"{told_path(CHEATS)}/{self.name}.txt: {self.title}"

    @property
    def is_good(self) -> bool:
        return self.title.startswith("good_")

    def marked(self, mark: str) -> list[str]:
        """What is after such a remark."""
        return re.findall(rf"^# {mark}: (.*)$", self.text, re.M)


def need_judge() -> None:
    """Builds the judge, or skips a check where it can't be built."""
    if not os.environ.get("PIP_JUDGE"):
        need_cargo()
    building.JUDGE.path()


def edited(cheat: Cheat) -> tuple[str, str]:
    """The text of a cheat, and the ending of its file."""
    if not cheat.title.endswith(".edit"):
        return cheat.text, os.path.splitext(cheat.title)[1]
    lines = [line.split(": ", 1) for line in cheat.text.splitlines() if not line.startswith("#")]
    source = next((os.path.join(REPOSITORY, rest) for mark, rest in lines if mark == "file"),
                  judging.solutions()[cheat.name])
    pairs: list[tuple[str, list[str]]] = []
    for mark, rest in lines:
        if mark == "old":
            pairs.append((rest, []))
        elif mark == "new":
            pairs[-1][1].append(rest)
    text = functools.reduce(lambda told, pair: replaced(cheat, told, *pair), pairs, text_of(source))
    return text, os.path.splitext(source)[1]


def replaced(cheat: Cheat, text: str, old: str, new: list[str]) -> str:
    """The text with new lines in the place of an old one. A whole line goes before a part of one."""
    whole = re.findall(rf"^{re.escape(old)}$", text, re.M)
    ensure((len(whole) or text.count(old)) == 1, f"{cheat.told}: '{old}' isn't once in the text")
    if whole:
        return re.sub(rf"^{re.escape(old)}\n", lambda _: "".join(line + "\n" for line in new), text, flags=re.M)
    return text.replace(old, "\n".join(new))


def judged(name: str, text: str, ending: str, is_program: bool, seed: str | None = None,
           secret: str | None = None) -> judging.Judged:
    """What is said of a text in a file of its own."""
    with tempfile.TemporaryDirectory() as place:
        return judging.judged(name, write(text, place, name + ending), text.encode(), is_program, seed, secret)


def fault(cheat: Cheat, is_program: bool) -> str | None:
    """What is wrong with the verdict of a cheat."""
    due = cheat.marked("misses")
    try:
        found = judged(cheat.name, *edited(cheat), is_program)
    except (Failed, Differs) as failed:
        return f"{cheat.told}: {failed}"
    if not due or not cheat.text.startswith("# misses: "):
        return f"{cheat.told}: its first line doesn't name the goal that it misses"
    missing = found.missing() or ["nothing"]
    if found.refused or not set(due) <= set(missing) or missing != due and cheat.name not in exercise.DRAWS:
        return f"{cheat.told}: it misses {found.refused or found.missing()}, where {due} is due; --again {found.secret}"
    if (due == ["nothing"]) != cheat.is_good:
        return f"{cheat.told}: it is good, or its name says so"
    said = "\n".join(found.lines(True))
    lacks = [words for words in cheat.marked("says") if words not in said]
    return f"{cheat.told}: the verdict doesn't say {lacks}:\n{said}" if lacks else None


def all_cheats() -> list[Cheat]:
    return [Cheat(os.path.splitext(file)[0], title, text) for file in sorted(os.listdir(CHEATS))
            for title, text in blocks(os.path.join(CHEATS, file)).items()]


def cheats(program: str) -> None:
    need_judge()
    found, exercises = all_cheats(), judging.exercises()
    for is_good, least in ((False, LEAST_CHEATS), (True, LEAST_GOOD)):
        counts = Counter(cheat.name for cheat in found if cheat.is_good == is_good)
        few = [name for name in exercises if counts[name] < least]
        if few or set(counts) != set(exercises):
            what = "good works" if is_good else "cheats"
            raise Differs(f"class/exercises/cheats has less than {least} {what} of {few}, or a file of no exercise")
    told = each(lambda cheat: fault(cheat, exercises[cheat.name].is_program), found)
    if wrong := list(filter(None, told)):
        raise Differs("\n".join(wrong))
