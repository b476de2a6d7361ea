"""class/exercise: each exercise has a section and a solution that reaches all goals, also by seeds. That less
doesn't is told by the check `cheats`."""

import itertools
import os
import re
import subprocess
import sys
import tempfile

from common.blocks import blocks
from exercises import exercise, judging
from . import cheats
from .running import REPOSITORY, SECONDS, contents, each, ensure, folders_of, run, says, session, text_of, tool

TIMES = 3                # that each solution is judged, each time with another secret
SEEDS = ("ada", "grace hopper", "\u00e9")
INCLUDED = {"monitor": "monitor.s", "no-loss": "timer_and_services.s"}     # what the solution includes


def solutions(program: str) -> None:
    cheats.need_judge()
    names = list(judging.exercises())
    files = judging.solutions()
    ensure(tool(None, "exercise", "--list")[0].split() == names and sorted(files) == sorted(names) and len(names) >= 20,
           f"docs/EXERCISES.md, examples/solutions ({sorted(files)}) and the judge ({names}) differ")
    each(lambda name: solution(name, files[name]), names * TIMES)
    whole_script(program, files["break-in"])
    drawn_again()
    session("exercise", program)
    without_cargo(files["map"])


def solution(name: str, path: str) -> None:
    ensure(contents(path).startswith(b"# "), f"{path}: its first line isn't a remark")
    says(None, ("exercise", name, path), kind=">")


def drawn_again() -> None:
    """A verdict is the same with its secret, and without it draws another: here the timer with which a root fails that
    knows its own by heart."""
    cheat = next(cheat for cheat in cheats.all_cheats() if (cheat.name, cheat.title) == ("tell-apart", "by_heart.asmx"))
    found = [cheats.judged(cheat.name, *cheats.edited(cheat), True, secret=secret) for secret in ("1", "1", None, None)]
    told = [one.lines(True) for one in found]
    ensure(told[0] == told[1] and told[2] != told[3] and found[2].secret != found[3].secret, "class/exercise --again: "
           f"{told}")


def by_seeds(program: str) -> None:
    """With a seed the text has other values; a solution for these is good, and that of the repository isn't."""
    cheats.need_judge()
    for one, other in (("ada lovelace", " Ada_Lovelace "), ("\u00e9", "E\u0301")):
        ensure(judging.values("map", one) == judging.values("map", other), f"class/exercise --seed: {one!r} and "
               f"{other!r} are two names")
    work = [(seed, name, one.is_program) for seed, (name, one) in itertools.product(SEEDS, judging.exercises().items())]
    each(lambda one: by_seed(*one), work)


def by_seed(seed: str, name: str, is_program: bool) -> None:
    values = told_by_seed(name, seed)
    path = judging.solutions()[name]
    ensure(not judging.judged(name, path, contents(path), is_program, seed).is_whole, f"class/exercise {name} --seed "
           f"{seed}: the solution of the repository is good")
    if name in INCLUDED:
        path = os.path.join(REPOSITORY, "examples", INCLUDED[name])
    text = rewritten(name, text_of(path), values)
    found = cheats.judged(name, text, os.path.splitext(path)[1], is_program, seed)
    ensure(found.is_whole, f"class/exercise {name} --seed {seed} of a solution for it: {found.lines(True)}")


def told_by_seed(name: str, seed: str) -> dict[str, int]:
    """The values of an exercise by a seed. Its section has each usual value, and by the seed the other one."""
    page, usual = (" ".join(exercise.told(name, by).split()) for by in (seed, None))
    values = judging.values(name, seed)
    for value, (_, told) in judging.values(name, None).items():
        ensure(told in usual and values[value][1] in page, f"docs/EXERCISES.md, {name}: the value {value} isn't told")
    return {value: number for value, (number, _) in values.items()}


def whole_script(program: str, path: str) -> None:
    """The script that break-in runs is a good one by itself."""
    told = says(None, ("exercise", "break-in", path, "--script"), 0, "call 0 8 0x401000 64 256\n", kind=">")
    ensure(not run([program, "script"], told.encode())[1], "class/exercise break-in --script: the program refuses "
           f"{told[-300:]!r}")


def without_cargo(path: str) -> None:
    """Where no judge is built and there is no cargo, that is one sentence."""
    with tempfile.TemporaryDirectory() as place:
        script = ("from dataclasses import replace; from exercises import exercise; from judge import "
                  "building; building.JUDGE = replace(building.JUDGE, name='none'); exercise.main()")
        words = [sys.executable, "-B", "-c", script, "map", path]
        environment = {"PATH": place, "PYTHONPATH": os.pathsep.join(folders_of(REPOSITORY))}
        done = subprocess.run(words, cwd=REPOSITORY, timeout=SECONDS, env=environment, stdout=subprocess.PIPE,
                              stderr=subprocess.PIPE)
    told = done.stderr.decode()
    ensure(done.returncode == 2 and "there is no cargo here" in told and len(told.splitlines()) == 1,
           f"class/exercise without cargo: status {done.returncode}, {told}")


# The solutions, rewritten for the values of a seed

FIRST, PAGE = 0x400000, 4096     # the root's first page, which is frame 12


def made_of(values: dict[str, int]) -> dict[str, int]:
    """The values, and numbers that come of them."""
    at, line, place, request, sibling = (values.get(name, 0) for name in ("at", "line", "place", "request", "sibling"))
    ordinal = (at - FIRST) // PAGE
    return {**{f"at_{name}": FIRST + (frame - 12) * PAGE for name, frame in values.items()}, **values,
            "mapped": 0x409000 + at % PAGE, "ordinal": ordinal, "frame": 12 + ordinal, "index": at % PAGE // 4,
            "entry": 0xFFFFF080 + 4 * line, "back": 4 * line - 896, "less": request - 64, "left": 255 - request,
            "low": place % 65536, "top": place - place % PAGE, "before": place % PAGE // 4,
            "sibling_word": sibling + 0x8020, "sibling_page": sibling + 0x8000}


def rewritten(name: str, text: str, values: dict[str, int]) -> str:
    """The solution of an exercise, for these values."""
    numbers, other = made_of(values), ""
    for line in blocks("data/seeded.txt", __file__)[name].splitlines():
        old, _, new = line.replace("\\n", "\n").format_map(numbers).partition(" -> ")
        if old.startswith("= "):
            other += old[2:] + "\n"
        elif old == "swap":
            text = swapped(text, 0x401000, int(new, 16))
        else:
            text = put(text, old, new)
    return other or text


def swapped(text: str, one: int, other: int) -> str:
    """A script in which two pages of the root have changed places."""
    def place(found: re.Match[str]) -> str:
        address = int(found.group(), 16)
        page = {one: other, other: one}.get(address - address % PAGE, address - address % PAGE)
        return f"{page + address % PAGE:#x}"
    return re.sub(r"\b0x4[0-9a-f]{5}\b", place, text)


def put(text: str, old: str, new: str) -> str:
    """A text in which a line, or words of one, are others."""
    changed = re.sub(rf"(?<!\w){re.escape(old)}(?!\w)", lambda _: new, text)
    if changed == text:
        raise ValueError(f"'{old}' isn't in the solution")
    return changed
