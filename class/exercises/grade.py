"""A class at a glance: a row a student, a column an exercise, and in each cell how many goals are reached.

    class/grade FOLDER [--csv] [--seeds] [--allow EXAMPLE ..]"""

import argparse
import csv
import os
import sys
import tempfile
from collections.abc import Iterable
from concurrent.futures import ThreadPoolExecutor
from dataclasses import dataclass, field

from common import calling
from common.calling import Failed, ensure
from judge import building
from . import alone, judging, likeness

SCRIPTS, PROGRAMS = (".pip",), (".s", ".asmx")
SOLUTION = "the solution of examples/solutions"
FORMULA = tuple("=+-@\uff1d\uff0b\uff0d\uff20")         # what begins one in a spreadsheet, also as a wide letter


@dataclass(frozen=True)
class Work:
    """A file that a student handed in, and what was said of it."""

    student: str
    exercise: str
    path: str
    found: alone.Found = field(default_factory=alone.Found)

    @property
    def count(self) -> int:
        return sum(self.found.holds)

    @property
    def is_whole(self) -> bool:
        return bool(self.found.holds) and all(self.found.holds)


@dataclass(frozen=True)
class Table:
    """The works of a class, by student and exercise. Its columns are the exercises of which there is a work."""

    students: list[str]
    works: dict[tuple[str, str], Work]
    goals: dict[str, int]                        # of each exercise, how many
    alike: list[tuple[str, str, list[str]]]      # exercise, how, and whose works

    @property
    def columns(self) -> list[str]:
        return [name for name in self.goals if any((student, name) in self.works for student in self.students)]

    def count(self, student: str) -> int:
        return sum(work.count for (of, _), work in self.works.items() if of == student)

    def whole(self, student: str) -> int:
        return sum(work.is_whole for (of, _), work in self.works.items() if of == student)

    def solved(self, name: str) -> int:
        """How many students reached all goals of an exercise."""
        return sum(work.is_whole for (_, of), work in self.works.items() if of == name)

    def cell(self, student: str, name: str) -> str:
        work = self.works.get((student, name))
        if work is None:
            return "-"
        if work.found.why:
            return "?"
        mark = "=" if any(student in who for of, _, who in self.alike if of == name) else ""
        return ("bad" if work.found.refused else f"{work.count}/{self.goals[name]}") + mark


def main() -> None:
    parser = argparse.ArgumentParser(
        description="A row a student, a column an exercise, and in each cell how many goals are reached.",
        epilog="FOLDER has a folder for each student, and in it files named by the exercises: map.pip, sum.s, "
               "monitor.asmx. '-': nothing handed in; 'bad': the text is refused; '?': it can't be judged, and why is "
               "on standard error; '=': it is like another one, which is named below the table.")
    parser.add_argument("folder", metavar="FOLDER")
    parser.add_argument("--csv", action="store_true",
                        help="for a spreadsheet: numbers in columns, nothing where nothing was handed in")
    parser.add_argument("--seeds", action="store_true",
                        help="each student's values are those of the seed that is the folder's name")
    parser.add_argument("--allow", nargs="+", default=[], metavar="EXAMPLE",
                        help="files of examples/ that a work may include by this name, as monitor.s; without it none")
    parser.add_argument("--again", metavar="SECRET", help="draw what the grading drew that named this secret")
    calling.take_jobs(parser)
    calling.started(parser, work)


def work(given: argparse.Namespace) -> int:
    os.environ["PIP_JUDGE"] = os.path.abspath(building.JUDGE.path())       # it may be built, once
    exercises = judging.exercises()
    given.secret = given.again or judging.drawn()
    students, handed_in, others = found(given.folder, exercises)
    judged = all_judged(given, exercises, handed_in)
    included = {os.path.realpath(path) for one in judged for path in one.found.files if path != one.path}
    for path, why in others:
        if os.path.realpath(path) not in included:
            print(visible(f"grade: {path} {why}"), file=sys.stderr)
    for one in judged:
        if one.found.why:
            print(visible(f"grade: {one.path}: {one.found.why}"), file=sys.stderr)
    goals = {name: one.goals for name, one in exercises.items()}
    table = Table(students, {(one.student, one.exercise): one for one in judged}, goals,
                  alike(exercises, judged, given.seeds))
    if given.csv:
        csv.writer(sys.stdout, lineterminator="\n", quoting=csv.QUOTE_NONNUMERIC).writerows(csv_rows(table))
    else:
        print("\n".join([*lines(table), f"(--again {given.secret} draws the same)"]))
    return 0


def found(folder: str, exercises: dict[str, judging.Exercise]) -> tuple[list[str], list[Work], list[tuple[str, str]]]:
    """The students of a folder, their works, and the other files with what they are."""
    try:
        entries = sorted((entry for entry in os.scandir(folder) if not entry.name.startswith(".")),
                         key=lambda entry: entry.name)
        students = [entry.name for entry in entries if entry.is_dir(follow_symlinks=False)]
        files = [(student, file) for student in students for file in sorted(os.listdir(os.path.join(folder, student)))]
    except OSError as error:
        raise Failed(f"{error.filename or folder} can't be read: {error.strerror}") from None
    ensure(students, f"{folder} has no folder of a student")
    works: dict[tuple[str, str], Work] = {}
    others = [(entry.path, "is a link, and no folder of a student" if entry.is_symlink() else
               "is in no student's folder") for entry in entries if entry.name not in students]
    for student, file in files:
        name, ending = os.path.splitext(file)
        path = os.path.join(folder, student, file)
        endings = () if name not in exercises else PROGRAMS if exercises[name].is_program else SCRIPTS
        if ending not in endings:
            why = f"{name} ends with {' or '.join(endings)}" if endings else f"there is no exercise {name}"
            others.append((path, f"is no work: {why}"))
        elif (student, name) in works:
            others.append((path, f"is left out: {works[student, name].path} is there"))
        else:
            works[student, name] = Work(student, name, path)
    return students, list(works.values()), others


def all_judged(given: argparse.Namespace, exercises: dict[str, judging.Exercise], works: Iterable[Work]) -> list[Work]:
    def judged(one: Work) -> Work:
        folder, name = os.path.split(one.path)
        path, seed = os.path.join(os.path.realpath(folder), name), one.student if given.seeds else None
        asked = alone.Work(one.exercise, exercises[one.exercise].is_program, path, seed, given.secret, given.allow)
        return Work(one.student, one.exercise, one.path, processes.judge(asked))

    with tempfile.TemporaryDirectory() as place:
        processes, pool = alone.Processes(place), ThreadPoolExecutor(given.jobs)
        try:
            return list(pool.map(judged, works))
        finally:
            processes.end_all()
            pool.shutdown(cancel_futures=True)


def alike(exercises: dict[str, judging.Exercise], works: list[Work],
          by_seeds: bool) -> list[tuple[str, str, list[str]]]:
    """The works that are like another one, or like the public solution."""
    found = []
    for name, exercise in exercises.items():
        texts = {work.student: work.found.essence for work in works if work.exercise == name}
        if texts and not by_seeds:
            plain = judging.plain_solution(name, exercise.is_program)
            texts[SOLUTION] = likeness.essence(plain, exercise.is_program)
        found += [(name, how, who) for how, who in likeness.alike(texts)]
    return found


def lines(table: Table) -> list[str]:
    """The table as text: columns side by side, how many students solved each exercise, and which works are alike."""
    most = sum(table.goals[name] for name in table.columns)
    rows = [["", *table.columns, "goals", "solved"]]
    rows += [[visible(student), *(table.cell(student, name) for name in table.columns),
              f"{table.count(student)}/{most}", f"{table.whole(student)}/{len(table.columns)}"]
             for student in table.students]
    rows.append(["solved", *(f"{table.solved(name)}/{len(table.students)}" for name in table.columns), "", ""])
    widths = [max(map(len, column)) for column in zip(*rows)]
    told = ["  ".join([row[0].ljust(widths[0]), *map(str.rjust, row[1:], widths[1:])]).rstrip() for row in rows]
    return told + [visible(f"{name}: {how}: {', '.join(who)}") for name, how, who in table.alike]


def csv_rows(table: Table) -> list[list[object]]:
    names = [f"{name} of {table.goals[name]}" for name in table.columns]
    rows: list[list[object]] = [["student", *names, "goals", "solved", "alike"]]
    for student in table.students:
        works = [table.works.get((student, name)) for name in table.columns]
        like = [f"{name}: {other}" for name, _, who in table.alike if student in who for other in who
                if other != student]
        cells = (work.count if work else "" for work in works)
        rows.append([student, *cells, table.count(student), table.whole(student), "; ".join(like)])
    return [["'" * cell.startswith(FORMULA) + visible(cell) if isinstance(cell, str) else cell for cell in row]
            for row in rows]


def visible(text: str) -> str:
    """A text in which what a terminal would obey, and what is no letter, is written out."""
    return "".join(letter if letter.isprintable() else ascii(letter)[1:-1] for letter in text)
