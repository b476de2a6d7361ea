"""class/grade: a class as a table, works that are alike, and hostile ones, none of which gets beyond its folder."""

import os
import re
import shutil
import signal
import subprocess
import sys
import tempfile
import time

from common.blocks import blocks
from exercises import alone, grade, judging, likeness
from judge import building
from . import cheats
from .running import (REPOSITORY, Differs, contents, ensure, heed_interrupts, says, session, text_of, tool,
                      wait_until, write, write_program)

HOSTILE = os.path.join(REPOSITORY, "class", "exercises", "hostile")
CLASS = blocks("data/class.txt", __file__)
PROMPT = 5               # seconds in which Ctrl-C ends everything


def grades(program: str) -> None:
    """A class as a table, with what isn't judged on standard error; as a spreadsheet; and by seeds."""
    cheats.need_judge()
    script, text = CLASS["map"].encode(), contents(judging.solutions()["sum"])
    text = text.replace(b"li r1 0x1000", b"li r1 0x1000\nmov r3 r10\nmov r4 r10")
    with tempfile.TemporaryDirectory() as place:
        for path, content in (("ada/map.pip", script), ("ada/sum.s", text), ("bob/map.s", text),
                              ("bob/map.pip", script.replace(b" 3\nst", b" 7\nst")), ("bob/sum.asmx", b"lix r1\n"),
                              ("=eve x/break-in.pip", b"peek 1 1\n"), ("=eve x/map.pip", CLASS["again"].encode()),
                              ("=eve x/notes", b""), ("loose.pip", script), (".hidden", b"")):
            write(content, place, path)
        os.symlink("ada", os.path.join(place, "jo"))
        output, messages, status = tool(None, "grade", place, "--again", "1")
        due = ("map.s is no work: map ends with .pip", "notes is no work: there is no exercise notes",
               "break-in.pip: line 1: the child can't say", "loose.pip is in no student's folder", "jo is a link")
        lacks = [part for part in due if part not in messages]
        wanted = CLASS["table"] + "(--again 1 draws the same)\n"
        ensure((output, status) == (wanted, 0) and not lacks and len(messages.splitlines()) == len(due),
               f"class/grade: status {status}, {output}{messages}")
        if (got := tool(None, "grade", place, "--csv")[0]) != CLASS["spreadsheet"]:
            raise Differs(f"class/grade --csv: {got}")
        seeds = tool(None, "grade", place, "--seeds")[0]
        ensure("0/3       0/3  0/3" in seeds, f"class/grade --seeds: {seeds}")
        session("grade", program, CLASS=place)
    moved_works()
    hostile_works()
    stopped()


def moved_works() -> None:
    """A work is like one with other pages, or with other registers, and not like one that does another thing."""
    pages = {b"0x%x" % page: b"0x%x" % (page + 0x40000) for page in (0x406000, 0x407000, 0x408000)}
    for name, changes in (("end", pages), ("child-program", {b"r7": b"r8", b"r8": b"r7"})):
        is_program = judging.exercises()[name].is_program
        text = judging.plain_solution(name, is_program)
        changed = re.sub(rb"\b(%s)\b" % b"|".join(changes), lambda found: changes[found[0]], text)
        other = judging.plain_solution("monitor" if is_program else "forged", is_program)
        texts = {"ada": text, "bob": changed, "eve": other}
        told = likeness.alike({who: likeness.essence(one, is_program) for who, one in texts.items()})
        ensure(told == [("the same text with other registers or pages", ["ada", "bob"])], f"class/grade: of {name}, "
               f"once with other pages or registers, is told {told}")


def hostile_works() -> None:
    """What is said of the works of class/exercises/hostile, and of files that no checkout can hold: none takes long or
    is whole."""
    due = {"fifo/map.pip": "is no regular file", "link/map.pip": "is a link", "link/monitor.asmx": "is a link",
           "folder/map.pip": "Is a directory", "slow/monitor.asmx": "more than 10 seconds",
           "wide/map.pip": "more than 5000 lines"}
    with tempfile.TemporaryDirectory() as place:
        classroom = os.path.join(place, "class")
        shutil.copytree(HOSTILE, classroom)
        adapt(classroom)
        begun = time.monotonic()
        output, messages, status = tool(None, "grade", classroom)
        took = time.monotonic() - begun
        rows = {line.split()[0]: line for line in output.splitlines() if line and not line.startswith("(")}
        # The work of ada is the example itself; that of 'own' includes a file of its own folder and is a good one.
        for student in set(os.listdir(classroom)) - {"ada", "own"}:
            ensure(rows[grade.visible(student)].rstrip().endswith(tuple(f" 0/{k}" for k in range(3, 9))),
                   f"class/grade: a hostile work of {student} is whole: {output}")
        said = messages.splitlines()
        lacks = [path for path, told in due.items() if not any(path in line and told in line for line in said)]
        leaks = "\x1b" in output + messages or "root:" in output + messages or "helper" in messages
        ensure(not status and not lacks and not leaks and took <= 4 * alone.SECONDS, "class/grade of hostile works: "
               f"status {status}, {took:.0f} s, nothing is said of {lacks}: {output}{messages}")
        ensure(" 6/6=" in rows["own"] and "monitor: the same text: ada, own, the solution" in output,
               f"class/grade: a work with a file of its own isn't taken, or isn't like ada's: {output}")
        says(None, ("grade", classroom, "--allow", "monitor.s"), 0, "ada, own")


def adapt(classroom: str) -> None:
    """The files that name this checkout, and those that are none."""
    for folder, _, files in os.walk(classroom):
        for file in files:
            path = os.path.join(folder, file)
            write(contents(path).replace(b"CHECKOUT", REPOSITORY.encode()), path)
    example = contents("examples", "monitor.s")
    write(example, classroom, "ada", "monitor.s")
    for student in ("fifo", "link", "own", "folder/map.pip", "slow", "wide"):
        os.makedirs(os.path.join(classroom, student))
    os.mkfifo(os.path.join(classroom, "fifo", "map.pip"))
    os.symlink(os.path.join(classroom, "ada", "map.pip"), os.path.join(classroom, "link", "map.pip"))
    os.symlink(os.path.join(classroom, "ada"), os.path.join(classroom, "link", "inner"))
    write(b".include inner/monitor.s\n", classroom, "link", "monitor.asmx")
    write(b".include helper.s\n", classroom, "own", "monitor.asmx")
    write(example, classroom, "own", "helper.s")
    write(b"".join(b".include f%d.s\n" % k for k in range(20)), classroom, "slow", "monitor.asmx")
    for k in range(20):
        write(b"x: .word x*x*x*x*x*x*x*x\n" * 20000, classroom, "slow", f"f{k}.s")
    write(b"boot 4096 4\n" + b"raise 1\n" * 400_000, classroom, "wide", "map.pip")
    write("boot 64 1\n\u00b2 " + "9" * 5000 + " 1" * 200_000, classroom, "red\x1b[31m\udcff", "map.pip")


def stopped() -> None:
    """Ctrl-C ends the grader and all that it began, at once."""
    with tempfile.TemporaryDirectory() as place:
        waits = write_program("#!/bin/sh\nread act\n"
                              f"if [ $act = list ]; then echo list | {building.JUDGE.path()}; exit; fi\n"
                              f"echo $$ >> {place}/begun\nexec sleep 60\n", place, "judge")
        for student in ("ada", "bob"):
            write(CLASS["map"], place, "class", student, "map.pip")
        words = [sys.executable, "-B", os.path.join(REPOSITORY, "class", "grade"), os.path.join(place, "class")]
        process = subprocess.Popen(words, env={**os.environ, "PIP_JUDGE": waits}, stdout=subprocess.PIPE,
                                   stderr=subprocess.PIPE, preexec_fn=heed_interrupts)
        wait_until(lambda: os.path.exists(os.path.join(place, "begun")), "class/grade doesn't judge")
        begun = time.monotonic()
        process.send_signal(signal.SIGINT)
        _, messages = process.communicate(timeout=60)
        left = [number for number in text_of(place, "begun").split() if goes_on(number)]
        took = time.monotonic() - begun
        ensure(process.returncode == 130 and took <= PROMPT and not left and b"Traceback" not in messages,
               f"class/grade, stopped: status {process.returncode} after {took:.1f} seconds, {left} go on; "
               f"{messages.decode()}")


def goes_on(number: str) -> bool:
    """Whether a process is there, and not only its number, which nobody has asked for yet."""
    try:
        return text_of(f"/proc/{number}/stat").rpartition(") ")[2][0] != "Z"
    except OSError:
        return False
