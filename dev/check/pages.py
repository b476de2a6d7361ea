"""class/step: the pages of the examples are what program and reference say, and hostile input is refused."""

import json
import os
import re
import subprocess
import tempfile
from typing import Any

from common.machine.model import World
from common.machine import image as reference_image, runs, script
from .authors import built_of, liar
from .running import (REPOSITORY, SECONDS, Differs, contents, ensure, part, paths, run, same, says, session, text_of,
                      told_path, tool)

MOST_LINES = 60          # of a script: a longer one may have too many tables


def stepped(program: str, *words: str, text: bytes = b"") -> tuple[str, str, int]:
    """Output, messages and status of class/step."""
    return tool(program, "step/step", *words, text=text)


def data_of(page: str) -> Any:
    return json.loads(part('<script type="application/json" id="data">(.*?)</script>', page))


def pages(program: str) -> None:
    for path in paths("examples/*.pip") + paths("examples/tutorial/*.pip"):
        script_page(program, path)
    with tempfile.TemporaryDirectory() as place:
        for name, steps in (("monitor", 130), ("hostile", 150)):
            run_page(program, name, steps, os.path.join(place, name + ".img"))
        names_of_a_run(program, place)
    hostile(program)


def script_page(program: str, path: str) -> None:
    """The page of a script has the program's answers, and after each line the tree that the reference has."""
    name = told_path(path)
    page = says(program, ("step/step", path, "--to", str(MOST_LINES)), kind=">")
    ensure(not re.search(r"(src|href)=|url\(|https?:", page), f"class/step {name}: the page loads something from "
           "elsewhere")
    data = data_of(page)
    answers = [step["answer"] for step in data["steps"]]
    due = run([program, "script"], contents(path))[0].decode().splitlines()
    ensure(answers == due[:len(answers)] and len(answers) >= min(len(due), MOST_LINES // 2), f"class/step {name}: the "
           "answers aren't the program's")
    told = script.Script()
    steps = iter(enumerate(data["steps"]))
    for line in script.lines(contents(path))[:MOST_LINES]:
        try:
            if told.line(line) is not None:
                what, (at, step) = f"class/step {name}, '{line.decode()}'", next(steps)
                assert told.world is not None
                same_state(what, data, step, told.world)
                same_words(what, data, at, told.world)
        except script.Bad:
            break


def same_state(what: str, data: Any, step: Any, world: World) -> None:
    """A state of a page is the reference's: the tree, what runs, with its registers, and the words of each page."""
    partitions = [data["partitions"][place] for place in data["trees"][step["tree"]]]
    due = [line.split(" ") for line in runs.tree_lines(world.tree)]
    rows = [f"row 0x{4096 * row[0]:08x} {row[1] // 4096}" for x in partitions for row in x["rows"]]
    ensure(rows == [" ".join(words[:3]) for words in due if words[0] == "row"], f"{what}: the page's rows aren't the "
           "reference's")
    for x, words in zip(partitions, (words for words in due if words[0] == "part")):
        told = [str(x["name"]), str(x["depth"]), str(x["up"]), f"0x{x['born']:08x}"]
        told += [str(len(x["tables"])), str(len(x["rows"]))]
        same(f"{what}: the page's partition", told, words[1::2][:1] + words[3::2])
    for (name, place), at in zip(step["cpus"], world.processors):
        registers = None if place is None else data["registers"][place]
        runs_there = (at.name, list(at.context.registers) + [at.context.pc]) if at else (0, None)
        same(f"{what}: what a processor runs", (name, registers), runs_there)


def same_words(what: str, data: Any, at: int, world: World) -> None:
    """The words of each frame that is no configuration are those of the reference."""
    for frame, due in world.tree.words.items():
        found = [place for since, place in data["words"].get(str(frame), []) if since <= at]
        told = {int(index): word for index, word in data["contents"][found[-1]].items()} if found else {}
        same(f"{what}: the words of frame {frame}", told, due)


def run_page(program: str, name: str, steps: int, path: str) -> None:
    """The page of a run has the program's lines at their steps, and what runs as the reference has it."""
    image = contents(built_of(program, f"examples/{name}.s", path))
    data = data_of(says(program, ("step/step", path, str(steps), "1"), kind=">"))
    lines = [f"{step['place'] - 1} {step['answer']}" for step in data["steps"] if step["answer"]]
    ensure(lines == run([program, "run", str(steps), "1"], image)[0].decode().splitlines()[1:-1], "class/step of "
           f"{name}: the lines aren't those of 'run'")
    world = runs.steps(reference_image.read(image), steps, 1, lambda line: None)
    same_words(f"class/step of {name}", data, steps, world)
    same_state(f"class/step of {name}", data, data["steps"][-1], world)


def names_of_a_run(program: str, place: str) -> None:
    """The page of a run has the names of a source; another source is warned of, and other lines are refused."""
    source, path = os.path.join(REPOSITORY, "examples", "monitor.s"), os.path.join(place, "monitor.img")
    for words, due, said in ((("--source", source), "0x00400044 next_turn+2: stw r8 r15 0", ""),
                             ((), "0x00400044: stw r8 r15 0", ""),
                             (("--source", source.replace("monitor", "hostile")), "stw r8 r15 0",
                              "isn't the source of this image")):
        page, messages, status = stepped(program, path, "130", "1", "--from", "110", *words)
        step = next(step for step in data_of(page)["steps"] if step["told"] == "step 115")
        if status or not step["did"].endswith(due) or said not in messages or not said and messages:
            raise Differs(f"class/step of a run, {words}: status {status}, {step['did']!r}, {messages!r}")
    says(liar(program, place, "s/ out 0x0/ out 0x1/"), ("step/step", path, "200", "1", "--from", "190"), 2,
         "has other lines than the program", kind="!")


def hostile(program: str) -> None:
    """Input that is no script or image, or means harm to the page."""
    session("step", program)
    page, messages, status = stepped(program, "-", text=b"# </script><img src=x>\nboot 16 1\n# \xff\nld 0 0\n<b>\n")
    data = data_of(page)
    ensure(not status and [step["answer"] for step in data["steps"]] == ["boot 16 1", "park 1 14", "bad line 5"],
           f"class/step, with marks in the text: status {status}, {messages!r}")
    says("/nonexistent", ("step/step", "-"), 2, "can't be run", text=b"boot 16 1\n")


# The teacher's loop

def teachers_loop(program: str) -> None:
    """The loop of docs/TEACHING.md makes a page of each chapter, and leaves nothing in the checkout."""
    text = text_of("docs/TEACHING.md")
    commands = [line.strip() for line in text.splitlines() if line.startswith("      ") and "PAGES" in line]
    folders = (REPOSITORY, os.path.join(REPOSITORY, "examples", "tutorial"))
    before = [sorted(os.listdir(folder)) for folder in folders]
    with tempfile.TemporaryDirectory() as place:
        done = subprocess.run(["sh", "-c", "\n".join(commands)], cwd=REPOSITORY, timeout=SECONDS,
                              stderr=subprocess.PIPE, env=dict(os.environ, PIP=program, PAGES=place))
        made = sorted(os.listdir(place))
        is_page = all(contents(os.path.join(place, name)).startswith(b"<!doctype html>") for name in made)
    due = [os.path.basename(path)[:-4] + ".html" for path in paths("examples/tutorial/[0-9]*.pip")
           if "answer" not in path]
    ensure(not done.returncode and made == due and len(due) >= 10 and is_page, "the loop of docs/TEACHING.md makes "
           f"{made}, where {due} are due: {done.stderr.decode()[-200:]}")
    ensure([sorted(os.listdir(folder)) for folder in folders] == before, "the loop of docs/TEACHING.md leaves "
           "something in the checkout")
