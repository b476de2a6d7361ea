"""The page of class/step and the playground, in a headless Chromium: what data/playing.txt does and tests there,
that a long file doesn't hold the second up, sizes and colours."""

import json
import os
import re
import tempfile
import time
from collections.abc import Iterator

from common import meanings
from common.blocks import blocks
from exercises import judging
from . import pages, playground, sites
from .authors import built_of
from .browser import PAUSE, Browser, Failed, found
from .running import REPOSITORY, Differs, Skipped, ensure, paths, text_of, write

LONG_LINES = 1_100_000           # of "ld 0 0x400000": nearly as many bytes as an input may have
LONGEST_WAIT = 2.0               # seconds in which the page has to answer while the worker is at that
ARGUMENTS = re.compile(r"(?<=[A-Za-z])\([^)]*\):")     # those of a call
ACTS = blocks("data/playing.txt", __file__)
NAMES = dict(line.split(" ", 1) for line in ACTS.pop("names").splitlines())
OF_STEPS = [title for title in ACTS if title.startswith("step:")]
OF_SITES = [title for title in ACTS if title.startswith("site")]
OF_RUNS = [title for title in ACTS if not title.startswith(("step", "site"))]


def of_steps(program: str) -> None:
    """The page of a script, and that of a run."""
    if not found():
        raise Skipped("no Chromium")
    script = os.path.join(REPOSITORY, "examples", "tutorial", "07_grandchild.pip")
    source = os.path.join(REPOSITORY, "examples", "monitor.s")
    acts = [f"key {key}\nat('count').getBoundingClientRect().right <= innerWidth is true" for key in ("Home", "End")]
    with tempfile.TemporaryDirectory() as place:
        image, path = built_of(program, source, place, "monitor.img"), os.path.join(place, "page.html")
        run = pages.stepped(program, image, "140", "1", "--source", source)[0]
        of_script = pages.stepped(program, script)[0]
        for page, anchor, titles in ((of_script, "", OF_STEPS), (run, "#117", ["step of a run"])):
            write(page, path)
            with Browser() as shown:
                shown.size(1280, 900)
                shown.open(f"file://{path}{anchor}")
                for title in titles:
                    acted(shown, title, {})
                shown.fits((1280, 400), acts)
                acted(shown, "sizes", {})


def acted(shown: Browser, title: str, names: dict[str, str]) -> None:
    """Does what is below a title."""
    try:
        shown.play(ACTS.get(title, ""), names)
    except Failed as failed:
        raise Differs(f"in a browser, {title}: {failed}") from None
    if shown.errors:
        raise Differs(f"in a browser, {title}: {shown.errors[0]}")


def in_browser(program: str) -> None:
    if not found():
        raise Skipped("no Chromium")
    path = os.path.join(sites.made(), "playground.html")
    answered = [script for script in playground.scripts() if os.path.exists(script[:-len("pip")] + "out")]
    checked = len(answered) + len(paths("examples/*.run"))
    names = {**NAMES, "COUNT": str(checked), "NO_TABLE": meanings.of_status(9),
             "SOLUTION": text_of(judging.solutions()["store"]), "SERVICES": text_of("examples/timer_and_services.s")}
    try:
        with Browser() as shown:
            for title in [*OF_RUNS, "meanings of answers", "a long file", "sizes"]:
                shown.size(1400, 1000)
                shown.begin(f"file://{path}")
                if title == "meanings of answers":
                    meanings_of_answers(shown, answered)
                elif title == "a long file":
                    long_file(shown)
                elif title == "sizes":
                    sizes(shown)
                acted(shown, title, names)
                shown.value("localStorage.clear()")
    except Failed as failed:
        raise Differs(f"the page in a browser: {failed}") from None


def meanings_of_answers(shown: Browser, scripts: list[str]) -> None:
    """Each answer of the examples has a meaning: that of the other tools, and of a call its arguments, too."""
    pairs = sorted({pair for script in scripts for pair in answered(script)})
    told = json.loads(shown.value(f"JSON.stringify({json.dumps(pairs)}.map(([line, answer]) => means(line, answer)))"))
    for (line, answer), said in zip(pairs, told):
        if not said or ARGUMENTS.sub(":", said) != (meanings.of_answer(answer, line) or said):
            raise Differs(f"the page in a browser: {line!r} with {answer!r} means {said!r}, where "
                          f"{meanings.of_answer(answer, line)!r} is due")


def answered(script: str) -> Iterator[tuple[str, str]]:
    lines = [line for line in text_of(script).split("\n") if line and not line.startswith("#")]
    return zip(lines, text_of(script[:-len("pip")] + "out").splitlines())


def long_file(shown: Browser) -> None:
    """It doesn't hold the page up."""
    shown.value(f"""(() => {{ const files = new DataTransfer(), open = document.getElementById("open");
        files.items.add(new File(["boot 32 1\\n" + "ld 0 0x400000\\n".repeat({LONG_LINES})], "long.pip"));
        open.files = files.files; open.dispatchEvent(new Event("change")); }})()""")
    shown.due("Boolean(large)")
    longest = 0.0
    while shown.value("Boolean(pending.asked)"):
        begun = time.monotonic()
        shown.value("document.body.offsetHeight")
        longest = max(longest, time.monotonic() - begun)
        time.sleep(PAUSE)
    shown.due(f"$('#status').includes('{LONG_LINES + 1} lines of answers')")
    ensure(longest <= LONGEST_WAIT, f"the page in a browser waits {longest:.1f} seconds while a long file is read")


# Whether the answer that is shown is whole and in view
WHOLE = "[...document.querySelectorAll('.row.here')].map(row => row.scrollWidth <= row.clientWidth && " \
    "row.getBoundingClientRect().bottom <= at('answers').getBoundingClientRect().bottom).join()"


def sizes(shown: Browser) -> None:
    """With a bad line and without."""
    child = NAMES["CHILD"]
    above = "boot 64 1\\n" + "# above\\n" * 12 + child.split("\\n", 1)[1]
    for text, line in ((child + "ld 0 00\\n", 2), (above + "call 0 5 0x401000 0x401000 0x10000000 3\\n", 15)):
        shown.put(f"{line} {text}")
        shown.value("document.getElementById('choice').value = 'exercise map', drawExercise(), judgeText()")
        shown.due("$('#verdict') !== ''")
        shown.fits((1400, 400, 360), [f'do act()\n{WHOLE} is "true"'])
        shown.media()
