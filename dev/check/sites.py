"""The site: each block that runs gives what the document prints, in node and in a browser, where its pages also fit,
can be read, searched and used by keys alone."""

from __future__ import annotations

import functools
import html
import json
import os
import re
from collections.abc import Sequence
from pathlib import Path
from typing import Any

from exercises import judging
from pages import rendering
from pages.runnable import has_part
from . import playground
from .browser import Browser, Failed, found
from .running import Differs, Skipped, called, ensure, finished, needed, run, text_of

RUNS = re.compile(r'data-run="([^"]*)"')
CHAPTERS = ("index", "TUTORIAL", "EXERCISES", "FORMATS")         # whose looks are judged
LEAST = 20               # blocks of the tutorial: a page without any would pass
Told = dict[str, Any]


@functools.lru_cache(maxsize=None)
def made() -> str:
    """The folder of the site, made once for all checks, over the module that they share."""
    need_packages()
    module = playground.made()
    to = os.path.join(os.path.dirname(module), "site")
    finished("class/site", called("site", "--to", to, "--module", module))
    return to


def need_packages() -> None:
    """What class/site needs beside Python."""
    if missing := rendering.missing():
        raise Skipped(missing)


def blocks(page: str) -> list[Told]:
    """What runs in a page."""
    return [json.loads(html.unescape(data)) for data in RUNS.findall(text_of(os.path.join(made(), page)))]


def pages() -> list[str]:
    return sorted(path.name for path in Path(made()).glob("*.html") if "data-run" in path.read_text(encoding="utf-8"))


# In node

def in_node(program: str) -> None:
    """Each block of each page, by the worker and the module that the site has. A planted answer is found."""
    needed("node")
    all_blocks = [(page, told) for page in pages() for told in blocks(page) if told["kind"] != "exercise"]
    ensure(sum(page == "TUTORIAL.html" for page, _ in all_blocks) >= LEAST, "the site's tutorial has hardly a block "
           "that runs")
    answered = answers([told for _, told in all_blocks])
    for (page, told), parts in zip(all_blocks, answered):
        if why := wrong(told, shown(told, parts)):
            raise Differs(f"the site, {page}, {told['where']}: {why}")
    planted()


def answers(all_told: Sequence[Told]) -> list[list[Told]]:
    lines = "".join(json.dumps(asked(told)) + "\n" for told in all_told)
    words = ["node", os.path.join(playground.PLAYGROUND, "asked.mjs"), os.path.join(made(), "engine.js")]
    found = [json.loads(line) for line in run(words, lines.encode())[0].splitlines()]
    ensure(len(found) == len(all_told), f"the site's worker answers {len(found)} of {len(all_told)} requests")
    return found


def asked(told: Told) -> Told:
    """What the page asks the worker about a block."""
    if told["kind"] == "script":
        return {"act": "script", "text": told["before"] + "".join(f"{line}\n" for line, _ in told["lines"]),
                "isBrief": True}
    if told["kind"] == "program":
        return {"act": "assembly", "text": told["before"] + told["text"] + told["after"], "steps": told["steps"],
                "seed": told["seed"], "isBrief": True}
    return {"act": "session", "before": told["before"], "files": told["files"],
            "commands": [command for command, _ in told["commands"]]}


def shown(told: Told, parts: Sequence[Told]) -> list[list[str]]:
    """What the worker said, as a page shows it: the answers of lines, the lines of a trace, or what commands write."""
    by_part = {part["part"]: part for part in parts}
    if told["kind"] == "script":
        found, skip = by_part["answers"], told["before"].count("\n")
        rows = found["answers"]
        if found["why"]:
            rows[found["why"]["place"] - 1] = f"bad line {found['why']['place']}"
        return [rows[skip:]]
    if told["kind"] == "program":
        return [by_part["run"]["lines"]]
    return [out["lines"] if not out["failed"] else [out["failed"]] for out in by_part["session"]["outs"]]


def wrong(told: Told, given: Sequence[Sequence[str]]) -> str:
    """How that differs from what the document prints; empty where it doesn't."""
    if told["kind"] == "script":
        due = [answer for _, answer in told["lines"]]
        rows = zip(told["lines"], given[0])
        others = [f"'{line}' gives '{got}', where '{answer}' is printed" for (line, answer), got in rows
                  if answer not in (None, got)]
        return others[0] if others else "" if len(given[0]) >= len(due) else "lines have no answer"
    if told["kind"] == "program":
        return "" if told["due"] is None or has_part(given[0], told["due"]) else "its trace isn't the printed one"
    for (command, due), lines in zip(told["commands"], given):
        same = due is None or list(lines) == due or told["is_piece"] and has_part(lines, due)
        if not same or "this page " in lines[:1]:
            return f"'{command}' gives {list(lines)[:3]}, where {(due or [])[:3]} is printed"
    return ""


def planted() -> None:
    """A printed answer, a line of a trace and a line below a command that are changed are found, each in its block."""
    of_kinds = {told["kind"]: told for told in blocks("TUTORIAL.html") if printed(told)}
    for told in of_kinds.values():
        spoilt = json.loads(json.dumps(told))
        printed(spoilt)[-1][-1] = "another line"
        ensure(wrong(spoilt, shown(spoilt, answers([spoilt])[0])), f"the site: a planted answer of {told['where']} "
               "isn't found")
    ensure(set(of_kinds) == {"script", "program", "session"}, "the site: the tutorial prints only answers of "
           f"{sorted(of_kinds)}")


def printed(told: Told) -> list[list[str]]:
    """What is printed, to be changed in place: pairs of a line and an answer, or lists of lines."""
    if told["kind"] == "script":
        return [pair for pair in told["lines"] if pair[1] is not None]
    if told["kind"] == "program":
        return [told["due"]] if told["due"] else []
    return [out for _, out in told["commands"] if out]


# In a browser

def in_browser(program: str) -> None:
    from . import playing       # which needs what is above
    if not found():
        raise Skipped("no Chromium")
    site = made()
    names = {"SOLUTION": json.dumps(text_of(judging.solutions()["store"])), "SITE": Path(site).as_uri()}
    try:
        with Browser() as browser:
            for page in (page for page in pages() if not page.startswith("example_")):
                pressed(browser, page)
            for title in playing.OF_SITES:
                browser.size(1400, 1000)
                opened(browser, "TUTORIAL.html")
                playing.acted(browser, title, names)
                browser.value("localStorage.clear()")
            for name in CHAPTERS:
                opened(browser, f"{name}.html")
                browser.fits((1400, 400), [RUN_ALL], ".bar button, header")
                browser.media()
    except Failed as failed:
        raise Differs(f"the site in a browser: {failed}") from None


# All blocks of a page are run: those of which nothing is shown are done, too
EACH = '[...document.querySelectorAll(".run:not([data-kind=exercise])")]'
RUN_ALL = (f"do {EACH}.forEach(x => [...x.querySelectorAll('.bar button')]"
           ".find(y => y.textContent === 'Run').click())\n"
           f"{EACH}.every(x => ['same', 'ran'].includes(x.dataset.result)) is true")
# What a block shows, and how to make it forget that
SHOWN = """({script: div => [[...div.querySelectorAll(".answers .row b")].map(x => x.textContent)],
  program: div => [[...div.querySelectorAll(".trace .row b")].map(x => x.textContent)],
  session: div => [...div.querySelectorAll(".out")].map(x => x.textContent ? x.textContent.split("\\n") : [])})"""
FORGET = "div.querySelectorAll('.answers, .trace, .out').forEach(x => { x.textContent = ''; })"


def opened(browser: Browser, page: str) -> None:
    browser.open("about:blank")
    browser.open(Path(made(), page).as_uri())
    browser.due("[...document.querySelectorAll('.run')].every(div => div.dataset.kind)")


def pressed(browser: Browser, page: str) -> None:
    """Presses each Run of a page, after what was shown was taken away, and compares what is shown then."""
    opened(browser, page)
    for at, told in enumerate(blocks(page)):
        if told["kind"] == "exercise":
            continue
        div = f"const div = document.querySelectorAll('.run')[{at}]"
        browser.value(f"(() => {{ {div}; {FORGET}; [...div.querySelectorAll('.bar button')]"
                      ".find(x => x.textContent === 'Run').click(); })()")
        browser.due(f"(() => {{ {div}; return ['', 'busy'].includes(div.dataset.result); }})()", False)
        given = browser.value(f"(() => {{ {div}; return {SHOWN}.{told['kind']}(div); }})()")
        verdict = browser.value(f"(() => {{ {div}; return div.dataset.result; }})()")
        if (why := wrong(told, given)) or verdict != ("same" if printed(told) else "ran"):
            raise Differs(f"the site in a browser, {page}, {told['where']}: {why}; the page says '{verdict}'")
    if browser.errors:
        raise Differs(f"the site in a browser, {page}: {browser.errors[0]}")
