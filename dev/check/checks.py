"""The repository's own checks of the built program. The list of them is CHECKS.

    dev/check/run.py [--only NAME ..] [--but NAME ..] [--all] [--program PATH | --unproved] [--list] [--write-calls]
                       [--write-meanings] [--write-index]

The status is 0 if none fails, and 1 if one does; each that fails says why. One for which a tool is missing is skipped:
the last line names it, and with --all it fails."""

from __future__ import annotations

import argparse
import os
import signal
import subprocess
import time

from common import calling
from . import (any_programs, authors, beside, certificates, cheats, corners, counters, documents, ended, endings,
               examples, exercises, exporting, gate, grading, guests, house, links, meanings, pages, playground,
               playing, public_calls, releasing, shells, sites, sources, tools, wrapper, wrong_bodies)
from .running import Check, Differs, Skipped

# A name, and its parts: functions that are given the program's path and raise Differs if something is wrong, or Skipped
# if a tool is missing.
CHECKS: dict[str, Check | tuple[Check, ...]] = {
    "endings": endings.endings,
    "refused-memory": endings.refused_memory,
    "answering": (endings.typed_script, endings.gathered_answers),
    "streams": (endings.asked_once, endings.ended_once),
    "documents": (documents.blocks_are_told, documents.blocks_that_run, documents.tutorial_blocks, links.links,
                  links.index, meanings.same),
    "gate": gate.gate,
    "step-counters": counters.step_counters,
    "house": (house.house, sources.ghost_imports),
    "public-calls": public_calls.public_calls,
    "edits": wrong_bodies.edits,
    "drawn-edits": wrong_bodies.drawn_edits,
    "versions": house.versions,
    "types": tools.types,
    "examples": (examples.examples, examples.programs, examples.retries, examples.monitor, documents.tutorial_sessions),
    "searches": examples.searches,
    "every-program": (examples.every_program, any_programs.any_programs),
    "certificates": certificates.certificates,
    "hostile-guests": guests.hostile_guests,
    "wrapper": (wrapper.wrapper, wrapper.in_turn, ended.nothing_is_proved),
    "unit-tests": tools.unit_tests,
    "pictures": tools.pictures,
    "authors": (authors.preprocessor, authors.reasons, authors.traces, authors.interleavings),
    "debugger": (tools.debugger, tools.language_server),
    "shell": (shells.session_of_the_page, shells.costs_nothing, shells.keeps_files, shells.each_example,
              shells.on_a_terminal),
    "exercises": exercises.solutions,
    "exercise-seeds": exercises.by_seeds,
    "cheats": cheats.cheats,
    "grade": grading.grades,
    "tools-ended": (ended.full_devices, ended.interrupted),
    "step-pages": (pages.pages, pages.teachers_loop),
    "step-browser": playing.of_steps,
    "export": exporting.text,
    "export-cargo": (exporting.by_cargo, exporting.unproved),
    "export-registry": exporting.of_registry,
    "export-clippy": exporting.clippy,
    "export-miri": exporting.miri,
    "playground": (playground.module, playground.states, playground.runs, playground.reasons, playground.judge),
    "playground-browser": playing.in_browser,
    "site": (sites.in_node, sites.in_browser),
    "release": releasing.works,
    "commands": (corners.corners, *(tools.compared(command, cases) for command, cases in tools.CASES.items())),
    "audits": (corners.round_trips, corners.each_word),
    "plain-program": beside.plain,
    "counts": beside.counts,
}


# seconds of a part of a check. More means that it waits for what never comes, as for a process that was killed for
# memory
LONGEST = 2400


def made(name: str, check: Check | tuple[Check, ...], program: str) -> tuple[str, str]:
    """Makes all parts of a check. The answer is how it ended (ok, skipped or fails), and why parts were skipped."""
    begun = time.monotonic()
    missing: dict[str, None] = {}
    signal.signal(signal.SIGALRM, is_too_long)
    for part in check if isinstance(check, tuple) else (check,):
        signal.alarm(LONGEST)
        try:
            part(program)
        except Skipped as skipped:
            missing[str(skipped)] = None
        except (Differs, calling.Failed, OSError, subprocess.SubprocessError) as found:
            return told(name, "fails", f": {found}"), ""
        finally:
            signal.alarm(0)
    why = ", ".join(missing)
    return told(name, "skipped" if why else "ok", f": {why}" if why else f", {time.monotonic() - begun:.1f} s"), why


def is_too_long(*_: object) -> None:
    raise Differs(f"it isn't done after {LONGEST} seconds")


def told(name: str, ending: str, more: str) -> str:
    print(f"check {name}: {ending}{more}", flush=True)
    return ending


def main() -> None:
    calling.guarded("check", checked)


def checked() -> int:
    parser = argparse.ArgumentParser(description="Checks the built program.")
    parser.add_argument("--only", nargs="+", choices=CHECKS, metavar="NAME", help="these checks alone")
    parser.add_argument("--but", nargs="+", choices=CHECKS, metavar="NAME", default=[], help="all but these")
    calling.take_program(parser)
    parser.add_argument("--all", action="store_true", help="one that is skipped fails")
    parser.add_argument("--list", action="store_true", help="print the names of the checks")
    parser.add_argument("--write-calls", action="store_true",
                        help="write public_calls.txt as the sources have its calls")
    parser.add_argument("--write-meanings", action="store_true",
                        help="write meanings.json as the documents have its rows")
    parser.add_argument("--write-index", action="store_true",
                        help="write the lines of examples/README.md as the files have their remarks")
    given = parser.parse_args()
    if given.list:
        print("\n".join(CHECKS))
        return 0
    if given.write_calls:
        public_calls.rewrite()
        return 0
    if given.write_meanings:
        meanings.rewrite()
        return 0
    if given.write_index:
        links.rewrite()
        return 0
    program = os.path.abspath(calling.direct(given.program))
    names = [name for name in given.only or CHECKS if name not in given.but]
    return summed_up({name: made(name, CHECKS[name], program) for name in names}, given.all, given.but)


def summed_up(endings: dict[str, tuple[str, str]], is_all: bool, but: list[str]) -> int:
    """Says which checks failed, which were skipped and which were left out, and answers the status."""
    failed = [name for name, (ending, _) in endings.items() if ending == "fails"]
    skipped = [f"{name} ({why})" for name, (ending, why) in endings.items() if ending == "skipped"]
    if failed:
        print(f"check: {len(failed)} of {len(endings)} checks fail: {', '.join(failed)}")
    else:
        print(f"check: {len(endings) - len(skipped)} of {len(endings)} checks pass")
    if skipped:
        print(f"check: {len(skipped)} skipped: {', '.join(skipped)}")
    if but:
        print(f"check: {len(but)} left out: {', '.join(but)}")
    return int(bool(failed or is_all and skipped))
