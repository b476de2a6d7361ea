"""The gate, run with a record of what it was run on and how it ended. A release reads the record."""

from __future__ import annotations

import json
import re
import subprocess
import sys
import time
from dataclasses import asdict, dataclass
from typing import IO

from common.calling import Failed, ensure
from . import repository
from .repository import Checkout

CLOSING = re.compile(r"\d+ passed, \d+ failed|check: ")     # the last line of `rt ci`, and those that sum up the checks
OF_PAGE = ("playground", "playground-browser", "site")       # checks that need the site's module
RUN_IT = "say dev/release --gate first, which runs .ci/run --all"


@dataclass(frozen=True)
class Record:
    """A run of the gate. `programs` are the SHA-256 of what it built, by the paths of those that are there."""

    commit: str
    tree: str
    kit: str | None
    begun: str
    ended: str
    status: int
    closing: list[str]
    programs: dict[str, str]


def run(found: Checkout, no_page: bool = False) -> int:
    """Runs .ci/run --all over a clean checkout, without the checks of the site if none is wanted, shows what it says,
    keeps a record, and answers the gate's status."""
    found.need_clean()
    found.record.parent.mkdir(parents=True, exist_ok=True)
    found.record.unlink(missing_ok=True)
    commit, tree, begun = found.commit(), found.tree(), now()
    with open(found.record.with_suffix(".log"), "wb") as log:
        status, lines = shown(found, log, ["--all", *(["--but", *OF_PAGE] if no_page else [])])
    found.need_clean()
    ensure(found.tree() == tree, "another commit was checked out while the gate ran: that run counts for nothing")
    told = Record(commit, tree, repository.kit(), begun, now(), status, closing(lines), found.sums())
    found.record.write_text(json.dumps(asdict(told), indent=1) + "\n", encoding="utf-8")
    return status


def shown(found: Checkout, log: IO[bytes], words: list[str]) -> tuple[int, list[str]]:
    """The status of the gate, and its lines, which are passed on as they come."""
    lines = []
    with subprocess.Popen([str(found.place / ".ci" / "run"), *words], stdin=subprocess.DEVNULL, stdout=subprocess.PIPE,
                          stderr=subprocess.STDOUT) as gate:
        assert gate.stdout is not None
        for line in gate.stdout:
            log.write(line)
            sys.stdout.buffer.write(line)
            sys.stdout.buffer.flush()
            lines.append(line.decode("utf-8", "replace").rstrip("\n"))
    return gate.returncode, lines


def closing(lines: list[str]) -> list[str]:
    """The lines by which the gate's parts end; the last line where there is none."""
    return [line for line in lines if CLOSING.match(line)] or lines[-1:]


def now() -> str:
    return time.strftime("%Y-%m-%d %H:%M:%S UTC", time.gmtime())


def passed(found: Checkout) -> Record:
    """The record of a gate that passed on what is checked out and built the programs, or a reason to refuse."""
    record = read(found)
    ensure(record.tree == found.tree(), f"the gate ran on commit {record.commit[:12]}, which has other files: {RUN_IT}")
    if record.status:
        raise Failed(f"the gate ended with status {record.status}: "
                     f"{record.closing[-1] if record.closing else 'it said nothing'}")
    if record.kit is None or repository.kit() not in (None, record.kit):
        raise Failed(f"the gate ran with the kit {record.kit}, and {repository.kit()} is here: {RUN_IT}")
    sums = found.sums()
    for path in repository.PROVED:
        if path not in sums:
            raise Failed(f"there is no program at {found.place / path}")
        if sums[path] != record.programs.get(path):
            raise Failed(f"{found.place / path} isn't the program that the gate built: {RUN_IT}")
    return record


def read(found: Checkout) -> Record:
    try:
        return Record(**json.loads(found.record.read_text(encoding="utf-8")))
    except FileNotFoundError:
        raise Failed(f"no run of the gate is recorded here: {RUN_IT}") from None
    except (ValueError, TypeError):
        raise Failed(f"{found.record} is no record of a gate: {RUN_IT}") from None
