"""The gate itself, .ci/run: it doesn't pass where a tool that it can't do without is missing, or the kit is another
than the one of docs/PROVED.md, and its status is that of its first part that fails."""

from __future__ import annotations

import os
import shutil
import subprocess
import tempfile
from collections.abc import Sequence
from typing import Any

from .running import contents, copied, ensure, needed, part, same, text_of, write, write_program

KIT = r"- The Rattle kit, `([^`]*)`"
TOOLS = r'needed="([^"]*)"'
# What any machine has, and .ci/run calls
PLAIN = ("sh", "sed", "mktemp", "touch", "rm", "dirname")
# What the stand-ins do: rt says its kit, or proves; python3 makes the checks
RT = '[ "$1" = ci ] || {{ echo "{kit}"; exit; }}\necho proves'
CHECKS = 'shift 4; echo checks "$@"'
PART = "#!/bin/sh\n{said}\nexit {status}\n"


def gate(program: str) -> None:
    """Each way in which it ends, over stand-ins for its parts."""
    kit = part(KIT, text_of("docs/PROVED.md"))
    same("the kit of README.md", f"`{kit}`" in text_of("README.md"), True)
    tools = part(TOOLS, text_of(".ci/run")).split()
    for missing in tools:
        status, told = ended(kit, [tool for tool in tools if tool != missing])
        ensure(status == 3 and f"needs {missing}:" in told, f"without {missing} the gate ends with {status} and says "
               f"{told!r}")
    cases: tuple[tuple[str, int, str, dict[str, Any]], ...] = (
        ("another kit", 3, "'another kit'", {"kit": "another kit"}),
        ("no kit's line", 3, "''", {"kit": ""}),
        ("rt ci fails", 5, "proves", {"proves": 5}),
        ("a check fails", 1, "checks --all", {"checks": 1, "words": ["--all"]}),
        ("all pass", 0, "checks", {}),
        ("a tool can't be installed", 3, "needs gcc:", {"installs": 1, "tools": [it for it in tools if it != "gcc"]}),
        ("it is tried", 3, "installs", {"installs": 1, "tools": [it for it in tools if it != "gcc"]}),
        ("nothing is to be installed", 0, "checks", {"installs": 0}),
    )
    for what, due, said, given in cases:
        settings: dict[str, Any] = {"kit": kit, "tools": tools, **given}
        status, told = ended(**settings)
        ensure(status == due and said in told, f"{what}: the gate ends with {status}, where {due} is due, and says "
               f"{told!r}")


def ended(kit: str, tools: Sequence[str], proves: int = 0, checks: int = 0, installs: int | None = None,
          words: Sequence[str] = ()) -> tuple[int, str]:
    """How .ci/run ends and what it says, where these tools are, and its parts end so; it runs as on CI, if one of them
    is to install."""
    with tempfile.TemporaryDirectory() as place:
        top, tools_at = os.path.join(place, "top"), os.path.join(place, "bin")
        copied(top, "docs/PROVED.md")
        write_program(contents(".ci", "run").decode(), top, ".ci", "run")
        write_program(PART.format(said="echo installs", status=installs or 0), top, "dev", "install")
        for crate in ("pip", "pip_lab"):
            write("", top, "crates", crate, "out", crate)
        os.mkdir(tools_at)
        for tool in PLAIN:
            os.symlink(needed(tool), os.path.join(tools_at, tool))
        parts = {"rt": (RT.format(kit=kit), proves), "python3": (CHECKS, checks)}
        for tool in tools:
            said, status = parts.get(tool, ("", 0))
            write_program(PART.format(said=said, status=status), tools_at, tool)
        environment = {"PATH": tools_at, **({} if installs is None else {"CI": "true"})}
        done = subprocess.run([shutil.which("sh") or "sh", os.path.join(top, ".ci", "run"), *words], env=environment,
                              stdin=subprocess.DEVNULL, stdout=subprocess.PIPE, stderr=subprocess.STDOUT)
        return done.returncode, done.stdout.decode("utf-8", "replace")

