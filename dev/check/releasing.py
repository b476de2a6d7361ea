"""A release of these sources works where there is neither kit nor cargo."""

import os
import re
import shutil
import subprocess
import sys
import tarfile
import tempfile
from typing import Any

from common import calling
from . import sites
from .exporting import SECONDS
from .running import REPOSITORY, contents, ensure, expect, finished, needed, run, text_of, write, write_program

VERSION = text_of("VERSION").strip()
GATE = "#!/bin/sh\ncp {program} crates/pip/out/pip\ncp {lab} crates/pip_lab/out/pip_lab\necho '1 passed, 0 failed'\n"
# Stands in for the kit, which prints its line, and for the page's module
RT = "#!/bin/sh\necho a kit\n"
MODULE = b"\0asm"
LEFT_OUT = shutil.ignore_patterns("out", ".git", "__pycache__", "*.log")


def works(program: str) -> None:
    """Makes a release of a copy of the checkout, whose gate is a stand-in, and uses it elsewhere as a reader would."""
    needed("git")
    sites.need_packages()
    with tempfile.TemporaryDirectory() as place:
        checkout, tools = os.path.join(place, "checkout"), os.path.join(place, "bin")
        copied(checkout, program, tools)
        to, environment = os.path.join(place, "to"), dict(os.environ, PATH=tools + os.pathsep + os.environ["PATH"])
        for words in (["--gate"], [VERSION, "--to", to, "--module", os.path.join(place, "module")]):
            finished("dev/release", [sys.executable, "-B", os.path.join(checkout, "dev", "release"), *words], SECONDS,
                     cwd=checkout, env=environment)
        with tarfile.open(os.path.join(to, f"pip-{VERSION}.tar.gz")) as archive:
            archive.extractall(os.path.join(place, "reader"))
        shutil.rmtree(checkout)
        used(program, os.path.join(place, "reader", f"pip-{VERSION}"), os.path.join(place, "plain"))


def copied(checkout: str, program: str, tools: str) -> None:
    """A commit of what is checked out here, beside stand-ins."""
    shutil.copytree(REPOSITORY, checkout, ignore=LEFT_OUT, symlinks=True)
    for name in ("pip", "pip_lab"):
        os.makedirs(os.path.join(checkout, "crates", name, "out"))
    gate = GATE.format(program=program, lab=os.path.abspath(calling.lab(program)))
    for path, text in ((os.path.join(checkout, ".ci", "run"), gate),
                       (os.path.join(tools, "rt"), RT)):
        write_program(text, path)
    write(MODULE, os.path.dirname(checkout), "module")
    for words in (["init", "-q"], ["add", "-A"], ["-c", "user.name=a", "-c", "user.email=a@b", "commit", "-qm", "all"]):
        finished("git", ["git", *words], SECONDS, cwd=checkout)


def used(program: str, place: str, tools: str) -> None:
    """Runs a release with what any machine has, and with no kit and no cargo in the PATH."""
    os.mkdir(tools)
    for name in ("sh", "cat", "awk", "find", "head", "readlink", "dirname", "grep", "sed", "sha256sum"):
        os.symlink(needed(name), os.path.join(tools, name))
    os.symlink(sys.executable, os.path.join(tools, "python3"))
    os.symlink("/usr/bin/env", os.path.join(tools, "env"))
    settings: dict[str, Any] = {"cwd": place, "env": {"PATH": tools}}
    due = contents(place, "examples", "first.out")
    expect("./pip of a release", run(["sh", "-c", "./pip script < examples/first.pip"], **settings), (due, 0))
    expect("./lab of a release", run(["sh", "-c", "./lab merge < /dev/null"], **settings),
           run([calling.lab(program), "merge"]))
    told, _ = run(["sh", "-c", "./pip --version"], stderr=subprocess.DEVNULL, **settings)
    ensure(re.search(rb"^commit [0-9a-f]{40}\n", told, re.M) and told.endswith(b"\nproved\n"), "./pip --version of a "
           f"release says {told!r}")
    for words in ("class/exercise store examples/solutions/store.pip", "tools/debug examples/monitor.s --list 5",
                  "tools/every examples/two_guests.s 2000 --until 'reply 14'"):
        told, status = run(["sh", "-c", words], **settings)
        ensure(not status, f"{words} of a release ends with {status}: {told!r}")
    expect("the checksums of a release",
           run(["sh", "-c", "grep -E '^[0-9a-f]{64}  ' PROOF | sha256sum --check --quiet"], **settings), (b"", 0))
    for name in ("site/index.html", "site/TUTORIAL.html", "site/engine.js", "rust/Cargo.toml",
                 "rust/crates/pip/src/main.rs"):
        ensure(os.path.isfile(os.path.join(place, name)), f"a release has no {name}")
