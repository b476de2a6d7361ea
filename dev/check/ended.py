"""What a tool does that can't do its work: where its output can't be written, at Ctrl-C, and in a checkout in which
nothing is built. It says so in one line, with a status that says nothing of the work."""

import os
import signal
import subprocess
import sys
import tempfile
import time

from common import calling
from .running import (SECONDS, called, copied, ensure, expect, finished, folders_of, heed_interrupts, stand_ins, tool,
                      write_program)

MAP = "examples/solutions/map.pip"
TREE = b"part 1 depth 0 up 1 born 0x00000000 tables 0 rows 0\n"      # for those that read
TOOLS = (("exercise", "map", MAP), ("exercise", "--list"), ("grade", "examples"), ("asmx", "--check", MAP),
         ("asmx", "examples/monitor.s"),
         ("every", "examples/restart.s", "1000"),
         ("step/step", MAP), ("common/draw/draw.py", "tree"), ("check/run.py", "--list"))


def full_devices(program: str) -> None:
    """Each tool that writes ends on a full device with status 2, and says so in one line."""
    for name, *words in TOOLS:
        with open("/dev/full", "wb") as full:
            _, messages, status = tool(program, name, *words, text=TREE, stdout=full)
        ensure(status == 2 and "No space left on device" in "".join(messages.splitlines()[-1:]), f"{name} "
               f"{' '.join(words)} on a full device: status {status}, {messages[-300:]}")


def interrupted(program: str) -> None:
    """Ctrl-C ends a tool that waits for its input, and checks with the programs for which they wait."""
    with tempfile.TemporaryDirectory() as place:
        waits = stand_ins(place, f"#!/bin/sh\nexec sleep {SECONDS}\n", program)
        stop("asmx", ("--check", "-"), program)
        ensure("choices or fewer" in stop("every", ("examples/two_guests.s", "100000000"), program),
               "every at Ctrl-C doesn't say what it covers")
        stop("check/run.py", ("--only", "commands", "--program", waits), program)


def stop(name: str, words: tuple[str, ...], program: str) -> str:
    """Begins a tool that goes on until it is stopped, sends it Ctrl-C, and answers what it wrote."""
    at = time.monotonic()
    tool(program, name, "--help")
    start = time.monotonic() - at               # what a tool needs before it can answer, on this machine now
    begun = subprocess.Popen(called(name, *words, program=program), stdin=subprocess.PIPE, stdout=subprocess.PIPE,
                             stderr=subprocess.PIPE, preexec_fn=heed_interrupts, start_new_session=True)
    try:
        begun.wait(1 + 3 * start)
    except subprocess.TimeoutExpired:
        os.killpg(begun.pid, signal.SIGINT)
    output, messages = (told.decode() for told in begun.communicate(timeout=SECONDS))
    ensure(begun.returncode == 130 and "stopped" in messages and len(messages.splitlines()) == 1, f"{name} at Ctrl-C: "
           f"status {begun.returncode}, {messages[-300:]}")
    return output


# Nothing is built: no tool begins a proof

PARTS = ("tools", "class", "dev", "examples", "docs", "pip", "lab", "VERSION", "crates.txt", "README.md")
IMAGE = b"PIPIMG2\n"
# Each tool that needs a program, with words and an input with which it comes to need it.
NEEDING = (("asmx", "examples/monitor.s", "--image", "/dev/null"), ("asmx", "--check", "examples/first.pip"),
           ("every", "-", "10"), ("shell", "examples/first.pip"),
           ("debug", "examples/monitor.s"), ("step/step", "examples/first.pip"),
           ("check/run.py", "--only", "endings"))
SESSIONS = "from check import documents; documents.blocks_that_run({program!r})"
RT = "#!/bin/sh\necho begun >> \"$PROOFS\"\nexit 1\n"


def nothing_is_proved(program: str) -> None:
    with tempfile.TemporaryDirectory() as place:
        copied(place, *PARTS)
        path = os.path.join(place, "bin")
        write_program(RT, path, "rt")
        environment = {**os.environ, "PATH": path + os.pathsep + os.environ["PATH"],
                       "PROOFS": os.path.join(path, "begun")}
        environment.pop("PIP", None)
        environment.pop("LAB", None)
        for name, *words in NEEDING:
            for option, due in (((), "no program is here, as new as the sources: "),
                                (("--unproved",), "no program that cargo built is here")):
                _, messages, status = tool(None, name, *words, *option, text=IMAGE, place=place, env=environment)
                ensure(status == 2 and messages.count("\n") == 1 and due in messages, f"{name} {' '.join(words)}, "
                       f"where nothing is built: status {status}, {messages}")
        finished("the sessions of the documents with a program, where nothing is built",
                 [sys.executable, "-B", "-c", SESSIONS.format(program=os.path.abspath(program))], cwd=place,
                 env={**environment, "LAB": os.path.abspath(calling.lab(program)),
                      "PYTHONPATH": os.pathsep.join(folders_of(place))})
        expect("proofs that were begun", (None, len(os.listdir(path))), (None, 1))
