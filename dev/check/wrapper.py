"""./pip and ./lab build where they have to, say so in one sentence, and run the program. Stand-ins for `rt` and `cargo`
build here, in a small checkout."""

from __future__ import annotations

import os
import re
import shutil
import signal
import subprocess
import sys
import tempfile
from typing import Any, IO

from common import calling
from common.blocks import blocks
from .running import (REPOSITORY, SECONDS, ensure, heed_interrupts, needed, part, run, same, text_of, wait_until, write,
                      write_program)

Process = subprocess.Popen[bytes]
Ended = tuple[str, str, int, int]    # output, messages and status of ./pip, and how often it built

SOURCES = ("crates/pip/src/main.rt", "crates/pip_base/specs/Words.antt", "crates/pip_base/proofs/Lib.antt",
           "crates.txt")
FOLDERS = ("bin", "crates/pip/src", "crates/pip_lab/src", "crates/pip_base/specs", "crates/pip_base/proofs",
           "dev/exporter", "dev/reference", "tools/common")
# The wrappers, and the script that serves both.
WRAPPERS = ("pip", "lab", "VERSION",
            *(f"tools/common/{name}" for name in ("program.sh", "progress.awk", "pip.txt", "lab.txt")))


class Checkout:
    """A checkout with ./pip and a few sources, whose `rt` and `cargo` are stand-ins."""

    def __init__(self, place: str) -> None:
        self.place = place
        self.builds = 0
        for name in FOLDERS:
            os.makedirs(self.path(name))
        for name in WRAPPERS:
            shutil.copy(os.path.join(REPOSITORY, name), self.path(name))
        for name in SOURCES:
            self.touch(name, 1000)
        for name, text in blocks("data/standins.txt", __file__).items():
            (write_program if name.startswith("bin/") else write)(text, place, name)
        for name in ("crates.txt", "dev/export", *FOLDERS[1:]):
            os.utime(self.path(name), (1000, 1000))

    def path(self, name: str) -> str:
        return os.path.join(self.place, name)

    def touch(self, name: str, seconds: float | None = None) -> None:
        with open(self.path(name), "a"):
            pass
        os.utime(self.path(name), None if seconds is None else (seconds, seconds))

    def begin(self, *words: str, command: str | None = None, path: str | None = None, stderr: int = subprocess.PIPE,
              stdout: int | IO[bytes] = subprocess.PIPE, cwd: str | None = None, **settings: str) -> Process:
        environment = dict(os.environ, COUNT=self.path("count"), **settings)
        environment["PATH"] = path or self.path("bin") + os.pathsep + environment["PATH"]
        return subprocess.Popen([command or self.path("pip"), *words], env=environment, cwd=cwd,
                                stdin=subprocess.DEVNULL,
                                stdout=stdout, stderr=stderr, start_new_session=True, preexec_fn=heed_interrupts)

    def ended(self, begun: Process) -> Ended:
        """Output, messages and status of a ./pip that was begun, and how often it built."""
        output, messages = begun.communicate(timeout=SECONDS)
        builds, self.builds = self.counted() - self.builds, self.counted()
        return output.decode(), messages.decode(), begun.returncode, builds

    def run(self, *words: str, **settings: Any) -> Ended:
        return self.ended(self.begin(*words, **settings))

    def counted(self) -> int:
        return os.path.getsize(self.path("count")) // len("built\n") if os.path.exists(self.path("count")) else 0


BUILDS = "proving and building pip; this takes a quarter of an hour or more, and what the prover says goes into "
BY_CARGO = ("building pip and the lab of their export by cargo; this takes about a minute, and what cargo says goes "
            "into ")
OF_CARGO = "unproved: cargo built this program of the same text, and nothing is proved of it\n"
OF_REFERENCE = "unproved: the reference answers, a second telling of the model in Python, and nothing is proved of it\n"


def expect(what: str, got: object, wanted: object) -> None:
    same(f"./pip, {what}", got, wanted)


def expect_told(what: str, got: Ended, output: str, status: int, *told: str, builds: int | None = None) -> None:
    """Refuses another output, status or number of builds, and messages without one of these texts."""
    expect(what, got[:1] + got[2:3], (output, status))
    expect(f"{what}, builds", got[3], got[3] if builds is None else builds)
    ensure(all(text in got[1] for text in told), f"./pip, {what}, says {got[1]!r}")


def wrapper(program: str) -> None:
    with tempfile.TemporaryDirectory() as place:
        for number, (title, text) in enumerate(blocks("data/wrapper.txt", __file__).items()):
            play(Checkout(os.path.join(place, str(number))), title, text)
        for act in (tells_its_progress, says_where_it_fails, is_stopped, is_ended, runs_without_cargo, hands_on,
                    says_its_forms, builds_nothing_for_unknown_words, follows_a_link):
            act(Checkout(os.path.join(place, act.__name__)))
    forms_are_the_programs(program)


def play(checkout: Checkout, title: str, text: str) -> None:
    """Does what the lines of a block say, one after the other."""
    told = text.format(top=checkout.place, version=text_of("VERSION").strip(), building="proving and building",
                       long=BUILDS.split("; ")[1], by_cargo=BY_CARGO, of_cargo=OF_CARGO.strip(),
                       of_reference=OF_REFERENCE.strip())
    for step in re.split(r"\n(?! )", told.strip()):
        call, *due = (line.strip() for line in step.split("\n"))
        word, *rest = call.split(" ")
        if word == "at":
            for path in rest[1:]:
                checkout.touch(path, float(rest[0]))
        elif word == "gone":
            for path in rest:
                os.remove(checkout.path(path))
        else:
            called_as(checkout, f"{title}: {call}", call, due)


def called_as(checkout: Checkout, what: str, call: str, due: list[str]) -> None:
    """Makes a call, which has to end, to build and to say as it is due, if anything is."""
    settings, command, words = re.split(r"(?:^| )\./(pip|lab) ", call)
    got = checkout.run(*words.split(" "), command=checkout.path(command),
                       **dict(setting.split("=", 1) for setting in settings.split()))
    if due:
        status, builds, *output = due[0].split(" ", 2)
        expect_told(what, got, "".join(f"{line}\n" for one in output for line in one.split("\\n")), int(status),
                    *(line[2:] for line in due[1:] if line[0] == ":"), builds=int(builds))
    for line in due[1:]:
        if line[0] == "=":
            expect(f"{what}, its messages", got[1].strip(), line[2:])


def tells_its_progress(checkout: Checkout) -> None:
    """A line where another crate comes, and after 10 seconds one where the count is another."""
    for more, seconds, due in (("so far: 12 of 48 functions checked", 12, "crate 1 of 3: pip_base, 12 of 48 functions"),
                               ("rt: chose --jobs 4 for pip_late", 4, "crate 2 of 3: pip_late"),
                               ("rt: pip: begins with what a check kept in /other", 4,
                                "crate 3 of 3: pip, which begins with what a check kept")):
        checkout.touch("crates.txt")
        _, messages, _, _ = checkout.run("script", SECONDS_OF_MORE="3", MORE=more, SECONDS_LONG=str(seconds))
        lines = messages.splitlines()
        ensure(len(lines) >= 3 and "Ctrl-C" in lines[1] and lines[2:] == ["crate 1 of 3: pip_base", due],
               f"./pip, while it builds, says {messages!r}")


def says_where_it_fails(checkout: Checkout) -> None:
    """A build that fails leaves nothing; there is no `rt`; and where the folder of the build should be there is a file.
    """
    checkout.run("script", REFUSED="1")
    expect("what a build that failed leaves", left_of_builds(checkout), [])
    path = "/usr/bin:/bin"
    if not shutil.which("rt", path=path):
        expect_told("without rt", checkout.run("script", path=path), "", 11, "isn't in the PATH\n",
                    "or say ./pip --unproved script: at once")
    shutil.rmtree(checkout.path("crates/pip/out"), ignore_errors=True)
    checkout.touch("crates/pip/out")
    expect_told("where it can't write", checkout.run("script"), "", 11, "can't be written\n", builds=0)


def left_of_builds(checkout: Checkout) -> list[str]:
    return [name for name in os.listdir(checkout.place) if "begun" in name]


def in_turn(program: str) -> None:
    """A call that comes while another one builds waits for it, and doesn't build again."""
    needed("flock")
    with tempfile.TemporaryDirectory() as place:
        checkout = Checkout(os.path.join(place, "0"))
        first = begun(checkout, "8")
        second = checkout.begin("script")
        expect_told("the first of two", checkout.ended(first), "ran script\n", 7, BUILDS, builds=1)
        expect_told("the second of two", checkout.ended(second), "ran script\n", 7, "another ./pip builds here",
                    builds=0)


def begun(checkout: Checkout, seconds: str) -> Process:
    """A ./pip whose stand-in is at work for that long."""
    begun = checkout.begin("script", SECONDS_LONG=seconds)
    wait_until(checkout.counted, "./pip didn't begin to build")
    return begun


def is_stopped(checkout: Checkout) -> None:
    """Ctrl-C goes to all processes of the terminal."""
    stopped = begun(checkout, "100")
    os.killpg(stopped.pid, signal.SIGINT)
    expect_told("stopped", checkout.ended(stopped), "", 130, "stopped; what was done is kept")
    expect_told("after it was stopped", checkout.run("script"), "ran script\n", 7, BUILDS, builds=1)


def is_ended(checkout: Checkout) -> None:
    """A signal to ./pip alone ends what builds, too."""
    ended = begun(checkout, "100")
    builder = part(r"log of build (\d+)", text_of(checkout.path("build.log")))
    ended.terminate()
    expect("ended", checkout.ended(ended)[2], 143)
    ensure(not os.path.exists("/proc/" + builder), "./pip, ended, leaves what builds running")
    expect("what a build that was ended leaves", left_of_builds(checkout), [])


def runs_without_cargo(checkout: Checkout) -> None:
    """Unproved, by the reference, and by nothing where there is no Python."""
    few = checkout.path("few")
    os.makedirs(few)
    for name in ("sh", "readlink", "dirname", "find", "head"):
        os.symlink(shutil.which(name) or name, os.path.join(few, name))
    expect_told("unproved, without cargo and Python", checkout.run("--unproved", "script", path=few), "", 11)
    os.symlink(sys.executable, os.path.join(few, "python3"))
    expect("unproved, without cargo", checkout.run("--unproved", "script", path=few)[:3],
           ("the reference ran script\n", "cargo isn't in the PATH\n" + OF_REFERENCE, 9))


def hands_on(checkout: Checkout) -> None:
    """The program takes the wrapper's place: it has its input, also a closed one, its signals and any words."""
    checkout.run("script")
    write_program("#!/bin/sh\ncat || exit 3\n", checkout.path("crates/pip/out/pip"))
    told = subprocess.run([checkout.path("pip"), "script"], input=b"a line\n", stdout=subprocess.PIPE,
                          stderr=subprocess.PIPE)
    expect("its input", (told.stdout, told.stderr, told.returncode), (b"a line\n", b"", 0))
    closed = checkout.run("-c", 'exec "$0" script <&-', checkout.path("pip"), command="/bin/sh")
    expect("a closed input", closed[2], 3)
    write_program('#!/bin/sh\nprintf "%s|" "$@"\nexit 1\n', checkout.path("crates/pip/out/pip"))
    for words in ((), ("",), ("every", "100"), ("x y", "*"), ("-h", "script"), ("--version", "1"), ("--built", "x")):
        expect(f"the words {words}", checkout.run(*words), ("".join(f"{word}|" for word in words or ("",)), "", 1, 0))
    write_program("#!/bin/sh\necho $$\nexec sleep 300\n", checkout.path("crates/pip/out/pip"))
    for number in (signal.SIGTERM, signal.SIGINT, signal.SIGHUP):
        begun = checkout.begin("script")
        assert begun.stdout
        running = begun.stdout.readline().decode().strip()
        begun.send_signal(number)
        expect(f"after signal {number}", checkout.ended(begun)[2], -number)
        ensure(not os.path.exists("/proc/" + running), f"./pip, after signal {number}, leaves the program running")


def says_its_forms(checkout: Checkout) -> None:
    """-h and --help are no error, build nothing, and name the other program last."""
    for name, first, last in ("pip", "./pip script < FILE ", "./lab -h "), ("lab", "./lab slots N ", "./pip -h "):
        for word in "-h", "--help":
            output, messages, status, builds = checkout.run(word, command=checkout.path(name))
            lines = output.splitlines()
            expect(f"{name} {word}", (lines[0].startswith(first), lines[-1].startswith(last), messages, status, builds),
                   (True, True, "", 0, 0))


def builds_nothing_for_unknown_words(checkout: Checkout) -> None:
    """A first word that no form begins with gets the program's usage line and status 1, proved or not, and no build."""
    for name, unknown in ("pip", "every"), ("lab", "script"):
        top = f"crates/pip_{'lab_' * (name == 'lab')}commands/src/top.rt"
        usage = re.findall(r'b"(usage: .*)\\n";', text_of(top))
        os.makedirs(os.path.dirname(checkout.path(top)))
        shutil.copy(os.path.join(REPOSITORY, top), checkout.path(top))
        os.utime(checkout.path(top), (1000, 1000))
        for words in (), ("",), (unknown, "100"), ("STEPS",), ("--unproved", unknown), ("--unproved",):
            expect(f"{name} {words}", checkout.run(*words, command=checkout.path(name)), (usage[0] + "\n", "", 1, 0))
        expect_told(f"{name}, a word that is one", checkout.run("script" if name == "pip" else "every",
                    command=checkout.path(name)), f"ran {'script' if name == 'pip' else 'every'}\n", 7, builds=1)


def forms_are_the_programs(program: str) -> None:
    """The commands that -h names are those of the program's usage line."""
    for path, name in (program, "pip"), (calling.lab(program), "lab"):
        usage = run([path])[0].decode().split(":", 1)[1].split(" ", 2)[2].strip().split(" | ")
        told = re.findall(rf"^\./{name} ([a-z]+)", text_of(f"tools/common/{name}.txt"), re.M)
        expect(f"the forms of {name}", sorted(set(told)), sorted({form.split(" ")[0] for form in usage}))


def follows_a_link(checkout: Checkout) -> None:
    os.symlink(checkout.path("pip"), checkout.path("link"))
    expect_told("by a symbolic link", checkout.run("script", command=checkout.path("link")), "ran script\n", 7)
