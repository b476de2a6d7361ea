"""The scripts and programs of examples/ give what stands beside them, and the monitor shares its processor out."""

import os
import re
from collections.abc import Iterator

from authors import asmx, every_program as guests
from common import calling
from common.machine import runs, script
from debugger import searching, sources
from reference import commands as reference
from .running import REPOSITORY, Differs, contents, ensure, expect, paths, run, text_of, told_path

SESSIONS = os.path.join("examples", "sessions")
PROVED = os.path.join("crates", "pip_test_tables", "proofs", "Scripts.antt")
LEMMA = re.compile(r"^(\w+) : script_text \((.*?)\)\s*≡ \((.*?)\)\nunfolding", re.M | re.S)


def examples(program: str) -> None:
    """Each script of examples/ and its sessions/ gives what is beside it; a session is also a lemma of its name."""
    for folder in ("examples", SESSIONS):
        if not (found := paths(f"{folder}/*.pip")):
            raise Differs(f"{folder} has no script")
        for path in found:
            script_gives(program, path)
    sessions_are_lemmas()


def sessions_are_lemmas() -> None:
    """The lemma NAME is about the script NAME.pip of examples/sessions/, without its remarks, and about NAME.out."""
    lemmas = {name: (written(text), written(answers)) for name, text, answers in LEMMA.findall(text_of(PROVED))}
    for path in paths(f"{SESSIONS}/*.pip"):
        name, lines = os.path.basename(path)[:-len(".pip")], contents(path).decode().splitlines(keepends=True)
        text = "".join(line for line in lines if not line.startswith("#"))
        ensure(lemmas.get(name) == (text, contents(path[:-len("pip")] + "out").decode()), f"{told_path(path)}: "
               f"{PROVED} has no lemma {name} of this script and these answers")


def written(codes: str) -> str:
    """The text of a lemma: its strings, which are joined."""
    return "".join(re.findall(r'codes "([^"]*)"', codes)).replace("\\n", "\n")


def script_gives(program: str, path: str) -> None:
    """A script gives the answers beside it, NAME.out, by the program and by the reference."""
    name = told_path(path)
    text, shown = contents(path), contents(path[:-len("pip")] + "out")
    ensure(text.startswith(b"# "), f"{name}: its first line isn't a remark that says what it shows")
    status = 2 if shown.rsplit(b"\n", 2)[-2].startswith(b"bad line") else 0
    expect(f"{name}, by the reference", script.run(text), (shown, status))
    expect(name, run([program, "script"], text), (shown, status))


def programs(program: str) -> None:
    """Each assembly program begins with a remark, and has the reference's image, and the trace beside it, NAME.run."""
    names = list(map(told_path, paths("examples/*.s")))
    for name in names:
        text = contents(name)
        ensure(text.startswith(b"# "), f"{name}: its first line isn't a remark that says what it shows")
        expect(f"the image of {name}", run([program, "asm"], text), reference.pip(["asm"], text))
    if lacking := set(names) - set(answers(program, "run")):
        raise Differs(f"{sorted(lacking)} have no trace beside them")


def searches(program: str) -> None:
    """Each NAME.every and NAME.apart is what can happen to the program beside it, NAME.against and NAME.again with
    children that do anything, and NAME.comes says what must come."""
    for kind in ("every", "apart", "against", "again", "comes"):
        answers(program, kind)


def answers(program: str, kind: str) -> list[str]:
    """Each file of this kind is what the program says of the image beside it by the words in the first line, and what
    the reference says, or the plain program of a search. The menu of a search is the source's, or a file that the first
    line names. Answers the sources."""
    names = []
    for path, name, image, menu in searched(program, kind):
        told, text = contents(path).decode().split("\n", 1)
        words, _, file = told.partition(" < ")
        if kind in ("run", "every", "apart"):
            menu = b""
        elif file:
            menu = contents(os.path.join(os.path.dirname(path), file))
        due = text.encode(), 0
        expect(f"{name}, '{told}' by the reference", reference.told(words.split(), image + menu), due)
        expect(f"{name}, '{told}'", run(calling.called(program, words.split()), image + menu), due)
        names.append(name)
    return names


def searched(program: str, kind: str) -> Iterator[tuple[str, str, bytes, bytes]]:
    """Each file of this kind: its path, the name of the program beside it, and the image and menu of that."""
    if not (found := paths(f"examples/**/*.{kind}")):
        raise Differs(f"examples/ has no text of {kind}")
    for path in found:
        source = next(filter(os.path.exists, (path[:-len(kind)] + end for end in ("s", "asmx"))))
        lines, text = asmx.processed(source)
        image, _ = run([program, "asm"], asmx.text_of(lines))
        yield path, told_path(source), image, asmx.text_of(text.menu)


def every_program(program: str) -> None:
    """Each NAME.any is what tools/every --any says of the program beside it, by the words in the first line. The text
    of its last search is also that of the plain program."""
    for path, name, data, _ in searched(program, "any"):
        told, due = contents(path).decode().split("\n", 1)
        states, *after = told.split()[1:]
        begin = runs.After(*map(int, after[1:])) if after else runs.AT_FIRST
        asked = searching.Asked(data, b"", int(states), after=begin)
        found = guests.answer(program, asked, sources.read(data, os.path.join(REPOSITORY, name)))
        expect(f"{name}, '{told}'", (guests.text_of(guests.told(found)), 0), (due.encode(), 0))
        menu = guests.text_of(found.out.menu())
        words = asked._replace(menu=menu).words()
        expect(f"{name}, its menu", run(calling.called(program, words), data + menu),
               reference.told(words, data + menu))


RETRIES = [(seed, period) for period in (40, 53, 90) for seed in range(1, 21)]


def retries(program: str) -> None:
    """The monitor for two processors shows each request once and in its order, whatever the seed and the timer; what it
    is refused is a child that runs, and what parks is a request while the root runs elsewhere, and both come."""
    text = contents("examples", "retry.s")
    refused = parked = 0
    for seed, period in RETRIES:
        image, _ = run([program, "asm"], text.replace(b".line 0 430 50", b".line 0 430 %d" % period))
        trace = run([program, "run", "4000", str(seed)], image)[0].decode()
        what = f"examples/retry.s with the period {period} and the seed {seed}"
        for half in (1, 2):
            shown = [int(word, 16) for word in re.findall(rf" out 0x000{half}([0-9a-f]{{4}})$", trace, re.M)]
            ensure(shown == list(range(1, len(shown) + 1)) and len(shown) >= 5, f"{what}: child {half} was served the "
                   f"requests {shown}")
        others = re.findall(r" call 8 reply (?!14 ).*| call (?!8 )\d+ reply (?!0 ).*| park \d+ (?!70$).*", trace, re.M)
        ensure(not others, f"{what}: {others[:2]}")
        refused += trace.count(" call 8 reply 14 ")
        parked += len(re.findall(r" park \d+ 70$", trace, re.M))
    ensure(refused and parked, f"examples/retry.s: {refused} turns were tried again, and {parked} requests: where "
           "neither comes, nothing is shown")


def monitor(program: str) -> None:
    """The sample monitor is refused nothing, never parks, and gives both its children their turns."""
    text = contents("examples", "monitor.s")
    ensure(b'"' + text + b'";' in contents("crates/pip_commands/src/monitor.rt"), "examples/monitor.s isn't the "
           "constant of crates/pip_commands/src/monitor.rt")
    image, _ = run([program, "asm"], text)
    words = ["run", "100000", "1"]
    trace, status = run([program, *words], image)
    expect("the trace of the monitor", (trace, status), reference.pip(words, image))
    lines = trace.decode().splitlines()
    ensure(not status and lines[-1] == "end 100000", f"the monitor ends with {lines[-1]!r}, status {status}")
    for line in lines:
        if " park " in line or (" reply " in line and " reply 0 " not in line):
            raise Differs(f"the monitor has the line {line!r}")
    shown = [int(word, 16) for word in re.findall(r" out (0x[0-9a-f]{8})", trace.decode())]
    ensure(any(word < 0x20000000 for word in shown) and any(word >= 0x20000000 for word in shown), "a child of the "
           "monitor shows nothing")
