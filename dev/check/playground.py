"""The program as a module of WebAssembly answers as the program does, and the pages over it show what the other tools
show."""

import atexit
import functools
import json
import os
import shutil
import subprocess
import tempfile
from collections.abc import Iterator
from typing import Any

from authors import why
from exercises import exercise, judging
from judge import building
from pages import known
from reference import generate
from . import cheats, corners
from . import pages as step_pages
from .exporting import SECONDS, need_cargo
from .running import (REPOSITORY, Differs, Skipped, agree, called, contents, each, ensure, generated, needed, paths,
                      run, same, told_path, write)

PLAYGROUND = os.path.join(REPOSITORY, "class", "playground")
CASES = 20               # of each command
CASES_OF_REASONS = 300
FIRST_SEED = 900_000     # no other check has these
# A sum that wraps and a broken requirement end a run: a usize has 32 bits in a module.
CHECKED = {"CARGO_PROFILE_RELEASE_OVERFLOW_CHECKS": "true", "CARGO_PROFILE_RELEASE_DEBUG_ASSERTIONS": "true"}
WEB = os.environ.get("RUSTC_WEB") or os.path.join(
    os.environ.get("XDG_CACHE_HOME") or os.path.expanduser("~/.cache"), "pip", "rustc-web")
NO_TARGET = "make_module: cargo can't make a module"


def module(program: str) -> None:
    """The examples, and generated cases of each command."""
    needed("node")
    examples = ((told_path(path), ["script"], contents(path)) for path in scripts())
    path = made()
    agree("the module", lambda words: asked("run", path, *words), program, [*examples, *generated(FIRST_SEED, CASES)])


def asked(name: str, *words: str) -> list[str]:
    """The words that have node run a part of the page."""
    return ["node", os.path.join(PLAYGROUND, f"{name}.mjs"), *words]


def lines_of(command: list[str], text: bytes = b"") -> list[bytes]:
    """What a part of the page writes."""
    return run(command, text, stderr=subprocess.DEVNULL)[0].splitlines()


@functools.lru_cache(maxsize=None)
def made() -> str:
    """The path of a module, made once for all checks."""
    need_cargo()
    place = tempfile.mkdtemp()
    atexit.register(shutil.rmtree, place, ignore_errors=True)
    path = os.path.join(place, "pip.wasm")
    make(path)
    return path


def make(path: str) -> None:
    """The compiler is the one in the PATH, or Debian's, unpacked where the environment's RUSTC_WEB says, or where
    dev/install puts it."""
    debian = ("--debian", WEB) if os.path.isdir(WEB) else ()
    words = called("playground/make_module", "--to", path, *debian)
    done = subprocess.run(words, env=dict(os.environ, **CHECKED), stdout=subprocess.PIPE, stderr=subprocess.STDOUT,
                          timeout=SECONDS)
    told = done.stdout.decode("utf-8", "replace")
    if told.startswith(NO_TARGET):
        raise Skipped("no wasm32 target for cargo")
    ensure(not done.returncode, f"the module isn't made: {told[-3000:]}")


# The states of the page

def states(program: str) -> None:
    """After each line of each script of examples/ the page shows what a page of class/step shows."""
    needed("node")
    made()
    each(lambda script: same_states(program, script), scripts())


def scripts() -> list[str]:
    return paths("examples/**/*.pip")


def same_states(program: str, script: str) -> None:
    name = told_path(script)
    page, messages, status = step_pages.stepped(program, script, "--to", str(step_pages.MOST_LINES))
    # The solution of break-in goes on where the exercise's script ends: there is no machine in it.
    ensure(not status or "step: bad line" in messages, f"class/step {name}: {messages}")
    due = {"steps": []} if status else step_pages.data_of(page)
    count = sum(1 for step in due["steps"] if not step["answer"].startswith("bad line"))
    told = lines_of(asked("states", made(), str(max(count, 1))), contents(script))
    same(f"the states that the page of {name} has", len(told), count)
    for k, data in enumerate(map(json.loads, told)):
        chosen = 7 * k % data["frames"]
        same_parts(f"the page of {name}, answer {k + 1}", state_of(data, -1, chosen), state_of(due, k, chosen))


def same_parts(what: str, got: dict[str, Any], due: dict[str, Any]) -> None:
    for name, wanted in due.items():
        if got[name] != wanted:
            raise Differs(f"{what}: {name} is {got[name]}, where {wanted} is due"[:2000])


def state_of(data: dict[str, Any], k: int, chosen: int) -> dict[str, Any]:
    """A state of a page, with the words of a frame; the last one is -1."""
    step, last = data["steps"][k], k % len(data["steps"])
    words = [place for at, place in data["words"].get(str(chosen), []) if at <= last]
    return {"tree": [data["partitions"][at] for at in data["trees"][step["tree"]]], "grid": data["grids"][step["grid"]],
            "cpus": [(name, at if at is None else data["registers"][at]) for name, at in step["cpus"]],
            "words": data["contents"][words[-1]] if words else {},
            **{name: step[name] for name in ("place", "told", "answer", "remarks", "changed")}}


# What the page says of bad lines

def reasons(program: str) -> None:
    """Of each generated text that is refused, and of lines that are bad in one way each, the page says what why.py
    says."""
    needed("node")
    for kind, texts, title in (("script", corners.texts(), "lines of a script"),
                               ("asm", corners.assembly(), "lines of a text")):
        refused_as(program, kind, [*texts, *generated_texts(kind)], len(list(corners.listed_of(title))))


def refused_as(program: str, kind: str, texts: list[bytes], least: int) -> None:
    with tempfile.TemporaryDirectory() as place:
        files = [write(text, place, str(k)) for k, text in enumerate(texts)]
        told = lines_of(asked("why", made(), facts(), kind, *files))
    ensure(len(told) == len(texts), f"the page explains {len(told)} texts of {len(texts)}")
    refused = sum(same_reason(program, text, json.loads(line), kind == "asm") for text, line in zip(texts, told))
    ensure(refused >= least, f"the page: only {refused} of {len(texts)} texts are refused")


@functools.lru_cache(maxsize=None)
def facts() -> str:
    """The path of what the page knows."""
    return write(json.dumps(known.facts()), os.path.dirname(made()), "facts")


def generated_texts(command: str) -> Iterator[bytes]:
    """Those that are UTF-8."""
    texts = (generate.case(command, FIRST_SEED + k)[1] for k in range(CASES_OF_REASONS))
    return (text for text in texts if text.decode("utf-8", "ignore").encode() == text)


def same_reason(program: str, text: bytes, told: Any, as_assembly: bool) -> bool:
    """Whether a text is refused; what the page says of it has to be what why.py says."""
    sentences, good = why.why(program, "text", text, as_assembly)
    ensure(good == (told is None), f"the page, {text!r}: {told}, where {sentences} is due")
    if good:
        return False
    page = [f"text:{told['place']}:{told['column']}: {told['here']}", f"rule: {told['rule']}"]
    page += [f"what to do: {told['act']}"] * bool(told["act"])
    ensure(page == [sentence for sentence in sentences if not sentence.startswith("    ")], f"the page, {text!r}: "
           f"{page}, where {sentences} is due")
    return True


# What the page shows of a run is what a page of class/step shows

STEPS = 24               # of each window
MOST_WITH_LINES = 6000   # steps among which windows are
WINDOWS = 3


def runs(program: str) -> None:
    """The first steps of each program of examples/, and some around its lines further on, by two seeds. Registers are
    the reference's."""
    needed("node")
    facts()
    each(lambda work: same_run(program, *work), [(source, seed) for source in paths("examples/*.s") for seed in (1, 7)])


def same_run(program: str, source: str, seed: int) -> None:
    text = contents(source)
    with tempfile.TemporaryDirectory() as place:
        image = write(run([program, "asm"], text)[0], place, "image")
        for first in windows(program, image, seed):
            page, messages, status = step_pages.stepped(program, image, str(first + STEPS), str(seed), "--source",
                                                        source, "--from", str(first), "--jobs", "1")
            ensure(not status, f"class/step {source}: {messages}")
            same_window(f"the page of {told_path(source)}, seed {seed}", text, seed, first, step_pages.data_of(page))


def windows(program: str, image: str, seed: int) -> list[int]:
    """Where windows begin: at the beginning, and before some of the lines of the run."""
    told, _ = run([program, "run", str(MOST_WITH_LINES), str(seed)], contents(image))
    steps = [int(line.split()[0]) for line in told.splitlines()[1:-1]]
    chosen = [steps[k * len(steps) // WINDOWS] for k in range(1, WINDOWS)] if steps else []
    return sorted({0, *(max(0, step - STEPS // 2) for step in chosen)})


def same_window(what: str, text: bytes, seed: int, first: int, due: dict[str, Any]) -> None:
    counts = range(first, first + STEPS + 1)
    told = lines_of(asked("runs", made(), facts(), str(seed), *map(str, counts)), text)
    same(f"{what}: the states", len(told), len(counts))
    for k, (count, data) in enumerate(zip(counts, map(json.loads, told))):
        got, wanted = (shown(page, at, 7 * count % 16) for page, at in ((data, -1), (due, k)))
        if k == 0 and count:
            # of the step before the window
            wanted.update((name, got[name]) for name in ("told", "answer", "did", "changed", "place"))
        same_parts(f"{what}, after {count} steps", got, wanted)


def shown(data: dict[str, Any], k: int, chosen: int) -> dict[str, Any]:
    """A state without its remark, which is the page's own."""
    state = state_of(data, k, chosen)
    del state["remarks"]
    return {**state, "did": data["steps"][k]["did"]}


# The judge

SEED, SECRET = "ada", "5eed"
LEAST = 250              # requests: a folder that isn't found would pass
ODD = (("map", b"boot 64 1\nld 0 00\n"), ("map", b""), ("map", b"# nothing\n"), ("end", b"boot 64 1\ncall 0\n"),
       ("store", b"ld 0 0\n"), ("break-in", b"peek 1 1\n"), ("break-in", b"ld 0 0x10000020\nst 0 -5 1\n"),
       ("break-in", b"ld 0 0x100000000\n"), ("break-in", b"\xff 0\n"), ("store", b"boot 64 1\nst 9 0 0\n"),
       ("sum", b"li r1\n"), ("sum", b".frames 16\n.cpus 1\n.page 0x400000\nint 64\n"), ("nothing", b""),
       ("store", b"boot 16 1\n" + b"raise 1\n" * 5001), ("child", "boot 64 4\nst 0 0x400000 \u00e9\n".encode()))


def judge(program: str) -> None:
    """The judge in the page's module says of each solution, cheat and odd text what that of class/exercise says."""
    needed("node")
    cheats.need_judge()
    all_asked = [one.decode("utf-8", "replace") for one in requests()]
    ensure(len(all_asked) >= LEAST, f"there are {len(all_asked)} requests to the judge")
    lines = "".join(json.dumps(one) + "\n" for one in all_asked)
    found = list(map(json.loads, lines_of(asked("judge", made()), lines.encode())))
    same("the requests that the module's judge answers", len(found), len(all_asked))
    path = building.JUDGE.path()
    each(lambda pair: same(f"what the module's judge says of the request {pair[0][:1000]!r}", pair[1],
                           run([path], pair[0].encode())[0].decode()), zip(all_asked, found))


def requests() -> Iterator[bytes]:
    """What is asked: an act, an exercise, a seed, a secret and a text each."""
    yield b"list\n\n\n\n"
    for name, text in ODD:
        yield request("judge", name, "", text)
    for name, one in judging.exercises().items():
        text = judging.plain_solution(name, one.is_program)
        yield from (request("judge", name, seed, text) for seed in ("", SEED))
        yield request("values", name, SEED, b"")
        yield request("tell", name, SEED, exercise.told(name).encode())
    for cheat in cheats.all_cheats():
        told, ending = cheats.edited(cheat)
        if ending != ".asmx":
            yield request("judge", cheat.name, "", told.encode())


def request(act: str, name: str, seed: str, text: bytes) -> bytes:
    return "\n".join((act, name, seed, SECRET, "")).encode() + text
