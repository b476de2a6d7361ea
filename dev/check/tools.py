"""The tools themselves: their unit tests, those of the debugger beside the program, the comparison of the program with
the reference, the pictures, and the hints of types, in which mypy, as strict as it is, finds nothing."""

import filecmp
import os
import re
import subprocess
import sys
import tempfile

from reference import comparison
from .running import (REPOSITORY, Check, Differs, Skipped, ensure, finished, folders_of, needed, paths, planted_for,
                      text_of, told_path)

CASES = {"script": 400, "asm": 200, "dis": 200, "run": 200, "tree": 100, "core": 100, "soak": 200, "native": 200,
         "slots": 200, "audit": 200, "every": 500, "against": 500, "apart": 300,
         "part": 200, "merge": 400}


def unit_tests(program: str) -> None:
    """The unit tests of the tools, and the test of the grammars for editors."""
    missing: dict[str, None] = {}
    for folder in folders_of(REPOSITORY):
        told = finished(f"tests of {folder}", [sys.executable, "-B", "-m", "unittest", "discover", "-v", "-s", folder],
                        cwd=REPOSITORY, env=with_packages())
        missing.update(dict.fromkeys(re.findall(r"skipped '(.*)'$", told, re.M)))
    if missing:
        raise Skipped(", ".join(missing))


def with_packages() -> dict[str, str]:
    """An environment in which Python finds the packages of the tools."""
    return dict(os.environ, PYTHONPATH=os.pathsep.join(folders_of(REPOSITORY)))


def compared(command: str, cases: int, seed: int = 1) -> Check:
    """A check of that many cases of a command against the reference."""
    def check(program: str) -> None:
        found = comparison.first_case(program, command, cases, seed, os.cpu_count())
        if found:
            raise Differs(comparison.described(command, *found))
    return check


def pictures(program: str) -> None:
    """The pictures of docs/ are those that make_pictures.sh makes."""
    with tempfile.TemporaryDirectory() as place:
        subprocess.run([os.path.join(REPOSITORY, "tools", "common", "draw", "make_pictures.sh"), place], check=True)
        for name in sorted(os.listdir(place)):
            kept = os.path.join(REPOSITORY, "docs", name)
            ensure(filecmp.cmp(os.path.join(place, name), kept, shallow=False), f"docs/{name} isn't what "
                   "tools/common/draw/make_pictures.sh makes")


def tested(program: str, *modules: str) -> None:
    """These unit tests, with this program."""
    finished("tools/debugger", [sys.executable, "-B", "-m", "unittest", "-q",
                                *(f"debugger.{name}" for name in modules)], cwd=REPOSITORY,
             env=dict(with_packages(), PIP=os.path.abspath(program)))


def debugger(program: str) -> None:
    """Its states are the program's, it goes back as it went forward, and a terminal and an editor's adapter show what
    is there."""
    needed("cargo")
    tested(program, "debugger_tests", "adapter_tests")


def language_server(program: str) -> None:
    """What is wrong, as tools/asmx says it, and what words mean, at the places that an editor asks for."""
    tested(program, "language_tests")


OF = ("tools", "class", "dev")
DUE = ("tools/planted.py:2: error: Incompatible return value type",
       "tools/planted.py:5: error: Function is missing a type annotation",
       "tools/editors/test_grammar.py:3: error: Incompatible types in assignment")
SECONDS = 600            # of mypy
OLD = re.compile(r"^from typing import "
                 r".*\b(Callable|Dict|FrozenSet|Iterable|Iterator|List|Mapping|Sequence|Set|Tuple|Type)\b", re.M)


def types(program: str) -> None:
    """The tools are typed throughout, by `dict[..]` and its like. Planted modules are tried first."""
    ensure(OLD.search("from typing import Any, Dict\n"), "a planted import of Dict isn't found")
    for path in (path for folder in OF for path in paths(f"{folder}/**/*.py")):
        ensure(not OLD.search(text_of(path)), f"{told_path(path)} imports of typing what Python has itself")
    mypy = needed("mypy")
    with planted_for("types") as place:
        told, status = judged(mypy, place)
        missing = [due for due in DUE if due not in told]
        ensure(status == 1 and not missing, f"planted modules: mypy ends with {status}, and doesn't say {missing}: "
               f"{told}")
    told, status = judged(mypy, REPOSITORY)
    ensure(not status, told)


def judged(mypy: str, top: str) -> tuple[str, int]:
    """What mypy says of the tools below a folder, and its status. It keeps nothing."""
    command = [mypy, "--strict", "--python-version", "3.9", "--cache-dir", os.devnull, "--explicit-package-bases",
               *(folder for folder in OF if os.path.isdir(os.path.join(top, folder)))]
    done = subprocess.run(command, cwd=top, env=dict(os.environ, MYPYPATH=":".join(OF)), stdin=subprocess.DEVNULL,
                          stdout=subprocess.PIPE, stderr=subprocess.STDOUT, timeout=SECONDS)
    return done.stdout.decode("utf-8", "replace"), done.returncode
