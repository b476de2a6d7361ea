"""The program beside others: the plain program of dev/bench/plain, to which docs/PERFORMANCE.md compares, writes what
it writes; and what the translation caches count is what they count in the reference.

No output of the program depends on the caches. So a program that says after its output what they counted is made here:
in a copy of the sources counts_program.txt stands in the place of crates/pip/src/main.rt. `rt try` builds it, without
proofs. The cases are those generated, the scripts of examples/, and one whose pages share places."""

import os
import random
import shutil
import subprocess
import tempfile
from collections.abc import Iterator

from reference import commands, generate, plain as others
from . import certificates
from .exporting import need_cargo
from .running import Case, Differs, agree, contents, copied, generated, paths, run, told_path, write

CASES = 20               # of each command
MOST_CERTIFIED = 600     # states of an example of which certificates are compared
FIRST_SEED = 700_000     # no other check has these
# What is made of the image of each program of examples/
OF_IMAGES = (["dis"], ["run", "3000", "7"], ["tree", "1500", "1"], ["core", "1500", "1"], ["every", "300"],
             ["native", "2", "2000"], ["slots", "2", "5", "100"], ["apart", "300", "1500", "1"])


def plain(program: str) -> None:
    """On the scripts, programs and certificates of examples/, and on some generated cases of each command."""
    need_cargo()
    path = others.program()
    agree("the plain program", lambda words: [path, *words], program,
          [*examples(program), *certified(program), *generated(FIRST_SEED, CASES)])


def examples(program: str) -> Iterator[Case]:
    for path in paths("examples/**/*.pip"):
        yield told_path(path), ["script"], contents(path)
    for path in paths("examples/**/*.s"):
        name, text = told_path(path), contents(path)
        yield f"asm of {name}", ["asm"], text
        image = run([program, "asm"], text)[0]
        yield from ((f"{' '.join(words)} of {name}", list(words), image) for words in OF_IMAGES)
        core = run([program, "core", "1500", "1"], image)[0]
        yield f"audit of {name}", ["audit", str(int.from_bytes(image[8:12], "little"))], core


def certified(program: str) -> Iterator[Case]:
    """The parts of examples and their merges, right ones and such with one thing wrong."""
    for name, image, first, _, texts in certificates.cut(program, MOST_CERTIFIED):
        words = ["part", str(first)]
        wrong = certificates.wrong_parts(random.Random(name), image, texts)
        yield from ((f"a part of {name}", words, image + text) for text in texts)
        yield from ((f"a part of {name} ({what})", words, image + text) for what, _, text in wrong)
        lines = [certificates.checked(program, name, first, image + text) for text in texts]
        yield f"the merge of {name}", ["merge"], b"".join(certificates.together(lines))
        for what, told in certificates.wrong_certificates(program, name, first, image, texts, lines):
            yield f"a merge of {name} ({what})", ["merge"], b"".join(told)


# What the caches count

HERE = os.path.dirname(os.path.abspath(__file__))

# Pages that are 32, 64 and 128 away from the first. With 64 places the second has a place of its own, and the others
# haven't.
SHARED_PLACES = b"boot 200 1\n" + b"".join(b"ld 0 0x%x\n" % address for address in (
    0x400000, 0x420000, 0x400000, 0x440000, 0x400000, 0x480000, 0x400000, 0x440000, 0x420000))

COUNTED = {"script": 100, "run": 60, "soak": 40}
SECONDS = 2000           # building and running all cases takes no longer


def counts(program: str) -> None:
    """Refuses a case whose output or counts differ."""
    with tempfile.TemporaryDirectory(prefix="pip-counts-") as place:
        copied(place, "crates.txt", "crates", without=("must-fail", "tried"))
        shutil.copy(os.path.join(HERE, "counts_program.txt"), os.path.join(place, "crates", "pip", "src", "main.rt"))
        cases = os.path.join(place, "cases")
        os.mkdir(cases)
        total = 0
        for total, (name, words, text) in enumerate(all_cases(), 1):
            output, _ = commands.with_counts(words, text)
            for ending, content in (("", text), (".args", "\n".join(words).encode()), (".stdout", output)):
                write(content, cases, name + ending)
        done = subprocess.run(["rt", "try", "--cases", cases], cwd=os.path.join(place, "crates", "pip"),
                              timeout=SECONDS, stdout=subprocess.PIPE, stderr=subprocess.STDOUT,
                              stdin=subprocess.DEVNULL)
        told = done.stdout.decode(errors="replace").splitlines()
        if done.returncode or not told or not told[-1].startswith(f"cases={total} ended={total} "):
            wrong = [line for line in told if "output=expected" not in line] or told
            raise Differs("the counts of the caches, or what comes before them: rt try ends with status "
                          f"{done.returncode} after {len(told)} lines\n" + "\n".join(wrong[-30:]))


def all_cases() -> Iterator[tuple[str, list[str], bytes]]:
    """Name, words and input of each case."""
    yield "shared-places", ["script"], SHARED_PLACES
    for path in paths("examples/*.pip"):
        yield os.path.basename(path)[:-len(".pip")], ["script"], contents(path)
    for command, cases in COUNTED.items():
        for k in range(1, cases + 1):
            yield (f"{command}-{k}", *generate.case(command, k))
