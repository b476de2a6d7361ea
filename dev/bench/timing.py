"""The times of dev/bench/run: of long inputs, two programs alternately, and of the worst inputs, once each. inputs.txt
has them."""

import os
import statistics
import struct
import subprocess
import tempfile
from collections.abc import Callable

from authors import asmx
from common import calling
from common.blocks import blocks
from common.calling import REPOSITORY, ensure
from common.machine import image as images
from reference import parts
from . import worst
from .count import Counted
from .figures import BOOT, HEAD, script

ROUNDS = 50              # runs of each program
PART = 5                 # of the size that is given that is run


# Inputs, each by the words of inputs.txt

def text_of(path: str) -> bytes:
    return calling.contents(os.path.join(REPOSITORY, path))


def example(program: Counted, path: str) -> bytes:
    """The image of a text."""
    return program.written(text_of(path), "asm")


def source(program: Counted, path: str) -> bytes:
    """The image of a source of tools/asmx."""
    return asmx.assembled(program.path, asmx.processed(os.path.join(REPOSITORY, path))[0])


def guests(program: Counted, numbers: str, shown: str) -> bytes:
    """The image of examples/two_guests.s whose workers count to `numbers`, and show one count in `shown`."""
    text = text_of("examples/two_guests.s").decode()
    for old, new in (("andi r2 r1 7", f"andi r2 r1 {int(shown) - 1}"),
                     ("andi r2 r1 63", f"andi r2 r1 {int(numbers) - 1}"), ("addi r1 r1 -64", f"addi r1 r1 -{numbers}")):
        ensure(text.count(f"\n{old}\n") == 1, f"examples/two_guests.s has no line '{old}', or several")
        text = text.replace(f"\n{old}\n", f"\n{new}\n")
    return program.written(text.encode(), "asm")


def generated(program: Counted, *words: str) -> bytes:
    """What dev/bench/worst writes."""
    return "".join(line + "\n" for line in worst.lines(*words)).encode()


def image_of(program: Counted, *words: str) -> bytes:
    """The image of what dev/bench/worst writes."""
    return program.written(generated(program, *words), "asm")


def with_way(program: Counted, turns: str, kind: str, *words: str) -> bytes:
    """An image, and a part whose way has that many turns of processor 0, and which asks all after its first key."""
    data = INPUTS[kind](program, *words)
    machine = images.read(data)
    return data + parts.written(parts.Part([], [0] * int(turns), [0] * (machine.cpus + len(machine.plans))))


def keys(program: Counted, count: str) -> bytes:
    """The lines of one part that has that many keys and asks none."""
    told = [f"{k:040x} + {k % 1000:08x}\n" for k in range(int(count))]
    end = f"part 16 1 0 1 0 {0:016x} {0:08x} {int(count):08x} {0:08x} {0:08x} {0:08x}\n"
    return "".join([*told, end]).encode()


def guarded(program: Counted) -> bytes:
    """The image of a monitor, and its menu."""
    lines, text = asmx.processed(os.path.join(REPOSITORY, "examples", "every", "guarded.asmx"))
    return asmx.assembled(program.path, lines) + asmx.text_of(text.menu)


def full_image(program: Counted, *line: str) -> bytes:
    """An image of all the pages that there are, each word that of a line."""
    first = program.written((HEAD + f"{' '.join(line)}\n" * 1024).encode(), "asm")
    pages = [0x400 + k for k in range(4074)] + [0xFFFFF]
    head = first[:8] + struct.pack("<4I", 4096, 1, 0, len(pages))
    return head + b"".join(struct.pack("<I", page) + first[28:] for page in pages)


def core_of_all(program: Counted) -> bytes:
    """The text of a machine of 4096 frames that has booted."""
    return program.written(program.written(b".frames 4096\n.cpus 1\n", "asm"), "core", "0", "1")


def many_lines(program: Counted) -> bytes:
    pages = (f".page {0x401000 + 4096 * k:#x}\n" + "li r1 7\n" * 1000 for k in range(400))
    return (HEAD.replace(".frames 64", ".frames 4096") + "".join(pages)).encode()


INPUTS: dict[str, Callable[..., bytes]] = {
    "example": example, "source": source, "guests": guests, "worst": generated, "image": image_of, "way": with_way,
    "keys": keys, "guarded": guarded, "full": full_image, "core_of_all": core_of_all, "many_lines": many_lines,
    "lines": lambda program, count, *line: script(BOOT, " ".join(line).replace(r" \n ", "\n"), int(count)),
    "remarks": lambda program: b".frames 16\n.cpus 1\n" + b"#\n" * 8388000, "nothing": lambda program: b""}

# By what the rows are about the words of a command, and those of its input; and by both that a row has of the worst
ROWS = {title: [line.split(" | ") for line in text.splitlines()]
        for title, text in blocks("inputs.txt", __file__).items()}
TIMES = {what: (words, made) for words, made, what in ROWS["times"]}
WORST = {(words, what): made for words, made, what in ROWS["worst"]}


def input_of(program: Counted, made: str) -> bytes:
    kind, *words = made.split(" ")
    return INPUTS[kind](program, *words)


def used(program: Counted, text: bytes, words: str) -> float:
    """The seconds of a processor that a run takes, the system's included."""
    with tempfile.TemporaryFile() as file:
        file.write(text)
        file.seek(0)
        process = subprocess.Popen(program.called(words.split()), stdin=file, stdout=subprocess.DEVNULL)
        _, status, usage = os.wait4(process.pid, 0)
        process.returncode = os.waitstatus_to_exitcode(status)
    ensure(process.returncode in (0, 9), f"{words} ends with status {process.returncode}")
    return float(usage.ru_utime + usage.ru_stime)


def row_of_times(what: str, ours: Counted, plain: Counted) -> str:
    """The least time of each program by the size that is named, and the median of the ratios of neighbouring runs."""
    words, made = TIMES[what]
    text = input_of(ours, made)
    pairs = [(used(ours, text, words), used(plain, text, words)) for _ in range(ROUNDS)]
    least = [PART * min(times) for times in zip(*pairs)]
    ratio = statistics.median(first / second for first, second in pairs)
    return f"| {what} | {least[0]:.3f} | {least[1]:.3f} | {ratio:.2f} |"


def row_of_worst(words: str, what: str, ours: Counted, plain: Counted) -> str:
    text = input_of(ours, WORST[words, what])
    return f"| `{words}` | {what} | {used(ours, text, words):.2f} | {used(plain, text, words):.2f} |"
