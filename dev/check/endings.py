"""How the program ends: its exit statuses, and what it writes then; when the answers of a script are written; what
happens where memory is refused; and what commands ask of their standard streams."""

import os
import pty
import subprocess
import tempfile
import threading
from collections.abc import Iterator
from typing import Any

from authors import asmx
from common import calling, forms
from common.machine import image as images
from reference import commands as reference, parts
from .running import REPOSITORY, SECONDS, Differs, Output, contents, ensure, expect, finished, run, same, write

HERE = os.path.dirname(os.path.abspath(__file__))
MOST = 1 << 24           # bytes of an input


def endings(program: str) -> None:
    """Wrong words of both programs, an empty input, bad lines, a closed input, a full device, inputs at the limit."""
    lab = calling.lab(program)
    for path, wrong, usage in (program, forms.WRONG, reference.USAGE), (lab, forms.LAB_WRONG, reference.LAB_USAGE):
        for words in map(forms.words, wrong):
            expect(f"{path}, the words {words}", run([path, *words]), (usage, 1))
        expect(f"{path}, a word that isn't UTF-8", run([path.encode(), b"\xff"]), (b"", 10))
    expect("a closed standard input", run(["sh", "-c", 'exec "$0" script <&-', program]), (b"", 3))
    with open("/dev/full", "wb") as device:
        expect("a full device", run([program, "script"], b"boot 32 1\n", stdout=device), (None, 4))
    for what, text, due in (("an empty script", b"", (b"", 0)), ("the script 'x'", b"x\n", (b"bad line 1\n", 2)),
                            ("a bad line after good ones", b"boot 32 1\n\nld 0 0x400000\nld 0 00\nld 0 0x400000\n",
                             (b"boot 32 1\n0x00000000\nbad line 4\n", 2)),
                            ("2^24 newlines", b"\n" * MOST, (b"", 0)),
                            ("2^24 newlines and one more", b"\n" * (MOST + 1), (b"", 6)),
                            ("a bad line before the limit", b"\nx" + b"\n" * (MOST - 1), (b"bad line 2\n", 2))):
        expect(what, run([program, "script"], text), due)


# When answers are written: before more is read, and else many at once

TYPED = [(b"boot 32 1\n", b"boot 32 1\n"), (b"st 0 0x400000 7\n", b"done\n"), (b"ld 0 0x400000\n", b"0x00000007\n"),
         (b"# a remark\n", b""), (b"fetch 0\n", b"0x00000007\n"), (b"x\n", b"bad line 6\n")]
LINES = 100000
MOST_WRITES = LINES // 800      # writes: a read brings up to 16384 bytes, which are 1170 of these lines


def typed_script(program: str) -> None:
    """Each answer comes before more is sent, also where the first half of the next line was sent."""
    for halves in False, True:
        process = subprocess.Popen([program, "script"], stdin=subprocess.PIPE, stdout=subprocess.PIPE)
        ends = threading.Timer(SECONDS, process.kill)
        ends.start()
        try:
            type_lines(process, halves)
        finally:
            ends.cancel()
            process.kill()
            process.communicate()


def type_lines(process: subprocess.Popen[bytes], halves: bool) -> None:
    assert process.stdin is not None and process.stdout is not None
    sent = 0             # bytes of this line that were sent with the one before
    for number, (line, answer) in enumerate(TYPED, 1):
        ahead = TYPED[number][0] if halves and number < len(TYPED) else b""
        process.stdin.write(line[sent:] + ahead[:len(ahead) // 2])
        process.stdin.flush()
        sent = len(ahead) // 2
        what = f"what came after line {number}{' and half of the next' * bool(sent)} was sent"
        same(what, process.stdout.read(len(answer)), answer)
    rest, _ = process.communicate(timeout=SECONDS)
    expect("the end of a typed script", (rest, process.returncode), (b"", 2))


def preloaded(name: str, place: str) -> str:
    """A library of this folder, built for a program to be run with it."""
    library = os.path.join(place, name + ".so")
    finished("gcc", ["gcc", "-O1", "-shared", "-fPIC", "-o", library, os.path.join(HERE, name + ".c"), "-ldl"])
    return library


def gathered_answers(program: str) -> None:
    """A long script out of a file makes few writes."""
    with tempfile.TemporaryDirectory() as place:
        counted, text = os.path.join(place, "count"), os.path.join(place, "text")
        script = write(b"boot 32 1\n" + b"ld 0 0x400000\n" * LINES, place, "script")
        with open(script, "rb") as source, open(text, "wb") as sink:
            _, status = run([program, "script"], stdin=source, stdout=sink,
                            env=dict(os.environ, LD_PRELOAD=preloaded("streams", place), COUNT=counted))
        due = b"boot 32 1\n" + b"0x00000000\n" * LINES
        expect(f"a script of {LINES} lines", (contents(text), status), (due, 0))
        count = int(contents(counted).split()[2])
        ensure(0 < count <= MOST_WRITES, f"a script of {LINES} lines: {count} writes, where {MOST_WRITES} are the most")


# Each allocation of a command is refused in turn: it ends for want of memory, and nothing was written

SCRIPT = b"# before the boot line\nboot 32 1\nld 0 0x400000\n"
ASSEMBLY = (b".frames 16\n.cpus 1\n.line 0 2 0\n.page 0x00400000\n"
            b"here:\nli r1 7\nout r1\nbne r1 r0 there\nthere:\nint 64\n")
NO_MEMORY = 5            # the status
NO_WORDS = 10            # where memory for the words of the command line is refused to the runtime


def cases() -> Iterator[tuple[list[str], bytes]]:
    """The words of each command that takes memory, and its input."""
    image, _ = reference.pip(["asm"], ASSEMBLY)
    yield ["script"], SCRIPT
    yield ["asm"], ASSEMBLY
    for command in "run", "tree", "core":
        yield [command, "6", "1"], image
    yield ["soak", "20", "7"], b""
    native, _ = reference.pip(["asm"], ASSEMBLY.replace(b".frames 16", b".frames 26"))
    yield ["native", "1", "6"], native
    yield ["slots", "1", "4", "1"], native
    yield ["slots", "1", "1", "0:4"], native
    frames, _ = reference.pip(["core", "6", "1"], image)
    yield ["audit", "16"], frames
    yield ["every", "8"], image
    yield ["against", "8"], image + b"1 trap 64 0 0\n"
    lines, _ = asmx.processed(os.path.join(REPOSITORY, "examples", "apart", "leaves.asmx"))
    guests, _ = reference.pip(["asm"], asmx.text_of(lines))
    yield ["apart", "40", "400", "1"], guests
    yield ["part", "3"], with_part(image, parts.Part([(1, 2, 3)], [0], [1, 0]))
    told, _ = reference.lab(["part"], with_part(image, parts.Part([], [], [])))
    yield ["merge"], b"".join(sorted(told.splitlines(keepends=True)))


def with_part(image: bytes, part: parts.Part) -> bytes:
    """An image, and a part with as many marks as it has choices."""
    machine = images.read(image)
    return image + parts.written(parts.fitted(machine.cpus + len(machine.plans), part))


def refused_memory(program: str) -> None:
    with tempfile.TemporaryDirectory() as place:
        library, counted = preloaded("refuse", place), os.path.join(place, "count")

        def refused(path: str, words: list[str], text: bytes, number: int) -> tuple[Output, int]:
            """Runs a program with an allocation refused, and answers how many there were, too."""
            settings = dict(os.environ, LD_PRELOAD=library, REFUSE=str(number), COUNT=counted)
            return run([path, *words], text, env=settings), int(contents(counted))

        for words, text in cases():
            path = calling.called(program, words)[0]
            whole, count = refused(path, words, text, 0)
            expect(f"{words[0]}, with a counted memory", whole, reference.told(words, text))
            _, for_words = refused(path, ["none", *words[1:]], b"", 0)
            ensure(count > for_words, f"{words[0]} takes no memory")
            for number in range(1, count + 1):
                (output, status), _ = refused(path, words, text, number)
                allowed = [NO_MEMORY, NO_WORDS] if number <= for_words else [NO_MEMORY]
                ensure(not output and status in allowed, f"{words[0]}, with allocation {number} of {count} refused: "
                       f"status {status}, {output[:80]!r}")


# What the commands ask of their standard streams: nothing after the end of the input, nor after a read or a write that
# failed

READ_FAILED, WRITE_FAILED = 3, 4     # statuses
TYPED_AT_END = ("script", "asm", "merge")   # commands whose input is lines of text


def asked_once(program: str) -> None:
    """Each read and each write of each command fails in turn, and a full device takes nothing: nothing more is read or
    written then, and nothing is read after the end."""
    with tempfile.TemporaryDirectory() as place:
        library, counted = preloaded("streams", place), os.path.join(place, "count")

        def asked(what: str, words: list[str], text: bytes, refused: dict[str, int],
                  **streams: Any) -> tuple[Output, int, int]:
            """What a command comes to, and how often it reads and writes."""
            settings = dict(os.environ, LD_PRELOAD=library, COUNT=counted,
                            **{name: str(number) for name, number in refused.items()})
            told = run(calling.called(program, words), text, env=settings, **streams)
            reads, late_reads, writes, late_writes = map(int, contents(counted).split())
            for late, kind in (late_reads, "reads"), (late_writes, "writes"):
                ensure(not late, f"{words[0]}, {what}: {late} {kind} more after the last that there should be")
            return told, reads, writes

        for words, text in cases():
            whole, reads, writes = asked("whose calls are counted", words, text, {})
            expect(f"{words[0]}, whose calls are counted", whole, reference.told(words, text))
            for name, count, due in ("READ_FAILS", reads, READ_FAILED), ("WRITE_FAILS", writes, WRITE_FAILED):
                for number in range(1, count + 1):
                    what = f"with {name}={number} of {count}"
                    same(f"the status of {words[0]}, {what}", asked(what, words, text, {name: number})[0][1], due)
            with open("/dev/full", "wb") as device:
                what = "on a full device"
                full, _, _ = asked(what, words, text, {}, stdout=device)
                same(f"the status of {words[0]}, {what}", full[1], WRITE_FAILED)


def ended_once(program: str) -> None:
    """At a terminal the end of an input is typed once."""
    for words, text in cases():
        if words[0] in TYPED_AT_END:
            expect(f"{words[0]} at a terminal", typed(program, words, text), reference.told(words, text))


def typed(program: str, words: list[str], text: bytes) -> Output:
    """What a command comes to whose input is typed at a terminal, and then its end."""
    outer, inner = pty.openpty()
    begun = subprocess.Popen(calling.called(program, words), stdin=inner, stdout=subprocess.PIPE)
    os.close(inner)
    try:
        os.write(outer, text + b"\x04")
        output, _ = begun.communicate(timeout=SECONDS)
    except subprocess.TimeoutExpired:
        raise Differs(f"{words[0]} at a terminal reads on after the end of its input was typed") from None
    finally:
        begun.kill()
        begun.wait()
        os.close(outer)
    return output, begun.returncode
