"""tools/shell through a pipe and on a terminal; its session in tools/README.md is what it says."""

import fcntl
import os
import pty
import re
import select
import subprocess
import tempfile
import termios
import time

from . import running
from .running import REPOSITORY, SECONDS, Differs, called, contents, ensure, heed_interrupts, run, same, text_of


def says(program: str, text: str, *words: str) -> str:
    return running.says(program, ("shell", *words), text=text.encode("utf-8", "surrogateescape"), kind=">")


def expect(what: str, got: object, due: object) -> None:
    same(f"tools/shell, {what}", got, due)


def session_of_the_page(program: str) -> None:
    page = text_of("tools/README.md").split("## shell\n")[1].split("\n## ")[0]
    shown = [line[4:] for line in page.splitlines() if line.startswith("    ")][1:]
    typed = [line[5:] for line in shown if line.startswith("pip> ")]
    expect("as tools/README.md has it", says(program, "\n".join(typed) + "\n"),
           "".join(line + "\n" for line in shown if not line.startswith("pip> ")))


def costs_nothing(program: str) -> None:
    """After bad lines of each kind the answers are the same; what was taken back leaves nothing."""
    begun = "boot 64 1\nst 0 0x400000 7\n"
    bad = ("ld 0 00", "ld 0  0", "foo", "boot 64 1", "ld 1 0x400000", "x" * 121, "ld 0 0x400000 ", "\udcff", "#" * 121)
    for line in bad:
        told = says(program, f"{begun}{line}\nld 0 0x400000\n").splitlines()
        has_rule = any(x.startswith("rule: ") for x in told)
        ensure(told[-1] == "0x00000007" and told[2].startswith("bad line, nothing is changed: ") and has_rule,
               f"tools/shell, after the bad line {line[:30]!r}: {told}")
    expect("undo of a store", says(program, begun + "undo\nld 0 0x400000\n"),
           "boot 64 1\ndone\ntaken back: st 0 0x400000 7\n0x00000000\n")
    expect("undo of two lines", says(program, begun + "# a\nundo 2\nlist\nundo\n").splitlines()[-4:][1:],
           ["taken back: st 0 0x400000 7", "no line yet", "there is no line to take back"])
    tree = says(program, text_of("examples/tutorial/07_grandchild.pip") + "tree\naudit\n").splitlines()
    expect("tree and audit", [re.sub(r"\d+ pages, \d+ of them free", "N pages", line) for line in tree[-4:]],
           ["partition 1, the root: N pages, runs on processor 0", "  partition 13, at 0x00401000 of 1: N pages",
            "    partition 22, at 0xffc0a000 of 13: N pages", tree[-1]])
    entered = says(program, text_of("examples/solutions/enter.pip") + "tree\n").splitlines()
    expect("what runs", ["runs on processor 0" in line for line in entered[-2:]], [False, True])
    ensure(tree[-1].startswith("yes    # 3 partitions"), f"tools/shell, audit: {tree[-1]!r}")


def keeps_files(program: str) -> None:
    with tempfile.TemporaryDirectory() as place:
        path, bad = os.path.join(place, "kept.pip"), os.path.join(REPOSITORY, "examples", "bad_line.pip")
        text = "boot 64 1\n# a remark\n\nst 0 0x400000 7\n"
        says(program, f"{text}ld 0 00\nsave {path}\n")
        expect("what is saved", text_of(path), text)
        expect("what is loaded", says(program, f"boot 16 1\nload {path}\nld 0 0x400000\n").splitlines()[1:],
               ["4 lines; the last answer: done", "0x00000007"])
        expect("what is loaded at first", says(program, "ld 0 0x400000\n", path).splitlines()[1:], ["0x00000007"])
        told = says(program, f"load {bad}\nld 0 0x400000\n").splitlines()
        expect("a file with a bad line", [told[0].split(", ")[1], told[-1]], ["line 7 is bad", "0x00000007"])
        for line, due in ((f"save {place}/no/file", "No such file"), ("save", "has a file after it"),
                          ("load /nonexistent", "can't be read"),
                          ("undo x", "the number of lines"), ("tree 1", "has nothing after it"),
                          ("tree", "there is no machine yet"), ("load /dev/null", "no line with an answer")):
            if due not in (answer := says(program, line + "\n")):
                raise Differs(f"tools/shell of {line!r}: {answer!r}")


def each_example(program: str) -> None:
    """Each answer of an example begins with what the program answers."""
    for name in ("first", "deleted_subtree", "translation_caches", "forged_interrupts"):
        text = contents("examples", name + ".pip")
        told = [line.split("    # ")[0] for line in says(program, text.decode()).splitlines()]
        expect(f"the answers of {name}.pip", "\n".join(told), run([program, "script"], text)[0].decode().rstrip("\n"))


def on_a_terminal(program: str) -> None:
    """A prompt, the arrow keys, and Ctrl-C that gives up a line and no more."""
    outer, inner = pty.openpty()
    begun = subprocess.Popen(called("shell", program=program), stdin=inner, stdout=inner, stderr=inner,
                             start_new_session=True, preexec_fn=lambda: take_terminal(inner),
                             env=dict(os.environ, TERM="dumb"))
    os.close(inner)
    try:
        wait_for(outer, "pip> ")
        for keys, due in ((b"boot 16 1\r", "boot 16 1\r\npip> "), (b"undo\r", "taken back: boot 16 1\r\npip> "),
                          (b"\x1b[A\x1b[A\r", "\nboot 16 1\r\npip> "),
                          (b"ld 0 0x40\x03", "pip> "), (b"ld 0 0x400000\r", "0x00000000\r\npip> "), (b"\x04", "")):
            os.write(outer, keys)
            wait_for(outer, due)
        ensure(not begun.wait(SECONDS), f"tools/shell on a terminal ends with status {begun.returncode}")
    finally:
        begun.kill()
        begun.wait()
        os.close(outer)


def take_terminal(terminal: int) -> None:
    heed_interrupts()
    fcntl.ioctl(terminal, termios.TIOCSCTTY, 0)


def wait_for(terminal: int, due: str) -> None:
    shown, limit = "", time.monotonic() + SECONDS
    while due not in shown:
        ensure(select.select([terminal], [], [], max(limit - time.monotonic(), 0))[0], "tools/shell on a terminal: "
               f"{shown!r}, where {due!r} is due")
        try:
            shown += os.read(terminal, 4096).decode("utf-8", "replace")
        except OSError:                              # nobody has the other end any more
            raise Differs(f"tools/shell on a terminal ended: {shown!r}") from None
