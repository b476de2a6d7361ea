"""Counts the instructions of the built programs over an input, as callgrind counts them."""

import os
import re
import shutil
import subprocess
import tempfile
from collections.abc import Sequence

from common import calling
from common.calling import REPOSITORY, ensure, there

PROGRAM = os.path.join(REPOSITORY, "crates", "pip", "out", "pip")
COLLECTED = re.compile(rb"Collected : (\d+)")

# Where the stack begins depends on the environment and the program's path, and with it how many instructions some
# copies take. So the environment is empty, and the path the same everywhere. Only the C library has a setting: where it
# zeroes or copies a page at a stroke, callgrind would count an instruction for each byte, so it is to do that by plain
# loads and stores.
NEVER = 1_000_000_000
ENVIRONMENT = {"GLIBC_TUNABLES": f"glibc.cpu.x86_rep_stosb_threshold={NEVER}:glibc.cpu.x86_rep_movsb_threshold={NEVER}"}


class Counted:
    """Programs whose instructions are counted, pip and the lab's, or one with the commands of both: copies of them, in
    a folder of their own."""

    def __init__(self, path: str = PROGRAM, is_both: bool = False) -> None:
        valgrind = there(shutil.which("valgrind"), "valgrind is needed: its callgrind counts the instructions")
        self.folder = tempfile.TemporaryDirectory()
        self.path = self.copied(path, "pip")
        self.lab = self.copied(path if is_both else calling.lab(path), "lab")
        self.command = [valgrind, "--tool=callgrind", "--callgrind-out-file=/dev/null"]

    def copied(self, path: str, name: str) -> str:
        ensure(os.access(path, os.X_OK), f"there is no program at {path}: build it by ./{name}, or name one by "
               "--program")
        copy = os.path.join(self.folder.name, name)
        shutil.copy(path, copy)
        return copy

    def called(self, words: Sequence[str]) -> list[str]:
        """The words that call the copy that has a command."""
        return [self.lab if words[0] in calling.LAB else self.path, *words]

    def instructions(self, text: bytes, *words: str) -> int:
        """The instructions with these words, or with `script`, over an input."""
        with tempfile.TemporaryFile() as file:       # a pipe would give the input in pieces, now these and now those
            file.write(text)
            file.seek(0)
            path, *given = self.called(words or ["script"])
            done = subprocess.run([*self.command, f"./{os.path.basename(path)}", *given], stdin=file,
                                  cwd=self.folder.name, env=ENVIRONMENT, stdout=subprocess.DEVNULL,
                                  stderr=subprocess.PIPE)
        ensure(not done.returncode, f"the program ends with status {done.returncode}")
        return int(there(COLLECTED.search(done.stderr), "valgrind says no count")[1])

    def written(self, text: bytes, *words: str) -> bytes:
        """What the program writes."""
        return subprocess.run(self.called(words), input=text, stdout=subprocess.PIPE, check=True).stdout
