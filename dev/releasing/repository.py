"""A checkout of the repository: its commit, whether it is clean, and the programs that were built in it."""

from __future__ import annotations

import hashlib
import shutil
import subprocess
from dataclasses import dataclass
from pathlib import Path

from common import calling
from common.calling import Failed

WRAPPERS = {"pip": "pip", "lab": "pip_lab"}                 # and the program of each
PROVED = tuple(f"crates/{name}/out/{name}" for name in WRAPPERS.values())
UNPROVED = tuple(f"out/rust/target/release/{name}" for name in WRAPPERS.values())
MOST_NAMED = 5           # files that aren't committed


def sum_of(path: Path) -> str:
    """The SHA-256 of a file."""
    return hashlib.sha256(path.read_bytes()).hexdigest()


@dataclass(frozen=True)
class Checkout:
    place: Path

    @property
    def record(self) -> Path:
        """What `dev/release --gate` leaves."""
        return self.place / "out" / "gate.json"

    def version(self) -> str:
        """What the file VERSION says."""
        return (self.place / "VERSION").read_text(encoding="utf-8").strip()

    def git(self, *words: str) -> str:
        done = subprocess.run(["git", "-C", str(self.place), *words], stdout=subprocess.PIPE, stderr=subprocess.PIPE)
        if done.returncode:
            raise Failed(f"git {words[0]}: {done.stderr.decode('utf-8', 'replace').strip()}")
        return done.stdout.decode("utf-8", "surrogateescape")

    def commit(self) -> str:
        return self.git("rev-parse", "HEAD").strip()

    def tree(self) -> str:
        """The hash of all that is committed. Two commits of the same files have the same one."""
        return self.git("rev-parse", "HEAD^{tree}").strip()

    def seconds(self) -> int:
        """When the commit was made."""
        return int(self.git("log", "-1", "--format=%ct"))

    def files(self) -> list[str]:
        return [name for name in self.git("ls-files", "-z").split("\0") if name]

    def need_clean(self) -> None:
        """Refuses a checkout in which something differs from its commit, or isn't committed."""
        told = [line[3:] for line in self.git("status", "--porcelain", "--untracked-files=all").splitlines()]
        if told:
            more = f" and {len(told) - MOST_NAMED} more" if len(told) > MOST_NAMED else ""
            raise Failed(f"{self.place} isn't clean: {', '.join(told[:MOST_NAMED])}{more}")

    def sums(self) -> dict[str, str]:
        """Those of the proved programs that are there, by their paths."""
        return {path: sum_of(self.place / path) for path in PROVED if (self.place / path).is_file()}

    def need_unproved(self) -> None:
        """Refuses a checkout without the programs that cargo built of what is checked out, as ./pip and ./lab say."""
        for wrapper, path in zip(WRAPPERS, UNPROVED):
            if calling.built(str(self.place / wrapper)).get(calling.UNPROVED) != str(self.place / path):
                raise Failed(f"there is no program at {self.place / path} that is as new as the sources: "
                             "say ./pip --unproved script < examples/first.pip first")


def kit() -> str | None:
    """The line of `rt version`, or None where there is no kit."""
    if not shutil.which("rt"):
        return None
    done = subprocess.run(["rt", "version"], stdin=subprocess.DEVNULL, stdout=subprocess.PIPE,
                          stderr=subprocess.DEVNULL)
    return done.stdout.decode("utf-8", "replace").strip() if done.returncode == 0 else None
