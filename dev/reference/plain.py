"""The plain program of dev/bench/plain, by which the searches and the certificates of the lab are judged."""

from __future__ import annotations

import functools
import os
import shutil
import subprocess
from collections.abc import Sequence

from common.calling import REPOSITORY, ensure, there

SOURCES = os.path.join(REPOSITORY, "dev", "bench", "plain", "Cargo.toml")
BUILT = os.path.join(REPOSITORY, "out", "plain")
SECONDS = 300            # one that takes longer has no answer


@functools.lru_cache(maxsize=None)
def program() -> str:
    """The path of the plain program, which cargo builds."""
    cargo = there(shutil.which("cargo"), "cargo is needed: it builds the plain program, which answers searches and "
                  "certificates")
    done = subprocess.run([cargo, "build", "--release", "--quiet", "--manifest-path", SOURCES, "--target-dir", BUILT])
    ensure(not done.returncode, "cargo doesn't build the plain program")
    return os.path.join(BUILT, "release", "pip-plain")


def told(words: Sequence[str], text: bytes) -> tuple[bytes, int]:
    """Output and status of the plain program."""
    done = subprocess.run([program(), *words], input=text, stdout=subprocess.PIPE, stderr=subprocess.DEVNULL,
                          timeout=SECONDS)
    return done.stdout, done.returncode
