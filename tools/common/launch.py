"""Runs the module of a command, whose file names it."""

from __future__ import annotations

import importlib
import os
import sys


def main(module: str) -> None:
    try:
        command = importlib.import_module(module)
    except KeyboardInterrupt:           # Ctrl-C while modules are read; each command answers it itself from then on
        sys.stderr.write(f"{os.path.basename(sys.argv[0])}: stopped\n")
        sys.exit(130)
    command.main()
