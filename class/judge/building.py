"""The judge as a program, which cargo builds where a source is newer."""

from __future__ import annotations

import argparse
from pathlib import Path

from common import calling
from exporter.building import Program

HERE = Path(__file__).resolve().parent
JUDGE = Program("pip_judge", "the judge", HERE,
                ("pip_asm", "pip_cpu", "pip_image", "pip_kern", "pip_script", "pip_switch"), ("host",),
                ", or copy the file that class/judge/make_judge --to FILE writes on a machine like this, and name it "
                "by the environment's PIP_JUDGE")


def main() -> None:
    parser = argparse.ArgumentParser(description="The judge of the exercises as a program, which cargo builds.")
    parser.add_argument("--to", type=Path, required=True, metavar="FILE", help="a copy of it")
    calling.started(parser, lambda given: JUDGE.copy(given.to))
