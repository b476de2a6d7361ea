"""A script or a run of an image as one page to step through. The page draws what the program printed, and nothing else.

    class/step/step SCRIPT > page.html
    class/step/step PROGRAM STEPS SEED > page.html"""

import argparse
import os
import sys

from authors import asmx
from common import calling
from common.calling import ensure
from . import page, states

MOST_STEPS = 10_000_000


def main() -> None:
    parser = argparse.ArgumentParser(description="A script or a run of an image as one page to step through.",
                                     epilog="With a number of steps and a seed FILE is an image or a source, else a "
                                            "script; - is standard input. The page goes to standard output, and needs "
                                            "no network.")
    parser.add_argument("file", metavar="FILE")
    parser.add_argument("steps", nargs="?", metavar="STEPS", help="of an image: how many steps are made",
                        type=calling.within(0, MOST_STEPS, "STEPS"))
    parser.add_argument("seed", nargs="?", metavar="SEED", help="of an image: the seed of the schedule",
                        type=calling.within(1, 0xFFFFFFFF, "SEED"))
    parser.add_argument("--from", dest="first", default="0", metavar="STEP", help="of an image: the page begins here")
    parser.add_argument("--to", dest="last", metavar="LINE", help="of a script: the page ends with this line",
                        type=calling.within(1, 1 << 24, "--to"))
    calling.take_source(parser)
    calling.take_jobs(parser)
    calling.take_program(parser)
    calling.started(parser, write)


def write(given: argparse.Namespace) -> None:
    ensure(given.steps is None or given.seed is not None, "of an image the steps and the seed are both needed")
    if given.steps is None:
        text = calling.contents(given.file, asmx.MOST_IMAGE)
        ensure(not text.startswith(b"PIPIMG"), f"{given.file} is an image: say how many steps, and the seed")
        found = states.of_script(given.program, text, given.last)
    else:
        first = calling.number(given.first, 0, given.steps, "--from")
        image, source = asmx.image_of(given.program, given.file)
        found = states.of_image(given.program, image, first, given.steps, given.seed, given.jobs,
                                source or given.source)
    sys.stdout.write(page.written(os.path.basename(given.file), found))
