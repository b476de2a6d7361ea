"""Words of a command line for tests of all that reads them: the programs, the reference, ./pip and ./lab. Each form of
a program is wrong at the other."""

from .blocks import blocks, listed

RIGHT, LAB_RIGHT, OTHERS, LAB_OTHERS = ([line.decode() for line in listed(text.replace(" | ", "\n"))]
                                        for text in blocks("forms.txt", __file__).values())
WRONG, LAB_WRONG = [*OTHERS, *LAB_RIGHT], [*LAB_OTHERS, "slots 1 0" + 65 * " 0:0", *RIGHT]


def words(line: str) -> list[str]:
    """The words of such a line, of which the last may be empty."""
    return line.split(" ") if line else []
