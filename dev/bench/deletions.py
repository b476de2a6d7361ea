"""Two scripts for a case of deletePartition: one up to the deletion, and the same with it.

A case is `bare` (a child of five pages), `rows N` in one table, `tables N` without rows,
`children N` of the child, or `chain N` of partitions one below the other, as one word each (`rows1000`)."""

import re

ROOT_PAGES = [0x400000 + 4096 * k for k in range(1, 2000)]
CHILD_PAGES = [0xFFC00000 + 4096 * k for k in range(1000)]
SIZES = (0, 1, 2, 5, 10, 20, 50, 100, 200, 500, 1000)
GROWTH = {"chain": SIZES[1:8], "children": SIZES[:9], "tables": SIZES[:8], "rows": SIZES}     # what is drawn


def call(number: int, *arguments: int) -> str:
    return f"call 0 {number} " + " ".join(hex(a) for a in arguments)


def table(pages: list[int], first: int, place: int) -> list[str]:
    """Three pages from the one at `first` on become the child's tables for an address."""
    chain = pages[first : first + 3]
    return [f"st 0 {hex(a)} {hex(b)}" for a, b in zip(chain, chain[1:])] + [call(3, pages[0], place, chain[0])]


def lend(pages: list[int], first: int, count: int, place: int) -> list[str]:
    """That many pages from the one at `first` on are lent to the child, from an address on."""
    return [call(5, pages[first + k], pages[0], place + 4096 * k, 3) for k in range(count)]


def family(pages: list[int], count: int) -> list[str]:
    """A child with a handler for vector 64 and that many pages of its own, and the root's handler for 65."""
    lines = ["st 0 0xfffff104 0xfffff400", "st 0 0xfffff400 0x00400100", call(0, *pages[:5])]
    lines += table(pages, 5, 0xFFFFF000)
    lines += [f"st 0 {hex(pages[8] + 0x100)} 0xfffff400", f"st 0 {hex(pages[8] + 0x400)} 0x10000000"]
    lines += lend(pages, 8, 1, 0xFFFFF000)
    return lines + lend(pages, 9, count, CHILD_PAGES[0])


def before(kind: str, count: int) -> list[str]:
    pages = ROOT_PAGES
    if kind == "children":
        made = [call(0, *CHILD_PAGES[5 * k : 5 * k + 5]) for k in range(count)]
        return family(pages, 5 * count) + [call(8, pages[0], 64, 256)] + made + [call(8, 0, 65, 256)]
    if kind == "chain":
        lines = []
        for left in reversed(range(count)):
            lines += family(pages, 9 * left) + ([call(8, pages[0], 64, 256)] if left else [])
            pages = CHILD_PAGES
        return lines + [call(8, 0, 65, 256)] * (count - 1)
    lines = [call(0, *pages[:5])]
    if kind == "rows":
        lines += table(pages, 5, 0x10000000) + lend(pages, 8, count, 0x10000000)
    if kind == "tables":
        for k in range(count):
            lines += table(pages, 5 + 3 * k, 0x400000 * (k + 1))
    return lines


def scripts(case: str) -> tuple[str, str]:
    """The two scripts of a case such as `rows1000`: up to the deletion, and with it."""
    found = re.fullmatch(r"(bare|rows|tables|children|chain)(\d*)", case)
    if found is None:
        raise ValueError(case)
    kind, count = found.groups()
    lines = ["boot 2048 1"] + before(kind, int(count or 0))
    return "\n".join(lines) + "\n", "\n".join([*lines, call(1, ROOT_PAGES[0])]) + "\n"
