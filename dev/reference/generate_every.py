"""Small images made from a seed for the commands every and against, with menus for the second, and the words of the
search.

Some end, some loop, some lend memory to a child, and in some a child and the root add to one word on two processors.
Lines come at any time, or from a turn on that is near the one in which the root first yields. One search in three
begins after some steps of a run, often near that turn, too.

Each menu has deeds of the root's child, of each partition, and now and then of the root or of none; one in eight has a
line that is bad or nearly so. Half ask whether labels can come again, most of which are shown by few choices, and two
in five leave out words, most of them of the child's pages."""

import random

from common.machine import against, assembly, image, runs, script
from .generate_programs import CHILDREN, CODE, Text, joined, spoilt_image
from common.machine.image import Image
from common.machine.model import HANDLERS, PAGE, ROOT, SAVED
from .phrases import LINES
from common.machine.runs import Turn

CHILD, DATA = CHILDREN[0], 0x10001000
LONGEST = 300                            # the first yield is looked for in at most so many turns
STATES = (1, 2, 7, 40, 150, 400, 400, 400, 1000, 1000, 2500)


class Small(Text):
    """The text of an image that does little."""

    def image(self) -> list[str]:
        has_child = self.chance(0.6)
        taken = self.random.sample(range(16), 16 if self.chance(0.02) else self.pick(0, 1, 1, 1, 2))
        self.begin(48 if has_child else self.pick(16, 24),
                   self.pick(1, 2, 2, 2, 3, 3, 4) if has_child else self.pick(1, 1, 2, 3),
                   [(line, self.random.randrange(100), self.pick(0, 0, 30)) for line in taken])
        self.page(0x400000)
        if self.chance(0.5):
            self.say("sys 10")
        if has_child:
            self.tell("child", D=CHILD)
            self.tell("enters", D=CHILD)
        root = {"WHERE": "SHARED", "TARGET": "CHILD" if has_child else 1, "D": "CHILD" if has_child else 1,
                "TAKEN": 30 if has_child else 0}
        self.part("small", **root)
        others = {vector for vector in (0, 6, 14, SAVED, 64, 65) if self.chance(0.7)}
        lines = {32 + line for line in taken if not self.chance(0.1)}
        entries = {vector: self.part("small handler", **root) for vector in sorted(lines | others)}
        self.page(HANDLERS)
        self.table(entries)
        if has_child:
            self.page(CHILD + 11 * PAGE)
            self.part("small", WHERE="DATA", TARGET="0|1", TAKEN=0)
            self.page(CHILD + 12 * PAGE)
            self.table({vector: f"0x{CODE:08x}" for vector in (64, SAVED, 65) if vector == 64 or self.chance(0.7)})
        return self.lines

    def part(self, name: str, **names: object) -> str:
        """A phrase that may begin again; the name of where it begins."""
        top = self.label()
        self.say(f"{top}:")
        self.tell(name, TOP=top, **names)
        return top


def turns_to_yield(machine: Image) -> int:
    """How many turns of processor 0 are made before the root runs there no longer, without any line."""
    world = image.world(machine)
    for turn in range(LONGEST):
        at = world.processors[0]
        if at is None or at.name != ROOT:
            return turn
        Turn(world, 0, turn, lambda line: None).take()
    return LONGEST


def words_of(rng: random.Random, machine: Image) -> list[str]:
    """The words of a search: how many states, from which turn on lines come, how deep, and after which steps."""
    words, until = [rng.choice(STATES)], turns_to_yield(machine)
    if rng.random() < 0.8:
        near = max(until + rng.randrange(-3, 6), 0)
        words.append(rng.choice((0, 0, rng.randrange(20), near, near, near)))
        if rng.random() < 0.4:
            words.append(rng.choice((1, 2, rng.randrange(3, 60), max(near, 1) + rng.randrange(30), 100000)))
    if rng.random() >= 0.35:
        return list(map(str, words))
    near = max(until * machine.cpus + rng.randrange(-9, 30), 0)
    steps = rng.choice((0, 1, rng.randrange(40), rng.randrange(400), near))
    return [*map(str, words), "after", str(steps), str(rng.choice((1, 4294967295, rng.randrange(1, 1 << 32))))]


def case(seed: int) -> tuple[list[str], bytes]:
    """The words after the command, and an image; now and then a faulty one."""
    rng = random.Random(seed)
    data = assembly.assemble(joined(rng, Small(seed).image()))
    words = words_of(rng, image.read(data))
    return words, data if rng.random() >= 0.04 else spoilt_image(rng, data)


# Menus

SHORT = 60                               # labels are looked for in so many choices
LEFT_OUT_ODDLY = ("any", "free 01", "seen 9", "seen 9 1024", "any 1 2", "free  9", "seen 9 1 ", "anyx 1", "entry 9",
                  "entry 9 1 2", "row 9 0xfffff 36", "row 9 1 36 7 1", "row 9 1 36 7 ", "entry")


def put(rng: random.Random, lines: list[bytes], line: bytes) -> None:
    lines.insert(rng.randrange(len(lines) + 1), line)


def menu(rng: random.Random) -> list[bytes]:
    text = Text(rng.getrandbits(32))
    for _ in range(rng.choice((0, 1, 1, 2, 2, 3, 3, 4, 6, 9))):
        text.tell("deed")
    lines = [line.encode() for line in text.lines]
    if rng.random() < 0.01:
        blank = [b""] * (against.MOST_LINES - rng.choice((1, 2)))
        return [rng.choice((b"", b"#")), *blank, rng.choice((b"", b"each ld 0", b"x"))]
    if lines and rng.random() < 0.02:
        return lines[:1] * (against.MOST_DEEDS + rng.choice((-1, 0, 1)))
    for line in (b"", b"# a remark"):
        if rng.random() < 0.2:
            put(rng, lines, line)
    if rng.random() < 0.12:
        put(rng, lines, rng.choice(LINES["odd lines of a menu"]))
    return lines


def labels(rng: random.Random, data: bytes, lines: list[bytes]) -> list[bytes]:
    """Lines that ask of labels: of some that come soon, and now and then of another or of too many."""
    try:
        machine = image.read(data)
        deeds = against.menu_of(b"\n".join(lines)).deeds
    except (image.BadImage, script.BadLine):
        return []
    moments = against.Moments(machine, 0, runs.steps(machine, *runs.AT_FIRST), deeds)
    known = [*(f"{cpu} {text}" for cpu, text in shown(rng, moments)), "0 out 0x00000001", "out"]
    count = rng.choice((1, 1, 2, 3, 5, against.MOST_LABELS, against.MOST_LABELS + 1) if rng.random() < 0.1 else (1, 2))
    return [rng.choice((b"again ", b"comes ")) + rng.choice(known).encode() for _ in range(count)]


def shown(rng: random.Random, moments: against.Moments) -> dict[against.Label, None]:
    """What is shown by choices in a row, of which more are turns."""
    at, found = moments.start, dict[against.Label, None]()
    for _ in range(SHORT):
        choices = moments.choices if rng.random() < 0.3 else range(moments.cpus)
        at, label = moments.after(at, rng.choice(choices))
        found.update({label: None} if label else {})
    return found


def left_out(rng: random.Random, data: bytes) -> list[bytes]:
    """Lines that leave words out, most of them of the child's pages; now and then a bad one, or too many."""
    try:
        world = image.world(image.read(data))
    except image.BadImage:
        return []
    rows = world.tree.nodes[ROOT].rows
    child, *pages = (rows[CHILD // PAGE + place].page if CHILD // PAGE + place in rows else 9
                     for place in (0, 11, 12, 13))
    lines = [f"any {rng.choice((child, child, child, ROOT, rng.randrange(48)))}"] * rng.choice((0, 1, 1, 1))
    lines += [f"free {page}" for page in pages[:2] if rng.random() < 0.8]
    lines += [f"free {rng.randrange(48)}"] * (rng.random() < 0.2)
    entry = f"entry {child}" if rng.random() < 0.6 else f"seen {pages[1]}"
    lines += [f"{entry} {vector}" for vector in (32, SAVED, 64, 65) if rng.random() < 0.8]
    if entry.startswith("entry") or rng.random() < 0.1:
        lines += named_rows(rng, child, pages)
    lines += [f"seen {rng.choice(pages)} {rng.randrange(1024)}"] * (rng.random() < 0.2)
    if rng.random() < 0.06:
        lines.append(rng.choice(LEFT_OUT_ODDLY))
    if rng.random() < 0.03:
        lines += ["any 9"] * (63 + rng.randrange(3))
    return [line.encode() for line in lines]


def named_rows(rng: random.Random, child: int, pages: list[int]) -> list[str]:
    """Lines that name the rows of the child, most of them right."""
    rows = [(CODE, pages[0], 5), (DATA, pages[2], 3), (HANDLERS, pages[1], 3)]
    lines = [f"row {child} {address // PAGE:#x} {page} {rights}" for address, page, rights in rows]
    if rng.random() < 0.15:
        page = rng.choice((9, *pages))
        lines[rng.randrange(3)] = f"row {child} {rng.choice(rows)[0] // PAGE:#x} {page} {rng.randrange(8)}"
    return lines[::-1] if rng.random() < 0.05 else lines


def menu_case(seed: int) -> tuple[list[str], bytes]:
    """The words after the command, and an image with a menu after it; now and then a faulty one."""
    words, data = case(seed)
    rng = random.Random(seed)
    lines = menu(rng)
    if len(lines) > 100:
        words[0] = str(min(int(words[0]), 3))
    elif rng.random() < 0.6:
        words[0] = "1500"                # room for what comes once the child was made
    if len(lines) <= 100 and rng.random() < 0.5:
        for line in labels(rng, data, lines):
            put(rng, lines, line)
        if rng.random() < 0.8:
            for line in left_out(rng, data):
                put(rng, lines, line)
        if rng.random() < 0.7:
            after = words.index("after") if "after" in words else len(words)
            words = ["1500", *words[1:min(after, 2)], *words[after:]]    # most of these searches close
    return words, data + b"\n".join(lines) + (b"\n" if lines and rng.random() < 0.8 else b"")
