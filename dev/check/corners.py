"""Texts, images and memories with one fault each, or that are just good, and audits of what `core` writes, as it is and
with a word of a small machine's configuration changed. The program answers as the reference."""

import os
import random
from collections.abc import Iterator

from common import calling
from common.blocks import blocks, listed
from common.machine import against, runs, script
from reference import audit, commands as reference
from step import walk
from .running import Differs, contents, expect, paths, run

DATA = blocks("data/corners.txt", __file__)
BEGUN = DATA["begun text"].encode()
# The texts for images and memories of 16 frames, and a script for those of 64 with a child
IMAGE = b".frames 26\n.cpus 1\n.line 0 2 0\n.page 0x00400000\nli r1 7\nout r1\nsys 12\nint 64\n"
CHILD = b"boot 64 1\ncall 0 0 0x401000 0x402000 0x403000 0x404000 0x405000\n"
MANY = {b"REST": b" 00000000" * 7, b"MANY": b"each ld 0\n" * against.MOST_DEEDS,
        b"AGAIN": b"again x\n" * against.MOST_LABELS, b"BLANK": b"\n" * (against.MOST_LINES - 1)}


def listed_of(title: str) -> Iterator[bytes]:
    """The texts of a block."""
    for text in listed(DATA[title]):
        for word, told in MANY.items():
            text = text.replace(word, told)
        yield text


def changed(title: str, memory: audit.Memory) -> Iterator[bytes]:
    """The texts of a memory with each of these words changed."""
    for line in DATA[title].splitlines():
        yield with_word(memory, *(int(word, 0) for word in line.split()))


def texts() -> Iterator[bytes]:
    """Scripts with a bad line."""
    yield from (b"boot 64 1\n# here\n\n" + line + b"\n" for line in listed_of("lines of a script"))
    yield from (line + b"\n" for line in listed_of("first lines of a script"))


def assembly() -> Iterator[bytes]:
    """Assembly texts with a bad line."""
    yield from (BEGUN + line + b"\n" for line in listed_of("lines of a text"))
    yield from listed_of("heads of a text")


def images() -> Iterator[bytes]:
    data, _ = reference.pip(["asm"], IMAGE)
    yield from (data, b"", b"X" * 8, b"PIPIMG1\n", data[:-1], data + b"\0", data[:36], data[:35])
    for at, byte in ((8, 15), (8, 25), (12, 5), (24, 16), (36, 9)):
        yield data[:at] + bytes([byte]) + data[at + 1:]
    yield data[:8] + b"\x19" + data[9:24] + b"\x10" + data[25:]
    yield data[:20] + b"\x02" + data[21:] + data[36:]                       # a page twice
    yield data[:16] + b"\x02" + data[17:36] + data[24:]                     # a plan twice


def memories() -> Iterator[tuple[int, bytes]]:
    """Numbers of frames, and texts of them."""
    booted, _ = reference.pip(["core", "0", "1"], reference.pip(["asm"], IMAGE.replace(b"26", b"16"))[0])
    yield from ((16, text) for text in (booted, *listed_of("texts of frames")))
    yield from ((16, text) for text in changed("changed words", audit.read(16, booted)))
    world = script.ended(CHILD)[2]
    assert world is not None
    beside = reference.in_lines([*runs.core_lines(world.tree), "end 0"])
    yield from ((64, text) for text in changed("changed words beside a child", audit.read(64, beside)))


def cases() -> Iterator[tuple[list[str], bytes]]:
    chain = DATA["chain that collect hands back, and bytes of a word"].encode()
    odd = (BEGUN + line + b"\n" for line in listed_of("odd lines of a text"))
    yield from ((["script"], text) for text in (chain, *texts(), *listed_of("odd bytes")))
    yield from ((["asm"], text) for text in (*assembly(), *odd, *listed_of("odd bytes")))
    machine, _ = reference.pip(["asm"], IMAGE)
    yield from ((["against", "1"], machine + menu) for menu in listed_of("menus"))
    for image in images():
        yield from ((words, image) for words in (["run", "6", "1"], ["dis"], ["native", "1", "9"]))
    yield from ((["audit", str(frames)], text) for frames, text in memories())


def corners(program: str) -> None:
    for words, text in cases():
        expect(f"pip {' '.join(words)} of {text[:60]!r}..{text[-60:]!r}", run(calling.called(program, words), text),
               reference.told(words, text))


# Audits

STEPS = ("0", "1000")
SMALL = b".frames 16\n.cpus 1\n.page 0x00400000\nli r1 7\nout r1\nint 64\n"
USER_PAGES = range(12, 16)       # of the small machine
MASK, PENDING = (1, 14), (1, 15)   # words of its root that may tell something else
OTHERS = 400                     # words with no line in its text that are tried


def examples(program: str) -> Iterator[tuple[str, int, bytes]]:
    """Each image of examples/: its name, its frames, and its bytes."""
    for path in paths("examples/*.s"):
        data, status = run([program, "asm"], contents(path))
        if status:
            raise Differs(f"{os.path.basename(path)} has no image")
        yield os.path.basename(path), int.from_bytes(data[8:12], "little"), data


def round_trips(program: str) -> None:
    """What `core` writes of an image is audited as what `tree` writes of it."""
    for name, frames, data in examples(program):
        for count in STEPS:
            tree, _ = run([program, "tree", count, "1"], data)
            frames_text, _ = run([program, "core", count, "1"], data)
            told = tree[:tree.rindex(b"end ")] + b"yes\n"
            got = run([program, "audit", str(frames)], frames_text)
            expect(f"pip audit {frames} of core {count} 1 of {name}", got, (told, 0))


def small_text() -> bytes:
    """The text of the frames of a small machine that has done nothing."""
    data, _ = reference.pip(["asm"], SMALL)
    return reference.pip(["core", "0", "1"], data)[0]


def with_word(memory: audit.Memory, frame: int, index: int, word: int) -> bytes:
    """The text of a memory with one word changed."""
    changed = [list(words) for words in memory]
    changed[frame][index] = word
    return walk.core_text({f: {i: w for i, w in enumerate(words) if w} for f, words in enumerate(changed)}).encode()


def each_word(program: str) -> None:
    """A small machine with another word lays out no sound tree, but for users' words and the root's mask and lines."""
    rng, memory = random.Random(1), audit.read(16, small_text())
    told, _ = run([program, "audit", "16"], small_text())
    places = [(f, i) for f in range(16) for i in range(1024)]
    named = [(f, i) for f, i in places if any(memory[f][i // 8 * 8:i // 8 * 8 + 8])]
    for frame, index in named + rng.sample(places, OTHERS):
        word = memory[frame][index] ^ 1 << rng.randrange(16, 32)
        output, status = run([program, "audit", "16"], with_word(memory, frame, index, word))
        if frame in USER_PAGES:
            expect(f"word {index} of frame {frame} is a user's", (output, status), (told, 0))
        elif (frame, index) not in (MASK, PENDING) and status != 9:
            raise Differs(f"word {index} of frame {frame} is {word:#010x}: status {status}")
        expect(f"word {index} of frame {frame}, by the reference", (output, status),
               reference.pip(["audit", "16"], with_word(memory, frame, index, word)))
