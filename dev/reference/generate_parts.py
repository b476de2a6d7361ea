"""Certificates with something wrong, and inputs made from a seed for the commands part and merge."""

from __future__ import annotations

import random
from collections.abc import Iterator

from common.machine import image

from . import generate_every, parts
from .parts import Part

def wrong_lines(chance: random.Random, lines: list[bytes], count: int) -> Iterator[tuple[str, list[bytes]]]:
    """Lines of all parts, sorted, with one thing wrong that the merge has to find, and what that is."""
    own = [i for i, line in enumerate(lines) if line[-11:-9] == b" +"]
    asked = [i for i, line in enumerate(lines) if line[-11:-9] == b" ?"]
    shown = [i for i, line in enumerate(lines) if line.startswith(b"line ")]
    told = [i for i, line in enumerate(lines) if line.startswith(b"part ")]
    places = {"key": own, "twice": own, "deeper": own, "ask": asked, "asked twice": asked, "sooner": asked,
              "label": shown, "label everywhere": shown, "label twice": shown, "label for another": shown,
              "part": told, "other": told, "numbers": told, "form of a key": own, "form of a label": shown,
              "form of a part": told}
    for _ in range(count):
        kind = chance.choice([kind for kind, known in places.items() if known])
        at = chance.choice(places[kind])
        line = lines[at]
        if kind == "label everywhere":
            yield kind, [each for each in lines if each != line]
            continue
        if kind in ("key", "ask", "label", "part"):
            changed: list[bytes] = []
        elif kind in ("twice", "asked twice", "label twice"):
            changed = [line, line]
        elif kind == "label for another":
            changed = [changed_label(chance, line)]
        elif kind == "form of a key":
            changed = [line, line[-11:]]
        elif kind == "form of a label":
            changed = [chance.choice([b"line", b"linex", b"line 9 x", b"line 0 ", b"line 4" + line[6:], line + b" ",
                                      b"line  " + line[5:], b"line" + line[5:], line[:7] + b"0" + line[7:]])]
        elif kind == "form of a part":
            about = chance.choice([b"", b"x", line[5:-46], b"0" + line[5:-45], line[5:-45] + b"0", b" " + line[5:-45]])
            yield kind, sorted(b"part " + about + each[-45:] if i in told else each for i, each in enumerate(lines))
            continue
        elif kind == "deeper":
            if not any(lines[i][:-11] == line[:-11] and lines[i][-8:] == line[-8:] for i in asked):
                continue                         # nobody asks for it so soon
            changed = [line[:-8] + b"%08x" % (int(line[-8:], 16) + 1)]
        elif kind == "sooner":
            held = next(lines[i] for i in own if lines[i][:-11] == line[:-11])
            if held[-8:] == b"00000000":
                continue
            changed = [line[:-8] + b"%08x" % (int(held[-8:], 16) - 1)]
        elif kind == "other":
            changed = [line.replace(b"part ", b"part 1", 1)]
            if len(told) == 1:
                continue
        else:
            end = chance.randrange(len(line) - 27, len(line) + 1, 9)            # of one of the numbers but WAY
            changed = [line[:end - 8] + b"%08x" % (int(line[end - 8:end], 16) ^ 1 << chance.randrange(32)) + line[end:]]
        yield kind, sorted(lines[:at] + changed + lines[at + 1:])


def changed_label(chance: random.Random, line: bytes) -> bytes:
    """The line of a label with another letter or digit somewhere in its text."""
    at = chance.randrange(len(b"line 0 "), len(line))
    other = chance.choice(sorted(set(b"0123456789abcdefout") - {line[at]}))
    return line[:at] + bytes([other]) + line[at + 1:]


# Inputs of the commands


def part_case(seed: int) -> tuple[list[str], bytes]:
    """FROM, or none, and an image with a part of any marks after it; now and then a faulty one."""
    chance = random.Random(seed)
    _, data = generate_every.case(seed)
    words = [str(chance.choice((0, 0, 1, 30)))] if chance.random() < 0.7 else []
    try:
        machine = image.read(data)
    except image.BadImage:
        return words, data
    choices = machine.cpus + len(machine.plans)
    places = sorted({(chance.randrange(machine.frames), chance.randrange(1024)) for _ in range(chance.randrange(4))})
    runs = [chance.randrange(choices) for _ in range(chance.randrange(6))]
    own = chance.random()
    part = Part([(*place, chance.randrange(1 << 32)) for place in places],
                [choice for choice in runs for _ in range(chance.randrange(1, 4))],
                [int(chance.random() < own) for _ in range(chance.randrange(60))])
    if chance.random() < 0.8:
        part = parts.fitted(choices, part)
    if chance.random() < 0.3:
        return words, data + wrong_text(chance, machine.frames, choices, part)
    if places and chance.random() < 0.1:
        at = chance.randrange(len(places))                       # of a word that is the booted one
        part.base[at] = (*places[at], parts.booted_word(machine, *places[at]))
    return words, data + parts.written(part)


def wrong_text(chance: random.Random, frames: int, choices: int, part: Part) -> bytes:
    """The text of a part with one thing wrong."""
    text = parts.written(part)
    kind = chance.choice(("short", "long", "frame", "base", "choice", "empty", "again", "marks"))
    if kind == "short":
        return text[:chance.randrange(len(text))]
    if kind == "frame":
        return parts.written(part._replace(base=[*part.base, (frames, 0, 7)]))
    if kind == "base" and part.base:
        return parts.written(part._replace(base=[*part.base, part.base[-1]]))
    if kind == "choice":
        return parts.written(part._replace(way=[*part.way, choices]))
    at = 4 + 12 * len(part.base)                     # how many runs the way has
    if kind == "empty" and part.way:
        return text[:at + 8] + bytes(4) + text[at + 12:]
    if kind == "again" and part.way:
        runs = int.from_bytes(text[at:at + 4], "little")
        return text[:at] + (runs + 1).to_bytes(4, "little") + text[at + 4:at + 12] + text[at + 4:]
    if kind == "marks" and len(part.marks) % 8:
        return text[:-1] + bytes([text[-1] | 128])
    return text + b"\0"


def merge_case(seed: int) -> tuple[list[str], bytes]:
    """No words, and the lines of all parts of a certificate of nothing; most have something wrong."""
    chance = random.Random(seed)
    lines, owned, asking = [], [0, 0, 0], [0, 0, 0]
    for key in sorted({chance.randbytes(chance.randrange(1, 4)) for _ in range(chance.randrange(1, 12))}):
        part, depth = chance.randrange(3), chance.randrange(5)
        lines.append(f"{key.hex()} + {depth:08x}")
        owned[part] += 1
        for _ in range(chance.randrange(3)):
            lines.append(f"{key.hex()} ? {depth + chance.randrange(3):08x}")
            asking[chance.randrange(3)] += 1
    shown, sums = [0, 0, 0], [0, 0, 0]
    for _ in range(chance.randrange(5)):
        part, label = chance.randrange(3), f" {chance.randrange(2)} out 0x{chance.randrange(4):08x}"
        lines.append(f"line{label}")
        shown[part], sums[part] = shown[part] + 1, (sums[part] + parts.label_sum(label.encode())) % 2 ** 32
    first = chance.randrange(4)                  # of three: it may be that no part is the first
    for i in range(3):
        numbers = (int(i != first), owned[i], asking[i], shown[i], sums[i])
        lines.append(f"part 16 1 0 1 0 {7:016x} {' '.join(f'{number:08x}' for number in numbers)}")
    told = sorted(line.encode() for line in lines)
    kind = chance.random()
    if kind < 0.4 and any(asking):
        told = next((wrong for _, wrong in wrong_lines(chance, told, 20)), told)
    if 0.7 < kind < 0.8:                         # two lines change places
        i, j = chance.randrange(len(told)), chance.randrange(len(told))
        told[i], told[j] = told[j], told[i]
    text = b"\n".join(told) + (b"" if chance.random() < 0.2 else b"\n")
    return [], spoilt(chance, text) if kind > 0.8 else text


def spoilt(chance: random.Random, text: bytes) -> bytes:
    """Bytes of which one is another, or is missing, or comes twice, or the end of which is missing."""
    at = chance.randrange(len(text))
    kind = chance.randrange(4)
    if kind == 0:
        return text[:at] + bytes([chance.choice((0, 1, 10, 32, 48, 97, text[at] ^ 1, 255))]) + text[at + 1:]
    if kind == 1:
        return text[:at] + text[at + 1:]
    return text[:at + 1] + text[at:] if kind == 2 else text[:at]
