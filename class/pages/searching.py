"""The index of a search in the documents: of each word the sections that have it, and how well."""

from __future__ import annotations

import json
import re
from collections.abc import Sequence

WORD = re.compile(r"[a-z0-9_]{2,}")
NUMBER = re.compile(r"0x[0-9a-f]+|[0-9]+")
OF_TITLES, MOST, SHIFT = 20, 31, 5          # a weight has five bits; a word of a title weighs most
BEGINNING = 140                                    # letters of a section that are shown


def index(pages: Sequence[tuple[str, str, Sequence[tuple[str, str, str]]]], prefix: str) -> str:
    """Of pages with their titles and sections, as JSON. A word's places are a section's number and a weight each."""
    sections: list[list[str]] = []
    words: dict[str, list[int]] = {}
    for page, title, parts in pages:
        for anchor, heading, text in parts:
            for word, weight in weights(heading, text).items():
                words.setdefault(word, []).append((len(sections) << SHIFT) + weight)
            sections.append([page, prefix + anchor, heading, title, re.sub(r"\s+", " ", text).strip()[:BEGINNING]])
    return json.dumps({"sections": sections, "words": words}, ensure_ascii=False, separators=(",", ":"))


def weights(heading: str, text: str) -> dict[str, int]:
    found: dict[str, int] = {}
    for word in WORD.findall(text.lower()):
        found[word] = min(9, found.get(word, 0) + 1)
    for word in WORD.findall(heading.lower()):
        found[word] = found.get(word, 0) + OF_TITLES
    return {word: min(MOST, weight) for word, weight in found.items() if not NUMBER.fullmatch(word)}
