"""A source with its tokens, and ways to find one's way in it. Places are those of tokens in the list, not of
characters."""

from __future__ import annotations

import re

from .pages import Names
from .tokens import Token, Trouble, tokens

IMPL = re.compile(r"^(impl\b[^{;]*)\{.*?^}", re.M | re.S)
PAIRS = {"{": "}", "(": ")", "[": "]"}


class Source:
    """The text of a file and its tokens."""

    def __init__(self, text: str, names: Names | None = None) -> None:
        self.text = text
        self.names = names or Names(text)
        self.tokens: list[Token] = tokens(text)
        self.impls = [(*found.span(), " ".join(found[1].split())) for found in IMPL.finditer(text)]

    def at(self, place: int) -> Token:
        """The token at a place; an empty one beyond the ends."""
        if 0 <= place < len(self.tokens):
            return self.tokens[place]
        return Token("none", len(self.text), len(self.text), "")

    def code(self) -> str:
        """The text with blanks in the place of comments, texts, characters, clauses and ghost items."""
        pieces, at = list[str](), 0
        for token in self.tokens:
            if token.kind in ("comment", "text", "char", "clause", "ghost"):
                pieces += [self.text[at:token.start], "\0" * (token.end - token.start)]
                at = token.end
        return "".join(pieces) + self.text[at:]

    def closing(self, place: int) -> int:
        """The place of what closes the bracket at `place`."""
        due: list[str] = []
        for here in range(place, len(self.tokens)):
            token = self.tokens[here]
            if token.kind != "punct":
                continue
            if token.text in PAIRS:
                due.append(PAIRS[token.text])
            elif due and token.text == due[-1]:
                due.pop()
            if not due:
                return here
        raise Trouble(f"nothing closes {self.text[self.tokens[place].start:][:40]!r}")

    def next_punct(self, place: int, texts: str) -> int:
        """The next place with one of these characters, brackets before it not passed over."""
        while not (self.at(place).kind == "punct" and self.at(place).text in texts):
            if place >= len(self.tokens):
                raise Trouble(f"nothing of {texts} follows")
            place += 1
        return place

    def line_start(self, character: int) -> int:
        """Where the line of a character begins."""
        return self.text.rfind("\n", 0, character) + 1

    def inset(self, character: int) -> str:
        """The blanks before the first letter of a character's line."""
        line = self.text[self.line_start(character):]
        return line[:len(line) - len(line.lstrip(" "))]

    def head(self, place: int) -> int:
        """The place where the comments, attributes and visibility begin that come right before a token."""
        while place > 0:
            before = self.before_in_head(place)
            if before is None:
                return place
            place = before
        return place

    def before_in_head(self, place: int) -> int | None:
        """The place of the piece of a head that comes right before a token."""
        last = self.at(place - 1)
        if last.is_word("pub"):
            return place - 1
        if last.is_punct(")") and self.at(place - 4).is_word("pub"):
            return place - 4
        if last.kind == "comment":
            return place - 1 if self.is_remark_of(place - 1, place) else None
        if last.is_punct("]"):
            return self.attribute_start(place - 1)
        return None

    def is_remark_of(self, comment: int, place: int) -> bool:
        """Whether a comment, on a line of its own, belongs to what is at `place`."""
        token = self.at(comment)
        alone = not self.text[self.line_start(token.start):token.start].strip()
        near = "\n\n" not in self.text[token.end:self.at(place).start]
        return alone and near and not token.text.startswith("//!")

    def attribute_start(self, bracket: int) -> int | None:
        """The place of the `#` of an attribute that ends there, or None where that is one of the whole crate."""
        while bracket >= 0 and not self.at(bracket).is_punct("#"):
            bracket -= 1
        return None if self.at(bracket + 1).is_punct("!") else bracket

    def function_of(self, place: int) -> int | None:
        """The place of the `fn` whose clauses begin at `place`, or None for those of a closure or a loop."""
        depth = 0
        for here in range(place - 1, -1, -1):
            token = self.tokens[here]
            if depth == 0 and token.is_word("fn") and not self.at(here + 1).is_punct("("):
                return here
            if token.kind != "punct":
                continue
            if depth == 0 and token.text in "}([{;":
                return None
            depth += (token.text in ")]}") - (token.text in "([{")
        return None

    def impl_of(self, place: int) -> str:
        """The head of the `impl` around a place, as "impl RawFrames", or "" where none is."""
        at = self.at(place).start
        return next((head for first, last, head in self.impls if first < at < last), "")

    def parameters(self, function: int) -> dict[str, str]:
        """The parameters of a function by their names, with the texts of their types, without lifetimes."""
        opening = self.next_punct(function, "(")
        found: dict[str, str] = {}
        for words in self.list_items(opening, self.closing(opening)):
            if ":" in words:
                colon = words.index(":")
                found[words[colon - 1] if colon else ""] = " ".join(words[colon + 1:])
        return found

    def list_items(self, opening: int, closing: int) -> list[list[str]]:
        """The texts of what commas part between two brackets."""
        items: list[list[str]] = [[]]
        depth = 0
        for place in range(opening + 1, closing):
            token = self.tokens[place]
            arrow = token.is_punct(">") and self.tokens[place - 1].is_punct("-")
            if token.kind in ("comment", "life"):
                continue
            if token.kind == "punct" and not arrow:
                depth += (token.text in "([{<") - (token.text in ")]}>")
            if token.is_punct(",") and depth == 0:
                items.append([])
            else:
                items[-1].append(token.text)
        return [item for item in items if item]
