"""Says how an export differs from its sources: each word that came or went otherwise than by the known rules is a
difference."""

from __future__ import annotations

import re
from collections import Counter
from dataclasses import dataclass, field
from pathlib import Path

from .crates import Crate, crates_of
from .expecting import Due, Slot, due
from .rewriting import Role
from .scanner import Word, words_of
from .tokens import Trouble


# A source that has documentation alone
EMPTY = re.compile(r"(?://!.*\n|\n|#\[cfg_attr\(doc, doc = include_str!\(\"[^\"]*\"\)\)\]\n|pub mod \w+ \{\}\n)*")


@dataclass
class Report:
    """What was compared, what went and came by kinds, and where something else differs."""

    files: int = 0
    words: int = 0
    went: "Counter[str]" = field(default_factory=Counter)
    came: "Counter[str]" = field(default_factory=Counter)
    differences: list[str] = field(default_factory=list)

    def text(self) -> str:
        lines = [f"{self.files} files with {self.words} words of code"]
        lines += [f"the sources have more: {counts(self.went)}", f"the export has more: {counts(self.came)}"]
        return "\n".join(lines + [f"differs: {difference}" for difference in self.differences])


def counts(found: "Counter[str]") -> str:
    return ", ".join(f"{count} {kind}" for kind, count in sorted(found.items()) if count)


def compared(repository: Path, export: Path) -> Report:
    """The comparison of all crates of which there is an export in the folder."""
    report = Report()
    crates = [crate for crate in crates_of(repository).values() if (export / "crates" / crate.name).is_dir()]
    if not crates:
        report.differences.append(f"{export} has no crate of {repository}")
    for crate in crates:
        compare_crate(crate, export / "crates" / crate.name, report)
    return report


def compare_crate(crate: Crate, export: Path, report: Report) -> None:
    due_files = {path.relative_to(crate.folder).with_suffix(".rs"): path for path in crate.sources()}
    there = {path.relative_to(export) for path in export.rglob("*.rs")}
    pages = export / "src" / "specs.rs"
    if pages.exists() and EMPTY.fullmatch(pages.read_text(encoding="utf-8")):
        there.discard(pages.relative_to(export))
    report.differences += [f"{export / name} is missing" for name in sorted(set(due_files) - there)]
    report.differences += [f"{export / name} is of no source" for name in sorted(there - set(due_files))]
    for name in sorted(there & set(due_files)):
        text = (export / name).read_text(encoding="utf-8")
        found = difference(due_files[name].read_text(encoding="utf-8"), text, crate.role(due_files[name]), report)
        report.differences += [f"{export / name}{found}"] if found else []


def difference(source: str, export: str, role: Role, report: Report) -> str | None:
    """The first difference of a file, as `:LINE: ..`, or None."""
    try:
        wanted = due(words_of(source, True), role)
        found = words_of(export, False)
    except (Trouble, IndexError) as trouble:
        return f": {trouble}"
    report.files += 1
    report.words += len(wanted.words)
    report.went += wanted.went
    report.came += wanted.came
    code = [word for word in found if word.kind == "code"]
    return first_difference(wanted, code, report) or missing_clause(wanted.clauses, found)


def first_difference(wanted: Due, found: list[Word], report: Report) -> str | None:
    at = 0
    for place, word in enumerate(wanted.words):
        if place in wanted.slots:
            at, wrong = pass_tests(found, at, wanted.slots[place], report)
            if wrong:
                return wrong
        if at == len(found) or found[at].text != word.text:
            return difference_at(found, at, f"{word.text!r} of line {word.line} of the source is due")
        at += 1
    return difference_at(found, at, "nothing more is due") if at < len(found) else None


def difference_at(found: list[Word], at: int, wanted: str) -> str:
    if at == len(found):
        return f": it ends where {wanted}"
    return f":{found[at].line}: {found[at].text!r} where {wanted}"


def pass_tests(found: list[Word], at: int, slot: Slot, report: Report) -> tuple[int, str | None]:
    """Goes over the tests of what a function requires. Each is a condition of one of its clauses; an unsafe body has
    one for each clause at least, which is made in each build."""
    macro = "assert" if slot.unsafe or slot.entrance else "debug_assert"
    begin, tested = at, []
    while [word.text for word in found[at:at + 3]] == [macro, "!", "("]:
        end = next((place for place in range(at + 3, len(found)) if found[place].text == ";"), len(found))
        inside = [word.text for word in found[at + 3:end - 1]] if found[end - 1].text == ")" else []
        if slot.entrance and inside[-2:-1] == [","] and inside[-1].startswith('"'):
            inside = inside[:-2]                                                        # without its sentence
        tested.append(condition(inside))
        at = end + 1
    conditions = [conditions_of(clause) for clause in slot.clauses]
    wrong = [test for test in tested if not any(test in those for those in conditions)]
    if wrong:
        return at, difference_at(found, begin, f"a test of what is required is due, and not of {wrong[0]!r}")
    if slot.unsafe and any(not set(those) & set(tested) for those in conditions):
        return at, difference_at(found, begin, "a test of each requirement of an unsafe body is due")
    if slot.entrance and not tested:
        return at, difference_at(found, begin, "a test of what an entrance requires is due")
    report.came[macro + "! of a requirement"] += len(tested)
    return at, None


def condition(test: list[str]) -> str:
    """A test, written as a clause writes it."""
    text = " ".join(test)
    text = re.sub(r"\( (\w+(?: \. \w+)*(?: \( \))?) as u128 \)", r"\1", text)
    text = re.sub(r"((?:\w+ \. )*\w+) \. len \( \)", r"length \1", text)
    text = re.sub(r"std : : has_booted ! \( (\w+) \)", r"HasBooted ( M . memory \1 )", text)
    text = re.sub(r"(\w+) \. number \( \)", r"\1", text)
    text = re.sub(r"(\w+) \. cpus \( \)", r"P . count \1", text)
    text = re.sub(r"(\w+) \. count \( \)", r"length ( M . memory \1 )", text)
    text = re.sub(r"matches ! \( (\w+) , Size : : Word \) \| \| (\w+) < 256", r"\2 < below_of \1", text)
    text = re.sub(r"(\w+) \. iter \( \) \. all \( \| (\w+) \| \* (\2 < \d+) \)", r"All ( λ \2 . \3 ) \1", text)
    for ours, theirs in (("< =", "≤"), ("= =", "≡"), ("! =", "≢")):
        text = text.replace(ours, theirs)
    return text


def conditions_of(clause: str) -> list[str]:
    """What a clause says, in parts, without the marks that a test hasn't."""
    words = [word.text for word in words_of(clause[clause.index("{") + 1:clause.rindex("}")], False)]
    text = " ".join(words)
    text = re.sub(r" \. (?:now|old)\b(?: \. items\b)?| \. items\b", "", text)
    text = re.sub(r"(\d+) \^ (\d+)", lambda match: str(int(match.group(1)) ** int(match.group(2))), text)
    text = text.replace("vec_len", "length").replace("array_string_len", "length")
    return [part[2:-2] if re.fullmatch(r"\( [^(]* \)", part) else part for part in parts_of(text)]


def parts_of(text: str) -> list[str]:
    """What `×` joins outside of all brackets."""
    parts, depth = [""], 0
    for word in text.split(" "):
        depth += (word in ("(", "[", "{")) - (word in (")", "]", "}"))
        if word == "×" and depth == 0:
            parts.append("")
        else:
            parts[-1] += " " + word
    return [part.strip() for part in parts]


def missing_clause(clauses: list[str], found: list[Word]) -> str | None:
    """The first clause of a function that no comment of the export shows."""
    comments = (unlinked(word.text) if word.text.startswith("///") else word.text for word in found
                if word.kind == "comment")
    shown = " ".join(" ".join(comment.lstrip("/") for comment in comments).split())
    missing = next((clause for clause in clauses if " ".join(clause.split()) not in shown), None)
    return f": no comment shows {missing!r}" if missing else None


def unlinked(comment: str) -> str:
    """A line of documentation as it was written, without the marks of Markdown and HTML."""
    text = re.sub(r"</?code>|&nbsp;", "", comment)
    text = re.sub(r"(?<!\\)\]\((?:crate|\w+)::[^)]*\)", "]", text)
    return re.sub(r"\\(.)|[\[\]]", r"\1", text)
