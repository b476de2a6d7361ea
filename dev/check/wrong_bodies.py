"""The wrong bodies that are kept apply to the sources, and are as many as CONTRIBUTING.md says; and of those that the
gate doesn't try some are tried at each commit, and ten more, drawn by the commit."""

from __future__ import annotations

import collections
import hashlib
import time
from collections.abc import Iterable

from edits import tried
from edits.reading import ADMITTED, ALWAYS, GATE, TRIED, Edit, NotApplied, all_edits, edited
from .running import REPOSITORY, Differs, Skipped, each, ensure, needed, part, planted_for, run, text_of

DRAWN, CRATES = 10, 2    # how many are tried, and of how many crates at most
SECONDS = 900            # after which no further one is begun
# How CONTRIBUTING.md says how many there are
COUNTS = {GATE: r"tries (\d+) edits", ALWAYS: r"tries (\d+) more", TRIED: r"(\d+) others",
          ADMITTED: r"admits? (\d+) more"}


def edits(program: str) -> None:
    """Each edit applies, no two of a crate have one name, and CONTRIBUTING.md has their numbers. Planted ones are tried
    first."""
    with planted_for("edits") as place:
        if len(troubles(place)) != 6:
            raise Differs(f"planted edits: {troubles(place)}")
    if found := troubles(REPOSITORY):
        raise Differs("; ".join(found))
    counts = collections.Counter(edit.kind for edit in all_edits(REPOSITORY))
    for kind, words in COUNTS.items():
        named = part(words, text_of("CONTRIBUTING.md"))
        if named != str(counts[kind]):
            raise Differs(f"CONTRIBUTING.md has {named} edits of the kind {kind}, and there are {counts[kind]}")


def troubles(top: str) -> list[str]:
    """Each edit that doesn't apply, and each name that two edits of a crate have."""
    found = []
    names: collections.Counter[tuple[str, str]] = collections.Counter()
    for edit in all_edits(top):
        names[edit.crate, edit.name] += 1
        try:
            edited(top, edit)
        except NotApplied as why:
            found.append(f"{edit.place}: {why}")
    return found + [f"two edits of {crate} are called {name}" for (crate, name), count in names.items() if count > 1]


def drawn_edits(program: str) -> None:
    """The prover refuses each edit that is tried always, and each that is drawn, as it did once."""
    drawing()
    needed("rt")
    commit, status = run([needed("git"), "rev-parse", "HEAD"])
    if status:
        raise Skipped("no commit")
    known_edits = list(all_edits(REPOSITORY))
    chosen = [*(edit for edit in known_edits if edit.kind == ALWAYS), *drawn(known_edits, commit.decode().strip())]
    crates = sorted({edit.crate for edit in chosen})
    known, until = tried.chains(REPOSITORY), time.monotonic() + SECONDS
    results = each(lambda crate: refused([edit for edit in chosen if edit.crate == crate], known[crate], until), crates)
    judged = [(edit, outcome) for found in results for edit, outcome in found
              if not outcome.startswith(tried.UNJUDGED)]
    wrong = [f"{edit.place}: {outcome}" for edit, outcome in judged if not tried.is_due(edit.kind, outcome)]
    ensure(not wrong, f"an edit that was refused once isn't: mend it, or the contract. {'; '.join(wrong)}")
    left = len(chosen) - len(judged)
    if left:
        raise Skipped(f"{left} of {len(chosen)} edits not judged in time")


def refused(chosen: list[Edit], chain: list[str], until: float) -> list[tuple[Edit, str]]:
    """What becomes of edits of one crate, up to a time."""
    found = []
    for outcome in tried.outcomes(chosen, chain):
        found.append(outcome)
        if time.monotonic() > until:
            break
    return found


def drawn(edits: Iterable[Edit], commit: str) -> list[Edit]:
    """Ten edits, none of which each commit tries or a contract admits, of the crates of the first that are drawn."""
    order = sorted((edit for edit in edits if edit.kind == TRIED), key=lambda edit: hashlib.sha256(
        f"{commit} {edit.crate} {edit.name}".encode()).digest())
    crates = list(dict.fromkeys(edit.crate for edit in order))[:CRATES]
    return [edit for edit in order if edit.crate in crates][:DRAWN]


def drawing() -> None:
    """What is drawn is another for another commit, and comes to each edit."""
    kinds = (GATE, ALWAYS, TRIED, TRIED, TRIED, TRIED, TRIED, TRIED, ADMITTED)
    planted = [Edit(f"pip_{crate}", kind, f"edit_{k}", ()) for crate in "abc" for k, kind in enumerate(kinds)]
    seen = set()
    for commit in range(60):
        chosen = drawn(planted, str(commit))
        seen.update(chosen)
        few = len({edit.crate for edit in chosen}) <= CRATES
        ensure(len(chosen) == DRAWN and few and chosen == drawn(planted, str(commit)), f"of planted edits {chosen} are "
               "drawn")
    ensure(seen == {edit for edit in planted if edit.kind == TRIED}, f"of planted edits {len(seen)} are drawn in all")
