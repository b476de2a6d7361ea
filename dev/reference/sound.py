"""Soundness of trees and worlds, fact by fact in the order of docs/MODEL.md. The unit tests judge every world by it."""

from __future__ import annotations

from collections.abc import Iterator

from common.machine.caches import PLACES, Entry
from common.machine.model import PAGE, READ, ROOT, WORDS, Node, Tree, World, boot_tree, list_pages


def first_fault(tree: Tree) -> int | None:
    """The number of the first fact that doesn't hold, or None. A fact is asked only where those before it hold."""
    return next((number for number, holds in enumerate(facts(tree), 1) if not holds), None)


def facts(tree: Tree) -> Iterator[bool]:
    """Whether each fact holds of the tree."""
    nodes, names, root = list(tree.nodes.values()), list(tree.nodes), tree.nodes.get(ROOT)
    others = [x for x in nodes if x.name != ROOT]
    # It is a tree
    yield names[0] == ROOT and all(x.name == name and x.up in (names[:at] or [ROOT])
                                   for at, (name, x) in enumerate(tree.nodes.items()))
    # The root is that of the boot
    first = boot_tree(tree.frames).nodes[ROOT]
    yield 16 <= tree.frames <= 4096 and all(getattr(root, part) == getattr(first, part)
                                            for part in ("name", "born", "base", "tables", "more", "rows"))
    # One use in one partition
    yield all(len(set(x.held())) == len(x.held()) for x in nodes)
    yield all(comes_from_parent(x, tree.nodes[x.up]) for x in others)
    # Siblings are apart
    below = [[page for child in tree.children(x) for page in child.held()] for x in nodes]
    yield all(len(set(pages)) == len(pages) for pages in below)
    # Rights only shrink
    rights = {x.name: {row.page: row.rights for row in x.rows.values()} for x in nodes}
    yield all(row.rights & READ and not row.rights & ~rights[x.up][row.page] for x in nodes for row in x.rows.values())
    yield all(has_tables(x) for x in nodes)
    # Lines belong to the root
    yield not any(x.pending for x in others)
    # What is hidden has no words
    hidden = {page for x in nodes for page in x.configuration()}
    yield set(tree.words) == {row.page for row in tree.nodes[ROOT].rows.values()} - hidden


def comes_from_parent(x: Node, parent: Node) -> bool:
    """Everything comes from the parent."""
    pairs = x.base + [pair for table in x.tables for pair in table.pairs] + x.more
    rows = [(address % PAGE, parent.row_at(address), page) for address, page in pairs]
    return (set(x.held()) <= {row.page for row in parent.rows.values()} and x.base[0] == (x.born, x.name)
            and all(not offset and row is not None and row.page == page for offset, row, page in rows))


def has_tables(x: Node) -> bool:
    """Every row has its table."""
    indexes = [table.index for table in x.tables]
    return (len(set(indexes)) == len(indexes) and 0 not in x.rows and {v // WORDS for v in x.rows} <= set(indexes)
            and len(x.more) == list_pages(len(x.tables)) - 1)


def is_usable(tree: Tree, entry: Entry) -> bool:
    """Whether an entry of a cache is the row that its partition has now, and its page can be seen."""
    node = tree.nodes.get(entry.part)
    row = node and node.rows.get(entry.vpage)
    return row == (entry.page, entry.rights) and not tree.is_hidden(entry.page)


def caches_agree(world: World) -> bool:
    """Each entry is usable, and stands at its own place."""
    return len(world.caches) == len(world.processors) and all(
        place == entry.vpage % PLACES and is_usable(world.tree, entry)
        for cache in world.caches for place, entry in cache.entries.items())


def is_sound_world(world: World) -> bool:
    names = [at.name for at in world.processors if at]
    return (first_fault(world.tree) is None and 1 <= len(world.processors) <= 4 and len(set(names)) == len(names)
            and all(name in world.tree.nodes for name in names) and caches_agree(world))
