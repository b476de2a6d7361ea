"""What each word of each frame is for a given tree, in the words of docs/FORMATS.md."""

from .model import PAGE, ROOT, SLOTS, WORDS, Node, Row, Tree

PRESENT, USER = 1, 2


def word(tree: Tree, frame: int, index: int) -> int:
    """The word of a frame below the tree's number of frames, at an index below 1024."""
    return words_of(tree, frame).get(index, 0)


def frame_words(tree: Tree, frame: int) -> list[int]:
    """All words of a frame."""
    words = words_of(tree, frame)
    return [words.get(index, 0) for index in range(WORDS)]


def words_of(tree: Tree, frame: int) -> dict[int, int]:
    """The words of a frame by their index, but for those that are 0."""
    if frame in tree.words:
        return tree.words[frame]
    for node in tree.nodes.values():
        if node.name == frame:
            return descriptor(node)
        for which, pair in enumerate(node.base[1:4]):
            if pair.page == frame:
                return {table.index: PAGE * table.pairs[which].page + 1 for table in node.tables}
        for place, pair in enumerate([node.base[4]] + node.more):
            if pair.page == frame:
                return list_page(node, place)
        for table in node.tables:
            for pair, entry in zip(table.pairs, (mmu_word, first_shadow_word, second_shadow_word)):
                if pair.page == frame:
                    return {vpage % 1024: entry(tree, node, row) for vpage, row in node.rows.items()
                            if vpage // 1024 == table.index}
    return {}


def descriptor(node: Node) -> dict[int, int]:
    base = [word for pair in node.base for word in pair]
    return {**dict(enumerate(base)), 11: node.up, 12: len(node.tables), 14: int(node.masked),
            15: sum(1 << line for line in node.pending)}


def list_page(node: Node, place: int) -> dict[int, int]:
    """List page number `place` of a partition: the next one, and then slots of tables."""
    noted = node.tables[SLOTS * place:SLOTS * (place + 1)]
    words = [word for table in noted for pair in table.pairs for word in pair]
    following = [(more.page, more.address) for more in node.more[place:place + 1]]
    return dict(enumerate([*(following or [(0, 0)])[0], *words]))


def mmu_word(tree: Tree, node: Node, row: Row) -> int:
    return PAGE * row.page + PRESENT + (0 if tree.is_hidden(row.page) else USER) + 4 * row.rights


def first_shadow_word(tree: Tree, node: Node, row: Row) -> int:
    child = tree.holder(node, row.page)
    if child is None:
        return 0
    if row.page == child.name:
        return child.born + 1
    return child.born + (2 if row.page in child.configuration() else 3)


def second_shadow_word(tree: Tree, node: Node, row: Row) -> int:
    if node.name == ROOT:
        return 0
    parent = tree.nodes[node.up]
    return PAGE * next(vpage for vpage, above in parent.rows.items() if above.page == row.page) + 1
