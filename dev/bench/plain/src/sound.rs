//! The parts of soundness of a tree that was read off a memory (docs/MODEL.md, "Soundness"), and its layout.

use crate::audit::{Node, Pair, Table, Tree};
use crate::frames::*;

/// The least part that is broken. Each is asked only if those before it hold.
pub fn broken_part(tree: &Tree) -> Option<u32> {
    let parts: [fn(&Tree) -> bool; 8] = [
        is_tree,
        is_boot_root,
        has_one_use,
        comes_from_parent,
        siblings_are_apart,
        rights_shrink,
        rows_have_tables,
        lines_are_the_roots,
    ];
    (1..).zip(parts).find(|(_, holds)| !holds(tree)).map(|(number, _)| number)
}

fn others<'a>(tree: &'a Tree) -> impl Iterator<Item = &'a Node> {
    tree.nodes[1..].iter()
}

/// The parent of a node, which was read before it.
fn parent<'a>(tree: &'a Tree, node: &Node) -> Option<&'a Node> {
    let place = (*tree.places.get(node.up as usize)?)?;
    tree.nodes.get(place as usize)
}

fn is_tree(tree: &Tree) -> bool {
    let is_before = |(place, node): (usize, &Node)| {
        let above = tree.places.get(node.up as usize).copied().flatten();
        if place == 0 {
            node.up == ROOT
        } else {
            above.is_some_and(|above| (above as usize) < place)
        }
    };
    tree.nodes.iter().enumerate().all(is_before)
}

fn is_boot_root(tree: &Tree) -> bool {
    let (root, count) = (&tree.nodes[0], tree.memory.count());
    let tables = root_tables(count);
    let is_base = (1..).zip(root.base).all(|(page, pair)| pair.address == 0 && pair.page == page);
    let is_slot = |(slot, table): (u32, &Table)| {
        let index = if slot < tables { slot + 1 } else { 1023 };
        let is_pair = |(kind, pair): (u32, Pair)| pair.address == 0 && pair.page == 6 + 3 * slot + kind;
        table.index == index && (0..).zip(table.pairs).all(is_pair)
    };
    let rights = PRESENT | READ | WRITE | EXECUTE;
    let is_row =
        |(vpage, row): (u32, u32)| root_page(count, vpage) == Some(row / PAGE) && (row % PAGE) & !USER == rights;
    is_base
        && root.tables.len() as u32 == tables + 1
        && (0..).zip(&root.tables).all(is_slot)
        && tree.all_rows(root).all(is_row)
        && tree.all_rows(root).count() as u32 == count - 3 * tables - 9
}

/// Marks pages, and answers whether each is marked for the first time under this mark.
struct Marks(Vec<u32>);

impl Marks {
    fn of(tree: &Tree) -> Self {
        Marks(vec![u32::MAX; tree.memory.count() as usize])
    }

    fn is_new(&mut self, page: u32, mark: u32) -> bool {
        std::mem::replace(&mut self.0[page as usize], mark) != mark
    }

    fn has(&self, page: u32, mark: u32) -> bool {
        self.0[page as usize] == mark
    }
}

/// All pages that a node holds.
fn held<'a>(tree: &'a Tree, node: &'a Node) -> impl Iterator<Item = u32> + 'a {
    node.pairs().map(|pair| pair.page).chain(tree.all_rows(node).map(|(_, row)| row / PAGE))
}

fn has_one_use(tree: &Tree) -> bool {
    let mut marks = Marks::of(tree);
    tree.nodes.iter().all(|node| held(tree, node).all(|page| marks.is_new(page, node.name)))
}

fn comes_from_parent(tree: &Tree) -> bool {
    let mut marks = Marks::of(tree);
    (0..).zip(others(tree)).all(|(mark, node)| {
        let Some(above) = parent(tree, node) else {
            return false;
        };
        for (_, row) in tree.all_rows(above) {
            marks.is_new(row / PAGE, mark);
        }
        held(tree, node).all(|page| marks.has(page, mark))
            && node.pairs().all(|pair| pair.address % PAGE == 0 && row_at(tree, above, pair.address) == Some(pair.page))
            && node.base[0].page == node.name
    })
}

/// The page of a node's row at an address.
fn row_at(tree: &Tree, node: &Node, address: u32) -> Option<u32> {
    let table = node.table(address / PAGE / WORDS)?;
    let row = tree.memory.get(table.pairs[0].page, address / PAGE % WORDS);
    (row != 0).then_some(row / PAGE)
}

fn siblings_are_apart(tree: &Tree) -> bool {
    let mut marks = Marks::of(tree);
    let mut children: Vec<Vec<&Node>> = tree.nodes.iter().map(|_| Vec::new()).collect();
    for node in others(tree) {
        if let Some(place) = tree.places[node.up as usize] {
            children[place as usize].push(node);
        }
    }
    (0..).zip(children).all(|(mark, children)| {
        children.into_iter().all(|child| held(tree, child).all(|page| marks.is_new(page, mark)))
    })
}

fn rights_shrink(tree: &Tree) -> bool {
    let mut above = vec![0; tree.memory.count() as usize];
    tree.nodes.iter().all(|node| {
        if let Some(parent) = parent(tree, node) {
            tree.all_rows(parent).for_each(|(_, row)| above[(row / PAGE) as usize] = row);
        }
        let rights = READ | WRITE | EXECUTE;
        tree.all_rows(node).all(|(_, row)| row & rights & !above[(row / PAGE) as usize] == 0)
    })
}

fn rows_have_tables(tree: &Tree) -> bool {
    tree.nodes.iter().all(|node| {
        let mut indexes: Vec<u32> = node.tables.iter().map(|table| table.index).collect();
        indexes.sort_unstable();
        indexes.windows(2).all(|two| two[0] != two[1]) && tree.all_rows(node).all(|(vpage, _)| vpage != 0)
    })
}

fn lines_are_the_roots(tree: &Tree) -> bool {
    others(tree).all(|node| node.lines == 0)
}

// The layout

/// What a page of configuration is for its node: of a table, its slot; of a list page, its place among these.
#[derive(Clone, Copy)]
enum Role {
    Descriptor,
    Directory(usize),
    List(usize),
    Mmu(usize),
    First(usize),
    Second(usize),
}

/// The layout of a tree, frame by frame. What pages are used for and where they come from is kept of one node.
struct Layout<'a> {
    tree: &'a Tree<'a>,
    owners: Vec<Option<(u32, Role)>>,
    node: Option<u32>,
    children: Vec<Vec<u32>>,
    /// By page: the node's first shadow word, and its second.
    uses: Vec<u32>,
    addresses: Vec<u32>,
}

/// The first word that isn't the layout's: where it is, what is there and what should be.
pub fn difference(tree: &Tree) -> Option<(u32, u32, u32, u32)> {
    let mut layout = Layout::new(tree);
    for frame in 0..tree.memory.count() {
        let want = match layout.owners[frame as usize] {
            Some((node, role)) => layout.words(node, role),
            None if frame == 0 => [0; WORDS as usize],
            None => continue,
        };
        let words = tree.memory.frame(frame).iter().zip(&want);
        if let Some((index, (&found, &want))) = (0..).zip(words).find(|(_, (found, want))| found != want) {
            return Some((frame, index, found, want));
        }
    }
    None
}

impl<'a> Layout<'a> {
    fn new(tree: &'a Tree) -> Self {
        let count = tree.memory.count() as usize;
        let mut owners = vec![None; count];
        for (place, node) in (0..).zip(&tree.nodes) {
            let kinds = [Role::Descriptor, Role::Directory(0), Role::Directory(1), Role::Directory(2), Role::List(0)];
            let lists = (1..).zip(&node.more).map(|(list, pair)| (Role::List(list), *pair));
            let tables = node.tables.iter().enumerate().flat_map(|(slot, table)| {
                [Role::Mmu(slot), Role::First(slot), Role::Second(slot)].into_iter().zip(table.pairs)
            });
            for (role, pair) in kinds.into_iter().zip(node.base).chain(lists).chain(tables) {
                owners[pair.page as usize] = Some((place, role));
            }
        }
        let mut children = vec![Vec::new(); tree.nodes.len()];
        for (place, node) in (0..).zip(&tree.nodes).skip(1) {
            if let Some(above) = tree.places[node.up as usize] {
                children[above as usize].push(place);
            }
        }
        Layout { tree, owners, node: None, children, uses: vec![0; count], addresses: vec![0; count] }
    }

    /// The words of a page of configuration.
    fn words(&mut self, place: u32, role: Role) -> [u32; WORDS as usize] {
        let node = &self.tree.nodes[place as usize];
        let mut words = [0; WORDS as usize];
        match role {
            Role::Descriptor => put_descriptor(&mut words, node),
            Role::Directory(kind) => {
                for table in &node.tables {
                    words[table.index as usize] = PAGE * table.pairs[kind].page + 1;
                }
            }
            Role::List(list) => put_list(&mut words, node, list),
            Role::Mmu(slot) => {
                for (index, row) in self.tree.rows(&node.tables[slot]) {
                    let is_hidden = self.owners[(row / PAGE) as usize].is_some();
                    words[index as usize] = if is_hidden { row & !USER } else { row | USER };
                }
            }
            Role::First(slot) | Role::Second(slot) => {
                self.look_at(place);
                let of_page = if matches!(role, Role::First(_)) { &self.uses } else { &self.addresses };
                for (index, row) in self.tree.rows(&node.tables[slot]) {
                    words[index as usize] = of_page[(row / PAGE) as usize];
                }
            }
        }
        words
    }

    /// Finds what the pages of a node are used for, and where its parent has them.
    fn look_at(&mut self, place: u32) {
        if self.node.replace(place) == Some(place) {
            return;
        }
        let node = &self.tree.nodes[place as usize];
        self.uses.fill(0);
        self.addresses.fill(0);
        for &child in &self.children[place as usize] {
            let child = &self.tree.nodes[child as usize];
            child.pairs().for_each(|pair| self.uses[pair.page as usize] = child.born + CONFIGURATION);
            self.uses[child.name as usize] = child.born + DESCRIPTOR;
            self.tree.all_rows(child).for_each(|(_, row)| self.uses[(row / PAGE) as usize] = child.born + LENT);
        }
        if let Some(above) = parent(self.tree, node).filter(|_| node.name != ROOT) {
            let rows = self.tree.all_rows(above);
            rows.for_each(|(vpage, row)| self.addresses[(row / PAGE) as usize] = PAGE * vpage + 1);
        }
    }
}

fn put_descriptor(words: &mut [u32; WORDS as usize], node: &Node) {
    for (index, pair) in (0..).step_by(2).zip(node.base) {
        words[index] = pair.address;
        words[index + 1] = pair.page;
    }
    words[PARENT as usize] = node.up;
    words[TABLES as usize] = node.tables.len() as u32;
    words[FLAGS as usize] = u32::from(node.masked);
    words[LINES as usize] = node.lines;
}

fn put_list(words: &mut [u32; WORDS as usize], node: &Node, list: usize) {
    if let Some(next) = node.more.get(list) {
        words[0] = next.page;
        words[1] = next.address;
    }
    let slots = words[2..].chunks_exact_mut(6);
    for (slot, table) in slots.zip(node.tables.iter().skip(list * SLOTS as usize)) {
        for (two, pair) in slot.chunks_exact_mut(2).zip(table.pairs) {
            two[0] = pair.address;
            two[1] = pair.page;
        }
    }
}
