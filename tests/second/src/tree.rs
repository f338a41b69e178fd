//! The tree's columns, and rules 21 to 26.

use std::collections::HashSet;
use std::ops::Range;

use crate::geometry::{Area, Span};
use crate::refusal::{Refusal, require};
use crate::table::Table;

pub const MOST_NODES: u64 = 2048;
pub const MOST_LEVELS: usize = 6;
pub const MOST_ENTRIES: usize = 16;

#[derive(Clone, Debug, Default, PartialEq, Eq)]
pub struct Columns {
    pub level: Vec<u8>,
    pub start: Vec<u16>,
    pub count: Vec<u8>,
    pub x_lo: Vec<i32>,
    pub x_hi: Vec<i32>,
    pub y_lo: Vec<i32>,
    pub y_hi: Vec<i32>,
    pub kits: Vec<u64>,
    pub entries: Vec<u16>,
}

/// Columns with their counts. The counts come from outside and may be absurd, so they are wide.
#[derive(Clone, Debug, Default, PartialEq, Eq)]
pub struct Tree {
    pub columns: Columns,
    pub nodes: u64,
    pub listed: u64,
}

impl Columns {
    pub fn run(&self, node: usize) -> Range<usize> {
        let start = usize::from(self.start[node]);
        start..start + usize::from(self.count[node])
    }

    pub fn area(&self, node: usize) -> Area {
        Area {
            x: Span { low: self.x_lo[node].into(), high: self.x_hi[node].into() },
            y: Span { low: self.y_lo[node].into(), high: self.y_hi[node].into() },
        }
    }

    pub fn is_leaf(&self, node: usize) -> bool {
        self.level[node] == 1
    }

    pub fn node_lengths(&self) -> [usize; 8] {
        [
            self.level.len(),
            self.start.len(),
            self.count.len(),
            self.x_lo.len(),
            self.x_hi.len(),
            self.y_lo.len(),
            self.y_hi.len(),
            self.kits.len(),
        ]
    }

    /// Whether no lent column is shorter than its count.
    pub fn have_room(&self, nodes: u64, listed: u64) -> bool {
        self.node_lengths().iter().all(|&length| length as u64 >= nodes)
            && self.entries.len() as u64 >= listed
    }
}

impl Tree {
    /// The counts are those of the columns.
    pub fn of(columns: Columns) -> Tree {
        let (nodes, listed) = (columns.level.len() as u64, columns.entries.len() as u64);
        Tree { columns, nodes, listed }
    }
}

/// The call `check`.
pub fn check(table: &Table, tree: &Tree) -> Result<(), Refusal> {
    table.check()?;
    counts(table, tree)?;
    // From here the counts are small and within the columns.
    let (nodes, listed) = (tree.nodes as usize, tree.listed as usize);
    runs(&tree.columns, nodes, listed)?;
    let owners = owners(&tree.columns, nodes);
    names(table.places(), &tree.columns, nodes, &owners)?;
    repeats(&tree.columns, &owners)?;
    boxes(table, &tree.columns, nodes)?;
    kit_words(table, &tree.columns, nodes)
}

/// Rule 21.
fn counts(table: &Table, tree: &Tree) -> Result<(), Refusal> {
    let places = table.places() as u128;
    let (nodes, listed) = (u128::from(tree.nodes), u128::from(tree.listed));
    let due = if places == 0 { 0 } else { (places + nodes).saturating_sub(1) };
    let sound = (nodes == 0) == (places == 0)
        && tree.nodes <= MOST_NODES
        && listed == due
        && tree.columns.have_room(tree.nodes, tree.listed);
    require(sound, 21, 0)
}

/// Rule 22.
fn runs(columns: &Columns, nodes: usize, listed: usize) -> Result<(), Refusal> {
    let mut end = 0;
    for node in 0..nodes {
        let level = (1..=MOST_LEVELS).contains(&usize::from(columns.level[node]));
        let count = (1..=MOST_ENTRIES).contains(&usize::from(columns.count[node]));
        require(level && count && usize::from(columns.start[node]) == end, 22, node)?;
        end = columns.run(node).end;
    }
    require(end == listed, 22, nodes)
}

/// The node whose run each list index lies in.
fn owners(columns: &Columns, nodes: usize) -> Vec<usize> {
    (0..nodes).flat_map(|node| columns.run(node).map(move |_| node)).collect()
}

/// Rule 23.
fn names(places: usize, columns: &Columns, nodes: usize, owners: &[usize]) -> Result<(), Refusal> {
    for (index, &owner) in owners.iter().enumerate() {
        let entry = usize::from(columns.entries[index]);
        let good = if columns.is_leaf(owner) {
            entry < places
        } else {
            (1..nodes).contains(&entry) && columns.level[entry] + 1 == columns.level[owner]
        };
        require(good, 23, index)?;
    }
    Ok(())
}

/// Rule 24.
fn repeats(columns: &Columns, owners: &[usize]) -> Result<(), Refusal> {
    let mut seen = HashSet::new();
    for (index, &owner) in owners.iter().enumerate() {
        let fresh = seen.insert((columns.is_leaf(owner), columns.entries[index]));
        require(fresh, 24, index)?;
    }
    Ok(())
}

/// Rule 25.
fn boxes(table: &Table, columns: &Columns, nodes: usize) -> Result<(), Refusal> {
    for node in 0..nodes {
        let tight = entries(columns, node)
            .map(|entry| if columns.is_leaf(node) { table.area(entry) } else { columns.area(entry) })
            .reduce(Area::join);
        require(tight == Some(columns.area(node)), 25, node)?;
    }
    Ok(())
}

/// Rule 26.
fn kit_words(table: &Table, columns: &Columns, nodes: usize) -> Result<(), Refusal> {
    for node in 0..nodes {
        let union = entries(columns, node)
            .map(|entry| if columns.is_leaf(node) { table.kit[entry] } else { columns.kits[entry] })
            .fold(0, |all, kit| all | kit);
        require(union == columns.kits[node], 26, node)?;
    }
    Ok(())
}

fn entries(columns: &Columns, node: usize) -> impl Iterator<Item = usize> + '_ {
    columns.run(node).map(|index| usize::from(columns.entries[index]))
}

#[cfg(test)]
pub mod tests {
    use super::*;
    use crate::table::tests::harbour_h;

    pub fn leaf_of_h() -> Tree {
        Tree::of(Columns {
            level: vec![1],
            start: vec![0],
            count: vec![4],
            x_lo: vec![0],
            x_hi: vec![10],
            y_lo: vec![0],
            y_hi: vec![5],
            kits: vec![3],
            entries: vec![0, 1, 2, 3],
        })
    }

    /// Two leaves of two places under a root; places 0 to 3 of harbour H.
    fn two_leaves() -> Tree {
        Tree::of(Columns {
            level: vec![2, 1, 1],
            start: vec![0, 2, 4],
            count: vec![2, 2, 2],
            x_lo: vec![0, 0, 10],
            x_hi: vec![10, 3, 10],
            y_lo: vec![0, 0, 0],
            y_hi: vec![5, 4, 5],
            kits: vec![3, 3, 3],
            entries: vec![1, 2, 0, 1, 2, 3],
        })
    }

    fn verdict(change: impl Fn(&mut Tree)) -> (u8, usize) {
        let mut tree = two_leaves();
        change(&mut tree);
        match check(&harbour_h(), &tree) {
            Ok(()) => (0, 0),
            Err(refusal) => (refusal.code, refusal.at),
        }
    }

    #[test]
    fn s12_a_loose_box() {
        let mut tree = leaf_of_h();
        assert_eq!(check(&harbour_h(), &tree), Ok(()));
        tree.columns.x_hi[0] = 11;
        assert_eq!(check(&harbour_h(), &tree), Err(Refusal::new(25, 0)));
    }

    #[test]
    fn s13_a_place_named_twice() {
        let mut tree = leaf_of_h();
        tree.columns.entries = vec![0, 1, 1, 3];
        assert_eq!(check(&harbour_h(), &tree), Err(Refusal::new(24, 2)));
    }

    #[test]
    fn each_rule_with_its_place() {
        assert_eq!(verdict(|_| ()), (0, 0));
        assert_eq!(verdict(|t| t.nodes = u64::MAX), (21, 0));
        assert_eq!(verdict(|t| t.listed = 5), (21, 0));
        assert_eq!(verdict(|t| t.columns.kits.truncate(2)), (21, 0));
        assert_eq!(verdict(|t| t.columns.level[1] = 7), (22, 1));
        assert_eq!(verdict(|t| t.columns.start[2] = 5), (22, 2));
        assert_eq!(verdict(|t| t.columns.count[2] = 1), (22, 3));
        assert_eq!(verdict(|t| t.columns.entries[0] = 0), (23, 0));
        assert_eq!(verdict(|t| t.columns.level[2] = 2), (23, 1));
        assert_eq!(verdict(|t| t.columns.entries[5] = 4), (23, 5));
        assert_eq!(verdict(|t| t.columns.entries[1] = 1), (24, 1));
        assert_eq!(verdict(|t| t.columns.entries[4] = 1), (24, 4));
        assert_eq!(verdict(|t| t.columns.y_lo[2] = 1), (25, 2));
        assert_eq!(verdict(|t| t.columns.y_hi[2] = 6), (25, 0));
        assert_eq!(verdict(|t| t.columns.kits[2] = 1), (26, 2));
        assert_eq!(verdict(|t| t.columns.kits[2] = 7), (26, 0));
    }

    #[test]
    fn longer_columns_are_not_read() {
        let longer = |t: &mut Tree| {
            t.columns.level.push(9);
            t.columns.entries.push(77);
        };
        assert_eq!(verdict(longer), (0, 0));
    }

    #[test]
    fn the_empty_table_has_the_empty_tree_only() {
        let empty = Table::default();
        assert_eq!(check(&empty, &Tree::default()), Ok(()));
        assert_eq!(check(&empty, &leaf_of_h()), Err(Refusal::new(21, 0)));
        assert_eq!(check(&harbour_h(), &Tree::default()), Err(Refusal::new(21, 0)));
        let absurd = Tree { listed: u64::MAX, ..Tree::default() };
        assert_eq!(check(&empty, &absurd), Err(Refusal::new(21, 0)));
    }
}
