//! Foreign trees that pass, and trees with something changed.

use crate::build::{Levels, Numbers, columns, places_in_order};
use crate::random::Random;
use crate::table::Table;
use crate::tree::{Columns, MOST_ENTRIES, MOST_LEVELS, Tree};

/// Columns of a tree, the entry list last.
pub const COLUMNS: usize = 9;

/// Keeps six levels below the greatest node count.
const MOST_RUNS: usize = 300;

/// A tree with runs of 1 to 16, up to six levels and its nodes in any order.
pub fn foreign(random: &mut Random, table: &Table) -> Tree {
    if table.places() == 0 {
        return Tree::default();
    }
    let least = (1..=MOST_LEVELS).find(|&levels| reach(levels) >= table.places());
    let levels = random.between(least.expect("six levels suffice") as i64, MOST_LEVELS as i64);
    let counts = run_counts(random, table.places(), levels as usize);
    foreign_with(random, table, &counts)
}

/// Sound but for one thing: seven levels, a run of seventeen, or a root that is not node 0.
pub fn odd(random: &mut Random, table: &Table) -> Tree {
    if table.places() == 0 {
        return Tree::default();
    }
    match random.below(3) {
        0 => {
            let counts = run_counts(random, table.places(), MOST_LEVELS + 1);
            foreign_with(random, table, &counts)
        }
        1 => with_seventeen(table),
        _ => without_first_root(random, table),
    }
}

fn with_seventeen(table: &Table) -> Tree {
    let leaves: Vec<Vec<usize>> =
        places_in_order(table).chunks(MOST_ENTRIES + 1).map(<[usize]>::to_vec).collect();
    let root = vec![(0..leaves.len()).collect()];
    let numbers = vec![(1..=leaves.len()).collect(), vec![0]];
    Tree::of(columns(table, &vec![leaves, root], &numbers))
}

fn without_first_root(random: &mut Random, table: &Table) -> Tree {
    let leaves: Vec<Vec<usize>> =
        places_in_order(table).chunks(MOST_ENTRIES / 2).map(<[usize]>::to_vec).collect();
    let root = vec![(0..leaves.len()).collect()];
    let mut free: Vec<usize> = (0..=leaves.len()).collect();
    random.shuffle(&mut free);
    let last = free.pop().into_iter().collect();
    Tree::of(columns(table, &vec![leaves, root], &vec![free, last]))
}

/// The same with the number of nodes of each level given, leaves first.
pub fn foreign_with(random: &mut Random, table: &Table, counts: &[usize]) -> Tree {
    let mut below = places_in_order(table);
    if random.once_in(2) {
        random.shuffle(&mut below);
    }
    let mut levels = Levels::new();
    for &count in counts {
        levels.push(runs(random, &below, count));
        below = (0..count).collect();
        if random.once_in(3) {
            random.shuffle(&mut below);
        }
    }
    let numbers = shuffled_numbers(random, counts);
    Tree::of(columns(table, &levels, &numbers))
}

fn run_counts(random: &mut Random, places: usize, levels: usize) -> Vec<usize> {
    let mut below = places;
    let mut counts = Vec::new();
    for level in 1..=levels {
        let fewest = below.div_ceil(MOST_ENTRIES);
        let most = below.min(reach(levels - level)).min(MOST_RUNS.max(fewest));
        below = random.between(fewest as i64, most as i64) as usize;
        counts.push(below);
    }
    counts
}

/// How many things lie at most below one node after so many levels.
fn reach(levels: usize) -> usize {
    MOST_ENTRIES.pow(levels as u32)
}

fn runs(random: &mut Random, below: &[usize], count: usize) -> Vec<Vec<usize>> {
    assert!((count..=count * MOST_ENTRIES).contains(&below.len()), "no such runs");
    let mut sizes = vec![1; count];
    let mut left = below.len() - count;
    while left > 0 {
        let run = random.below(count);
        let more = random.below((MOST_ENTRIES - sizes[run]).min(left) + 1);
        sizes[run] += more;
        left -= more;
    }
    let mut rest = below.iter().copied();
    sizes.into_iter().map(|size| rest.by_ref().take(size).collect()).collect()
}

/// Any numbers, except that the root is 0.
fn shuffled_numbers(random: &mut Random, counts: &[usize]) -> Numbers {
    let nodes: usize = counts.iter().sum();
    let mut free: Vec<usize> = (1..nodes).collect();
    random.shuffle(&mut free);
    free.push(0);
    let mut rest = free.into_iter();
    counts.iter().map(|&count| rest.by_ref().take(count).collect()).collect()
}

/// Every tree that differs from this one by 1 in one field.
pub fn neighbours(tree: &Tree) -> Vec<Tree> {
    let mut trees = Vec::new();
    for up in [true, false] {
        let by = |count: u64| if up { count + 1 } else { count.wrapping_sub(1) };
        trees.push(Tree { nodes: by(tree.nodes), ..tree.clone() });
        trees.push(Tree { listed: by(tree.listed), ..tree.clone() });
        for column in 0..COLUMNS {
            let length = if column == COLUMNS - 1 { tree.listed } else { tree.nodes };
            for index in 0..length as usize {
                let mut other = tree.clone();
                nudge(&mut other.columns, column, index, up);
                trees.push(other);
            }
        }
    }
    trees
}

/// Trees with two changes by 1: in the first, the middle and the last of each column, each with each.
pub fn pairs_of_changes(tree: &Tree) -> Vec<Tree> {
    let changes = few_changes(tree);
    let mut trees = Vec::new();
    for (at, first) in changes.iter().enumerate() {
        for second in &changes[..at] {
            let mut other = tree.clone();
            for &(column, index, up) in [first, second] {
                nudge(&mut other.columns, column, index, up);
            }
            trees.push(other);
        }
    }
    trees
}

fn few_changes(tree: &Tree) -> Vec<(usize, usize, bool)> {
    let mut changes = Vec::new();
    for column in 0..COLUMNS {
        let length = if column == COLUMNS - 1 { tree.listed } else { tree.nodes } as usize;
        for index in [0, length / 2, length - 1] {
            changes.extend([(column, index, true), (column, index, false)]);
        }
    }
    changes
}

fn nudge(columns: &mut Columns, column: usize, index: usize, up: bool) {
    match column {
        0 => columns.level[index].nudge(up),
        1 => columns.start[index].nudge(up),
        2 => columns.count[index].nudge(up),
        3 => columns.x_lo[index].nudge(up),
        4 => columns.x_hi[index].nudge(up),
        5 => columns.y_lo[index].nudge(up),
        6 => columns.y_hi[index].nudge(up),
        7 => columns.kits[index].nudge(up),
        _ => columns.entries[index].nudge(up),
    }
}

/// Changes one field of a tree: a value, a count, or the length of a column.
pub fn change(random: &mut Random, tree: &mut Tree) {
    match random.below(14) {
        0 => tree.nodes = other_count(random, tree.nodes),
        1 => tree.listed = other_count(random, tree.listed),
        2 => shorten(random, &mut tree.columns),
        column => change_column(random, &mut tree.columns, column - 3),
    }
}

fn change_column(random: &mut Random, columns: &mut Columns, column: usize) {
    match column {
        0 => change_value(random, &mut columns.level, &[0, 1, 2, 5, 6, 7, 255]),
        1 => change_value(random, &mut columns.start, &[0, 1, 16, 65_535]),
        2 => change_value(random, &mut columns.count, &[0, 1, 15, 16, 17, 255]),
        3 => change_box(random, &mut columns.x_lo),
        4 => change_box(random, &mut columns.x_hi),
        5 => change_box(random, &mut columns.y_lo),
        6 => change_box(random, &mut columns.y_hi),
        7 => change_kit(random, &mut columns.kits),
        8 => swap_entries(random, &mut columns.entries),
        _ => change_value(random, &mut columns.entries, &[0, 1, 2, 3, 16, 4095, 65_535]),
    }
}

/// One of the values given, one that stands elsewhere in the column, or a neighbour.
fn change_value<T: Copy + Nudge>(random: &mut Random, column: &mut [T], given: &[T]) {
    if column.is_empty() {
        return;
    }
    let index = random.below(column.len());
    match random.below(4) {
        0 => column[index] = random.pick(given),
        1 => column[index] = random.pick(column),
        _ => column[index].nudge(random.once_in(2)),
    }
}

trait Nudge {
    /// Adds or takes 1, round the end of the type.
    fn nudge(&mut self, up: bool);
}

macro_rules! nudge {
    ($($kind:ty),*) => {$(
        impl Nudge for $kind {
            fn nudge(&mut self, up: bool) {
                *self = if up { self.wrapping_add(1) } else { self.wrapping_sub(1) };
            }
        }
    )*};
}

nudge!(u8, u16, i32, u64);

fn change_box(random: &mut Random, column: &mut [i32]) {
    change_value(random, column, &[0, 1_000_000, -1_000_000, i32::MAX, i32::MIN]);
}

fn change_kit(random: &mut Random, kits: &mut [u64]) {
    if kits.is_empty() {
        return;
    }
    let node = random.below(kits.len());
    kits[node] ^= random.pick(&[1, 2, 1 << 31, 1 << 32, 1 << 63, kits[node]]);
}

/// Two entries change places: within a run this is another good tree.
fn swap_entries(random: &mut Random, entries: &mut [u16]) {
    if !entries.is_empty() {
        entries.swap(random.below(entries.len()), random.below(entries.len()));
    }
}

fn other_count(random: &mut Random, count: u64) -> u64 {
    let absurd = [0, 1, 2048, 2049, 65_536, 1 << 32, 1 << 63, u64::MAX - 1, u64::MAX];
    match random.below(3) {
        0 => count.wrapping_add(1),
        1 => count.wrapping_sub(1),
        _ => random.pick(&absurd),
    }
}

/// Takes the last value from one column, or all of them.
pub fn shorten(random: &mut Random, columns: &mut Columns) {
    shorten_column(columns, random.below(COLUMNS), random.once_in(4));
}

pub fn shorten_column(columns: &mut Columns, column: usize, all: bool) {
    match column {
        0 => cut(&mut columns.level, all),
        1 => cut(&mut columns.start, all),
        2 => cut(&mut columns.count, all),
        3 => cut(&mut columns.x_lo, all),
        4 => cut(&mut columns.x_hi, all),
        5 => cut(&mut columns.y_lo, all),
        6 => cut(&mut columns.y_hi, all),
        7 => cut(&mut columns.kits, all),
        _ => cut(&mut columns.entries, all),
    }
}

fn cut<T>(column: &mut Vec<T>, all: bool) {
    let length = if all { 0 } else { column.len().saturating_sub(1) };
    column.truncate(length);
}

/// Lent columns are longer than is used, each by its own length; the rest is not to be read.
pub fn lengthen(random: &mut Random, columns: &mut Columns) {
    let mut more = || (random.below(4), random.word());
    lengthen_column(&mut columns.level, more(), |word| word as u8);
    lengthen_column(&mut columns.start, more(), |word| word as u16);
    lengthen_column(&mut columns.count, more(), |word| word as u8);
    lengthen_column(&mut columns.x_lo, more(), |word| word as i32);
    lengthen_column(&mut columns.x_hi, more(), |word| word as i32);
    lengthen_column(&mut columns.y_lo, more(), |word| word as i32);
    lengthen_column(&mut columns.y_hi, more(), |word| word as i32);
    lengthen_column(&mut columns.kits, more(), |word| word);
    lengthen_column(&mut columns.entries, more(), |word| word as u16);
}

fn lengthen_column<T: Copy>(column: &mut Vec<T>, (more, word): (usize, u64), value: impl Fn(u64) -> T) {
    column.extend(vec![value(word); more]);
}

/// Columns of the same lengths with other contents, to see what a call leaves.
pub fn blank(random: &mut Random, like: &Columns) -> Columns {
    let word = random.word();
    Columns {
        level: vec![word as u8; like.level.len()],
        start: vec![word as u16; like.start.len()],
        count: vec![word as u8; like.count.len()],
        x_lo: vec![word as i32; like.x_lo.len()],
        x_hi: vec![word as i32; like.x_hi.len()],
        y_lo: vec![word as i32; like.y_lo.len()],
        y_hi: vec![word as i32; like.y_hi.len()],
        kits: vec![word; like.kits.len()],
        entries: vec![word as u16; like.entries.len()],
    }
}

#[cfg(test)]
mod tests {
    use super::*;
    use crate::cases::tables;
    use crate::tree::check;

    #[test]
    fn foreign_trees_pass() {
        let mut random = Random::new(5);
        let mut levels_seen = [false; 7];
        for _ in 0..300 {
            let setting = tables::small(&mut random);
            let tree = foreign(&mut random, &setting.table);
            assert_eq!(check(&setting.table, &tree), Ok(()));
            if let Some(&level) = tree.columns.level.first() {
                levels_seen[usize::from(level)] = true;
            }
        }
        assert!(levels_seen[1..].iter().all(|&seen| seen));
    }

    #[test]
    fn changed_trees_meet_every_rule() {
        let mut random = Random::new(6);
        let mut seen = std::collections::BTreeSet::new();
        for _ in 0..2000 {
            let setting = tables::small(&mut random);
            let mut tree = foreign(&mut random, &setting.table);
            change(&mut random, &mut tree);
            seen.insert(check(&setting.table, &tree).err().map_or(0, |refusal| refusal.code));
        }
        assert_eq!(seen.into_iter().collect::<Vec<u8>>(), vec![0, 21, 22, 23, 24, 25, 26]);
    }
}
