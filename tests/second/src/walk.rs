//! The walk with its exact steps, and the search.

use crate::geometry::Area;
use crate::refusal::Refusal;
use crate::table::{Table, check_want, holds, kinds};
use crate::tree::{Columns, Tree, check};

/// Ordered as the answer asks: by squared diameter, then by the list in dictionary order.
#[derive(Clone, Debug, PartialEq, Eq, PartialOrd, Ord)]
pub struct Group {
    pub squared: u64,
    pub places: Vec<usize>,
}

#[derive(Clone, Debug, PartialEq, Eq)]
pub enum Ending {
    None,
    Found { group: Group, steps: u64 },
    Spent { known: Option<Group>, steps: u64 },
}

/// The call `search`. Refusal 33 cannot be met: coordinates are in range when the walk begins.
pub fn search(table: &Table, tree: &Tree, want: u64, allowance: u32) -> Result<Ending, Refusal> {
    check_want(want)?;
    check(table, tree)?;
    Ok(walk(table, &tree.columns, tree.nodes, want, allowance.into()))
}

fn walk(table: &Table, tree: &Columns, nodes: u64, want: u64, allowance: u64) -> Ending {
    if nodes == 0 || tree.kits[0] & want != want {
        return Ending::None;
    }
    let mut walk = Walk::begin(table, tree, want);
    while let Some(candidate) = walk.pending.pop() {
        if walk.steps == allowance {
            return Ending::Spent { known: walk.best, steps: allowance };
        }
        walk.take(candidate);
    }
    let group = walk.best.expect("a root that holds every kind leads to a group");
    Ending::Found { group, steps: walk.steps }
}

#[derive(Clone, Copy, PartialEq, Eq)]
enum Thing {
    Place(usize),
    Node(usize),
}

struct Walk<'a> {
    table: &'a Table,
    tree: &'a Columns,
    kinds: Vec<u32>,
    /// Candidates still to be taken, the next one last.
    pending: Vec<Vec<Thing>>,
    best: Option<Group>,
    steps: u64,
}

impl<'a> Walk<'a> {
    fn begin(table: &'a Table, tree: &'a Columns, want: u64) -> Walk<'a> {
        let kinds = kinds(want);
        let pending = vec![vec![Thing::Node(0); kinds.len()]];
        Walk { table, tree, kinds, pending, best: None, steps: 0 }
    }

    fn take(&mut self, candidate: Vec<Thing>) {
        self.steps += 1;
        let widest = self.widest(&candidate);
        if self.best.as_ref().is_some_and(|best| widest > best.squared) {
            return;
        }
        match self.leftmost_highest(&candidate) {
            None => self.learn(Group { squared: widest, places: numbers(&candidate) }),
            Some((member, node)) => self.open(&candidate, member, node),
        }
    }

    fn widest(&self, candidate: &[Thing]) -> u64 {
        let areas: Vec<Area> = candidate.iter().map(|&thing| self.area(thing)).collect();
        let pairs = (0..areas.len()).flat_map(|i| (0..i).map(move |j| (i, j)));
        pairs.map(|(i, j)| areas[i].squared(areas[j])).max().unwrap_or(0)
    }

    fn learn(&mut self, group: Group) {
        if self.best.as_ref().is_none_or(|best| group < *best) {
            self.best = Some(group);
        }
    }

    /// The member to be replaced and its node; none if all are places.
    fn leftmost_highest(&self, candidate: &[Thing]) -> Option<(usize, usize)> {
        let mut found: Option<(usize, usize)> = None;
        for (member, &thing) in candidate.iter().enumerate() {
            if let Thing::Node(node) = thing
                && found.is_none_or(|(_, other)| self.tree.level[node] > self.tree.level[other])
            {
                found = Some((member, node));
            }
        }
        found
    }

    fn open(&mut self, candidate: &[Thing], member: usize, node: usize) {
        // What is pushed last is taken first.
        for index in self.tree.run(node).rev() {
            let entry = usize::from(self.tree.entries[index]);
            let thing = match self.tree.is_leaf(node) {
                true => Thing::Place(entry),
                false => Thing::Node(entry),
            };
            if holds(self.kit(thing), self.kinds[member]) {
                let mut replaced = candidate.to_vec();
                replaced[member] = thing;
                self.pending.push(replaced);
            }
        }
    }

    fn area(&self, thing: Thing) -> Area {
        match thing {
            Thing::Place(place) => self.table.area(place),
            Thing::Node(node) => self.tree.area(node),
        }
    }

    fn kit(&self, thing: Thing) -> u64 {
        match thing {
            Thing::Place(place) => self.table.kit[place],
            Thing::Node(node) => self.tree.kits[node],
        }
    }
}

fn numbers(group: &[Thing]) -> Vec<usize> {
    let number = |thing: &Thing| match *thing {
        Thing::Place(place) => place,
        Thing::Node(_) => unreachable!("a group has no node"),
    };
    group.iter().map(number).collect()
}

#[cfg(test)]
mod tests {
    use super::*;
    use crate::build::tree_of;
    use crate::table::tests::harbour_h;

    fn searched(table: &Table, want: u64, allowance: u32) -> Result<Ending, Refusal> {
        search(table, &tree_of(table), want, allowance)
    }

    fn group(squared: u64, places: &[usize]) -> Group {
        Group { squared, places: places.to_vec() }
    }

    #[test]
    fn s1_the_tie_goes_to_the_first_list() {
        let found = Ending::Found { group: group(25, &[0, 1]), steps: 7 };
        assert_eq!(searched(&harbour_h(), 3, 7), Ok(found));
    }

    #[test]
    fn s2_spent_with_what_is_known() {
        let spent = Ending::Spent { known: Some(group(25, &[0, 1])), steps: 6 };
        assert_eq!(searched(&harbour_h(), 3, 6), Ok(spent));
    }

    #[test]
    fn s3_one_kind() {
        let found = Ending::Found { group: group(0, &[0]), steps: 3 };
        assert_eq!(searched(&harbour_h(), 1, 3), Ok(found));
    }

    #[test]
    fn s4_none_comes_before_spent() {
        assert_eq!(searched(&harbour_h(), 32, 0), Ok(Ending::None));
    }

    #[test]
    fn s5_spent_at_once() {
        let spent = Ending::Spent { known: None, steps: 0 };
        assert_eq!(searched(&harbour_h(), 1, 0), Ok(spent));
    }

    #[test]
    fn s6_one_place_for_two_kinds() {
        let table = Table { x: vec![7], y: vec![-7], kit: vec![3] };
        let found = Ending::Found { group: group(0, &[0, 0]), steps: 3 };
        assert_eq!(searched(&table, 3, 1000), Ok(found));
    }

    #[test]
    fn s7_the_empty_table() {
        assert_eq!(searched(&Table::default(), 1, 9), Ok(Ending::None));
    }

    #[test]
    fn s8_s9_wants_are_refused_first() {
        let faulty = Table { x: vec![1_000_001], y: vec![], kit: vec![] };
        assert_eq!(search(&faulty, &Tree::default(), 0, 9), Err(Refusal::new(1, 0)));
        assert_eq!(search(&faulty, &Tree::default(), 0x1ff, 9), Err(Refusal::new(2, 0)));
        assert_eq!(search(&faulty, &Tree::default(), 0xff, 9), Err(Refusal::new(11, 0)));
        assert_eq!(searched(&harbour_h(), 0xff, 9), Ok(Ending::None));
    }
}
