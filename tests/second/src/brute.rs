//! Every covering group, one after the other: the answer without tree and walk.

use crate::geometry::squared;
use crate::table::{Table, holds, kinds};
use crate::walk::Group;

/// How many covering groups there are.
pub fn groups(table: &Table, want: u64) -> u64 {
    holders(table, want).iter().fold(1, |all, held| all.saturating_mul(held.len() as u64))
}

/// The answer, if there is one. Lists come in dictionary order, so a tie never replaces the first.
pub fn closest(table: &Table, want: u64) -> Option<Group> {
    let holders = holders(table, want);
    let mut best: Option<Group> = None;
    let mut choice = vec![0; holders.len()];
    if holders.iter().any(Vec::is_empty) {
        return None;
    }
    loop {
        let places: Vec<usize> = choice.iter().zip(&holders).map(|(&at, held)| held[at]).collect();
        let squared = diameter(table, &places);
        if best.as_ref().is_none_or(|best| squared < best.squared) {
            best = Some(Group { squared, places });
        }
        if !advance(&mut choice, &holders) {
            return best;
        }
    }
}

fn holders(table: &Table, want: u64) -> Vec<Vec<usize>> {
    let of_kind = |kind| (0..table.places()).filter(move |&place| holds(table.kit[place], kind));
    kinds(want).into_iter().map(|kind| of_kind(kind).collect()).collect()
}

fn diameter(table: &Table, places: &[usize]) -> u64 {
    let mut widest = 0;
    for &one in places {
        for &other in places {
            widest = widest.max(squared(table.position(one), table.position(other)));
        }
    }
    widest
}

/// The next choice in dictionary order; false after the last.
fn advance(choice: &mut [usize], holders: &[Vec<usize>]) -> bool {
    for member in (0..choice.len()).rev() {
        choice[member] += 1;
        if choice[member] < holders[member].len() {
            return true;
        }
        choice[member] = 0;
    }
    false
}

#[cfg(test)]
mod tests {
    use super::*;
    use crate::table::tests::harbour_h;

    #[test]
    fn the_answers_of_harbour_h() {
        let table = harbour_h();
        assert_eq!(groups(&table, 3), 4);
        assert_eq!(closest(&table, 3), Some(Group { squared: 25, places: vec![0, 1] }));
        assert_eq!(closest(&table, 1), Some(Group { squared: 0, places: vec![0] }));
        assert_eq!(closest(&table, 33), None);
    }
}
