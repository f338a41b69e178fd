//! The table of places, its two rules, and the kinds of a want.

use crate::geometry::{Area, in_range};
use crate::refusal::{Refusal, require};

pub const MOST_PLACES: usize = 4096;
pub const MOST_KINDS: u32 = 8;

/// Columns as they are lent: nothing says yet that they are equally long.
#[derive(Clone, Debug, Default, PartialEq, Eq)]
pub struct Table {
    pub x: Vec<i32>,
    pub y: Vec<i32>,
    pub kit: Vec<u64>,
}

impl Table {
    pub fn places(&self) -> usize {
        self.x.len()
    }

    pub fn push(&mut self, x: i32, y: i32, kit: u64) {
        self.x.push(x);
        self.y.push(y);
        self.kit.push(kit);
    }

    pub fn position(&self, place: usize) -> (i32, i32) {
        (self.x[place], self.y[place])
    }

    pub fn area(&self, place: usize) -> Area {
        Area::point(self.x[place], self.y[place])
    }

    /// Rules 11 and 12.
    pub fn check(&self) -> Result<(), Refusal> {
        let places = self.places();
        let even = self.y.len() == places && self.kit.len() == places;
        require(even && places <= MOST_PLACES, 11, 0)?;
        for place in 0..places {
            require(in_range(self.x[place]) && in_range(self.y[place]), 12, place)?;
        }
        Ok(())
    }
}

pub fn holds(kit: u64, kind: u32) -> bool {
    kit >> kind & 1 == 1
}

/// The kinds of a want, ascending.
pub fn kinds(want: u64) -> Vec<u32> {
    (0..64).filter(|&kind| holds(want, kind)).collect()
}

/// Rules 1 and 2.
pub fn check_want(want: u64) -> Result<(), Refusal> {
    require(want != 0, 1, 0)?;
    require(kinds(want).len() <= MOST_KINDS as usize, 2, 0)
}

#[cfg(test)]
pub mod tests {
    use super::*;

    pub fn harbour_h() -> Table {
        Table { x: vec![0, 3, 10, 10], y: vec![0, 4, 0, 5], kit: vec![1, 2, 1, 2] }
    }

    #[test]
    fn s8_s9_wants() {
        assert_eq!(check_want(0), Err(Refusal::new(1, 0)));
        assert_eq!(check_want(0x1ff), Err(Refusal::new(2, 0)));
        assert_eq!(check_want(0xff), Ok(()));
        assert_eq!(kinds(1 << 63 | 5), vec![0, 2, 63]);
    }

    #[test]
    fn s10_coordinates() {
        let mut table = harbour_h();
        table.x[2] = 1_000_000;
        assert_eq!(table.check(), Ok(()));
        table.x[2] = 1_000_001;
        assert_eq!(table.check(), Err(Refusal::new(12, 2)));
        table.kit.push(0);
        assert_eq!(table.check(), Err(Refusal::new(11, 0)));
    }
}
