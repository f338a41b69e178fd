//! Makes a sheet that looks like an estuary: quays on two banks, moored barges, vessels under way.

use crate::random::Random;
use crate::sheet::Sheet;
use crate::table::Table;

/// The river runs from its mouth in the west to the weir in the east.
const MOUTH: i64 = -240_000;
const WEIR: i64 = 240_000;
const MOORINGS: usize = 7;

/// Kinds as examples/README.md names them, each with how many in a hundred hold it.
const QUAY_KIT: [(u32, usize); 6] = [(0, 12), (1, 6), (6, 25), (8, 10), (10, 8), (14, 5)];
const BARGE_KIT: [(u32, usize); 6] = [(1, 14), (4, 12), (7, 10), (9, 14), (11, 8), (13, 5)];
const VESSEL_KIT: [(u32, usize); 7] = [(0, 20), (2, 45), (3, 12), (5, 10), (8, 8), (12, 15), (15, 4)];

pub fn sheet(seed: u64, places: usize, want: u64, budget: u32) -> Sheet {
    let mut random = Random::new(seed);
    let moorings: Vec<i64> = (0..MOORINGS).map(|_| random.between(MOUTH, WEIR)).collect();
    let mut table = Table::default();
    for _ in 0..places {
        let ((x, y), kit) = match random.below(10) {
            0..5 => (quay(&mut random), kit(&mut random, &QUAY_KIT)),
            5..8 => (barge(&mut random, &moorings), kit(&mut random, &BARGE_KIT)),
            _ => (vessel(&mut random), kit(&mut random, &VESSEL_KIT)),
        };
        table.push(x as i32, y as i32, kit);
    }
    Sheet { table, want, budget }
}

/// The middle of the river, with two bends.
fn middle(x: i64) -> i64 {
    x * (x - 160_000) * (x + 190_000) / 60_000_000_000
}

/// The river is 120 m wide at the weir and some 4 km at the mouth.
fn half_width(x: i64) -> i64 {
    600 + (WEIR - x) * 20_000 / (WEIR - MOUTH)
}

fn quay(random: &mut Random) -> (i64, i64) {
    let x = random.between(MOUTH, WEIR);
    let bank = random.pick(&[-1, 1]);
    (x, middle(x) + bank * (half_width(x) + random.between(0, 300)))
}

fn barge(random: &mut Random, moorings: &[i64]) -> (i64, i64) {
    let x = random.pick(moorings) + random.between(-2500, 2500);
    (x, middle(x) + half_width(x) / 2 + random.between(-250, 250))
}

fn vessel(random: &mut Random) -> (i64, i64) {
    let x = random.between(MOUTH, WEIR);
    let reach = half_width(x) * 3 / 4;
    (x, middle(x) + random.between(-reach, reach))
}

fn kit(random: &mut Random, shares: &[(u32, usize)]) -> u64 {
    shares.iter().filter(|(_, share)| random.below(100) < *share).fold(0, |kit, (kind, _)| kit | 1 << kind)
}

#[cfg(test)]
mod tests {
    use super::*;

    #[test]
    fn every_place_is_in_range() {
        for seed in 0..20 {
            assert_eq!(sheet(seed, 1000, 1, 1).table.check(), Ok(()));
        }
    }
}
