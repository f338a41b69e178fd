//! Tables with ties, shared positions, empty kits and extreme coordinates, and wants for them.

use crate::random::Random;
use crate::table::{MOST_PLACES, Table, holds};

/// A table and the kinds that its places may hold.
pub struct Setting {
    pub table: Table,
    kinds: Vec<u32>,
}

#[derive(Clone, Copy)]
enum Ground {
    Grid(i64),
    OnePoint,
    Corners,
    Clusters,
    Wide,
    Row,
}

pub fn small(random: &mut Random) -> Setting {
    let ground = random.pick(&[
        Ground::Grid(2),
        Ground::Grid(4),
        Ground::Grid(12),
        Ground::OnePoint,
        Ground::Corners,
        Ground::Clusters,
        Ground::Wide,
        Ground::Row,
    ]);
    let most = random.pick(&[1, 3, 8, 16, 17, 20, 40, 60]);
    let places = random.between(most / 3, most) as usize;
    let palette = 1 + random.below(10);
    let rarity = 1 + random.below(5);
    setting(random, ground, places, palette, rarity)
}

/// Too many groups for brute force; kinds are rare enough for the walk to end soon.
pub fn wider(random: &mut Random, places: usize) -> Setting {
    let ground = random.pick(&[Ground::Clusters, Ground::Wide, Ground::Grid(300)]);
    let palette = 4 + random.below(12);
    setting(random, ground, places, palette, palette)
}

fn setting(random: &mut Random, ground: Ground, places: usize, palette: usize, rarity: usize) -> Setting {
    let kinds = palette_of(random, palette);
    let mut table = Table::default();
    for _ in 0..places {
        let (x, y) = position(random, ground);
        let kit = kit(random, &kinds, rarity);
        table.push(x as i32, y as i32, kit);
    }
    Setting { table, kinds }
}

fn palette_of(random: &mut Random, size: usize) -> Vec<u32> {
    let mut kinds: Vec<u32> = (0..64).collect();
    random.shuffle(&mut kinds);
    if random.once_in(2) {
        // The ends of the word and of its halves come first.
        kinds.sort_by_key(|kind| ![0, 31, 32, 63].contains(kind));
    }
    kinds.truncate(size);
    kinds
}

fn position(random: &mut Random, ground: Ground) -> (i64, i64) {
    match ground {
        Ground::Grid(width) => (random.between(0, width - 1), random.between(-width, -1)),
        Ground::OnePoint => (-999_999, 77),
        Ground::Corners => {
            let ends = [-1_000_000, -999_999, -1, 0, 1, 999_999, 1_000_000];
            (random.pick(&ends), random.pick(&ends))
        }
        Ground::Clusters => {
            let centre = random.between(-3, 3);
            (centre * 300_000 + random.between(-9, 9), centre * centre * 9_000 + random.between(-9, 9))
        }
        Ground::Wide => (random.between(-1_000_000, 1_000_000), random.between(-1_000_000, 1_000_000)),
        Ground::Row => (500, random.between(-20, 20) * 7),
    }
}

fn kit(random: &mut Random, kinds: &[u32], rarity: usize) -> u64 {
    match random.below(24) {
        0..4 => 0,
        4 => kinds.iter().fold(0, |kit, kind| kit | 1 << kind),
        _ => kinds.iter().filter(|_| random.once_in(rarity)).fold(0, |kit, kind| kit | 1 << kind),
    }
}

impl Setting {
    /// Mostly wants that can be met; also 0, more than 8 kinds, and kinds that no place holds.
    pub fn want(&self, random: &mut Random) -> u64 {
        let held = self.table.kit.iter().fold(0, |all, kit| all | kit);
        let mut kinds = self.kinds.clone();
        if !random.once_in(6) {
            kinds.retain(|&kind| holds(held, kind));
        }
        random.shuffle(&mut kinds);
        let size = match random.below(10) {
            0 => random.pick(&[0, 9, 10, 64]),
            _ => random.pick(&[1, 2, 2, 3, 3, 4, 5, 6, 7, 8]),
        };
        if size > 8 || random.once_in(10) {
            let others: Vec<u32> = (0..64).filter(|kind| !kinds.contains(kind)).collect();
            kinds.extend(others);
            random.shuffle(&mut kinds);
        }
        kinds.iter().take(size).fold(0, |want, kind| want | 1 << kind)
    }

    /// A want of few kinds that some places may hold.
    pub fn modest_want(&self, random: &mut Random) -> u64 {
        let mut kinds = self.kinds.clone();
        random.shuffle(&mut kinds);
        kinds.iter().take(1 + random.below(4)).fold(0, |want, kind| want | 1 << kind)
    }
}

/// Breaks rule 11, rule 12 or both.
pub fn spoil(random: &mut Random, table: &mut Table) {
    if random.once_in(3) {
        match random.below(3) {
            0 => table.x.push(0),
            1 => table.y.push(2_000_000),
            _ => table.kit.push(1),
        }
    }
    let far = [1_000_001, -1_000_001, i32::MAX, i32::MIN, 1_000_000, 1 << 20];
    for _ in 0..1 + random.below(2) {
        if table.x.is_empty() || table.y.is_empty() {
            return;
        }
        if random.once_in(2) {
            let place = random.below(table.x.len());
            table.x[place] = random.pick(&far);
        } else {
            let place = random.below(table.y.len());
            table.y[place] = random.pick(&far);
        }
    }
}

/// The table itself, with each fault of rules 11 and 12, and with both.
pub fn faults(table: &Table) -> Vec<Table> {
    let last = table.places() - 1;
    let mut far = table.clone();
    far.x[last] = 1_000_001;
    let mut farther = far.clone();
    farther.y[0] = -1_000_001;
    let mut tables = vec![table.clone(), far.clone(), farther];
    for table in [table, &far] {
        let mut longer = table.clone();
        longer.x.push(0);
        let mut shorter = table.clone();
        shorter.y.pop();
        let mut without = table.clone();
        without.kit.clear();
        tables.extend([longer, shorter, without]);
        tables.push(Table { x: Vec::new(), ..table.clone() });
    }
    tables
}

/// As many places as a table may have, with `more` above that.
pub fn full(random: &mut Random, more: usize) -> Setting {
    setting(random, Ground::Wide, MOST_PLACES + more, 12, 12)
}
