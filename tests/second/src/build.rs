//! Trees made of runs, and the builder.

use crate::geometry::{Area, REACH};
use crate::refusal::{Refusal, require};
use crate::table::Table;
use crate::tree::{Columns, MOST_ENTRIES, Tree};

/// Runs, leaves first. A leaf's run names places; a higher one names positions in the level below.
pub type Levels = Vec<Vec<Vec<usize>>>;

/// For each level and position the number of the node.
pub type Numbers = Vec<Vec<usize>>;

/// The call `build`: what is used of `lent` is written over, the rest stays.
pub fn build(table: &Table, lent: &mut Columns) -> Result<(u64, u64), Refusal> {
    table.check()?;
    let made = tree_of(table);
    require(lent.have_room(made.nodes, made.listed), 41, 0)?;
    lay_over(lent, &made.columns);
    Ok((made.nodes, made.listed))
}

/// The builder's tree for a table without faults.
pub fn tree_of(table: &Table) -> Tree {
    let levels = levels_in_order(table);
    let numbers = numbers_from_root(&levels);
    Tree::of(columns(table, &levels, &numbers))
}

/// The places in ascending order of key; a stable sort leaves equal keys by number.
pub fn places_in_order(table: &Table) -> Vec<usize> {
    let mut places: Vec<usize> = (0..table.places()).collect();
    places.sort_by_key(|&place| key(table.position(place)));
    places
}

fn key((x, y): (i32, i32)) -> u64 {
    let (across, along) = ((i64::from(x) + REACH) as u64, (i64::from(y) + REACH) as u64);
    (0..21).map(|bit| (across >> bit & 1) << (2 * bit) | (along >> bit & 1) << (2 * bit + 1)).sum()
}

fn levels_in_order(table: &Table) -> Levels {
    let mut levels = Levels::new();
    let mut below = places_in_order(table);
    while !below.is_empty() {
        let runs: Vec<Vec<usize>> = below.chunks(MOST_ENTRIES).map(<[usize]>::to_vec).collect();
        below = if runs.len() == 1 { Vec::new() } else { (0..runs.len()).collect() };
        levels.push(runs);
    }
    levels
}

fn numbers_from_root(levels: &Levels) -> Numbers {
    let mut next = 0;
    let mut numbers = Numbers::new();
    for runs in levels.iter().rev() {
        numbers.push((next..next + runs.len()).collect());
        next += runs.len();
    }
    numbers.reverse();
    numbers
}

/// The columns of any tree given by its runs and the numbers of its nodes.
pub fn columns(table: &Table, levels: &Levels, numbers: &Numbers) -> Columns {
    let mut places_by_number: Vec<(usize, usize, usize)> = Vec::new();
    for (height, row) in numbers.iter().enumerate() {
        places_by_number.extend(row.iter().enumerate().map(|(at, &number)| (number, height, at)));
    }
    places_by_number.sort_unstable();
    let tops = summaries(table, levels);
    let mut columns = Columns::default();
    for (_, height, at) in places_by_number {
        let run = levels[height][at].iter().map(|&entry| match height {
            0 => entry,
            _ => numbers[height - 1][entry],
        });
        push_node(&mut columns, height, run.collect(), tops[height][at]);
    }
    columns
}

/// Box and kit word of every run, level by level.
fn summaries(table: &Table, levels: &Levels) -> Vec<Vec<(Area, u64)>> {
    let mut below: Vec<(Area, u64)> =
        (0..table.places()).map(|place| (table.area(place), table.kit[place])).collect();
    let mut all = Vec::new();
    for runs in levels {
        below = runs.iter().map(|run| summary(run, &below)).collect();
        all.push(below.clone());
    }
    all
}

fn summary(run: &[usize], below: &[(Area, u64)]) -> (Area, u64) {
    let join = |a: (Area, u64), b: (Area, u64)| (a.0.join(b.0), a.1 | b.1);
    run.iter().map(|&entry| below[entry]).reduce(join).expect("a run is not empty")
}

fn push_node(columns: &mut Columns, height: usize, run: Vec<usize>, (area, kit): (Area, u64)) {
    columns.level.push(height as u8 + 1);
    columns.start.push(columns.entries.len() as u16);
    columns.count.push(run.len() as u8);
    columns.x_lo.push(area.x.low as i32);
    columns.x_hi.push(area.x.high as i32);
    columns.y_lo.push(area.y.low as i32);
    columns.y_hi.push(area.y.high as i32);
    columns.kits.push(kit);
    columns.entries.extend(run.into_iter().map(|entry| entry as u16));
}

fn lay_over(lent: &mut Columns, made: &Columns) {
    over(&mut lent.level, &made.level);
    over(&mut lent.start, &made.start);
    over(&mut lent.count, &made.count);
    over(&mut lent.x_lo, &made.x_lo);
    over(&mut lent.x_hi, &made.x_hi);
    over(&mut lent.y_lo, &made.y_lo);
    over(&mut lent.y_hi, &made.y_hi);
    over(&mut lent.kits, &made.kits);
    over(&mut lent.entries, &made.entries);
}

/// Writes `made` over the front of `lent`.
pub fn over<T: Copy>(lent: &mut [T], made: &[T]) {
    lent[..made.len()].copy_from_slice(made);
}

#[cfg(test)]
mod tests {
    use super::*;
    use crate::table::tests::harbour_h;
    use crate::tree::check;
    use crate::tree::tests::leaf_of_h;

    fn row_of(places: usize) -> Table {
        let mut table = Table::default();
        (0..places).for_each(|place| table.push(place as i32, 0, 1));
        table
    }

    #[test]
    fn harbour_h_is_one_leaf() {
        assert_eq!(tree_of(&harbour_h()), leaf_of_h());
    }

    #[test]
    fn node_counts() {
        for (places, nodes) in [(0, 0), (1, 1), (16, 1), (17, 3), (256, 17), (257, 20), (4096, 273)] {
            let tree = tree_of(&row_of(places));
            assert_eq!(tree.nodes, nodes);
            assert_eq!(check(&row_of(places), &tree), Ok(()));
        }
    }

    #[test]
    fn numbers_run_root_first() {
        let tree = tree_of(&row_of(17));
        assert_eq!(tree.columns.level, vec![2, 1, 1]);
        assert_eq!(tree.columns.count, vec![2, 16, 1]);
        assert_eq!(tree.columns.entries[..2], [1, 2]);
    }

    #[test]
    fn the_key_interleaves_x_lowest() {
        assert_eq!(key((-1_000_000, -1_000_000)), 0);
        assert_eq!(key((-999_999, -1_000_000)), 1);
        assert_eq!(key((-1_000_000, -999_999)), 2);
        assert_eq!(key((-999_998, -999_999)), 6);
    }

    #[test]
    fn short_columns_stay_and_long_ones_keep_their_rest() {
        let mut lent = Columns { level: vec![9; 3], ..leaf_of_h().columns };
        assert_eq!(build(&harbour_h(), &mut lent), Ok((1, 4)));
        assert_eq!(lent.level, vec![1, 9, 9]);
        lent.entries = vec![8; 3];
        let before = lent.clone();
        assert_eq!(build(&harbour_h(), &mut lent), Err(Refusal::new(41, 0)));
        assert_eq!(lent, before);
    }
}
