//! A search that is tried with several allowances.

use crate::brute;
use crate::compare::Report;
use crate::random::Random;
use crate::table::Table;
use crate::tree::{Tree, check};
use crate::trials::Case;
use crate::walk::{Ending, search};

/// No case needs more steps than this.
pub const MOST_STEPS: u32 = 30_000;

/// Tables with more groups are not tried by brute force.
const MOST_GROUPS: u64 = 20_000;

/// A table, a tree that passes and a want, with how the search ends within `MOST_STEPS`.
pub struct Query {
    pub table: Table,
    pub tree: Tree,
    want: u64,
    ending: Option<Ending>,
}

impl Query {
    /// Also holds the second program against itself.
    pub fn new(table: Table, tree: Tree, want: u64, report: &mut Report) -> Query {
        let ending = search(&table, &tree, want, MOST_STEPS).ok();
        let query = Query { table, tree, want, ending };
        query.cross_check(report);
        query
    }

    fn cross_check(&self, report: &mut Report) {
        let case = || Case::Search(self.table.clone(), self.tree.clone(), self.want, MOST_STEPS);
        let sound = check(&self.table, &self.tree).is_ok();
        report.fact("within: the tree passes", &case().bytes(), sound);
        if brute::groups(&self.table, self.want) > MOST_GROUPS {
            return;
        }
        let group = match &self.ending {
            Some(Ending::Found { group, .. }) => Some(group.clone()),
            Some(Ending::None) => None,
            _ => return,
        };
        let agreed = group == brute::closest(&self.table, self.want);
        report.fact("within: walk and brute force agree", &case().bytes(), agreed);
    }

    pub fn allowances(&self, random: &mut Random) -> Vec<u32> {
        let needed = match &self.ending {
            Some(Ending::Found { steps, .. }) => *steps as u32,
            Some(Ending::Spent { .. }) => return vec![0, 1, random.below(MOST_STEPS as usize) as u32],
            _ => return vec![0, 1, u32::MAX],
        };
        let between = random.below(needed as usize) as u32;
        let mut all = vec![0, 1, between, needed - 1, needed, needed + 1];
        if random.once_in(4) {
            all.push(u32::MAX);
        }
        all.sort_unstable();
        all.dedup();
        all
    }
}
