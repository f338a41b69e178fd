//! The library calls: many cases in one process of the program `trials`.

use super::query::{MOST_STEPS, Query};
use crate::build::tree_of;
use crate::cases::sheets::{self, SOUNDINGS, harbour};
use crate::cases::tables::{self, Setting};
use crate::cases::trees;
use crate::compare::{Program, Report};
use crate::random::Random;
use crate::sheet::Sheet;
use crate::table::Table;
use crate::tree::{Columns, Tree};
use crate::trials::{BAD, Case};

const BUILT: &str = "trials: search, builder's tree";
const FOREIGN: &str = "trials: search, foreign tree";

/// What goes into one process at most.
#[derive(Clone, Copy)]
pub struct Room {
    pub cases: usize,
    pub bytes: usize,
}

pub struct LibraryPlan<'a> {
    program: &'a Program,
    report: &'a mut Report,
    room: Room,
    waiting: Vec<(&'static str, Case)>,
    waiting_bytes: usize,
    tried: u64,
}

impl<'a> LibraryPlan<'a> {
    pub fn new(program: &'a Program, report: &'a mut Report, room: Room) -> LibraryPlan<'a> {
        LibraryPlan { program, report, room, waiting: Vec::new(), waiting_bytes: 0, tried: 0 }
    }

    pub fn run(&mut self, seed: u64, cases: u64) {
        self.lists(&mut Random::new(seed ^ 0x20));
        self.tried = 0;
        let mut random = Random::new(seed ^ 0x30);
        for round in 0_u64.. {
            match round % 11 {
                _ if self.tried >= cases => break,
                0 => self.numbers(&mut random),
                1 => self.changed_trees(&mut random),
                2 => self.builds(&mut random),
                3 => self.writes(&mut random),
                4 => self.reads(&mut random),
                5 => self.faulty_tables(&mut random),
                6 => self.odd_trees(&mut random),
                7 | 8 => self.searches(&mut random, BUILT, |_, table| tree_of(table)),
                _ => self.searches(&mut random, FOREIGN, trees::foreign),
            }
        }
        self.flush();
        self.bad_cases(&mut random);
    }

    fn add(&mut self, kind: &'static str, case: Case) {
        let bytes = 8 * case.words().len();
        self.tried += 1;
        if bytes > self.room.bytes {
            self.report.leave_out();
            return;
        }
        if self.waiting.len() >= self.room.cases || self.waiting_bytes + bytes > self.room.bytes {
            self.flush();
        }
        self.waiting_bytes += bytes;
        self.waiting.push((kind, case));
    }

    fn flush(&mut self) {
        let waiting = std::mem::take(&mut self.waiting);
        self.waiting_bytes = 0;
        let input: Vec<u8> = waiting.iter().flat_map(|(_, case)| case.bytes()).collect();
        let printed = self.program.run(&input);
        let mut lines = printed.bytes.split_inclusive(|&byte| byte == b'\n');
        for (kind, case) in &waiting {
            let expected = case.line() + "\n";
            let actual = lines.next().unwrap_or(b"(no line)");
            self.report.judge(kind, &case.bytes(), expected.as_bytes(), actual);
        }
        let ended = printed.ended_well && lines.next().is_none();
        self.report.fact("trials: ends with its input", &input, ended);
    }

    fn lists(&mut self, random: &mut Random) {
        self.soundings();
        self.edge_numbers();
        for input in sheets::whole_sheets() {
            self.add("trials: read, whole sheets", Case::Read(input, blank_table(4)));
        }
        for input in sheets::line_faults() {
            self.add("trials: read, one fault in a line", Case::Read(input, blank_table(4)));
        }
        for input in sheets::byte_faults(random, &harbour().text()) {
            self.add("trials: read, one fault in a byte", Case::Read(input, blank_table(5)));
        }
        self.short_columns(random);
        self.neighbour_trees(random);
        self.several_faults();
        self.greatest_trees(random);
        self.greatest_tables(random);
    }

    /// Each column one too short, and empty, for the builder and for the check.
    fn short_columns(&mut self, random: &mut Random) {
        let table = tables::wider(random, 40).table;
        let tree = tree_of(&table);
        for column in 0..trees::COLUMNS {
            for all in [false, true] {
                let mut short = tree.clone();
                trees::shorten_column(&mut short.columns, column, all);
                self.add("trials: short columns", Case::Build(table.clone(), short.columns.clone()));
                self.add("trials: short columns", Case::Check(table.clone(), short));
            }
        }
    }

    /// Each field of a tree of three levels, one up and one down.
    fn neighbour_trees(&mut self, random: &mut Random) {
        let table = tables::wider(random, 20).table;
        let tree = trees::foreign_with(random, &table, &[5, 2, 1]);
        for other in trees::neighbours(&tree) {
            self.add("trials: check, each field changed", Case::Check(table.clone(), other));
        }
        for other in trees::pairs_of_changes(&tree) {
            self.add("trials: check, two fields changed", Case::Check(table.clone(), other));
        }
    }

    /// Faults of want, table, tree and room together: the first in the order of the refusals counts.
    fn several_faults(&mut self) {
        let kind = "trials: several faults";
        let Sheet { table, .. } = harbour();
        let good = tree_of(&table);
        let mut bad = good.clone();
        bad.columns.kits[0] = 0;
        for table in tables::faults(&table) {
            for want in [0, 0x1ff, 0x20, 3] {
                for tree in [&good, &bad, &Tree::default()] {
                    self.add(kind, Case::Search(table.clone(), tree.clone(), want, 0));
                }
            }
            for columns in [&good.columns, &Columns::default()] {
                self.add(kind, Case::Build(table.clone(), columns.clone()));
            }
            for room in [0, 1000] {
                self.add(kind, Case::Write(table.clone(), 0, 0, vec![b'.'; room]));
            }
            self.add(kind, Case::Check(table, bad.clone()));
        }
    }

    fn soundings(&mut self) {
        let kind = "trials: soundings";
        let Sheet { table, .. } = harbour();
        let leaf = tree_of(&table);
        for (want, allowance) in SOUNDINGS {
            self.add(kind, Case::Search(table.clone(), leaf.clone(), want, allowance));
        }
        let both = Table { x: vec![5], y: vec![5], kit: vec![3] };
        self.add(kind, Case::Search(both.clone(), tree_of(&both), 3, u32::MAX));
        self.add(kind, Case::Search(Table::default(), Tree::default(), 1, 0));
        for x in [1_000_000, 1_000_001] {
            self.add(kind, Case::Build(Table { x: vec![x], ..both.clone() }, leaf.columns.clone()));
        }
        let mut loose = leaf.clone();
        loose.columns.x_hi[0] = 11;
        self.add(kind, Case::Check(table.clone(), loose));
        let mut twice = leaf;
        twice.columns.entries[2] = 1;
        self.add(kind, Case::Check(table, twice));
    }

    fn edge_numbers(&mut self) {
        let ends = [i32::MIN, -1_000_001, -1_000_000, 0, 1_000_000, 1_000_001, i32::MAX];
        for a in ends {
            for b in ends {
                self.add("trials: squared", Case::Squared([a, b, 1, -1]));
                self.add("trials: squared", Case::Squared([-1, 1, a, b]));
                self.add("trials: squared", Case::Squared([a, b, b, a]));
            }
        }
        for root in [1, 2, 3, 2_828_427, 65_535, 65_536, 94_906_265, 94_906_266, 4_294_967_295_u64] {
            for n in [root * root - 1, root * root, root * root + 1] {
                self.add("trials: root", Case::Root(n));
            }
        }
        for n in [0, 1 << 52, (1 << 53) + 1, u64::MAX - 1, u64::MAX, 8_000_000_000_000] {
            self.add("trials: root", Case::Root(n));
        }
    }

    /// Trees of 2,048 and 2,049 nodes, and the builder's for 4,096 places.
    fn greatest_trees(&mut self, random: &mut Random) {
        let setting = tables::wider(random, 2000);
        for below_root in [9, 10] {
            let tree = trees::foreign_with(random, &setting.table, &[1900, 138, below_root, 1]);
            self.add("trials: greatest trees", Case::Check(setting.table.clone(), tree));
        }
        let full = tables::full(random, 0);
        let want = full.modest_want(random);
        for tree in [tree_of(&full.table), trees::foreign(random, &full.table)] {
            let blank = trees::blank(random, &tree.columns);
            self.add("trials: greatest trees", Case::Check(full.table.clone(), tree.clone()));
            self.add("trials: greatest trees", Case::Build(full.table.clone(), blank));
            self.add("trials: greatest trees", Case::Search(full.table.clone(), tree, want, MOST_STEPS));
        }
    }

    /// Tables of 4,096 and 4,097 places, written and read.
    fn greatest_tables(&mut self, random: &mut Random) {
        let kind = "trials: greatest tables";
        for more in [0, 1] {
            let table = tables::full(random, more).table;
            let text = Sheet { table: table.clone(), want: 1, budget: 2 }.text();
            for spare in [0, 3] {
                let out = vec![b'.'; text.len() + spare];
                self.add(kind, Case::Write(table.clone(), 1, 2, out));
            }
            self.add(kind, Case::Write(table.clone(), 1, 2, vec![b'.'; text.len() - 1]));
            self.add(kind, Case::Read(text.clone(), blank_table(4096)));
            self.add(kind, Case::Read(text, blank_table(4095)));
            self.add(kind, Case::Build(table.clone(), tree_of(&tables::full(random, 0).table).columns));
            self.add(kind, Case::Check(table, Tree::default()));
        }
    }

    fn numbers(&mut self, random: &mut Random) {
        for _ in 0..8 {
            let mut ends = [0; 4];
            ends.fill_with(|| random.between(-1_000_020, 1_000_020) as i32);
            self.add("trials: squared", Case::Squared(ends));
            let n = random.word() >> random.below(64);
            self.add("trials: root", Case::Root(n));
        }
    }

    fn searches(
        &mut self,
        random: &mut Random,
        kind: &'static str,
        tree_for: impl Fn(&mut Random, &Table) -> Tree,
    ) {
        let setting = if random.once_in(12) { tables::wider(random, 150) } else { tables::small(random) };
        let want = setting.want(random);
        let mut tree = tree_for(random, &setting.table);
        if random.once_in(3) {
            trees::lengthen(random, &mut tree.columns);
        }
        let query = Query::new(setting.table, tree, want, self.report);
        self.add("trials: check, good tree", Case::Check(query.table.clone(), query.tree.clone()));
        for allowance in query.allowances(random) {
            self.add(kind, Case::Search(query.table.clone(), query.tree.clone(), want, allowance));
        }
    }

    fn changed_trees(&mut self, random: &mut Random) {
        let setting = tables::small(random);
        let good = match random.below(2) {
            0 => tree_of(&setting.table),
            _ => trees::foreign(random, &setting.table),
        };
        for changes in [1, 1, 1, 1, 1, 2, 2, 3] {
            let mut tree = good.clone();
            if random.once_in(4) {
                trees::lengthen(random, &mut tree.columns);
            }
            (0..changes).for_each(|_| trees::change(random, &mut tree));
            self.add("trials: check, changed tree", Case::Check(setting.table.clone(), tree.clone()));
            if random.once_in(3) {
                self.search_changed(random, &setting, tree);
            }
        }
    }

    fn odd_trees(&mut self, random: &mut Random) {
        for _ in 0..4 {
            let setting = tables::small(random);
            let tree = trees::odd(random, &setting.table);
            self.add("trials: check, odd tree", Case::Check(setting.table.clone(), tree.clone()));
            self.search_changed(random, &setting, tree);
        }
    }

    fn search_changed(&mut self, random: &mut Random, setting: &Setting, tree: Tree) {
        let want = setting.want(random);
        let allowance = random.below(1000) as u32;
        self.add(
            "trials: search, changed or odd tree",
            Case::Search(setting.table.clone(), tree, want, allowance),
        );
    }

    fn builds(&mut self, random: &mut Random) {
        let places = random.pick(&[255, 256, 257, 300, 513]);
        let setting = if random.once_in(6) { tables::wider(random, places) } else { tables::small(random) };
        let exact = trees::blank(random, &tree_of(&setting.table).columns);
        let mut longer = exact.clone();
        trees::lengthen(random, &mut longer);
        let mut shorter = longer.clone();
        trees::shorten(random, &mut shorter);
        let mut short = exact.clone();
        trees::shorten(random, &mut short);
        for lent in [exact, longer, shorter, short] {
            self.add("trials: build", Case::Build(setting.table.clone(), lent));
        }
    }

    fn writes(&mut self, random: &mut Random) {
        let table = tables::small(random).table;
        let want = random.word() >> random.below(64);
        let budget = (random.word() >> 32 >> random.below(32)) as u32;
        let exact = Sheet { table: table.clone(), want, budget }.text().len();
        for room in [exact, exact + random.below(50), exact - 1, random.below(exact), 0] {
            let lent = (0..room).map(|_| random.word() as u8).collect();
            self.add("trials: write", Case::Write(table.clone(), want, budget, lent));
        }
    }

    fn reads(&mut self, random: &mut Random) {
        let setting = tables::small(random);
        let places = setting.table.places();
        let sheet = Sheet { want: random.word(), budget: random.word() as u32, table: setting.table };
        for room in [places, places + random.below(5), places.saturating_sub(1), 0] {
            self.add("trials: read", Case::Read(sheet.text(), uneven_table(random, room)));
        }
        for _ in 0..6 {
            let mut text = sheet.text();
            sheets::damage(random, &mut text);
            let room = random.pick(&[places, places + 2, 0]);
            self.add("trials: read, damaged sheet", Case::Read(text, uneven_table(random, room)));
        }
    }

    fn faulty_tables(&mut self, random: &mut Random) {
        let kind = "trials: faulty tables";
        let setting = tables::small(random);
        let tree = tree_of(&setting.table);
        let want = setting.want(random);
        let mut table = setting.table;
        tables::spoil(random, &mut table);
        let mut room = tree.columns.clone();
        if random.once_in(2) {
            trees::shorten(random, &mut room);
        }
        self.add(kind, Case::Check(table.clone(), tree.clone()));
        self.add(kind, Case::Build(table.clone(), room));
        self.add(kind, Case::Write(table.clone(), want, 5, vec![1; random.below(100)]));
        self.add(kind, Case::Search(table, tree, want, 500));
    }

    /// Cases that are cut off or unknown, each in its own process.
    fn bad_cases(&mut self, random: &mut Random) {
        let good = Case::Root(26);
        for first in [0, 8, 1 << 32 | 1, 1 << 63 | 2, u64::MAX] {
            self.bad_case(&good, &u64::to_le_bytes(first));
        }
        for length in [1, 1 << 32, 1 << 61, u64::MAX] {
            self.bad_case(&good, &[u64::to_le_bytes(3), u64::to_le_bytes(length)].concat());
        }
        for _ in 0..12 {
            let setting = tables::small(random);
            let tree = trees::foreign(random, &setting.table);
            let whole = Case::Search(setting.table, tree, 1, 5).bytes();
            self.bad_case(&good, &whole[..1 + random.below(whole.len() - 1)]);
        }
    }

    fn bad_case(&mut self, good: &Case, bad: &[u8]) {
        let input = [&good.bytes()[..], bad].concat();
        let expected = format!("{}\n{BAD}\n", good.line());
        let actual = self.program.run(&input).bytes;
        self.report.judge("trials: bad case", &input, expected.as_bytes(), &actual);
    }
}

fn blank_table(places: usize) -> Table {
    Table { x: vec![-7; places], y: vec![8; places], kit: vec![9; places] }
}

/// Columns of at least `room`, of which one may be shorter or longer.
fn uneven_table(random: &mut Random, room: usize) -> Table {
    let mut table = blank_table(room);
    match random.below(8) {
        0 => table.x.push(1),
        1 => table.y.push(1),
        2 => table.kit.push(1),
        3 => table.x.truncate(room / 2),
        4 => table.y.truncate(room / 2),
        5 => table.kit.truncate(room / 2),
        _ => (),
    }
    table
}
