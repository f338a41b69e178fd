//! Cases for the library calls: as words for the program `trials`, and the lines it must print.

use std::fmt::Display;

use crate::build::build;
use crate::geometry::{measured, root};
use crate::refusal::Refusal;
use crate::sheet;
use crate::table::Table;
use crate::tree::{Columns, Tree, check};
use crate::walk::{Ending, search};

#[derive(Clone, Debug, PartialEq, Eq)]
pub enum Case {
    Squared([i32; 4]),
    Root(u64),
    Check(Table, Tree),
    Build(Table, Columns),
    Search(Table, Tree, u64, u32),
    Write(Table, u64, u32, Vec<u8>),
    Read(Vec<u8>, Table),
}

/// A value of a column as the word that stands for it, and back.
pub trait Word: Copy + Display {
    fn word(self) -> u64;
    fn from_word(word: u64) -> Option<Self>;
}

macro_rules! words {
    ($($kind:ty),*) => {$(
        impl Word for $kind {
            fn word(self) -> u64 {
                self.into()
            }
            fn from_word(word: u64) -> Option<$kind> {
                word.try_into().ok()
            }
        }
    )*};
}

words!(u8, u16, u32, u64);

impl Word for i32 {
    fn word(self) -> u64 {
        i64::from(self) as u64
    }

    fn from_word(word: u64) -> Option<i32> {
        (word as i64).try_into().ok()
    }
}

impl Case {
    pub fn words(&self) -> Vec<u64> {
        let mut out = Words(Vec::new());
        match self {
            Case::Squared(ends) => out.number(1).numbers(ends),
            Case::Root(n) => out.number(2).number(*n),
            Case::Check(table, tree) => out.number(3).table(table).tree(tree),
            Case::Build(table, lent) => out.number(4).table(table).columns(lent),
            Case::Search(table, tree, want, allowance) => {
                out.number(5).table(table).tree(tree).number(*want).number(*allowance)
            }
            Case::Write(table, want, budget, lent) => {
                out.number(6).table(table).number(*want).number(*budget).column(lent)
            }
            Case::Read(source, lent) => out.number(7).column(source).table(lent),
        };
        out.0
    }

    pub fn bytes(&self) -> Vec<u8> {
        self.words().iter().flat_map(|word| word.to_le_bytes()).collect()
    }

    /// The line due for the case, without its line feed.
    pub fn line(&self) -> String {
        let mut out = Line(String::new());
        match self {
            Case::Squared([ax, ay, bx, by]) => measured_line(&mut out, (*ax, *ay), (*bx, *by)),
            Case::Root(n) => out.field(root(*n)),
            Case::Check(table, tree) => out.verdict(check(table, tree)),
            Case::Build(table, lent) => build_line(&mut out, table, lent.clone()),
            Case::Search(table, tree, want, allowance) => {
                search_line(&mut out, search(table, tree, *want, *allowance))
            }
            Case::Write(table, want, budget, lent) => {
                write_line(&mut out, table, *want, *budget, lent.clone())
            }
            Case::Read(source, lent) => read_line(&mut out, source, lent.clone()),
        };
        out.0
    }
}

fn measured_line(out: &mut Line, a: (i32, i32), b: (i32, i32)) {
    let squared = measured(a, b);
    out.verdict(squared.map(|_| ()));
    out.field(squared.unwrap_or(0));
}

fn build_line(out: &mut Line, table: &Table, mut lent: Columns) {
    let built = build(table, &mut lent);
    out.verdict(built.map(|_| ()));
    let (nodes, listed) = built.unwrap_or((0, 0));
    out.field(nodes);
    out.field(listed);
    out.columns(&lent);
}

fn search_line(out: &mut Line, ending: Result<Ending, Refusal>) {
    let (verdict, group, steps) = match ending {
        Err(refusal) => (Err(refusal), None, 0),
        Ok(Ending::None) => (Err(Refusal::new(31, 0)), None, 0),
        Ok(Ending::Spent { known, steps }) => (Err(Refusal::new(32, 0)), known, steps),
        Ok(Ending::Found { group, steps }) => (Ok(()), Some(group), steps),
    };
    out.verdict(verdict);
    let named = group.as_ref().map_or(&[][..], |group| &group.places);
    (0..8).for_each(|member| out.field(named.get(member).unwrap_or(&0)));
    out.field(group.as_ref().map_or(0, |group| group.squared));
    out.field(steps);
    out.field(u8::from(group.is_some()));
}

fn write_line(out: &mut Line, table: &Table, want: u64, budget: u32, mut lent: Vec<u8>) {
    let written = sheet::write(table, want, budget, &mut lent);
    out.verdict(written.map(|_| ()));
    out.field(written.unwrap_or(0));
    out.column(&lent);
}

fn read_line(out: &mut Line, source: &[u8], mut lent: Table) {
    let read = sheet::read(source, &mut lent);
    out.verdict(read.as_ref().map(|_| ()).map_err(|&refusal| refusal));
    let sheet = read.unwrap_or_default();
    out.field(sheet.table.places());
    out.field(sheet.want);
    out.field(sheet.budget);
    out.column(&lent.x);
    out.column(&lent.y);
    out.column(&lent.kit);
}

struct Line(String);

impl Line {
    fn field(&mut self, value: impl Display) {
        if !self.0.is_empty() {
            self.0.push(' ');
        }
        self.0.push_str(&value.to_string());
    }

    fn verdict(&mut self, verdict: Result<(), Refusal>) {
        let refusal = verdict.err().unwrap_or(Refusal::new(0, 0));
        self.field(refusal.code);
        self.field(refusal.at);
    }

    fn column<T: Word>(&mut self, column: &[T]) {
        self.field('|');
        column.iter().for_each(|value| self.field(value));
    }

    fn columns(&mut self, columns: &Columns) {
        self.column(&columns.level);
        self.column(&columns.start);
        self.column(&columns.count);
        self.column(&columns.x_lo);
        self.column(&columns.x_hi);
        self.column(&columns.y_lo);
        self.column(&columns.y_hi);
        self.column(&columns.kits);
        self.column(&columns.entries);
    }
}

struct Words(Vec<u64>);

impl Words {
    fn number(&mut self, value: impl Word) -> &mut Words {
        self.0.push(value.word());
        self
    }

    fn numbers<T: Word>(&mut self, values: &[T]) -> &mut Words {
        self.0.extend(values.iter().map(|value| value.word()));
        self
    }

    fn column<T: Word>(&mut self, column: &[T]) -> &mut Words {
        self.number(column.len() as u64).numbers(column)
    }

    fn table(&mut self, table: &Table) -> &mut Words {
        self.column(&table.x).column(&table.y).column(&table.kit)
    }

    fn columns(&mut self, columns: &Columns) -> &mut Words {
        self.column(&columns.level)
            .column(&columns.start)
            .column(&columns.count)
            .column(&columns.x_lo)
            .column(&columns.x_hi)
            .column(&columns.y_lo)
            .column(&columns.y_hi)
            .column(&columns.kits)
            .column(&columns.entries)
    }

    fn tree(&mut self, tree: &Tree) -> &mut Words {
        self.columns(&tree.columns).number(tree.nodes).number(tree.listed)
    }
}

pub const BAD: &str = "bad case";

/// Plays the program `trials`: what it prints for its whole input.
pub fn play(input: &[u8]) -> String {
    let mut taker = Taker { rest: input };
    let mut printed = String::new();
    while !taker.rest.is_empty() {
        let line = taker.case().map(|case| case.line());
        let ended = line.is_none();
        printed.push_str(&line.unwrap_or(BAD.to_string()));
        printed.push('\n');
        if ended {
            break;
        }
    }
    printed
}

struct Taker<'a> {
    rest: &'a [u8],
}

impl Taker<'_> {
    fn case(&mut self) -> Option<Case> {
        Some(match self.number::<u64>()? {
            1 => Case::Squared([self.number()?, self.number()?, self.number()?, self.number()?]),
            2 => Case::Root(self.number()?),
            3 => Case::Check(self.table()?, self.tree()?),
            4 => Case::Build(self.table()?, self.columns()?),
            5 => Case::Search(self.table()?, self.tree()?, self.number()?, self.number()?),
            6 => Case::Write(self.table()?, self.number()?, self.number()?, self.column()?),
            7 => Case::Read(self.column()?, self.table()?),
            _ => return None,
        })
    }

    fn number<T: Word>(&mut self) -> Option<T> {
        let (word, rest) = self.rest.split_first_chunk::<8>()?;
        self.rest = rest;
        T::from_word(u64::from_le_bytes(*word))
    }

    fn column<T: Word>(&mut self) -> Option<Vec<T>> {
        let length: u64 = self.number()?;
        (0..length).map(|_| self.number()).collect()
    }

    fn table(&mut self) -> Option<Table> {
        Some(Table { x: self.column()?, y: self.column()?, kit: self.column()? })
    }

    fn columns(&mut self) -> Option<Columns> {
        Some(Columns {
            level: self.column()?,
            start: self.column()?,
            count: self.column()?,
            x_lo: self.column()?,
            x_hi: self.column()?,
            y_lo: self.column()?,
            y_hi: self.column()?,
            kits: self.column()?,
            entries: self.column()?,
        })
    }

    fn tree(&mut self) -> Option<Tree> {
        Some(Tree { columns: self.columns()?, nodes: self.number()?, listed: self.number()? })
    }
}

#[cfg(test)]
mod tests {
    use super::*;
    use crate::build::tree_of;
    use crate::sheet::tests::sheet_of_h;
    use crate::table::tests::harbour_h;

    fn one_of_each() -> Vec<Case> {
        let tree = tree_of(&harbour_h());
        vec![
            Case::Squared([-3, 4, 0, i32::MIN]),
            Case::Root(26),
            Case::Check(harbour_h(), tree.clone()),
            Case::Build(harbour_h(), tree.columns.clone()),
            Case::Search(harbour_h(), tree, 3, 6),
            Case::Write(harbour_h(), 3, 7, vec![1, 2]),
            Case::Read(sheet_of_h().text(), harbour_h()),
        ]
    }

    #[test]
    fn words_lead_back_to_the_case() {
        for case in one_of_each() {
            let bytes = case.bytes();
            let mut taker = Taker { rest: &bytes };
            assert_eq!(taker.case(), Some(case));
            assert!(taker.rest.is_empty());
        }
    }

    #[test]
    fn lines_of_harbour_h() {
        let lines: Vec<String> = one_of_each().iter().map(Case::line).collect();
        assert_eq!(lines[0], "12 1 0");
        assert_eq!(lines[1], "5");
        assert_eq!(lines[2], "0 0");
        assert_eq!(lines[3], "0 0 1 4 | 1 | 0 | 4 | 0 | 10 | 0 | 5 | 3 | 0 1 2 3");
        assert_eq!(lines[4], "32 0 0 1 0 0 0 0 0 0 25 6 1");
        assert_eq!(lines[5], "54 0 0 | 1 2");
        assert_eq!(lines[6], "0 0 4 3 7 | 0 3 10 10 | 0 4 0 5 | 1 2 1 2");
    }

    #[test]
    fn a_case_that_is_cut_off() {
        let bytes = Case::Root(26).bytes();
        assert_eq!(play(&bytes), "5\n");
        assert_eq!(play(&[&bytes[..], &bytes[..9]].concat()), "5\nbad case\n");
        assert_eq!(play(&[8, 0, 0, 0, 0, 0, 0, 0]), "bad case\n");
        assert_eq!(play(&[]), "");
    }
}
