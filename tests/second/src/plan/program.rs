//! The program: one sheet, one process.

use std::fs;
use std::io;
use std::path::Path;

use super::query::{MOST_STEPS, Query};
use crate::answer::answer;
use crate::build::tree_of;
use crate::cases::sheets::{self, SOUNDINGS, harbour};
use crate::cases::tables;
use crate::compare::{Program, Report};
use crate::random::Random;
use crate::sheet::{Sheet, parse};

pub struct ProgramPlan<'a> {
    program: &'a Program,
    report: &'a mut Report,
    tried: u64,
}

impl<'a> ProgramPlan<'a> {
    pub fn new(program: &'a Program, report: &'a mut Report) -> ProgramPlan<'a> {
        ProgramPlan { program, report, tried: 0 }
    }

    pub fn run(&mut self, seed: u64, cases: u64) {
        self.lists(&mut Random::new(seed ^ 0x10));
        self.tried = 0;
        let mut random = Random::new(seed);
        for round in 0_u64.. {
            match round % 5 {
                _ if self.tried >= cases => return,
                0..3 => self.small_table(&mut random),
                3 => self.damaged_sheets(&mut random),
                _ => self.wider_table(&mut random),
            }
        }
    }

    /// Each stored sheet with its stored answer.
    pub fn examples(&mut self, directory: &Path) -> io::Result<()> {
        for (input, stored) in stored_examples(directory)? {
            let due = answer(&input);
            self.report.judge("within: stored answers", &input, due.as_bytes(), &stored);
            self.try_sheet("program: examples", &input);
        }
        Ok(())
    }

    fn try_sheet(&mut self, kind: &'static str, input: &[u8]) {
        let printed = self.program.run(input);
        let mut actual = printed.bytes;
        if !printed.ended_well {
            actual.extend(b"(and did not end well)");
        }
        self.report.judge(kind, input, answer(input).as_bytes(), &actual);
        self.tried += 1;
    }

    fn lists(&mut self, random: &mut Random) {
        for (want, budget) in SOUNDINGS {
            self.try_sheet("program: soundings", &Sheet { want, budget, ..harbour() }.text());
        }
        for input in sheets::whole_sheets() {
            self.try_sheet("program: whole sheets", &input);
        }
        for length in [65_535, 65_536, 65_537] {
            self.try_sheet("program: sheets near 65,536 bytes", &sheets::sized(random, length));
        }
        for input in sheets::line_faults() {
            self.try_sheet("program: one fault in a line", &input);
        }
        for input in sheets::byte_faults(random, &harbour().text()) {
            self.try_sheet("program: one fault in a byte", &input);
        }
    }

    fn small_table(&mut self, random: &mut Random) {
        let setting = tables::small(random);
        let want = setting.want(random);
        let tree = tree_of(&setting.table);
        let query = Query::new(setting.table, tree, want, self.report);
        for budget in query.allowances(random) {
            let sheet = Sheet { table: query.table.clone(), want, budget };
            let text = sheet.text();
            self.report.fact("within: a sheet leads there and back", &text, parse(&text) == Ok(sheet));
            self.try_sheet("program: small tables", &text);
        }
    }

    fn wider_table(&mut self, random: &mut Random) {
        let places = 40 + random.below(900);
        let setting = tables::wider(random, places);
        let sheet = Sheet { want: setting.modest_want(random), budget: MOST_STEPS, table: setting.table };
        self.try_sheet("program: wider tables", &sheet.text());
    }

    fn damaged_sheets(&mut self, random: &mut Random) {
        let setting = tables::small(random);
        let sheet = Sheet { want: setting.want(random), budget: MOST_STEPS, table: setting.table };
        for _ in 0..6 {
            let mut text = sheet.text();
            sheets::damage(random, &mut text);
            self.try_sheet("program: damaged sheets", &text);
        }
    }
}

/// `NAME.txt` with `NAME.answer`, for each name in the directory.
fn stored_examples(directory: &Path) -> io::Result<Vec<(Vec<u8>, Vec<u8>)>> {
    let mut paths = Vec::new();
    for entry in fs::read_dir(directory)? {
        paths.push(entry?.path());
    }
    paths.retain(|path| path.extension().is_some_and(|extension| extension == "txt"));
    paths.sort();
    paths.iter().map(|path| Ok((fs::read(path)?, fs::read(path.with_extension("answer"))?))).collect()
}

#[cfg(test)]
mod tests {
    use super::*;
    use crate::answer::LONGEST_INPUT;

    #[test]
    fn the_stored_examples() {
        let directory = Path::new(env!("CARGO_MANIFEST_DIR")).join("../../examples");
        let examples = stored_examples(&directory).unwrap();
        assert!(!examples.is_empty());
        for (input, stored) in examples {
            assert!(input.len() <= LONGEST_INPUT);
            assert_eq!(answer(&input).as_bytes(), stored);
        }
    }
}
