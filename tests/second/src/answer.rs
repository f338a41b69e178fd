//! What the program prints for its input.

use crate::build::tree_of;
use crate::geometry::root;
use crate::refusal::{Refusal, family};
use crate::sheet::{Sheet, parse};
use crate::table::kinds;
use crate::walk::{Ending, Group, search};

pub const LONGEST_INPUT: usize = 65_536;

pub fn answer(input: &[u8]) -> String {
    match solve(input) {
        Ok((_, Ending::None)) => "answer=none\nsteps=0\nend=answer\n".to_string(),
        Ok((_, Ending::Spent { steps, .. })) => format!("answer=spent\nsteps={steps}\nend=answer\n"),
        Ok((sheet, Ending::Found { group, steps })) => found(&sheet, &group, steps),
        Err(refusal) => refused(refusal),
    }
}

fn solve(input: &[u8]) -> Result<(Sheet, Ending), Refusal> {
    if input.len() > LONGEST_INPUT {
        return Err(Refusal::new(55, 0));
    }
    let sheet = parse(input)?;
    let ending = search(&sheet.table, &tree_of(&sheet.table), sheet.want, sheet.budget)?;
    Ok((sheet, ending))
}

fn found(sheet: &Sheet, group: &Group, steps: u64) -> String {
    let needs: String = kinds(sheet.want)
        .iter()
        .zip(&group.places)
        .map(|(kind, place)| format!("need={kind}\nplace={place}\n"))
        .collect();
    let (squared, distance) = (group.squared, root(group.squared));
    format!("answer=found\nsquared={squared}\ndistance={distance}\nsteps={steps}\n{needs}end=answer\n")
}

fn refused(refusal: Refusal) -> String {
    let (code, at) = (refusal.code, refusal.at);
    format!("answer=refused\ncode={code}\nfrom={}\nat={at}\nend=answer\n", family(code))
}

#[cfg(test)]
mod tests {
    use super::*;
    use crate::sheet::tests::sheet_of_h;

    #[test]
    fn s14_the_program_on_harbour_h() {
        let due =
            "answer=found\nsquared=25\ndistance=5\nsteps=7\nneed=0\nplace=0\nneed=1\nplace=1\nend=answer\n";
        assert_eq!(answer(&sheet_of_h().text()), due);
    }

    #[test]
    fn none_spent_and_refused() {
        let with = |want, budget| answer(&Sheet { want, budget, ..sheet_of_h() }.text());
        assert_eq!(with(32, 0), "answer=none\nsteps=0\nend=answer\n");
        assert_eq!(with(3, 6), "answer=spent\nsteps=6\nend=answer\n");
        assert_eq!(with(0, 6), "answer=refused\ncode=1\nfrom=query\nat=0\nend=answer\n");
        assert_eq!(answer(b""), "answer=refused\ncode=51\nfrom=sheet\nat=1\nend=answer\n");
        let long = vec![b'\n'; LONGEST_INPUT + 1];
        assert_eq!(answer(&long), "answer=refused\ncode=55\nfrom=room\nat=0\nend=answer\n");
        assert_eq!(answer(&long[1..]), "answer=refused\ncode=51\nfrom=sheet\nat=1\nend=answer\n");
    }
}
