//! The place sheet: reader and writer.

use std::fmt::Write;

use crate::build::over;
use crate::geometry::REACH;
use crate::refusal::{Refusal, require};
use crate::table::{MOST_PLACES, Table};

const LONGEST_LINE: usize = 40;

#[derive(Clone, Debug, Default, PartialEq, Eq)]
pub struct Sheet {
    pub table: Table,
    pub want: u64,
    pub budget: u32,
}

impl Sheet {
    /// The sheet's bytes, for a table without faults.
    pub fn text(&self) -> Vec<u8> {
        let mut text = format!("sheet=1\nplaces={}\n", self.table.places());
        for place in 0..self.table.places() {
            let (x, y) = self.table.position(place);
            let kit = self.table.kit[place];
            write!(text, "place={place}\nx={x}\ny={y}\nkit={kit:016x}\n").expect("text grows");
        }
        write!(text, "want={:016x}\nbudget={}\nend=sheet\n", self.want, self.budget).expect("text grows");
        text.into_bytes()
    }
}

/// The call `write`: how many bytes of `out` are used.
pub fn write(table: &Table, want: u64, budget: u32, out: &mut [u8]) -> Result<usize, Refusal> {
    table.check()?;
    let text = Sheet { table: table.clone(), want, budget }.text();
    require(text.len() <= out.len(), 54, 0)?;
    over(out, &text);
    Ok(text.len())
}

/// The call `read`: the columns are lent, and what is not used of them stays.
pub fn read(source: &[u8], lent: &mut Table) -> Result<Sheet, Refusal> {
    let sheet = parse(source)?;
    let places = sheet.table.places();
    let room = lent.x.len().min(lent.y.len()).min(lent.kit.len());
    require(places <= room, 54, 0)?;
    over(&mut lent.x, &sheet.table.x);
    over(&mut lent.y, &sheet.table.y);
    over(&mut lent.kit, &sheet.table.kit);
    Ok(sheet)
}

/// The sheet in the bytes, or the lowest line that is wrong.
pub fn parse(source: &[u8]) -> Result<Sheet, Refusal> {
    let mut lines = Lines { rest: source, number: 0 };
    lines.word("sheet=", "1")?;
    let places = lines.number("places=", 0, MOST_PLACES as i64)? as usize;
    let mut table = Table::default();
    for place in 0..places as i64 {
        lines.number("place=", place, place)?;
        let x = lines.number("x=", -REACH, REACH)?;
        let y = lines.number("y=", -REACH, REACH)?;
        let kit = lines.bits("kit=")?;
        table.push(x as i32, y as i32, kit);
    }
    let want = lines.bits("want=")?;
    let budget = lines.number("budget=", 0, u32::MAX.into())? as u32;
    lines.word("end=", "sheet")?;
    require(lines.rest.is_empty(), 53, lines.number + 1)?;
    Ok(Sheet { table, want, budget })
}

struct Lines<'a> {
    rest: &'a [u8],
    /// The number of the line that came last.
    number: usize,
}

impl<'a> Lines<'a> {
    /// The value of the next line, which is due to have `key`.
    fn value(&mut self, key: &str) -> Result<&'a [u8], Refusal> {
        self.number += 1;
        let missing = Refusal::new(51, self.number);
        let end = self.rest.iter().position(|&byte| byte == b'\n').ok_or(missing)?;
        let line = &self.rest[..end];
        self.rest = &self.rest[end + 1..];
        require(line.len() <= LONGEST_LINE, 51, self.number)?;
        line.strip_prefix(key.as_bytes()).ok_or(missing)
    }

    fn word(&mut self, key: &str, due: &str) -> Result<(), Refusal> {
        let value = self.value(key)?;
        require(value == due.as_bytes(), 52, self.number)
    }

    fn number(&mut self, key: &str, least: i64, greatest: i64) -> Result<i64, Refusal> {
        let value = self.value(key)?;
        decimal(value)
            .filter(|number| (least..=greatest).contains(number))
            .ok_or(Refusal::new(52, self.number))
    }

    fn bits(&mut self, key: &str) -> Result<u64, Refusal> {
        let value = self.value(key)?;
        hexadecimal(value).ok_or(Refusal::new(52, self.number))
    }
}

/// A number is in form exactly if it is written back as the same text.
fn decimal(value: &[u8]) -> Option<i64> {
    let text = std::str::from_utf8(value).ok()?;
    let number: i64 = text.parse().ok()?;
    (number.to_string() == text).then_some(number)
}

fn hexadecimal(value: &[u8]) -> Option<u64> {
    let digits = value.iter().all(|byte| matches!(byte, b'0'..=b'9' | b'a'..=b'f'));
    let text = std::str::from_utf8(value).ok()?;
    if digits && text.len() == 16 { u64::from_str_radix(text, 16).ok() } else { None }
}

#[cfg(test)]
pub mod tests {
    use super::*;
    use crate::table::tests::harbour_h;

    pub fn sheet_of_h() -> Sheet {
        Sheet { table: harbour_h(), want: 3, budget: 7 }
    }

    fn fault(text: &str) -> (u8, usize) {
        match parse(text.as_bytes()) {
            Ok(_) => (0, 0),
            Err(refusal) => (refusal.code, refusal.at),
        }
    }

    #[test]
    fn there_and_back() {
        assert_eq!(parse(&sheet_of_h().text()), Ok(sheet_of_h()));
        assert_eq!(parse(&Sheet::default().text()), Ok(Sheet::default()));
    }

    #[test]
    fn lines_out_of_order() {
        assert_eq!(fault(""), (51, 1));
        assert_eq!(fault("sheet=1"), (51, 1));
        assert_eq!(fault("sheet=1\n"), (51, 2));
        assert_eq!(fault("sheet=1\r\n"), (52, 1));
        assert_eq!(fault("Sheet=1\n"), (51, 1));
        assert_eq!(fault("sheet=2\n\n"), (52, 1));
        assert_eq!(fault("sheet=1\nplaces=4097\n"), (52, 2));
        assert_eq!(fault("sheet=1\nplaces=1\nplace=1\n"), (52, 3));
        assert_eq!(fault("sheet=1\nplaces=1\nplace=0\nx==1\n"), (52, 4));
        assert_eq!(fault("sheet=1\nplaces=1\nplace=0\nx2=1\n"), (51, 4));
    }

    #[test]
    fn bytes_after_the_end() {
        let text = String::from_utf8(sheet_of_h().text()).unwrap();
        assert_eq!(fault(&text), (0, 0));
        assert_eq!(fault(&(text.clone() + "\n")), (53, 22));
        assert_eq!(fault(text.strip_suffix('\n').unwrap()), (51, 21));
    }

    #[test]
    fn lines_of_40_and_41_bytes() {
        let line = |digits: usize| format!("sheet=1\nplaces=1\nplace=0\nx={}\n", "9".repeat(digits));
        assert_eq!(fault(&line(38)), (52, 4));
        assert_eq!(fault(&line(39)), (51, 4));
    }

    #[test]
    fn numbers_in_form() {
        for good in ["0", "-1", "1000000", "-1000000"] {
            assert!(decimal(good.as_bytes()).is_some(), "{good}");
        }
        for bad in ["", "-", "-0", "+1", "01", "-01", " 1", "1 ", "1\r", "99999999999999999999", "٣"] {
            assert!(decimal(bad.as_bytes()).is_none(), "{bad}");
        }
        assert_eq!(hexadecimal(b"80000000000000ff"), Some(1 << 63 | 255));
        for bad in ["80000000000000fF", "0000000000000", "00000000000000000", "+000000000000000"] {
            assert!(hexadecimal(bad.as_bytes()).is_none(), "{bad}");
        }
    }

    #[test]
    fn room() {
        let mut short = Table { x: vec![9; 5], y: vec![9; 4], kit: vec![9; 3] };
        let before = short.clone();
        assert_eq!(read(&sheet_of_h().text(), &mut short), Err(Refusal::new(54, 0)));
        assert_eq!(short, before);
        short.kit.push(9);
        assert!(read(&sheet_of_h().text(), &mut short).is_ok());
        assert_eq!(short.x, vec![0, 3, 10, 10, 9]);
        let mut out = vec![7; 300];
        let bytes = write(&harbour_h(), 3, 7, &mut out).unwrap();
        assert_eq!(out[..bytes], sheet_of_h().text());
        assert!(out[bytes..].iter().all(|&byte| byte == 7));
        assert_eq!(write(&harbour_h(), 3, 7, &mut out[..bytes - 1]), Err(Refusal::new(54, 0)));
    }
}
