//! Sheets in form, sheets with one fault of every sort, and sheets with faults at random.

use crate::random::Random;
use crate::sheet::Sheet;
use crate::table::Table;

const NUMBERS: [&str; 34] = [
    "",
    "-",
    "--1",
    "-0",
    "+0",
    "+1",
    "00",
    "01",
    "-01",
    "007",
    " 1",
    "1 ",
    "1\r",
    "1\t",
    "1.0",
    "1e3",
    "0x1",
    "1,000",
    "a",
    "1a",
    "-1",
    "0",
    "1",
    "4",
    "4096",
    "4097",
    "1000000",
    "-1000000",
    "1000001",
    "-1000001",
    // Those that a count of 32 or 64 bits would take for 0 or 1.
    "4294967295",
    "4294967296",
    "18446744073709551617",
    "-18446744073709551616",
];

const WORDS: [&str; 17] = [
    "",
    "3",
    "000000000000003",
    "00000000000000003",
    "0000000000000000",
    "ffffffffffffffff",
    "FFFFFFFFFFFFFFFF",
    "000000000000000A",
    "000000000000000g",
    "000000000000000/",
    "000000000000000:",
    "000000000000000`",
    "000000000000000@",
    "0x00000000000003",
    "+000000000000003",
    "-000000000000003",
    "000000000000003 ",
];

const ENDS: [&str; 9] = ["", "1", "2", "01", "-1", "sheet", "sheet ", "Sheet", "answer"];

/// Wants and allowances of the soundings on harbour H.
pub const SOUNDINGS: [(u64, u32); 8] =
    [(3, 7), (3, 6), (1, 3), (32, 0), (1, 0), (0, 7), (0x1ff, 7), (0xff, 7)];

/// The sheet of harbour H.
pub fn harbour() -> Sheet {
    let table = Table { x: vec![0, 3, 10, 10], y: vec![0, 4, 0, 5], kit: vec![1, 2, 1, 2] };
    Sheet { table, want: 3, budget: 7 }
}

/// One fault in one line of harbour H, line by line.
pub fn line_faults() -> Vec<Vec<u8>> {
    let lines: Vec<String> = text_lines(&harbour());
    let mut sheets = Vec::new();
    for (at, line) in lines.iter().enumerate() {
        for other in other_lines(line) {
            sheets.push(with_line(&lines, at, &other));
        }
        sheets.push(lines[..at].concat().into_bytes());
        sheets.push([&lines[..at], &lines[at + 1..]].concat().concat().into_bytes());
        sheets.push([&lines[..=at], &lines[at..]].concat().concat().into_bytes());
        let mut swapped = lines.clone();
        swapped.swap(at, (at + 1) % lines.len());
        sheets.push(swapped.concat().into_bytes());
    }
    sheets
}

fn text_lines(sheet: &Sheet) -> Vec<String> {
    let text = String::from_utf8(sheet.text()).expect("a sheet is text");
    text.split_inclusive('\n').map(str::to_string).collect()
}

fn with_line(lines: &[String], at: usize, other: &[u8]) -> Vec<u8> {
    let (before, after) = (lines[..at].concat(), lines[at + 1..].concat());
    [before.as_bytes(), other, after.as_bytes()].concat()
}

fn other_lines(line: &str) -> Vec<Vec<u8>> {
    let (key, value) = line.trim_end().split_once('=').expect("a line has a key");
    let values = match key {
        "kit" | "want" => &WORDS[..],
        "sheet" | "end" => &ENDS[..],
        _ => &NUMBERS[..],
    };
    let mut others: Vec<Vec<u8>> =
        values.iter().map(|value| format!("{key}={value}\n").into_bytes()).collect();
    others.extend(other_keys(key, value));
    others.extend(other_lengths(key, value));
    others.extend(other_bytes(key, value));
    others
}

fn other_keys(key: &str, value: &str) -> Vec<Vec<u8>> {
    let upper = key.to_uppercase();
    [
        format!("{upper}={value}\n"),
        format!(" {key}={value}\n"),
        format!("{key} ={value}\n"),
        format!("{key}2={value}\n"),
        format!("{key}=={value}\n"),
        format!("{key}{value}\n"),
        format!("{key}\n"),
        format!("={value}\n"),
        format!("{}={value}\n", &key[1..]),
        format!("{}={value}\n", &key[..key.len() - 1]),
        format!("{key}:{value}\n"),
        "\n".to_string(),
    ]
    .map(String::into_bytes)
    .to_vec()
}

/// Lines of 39, 40 and 41 bytes, and a far longer one.
fn other_lengths(key: &str, value: &str) -> Vec<Vec<u8>> {
    let mut lines = Vec::new();
    for length in [39, 40, 41, 300] {
        let fill = length - key.len() - 1 - value.len();
        lines.push(format!("{key}={value}{}\n", " ".repeat(fill)).into_bytes());
        lines.push(format!("{key}={}{value}\n", "0".repeat(fill)).into_bytes());
        lines.push(format!("{key}={}\n", "9".repeat(fill + value.len())).into_bytes());
        lines.push(format!("{}\n", "x".repeat(length)).into_bytes());
    }
    lines
}

fn other_bytes(key: &str, value: &str) -> Vec<Vec<u8>> {
    let mut lines = vec![
        format!("{key}={value}\r\n").into_bytes(),
        format!("{key}={value}").into_bytes(),
        format!("{key}={value}\r").into_bytes(),
        format!("{key}={value}\n\n").into_bytes(),
        format!("{key}=\n{value}\n").into_bytes(),
    ];
    for byte in [0, 127, 128, 255] {
        let line = format!("{key}={value}\n").into_bytes();
        for at in [0, key.len(), key.len() + 1, line.len() - 1] {
            let mut longer = line.clone();
            longer.insert(at, byte);
            lines.push(longer);
        }
    }
    lines
}

/// Sheets that are wrong, or not, as a whole.
pub fn whole_sheets() -> Vec<Vec<u8>> {
    let text = harbour().text();
    let dos = String::from_utf8(text.clone()).expect("a sheet is text").replace('\n', "\r\n");
    let mut sheets = vec![
        Vec::new(),
        text.clone(),
        dos.into_bytes(),
        text[..text.len() - 1].to_vec(),
        [&text[..], &text[..]].concat(),
        Sheet::default().text(),
        b"sheet=1\nplaces=0\nwant=0000000000000001\nbudget=0\nend=sheet\n".to_vec(),
        b"sheet=1\nplaces=0\nwant=0000000000000001\nbudget=0\nend=sheet\nx".to_vec(),
    ];
    for extra in [&b"\n"[..], b" ", b"\0", b"\xff", b"end=sheet\n", b"x=1\n"] {
        sheets.push([&text[..], extra].concat());
    }
    for filler in [b'\n', 0, 255, b'x'] {
        sheets.push(vec![filler; 1]);
        sheets.push(vec![filler; 65_536]);
        sheets.push(vec![filler; 65_537]);
    }
    sheets.push(padded(&text, 65_536));
    sheets.push(padded(&text, 65_537));
    sheets
}

fn padded(text: &[u8], length: usize) -> Vec<u8> {
    let mut longer = text.to_vec();
    longer.resize(length, b'\n');
    longer
}

/// A sheet in form of exactly so many bytes, from about 58,000 to 75,000.
pub fn sized(random: &mut Random, length: usize) -> Vec<u8> {
    let by_length = [7, 42, 512, 4096, 65_536, 524_288, -524_288, -1_000_000];
    let mut table = Table::default();
    (0..1400).for_each(|_| table.push(by_length[0], by_length[0], 1 << random.below(64)));
    let mut sheet = Sheet { table, want: 0x11, budget: 90_000 };
    let mut missing = length - sheet.text().len();
    let mut order: Vec<usize> = (0..1400).collect();
    random.shuffle(&mut order);
    for place in order {
        for column in [&mut sheet.table.x, &mut sheet.table.y] {
            let longer = missing.min(by_length.len() - 1);
            column[place] = by_length[longer];
            missing -= longer;
        }
    }
    sheet.text()
}

/// Each byte changed, removed and doubled, one at a time, and each front part of the bytes.
pub fn byte_faults(random: &mut Random, text: &[u8]) -> Vec<Vec<u8>> {
    let mut sheets = Vec::new();
    for at in 0..text.len() {
        let mut changed = text.to_vec();
        changed[at] = other_byte(random, text[at]);
        sheets.push(changed);
        let mut removed = text.to_vec();
        removed.remove(at);
        sheets.push(removed);
        let mut doubled = text.to_vec();
        doubled.insert(at, text[at]);
        sheets.push(doubled);
        sheets.push(text[..at].to_vec());
    }
    sheets
}

fn other_byte(random: &mut Random, byte: u8) -> u8 {
    let likely = *b"0123456789abcdefF-+=\n\r \0\xffx";
    match random.below(4) {
        0 => byte ^ 1 << random.below(8),
        1 => byte.wrapping_add(1 + random.below(255) as u8),
        _ => random.pick(&likely),
    }
}

/// Some faults at random places.
pub fn damage(random: &mut Random, text: &mut Vec<u8>) {
    for _ in 0..1 + random.below(3) {
        let at = random.below(text.len() + 1);
        match random.below(6) {
            0 => text.truncate(at),
            1 => text.insert(at, other_byte(random, b'0')),
            2 => move_line(random, text),
            _ if at == text.len() => text.push(b'\n'),
            3 => drop(text.remove(at)),
            _ => text[at] = other_byte(random, text[at]),
        }
    }
}

/// Takes one line away and puts it in again elsewhere, or not.
fn move_line(random: &mut Random, text: &mut Vec<u8>) {
    let mut lines: Vec<Vec<u8>> = text.split_inclusive(|&byte| byte == b'\n').map(<[u8]>::to_vec).collect();
    if lines.is_empty() {
        return;
    }
    let line = lines.remove(random.below(lines.len()));
    if random.once_in(2) {
        lines.insert(random.below(lines.len() + 1), line);
    }
    *text = lines.concat();
}

#[cfg(test)]
mod tests {
    use super::*;
    use crate::sheet::parse;

    #[test]
    fn sized_sheets_are_in_form() {
        for length in [65_535, 65_536, 65_537] {
            let text = sized(&mut Random::new(1), length);
            assert_eq!(text.len(), length);
            assert!(parse(&text).is_ok());
        }
    }
}
