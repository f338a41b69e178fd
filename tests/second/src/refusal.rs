//! Refusals: a code of the table in the scope, and where.

#[derive(Clone, Copy, Debug, PartialEq, Eq)]
pub struct Refusal {
    pub code: u8,
    pub at: usize,
}

impl Refusal {
    pub fn new(code: u8, at: usize) -> Refusal {
        Refusal { code, at }
    }
}

/// Refuses with `code` and `at` where `holds` is false.
pub fn require(holds: bool, code: u8, at: usize) -> Result<(), Refusal> {
    if holds { Ok(()) } else { Err(Refusal::new(code, at)) }
}

/// The family that the program prints for a code.
pub fn family(code: u8) -> &'static str {
    match code {
        1..=2 => "query",
        11..=12 => "table",
        21..=26 => "tree",
        31..=33 => "search",
        51..=53 => "sheet",
        41 | 54..=55 => "room",
        _ => unreachable!("no refusal has the code {code}"),
    }
}
