//! Classes and reasons: document 01's numbers for the reference's errors.

use reference::error::Error;
use std::collections::HashMap;
use std::sync::OnceLock;

const DOCUMENT: &str = include_str!("../../../docs/REASONS.md");

/// A reason string of crc.rs; the list is made from format.rs, so it has no number there.
const OUTSIDE_THE_LIST: &str = "data unit valid length";

/// The strings of docs/REASONS.md, the first of them reason 1.
pub fn list() -> &'static [&'static str] {
    static LIST: OnceLock<Vec<&'static str>> = OnceLock::new();
    LIST.get_or_init(|| {
        let mut list = Vec::new();
        for line in DOCUMENT.lines() {
            let mut cells = line.split('|').map(str::trim).skip(1);
            let number = cells.next().and_then(|cell| cell.parse::<usize>().ok());
            if let (Some(number), Some(reason)) = (number, cells.next()) {
                assert_eq!(number, list.len() + 1, "docs/REASONS.md is out of order");
                list.push(reason);
            }
        }
        list
    })
}

pub fn number(reason: &str) -> u64 {
    static NUMBERS: OnceLock<HashMap<&'static str, u64>> = OnceLock::new();
    let numbers = NUMBERS.get_or_init(|| list().iter().copied().zip(1..).collect());
    match numbers.get(reason) {
        Some(&number) => number,
        None if reason == OUTSIDE_THE_LIST => 0,
        None => panic!("reason {reason:?} is not in docs/REASONS.md"),
    }
}

pub fn class_and_reason(error: Error) -> (u64, u64) {
    match error {
        Error::InvalidGeometry => (1, 0),
        Error::InvalidInput(reason) => (2, number(reason)),
        Error::Corrupt(reason) => (3, number(reason)),
        Error::UnsupportedFormat => (4, 0),
        Error::InvalidName(reason) => (5, number(reason)),
        Error::TooLong(reason) => (6, number(reason)),
    }
}

#[cfg(test)]
mod tests {
    #[test]
    fn the_first_and_the_last() {
        assert_eq!(super::list().len(), 175);
        assert_eq!(super::number("invalid volume label"), 1);
        assert_eq!(super::number("record count"), 175);
        assert_eq!(super::number("data unit valid length"), 0);
    }
}
