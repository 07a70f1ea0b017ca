//! The count of what was compared, call by call.

use crate::call::{ADDED, Calls, PROBE};
use crate::oracle::Said;
use crate::program::Kind;
use std::collections::{BTreeSet, HashSet};

/// Beyond this many distinct answers a row only says that there are more.
const MOST_DISTINCT: usize = 100_000;

#[derive(Default)]
pub struct Row {
    pub cases: u64,
    /// Answers of class 0.
    pub accepted: u64,
    pub listed: u64,
    pub differences: u64,
    pub distinct: HashSet<u64>,
    pub verdicts: BTreeSet<(u64, u64)>,
}

/// A row for each call of `probe` and of `probe_added` and for each kind of body of `readback`, and one for inputs that end in
/// `cut`.
pub struct Table {
    pub calls: Vec<Row>,
    pub added: Vec<Row>,
    pub bodies: Vec<Row>,
    pub cut: Row,
}

pub fn hash(bytes: &[u8]) -> u64 {
    let mut hash = 0x243F_6A88_85A3_08D3u64 ^ bytes.len() as u64;
    for chunk in bytes.chunks(8) {
        let mut word = [0; 8];
        word[..chunk.len()].copy_from_slice(chunk);
        hash = (hash ^ u64::from_le_bytes(word)).wrapping_mul(0x9E37_79B9_7F4A_7C15);
        hash ^= hash >> 29;
    }
    hash
}

impl Row {
    fn note(&mut self, said: Said, fields: &[u8]) {
        self.cases += 1;
        self.accepted += u64::from(said.verdict == Some((0, 0)));
        self.listed += u64::from(said.listed.is_some());
        self.verdicts.extend(said.verdict);
        if self.distinct.len() < MOST_DISTINCT {
            self.distinct.insert(hash(fields));
        }
    }

    fn print(&self, name: &str) {
        let more = if self.distinct.len() == MOST_DISTINCT { "+" } else { "" };
        let distinct = format!("{}{more}", self.distinct.len());
        let (cases, accepted) = (self.cases, self.accepted);
        let (listed, differences) = (self.listed, self.differences);
        println!("{name:<32} {cases:>11} {accepted:>10} {distinct:>9} {listed:>8} {differences:>12}");
    }
}

impl Table {
    pub fn new() -> Self {
        let rows = |count| (0..count).map(|_| Row::default()).collect();
        let cut = Row::default();
        Self { calls: rows(PROBE.shapes.len()), added: rows(ADDED.shapes.len()), bodies: rows(2), cut }
    }

    pub fn row(&mut self, kind: Kind, no: u8) -> &mut Row {
        let place = |calls: &Calls| calls.shapes.iter().position(|shape| shape.no == no).expect("a call of the table");
        match kind {
            Kind::Probe => &mut self.calls[place(&PROBE)],
            Kind::Added => &mut self.added[place(&ADDED)],
            Kind::Readback => &mut self.bodies[usize::from(no) - 1],
        }
    }

    pub fn note(&mut self, kind: Kind, no: u8, said: Said, fields: &[u8]) {
        self.row(kind, no).note(said, fields);
    }

    fn sum(&self, of: fn(&Row) -> u64) -> u64 {
        self.calls.iter().chain(&self.added).chain(&self.bodies).chain([&self.cut]).map(of).sum()
    }

    pub fn differences(&self) -> u64 {
        self.sum(|row| row.differences)
    }

    pub fn calls(&self) -> u64 {
        self.calls.iter().chain(&self.added).map(|row| row.cases).sum()
    }

    pub fn bodies(&self) -> u64 {
        self.bodies.iter().map(|row| row.cases).sum()
    }

    pub fn print(&self) {
        println!(
            "{:<32} {:>11} {:>10} {:>9} {:>8} {:>12}",
            "call", "cases", "class 0", "distinct", "listed", "differences"
        );
        let shapes = PROBE.shapes.iter().chain(ADDED.shapes);
        for (shape, row) in shapes.zip(self.calls.iter().chain(&self.added)) {
            row.print(&format!("{:>2} {}", shape.no, shape.name));
        }
        self.bodies[0].print("readback root");
        self.bodies[1].print("readback page");
        self.cut.print("inputs that end in cut");
        println!(
            "{} calls, {} bodies, {} of them listed differences, {} unlisted differences",
            self.calls(),
            self.bodies(),
            self.sum(|row| row.listed),
            self.differences()
        );
    }
}
