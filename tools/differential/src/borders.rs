//! Calls at the borders of every rule: good calls with one field at a time at and beside its borders, then with two faults
//! at a time, so that the order of the tests shows.

use crate::call::Call;
use crate::minimise;
use crate::oracle;
use crate::records::put;
use std::collections::{BTreeSet, HashSet};

mod blocks;
mod records;

type Change = Box<dyn Fn(&mut Call)>;
type Verdict = (u64, u64);

/// A field of a call and what it is set to. Names are told where a test fails.
pub struct Field {
    #[cfg_attr(not(test), allow(dead_code))]
    pub name: &'static str,
    changes: Vec<Change>,
    /// Set if the block's checksum is left as it is.
    unsealed: bool,
}

/// Which faults are put together.
#[derive(Clone, Copy, PartialEq, Eq)]
pub enum Pairs {
    /// Every two that answer differently.
    All,
    /// Each change that is refused stands with a fault of the next test that answers differently; the fields are in the order
    /// of their tests, so one call shows the border and the order. For calls with whole blocks.
    Next,
    None,
}

/// A good call and the fields in which it is changed.
pub struct Form {
    #[cfg_attr(not(test), allow(dead_code))]
    pub name: &'static str,
    pub good: Call,
    pub fields: Vec<Field>,
    pub pairs: Pairs,
}

/// A change that is refused: its field, its place there, the answer.
#[derive(Clone, Copy)]
pub struct Fault {
    pub field: usize,
    change: usize,
    pub verdict: Verdict,
}

fn field(name: &'static str, changes: Vec<Change>) -> Field {
    Field { name, changes, unsealed: false }
}

/// A field set by `set` to each of `tries`.
fn tried<T: Copy + 'static>(name: &'static str, tries: &[T], set: impl Fn(&mut Call, T) + Copy + 'static) -> Field {
    let change = |&value: &T| Box::new(move |call: &mut Call| set(call, value)) as Change;
    field(name, tries.iter().map(change).collect())
}

/// A number of the call.
fn number(name: &'static str, place: usize, tries: &[u64]) -> Field {
    tried(name, tries, move |call, value| call.numbers[place] = value)
}

/// A little-endian number in a string: its offset and width.
fn little(name: &'static str, text: usize, at: (usize, usize), tries: &[u64]) -> Field {
    tried(name, tries, move |call, value| put(&mut call.texts[text], at, value, false))
}

/// A big-endian number in a string.
fn big(name: &'static str, text: usize, at: (usize, usize), tries: &[u64]) -> Field {
    tried(name, tries, move |call, value| put(&mut call.texts[text], at, value, true))
}

/// A string's length; what is added is `x`.
fn length(name: &'static str, text: usize, tries: &[usize]) -> Field {
    tried(name, tries, move |call, len| call.texts[text].resize(len, b'x'))
}

/// A whole string.
fn whole(name: &'static str, text: usize, tries: Vec<Vec<u8>>) -> Field {
    let change = |value: Vec<u8>| Box::new(move |call: &mut Call| call.texts[text] = value.clone()) as Change;
    field(name, tries.into_iter().map(change).collect())
}

/// Class and reason that the oracle gives a call, if it has them.
pub fn verdict(call: &Call) -> Option<Verdict> {
    let mut bytes = Vec::new();
    call.write(&mut bytes);
    let mut verdict = None;
    oracle::probe(&bytes, |_, said, fields| {
        assert_ne!(fields, oracle::PANIC, "the reference panics on {call:?}");
        verdict = said.verdict;
    });
    verdict
}

impl Form {
    fn new(name: &'static str, good: Call, fields: Vec<Field>) -> Self {
        Self { name, good, fields, pairs: Pairs::All }
    }

    fn with(self, pairs: Pairs) -> Self {
        Self { pairs, ..self }
    }

    /// The good call with some changes, sealed anew.
    fn changed(&self, changes: &[(usize, usize)]) -> Call {
        let mut call = self.good.clone();
        let mut unsealed = false;
        for &(field, change) in changes {
            (self.fields[field].changes[change])(&mut call);
            unsealed |= self.fields[field].unsealed;
        }
        match unsealed {
            true => call,
            false => minimise::sealed(call.clone()).unwrap_or(call),
        }
    }

    /// The calls in which one field is changed.
    pub fn singles(&self, field: usize) -> Vec<Call> {
        (0..self.fields[field].changes.len()).map(|change| self.changed(&[(field, change)])).collect()
    }

    /// For each field the first change of each refusal.
    pub fn faults(&self) -> Vec<Fault> {
        let mut faults = Vec::new();
        for field in 0..self.fields.len() {
            let mut seen = BTreeSet::new();
            for (change, call) in self.singles(field).iter().enumerate() {
                let refused = verdict(call).filter(|verdict| *verdict != (0, 0));
                if let Some(verdict) = refused.filter(|verdict| seen.insert(*verdict)) {
                    faults.push(Fault { field, change, verdict });
                }
            }
        }
        faults
    }

    /// The calls with two faults, of every two that answer differently.
    pub fn paired(&self) -> Vec<Call> {
        let faults = self.faults();
        let mut calls = Vec::new();
        for (place, a) in faults.iter().enumerate() {
            let others = faults[place + 1..].iter().filter(|b| a.field != b.field && a.verdict != b.verdict);
            calls.extend(others.map(|b| self.changed(&[(a.field, a.change), (b.field, b.change)])));
        }
        calls
    }

    /// Each change, and with it, if it is refused, a fault of the next test, that test's faults in turn. It must answer as it
    /// does alone.
    pub fn chained(&self) -> Vec<(Call, Option<Verdict>)> {
        let faults = self.faults();
        let mut calls = Vec::new();
        let (mut last, mut turn) = (None, 0);
        for field in 0..self.fields.len() {
            for (change, call) in self.singles(field).into_iter().enumerate() {
                let alone = verdict(&call);
                if alone == Some((0, 0)) {
                    calls.push((call, alone));
                    continue;
                }
                turn = if alone == last { turn + 1 } else { 0 };
                last = alone;
                let behind = faults.iter().filter(|fault| fault.field > field);
                let next: Vec<&Fault> = behind.skip_while(|fault| Some(fault.verdict) == alone).collect();
                let same = next.iter().take_while(|fault| fault.verdict == next[0].verdict).count();
                calls.push(match same {
                    0 => (call, alone),
                    _ => {
                        let next = next[turn % same];
                        (self.changed(&[(next.field, next.change), (field, change)]), alone)
                    }
                });
            }
        }
        calls
    }

    /// All calls of the form.
    pub fn calls(&self) -> Vec<Call> {
        let mut calls = vec![self.good.clone()];
        if self.pairs == Pairs::Next {
            calls.extend(self.chained().into_iter().map(|(call, _)| call));
            return calls;
        }
        (0..self.fields.len()).for_each(|field| calls.extend(self.singles(field)));
        if self.pairs == Pairs::All {
            calls.extend(self.paired());
        }
        calls
    }
}

pub fn forms() -> Vec<Form> {
    let mut forms = records::forms();
    forms.extend(blocks::forms());
    forms
}

/// Every call of every form, once.
pub fn all(each: &mut dyn FnMut(Call)) {
    let mut seen = HashSet::new();
    for call in forms().iter().flat_map(Form::calls) {
        let mut bytes = Vec::new();
        call.write(&mut bytes);
        if seen.insert(bytes) {
            each(call);
        }
    }
}
