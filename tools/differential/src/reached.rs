//! How searches end and at which level: what the trees of src/trees.rs reach.

use crate::call::{self, Call};
use crate::generate;
use crate::reasons;
use crate::search::{self, Answer, End};
use std::collections::BTreeMap;

/// The column of an end at the root's reference, behind those of the levels.
const AT_ROOT: usize = 8;

/// How the search of a call ends.
pub fn answer_of(call: &Call) -> Option<Answer> {
    let mut bytes = Vec::new();
    call.write(&mut bytes);
    call::read(&call::ADDED, &mut &bytes[..]).filter(|lent| lent.no == 60).map(|lent| search::of(&lent))
}

fn name(answer: &Answer) -> String {
    let bound = |name| format!("class 8, {name}{}", if answer.inherited { ", inherited or none" } else { "" });
    match answer.end {
        End::Found(places) => format!("class 0, found{}", if places[3] == 0 { ", empty value" } else { "" }),
        End::NotInLeaf => "class 0, none in the leaf".into(),
        End::BelowFirst => "class 0, none below the first key".into(),
        End::BeyondImage => "class 7".into(),
        End::BelowLower => "class 8, below the lower bound".into(),
        End::NotBelowUpper => bound("not below the upper bound"),
        End::Refused(class, reason) => {
            let text = reasons::list().get((reason as usize).wrapping_sub(1)).unwrap_or(&"");
            format!("class {class}, reason {reason} {text}")
        }
    }
}

/// A row for each end, a column for each level; the last column is the reference in the root.
pub fn table(seed: u64, count: u64) -> String {
    let mut rows: BTreeMap<String, [u64; AT_ROOT + 1]> = BTreeMap::new();
    let mut pages = [0u64; 9];
    let mut bytes = 0;
    generate::added(seed, count, &mut |call| {
        bytes += call.texts.iter().map(Vec::len).sum::<usize>();
        if let Some(answer) = answer_of(&call) {
            rows.entry(name(&answer)).or_default()[answer.level.map_or(AT_ROOT, usize::from)] += 1;
            pages[answer.pages as usize] += 1;
        }
    });
    let line = |name: &str, cells: Vec<String>| {
        let cells: String = cells.iter().map(|cell| format!(" {cell:>7}")).collect();
        format!("{name:<62}{cells}\n")
    };
    let levels = (0..AT_ROOT).map(|level| level.to_string()).chain(["root".into()]);
    let mut text = line("how the search ends, at which level", levels.collect());
    rows.iter().for_each(|(name, counts)| text += &line(name, counts.iter().map(u64::to_string).collect()));
    let average = bytes as u64 / count.max(1);
    text + &format!("searches by pages accepted, from 0: {pages:?}; {average} bytes a call\n")
}
