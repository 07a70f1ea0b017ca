//! Makes an input that shows a difference smaller: shorter strings, more zeros, smaller numbers, fewer calls.

use crate::call::{Call, LAID_PAGE, Text, shape_of};
use crate::program::{Difference, Program, differences, run};
use crate::records::put;
use reference::format::open;
use std::sync::Arc;
use std::time::{Duration, Instant};

const LONGEST_SEARCH: Duration = Duration::from_secs(10);

/// The first of `inputs`, run together, that shows a difference of its own line.
fn first_that_differs(program: &Program, inputs: &[Vec<u8>]) -> Option<(usize, Difference)> {
    let input = inputs.concat();
    let expected = program.kind.expected(&input);
    let output = run(&program.path, Arc::new(input)).ok()?;
    let found = differences(&expected, &output).into_iter().next()?;
    (1..=inputs.len()).contains(&found.line).then(|| (found.line - 1, found))
}

fn written(program: &Program, call: &Call) -> Option<Vec<u8>> {
    let mut bytes = Vec::new();
    program.kind.write(call, &mut bytes)?;
    call.within_limits().then_some(bytes)
}

/// Where the checksum stands in a block of this call.
fn checksum_at(no: u8) -> Option<usize> {
    match no {
        34 | 35 => Some(4092),
        36 | 43 => Some(64),
        _ => None,
    }
}

/// The string of pages of a call, if it has one.
fn pages_at(no: u8) -> Option<usize> {
    shape_of(no)?.texts.iter().position(|text| *text == Text::Pages)
}

pub fn sealed(mut call: Call) -> Option<Call> {
    if let Some(place) = pages_at(call.no) {
        for page in call.texts[place].chunks_exact_mut(LAID_PAGE) {
            open::seal((&mut page[8..]).try_into().expect("a whole page"), 64);
        }
        return Some(call);
    }
    let at = checksum_at(call.no)?;
    for text in &mut call.texts {
        if let Ok(block) = (&mut text[..]).try_into() {
            open::seal(block, at);
        }
    }
    Some(call)
}

/// Smaller is shorter, then more zeros, then smaller numbers. A block's checksum doesn't count.
fn measure(call: &Call) -> (usize, usize, u32, u64) {
    let len = call.texts.iter().map(Vec::len).sum();
    let pages = pages_at(call.no).is_some();
    let checksum = |place: usize| match checksum_at(call.no) {
        Some(at) => (at..at + 4).contains(&place),
        None => pages && (72..76).contains(&(place % LAID_PAGE)),
    };
    let nonzero = |text: &Vec<u8>| text.iter().enumerate().filter(|(at, byte)| **byte != 0 && !checksum(*at)).count();
    let bits = call.numbers.iter().map(|n| 64 - n.leading_zeros()).sum();
    let numbers = call.numbers.iter().copied();
    let bytes = call.texts.iter().flatten().map(|byte| u64::from(*byte));
    let sum = match checksum_at(call.no) {
        _ if pages => numbers.fold(0, u64::saturating_add),
        Some(_) => numbers.fold(0, u64::saturating_add),
        None => numbers.chain(bytes).fold(0, u64::saturating_add),
    };
    (len, call.texts.iter().map(nonzero).sum(), bits, sum)
}

fn smaller_numbers(call: &Call) -> Vec<Call> {
    let shape = shape_of(call.no).expect("a call of the table");
    let mut list = Vec::new();
    for (place, &n) in call.numbers.iter().enumerate() {
        let steps = [1, 2, 3, 5, 8, 12, 20, 30, 40, 50].map(|by| n - (n >> by));
        let few = [shape.numbers[place].least(), 1, 512, 1_024, 1_025, 1_027];
        for new in few.into_iter().chain(steps).chain([n.saturating_sub(1)]) {
            if new < n && (new + 1 < n || n < 3_000) {
                let mut other = call.clone();
                other.numbers[place] = new;
                list.push(other);
            }
        }
    }
    list
}

/// Smaller numbers that a block and its caller must agree on.
fn smaller_pairs(call: &Call) -> Vec<Call> {
    // The number's place, the field's offset, and what to try.
    let pairs: &[(usize, usize, &[u64])] = match call.no {
        34 => &[(0, 40, &[256]), (1, 56, &[1_025, 1_027, 1_100])],
        36 => &[(0, 16, &[32, 512, 513]), (1, 24, &[1, 2])],
        _ => &[],
    };
    let mut list = Vec::new();
    for &(place, offset, tries) in pairs {
        for &new in tries.iter().filter(|new| **new < call.numbers[place]) {
            let mut other = call.clone();
            other.numbers[place] = new;
            if let Some(block) = other.texts.last_mut() {
                put(block, (offset, 8), new, false);
            }
            list.push(other);
        }
    }
    if call.no == 36 && call.texts[1].len() == 4096 {
        let mut other = call.clone();
        let uuid = [1, 0, 0, 0, 0, 0, 0, 0, 0, 0, 0, 0, 0, 0, 0, 0];
        other.texts[0] = uuid.to_vec();
        other.texts[1][40..56].copy_from_slice(&uuid);
        list.push(other);
    }
    list
}

/// Calls with some pages of a string of pages left out: the first or the last ones, or one.
fn fewer_pages(call: &Call) -> Vec<Call> {
    let Some(place) = pages_at(call.no) else {
        return Vec::new();
    };
    let count = call.texts[place].len() / LAID_PAGE;
    let halves = [0..count, count / 2..count, 0..count / 2];
    let without = |pages: std::ops::Range<usize>| {
        let mut other = call.clone();
        other.texts[place].drain(pages.start * LAID_PAGE..pages.end * LAID_PAGE);
        other
    };
    halves.into_iter().chain((0..count).map(|page| page..page + 1)).map(without).collect()
}

/// Calls with pieces of `size` bytes left out or zeroed.
fn smaller_texts(call: &Call, size: usize) -> Vec<Call> {
    let mut list = Vec::new();
    for (place, text) in call.texts.iter().enumerate() {
        let whole = checksum_at(call.no).is_some() && text.len() == 4096 || pages_at(call.no) == Some(place);
        if !whole {
            for start in (0..text.len()).step_by(size) {
                let mut other = call.clone();
                other.texts[place].drain(start..(start + size).min(text.len()));
                list.push(other);
            }
        }
        for start in (0..text.len()).step_by(size) {
            let end = (start + size).min(text.len());
            if text[start..end].iter().any(|&byte| byte != 0) {
                let mut other = call.clone();
                other.texts[place][start..end].fill(0);
                list.push(other);
            }
        }
        if size == 1 && text.len() <= 64 {
            for at in (0..text.len()).filter(|&at| text[at] > 1) {
                let mut other = call.clone();
                other.texts[place][at] = 1;
                list.push(other);
            }
        }
    }
    list
}

/// Goes on with the first of `candidates` that still differs and is smaller; answers its place among them.
fn take_one(program: &Program, best: &mut (Call, Difference), candidates: &[Call]) -> Option<usize> {
    let least = measure(&best.0);
    let mut tried = Vec::new();
    let mut inputs = Vec::new();
    for (place, candidate) in candidates.iter().enumerate() {
        for variant in [sealed(candidate.clone()), Some(candidate.clone())].into_iter().flatten() {
            if measure(&variant) < least
                && let Some(bytes) = written(program, &variant)
            {
                tried.push((place, variant));
                inputs.push(bytes);
            }
        }
    }
    for start in (0..tried.len()).step_by(200) {
        let end = (start + 200).min(tried.len());
        if let Some((at, found)) = first_that_differs(program, &inputs[start..end]) {
            let (place, call) = tried.swap_remove(start + at);
            *best = (call, found);
            return Some(place);
        }
    }
    None
}

/// Tries candidates until none is taken, each time from where the last one was taken.
fn take_all(program: &Program, best: &mut (Call, Difference), end: Instant, candidates: impl Fn(&Call) -> Vec<Call>) {
    let mut from = 0;
    while Instant::now() < end {
        let list = candidates(&best.0);
        let from_here = list.get(from..).unwrap_or_default();
        match take_one(program, best, from_here) {
            Some(place) => from += place,
            None if from > 0 => from = 0,
            None => break,
        }
    }
}

/// A smaller call that still differs by itself; none if `call` by itself doesn't.
pub fn smallest(program: &Program, call: Call) -> Option<(Call, Difference)> {
    let end = Instant::now() + LONGEST_SEARCH;
    let (_, found) = first_that_differs(program, &[written(program, &call)?])?;
    let mut best = (call, found);
    loop {
        let before = measure(&best.0);
        take_all(program, &mut best, end, fewer_pages);
        take_all(program, &mut best, end, smaller_pairs);
        take_all(program, &mut best, end, smaller_numbers);
        let mut size = best.0.texts.iter().map(Vec::len).max().unwrap_or(0);
        while size > 0 {
            take_all(program, &mut best, end, |call| smaller_texts(call, size));
            size /= 2;
        }
        if measure(&best.0) == before || Instant::now() >= end {
            break;
        }
    }
    // Once more alone, so that its place is 0.
    if let Some((_, alone)) = first_that_differs(program, &[written(program, &best.0)?]) {
        best.1 = alone;
    }
    Some(best)
}

/// The fewest of the last inputs that differ only together.
pub fn fewest(program: &Program, inputs: &[Vec<u8>]) -> Vec<Vec<u8>> {
    let differs = |inputs: &[Vec<u8>]| first_that_differs(program, inputs).is_some();
    let mut length = 1;
    while length < inputs.len() && !differs(&inputs[inputs.len() - length..]) {
        length = (2 * length).min(inputs.len());
    }
    let mut kept = inputs[inputs.len() - length..].to_vec();
    let mut at = 0;
    while at < kept.len() && kept.len() > 1 && at < 200 {
        let mut fewer = kept.clone();
        fewer.remove(at);
        if differs(&fewer) {
            kept = fewer;
        } else {
            at += 1;
        }
    }
    kept
}
