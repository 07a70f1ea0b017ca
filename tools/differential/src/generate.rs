//! Calls from a seed: each call with the numbers and strings that its rules turn at.

use crate::call::{ADDED, Call, Calls, LAID_PAGE, LONGEST, Num, PROBE, Text};
use crate::lookups;
use crate::numbers;
use crate::pages;
use crate::random::Random;
use crate::records::{self, Place};
use crate::roots;
use crate::searches;
use crate::texts;
use crate::trees;

/// How often each call is made, the calls with most rules most often.
#[rustfmt::skip]
const WEIGHTS: &[(u8, u64)] = &[
    (1, 3), (2, 3), (3, 3), (4, 1), (5, 2), (6, 6), (7, 2), (8, 3), (9, 3), (10, 3), (11, 4),
    (12, 4), (13, 4), (14, 4), (15, 4), (16, 3), (17, 5), (18, 5), (19, 4), (20, 4), (21, 3),
    (22, 5), (23, 10), (24, 8), (25, 10), (26, 8), (27, 20), (28, 14), (29, 8), (30, 6), (31, 4),
    (32, 2), (33, 5), (34, 8), (35, 4), (36, 24), (37, 5), (38, 3), (39, 16), (40, 6), (41, 5),
    (42, 20), (43, 12), (44, 4),
];

fn weighed(r: &mut Random, weights: &[(u8, u64)]) -> u8 {
    let sum = weights.iter().map(|weight| weight.1).sum();
    let mut left = r.below(sum);
    for &(no, weight) in weights {
        if left < weight {
            return no;
        }
        left -= weight;
    }
    unreachable!("the weights add up to more than what is left")
}

pub fn any_call(r: &mut Random) -> Call {
    let no = weighed(r, WEIGHTS);
    call(r, no)
}

/// A string for a checksum: mostly short, at times a block or what a round of lanes takes, or a unit and more.
fn message(r: &mut Random) -> Vec<u8> {
    let len = match r.below(40) {
        0 => r.pick(&[4_007, 4_008, 4_009, 4_028, 4_092, 4_095, 4_096, 4_097]),
        1 if r.once_in(20) => r.pick(&[8_015, 8_016, 8_017, 12_024, 65_535, 65_536, 65_537, 80_000]),
        2 => r.size(0, 2_000),
        _ => r.size(0, 70),
    };
    match r.below(6) {
        0 => vec![0; len],
        1 => vec![0xFF; len],
        _ => r.bytes(len),
    }
}

fn register(r: &mut Random) -> u64 {
    match r.below(4) {
        0 => r.pick(&[0, 1, 0x8000_0000, 0xFFFF_FFFF]),
        _ => r.next() >> 32,
    }
}

/// An offset, near the end of `len` bytes or anywhere.
fn near(r: &mut Random, len: usize) -> u64 {
    match r.below(3) {
        0 => numbers::any(r),
        1 => (len as u64).wrapping_add(r.below(4)).wrapping_sub(r.below(10)),
        _ => r.below(len as u64 + 2),
    }
}

fn ordered(r: &mut Random) -> Call {
    let len = r.size(0, 12);
    let first: Vec<u8> = (0..len).map(|_| r.pick(&[0, 1, 127, 128, 255])).collect();
    let mut second = match r.below(3) {
        0 => r.bytes(len),
        _ => first.clone(),
    };
    match r.below(4) {
        0 => second.truncate(r.size(0, len)),
        1 => second.push(r.byte()),
        2 if len > 0 => second[r.size(0, len - 1)] = r.byte(),
        _ => {}
    }
    if r.once_in(2) {
        return Call::new(11, &[], &[&second, &first]);
    }
    Call::new(11, &[], &[&first, &second])
}

/// Call 44: most units are as long as announced; the pieces are of any size, that of the whole among them.
fn pieces(r: &mut Random) -> Call {
    let valid = message(r);
    let len = valid.len() as u64;
    let announced = match r.below(10) {
        0 => numbers::any(r),
        1 => r.pick(&[0, 1, 65_535, 65_536, 65_537, 1 << 32, u64::MAX]),
        2 => len + (1 << 32),
        3 => near(r, valid.len()),
        _ => len,
    };
    let size = match r.below(5) {
        0 => 0,
        1 => r.pick(&[1, 2, 7, 8, 9, 4_007, 4_008, 4_009, 65_535, 65_536, 65_537, u64::MAX]),
        2 => near(r, valid.len()),
        _ => r.from_to(1, len + 1),
    };
    Call::new(44, &[numbers::any(r), numbers::any(r), announced, size], &[&r.bytes(16), &valid])
}

fn bytes_call(r: &mut Random, no: u8) -> Call {
    match no {
        1 => Call::new(1, &[register(r)], &[&message(r)]),
        2 => Call::new(2, &[], &[&message(r)]),
        3 => {
            let message = message(r);
            let (start, end) = (near(r, message.len()), near(r, message.len()));
            Call::new(3, &[start, end], &[&message])
        }
        4 => {
            let count = match r.below(60) {
                0 => r.pick(&[1_335, 1_336, 1_337, 2_672, 65_535, 65_536, 65_537, 131_073, 999_999, 1_000_000]),
                1 => r.below(70_000),
                _ => r.below(300),
            };
            Call::new(4, &[register(r), count], &[])
        }
        5 => {
            let valid = message(r);
            Call::new(5, &[numbers::any(r), numbers::any(r)], &[&r.bytes(16), &valid])
        }
        44 => pieces(r),
        6 => Call::new(6, &[], &[&texts::any(r)]),
        7 => {
            let mut bytes = vec![0; r.size(0, 70)];
            if r.once_in(2) && !bytes.is_empty() {
                let at = r.size(0, bytes.len() - 1);
                bytes[at] = 1 << r.below(8);
            }
            Call::new(7, &[], &[&bytes])
        }
        8..=10 => {
            let len = r.size(0, 24);
            let bytes = r.bytes(len);
            let reason = match r.below(3) {
                0 => r.pick(&[0, 1, 175, 176, 255, 256, 65_535]),
                _ => r.below(65_536),
            };
            Call::new(no, &[near(r, len), reason], &[&bytes])
        }
        _ => ordered(r),
    }
}

fn volume_call(r: &mut Random, no: u8) -> Call {
    let blocks = numbers::volume(r);
    let block = numbers::block(r, blocks);
    let generation = r.pick(&[0, 1, 2, u64::MAX]);
    let mode = r.below(2);
    match no {
        12..=14 => Call::new(no, &[block, blocks], &[]),
        15 => {
            let last = numbers::group_count(blocks);
            let group = match r.below(3) {
                0 => last.wrapping_add(r.below(4)).wrapping_sub(2),
                1 => r.pick(&[0, 1, (1 << 50) - 2, (1 << 50) - 1, 1 << 50, u64::MAX]),
                _ => numbers::any(r),
            };
            Call::new(15, &[group, blocks], &[])
        }
        16 => Call::new(16, &[blocks], &[]),
        17 => Call::new(17, &[block, generation, blocks, mode], &[]),
        18 => Call::new(18, &[block, generation, r.from_to(1, 4), blocks, mode], &[]),
        19 => Call::new(19, &[block, blocks, mode], &[]),
        20 => {
            let seconds = match r.below(2) {
                0 => numbers::any(r),
                _ => numbers::good_seconds(r) as u64,
            };
            let nanoseconds = match r.below(2) {
                0 => numbers::any(r) & 0xFFFF_FFFF,
                _ => numbers::good_nanoseconds(r).into(),
            };
            Call::new(20, &[seconds, nanoseconds, mode], &[])
        }
        _ => Call::new(21, &[numbers::any(r), mode], &[]),
    }
}

/// Where a record of a call stands.
fn place(r: &mut Random, kind: u64, leaf: bool) -> Place {
    Place {
        kind,
        leaf,
        blocks: if r.once_in(4) { numbers::volume(r) } else { numbers::good_volume(r, 1_025) },
        generation: numbers::generation(r),
    }
}

/// A catalog record of one kind, good or spoilt.
fn catalog(r: &mut Random, place: Place, kind: u8) -> records::Record {
    loop {
        let record = records::good(r, place);
        if record.0[8] != kind {
            continue;
        }
        let mut record = record;
        for _ in 0..r.pick(&[0, 1, 1, 1, 2]) {
            records::spoil(r, place, &mut record);
        }
        return record;
    }
}

fn record_call(r: &mut Random, no: u8) -> Call {
    let mode = r.below(2);
    let kind = match no {
        23..=26 => 1,
        _ => r.from_to(1, 4),
    };
    let place = place(r, kind, no != 28);
    let (blocks, generation) = (place.blocks, place.generation);
    match no {
        22 => {
            let mut target = if r.once_in(2) { records::target(r) } else { texts::any(r) };
            if r.once_in(3) {
                texts::spoil(r, &mut target);
            }
            if r.once_in(10) {
                target.resize(r.size(1_022, 1_025), b'a');
            }
            Call::new(22, &[mode], &[&target])
        }
        23 => Call::new(23, &[blocks, mode], &[&catalog(r, place, 1).1]),
        24 => Call::new(24, &[mode], &[&catalog(r, place, 2).1]),
        25 => {
            let mut record = catalog(r, place, 3);
            if r.once_in(8) {
                record.0.resize(r.size(14, 20), 0);
            }
            Call::new(25, &[blocks, mode], &[&record.0, &record.1])
        }
        26 => {
            let mut record = catalog(r, place, 4);
            match r.below(4) {
                0 => records::spoil_group(r, &mut record.1),
                1 if r.once_in(3) => record.0.resize(r.size(14, 20), 0),
                2 => {
                    let index = numbers::any(r);
                    records::put(&mut record.0, (9, 8), index, true);
                }
                _ => {}
            }
            Call::new(26, &[mode], &[&record.0, &record.1])
        }
        27 | 28 => {
            let record = records::any(r, place);
            Call::new(no, &[kind, blocks, generation, mode], &[&record.0, &record.1])
        }
        29 => {
            let mut record = records::any(r, place);
            if r.once_in(6) {
                let len = r.pick(&[0, 1, 1_023, 1_024, 1_025]);
                record.0.resize(len, 1);
                record.1.resize(r.size(3_066, 3_070) - len, 0);
            }
            Call::new(29, &[kind, blocks, generation], &[&record.0, &record.1])
        }
        _ => group_call(r, no),
    }
}

fn group_call(r: &mut Random, no: u8) -> Call {
    let last = records::slot(r);
    let mut group = records::full_group(r, last).to_vec();
    if r.once_in(4) {
        r.fill(&mut group[..32]);
    }
    if r.once_in(8) {
        group[..32].fill(0);
    }
    match no {
        30 => {
            match r.below(3) {
                0 => group.truncate(36 + 4 * last),
                1 => group.truncate(r.size(28, 1_056)),
                _ => {}
            }
            let slot = match r.below(4) {
                0 => last as u64,
                1 => r.pick(&[255, 256, 257, 1 << 32, 1 << 62, u64::MAX / 4, u64::MAX]),
                _ => r.below(256),
            };
            Call::new(30, &[slot], &[&group])
        }
        31 => {
            if r.once_in(8) {
                group.resize(r.pick(&[0, 1, 32, 1_055, 1_057]), 1);
            }
            Call::new(31, &[], &[&group])
        }
        _ => {
            group.resize(r.pick(&[0, 1, 31, 32, 36, 1_055, 1_056, 1_057, 2_000]), 7);
            Call::new(32, &[], &[&group])
        }
    }
}

fn root_call(r: &mut Random, no: u8) -> Call {
    match no {
        33 => {
            let len = r.size(1, 258);
            let mut label = if r.once_in(2) { texts::any(r) } else { texts::label(r, len) };
            if r.once_in(4) {
                texts::spoil(r, &mut label);
            }
            Call::new(33, &[], &[&label])
        }
        34 => roots::any(r).decode_call(),
        35 => {
            let (first, second) = roots::pair(r);
            let numbers = [first.slot, first.blocks, second.slot, second.blocks];
            Call::new(35, &numbers, &[&first.block, &second.block])
        }
        _ => made_up_roots(r),
    }
}

/// Call 41: two roots that need not pass anything, equal but for little.
fn made_up_roots(r: &mut Random) -> Call {
    let mut first: Vec<u64> = vec![1, r.below(2), r.below(256)];
    first.extend((0..14).map(|_| r.below(3)));
    let mut second = first.clone();
    let label = r.bytes(255);
    let id = r.bytes(16);
    let (mut other_label, mut other_id) = (label.clone(), id.clone());
    for _ in 0..r.pick(&[0, 1, 1, 2]) {
        match r.below(6) {
            0 => other_label[r.pick(&[0, 100, 254])] ^= 1,
            1 => other_id[r.pick(&[0, 15])] ^= 1,
            2 => second[1] ^= 1,
            3 => second[2] = r.below(256),
            4 => second[3] = numbers::any(r),
            _ => second[r.size(4, 16)] = numbers::any(r),
        }
    }
    if r.once_in(2) {
        second[3] = r.pick(&[first[3], first[3] + 1, u64::MAX]);
    }
    if r.once_in(6) {
        first[0] = 0;
    }
    if r.once_in(6) {
        second[0] = 0;
    }
    let numbers = [first, second].concat();
    Call::new(41, &numbers, &[&id, &label, &other_id, &other_label])
}

fn page_call(r: &mut Random, no: u8) -> Call {
    match no {
        36 => pages::any(r).decode_call(),
        37 => pages::view(r).verified_call(),
        38 => Call::new(38, &[], &[&pages::view(r).page]),
        39 => lookups::floor(r),
        40 => lookups::next(r),
        43 => lookups::handed(r),
        _ => lookups::walk(r),
    }
}

pub fn call(r: &mut Random, no: u8) -> Call {
    match no {
        1..=11 | 44 => bytes_call(r, no),
        12..=21 => volume_call(r, no),
        22..=32 => record_call(r, no),
        33..=35 | 41 => root_call(r, no),
        36..=40 | 42 | 43 => page_call(r, no),
        _ => panic!("no call {no}"),
    }
}

/// A body of `readback`, as the call that reads the same block.
pub fn body(r: &mut Random) -> Call {
    loop {
        let no = if r.once_in(3) { 34 } else { 36 };
        let call = call(r, no);
        if call.texts.last().is_some_and(|block| block.len() == 4096) {
            return call;
        }
    }
}

/// How often a call of `probe_added` is made.
const ADDED_WEIGHTS: &[(u8, u64)] = &[(60, 1)];

/// Some calls of `probe_added`: of a search as many as one tree gives.
pub fn some_added(r: &mut Random, each: &mut dyn FnMut(Call)) {
    match weighed(r, ADDED_WEIGHTS) {
        60 => trees::searches(r, each),
        no => panic!("no call {no}"),
    }
}

/// The calls of `probe_added` that are made by hand.
pub fn added_by_hand(each: &mut dyn FnMut(Call)) {
    searches::all(each);
}

/// So many calls of `probe_added` from a seed.
pub fn added(seed: u64, count: u64, each: &mut dyn FnMut(Call)) {
    let mut r = Random::new(seed);
    let mut left = count;
    while left > 0 {
        some_added(&mut r, &mut |call| {
            if left > 0 {
                left -= 1;
                each(call);
            }
        });
    }
}

/// Bytes at which `probe` prints `cut`.
pub fn broken_call(r: &mut Random) -> Vec<u8> {
    let call = any_call(r);
    broken(r, &PROBE, call)
}

/// Bytes at which `probe_added` prints `cut`.
pub fn broken_added(r: &mut Random) -> Vec<u8> {
    let mut last = None;
    some_added(r, &mut |call| last = Some(call));
    broken(r, &ADDED, last.expect("some calls"))
}

/// A length that a byte string of a call may not have.
fn beyond(r: &mut Random, text: Text) -> usize {
    match text {
        Text::Any => LONGEST + 1,
        Text::Fixed(len) => r.pick(&[0, len - 1, len + 1]),
        Text::Pages => r.pick(&[1, 4_096, 4_103, 4_105, 8_192, 8_207, 79_999, 80_000, 20 * LAID_PAGE]),
    }
}

/// A call that the program doesn't know.
fn unknown(r: &mut Random, calls: &Calls) -> Vec<u8> {
    let unknown: Vec<u8> = (1..=255).filter(|no| calls.shape_of(*no).is_none()).collect();
    let mut bytes = vec![if r.once_in(4) { 0 } else { r.pick(&unknown) }];
    let more = r.size(0, 30);
    bytes.extend(r.bytes(more));
    bytes
}

/// Bytes that end in `cut`: a call of no table, one outside the limits, or one that ends early.
fn broken(r: &mut Random, calls: &Calls, mut call: Call) -> Vec<u8> {
    let shape = calls.shape_of(call.no).expect("a call of the table");
    let mut bytes = Vec::new();
    match r.below(4) {
        0 => return unknown(r, calls),
        1 => {
            let limited: Vec<usize> =
                (0..call.numbers.len()).filter(|&place| shape.numbers[place] != Num::Any).collect();
            if !limited.is_empty() {
                let place = r.pick(&limited);
                let num = shape.numbers[place];
                let beyond = match r.below(4) {
                    0 => u64::MAX,
                    1 if num.least() > 0 => 0,
                    2 => (1 << 32) | num.least(),
                    _ => num.most() + 1,
                };
                call.numbers[place] = if num.allows(beyond) { u64::MAX } else { beyond };
                call.write(&mut bytes);
                return bytes;
            }
        }
        2 => {
            let bound = (0..call.texts.len()).filter(|&place| shape.texts[place] != Text::Any || r.once_in(20));
            let bound: Vec<usize> = bound.collect();
            if !bound.is_empty() {
                let place = r.pick(&bound);
                let len = beyond(r, shape.texts[place]);
                call.texts[place].resize(len, 1);
                call.write(&mut bytes);
                return bytes;
            }
        }
        _ => {}
    }
    call.write(&mut bytes);
    bytes.truncate(r.size(1, bytes.len() - 1));
    bytes
}

/// Bytes at which `readback` prints `cut`.
pub fn broken_body(r: &mut Random) -> Vec<u8> {
    let mut bytes = Vec::new();
    crate::readback::write(&body(r), &mut bytes);
    match r.below(4) {
        0 => bytes[0] = r.pick(&[0, 3, 4, 255]),
        1 if bytes[0] == 2 => bytes[33] = r.pick(&[0, 5, 255]),
        _ => bytes.truncate(r.pick(&[1, 2, 17, 34, bytes.len() - 1])),
    }
    bytes
}

#[cfg(test)]
mod tests {
    use super::*;
    use crate::{call, oracle, readback};

    #[test]
    fn calls_are_within_the_limits() {
        let mut r = Random::new(1);
        for shape in PROBE.shapes {
            for _ in 0..300 {
                assert!(call(&mut r, shape.no).within_limits(), "call {}", shape.no);
            }
        }
        for _ in 0..300 {
            some_added(&mut r, &mut |call| assert!(call.within_limits(), "call {}", call.no));
        }
    }

    /// Every call of `probe_added` is made.
    #[test]
    fn no_added_call_is_forgotten() {
        let made: Vec<u8> = ADDED_WEIGHTS.iter().map(|weight| weight.0).collect();
        let known: Vec<u8> = ADDED.shapes.iter().map(|shape| shape.no).collect();
        assert_eq!(made, known);
    }

    #[test]
    fn broken_calls_are_cut() {
        let mut r = Random::new(2);
        for _ in 0..3_000 {
            let bytes = broken_call(&mut r);
            assert!(call::read(&PROBE, &mut &bytes[..]).is_none(), "{bytes:?}");
            assert_eq!(oracle::probe(&bytes, |_, _, _| ()), b"probe 1\n0 cut\n");
            let bytes = broken_added(&mut r);
            assert_eq!(oracle::probe_added(&bytes, |_, _, _| ()), b"probe_added 1\n0 cut\n");
            let bytes = broken_body(&mut r);
            assert_eq!(readback::readback(&bytes, |_, _, _| ()), b"readback 1\n0 cut\n");
        }
    }

    #[test]
    fn good_blocks_are_accepted() {
        let mut r = Random::new(3);
        for _ in 0..2_000 {
            for call in [roots::good(&mut r).decode_call(), pages::good(&mut r).decode_call()] {
                let mut bytes = Vec::new();
                call.write(&mut bytes);
                oracle::probe(&bytes, |_, said, _| assert_eq!(said.verdict, Some((0, 0))));
            }
        }
    }
}
