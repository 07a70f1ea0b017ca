//! Lookups on views that nobody validated: sorted, unsorted and broken, with short and long scratch.

use crate::call::Call;
use crate::numbers;
use crate::pages::{self, laid};
use crate::random::Random;
use crate::records::{Place, Record};

/// A key of some groups of eight bytes that others share but for a byte.
fn long_key(r: &mut Random) -> Vec<u8> {
    let mut key = vec![b'k'; r.size(6, 42)];
    if r.below(4) != 0 {
        let at = r.size(0, key.len() - 1);
        key[at] = r.pick(&[0, b'j', b'l', 0xFF]);
    }
    key
}

fn key(r: &mut Random) -> Vec<u8> {
    if r.once_in(6) {
        return long_key(r);
    }
    let len = match r.below(10) {
        0 => 0,
        1 => r.size(3, 20),
        2 => r.pick(&[1_023, 1_024, 1_025, 1_500]),
        _ => r.size(1, 3),
    };
    (0..len).map(|_| r.pick(&[0, b'a', b'b', b'c', b'd', 0xFF])).collect()
}

/// A sought key: one that is there, or beside it.
fn sought(r: &mut Random, records: &[Record]) -> Vec<u8> {
    let mut sought = match records.len() {
        0 => key(r),
        len => records[r.size(0, len - 1)].0.clone(),
    };
    match r.below(6) {
        0 => return key(r),
        1 => sought.push(r.pick(&[0, b'a', 0xFF])),
        2 => drop(sought.pop()),
        3 => {
            if let Some(last) = sought.last_mut() {
                *last = last.wrapping_add(r.pick(&[1, 255]));
            }
        }
        _ => {}
    }
    sought
}

fn small_records(r: &mut Random, most: usize) -> Vec<Record> {
    let len = r.size(0, most);
    let value_most = r.pick(&[0, 3, 40]);
    (0..len)
        .map(|_| {
            let value = r.size(0, value_most);
            (key(r), r.bytes(value))
        })
        .collect()
}

/// A payload and its records, as a page has them or not.
fn payload(r: &mut Random) -> (Vec<Record>, Vec<u8>) {
    if r.once_in(5) {
        let place =
            Place { kind: r.from_to(1, 4), leaf: r.once_in(2), blocks: numbers::good_volume(r, 1_100), generation: 9 };
        let most = pages::how_many(r);
        let records = pages::good_records(r, place, most);
        let bytes = laid(&records);
        return (records, bytes);
    }
    let most = r.pick(&[1, 2, 3, 5, 9, 40]);
    let mut records = small_records(r, most);
    if r.below(4) != 0 {
        records.sort();
    }
    if r.below(3) != 0 {
        records.dedup_by(|a, b| a.0 == b.0);
    }
    let mut bytes = laid(&records);
    match r.below(8) {
        0 => bytes.truncate(r.size(0, bytes.len())),
        1 if !bytes.is_empty() => {
            let at = r.size(0, bytes.len() - 1);
            bytes[at] = r.byte();
        }
        2 => {
            let tail = r.size(0, 6);
            bytes.extend(r.bytes(tail));
        }
        3 => bytes.resize(bytes.len() + r.size(0, 9), 0),
        _ => {}
    }
    (records, bytes)
}

/// How many entries a scratch has: at and beside the count, or few or many.
fn scratch(r: &mut Random, count: u64) -> u64 {
    let entries = match r.below(8) {
        0 => 0,
        1 => count.saturating_sub(1),
        2 => count.saturating_add(1),
        3 => count.saturating_add(r.below(20)),
        4 => r.below(20),
        5 if r.once_in(20) => r.pick(&[4_095, 4_096]),
        _ => count,
    };
    if entries > 4_096 { r.below(9) } else { entries }
}

/// A lookup on the view of a page that is validated first, mostly a good one.
pub fn handed(r: &mut Random) -> Call {
    let case = if r.once_in(4) { pages::any(r) } else { pages::good(r) };
    let key = sought(r, &case.records);
    let entries = scratch(r, case.records.len() as u64);
    case.handed_call(key, entries)
}

/// `floor_record`.
pub fn floor(r: &mut Random) -> Call {
    let (records, mut bytes) = payload(r);
    let key = sought(r, &records);
    if r.once_in(400) {
        bytes.resize(r.pick(&[65_534, 65_535, 65_536, 65_537, 70_000]), 0);
    }
    let len = records.len() as u64;
    let count = match r.below(10) {
        0 => len + 1,
        1 => len.saturating_sub(1),
        2 => r.below(len + 5),
        3 if r.once_in(8) => numbers::any(r),
        _ => len,
    };
    let entries = scratch(r, count);
    let fill = r.pick(&[0, 1, 0xABCD, 65_535]);
    Call { no: 39, numbers: vec![count, entries, fill], texts: vec![bytes, key] }
}

/// The next record.
pub fn next(r: &mut Random) -> Call {
    let (records, mut bytes) = payload(r);
    if r.once_in(4) {
        let len = r.size(0, 12);
        bytes = (0..len).map(|_| r.below(4) as u8).collect();
    }
    let remaining = match r.below(4) {
        0 => numbers::any(r),
        1 => r.below(3),
        _ => records.len() as u64,
    };
    Call { no: 40, numbers: vec![remaining], texts: vec![bytes] }
}

/// The record walk, whose string may go on behind the payload.
pub fn walk(r: &mut Random) -> Call {
    let place = Place {
        kind: r.from_to(1, 4),
        leaf: r.below(5) < 3,
        blocks: if r.once_in(4) { numbers::volume(r) } else { numbers::good_volume(r, 1_025) },
        generation: numbers::generation(r),
    };
    let most = pages::how_many(r);
    let mut records = pages::good_records(r, place, most);
    for _ in 0..r.pick(&[0, 1, 1, 2]) {
        match r.below(4) {
            0 if records.len() > 1 => {
                let at = r.size(1, records.len() - 1);
                records.swap(at - 1, at);
            }
            1 => {
                let record = crate::records::any(r, place);
                records.push(record);
                if r.once_in(2) {
                    records.sort();
                }
            }
            _ if !records.is_empty() => {
                let at = r.size(0, records.len() - 1);
                crate::records::spoil(r, place, &mut records[at]);
            }
            _ => {}
        }
    }
    let mut bytes = laid(&records);
    if r.once_in(8) && !bytes.is_empty() {
        let at = r.size(0, bytes.len() - 1);
        bytes[at] = r.byte();
    }
    let mut payload = bytes.len() as u64;
    let mut count = records.len() as u64;
    if r.once_in(3) {
        count = count.wrapping_add(r.below(4)).wrapping_sub(1);
        let behind: &[&[u8]] = &[b"", b"\0\0\0\0", b"\x01\0\0\0", b"\x09\0\xFF\xFF", b"\x09", b"\x09\0", b"\x09\0\0"];
        bytes.extend_from_slice(r.pick(behind));
    }
    match r.below(12) {
        0 => payload = numbers::any(r),
        1 => count = numbers::any(r),
        2 => payload = payload.wrapping_add(r.below(9)).wrapping_sub(4),
        3 => bytes.truncate(r.size(0, bytes.len())),
        4 => {
            let more = r.size(0, 40);
            bytes.extend(r.bytes(more));
        }
        _ => {}
    }
    let page_kind = match r.below(6) {
        0 => r.pick(&[0, 1, 2, 3, 255]),
        _ if place.leaf => 1,
        _ => 2,
    };
    let mode = r.below(2);
    Call {
        no: 42,
        numbers: vec![place.kind, page_kind, place.generation, place.blocks, mode, payload, count],
        texts: vec![bytes],
    }
}
