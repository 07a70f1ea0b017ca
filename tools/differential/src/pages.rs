//! Pages of every kind, made with the reference's own encoders, and damaged copies, resealed to reach deep checks.

use crate::call::Call;
use crate::numbers;
use crate::oracle::{kind, tree};
use crate::random::Random;
use crate::records::{self, Place, Record, put};
use crate::texts;
use reference::format::{encode_node, open, seal_page};

/// A page and the arguments it is read with.
#[derive(Clone)]
pub struct Case {
    pub place: Place,
    pub level: u8,
    pub records: Vec<Record>,
    pub block: u64,
    pub generation: u64,
    pub kind: u64,
    pub parent: u64,
    /// The expected level, 255 for none.
    pub expected: u64,
    pub blocks: u64,
    pub uuid: [u8; 16],
    pub page: Vec<u8>,
}

pub fn uuid(r: &mut Random) -> [u8; 16] {
    let mut uuid = [0; 16];
    match r.below(4) {
        0 => uuid[r.size(0, 15)] = 1,
        _ => r.fill(&mut uuid),
    }
    uuid
}

fn size(record: &Record) -> usize {
    4 + record.0.len() + record.1.len()
}

/// Puts records in order, one for each key; for an internal page one for each child.
fn order(records: &mut Vec<Record>, leaf: bool) {
    if !leaf {
        records.sort_by(|a, b| a.1.cmp(&b.1));
        records.dedup_by(|a, b| a.1.get(..8) == b.1.get(..8));
    }
    records.sort();
    records.dedup_by(|a, b| a.0 == b.0);
}

/// The first records that fit a page together.
pub fn fitting(records: &mut Vec<Record>) {
    let mut room = 4016usize;
    let fit = records.iter().take_while(|record| {
        let fits = size(record) <= room;
        room = room.saturating_sub(size(record));
        fits
    });
    let fit = fit.count();
    records.truncate(fit);
}

/// Records laid end to end.
pub fn laid(records: &[Record]) -> Vec<u8> {
    let mut bytes = Vec::new();
    for (key, value) in records {
        bytes.extend_from_slice(&(key.len() as u16).to_le_bytes());
        bytes.extend_from_slice(&(value.len() as u16).to_le_bytes());
        bytes.extend_from_slice(key);
        bytes.extend_from_slice(value);
    }
    bytes
}

/// Records that pass in a place, ordered, as many as asked for or fit.
pub fn good_records(r: &mut Random, place: Place, most: usize) -> Vec<Record> {
    let mut list = Vec::new();
    let mut bytes = 0;
    while list.len() < most && bytes < 4016 {
        let record = records::good(r, place);
        bytes += size(&record);
        list.push(record);
    }
    order(&mut list, place.leaf);
    fitting(&mut list);
    list
}

pub fn how_many(r: &mut Random) -> usize {
    match r.below(8) {
        0 => 0,
        1 => 1,
        2 => 400,
        _ => r.size(2, 8),
    }
}

fn empty_case(r: &mut Random) -> Case {
    let blocks = numbers::good_volume(r, 1_025);
    let generation = numbers::generation(r);
    let kind = r.from_to(1, 4);
    let leaf = r.below(5) < 3;
    let level = if leaf { 0 } else { r.from_to(1, 7) as u8 };
    let block = match kind {
        4 => numbers::bank_block(r, blocks),
        _ => numbers::good_block(r, blocks),
    };
    let parent = match r.below(3) {
        0 => generation,
        1 => generation.saturating_add(r.below(9)),
        _ => numbers::any(r).max(generation),
    };
    Case {
        place: Place { kind, leaf, blocks, generation },
        level,
        records: Vec::new(),
        block,
        generation,
        kind,
        parent,
        expected: if r.once_in(2) { 255 } else { level.into() },
        blocks,
        uuid: uuid(r),
        page: vec![0; 4096],
    }
}

impl Case {
    /// Encodes with the reference; false if it refuses.
    pub fn encode(&mut self, children_total: u64) -> bool {
        let lent: Vec<(&[u8], &[u8])> = self.records.iter().map(|(key, value)| (&key[..], &value[..])).collect();
        let page: &mut [u8; 4096] = (&mut self.page[..]).try_into().expect("a whole page");
        encode_node(
            page,
            tree(self.block, self.generation),
            &self.uuid,
            kind(self.kind),
            &lent,
            self.blocks,
            self.level,
            children_total,
        )
        .is_ok()
    }

    /// Lays the records into the page as they are, whatever they hold.
    pub fn lay(&mut self) {
        fitting(&mut self.records);
        let mut page = [0; 4096];
        let payload = laid(&self.records);
        page[80..80 + payload.len()].copy_from_slice(&payload);
        put(&mut page, (32, 2), self.records.len() as u64, false);
        put(&mut page, (34, 2), payload.len() as u64, false);
        page[14] = self.level;
        let total = if self.level == 0 { self.total() } else { 0 };
        let reference = tree(self.block, self.generation);
        seal_page(&mut page, reference, &self.uuid, kind(self.kind), total);
        self.page = page.to_vec();
    }

    /// The counts of the extents that pass.
    fn total(&self) -> u64 {
        let place = self.place;
        let count = |(key, value): &Record| {
            let mode = reference::format::Validation::Disk;
            open::validate_leaf_record(kind(place.kind), key, value, place.blocks, place.generation, mode).unwrap_or(0)
        };
        self.records.iter().map(count).fold(0, u64::saturating_add)
    }

    pub fn seal(&mut self) {
        if let Ok(page) = (&mut self.page[..]).try_into() {
            open::seal(page, 64);
        }
    }

    pub fn decode_call(self) -> Call {
        Call {
            no: 36,
            numbers: vec![self.block, self.generation, self.kind, self.parent, self.expected, self.blocks],
            texts: vec![self.uuid.to_vec(), self.page],
        }
    }

    /// The lookup of a key on the view, lent a scratch of so many entries.
    pub fn handed_call(self, key: Vec<u8>, entries: u64) -> Call {
        let mut call = self.decode_call();
        call.no = 43;
        call.numbers.push(entries);
        call.texts.push(key);
        call
    }

    pub fn verified_call(self) -> Call {
        Call {
            no: 37,
            numbers: vec![self.block, self.generation, self.kind, self.parent, self.expected],
            texts: vec![self.uuid.to_vec(), self.page],
        }
    }
}

/// A page that `decode_page` accepts.
pub fn good(r: &mut Random) -> Case {
    let mut case = empty_case(r);
    let most = how_many(r).max(if case.place.leaf { 0 } else { 2 });
    case.records = good_records(r, case.place, most);
    let total = match case.kind {
        1 => numbers::any(r) % case.blocks,
        _ => 0,
    };
    while !case.encode(if case.level == 0 { 0 } else { total }) {
        // Too few children, or extents that count more blocks than there are.
        if case.records.pop().is_none() {
            case.level = 0;
            case.place.leaf = true;
            case.expected = 255;
        }
    }
    case
}

/// A catalog leaf of directory entries whose payload is exactly `payload` bytes, at least 27.
fn filled(r: &mut Random, payload: usize) -> Case {
    let mut case = empty_case(r);
    (case.kind, case.place.kind, case.level, case.place.leaf) = (1, 1, 0, true);
    (case.expected, case.block) = (255, numbers::good_block(r, case.blocks));
    let mut room = payload;
    let mut owner = 0;
    while room > 0 {
        let size = match room {
            0..=900 => room,
            _ => r.size(27, 900).min(room - 27),
        };
        let key_name = (size - 26).min(700);
        let value_name = size - 25 - key_name;
        owner += 1;
        let key = records::catalog_key(owner, 2, &texts::utf8(r, key_name));
        let value = {
            let name = texts::utf8(r, value_name);
            records::directory_entry(r, &name)
        };
        case.records.push((key, value));
        room -= size;
    }
    case.lay();
    case
}

/// Changes the records of a page, and lays them anew.
pub fn spoil_records(r: &mut Random, case: &mut Case) {
    let len = case.records.len();
    let place = case.place;
    match r.below(8) {
        0..=3 if len > 0 => {
            let at = r.size(0, len - 1);
            records::spoil(r, place, &mut case.records[at]);
            if r.once_in(4) {
                case.records.sort();
            }
        }
        4 if len > 1 => {
            let at = r.size(1, len - 1);
            case.records.swap(at - 1, at);
        }
        5 if len > 0 => {
            let at = r.size(0, len - 1);
            let copy = case.records[at].clone();
            case.records.insert(at, copy);
        }
        6 if len > 1 && !place.leaf => {
            let (one, other) = (r.size(0, len - 1), r.size(0, len - 1));
            case.records[one].1 = case.records[other].1.clone();
        }
        7 if !place.leaf => case.records.truncate(r.size(0, 2)),
        _ => {
            let record = records::any(r, place);
            case.records.push(record);
            if !r.once_in(3) {
                case.records.sort();
            }
        }
    }
    case.lay();
}

#[rustfmt::skip]
const HEADER: &[(usize, usize)] = &[
    (0, 1), (7, 1), (8, 2), (10, 2), (12, 1), (13, 1), (14, 1), (15, 1), (16, 8), (24, 8), (32, 2),
    (34, 2), (36, 1), (39, 1), (40, 1), (55, 1), (56, 8), (64, 4), (68, 1), (79, 1), (80, 2),
    (82, 2), (4095, 1),
];

fn number_at(page: &[u8], offset: usize, width: usize) -> u64 {
    let bytes = page.get(offset..offset + width).unwrap_or_default();
    bytes.iter().rev().fold(0, |number, &byte| number << 8 | u64::from(byte))
}

/// More records claimed than there are, or another payload length, with chosen bytes behind the payload.
fn look_behind(r: &mut Random, case: &mut Case) {
    let count = number_at(&case.page, 32, 2);
    let payload = number_at(&case.page, 34, 2);
    let behind: &[u8] = r.pick(&[
        &[0, 0, 0, 0][..],
        &[1, 0, 0, 0],
        &[9, 0, 0xFF, 0xFF],
        &[9, 0, 0xFF, 0x0B],
        &[0, 4, 0, 0],
        &[1, 4, 0, 0],
        &[9, 0],
        &[0xFF],
        &[9, 0, 0, 0, 3, 0, 0, 0, 0, 0, 0, 0, 1],
    ]);
    let end = (80 + payload as usize).min(case.page.len());
    for (byte, &new) in case.page[end..].iter_mut().zip(behind) {
        *byte = new;
    }
    match r.below(4) {
        0 => put(&mut case.page, (34, 2), payload.saturating_sub(r.below(5)), false),
        1 => put(&mut case.page, (34, 2), payload + r.below(14), false),
        _ => {}
    }
    put(&mut case.page, (32, 2), count + r.below(3), false);
    case.seal();
}

/// Changes a page's bytes or the arguments it is read with.
fn spoil_page(r: &mut Random, case: &mut Case) {
    let number = numbers::field(r, case.blocks, case.generation);
    match r.below(14) {
        0..=2 => spoil_arguments(r, case),
        13 => {
            let len = r.pick(&[0, 14, 15, 31, 32, 79, 80, 4_095, 4_097, 8_192]);
            case.page.resize(len, 0);
        }
        turn => spoil_bytes(r, case, number, turn),
    }
}

/// Changes a page's bytes, in one of ten ways from 3 on; its length stays.
pub fn spoil_bytes(r: &mut Random, case: &mut Case, number: u64, way: u64) {
    match way {
        3..=5 => {
            put(&mut case.page, r.pick(HEADER), number, false);
            if !r.once_in(8) {
                case.seal();
            }
        }
        6 => {
            let at = r.size(0, case.page.len().saturating_sub(1));
            put(&mut case.page, (at, 1), r.next(), false);
            case.seal();
        }
        7 | 8 => {
            let at = r.size(80, 600);
            put(&mut case.page, (at, 1), number, false);
            case.seal();
        }
        9 => look_behind(r, case),
        10 => {
            let end = 80 + number_at(&case.page, 34, 2) as usize;
            let at = if r.once_in(2) { end } else { r.size(end.min(4095), 4095) };
            put(&mut case.page, (at, 1), r.next(), false);
            case.seal();
        }
        11 => {
            let total = number_at(&case.page, 56, 8);
            let total = total.wrapping_add(r.below(3)).wrapping_sub(1);
            put(&mut case.page, (56, 8), total, false);
            case.seal();
        }
        _ => {
            let at = r.size(0, case.page.len().saturating_sub(1));
            put(&mut case.page, (at, 1), r.next(), false);
        }
    }
}

fn spoil_arguments(r: &mut Random, case: &mut Case) {
    match r.below(9) {
        0 => case.block = numbers::block(r, case.blocks),
        1 => case.generation = numbers::field(r, case.blocks, case.generation),
        2 => case.kind = r.from_to(1, 4),
        3 => case.parent = numbers::field(r, case.blocks, case.generation),
        4 => case.expected = r.pick(&[0, 1, 2, 7, 8, 9, 254, 255]),
        5 => case.expected = u64::from(case.level) ^ r.below(2),
        6 => case.blocks = numbers::volume(r),
        7 => case.blocks = case.blocks.wrapping_add(r.below(3)).wrapping_sub(1),
        _ => case.uuid = if r.once_in(2) { [0; 16] } else { uuid(r) },
    }
}

/// A good page, a damaged one, or one that is read to the block's end.
pub fn any(r: &mut Random) -> Case {
    let mut case = match r.below(12) {
        0 => {
            let payload = r.size(4_008, 4_016);
            let mut case = filled(r, payload);
            look_behind(r, &mut case);
            return case;
        }
        _ => good(r),
    };
    for _ in 0..r.pick(&[0, 0, 1, 1, 1, 2]) {
        spoil_records(r, &mut case);
    }
    for _ in 0..r.pick(&[0, 0, 1, 1, 2, 3]) {
        spoil_page(r, &mut case);
    }
    case
}

/// A page whose identity stands but of which little else need hold, in a string of any length.
pub fn view(r: &mut Random) -> Case {
    let mut case = good(r);
    if r.once_in(3) {
        return any(r);
    }
    for _ in 0..r.below(3) {
        let at = r.pick(&[(12, 1), (14, 1), (32, 2), (34, 2), (56, 8), (80, 2), (90, 1)]);
        put(&mut case.page, at, numbers::any(r), false);
    }
    if r.once_in(2) {
        let len = match r.below(3) {
            0 => r.pick(&[0, 14, 15, 24, 31, 32, 33, 34, 35, 36, 56, 64, 79, 80, 81]),
            1 => r.size(0, 4_096),
            _ => 80 + number_at(&case.page, 34, 2) as usize - r.size(0, 1),
        };
        case.page.resize(len.min(66_000), 0);
    }
    if r.once_in(4) && case.page.len() >= 56 {
        // What only a caller of decode_page must give.
        match r.below(3) {
            0 => {
                case.uuid = [0; 16];
                case.page[40..56].fill(0);
            }
            1 => {
                case.generation = 0;
                case.page[24..32].fill(0);
            }
            _ => {
                case.block = numbers::any(r);
                put(&mut case.page, (16, 8), case.block, false);
            }
        }
    }
    case.expected = match r.below(3) {
        0 => case.page.get(14).copied().unwrap_or(0).into(),
        1 => r.below(256),
        _ => 255,
    };
    case
}
