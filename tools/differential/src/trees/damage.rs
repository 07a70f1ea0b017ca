//! Damage to a tree, mostly to a page that the sought key leads to.

use super::{BLOCK, BLOCKS, GENERATION, Laid, Search, Step, child_value};
use crate::call::LONGEST_IMAGE;
use crate::numbers;
use crate::oracle::tree;
use crate::pages::{self, Case};
use crate::random::Random;
use crate::records::{Record, put};
use reference::format::TreeRef;

/// One damage.
pub fn any(r: &mut Random, search: &mut Search, pool: &[Record]) {
    let path = search.path();
    if path.is_empty() || r.once_in(8) {
        return at_root(r, search);
    }
    let last = path.len() - 1;
    let way = r.below(18);
    // Only a page below another has bounds.
    let place = if (6..=11).contains(&way) && last > 0 { r.size(1, last) } else { r.size(0, last) };
    match way {
        0 | 1 => bytes(r, search, path[place]),
        2 => pages::spoil_records(r, &mut search.pages[path[place].page].case),
        3 => identity(r, search, path[place]),
        4 | 5 => generations(r, search, &path, place),
        6..=11 => bounds(r, search, &path, place, pool),
        12 | 13 => reference(r, search, &path, place),
        14 => image(r, search, path[place]),
        15 => string(r, search, path[place]),
        16 => swapped(r, search, &path, place),
        _ => wrapped(r, search, &path, place),
    }
}

fn some_block(r: &mut Random, search: &Search) -> u64 {
    let blocks = search.root[BLOCKS];
    let own = match search.pages.len() {
        0 => 512,
        len => search.pages[r.size(0, len - 1)].at,
    };
    let end = search.image / BLOCK;
    match r.below(6) {
        0 => end.wrapping_add(r.below(3)).wrapping_sub(1),
        1 => r.pick(&[0, 31, 32, 95, 96, 511, 512, 639, 640, u64::MAX - 1, u64::MAX]),
        2 => (r.from_to(1, 4_095) << 52).wrapping_add(own).wrapping_sub(r.below(2)),
        3 => own,
        4 => numbers::block(r, blocks),
        _ => blocks.wrapping_sub(513).wrapping_add(r.below(2)),
    }
}

/// The root's numbers, its UUID and the kind that is asked for.
fn at_root(r: &mut Random, search: &mut Search) {
    let reference = search.reference();
    match r.below(12) {
        0 | 1 => search.set_reference(tree(some_block(r, search), reference.generation)),
        2 => {
            let newest = search.root[GENERATION];
            let generation = r.pick(&[0, 1, newest, newest.wrapping_add(1), reference.generation.wrapping_add(1)]);
            search.set_reference(tree(reference.block, generation));
        }
        3 | 4 => {
            let number = reference.generation;
            search.root[GENERATION] = r.pick(&[0, 1, number.wrapping_sub(1), number, number.wrapping_add(1), u64::MAX]);
        }
        5 | 6 => {
            let blocks = search.root[BLOCKS];
            let block = reference.block.saturating_add(512);
            let beside = [blocks.wrapping_sub(1), blocks.wrapping_add(1), block, block.saturating_add(1)];
            search.root[BLOCKS] = if r.once_in(2) { r.pick(&beside) } else { numbers::volume(r) };
        }
        7 => search.uuid = [0; 16],
        8 => search.uuid[r.size(0, 15)] ^= 1,
        9 => {
            // Another tree's page.
            search.kind = r.from_to(1, 4);
            if r.once_in(2) {
                search.set_reference(reference);
            }
        }
        10 => search.image = r.pick(&[0, 1, 4_095, 4_096, 4_097, LONGEST_IMAGE - 1, LONGEST_IMAGE]),
        _ => search.root[r.size(10, 15)] = numbers::any(r),
    }
}

/// The page's bytes, with its checksum made anew or not.
fn bytes(r: &mut Random, search: &mut Search, step: Step) {
    let case = &mut search.pages[step.page].case;
    let number = numbers::field(r, case.blocks, case.generation);
    let way = r.from_to(3, 12);
    pages::spoil_bytes(r, case, number, way);
}

/// Level, kinds and UUID of the page.
fn identity(r: &mut Random, search: &mut Search, step: Step) {
    let case = &mut search.pages[step.page].case;
    match r.below(4) {
        0 => {
            let level = r.pick(&[case.level.wrapping_sub(1), case.level + 1, 0, 7, 8]);
            put(&mut case.page, (14, 1), level.into(), false);
            put(&mut case.page, (12, 1), if level == 0 { 1 } else { 2 }, false);
        }
        1 => put(&mut case.page, (14, 1), r.below(9), false),
        2 => put(&mut case.page, (13, 1), r.below(6), false),
        _ => {
            let at = r.size(40, 55);
            case.page[at] ^= 1 << r.below(8);
        }
    }
    case.seal();
}

/// Sets the reference to the page at a place of the path: its parent is laid anew, or it is the root's.
fn refer(search: &mut Search, path: &[Step], place: usize, to: TreeRef) {
    let Some(above) = place.checked_sub(1) else {
        return search.set_reference(to);
    };
    let case = &mut search.pages[path[above].page].case;
    if let Some(record) = path[above].record {
        case.records[record].1 = child_value(to);
        case.lay();
    }
}

/// The generation that the page at a place has as its parent.
fn parent(search: &Search, path: &[Step], place: usize) -> u64 {
    match place.checked_sub(1) {
        Some(above) => search.pages[path[above].page].case.generation,
        None => search.root[GENERATION],
    }
}

/// The page's generation, in the page, in its reference or in both.
fn generations(r: &mut Random, search: &mut Search, path: &[Step], place: usize) {
    let newest = parent(search, path, place);
    let case = &mut search.pages[path[place].page].case;
    let (block, own) = (case.block, case.generation);
    let generation = match r.below(5) {
        0 => 0,
        1 => newest.wrapping_add(1),
        2 => own.wrapping_add(1),
        3 => own.wrapping_sub(1),
        _ => newest,
    };
    let where_to = r.below(3);
    if where_to != 0 {
        case.generation = generation;
        case.lay();
    }
    if where_to != 1 {
        refer(search, path, place, tree(block, generation));
    }
}

/// The bounds of the page at a place.
fn bounds_at(search: &Search, path: &[Step], place: usize) -> (Option<Vec<u8>>, Option<Vec<u8>>) {
    let (mut lower, mut upper) = (None, None);
    for step in &path[..place] {
        let records = &search.pages[step.page].case.records;
        if let Some(record) = step.record {
            lower = records.get(record).map(|record| record.0.clone());
            upper = records.get(record + 1).map(|record| record.0.clone()).or(upper);
        }
    }
    (lower, upper)
}

/// Gives a page a record at its place in the order, or changes that one's key.
fn insert(r: &mut Random, case: &mut Case, mut record: Record) {
    if case.level > 0 {
        let block = match case.kind {
            4 => r.from_to(32, 95),
            _ => r.from_to(512, 639),
        };
        record.1 = child_value(tree(block, case.generation));
    }
    let replaced = r.below(3) == 0 && !case.records.is_empty();
    if replaced {
        let at = r.size(0, case.records.len() - 1);
        if case.level > 0 {
            record.1 = case.records[at].1.clone();
        }
        case.records.remove(at);
    }
    case.records.retain(|other| other.0 != record.0);
    let at = case.records.partition_point(|other| other.0 < record.0);
    case.records.insert(at, record);
    case.lay();
}

/// Keys at and beside the bounds: a key moves into the page, or a bound moves over the page's keys.
fn bounds(r: &mut Random, search: &mut Search, path: &[Step], place: usize, pool: &[Record]) {
    let (lower, upper) = bounds_at(search, path, place);
    let at = |key: &Vec<u8>| pool.partition_point(|record| record.0 < *key);
    let near = match (r.below(3), lower, upper) {
        (0, Some(lower), _) => at(&lower).saturating_sub(r.size(0, 2)),
        (1, _, Some(upper)) => at(&upper) + r.size(0, 2),
        _ => r.size(0, pool.len()),
    };
    let Some(record) = pool.get(near).or(pool.last()) else {
        return;
    };
    if r.below(3) > 0 || place == 0 {
        return insert(r, &mut search.pages[path[place].page].case, record.clone());
    }
    // A separator above takes another key, at or beside one of the page.
    let keys = &search.pages[path[place].page].case.records;
    let key = match keys.len() {
        0 => record.0.clone(),
        len => pool.get(at(&keys[r.pick(&[0, len - 1])].0) + r.size(0, 1)).unwrap_or(record).0.clone(),
    };
    let step = path[r.size(0, place - 1)];
    let case = &mut search.pages[step.page].case;
    let separator = step.record.unwrap_or(0) + r.size(0, 1);
    if let Some(separator) = case.records.get_mut(separator) {
        separator.0 = key;
    }
    if r.below(4) > 0 {
        case.records.sort();
    }
    case.lay();
}

/// The reference to the page, with the page itself moved to it or not.
fn reference(r: &mut Random, search: &mut Search, path: &[Step], place: usize) {
    let case = &mut search.pages[path[place].page].case;
    let generation = case.generation;
    let block = some_block(r, search);
    if r.once_in(2) {
        let laid = &mut search.pages[path[place].page];
        laid.case.block = block;
        laid.case.lay();
        if r.once_in(2) {
            laid.at = block;
        }
    }
    refer(search, path, place, tree(block, generation));
}

/// The image ends within or before the page, or just behind it.
fn image(r: &mut Random, search: &mut Search, step: Step) {
    let begin = search.pages[step.page].at.saturating_mul(BLOCK);
    let len = match r.below(6) {
        0 => begin,
        1 => begin.saturating_add(1),
        2 | 3 => begin.saturating_add(BLOCK - 1),
        4 => begin.saturating_add(BLOCK + r.below(2)),
        _ => begin.saturating_add(r.below(BLOCK)),
    };
    search.image = len.min(LONGEST_IMAGE);
}

/// The string of pages: one twice, one that isn't there, one in another's place or beyond the end.
fn string(r: &mut Random, search: &mut Search, step: Step) {
    let mut copy = search.pages[step.page].clone();
    match r.below(6) {
        0 => drop(search.pages.remove(step.page)),
        1 | 2 => {
            // The later one counts.
            let at = r.size(0, 4_095);
            copy.case.page[at] ^= 1 << r.below(8);
            let place = if r.once_in(2) { search.pages.len() } else { 0 };
            search.pages.insert(place, copy);
        }
        3 => {
            let other = r.size(0, search.pages.len() - 1);
            search.pages[step.page].at = search.pages[other].at;
            search.pages[other].at = copy.at;
        }
        4 => search.pages[step.page].at = (r.from_to(1, 4_095) << 52) + copy.at % (1 << 52),
        _ => {
            let zeros = Laid { at: some_block(r, search), case: Case { page: vec![0; 4096], ..copy.case } };
            search.pages.push(zeros);
        }
    }
}

/// Two references of a page change places, or one goes to a page of another level.
fn swapped(r: &mut Random, search: &mut Search, path: &[Step], place: usize) {
    let to = search.pages[r.size(0, search.pages.len() - 1)].case.clone();
    let case = &mut search.pages[path[place].page].case;
    let (Some(record), len) = (path[place].record, case.records.len()) else {
        return refer(search, path, place, tree(to.block, to.generation));
    };
    if r.once_in(3) {
        let value = child_value(tree(to.block, to.generation));
        case.records[record].1 = value;
    } else {
        let other = r.size(0, len - 1);
        let values = (case.records[record].1.clone(), case.records[other].1.clone());
        case.records[record].1 = values.1;
        case.records[other].1 = values.0;
    }
    case.lay();
}

/// The page gets a number that is another's, or its own, where 64 bits wrap: it is there for whoever multiplies without care.
fn wrapped(r: &mut Random, search: &mut Search, path: &[Step], place: usize) {
    let far = r.pick(&[1u64, 2, 3, 2_048]) << 52;
    search.root[BLOCKS] = match search.kind {
        4 => far + 128,
        _ => u64::MAX - 20_000,
    };
    let laid = &mut search.pages[path[place].page];
    let block = far + laid.case.block % (1 << 52);
    laid.case.block = block;
    laid.case.lay();
    let generation = laid.case.generation;
    refer(search, path, place, tree(block, generation));
}
