//! Records of every tree kind: good ones, and ways to spoil them.

use crate::numbers;
use crate::random::Random;
use crate::texts;
use reference::format::{reserved_group_blocks, set_checksum_slot};

/// What a record is made for.
#[derive(Clone, Copy)]
pub struct Place {
    pub kind: u64,
    pub leaf: bool,
    pub blocks: u64,
    pub generation: u64,
}

pub type Record = (Vec<u8>, Vec<u8>);

fn join(parts: &[&[u8]]) -> Vec<u8> {
    parts.concat()
}

pub fn catalog_key(owner: u64, kind: u8, rest: &[u8]) -> Vec<u8> {
    join(&[&owner.to_be_bytes(), &[kind], rest])
}

/// A timestamp of 16 bytes that passes.
fn timestamp(r: &mut Random) -> Vec<u8> {
    let seconds = numbers::good_seconds(r).to_le_bytes();
    let nanoseconds = numbers::good_nanoseconds(r).to_le_bytes();
    join(&[&seconds, &nanoseconds, &[0; 4]])
}

/// An inode of a type, with its target if it is a symlink.
fn inode_of(r: &mut Random, object_type: u8, target: &[u8], blocks: u64) -> Vec<u8> {
    let flags = match object_type {
        3 => r.pick(&[0, 1, 2, 3, 6, 7]),
        _ => r.below(2) as u8,
    };
    let (size, allocated, children) = match object_type {
        1 => (numbers::any(r) & numbers::MAX_ID, r.below(blocks.max(1)), 0),
        2 => (0, 0, numbers::any(r) & numbers::MAX_ID),
        _ => (target.len() as u64, 0, 0),
    };
    let mut value = vec![object_type, flags, 0, 0, 0, 0, 0, 0];
    for number in [numbers::good_owner(r), size, allocated, children] {
        value.extend_from_slice(&number.to_le_bytes());
    }
    (0..3).for_each(|_| value.extend(timestamp(r)));
    value.resize(128, 0);
    value.extend_from_slice(target);
    value
}

pub fn inode(r: &mut Random, blocks: u64) -> Vec<u8> {
    match r.below(3) {
        2 => {
            let target = target(r);
            inode_of(r, 3, &target, blocks)
        }
        other => inode_of(r, other as u8 + 1, b"", blocks),
    }
}

/// A symlink target that passes.
pub fn target(r: &mut Random) -> Vec<u8> {
    let len = match r.below(6) {
        0 => r.pick(&[1, 1_022, 1_023]),
        _ => r.size(1, 40),
    };
    texts::without_nul(r, len)
}

fn name(r: &mut Random, most: usize) -> Vec<u8> {
    let len = match r.below(8) {
        0 => 1,
        1 => most,
        2 => r.size(1, most),
        _ => r.size(1, 20),
    };
    texts::utf8(r, len)
}

pub fn directory_entry(r: &mut Random, name: &[u8]) -> Vec<u8> {
    let owner = numbers::good_owner(r).to_le_bytes();
    let object_type = r.from_to(1, 3) as u8;
    join(&[&owner, &[object_type, 0], &(name.len() as u16).to_le_bytes(), name])
}

/// An extent's logical start, physical start and count.
fn extent_numbers(r: &mut Random, blocks: u64) -> (u64, u64, u64) {
    let first = numbers::good_block(r, blocks);
    let room = blocks.saturating_sub(512).saturating_sub(first).clamp(1, u64::from(u32::MAX));
    let count = match r.below(4) {
        0 => 1,
        1 => room,
        2 => r.from_to(1, room),
        _ => r.from_to(1, room.min(9)),
    };
    let last = numbers::LOGICAL_END - count;
    let logical = match r.below(4) {
        0 => r.pick(&[0, last]),
        1 => r.from_to(0, last),
        _ => r.below(100),
    };
    (logical, first, count)
}

pub fn extent(r: &mut Random, blocks: u64) -> Record {
    let (logical, first, count) = extent_numbers(r, blocks);
    let key = catalog_key(numbers::good_owner(r), 3, &logical.to_be_bytes());
    (key, join(&[&first.to_le_bytes(), &(count as u32).to_le_bytes(), &[0; 4]]))
}

/// A full group of 1,056 bytes whose last present slot is `last`.
pub fn full_group(r: &mut Random, last: usize) -> [u8; 1056] {
    let mut group = [0; 1056];
    let density = r.from_to(1, 4);
    for slot in 0..=last {
        if slot == last || r.below(4) < density {
            let word = if r.once_in(8) { 0 } else { r.next() as u32 };
            set_checksum_slot(&mut group, slot, Some(word));
        }
    }
    group
}

pub fn slot(r: &mut Random) -> usize {
    match r.below(4) {
        0 => r.pick(&[0, 1, 6, 7, 8, 9, 15, 16, 247, 248, 254, 255]),
        1 => r.size(0, 255),
        _ => r.size(0, 24),
    }
}

/// A stored group.
pub fn group(r: &mut Random) -> Vec<u8> {
    let last = slot(r);
    full_group(r, last)[..36 + 4 * last].to_vec()
}

pub fn checksum_group(r: &mut Random) -> Record {
    let index = match r.below(4) {
        0 => r.pick(&[0, numbers::LAST_GROUP]),
        1 => r.from_to(0, numbers::LAST_GROUP),
        _ => r.below(50),
    };
    let key = catalog_key(numbers::good_owner(r), 4, &index.to_be_bytes());
    (key, group(r))
}

fn catalog_leaf(r: &mut Random, blocks: u64) -> Record {
    let owner = numbers::good_owner(r);
    match r.below(4) {
        0 => (catalog_key(owner, 1, b""), inode(r, blocks)),
        1 => {
            let key = catalog_key(owner, 2, &name(r, 765));
            let name = name(r, 255);
            (key, directory_entry(r, &name))
        }
        2 => extent(r, blocks),
        _ => checksum_group(r),
    }
}

fn group_index(r: &mut Random, blocks: u64) -> u64 {
    let last = numbers::group_count(blocks).saturating_sub(1);
    match r.below(4) {
        0 => 0,
        1 => last,
        _ => r.from_to(0, last),
    }
}

fn allocation_leaf(r: &mut Random, blocks: u64) -> Record {
    let group = group_index(r, blocks);
    let mut value = match r.below(4) {
        0 => vec![0; 2_048],
        1 => vec![0xFF; 2_048],
        _ => r.bytes(2_048),
    };
    for block in reserved_group_blocks(group, blocks) {
        value[(block % 16_384 / 8) as usize] |= 1 << (block % 8);
    }
    (group.to_be_bytes().to_vec(), value)
}

fn retirement_key(r: &mut Random, place: Place) -> (Vec<u8>, u64) {
    let generation = r.from_to(1, place.generation.max(1));
    let first = numbers::good_block(r, place.blocks);
    (join(&[&[1], &generation.to_be_bytes(), &first.to_be_bytes()]), first)
}

fn cleanup_leaf(r: &mut Random, place: Place) -> Record {
    let id = numbers::good_owner(r).to_be_bytes();
    match r.below(4) {
        0 => {
            let (key, first) = retirement_key(r, place);
            let room = place.blocks.saturating_sub(512).saturating_sub(first);
            let count = r.from_to(1, room.clamp(1, u64::from(u32::MAX))) as u32;
            (key, join(&[&count.to_le_bytes(), &[0; 4]]))
        }
        1 => {
            let owner = numbers::good_owner(r).to_le_bytes();
            let low = r.from_to(1, 4);
            let high = r.from_to(low, 4);
            let kinds = [low as u8, high as u8, 0, 0, 0, 0, 0, 0];
            let block = numbers::good_block(r, place.blocks).to_le_bytes();
            let generation = r.from_to(1, place.generation.max(1)).to_le_bytes();
            (join(&[&[2], &id]), join(&[&owner, &kinds, &block, &generation]))
        }
        _ => (join(&[&[3], &id]), Vec::new()),
    }
}

fn workspace_leaf(r: &mut Random, blocks: u64) -> Record {
    let first = numbers::good_block(r, blocks);
    let room = blocks.saturating_sub(512).saturating_sub(first);
    let count = match r.below(3) {
        0 => 1,
        1 => room.clamp(1, u64::from(u32::MAX)),
        _ => r.from_to(1, room.clamp(1, u64::from(u32::MAX))),
    };
    (first.to_be_bytes().to_vec(), (count as u32).to_le_bytes().to_vec())
}

fn internal_key(r: &mut Random, place: Place) -> Vec<u8> {
    match place.kind {
        1 => {
            let owner = numbers::good_owner(r);
            match r.below(4) {
                0 => catalog_key(owner, 1, b""),
                1 => {
                    let name = name(r, 765);
                    catalog_key(owner, 2, &name)
                }
                _ => {
                    let kind = r.from_to(3, 4) as u8;
                    catalog_key(owner, kind, &r.next().to_be_bytes())
                }
            }
        }
        2 => group_index(r, place.blocks).to_be_bytes().to_vec(),
        3 => match r.below(2) {
            0 => retirement_key(r, place).0,
            _ => join(&[&[r.from_to(2, 3) as u8], &numbers::good_owner(r).to_be_bytes()]),
        },
        _ => numbers::good_block(r, place.blocks).to_be_bytes().to_vec(),
    }
}

/// A record that passes in its place, if the volume has a block for it.
pub fn good(r: &mut Random, place: Place) -> Record {
    if !place.leaf {
        let block = match place.kind {
            4 => numbers::bank_block(r, place.blocks),
            _ => numbers::good_block(r, place.blocks),
        };
        let generation = r.from_to(1, place.generation.max(1));
        let value = join(&[&block.to_le_bytes(), &generation.to_le_bytes()]);
        return (internal_key(r, place), value);
    }
    match place.kind {
        1 => catalog_leaf(r, place.blocks),
        2 => allocation_leaf(r, place.blocks),
        3 => cleanup_leaf(r, place),
        _ => workspace_leaf(r, place.blocks),
    }
}

/// Where a field stands: offset and width.
type Field = (usize, usize);

const KEY_FIELDS: &[Field] = &[(0, 1), (0, 8), (1, 8), (8, 1), (9, 8)];
#[rustfmt::skip]
const INODE_FIELDS: &[Field] = &[
    (0, 1), (1, 1), (2, 1), (7, 1), (8, 8), (16, 8), (24, 8), (32, 8), (40, 8), (48, 4), (52, 4),
    (56, 8), (64, 4), (68, 4), (72, 8), (80, 4), (84, 4), (88, 1), (127, 1),
];
#[rustfmt::skip]
const SHORT_FIELDS: &[Field] = &[
    (0, 1), (0, 4), (0, 8), (4, 4), (8, 1), (8, 4), (8, 8), (9, 1), (10, 2), (12, 4), (15, 1),
    (16, 8), (24, 8),
];

/// Writes the low bytes of `number` at a field, if it lies in `bytes`.
pub fn put(bytes: &mut [u8], (offset, width): Field, number: u64, big: bool) {
    let Some(part) = bytes.get_mut(offset..offset + width) else {
        return;
    };
    if big {
        part.copy_from_slice(&number.to_be_bytes()[8 - width..]);
    } else {
        part.copy_from_slice(&number.to_le_bytes()[..width]);
    }
}

fn spoil_length(r: &mut Random, bytes: &mut Vec<u8>) {
    let len = match r.below(6) {
        0 => bytes.len().saturating_sub(1),
        1 => bytes.len() + 1,
        2 => bytes.len() + 4,
        3 => bytes.len().saturating_sub(4),
        4 => r.size(0, 40),
        _ => r.pick(&[0, 8, 9, 10, 16, 17, 35, 36, 774, 775, 1_024, 1_025, 1_056, 1_057]),
    };
    bytes.resize(len, 0);
}

/// A symlink with a target at the border of what passes, its size in step.
fn edge_symlink(r: &mut Random, place: Place) -> Vec<u8> {
    let mut target = match r.below(4) {
        0 => {
            let len = r.size(1_022, 1_026);
            texts::without_nul(r, len)
        }
        1 => Vec::new(),
        2 => texts::any(r),
        _ => target(r),
    };
    if r.once_in(3) {
        texts::spoil(r, &mut target);
    }
    inode_of(r, 3, &target, place.blocks)
}

/// One change to a record, aimed at a field, a length or a name.
pub fn spoil(r: &mut Random, place: Place, (key, value): &mut Record) {
    let number = numbers::field(r, place.blocks, place.generation);
    let kind = key.get(8).copied();
    let catalog = place.leaf && place.kind == 1;
    match r.below(12) {
        0 => put(key, r.pick(KEY_FIELDS), number, true),
        1 => put(key, (8, 1), r.below(7), true),
        2 => spoil_length(r, key),
        3 => spoil_length(r, value),
        4 if !key.is_empty() => {
            let at = r.size(0, key.len() - 1);
            key[at] = r.byte();
        }
        5 if !value.is_empty() => {
            let at = r.size(0, value.len() - 1);
            value[at] = r.byte();
        }
        6 if catalog && kind == Some(1) => *value = edge_symlink(r, place),
        7 if catalog && kind == Some(2) => spoil_entry(r, key, value),
        7 if catalog && kind == Some(4) => spoil_group(r, value),
        // Sums that leave 64 bits.
        6 if catalog && kind == Some(3) => put(value, (0, 8), u64::MAX - r.below(3), false),
        7 if catalog && kind == Some(3) => put(key, (9, 8), u64::MAX - r.below(3), true),
        6..=8 if catalog && kind == Some(1) => put(value, r.pick(INODE_FIELDS), number, false),
        6..=8 if place.leaf && place.kind == 2 => spoil_bits(r, place, key, value),
        _ => put(value, r.pick(SHORT_FIELDS), number, false),
    }
}

/// A directory entry with a name, in its key or value, that may not pass.
fn spoil_entry(r: &mut Random, key: &mut Vec<u8>, value: &mut Vec<u8>) {
    if r.once_in(2) {
        let mut name = key.split_off(9.min(key.len()));
        texts::spoil(r, &mut name);
        key.extend(name);
        return;
    }
    let mut name = match r.below(3) {
        0 => {
            let len = r.size(253, 258);
            texts::utf8(r, len)
        }
        _ => texts::any(r),
    };
    if r.once_in(2) {
        texts::spoil(r, &mut name);
    }
    *value = directory_entry(r, &name);
}

/// A bit set or cleared, or a word changed, in a checksum group.
pub fn spoil_group(r: &mut Random, value: &mut [u8]) {
    if value.len() < 36 {
        return;
    }
    let slots = (value.len() - 32) / 4;
    let slot = match r.below(4) {
        0 => slots - 1,
        1 => slots,
        2 => r.size(0, 255),
        _ => r.size(0, slots - 1),
    }
    .min(255);
    match r.below(3) {
        0 => value[slot / 8] ^= 1 << (slot % 8),
        1 => value[slot / 8] &= !(1 << (slot % 8)),
        _ => put(value, (32 + 4 * slot, 4), r.next(), false),
    }
}

/// A bit of an allocation group cleared, often a reserved one.
fn spoil_bits(r: &mut Random, place: Place, key: &[u8], value: &mut [u8]) {
    let Ok(group) = key.try_into().map(u64::from_be_bytes) else {
        return;
    };
    let first = group.saturating_mul(16_384);
    let edge = place.blocks.saturating_sub(512);
    let block = match r.below(6) {
        0 => first,
        1 => first.saturating_add(511),
        2 => first.saturating_add(512),
        3 => edge,
        4 => edge.saturating_sub(1),
        _ => first.saturating_add(r.below(16_384)),
    };
    if let Some(byte) = value.get_mut((block % 16_384 / 8) as usize) {
        *byte &= !(1 << (block % 8));
    }
}

/// A good record, or one with one to three changes.
pub fn any(r: &mut Random, place: Place) -> Record {
    let mut record = good(r, place);
    if !r.once_in(4) {
        for _ in 0..r.pick(&[1, 1, 1, 2, 3]) {
            spoil(r, place, &mut record);
        }
    }
    record
}
