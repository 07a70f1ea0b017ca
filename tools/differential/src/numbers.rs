//! Numbers worth trying: the borders of every rule, and what lies beside them.

use crate::random::Random;

pub const MAX_ID: u64 = i64::MAX as u64;
/// One past the last logical block.
pub const LOGICAL_END: u64 = 1 << 51;
/// The last checksum group.
pub const LAST_GROUP: u64 = (1 << 39) - 1;
pub const EARLIEST: i64 = -11_644_473_600;
pub const LATEST: i64 = 253_402_300_799;

#[rustfmt::skip]
const BORDERS: &[u64] = &[
    0, 1, 2, 3, 4, 5, 7, 8, 9, 12, 16, 17, 31, 32, 33, 63, 64, 95, 96, 97, 127, 128, 255, 256, 257, 511, 512,
    513, 767, 768, 1_023, 1_024, 1_025, 1_026, 1_027, 1_028, 3_072, 4_016, 4_095, 4_096, 4_097, 16_383, 16_384,
    16_385, 65_535, 65_536, 65_537, 999_999_999, 1_000_000_000, u32::MAX as u64 - 1, u32::MAX as u64, u32::MAX
    as u64 + 1, LAST_GROUP - 1, LAST_GROUP, LAST_GROUP + 1, (1 << 50) - 1, 1 << 50, LOGICAL_END - 1,
    LOGICAL_END, LOGICAL_END + 1, MAX_ID - 2, MAX_ID - 1, MAX_ID, MAX_ID + 1, MAX_ID + 2, u64::MAX - 16_385,
    u64::MAX - 16_384, u64::MAX - 16_383, u64::MAX - 16_382, u64::MAX - 1_024, u64::MAX - 512, u64::MAX - 511,
    u64::MAX - 1, u64::MAX, EARLIEST as u64 - 1, EARLIEST as u64, EARLIEST as u64 + 1, LATEST as u64 - 1, LATEST
    as u64, LATEST as u64 + 1,
];

/// Any 64-bit number, the borders more often than the rest.
pub fn any(r: &mut Random) -> u64 {
    match r.below(8) {
        0..=2 => r.pick(BORDERS),
        3 => (1u64 << r.below(64)).wrapping_add(r.below(3)).wrapping_sub(1),
        4 => r.below(20),
        5 => u64::MAX - r.below(20),
        6 => r.next() >> r.below(64),
        _ => r.next(),
    }
}

/// The counts of blocks at which some rule turns.
#[rustfmt::skip]
pub const VOLUMES: &[u64] = &[
    0, 1, 95, 96, 256, 257, 511, 512, 513, 1_022, 1_023, 1_024, 1_025, 1_026, 1_027, 1_028, 1_100, 2_048,
    16_383, 16_384, 16_385, 16_895, 16_896, 16_897, 17_000, 32_768, 65_536, 1 << 20, 1 << 32, 1 << 50, MAX_ID,
    MAX_ID + 1, u64::MAX - 16_384, u64::MAX - 16_383, u64::MAX - 16_382, u64::MAX - 512, u64::MAX - 1, u64::MAX,
];

/// A volume's count of blocks, too small ones too.
pub fn volume(r: &mut Random) -> u64 {
    match r.below(8) {
        0..=3 => r.pick(VOLUMES),
        4 => r.from_to(1_000, 1_200),
        5 => r.from_to(1_024, 200_000),
        _ => any(r),
    }
}

/// A count of blocks with at least `least` of them.
pub fn good_volume(r: &mut Random, least: u64) -> u64 {
    loop {
        let blocks = match r.below(4) {
            0 => r.from_to(1_025, 1_040),
            1 => r.from_to(1_024, 1 << 24),
            _ => volume(r),
        };
        if blocks >= least {
            return blocks;
        }
    }
}

/// The block numbers at which some rule turns in a volume of `blocks`.
pub fn turns(blocks: u64) -> Vec<u64> {
    let near = |n: u64| [n.wrapping_sub(1), n, n.wrapping_add(1)];
    let fronts = [0, 32, 96, 256, 512].into_iter().flat_map(near);
    let backs = [512, 257, 96, 32, 0].into_iter();
    fronts.chain(backs.flat_map(|back| near(blocks.wrapping_sub(back)))).collect()
}

/// A block number for a volume, often one at a turn.
pub fn block(r: &mut Random, blocks: u64) -> u64 {
    match r.below(6) {
        0..=2 => r.pick(&turns(blocks)),
        3 => good_block(r, blocks),
        4 => r.below(blocks.max(1)),
        _ => any(r),
    }
}

/// A block that isn't reserved, where the volume has one.
pub fn good_block(r: &mut Random, blocks: u64) -> u64 {
    match blocks.checked_sub(513) {
        Some(last) if last >= 512 => match r.below(8) {
            0 => 512,
            1 => last,
            2 => r.from_to(512, last.min(700)),
            _ => r.from_to(512, last),
        },
        _ => 512,
    }
}

pub fn bank_block(r: &mut Random, blocks: u64) -> u64 {
    let offset = match r.below(4) {
        0 => 0,
        1 => 63,
        _ => r.below(64),
    };
    if r.once_in(2) { 32 + offset } else { blocks.wrapping_sub(96).wrapping_add(offset) }
}

/// An object or job number that passes.
pub fn good_owner(r: &mut Random) -> u64 {
    match r.below(6) {
        0 => r.pick(&[1, MAX_ID - 1]),
        1..=3 => r.from_to(1, 50),
        _ => r.from_to(1, MAX_ID - 1),
    }
}

pub fn generation(r: &mut Random) -> u64 {
    match r.below(4) {
        0 => any(r).max(1),
        _ => r.from_to(1, 9),
    }
}

pub fn good_seconds(r: &mut Random) -> i64 {
    match r.below(4) {
        0 => r.pick(&[EARLIEST, LATEST, -1, 0]),
        _ => EARLIEST + r.below((LATEST - EARLIEST) as u64 + 1) as i64,
    }
}

pub fn good_nanoseconds(r: &mut Random) -> u32 {
    match r.below(4) {
        0 => r.pick(&[0, 999_999_999]),
        _ => r.below(1_000_000_000) as u32,
    }
}

/// How far the last allocation group is from the first.
pub fn group_count(blocks: u64) -> u64 {
    blocks.div_ceil(16_384)
}

/// A number that some field of a record, page or root turns at.
pub fn field(r: &mut Random, blocks: u64, generation: u64) -> u64 {
    match r.below(6) {
        0 => block(r, blocks),
        1 => generation.wrapping_add(r.below(3)).wrapping_sub(1),
        2 => group_count(blocks).wrapping_add(r.below(3)).wrapping_sub(1),
        3 => r.below(10),
        _ => any(r),
    }
}
