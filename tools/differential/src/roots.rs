//! Roots, made with the reference's own encoder, and damaged copies, resealed to reach deep checks.

use crate::call::Call;
use crate::numbers;
use crate::oracle::tree;
use crate::pages::uuid;
use crate::random::Random;
use crate::records::put;
use crate::texts;
use reference::format::{Label, Root, open};

/// A root block and the arguments it is read with.
#[derive(Clone)]
pub struct Case {
    pub slot: u64,
    pub blocks: u64,
    pub block: Vec<u8>,
}

impl Case {
    pub fn seal(&mut self) {
        if let Ok(block) = (&mut self.block[..]).try_into() {
            open::seal(block, 4092);
        }
    }

    pub fn decode_call(self) -> Call {
        Call { no: 34, numbers: vec![self.slot, self.blocks], texts: vec![self.block] }
    }
}

fn label(r: &mut Random) -> Option<Label> {
    let len = match r.below(6) {
        0 | 1 => return None,
        2 => r.pick(&[1, 2, 3, 254, 255]),
        3 => r.size(1, 255),
        _ => r.size(1, 20),
    };
    Label::new(&texts::label(r, len)).ok()
}

/// A root that passes, in a volume of at least 1,027 blocks.
pub fn good_root(r: &mut Random, blocks: u64) -> Root {
    let generation = numbers::generation(r);
    let mut distinct: Vec<u64> = Vec::new();
    while distinct.len() < 3 {
        let block = numbers::good_block(r, blocks);
        if !distinct.contains(&block) {
            distinct.push(block);
        }
    }
    let mut part = |block| tree(block, r.from_to(1, generation));
    let (catalog, allocation, cleanup) = (part(distinct[0]), part(distinct[1]), part(distinct[2]));
    let workspace = part(0).generation;
    let bank = if r.once_in(2) { 32 } else { blocks - 96 };
    Root {
        label: label(r),
        uuid: uuid(r),
        generation,
        blocks,
        catalog,
        allocation,
        cleanup,
        next_object: r.from_to(2, numbers::MAX_ID),
        free_blocks: r.from_to(0, blocks - 1_027),
        next_job: r.from_to(1, numbers::MAX_ID),
        workspace: tree(bank, workspace),
        workspace_cursor: r.below(numbers::group_count(blocks)),
    }
}

pub fn encoded(root: &Root, slot: u64) -> Case {
    let mut block = [0; 4096];
    root.encode(slot, root.blocks, &mut block).expect("a good root is encoded");
    Case { slot, blocks: root.blocks, block: block.to_vec() }
}

fn slot(r: &mut Random, blocks: u64) -> u64 {
    if r.once_in(2) { 256 } else { blocks - 257 }
}

/// A root block that `Root::decode` accepts.
pub fn good(r: &mut Random) -> Case {
    let blocks = numbers::good_volume(r, 1_027);
    let root = good_root(r, blocks);
    let slot = slot(r, blocks);
    encoded(&root, slot)
}

#[rustfmt::skip]
const FIELDS: &[(usize, usize)] = &[
    (0, 1), (7, 1), (8, 4), (12, 4), (16, 4), (20, 4), (24, 1), (40, 8), (48, 8), (56, 8), (64, 8),
    (72, 8), (80, 8), (88, 8), (96, 8), (104, 8), (112, 8), (120, 8), (128, 8), (136, 4), (140, 4),
    (144, 8), (152, 8), (160, 8), (168, 8), (176, 8), (184, 2), (186, 1), (441, 1), (4091, 1),
];
/// The fields that `validate_root_fields` tests.
#[rustfmt::skip]
const DEEP: &[(usize, usize)] = &[
    (48, 8), (64, 8), (72, 8), (80, 8), (88, 8), (96, 8), (104, 8), (112, 8), (120, 8), (152, 8),
    (160, 8), (168, 8), (176, 8),
];

fn number_at(block: &[u8], offset: usize) -> u64 {
    let bytes = block.get(offset..offset + 8).and_then(|bytes| bytes.try_into().ok());
    bytes.map_or(0, u64::from_le_bytes)
}

fn spoil_label(r: &mut Random, case: &mut Case) {
    if case.block.len() < 4096 {
        return;
    }
    let mut text = match r.below(4) {
        0 => r.pick(&[&b"."[..], b"..", b"-", b"...", b"a/b", b"\x1F", b"\x7F", b"\xC2\x9F"]).to_vec(),
        1 => texts::any(r),
        _ => {
            let len = r.size(1, 255);
            texts::label(r, len)
        }
    };
    if r.once_in(2) {
        texts::spoil(r, &mut text);
    }
    text.truncate(300);
    case.block[184..4092].fill(0);
    put(&mut case.block, (184, 2), text.len() as u64, false);
    case.block[186..186 + text.len()].copy_from_slice(&text);
    case.seal();
}

fn spoil(r: &mut Random, case: &mut Case) {
    let generation = number_at(&case.block, 48);
    let number = numbers::field(r, case.blocks, generation);
    match r.below(16) {
        0 => case.slot = numbers::block(r, case.blocks),
        1 => case.blocks = numbers::volume(r),
        2 => {
            let blocks = case.blocks;
            case.blocks = blocks.wrapping_add(r.below(3)).wrapping_sub(1);
            if case.slot != 256 {
                case.slot = case.blocks.wrapping_sub(257);
            }
        }
        3..=5 => {
            put(&mut case.block, r.pick(FIELDS), number, false);
            case.seal();
        }
        6..=8 => {
            put(&mut case.block, r.pick(DEEP), number, false);
            case.seal();
        }
        9 => {
            let copied = number_at(&case.block, r.pick(&[64, 80, 96]));
            put(&mut case.block, (r.pick(&[64, 80, 96]), 8), copied, false);
            case.seal();
        }
        10 | 11 => spoil_label(r, case),
        12 => {
            let at = r.size(0, case.block.len().saturating_sub(1));
            put(&mut case.block, (at, 1), r.next(), false);
            case.seal();
        }
        13 => {
            if case.block.len() > 40 {
                case.block[24..40].fill(0);
            }
            case.seal();
        }
        14 => {
            let at = r.size(0, case.block.len().saturating_sub(1));
            put(&mut case.block, (at, 1), r.next(), false);
        }
        _ => {
            let len = r.pick(&[0, 1, 4_095, 4_096, 4_097, 8_192]);
            case.block.resize(len, 0);
        }
    }
}

/// A good root or a damaged one.
pub fn any(r: &mut Random) -> Case {
    let mut case = good(r);
    for _ in 0..r.pick(&[0, 1, 1, 1, 2, 3]) {
        spoil(r, &mut case);
    }
    case
}

/// Two roots of one volume, often with something in common.
pub fn pair(r: &mut Random) -> (Case, Case) {
    let blocks = numbers::good_volume(r, 1_027);
    let first = good_root(r, blocks);
    let mut second = match r.below(3) {
        0 => first,
        _ => Root { uuid: first.uuid, ..good_root(r, blocks) },
    };
    match r.below(6) {
        0 => second.uuid = uuid(r),
        1 => second.next_job = r.from_to(1, numbers::MAX_ID),
        2 => second.label = label(r),
        _ => {}
    }
    let mut cases = (encoded(&first, 256), encoded(&second, blocks - 257));
    if r.once_in(4) {
        spoil(r, &mut cases.0);
    }
    if r.once_in(4) {
        spoil(r, &mut cases.1);
    }
    if r.once_in(2) {
        cases = (cases.1, cases.0);
    }
    cases
}
