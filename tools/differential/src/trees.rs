//! Trees of every kind and of one to eight levels, made with the reference's encoders, and the keys that are sought in them.

use crate::call::{Call, LONGEST_IMAGE};
use crate::numbers;
use crate::oracle::tree;
use crate::pages::{self, Case};
use crate::random::Random;
use crate::records::{self, Place, Record};
use reference::format::TreeRef;
use std::ops::Range;

mod damage;

/// How many pages a string holds.
const MOST_PAGES: usize = 19;
/// How many searches one tree gives.
const SEARCHES: usize = 24;
const BLOCK: u64 = 4_096;

/// The places of a root's numbers in call 60.
pub const GENERATION: usize = 2;
pub const BLOCKS: usize = 3;

/// Where a root has the reference to a tree, its block and then its generation.
pub fn reference_at(kind: u64) -> usize {
    [4, 6, 8, 13][kind as usize - 1]
}

/// A page and the block that it is laid at.
#[derive(Clone)]
pub struct Laid {
    pub at: u64,
    pub case: Case,
}

/// A call 60 in parts.
#[derive(Clone)]
pub struct Search {
    pub count: u64,
    pub kind: u64,
    pub root: [u64; 16],
    pub image: u64,
    pub uuid: [u8; 16],
    pub label: Vec<u8>,
    pub key: Vec<u8>,
    /// The tree's root page is the first.
    pub pages: Vec<Laid>,
}

/// A page that the key leads to, and the record through which it leaves.
#[derive(Clone, Copy)]
pub struct Step {
    pub page: usize,
    pub record: Option<usize>,
}

impl Search {
    pub fn call(&self) -> Call {
        let mut numbers = vec![self.count, self.kind];
        numbers.extend(self.root);
        numbers.push(self.image);
        let mut pages = Vec::with_capacity(MOST_PAGES * 4_104);
        for laid in self.pages.iter().take(MOST_PAGES) {
            pages.extend_from_slice(&laid.at.to_le_bytes());
            pages.extend_from_slice(&laid.case.page);
        }
        Call { no: 60, numbers, texts: vec![self.uuid.to_vec(), self.label.clone(), self.key.clone(), pages] }
    }

    pub fn reference(&self) -> TreeRef {
        let at = reference_at(self.kind);
        tree(self.root[at], self.root[at + 1])
    }

    pub fn set_reference(&mut self, to: TreeRef) {
        let at = reference_at(self.kind);
        (self.root[at], self.root[at + 1]) = (to.block, to.generation);
    }

    /// The pages that the key leads through, from the root page on.
    pub fn path(&self) -> Vec<Step> {
        let mut steps = Vec::new();
        let mut block = self.reference().block;
        while steps.len() < 8 {
            let Some(page) = self.pages.iter().position(|laid| laid.case.block == block) else {
                break;
            };
            let case = &self.pages[page].case;
            let below = case.records.partition_point(|record| record.0 <= self.key);
            let record = below.checked_sub(1).filter(|_| !case.place.leaf);
            steps.push(Step { page, record });
            let Some(child) = record.and_then(|record| child(&case.records[record])) else {
                break;
            };
            block = child.block;
        }
        steps
    }

    /// The image ends behind the last page that can lie in it.
    pub fn fit_image(&mut self) {
        let last = self.pages.iter().map(|laid| laid.at).filter(|at| *at < LONGEST_IMAGE / BLOCK).max();
        self.image = last.map_or(0, |last| (last + 1) * BLOCK);
    }
}

/// The reference of an internal record.
pub fn child(record: &Record) -> Option<TreeRef> {
    let number = |at: usize| record.1.get(at..at + 8).and_then(|part| part.try_into().ok()).map(u64::from_le_bytes);
    Some(tree(number(0)?, number(8)?))
}

pub fn child_value(to: TreeRef) -> Vec<u8> {
    [to.block.to_le_bytes(), to.generation.to_le_bytes()].concat()
}

/// A tree as a search without a key, and the records that its leaves are made of, some of which no leaf has.
pub struct Tree {
    pub search: Search,
    pub pool: Vec<Record>,
}

/// A tree while it grows.
struct Growth<'a> {
    r: &'a mut Random,
    kind: u64,
    blocks: u64,
    uuid: [u8; 16],
    oldest: u64,
    pool: Vec<Record>,
    /// Blocks that no page has, the next one last.
    free: Vec<u64>,
    /// How many blocks far behind them are given.
    far: u64,
    /// How many pages may still come beside a way down.
    spare: usize,
    pages: Vec<Laid>,
}

impl Growth<'_> {
    /// A block that is free, but beyond every image.
    fn far_block(&mut self) -> u64 {
        self.far += 1;
        match self.kind {
            4 => self.blocks - 33 - (self.far - 1) % 64,
            _ => self.blocks.wrapping_sub(512 + self.far),
        }
    }

    fn block(&mut self) -> u64 {
        self.free.pop().unwrap_or_else(|| self.far_block())
    }

    /// A reference to no page: its block is all zeros or far away.
    fn missing(&mut self, newest: u64) -> TreeRef {
        let near = !is_roomy(self.kind, self.blocks) || self.free.len() > MOST_PAGES + 4 && self.r.once_in(2);
        let block = if near { self.block() } else { self.far_block() };
        tree(block, self.generation(newest))
    }

    fn generation(&mut self, newest: u64) -> u64 {
        match self.r.below(3) {
            0 => newest,
            1 => self.oldest,
            _ => self.r.from_to(self.oldest, newest),
        }
    }

    fn fill_pool(&mut self, wanted: usize) {
        let place = Place { kind: self.kind, leaf: true, blocks: self.blocks, generation: self.oldest };
        for _ in 0..3 * wanted {
            if self.pool.len() < wanted {
                let record = records::good(self.r, place);
                self.pool.push(record);
            }
        }
        self.pool.sort();
        self.pool.dedup_by(|a, b| a.0 == b.0);
    }

    /// A page of a level for a part of the pool, at least as many records as its level and one; the root page comes first.
    fn grow(&mut self, level: u8, part: Range<usize>, newest: u64) -> TreeRef {
        let reference = tree(self.block(), self.generation(newest));
        let at = self.pages.len();
        let case = empty_page(self.kind, level, reference, self.blocks, self.uuid);
        self.pages.push(Laid { at: reference.block, case });
        let records = match level {
            0 => self.leaf(part),
            _ => self.children(level, part, reference.generation),
        };
        let total = match self.kind {
            1 if self.r.once_in(2) => self.r.below(self.blocks),
            _ => 0,
        };
        let case = &mut self.pages[at].case;
        case.records = records;
        settle(case, total);
        reference
    }

    fn leaf(&mut self, part: Range<usize>) -> Vec<Record> {
        let density = self.r.pick(&[0, 2, 3, 4, 4, 4]);
        let mut records = Vec::new();
        for record in &self.pool[part] {
            if self.r.below(4) < density {
                records.push(record.clone());
            }
        }
        pages::fitting(&mut records);
        records
    }

    /// Where the parts of one or two children begin, or of as many as there are records.
    fn split(&mut self, from: usize, len: usize) -> Vec<usize> {
        match self.r.below(8) {
            0 => (from..from + len).collect(),
            1..=4 if len > 1 => vec![from, from + self.r.size(1, len - 1)],
            _ => (0..len.min(1)).map(|at| from + at).collect(),
        }
    }

    /// Where the children's parts begin, and which of them goes all the way down.
    fn starts(&mut self, level: u8, part: &Range<usize>) -> (Vec<usize>, usize) {
        let spare = part.len() - usize::from(level);
        let before = self.r.size(0, spare);
        let behind = match before {
            0 => self.r.size(1, spare),
            _ if self.r.once_in(2) => 0,
            _ => self.r.size(0, spare - before),
        };
        let mut starts = self.split(part.start, before);
        let main = starts.len();
        starts.push(part.start + before);
        starts.extend(self.split(part.end - behind, behind));
        self.fitted(starts, main)
    }

    /// As many of the children as a page holds, two of them at least.
    fn fitted(&mut self, mut starts: Vec<usize>, mut main: usize) -> (Vec<usize>, usize) {
        let size = |start: &usize| 20 + self.pool[*start].0.len();
        while starts.len() > 2 && starts.iter().map(size).sum::<usize>() > 4_016 {
            let out = if main + 1 < starts.len() { starts.len() - 1 } else { 0 };
            starts.remove(out);
            main -= usize::from(out < main);
        }
        (starts, main)
    }

    fn children(&mut self, level: u8, part: Range<usize>, generation: u64) -> Vec<Record> {
        let (starts, main) = self.starts(level, &part);
        let mut records = Vec::new();
        for (place, &start) in starts.iter().enumerate() {
            let part = start..starts.get(place + 1).copied().unwrap_or(part.end);
            let pages = usize::from(level);
            let beside = part.len() >= pages && self.spare >= pages && self.r.once_in(2);
            let reference = if place == main || beside {
                self.spare -= if place == main { 0 } else { pages };
                self.grow(level - 1, part, generation)
            } else {
                self.missing(generation)
            };
            records.push((self.pool[start].0.clone(), child_value(reference)));
        }
        records
    }
}

/// Whether a volume has blocks for pages far behind those in an image.
fn is_roomy(kind: u64, blocks: u64) -> bool {
    kind == 4 || blocks >= 1_600
}

pub fn empty_page(kind: u64, level: u8, reference: TreeRef, blocks: u64, uuid: [u8; 16]) -> Case {
    let generation = reference.generation;
    Case {
        place: Place { kind, leaf: level == 0, blocks, generation },
        level,
        records: Vec::new(),
        block: reference.block,
        generation,
        kind,
        parent: generation,
        expected: 255,
        blocks,
        uuid,
        page: vec![0; 4096],
    }
}

/// Encodes a page, a leaf with as many of its records as pass; an internal page that doesn't pass is laid as it is.
pub fn settle(case: &mut Case, total: u64) {
    while !case.encode(if case.level == 0 { 0 } else { total }) {
        if case.level > 0 || case.records.pop().is_none() {
            case.lay();
            break;
        }
    }
}

/// A count of blocks for a tree of so many levels.
fn volume(r: &mut Random, kind: u64, levels: usize) -> u64 {
    if kind == 2 && levels > 1 {
        return r.pick(&[1 << 20, 1 << 24, (1 << 32) + 1, 1 << 50, u64::MAX - 16_383, u64::MAX - 20_000]);
    }
    let small = if kind == 4 { 1_044 } else { 1_026 + 4 * levels as u64 };
    match r.below(6) {
        0 => r.from_to(small, small + 10),
        1 if levels == 1 => r.from_to(1_025, 1_027),
        1 => 2_048,
        2 => r.from_to(1_152, 40_000),
        3 => r.pick(&[1 << 32, 1 << 50, (1 << 52) + 128, (1 << 53) + 1_000, u64::MAX - 16_383, u64::MAX]),
        _ => numbers::good_volume(r, 1_152),
    }
}

/// The blocks of a tree's pages within an image, the first one last.
fn blocks_for(r: &mut Random, kind: u64, blocks: u64) -> Vec<u64> {
    let mut free: Vec<u64> = match kind {
        4 => (32..96).collect(),
        _ => (512..640.min(blocks - 512)).collect(),
    };
    match r.below(6) {
        0 => (1..free.len()).for_each(|at| free.swap(at, r.size(0, at))),
        1 => {}
        2 if free.len() >= 64 => {
            free.drain(..r.size(0, free.len() / 2));
            free.reverse();
        }
        // The lowest first: the image is small.
        _ => free.reverse(),
    }
    free
}

/// A root's numbers: made up, or as a real one has them.
fn made_up_root(r: &mut Random, generation: u64, blocks: u64) -> [u64; 16] {
    let mut root = [0; 16];
    match r.below(3) {
        0 => {}
        1 => root.iter_mut().for_each(|number| *number = numbers::any(r)),
        _ => {
            let real = [9, 100, 8, 32, generation, 0];
            root[4..10].iter_mut().for_each(|number| *number = r.from_to(512, 700));
            root[10..].copy_from_slice(&real);
        }
    }
    (root[0], root[1]) = (r.below(2), r.below(256));
    (root[GENERATION], root[BLOCKS]) = (generation, blocks);
    root
}

/// How many records a tree is made of: a few more than it has levels, at times many, as far as there are blocks for children.
fn wanted(r: &mut Random, kind: u64, levels: usize, roomy: bool) -> usize {
    let most = match r.below(4) {
        _ if levels == 1 => return pages::how_many(r),
        0 if kind == 4 => r.pick(&[10, 30]),
        0 if roomy => r.pick(&[10, 30, 150]),
        _ => 3,
    };
    levels + r.size(0, most)
}

/// A tree that passes, but for pages that aren't there.
pub fn any(r: &mut Random) -> Tree {
    // A workspace tree's image is the smallest.
    let kind = r.pick(&[1, 2, 3, 4, 4]);
    let levels = r.pick(&[1, 1, 2, 2, 2, 3, 3, 4, 5, 6, 7, 8]);
    let blocks = volume(r, kind, levels);
    let oldest = numbers::generation(r);
    let newest = match r.below(3) {
        0 => oldest,
        1 => oldest.saturating_add(r.below(9)),
        _ => r.from_to(oldest, u64::MAX),
    };
    let wanted = wanted(r, kind, levels, is_roomy(kind, blocks));
    let spare = match is_roomy(kind, blocks) {
        true => r.pick(&[0, 0, 1, 2, 4, MOST_PAGES]).min(MOST_PAGES - levels),
        false => 0,
    };
    let uuid = pages::uuid(r);
    let free = blocks_for(r, kind, blocks);
    let mut growth = Growth { r, kind, blocks, uuid, oldest, pool: Vec::new(), free, far: 0, spare, pages: Vec::new() };
    growth.fill_pool(wanted);
    let levels = levels.min(growth.pool.len()).max(1);
    let reference = growth.grow(levels as u8 - 1, 0..growth.pool.len(), newest);
    let Growth { r, pool, pages, .. } = growth;
    let generation = match r.below(3) {
        0 => reference.generation,
        1 => newest,
        _ => newest.saturating_add(r.below(9)),
    };
    let label = if r.once_in(2) { vec![0; 255] } else { r.bytes(255) };
    let root = made_up_root(r, generation, blocks);
    let mut search = Search { count: 0, kind, root, image: 0, uuid, label, key: Vec::new(), pages };
    search.set_reference(reference);
    search.fit_image();
    Tree { search, pool }
}

fn counted(r: &mut Random) -> u64 {
    match r.below(6) {
        0 => u64::MAX - r.below(10),
        1 => numbers::any(r),
        2 => r.below(20),
        _ => 0,
    }
}

/// A key of a leaf, of any page, or one that a leaf may lack.
fn known_key(r: &mut Random, tree: &Tree) -> Vec<u8> {
    let pages = &tree.search.pages;
    let leaves: Vec<usize> = (0..pages.len()).filter(|page| pages[*page].case.place.leaf).collect();
    let records = match (r.below(4), leaves.len()) {
        (0 | 1, 1..) => &pages[r.pick(&leaves)].case.records,
        (2, 1..) => &pages[r.size(0, pages.len() - 1)].case.records,
        _ => &tree.pool,
    };
    match records.len() {
        0 => Vec::new(),
        len => records[r.size(0, len - 1)].0.clone(),
    }
}

/// A sought key: one that is there, one beside it, or any.
pub fn sought(r: &mut Random, tree: &Tree) -> Vec<u8> {
    let mut key = match r.below(12) {
        0 => {
            let place = Place { kind: tree.search.kind, leaf: true, blocks: tree.search.root[BLOCKS], generation: 9 };
            records::good(r, place).0
        }
        1 => {
            let byte = r.pick(&[0, 1, 0x80, 0xFF]);
            vec![byte; r.pick(&[0, 1, 8, 9, 17, 30])]
        }
        2 => {
            let len = r.size(0, 20);
            r.bytes(len)
        }
        _ => known_key(r, tree),
    };
    match r.below(16) {
        0 => key.push(r.pick(&[0, 1, 0xFF])),
        1 => drop(key.pop()),
        2 | 3 => {
            if let Some(last) = key.last_mut() {
                *last = last.wrapping_add(r.pick(&[1, 255]));
            }
        }
        4 => {
            if let Some(first) = key.first_mut() {
                *first = first.wrapping_add(r.pick(&[1, 255]));
            }
        }
        5 if r.once_in(4) => key.resize(r.pick(&[774, 775, 1_023, 1_024, 1_025, 5_000]), 0),
        5 if r.once_in(200) => key.resize(r.pick(&[65_535, 65_536, 80_000]), 0),
        _ => {}
    }
    key
}

/// Leaves out some of the pages that the key doesn't lead to.
fn thin(r: &mut Random, search: &mut Search) {
    let path = search.path();
    let mut place = 0;
    search.pages.retain(|_| {
        place += 1;
        path.iter().any(|step| step.page == place - 1) || r.once_in(6)
    });
}

/// The searches of one tree: keys that are there and others, most of them in a damaged copy.
pub fn searches(r: &mut Random, each: &mut dyn FnMut(Call)) {
    let tree = any(r);
    for _ in 0..SEARCHES {
        let mut search = tree.search.clone();
        search.key = sought(r, &tree);
        search.count = counted(r);
        if r.once_in(2) {
            thin(r, &mut search);
        }
        for _ in 0..r.pick(&[0, 0, 1, 1, 1, 2]) {
            damage::any(r, &mut search, &tree.pool);
        }
        each(search.call());
    }
}
