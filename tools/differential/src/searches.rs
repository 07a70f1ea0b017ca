//! The searches that every comparison makes whatever its seed, by hand: each end at each level, bounds at their borders, the
//! root's fields, images that end within a page, counts near their largest value.

use crate::call::{Call, LONGEST_IMAGE};
use crate::numbers::MAX_ID;
use crate::oracle::tree as reference;
use crate::records::{Record, catalog_key, put};
use crate::trees::{BLOCKS, GENERATION, Laid, Search, child_value, empty_page};
use reference::format::TreeRef;

pub mod sample;

type Each<'a> = &'a mut dyn FnMut(Call);

const VOLUME: u64 = 2_048;
const ID: [u8; 16] = [1, 2, 3, 4, 5, 6, 7, 8, 9, 10, 11, 12, 13, 14, 15, 16];
const NEWEST: u64 = 20;
/// The block of the root page, a bank block; the page below it has the next one, and so on.
const FIRST: u64 = 32;
/// The keys of the leaf.
const LOW: u64 = 600;
const HIGH: u64 = 604;

pub fn all(each: Each) {
    empty(each);
    found(each);
    none_below_first(each);
    bounds(each);
    inherited(each);
    beyond(each);
    wrapped(each);
    parents(each);
    kinds(each);
    counts(each);
    roots(each);
    keys(each);
    wide(each);
    images(each);
    strings(each);
    sample::all(each);
}

fn key(number: u64) -> Vec<u8> {
    number.to_be_bytes().to_vec()
}

/// A run of one block.
fn run(first: u64) -> Record {
    (key(first), vec![1, 0, 0, 0])
}

/// A page that passes.
fn page(kind: u64, reference: TreeRef, level: u8, records: Vec<Record>) -> Laid {
    let mut case = empty_page(kind, level, reference, VOLUME, ID);
    case.records = records;
    assert!(case.encode(0), "a page by hand passes");
    Laid { at: reference.block, case }
}

fn search(kind: u64, pages: Vec<Laid>) -> Search {
    let mut root = [0; 16];
    (root[GENERATION], root[BLOCKS]) = (NEWEST, VOLUME);
    let first = pages.first().map_or(reference(FIRST, NEWEST), |laid| reference(laid.case.block, laid.case.generation));
    let (label, key) = (vec![0; 255], key(LOW));
    let mut search = Search { count: 0, kind, root, image: 0, uuid: ID, label, key, pages };
    search.set_reference(first);
    search.fit_image();
    search
}

/// The reference to a chain's page of a level.
fn chained(top: u8, level: u8) -> TreeRef {
    let below = u64::from(top - level);
    reference(FIRST + below, NEWEST - below)
}

/// Where the way down leaves the pages of a chain: through the first of their two records, or through the last.
#[derive(Clone, Copy, PartialEq)]
enum Side {
    First,
    Last,
}

/// The records of a chain's page. The key of the record that leads down is above that of the level over it; where it is the
/// first, the second one's is below that of the level over it.
fn chain_records(top: u8, level: u8, side: Side) -> Vec<Record> {
    if level == 0 {
        return vec![run(LOW), run(HIGH)];
    }
    let far = u64::from(level);
    let (below, beside) = (chained(top, level - 1), reference(90, 1));
    let (low, high) = match side {
        Side::First => (LOW - far, 700 + far),
        Side::Last => (LOW - far - 1, LOW - far),
    };
    let children = if side == Side::First { [below, beside] } else { [beside, below] };
    vec![(key(low), child_value(children[0])), (key(high), child_value(children[1]))]
}

/// A workspace tree of one page a level, from `top` down to `bottom`.
fn chain(top: u8, bottom: u8, side: Side) -> Search {
    let levels = (bottom..=top).rev();
    let pages = levels.map(|level| page(4, chained(top, level), level, chain_records(top, level, side)));
    search(4, pages.collect())
}

fn seek(each: Each, search: &Search, number: u64) {
    each(Search { key: key(number), ..search.clone() }.call());
}

/// No page at all, an image of no bytes, and one of zeros; an empty leaf.
fn empty(each: Each) {
    let nothing = search(4, Vec::new());
    each(Search { key: Vec::new(), ..nothing.clone() }.call());
    for image in [1, 33 * 4_096 - 1, 33 * 4_096] {
        each(Search { image, ..nothing.clone() }.call());
    }
    let leaf = search(4, vec![page(4, chained(0, 0), 0, Vec::new())]);
    each(leaf.call());
}

/// In trees of one, two and all levels (three has the sample): the keys of the leaf, and others that it hasn't.
fn found(each: Each) {
    for levels in 1..=2 {
        seek(each, &chain(levels - 1, 0, Side::First), LOW);
    }
    let leaf = chain(0, 0, Side::First);
    [LOW - 1, LOW + 1, HIGH, HIGH + 1].iter().for_each(|number| seek(each, &leaf, *number));
    // Eight pages, and as many others as a string still holds.
    let mut eight = chain(7, 0, Side::First);
    let page = eight.pages[7].clone();
    eight.pages.extend((0..11).map(|at| Laid { at: 640 + at, ..page.clone() }));
    seek(each, &eight, HIGH);
}

/// At each level a key below the first one of the root page; then below that of a page whose lower bound isn't above it.
fn none_below_first(each: Each) {
    for level in 1..=7 {
        seek(each, &chain(level, level, Side::First), LOW - u64::from(level) - 1);
    }
    seek(each, &chain(7, 6, Side::First), LOW - 7);
}

/// Moves the first or the last key of a page.
fn moved(search: &mut Search, page: usize, record: usize, number: u64) {
    let case = &mut search.pages[page].case;
    case.records[record].0 = key(number);
    case.lay();
}

/// At each level a first key one below the lower bound, and a last key at the upper one; at some both just within.
fn bounds(each: Each) {
    for level in 0..7 {
        let tree = chain(level + 1, level, Side::First);
        let (low, high) = (LOW - u64::from(level) - 1, 701 + u64::from(level));
        for (record, number) in [(0, low - 1), (1, high)] {
            let mut tree = tree.clone();
            moved(&mut tree, 1, record, number);
            seek(each, &tree, low);
        }
        if matches!(level, 0 | 1 | 6) {
            let mut within = tree;
            moved(&mut within, 1, 0, low);
            moved(&mut within, 1, 1, high - 1);
            seek(each, &within, low);
        }
    }
    // Both bounds are broken.
    let mut both = chain(1, 0, Side::First);
    moved(&mut both, 1, 0, LOW - 2);
    moved(&mut both, 1, 1, 702);
    seek(each, &both, LOW);
    // Two levels down, within the bounds from above but not within the parent's.
    for (record, number) in [(0, LOW - 2), (1, 701)] {
        let mut tree = chain(2, 0, Side::First);
        moved(&mut tree, 2, record, number);
        seek(each, &tree, LOW);
    }
}

/// Below a last record the upper bound is that from above: at it, and one below it; over a root page's last record there is
/// none.
fn inherited(each: Each) {
    const BOUND: u64 = 700;
    for level in 0..6 {
        let mut tree = chain(level + 2, level, Side::Last);
        // The topmost page is left through its first record instead.
        let below = child_value(chained(level + 2, level + 1));
        let lowest = LOW - 20 - u64::from(level) - 2;
        let case = &mut tree.pages[0].case;
        case.records = vec![(key(lowest), below), (key(BOUND), child_value(reference(90, 1)))];
        case.lay();
        moved(&mut tree, 2, 1, BOUND);
        seek(each, &tree, LOW);
        if level == 0 {
            moved(&mut tree, 2, 1, BOUND - 1);
            seek(each, &tree, LOW);
        }
    }
    let mut free = chain(1, 0, Side::Last);
    moved(&mut free, 1, 1, VOLUME - 513);
    seek(each, &free, VOLUME - 513);
}

/// At each level a child whose block is cut by a byte, and one that is all zeros.
fn beyond(each: Each) {
    for level in 0..7 {
        let mut tree = chain(level + 1, level + 1, Side::First);
        for image in [34 * 4_096 - 1, 34 * 4_096] {
            tree.image = image;
            each(tree.call());
        }
    }
    each(Search { image: 32 * 4_096, ..search(4, Vec::new()) }.call());
    each(Search { image: 33 * 4_096 - 1, ..chain(0, 0, Side::First) }.call());
}

/// Blocks at which 64 bits wrap: the page is there for whoever multiplies without care, with that number in it.
fn wrapped(each: Each) {
    let far = 1 << 52;
    for block in [far - 1, far, u64::MAX - 1, u64::MAX] {
        let mut nothing = Search { image: 33 * 4_096, ..search(4, Vec::new()) };
        nothing.set_reference(reference(block, NEWEST));
        each(nothing.call());
    }
    for block in [far + FIRST, 15 * far + FIRST] {
        let mut leaf = chain(0, 0, Side::First);
        leaf.root[BLOCKS] = far + 128;
        leaf.pages[0].case.block = block;
        leaf.pages[0].case.lay();
        leaf.set_reference(reference(block, NEWEST));
        each(leaf.call());
    }
    let mut two = chain(1, 0, Side::First);
    two.root[BLOCKS] = far + 128;
    let below = reference(far + 33, NEWEST - 1);
    two.pages[1].case.block = below.block;
    two.pages[1].case.lay();
    two.pages[0].case.records[0].1 = child_value(below);
    two.pages[0].case.lay();
    each(two.call());
}

/// What a page must have in common with its parent: level, generation, UUID, kind.
fn parents(each: Each) {
    // The page itself as its child, and a level left out.
    let mut own = chain(1, 1, Side::First);
    own.pages[0].case.records[0].1 = child_value(own.reference());
    own.pages[0].case.lay();
    each(own.call());
    let mut leapt = chain(2, 0, Side::First);
    leapt.pages[0].case.records[0].1 = child_value(chained(2, 0));
    leapt.pages[0].case.lay();
    leapt.pages.remove(1);
    each(leapt.call());
    // A root page of a level that none has.
    for level in [8, 255] {
        let mut tree = chain(7, 7, Side::First);
        put(&mut tree.pages[0].case.page, (14, 1), level, false);
        tree.pages[0].case.seal();
        each(tree.call());
    }
    let two = chain(1, 0, Side::First);
    // A child as new as its parent, and newer.
    for generation in [NEWEST, NEWEST + 1] {
        let mut tree = two.clone();
        tree.pages[1].case.generation = generation;
        tree.pages[1].case.lay();
        tree.pages[0].case.records[0].1 = child_value(reference(FIRST + 1, generation));
        tree.pages[0].case.lay();
        each(tree.call());
    }
    for (at, byte) in [(13, 1), (24, 1), (55, 0)] {
        let mut tree = two.clone();
        put(&mut tree.pages[1].case.page, (at, 1), byte, false);
        tree.pages[1].case.seal();
        each(tree.call());
    }
}

/// Trees of the other kinds: an inode, a group of allocation bits, and an orphan marker, whose value is empty.
fn kinds(each: Each) {
    let mut inode = vec![0; 128];
    (inode[0], inode[8]) = (1, 1);
    let bits = {
        let mut bits = vec![0xFF; 2_048];
        bits[100] = 0;
        bits
    };
    let marker = |object: u8| vec![3, 0, 0, 0, 0, 0, 0, 0, object];
    let records = [(catalog_key(1, 1, b""), inode), (vec![0; 8], bits), (marker(2), Vec::new())];
    let outside = [catalog_key(9, 1, b""), vec![0, 0, 0, 0, 0, 0, 0, 1], marker(9)];
    for (kind, (record, beside)) in (1..).zip(records.into_iter().zip(outside)) {
        let sought = record.0.clone();
        let tree = search(kind, vec![page(kind, reference(512, NEWEST), 0, vec![record])]);
        each(Search { key: sought.clone(), ..tree.clone() }.call());
        each(Search { key: beside, ..tree.clone() }.call());
        // The same page as the tree of another kind.
        let mut other = Search { kind: kind % 3 + 1, key: sought, ..tree };
        other.set_reference(reference(512, NEWEST));
        each(other.call());
    }
    // Two markers, the second of which is sought, one level down.
    let leaf = page(3, reference(513, 1), 0, vec![(marker(2), Vec::new()), (marker(4), Vec::new())]);
    let children = vec![(marker(1), child_value(reference(513, 1))), (marker(5), child_value(reference(514, 1)))];
    let mut tree = search(3, vec![page(3, reference(512, NEWEST), 1, children), leaf]);
    tree.key = marker(4);
    each(tree.call());
    tree.key = marker(5);
    each(tree.call());
}

/// Counts at and beside the largest one, in searches that find, find nothing, and are refused behind an accepted page.
fn counts(each: Each) {
    let found = chain(1, 0, Side::First);
    for (count, number) in [(u64::MAX - 2, LOW + 1), (u64::MAX - 1, LOW), (u64::MAX, LOW)] {
        each(Search { count, key: key(number), ..found.clone() }.call());
    }
    each(Search { count: 1, ..chain(0, 0, Side::First) }.call());
    let mut outside = found;
    moved(&mut outside, 1, 1, 701);
    let absent = chain(1, 1, Side::First);
    let beyond = Search { image: 33 * 4_096, ..absent.clone() };
    for tree in [outside, Search { image: 34 * 4_096, ..absent }, beyond] {
        each(Search { count: u64::MAX - 1, ..tree }.call());
    }
    each(Search { count: u64::MAX, ..search(4, Vec::new()) }.call());
}

/// A root's fields by themselves, each at its borders; those that a search doesn't use are any.
fn roots(each: Each) {
    let zeros = Search { image: 34 * 4_096, ..search(4, Vec::new()) };
    let changed = |place: usize, number: u64| {
        let mut root = zeros.root;
        root[place] = number;
        Search { root, ..zeros.clone() }.call()
    };
    for blocks in [0, 1, 1_023, 1_024, u64::MAX] {
        each(changed(BLOCKS, blocks));
    }
    for generation in [0, 1, NEWEST - 1, NEWEST + 1, u64::MAX] {
        each(changed(GENERATION, generation));
    }
    for (block, generation) in [(31, 1), (32, 0), (33, 1), (0, 0), (u64::MAX, u64::MAX), (32, NEWEST + 1)] {
        let mut tree = zeros.clone();
        tree.set_reference(reference(block, generation));
        each(tree.call());
    }
    for kind in 1..=3 {
        each(Search { kind, ..zeros.clone() }.call());
        let mut tree = Search { kind, image: LONGEST_IMAGE, ..zeros.clone() };
        for block in [511, 512, 639, 640] {
            tree.set_reference(reference(block, NEWEST));
            each(tree.call());
        }
    }
    each(Search { uuid: [0; 16], ..zeros.clone() }.call());
    // A root that no block could hold: the search asks for less.
    let leaf = chain(0, 0, Side::First);
    for number in [u64::MAX, MAX_ID + 1] {
        let mut root = [number; 16];
        (root[0], root[1], root[GENERATION], root[BLOCKS]) = (1, 255, u64::MAX, VOLUME);
        let mut made_up = Search { root, label: vec![0xFF; 255], ..leaf.clone() };
        made_up.set_reference(leaf.reference());
        each(made_up.call());
    }
    let mut root = leaf.root;
    (root[0], root[1]) = (1, 0);
    each(Search { root, ..leaf.clone() }.call());
    // A volume for whose blocks no image is long enough.
    let mut root = leaf.root;
    root[BLOCKS] = u64::MAX;
    each(Search { root, ..leaf }.call());
}

/// Sought keys of any length, on a leaf and on an internal page.
fn keys(each: Each) {
    let leaf = chain(0, 0, Side::First);
    let internal = chain(1, 1, Side::First);
    let of = |len: usize| {
        let mut sought = key(LOW);
        sought.resize(len, 0);
        sought
    };
    for len in [0, 7, 9, 1_025] {
        each(Search { key: of(len), ..leaf.clone() }.call());
    }
    for len in [0, 7, 1_025] {
        each(Search { key: of(len), ..internal.clone() }.call());
    }
    // Another first byte, another in the middle.
    for at in [0, 3] {
        let mut other = key(LOW);
        other[at] = 1;
        each(Search { key: other, ..leaf.clone() }.call());
    }
    each(Search { key: vec![0xFF; 80_000], ..leaf }.call());
}

/// Pages of many records: a leaf as full as can be, and an internal page that is left far behind its first record.
fn wide(each: Each) {
    let full = page(4, reference(FIRST, NEWEST), 0, (0..251).map(|at| run(LOW + 2 * at)).collect());
    let full = search(4, vec![full]);
    [LOW + 500, LOW + 499].iter().for_each(|number| seek(each, &full, *number));
    let children = (0..63).map(|at| (key(LOW - 50 + at), child_value(reference(95 - at, 1))));
    let mut children: Vec<Record> = children.collect();
    // The record of the key that is sought.
    children[50].1 = child_value(reference(FIRST + 1, NEWEST - 1));
    children.remove(62);
    let top = page(4, reference(FIRST, NEWEST), 1, children);
    let leaf = page(4, reference(FIRST + 1, NEWEST - 1), 0, vec![run(LOW)]);
    seek(each, &search(4, vec![top, leaf]), LOW);
}

/// Images up to the longest, the page in their last block.
fn images(each: Each) {
    let block = LONGEST_IMAGE / 4_096 - 1;
    let marker = vec![3, 0, 0, 0, 0, 0, 0, 0, 7];
    let mut last = search(3, vec![page(3, reference(block, NEWEST), 0, vec![(marker.clone(), Vec::new())])]);
    last.key = marker;
    for image in [LONGEST_IMAGE - 1, LONGEST_IMAGE] {
        each(Search { image, ..last.clone() }.call());
    }
    // In the smallest volume, whose one block is 512.
    last = search(3, vec![page(3, reference(512, NEWEST), 0, Vec::new())]);
    for blocks in [1_024, 1_025] {
        last.root[BLOCKS] = blocks;
        each(last.call());
    }
    // A byte more than the page, and none less.
    for image in [513 * 4_096 - 1, 513 * 4_096 + 1] {
        each(Search { image, ..last.clone() }.call());
    }
}

/// Strings of pages: one laid over another, one beyond the end or at a block that wraps.
fn strings(each: Each) {
    let leaf = chain(0, 0, Side::First);
    let page = leaf.pages[0].clone();
    let mut spoilt = page.clone();
    spoilt.case.page[80] ^= 1;
    for pages in [vec![spoilt.clone(), page.clone()], vec![page.clone(), spoilt]] {
        each(Search { pages, ..leaf.clone() }.call());
    }
    for at in [33, (1 << 52) + FIRST] {
        each(Search { pages: vec![Laid { at, ..page.clone() }], ..leaf.clone() }.call());
    }
}
