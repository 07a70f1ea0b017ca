//! Our calls and the reference's, side by side. A benchmark is a function that adds its rows to the list in `main`.
use ondisk::format::{
    BLOCK_BYTES, Label, PageView, Root, TreeKind, TreeRef, Validation, checksum_slot, compact_group, decode_page,
    encode_leaf, encode_node, reserved_group_blocks, select_root, set_checksum_slot, supported_root,
    validate_checksum_group,
};
use std::cell::{Cell, RefCell};
use std::hint::black_box;
use std::time::Instant;

// The static library.
#[path = "../../bindings/rust/src/library.rs"]
mod ours;

/// One row: the same work by both sides. Each answers a number, which must be the same.
struct Row {
    name: String,
    ours: Box<dyn Fn() -> u64>,
    reference: Box<dyn Fn() -> u64>,
}

fn row(
    rows: &mut Vec<Row>,
    name: &str,
    ours: impl Fn() -> u64 + 'static,
    reference: impl Fn() -> u64 + 'static,
) {
    rows.push(Row {
        name: name.to_string(),
        ours: Box::new(ours),
        reference: Box::new(reference),
    });
}

/// Bytes without a pattern, the same in each run.
fn noise(length: usize) -> Vec<u8> {
    let mut state = 0x9E37_79B9_7F4A_7C15u64;
    (0..length)
        .map(|_| {
            state ^= state << 13;
            state ^= state >> 7;
            state ^= state << 17;
            state as u8
        })
        .collect()
}

// ---- the benchmarks

/// A short string; what follows a page's word, what stands before a root's, a block; a unit of data without and with what is summed before it.
fn checksum(rows: &mut Vec<Row>) {
    for length in [64, 4028, 4092, 4096, 65_536, 65_580] {
        let (a, b) = (noise(length), noise(length));
        row(
            rows,
            &format!("checksum, {length} bytes"),
            move || {
                let bytes = black_box(&a[..]);
                // The slice lives for the call, which only reads it.
                u64::from(unsafe { ours::carryfs_extend(!0, bytes.as_ptr(), bytes.len()) })
            },
            move || u64::from(ondisk::crc::extend(!0, black_box(&b[..]))),
        );
    }
}

/// A number that tells one list of numbers from another.
fn digest(numbers: &[u64]) -> u64 {
    numbers.iter().fold(0, |sum: u64, &n| sum.wrapping_mul(31).wrapping_add(n))
}

const UUID: [u8; 16] = *b"a volume's UUID.";
/// The blocks of most volumes here.
const B: u64 = 4096;

/// The word of a unit of data, whole and of one block.
fn units(rows: &mut Vec<Row>) {
    for length in [65_536, 4096] {
        let (a, b) = (noise(length), noise(length));
        row(
            rows,
            &format!("data unit, {length} valid bytes"),
            move || {
                let (bytes, mut out) = (black_box(&a[..]), [0; 3]);
                // The slices live for the call and don't overlap.
                unsafe {
                    ours::carryfs_data_unit(
                        UUID.as_ptr(),
                        UUID.len(),
                        2,
                        7,
                        bytes.as_ptr(),
                        bytes.len(),
                        out.as_mut_ptr(),
                        out.len(),
                    )
                };
                assert_eq!(out[0], 0);
                out[2]
            },
            move || u64::from(ondisk::crc::data_unit_crc(&UUID, 2, 7, black_box(&b[..])).expect("a unit")),
        );
    }
}

/// A root of the generation, in its block.
fn root_block(generation: u64, slot: u64) -> [u8; BLOCK_BYTES] {
    let tree = |block| TreeRef { block, generation };
    let root = Root {
        label: Some(Label::new("Grüße".as_bytes()).expect("a label")),
        uuid: UUID,
        generation,
        blocks: B,
        catalog: tree(515),
        allocation: tree(516),
        cleanup: tree(517),
        next_object: 3,
        free_blocks: 1017,
        next_job: 1,
        workspace: tree(32),
        workspace_cursor: 0,
    };
    let mut block = [0; BLOCK_BYTES];
    root.encode(slot, B, &mut block).expect("a valid root");
    block
}

fn root(rows: &mut Vec<Row>) {
    let block = root_block(2, 256);
    row(
        rows,
        "`Root::decode`",
        move || {
            let bytes = black_box(&block[..]);
            let (mut out, mut text) = ([0; 18], [0; 271]);
            // The slices live for the call and don't overlap.
            unsafe {
                ours::carryfs_root(
                    bytes.as_ptr(),
                    bytes.len(),
                    256,
                    B,
                    out.as_mut_ptr(),
                    out.len(),
                    text.as_mut_ptr(),
                    text.len(),
                )
            };
            assert_eq!(out[0], 0);
            digest(&[out[4], out[5], out[6], out[9], out[15], out[3], text[16].into(), text[15].into()])
        },
        move || {
            let root = Root::decode(black_box(&block[..]), 256, B).expect("a root");
            let label = root.label.as_ref().expect("a label").as_bytes();
            digest(&[
                root.generation,
                root.blocks,
                root.catalog.block,
                root.allocation.generation,
                root.workspace.block,
                label.len() as u64,
                label[0].into(),
                root.uuid[15].into(),
            ])
        },
    );
}

/// Two roots read, and one of them chosen.
fn selection(rows: &mut Vec<Row>) {
    const SLOTS: [u64; 2] = [256, B - 257];
    let (first, second) = (root_block(2, SLOTS[0]), root_block(3, SLOTS[1]));
    row(
        rows,
        "`select_root` of two blocks",
        move || {
            let (first, second) = black_box((&first[..], &second[..]));
            let mut out = [0; 4];
            // The slices live for the call and don't overlap.
            unsafe {
                ours::carryfs_select(
                    first.as_ptr(),
                    first.len(),
                    SLOTS[0],
                    B,
                    second.as_ptr(),
                    second.len(),
                    SLOTS[1],
                    B,
                    out.as_mut_ptr(),
                    out.len(),
                )
            };
            assert_eq!(out[0], 0);
            out[3]
        },
        move || {
            let (first, second) = black_box((&first[..], &second[..]));
            let first = supported_root(Root::decode(first, SLOTS[0], B)).expect("a root");
            let second = supported_root(Root::decode(second, SLOTS[1], B)).expect("a root");
            select_root(first.as_ref(), second.as_ref()).expect("a choice").generation
        },
    );
}

type Record = (Vec<u8>, Vec<u8>);

/// A page by the reference's encoder, and what it is read with.
#[derive(Clone, Copy)]
struct Case {
    at: TreeRef,
    kind: TreeKind,
    blocks: u64,
    page: [u8; BLOCK_BYTES],
}

fn case(kind: TreeKind, blocks: u64, level: u8, records: &[Record]) -> Case {
    let block = if kind == TreeKind::Workspace { 32 } else { 515 };
    let mut case = Case { at: TreeRef { block, generation: 2 }, kind, blocks, page: [0; BLOCK_BYTES] };
    let records: Vec<(&[u8], &[u8])> = records.iter().map(|(k, v)| (&k[..], &v[..])).collect();
    if level == 0 {
        encode_leaf(&mut case.page, case.at, &UUID, kind, &records, blocks).expect("a valid leaf");
    } else {
        encode_node(&mut case.page, case.at, &UUID, kind, &records, blocks, level, 0).expect("a valid page");
    }
    case
}

impl Case {
    fn view(&self) -> PageView<'_> {
        decode_page(black_box(&self.page), self.at, &UUID, self.kind, 2, None, self.blocks).expect("a page")
    }
}

fn extent_key(logical: u64) -> Vec<u8> {
    [&2u64.to_be_bytes()[..], &[3], &logical.to_be_bytes()].concat()
}

/// 108 extents, as many as fit.
fn extents() -> Vec<Record> {
    let value = |i: u64| [&(600 + 2 * i).to_le_bytes()[..], &1u32.to_le_bytes(), &[0; 4]].concat();
    (0..108).map(|i| (extent_key(i), value(i))).collect()
}

/// 48 directory entries with names of 29 bytes.
fn entries() -> Vec<Record> {
    let name = |i: u64| format!("a file with a longer name, {i:02}");
    let key = |i| [&1u64.to_be_bytes()[..], &[2], name(i).as_bytes()].concat();
    let value = |i: u64| [&(2 + i).to_le_bytes()[..], &[1, 0], &29u16.to_le_bytes(), name(i).as_bytes()].concat();
    (0..48).map(|i| (key(i), value(i))).collect()
}

/// 251 runs of the workspace, as many as fit.
fn runs() -> Vec<Record> {
    (0..251u64).map(|i| ((600 + 3 * i).to_be_bytes().to_vec(), 2u32.to_le_bytes().to_vec())).collect()
}

/// 108 children, as many as fit.
fn children() -> Vec<Record> {
    let value = |i: u64| [600 + i, 1].map(u64::to_le_bytes).concat();
    (0..108).map(|i| (extent_key(i), value(i))).collect()
}

/// A group of a volume of three, its reserved blocks taken and no other.
fn bitmap(group: u64, blocks: u64) -> Record {
    let mut value = vec![0; 2048];
    for block in reserved_group_blocks(group, blocks) {
        value[(block % 16_384 / 8) as usize] |= 1 << (block % 8);
    }
    (group.to_be_bytes().to_vec(), value)
}

fn pages(rows: &mut Vec<Row>) {
    let wide = 2 * 16_384 + 600;
    for (name, case) in [
        ("catalog leaf, 108 extents", case(TreeKind::Catalog, B, 0, &extents())),
        ("catalog leaf, 48 directory entries", case(TreeKind::Catalog, B, 0, &entries())),
        ("workspace leaf, 251 runs", case(TreeKind::Workspace, B, 0, &runs())),
        ("allocation leaf, first group, 512 reserved bits", case(TreeKind::Allocation, wide, 0, &[bitmap(0, wide)])),
        ("allocation leaf, middle group, no reserved bit", case(TreeKind::Allocation, wide, 0, &[bitmap(1, wide)])),
        ("allocation leaf, last group, 16,296 reserved bits", case(TreeKind::Allocation, wide, 0, &[bitmap(2, wide)])),
        ("internal page, 108 children", case(TreeKind::Catalog, B, 1, &children())),
    ] {
        row(
            rows,
            &format!("`decode_page`, {name}"),
            move || {
                let bytes = black_box(&case.page[..]);
                let mut out = [0; 7];
                // The slices live for the call and don't overlap.
                unsafe {
                    ours::carryfs_page(
                        bytes.as_ptr(),
                        bytes.len(),
                        case.at.block,
                        case.at.generation,
                        UUID.as_ptr(),
                        UUID.len(),
                        case.kind as u32,
                        2,
                        255,
                        case.blocks,
                        out.as_mut_ptr(),
                        out.len(),
                    )
                };
                assert_eq!(out[0], 0);
                digest(&out[2..5])
            },
            move || {
                let view = case.view();
                digest(&[view.level.into(), view.data_blocks, view.len() as u64])
            },
        );
    }
}

/// The records of a page, each sought in turn.
fn lookups(rows: &mut Vec<Row>) {
    for (count, kind, records) in [
        (48, TreeKind::Catalog, entries()),
        (108, TreeKind::Catalog, extents()),
        (251, TreeKind::Workspace, runs()),
    ] {
        assert_eq!(count, records.len());
        let case: &'static Case = Box::leak(Box::new(case(kind, B, 0, &records)));
        let keys: &'static [Record] = Box::leak(records.into_boxed_slice());
        let length = usize::from(u16::from_le_bytes([case.page[34], case.page[35]]));
        let payload = &case.page[80..80 + length];
        let view = case.view();
        let scratch = || RefCell::new([0u16; 256]);
        let (a, b) = (scratch(), scratch());
        let (i, j) = (Cell::new(0), Cell::new(0));
        let turn = move |at: &Cell<usize>| {
            at.set((at.get() + 17) % count);
            black_box(&keys[at.get()].0[..])
        };
        row(
            rows,
            &format!("lookup among {count} records"),
            move || {
                let (key, mut scratch, mut out) = (turn(&i), a.borrow_mut(), [0; 4]);
                // The slices live for the call and don't overlap.
                unsafe {
                    ours::carryfs_lookup(
                        payload.as_ptr(),
                        payload.len(),
                        count,
                        key.as_ptr(),
                        key.len(),
                        scratch.as_mut_ptr(),
                        scratch.len(),
                        out.as_mut_ptr(),
                        out.len(),
                    )
                };
                out[1]
            },
            move || {
                let (key, mut scratch) = (turn(&j), b.borrow_mut());
                view.floor_record(key, |x, y| x.cmp(y), &mut scratch[..]).expect("a record").0 as u64
            },
        );
    }
}

fn slots(rows: &mut Vec<Row>) {
    let mut group = [0; 1056];
    (0..256).step_by(3).for_each(|slot| set_checksum_slot(&mut group, slot, Some(!(slot as u32))));
    let (i, j) = (Cell::new(0), Cell::new(0));
    let turn = |at: &Cell<usize>| {
        at.set((at.get() + 1) % 256);
        black_box(at.get())
    };
    row(
        rows,
        "checksum slot",
        move || {
            let (bytes, mut out) = (black_box(&group[..]), [0; 4]);
            // The slices live for the call and don't overlap.
            unsafe { ours::carryfs_slot(bytes.as_ptr(), bytes.len(), turn(&i), out.as_mut_ptr(), out.len()) };
            out[2] + out[3]
        },
        move || {
            let word = checksum_slot(black_box(&group[..]), turn(&j)).expect("a slot");
            word.map_or(0, |word| 1 + u64::from(word))
        },
    );
}

/// The record of a group of 256 slots: every word there, and every third.
fn groups(rows: &mut Vec<Row>) {
    for (name, step) in [("256 words", 1), ("86 words and 170 holes", 3)] {
        let mut group = [0; 1056];
        (0..256).step_by(step).for_each(|slot| set_checksum_slot(&mut group, slot, Some(!(slot as u32))));
        let key = [&2u64.to_be_bytes()[..], &[4], &7u64.to_be_bytes()].concat();
        let value = compact_group(&group).to_vec();
        let (other_key, other_value) = (key.clone(), value.clone());
        row(
            rows,
            &format!("checksum group, {name}"),
            move || {
                let (key, value) = black_box((&key[..], &value[..]));
                let mut out = [0; 2];
                // The slices live for the call and don't overlap.
                unsafe {
                    ours::carryfs_group(
                        key.as_ptr(),
                        key.len(),
                        value.as_ptr(),
                        value.len(),
                        out.as_mut_ptr(),
                        out.len(),
                    )
                };
                digest(&out)
            },
            move || {
                let (key, value) = black_box((&other_key[..], &other_value[..]));
                u64::from(validate_checksum_group(key, value, Validation::Disk).is_err())
            },
        );
    }
}

/// An image, its root, the words and the text that a call of ours has of it, and the keys to seek.
struct Volume {
    image: Vec<u8>,
    root: Root,
    words: [u64; 18],
    text: [u8; 271],
    keys: Vec<Vec<u8>>,
}

/// What the pages of a tree are made of: how many records a leaf has, how many children a page above, and the n-th of all records.
struct Shape {
    leaf: u64,
    children: u64,
    record: fn(u64) -> Record,
}

/// 108 extents in a leaf, 108 children above it, as many as fit.
const EXTENTS: Shape = Shape {
    leaf: 108,
    children: 108,
    record: |n| {
        let physical = 600 + n % 108;
        (extent_key(n), [&physical.to_le_bytes()[..], &1u32.to_le_bytes(), &[0; 4]].concat())
    },
};

/// 48 directory entries with names of 29 bytes, 69 children, as many as fit.
const ENTRIES: Shape = Shape {
    leaf: 48,
    children: 69,
    record: |n| {
        let name = format!("a file with a long name{n:06}");
        let value = [&(2 + n).to_le_bytes()[..], &[1, 0], &29u16.to_le_bytes(), name.as_bytes()].concat();
        ([&1u64.to_be_bytes()[..], &[2], name.as_bytes()].concat(), value)
    },
};

/// The block and the record that come next.
struct Next {
    block: u64,
    record: u64,
}

/// Writes a page of a level and all below it. In each page of children so many are there, spread over it; the others are blocks of
/// zeros, to which no key of a record leads.
fn plant(volume: &mut Volume, shape: &Shape, level: u8, there: u64, next: &mut Next) {
    let at = next.block;
    next.block += 1;
    let mut records = Vec::new();
    if level == 0 {
        records.extend((next.record..next.record + shape.leaf).map(shape.record));
        volume.keys.extend(records.iter().map(|record| record.0.clone()));
        next.record += shape.leaf;
    }
    for child in (0..shape.children).filter(|_| level > 0) {
        let is_there = (child * there + shape.children / 2) % shape.children < there;
        let block = if is_there { next.block } else { 2000 + child };
        let reference = [block, 2].map(u64::to_le_bytes).concat();
        records.push(((shape.record)(next.record).0, reference));
        match is_there {
            true => plant(volume, shape, level - 1, there, next),
            false => next.record += 1,
        }
    }
    let lent: Vec<(&[u8], &[u8])> = records.iter().map(|(k, v)| (&k[..], &v[..])).collect();
    let mut page = [0; BLOCK_BYTES];
    let reference = TreeRef { block: at, generation: 2 };
    encode_node(&mut page, reference, &UUID, TreeKind::Catalog, &lent, B, level, 0).expect("a valid page");
    let start = at as usize * BLOCK_BYTES;
    volume.image[start..start + BLOCK_BYTES].copy_from_slice(&page);
}

/// A volume whose catalog has so many levels, with so many of each page's children in their places.
fn volume(shape: &Shape, levels: u8, there: u64) -> Volume {
    let block = root_block(2, 256);
    let root = Root::decode(&block, 256, B).expect("a root");
    let (mut words, mut text) = ([0; 18], [0; 271]);
    // The slices live for the call and don't overlap.
    unsafe { ours::carryfs_root(block.as_ptr(), block.len(), 256, B, words.as_mut_ptr(), 18, text.as_mut_ptr(), 271) };
    let mut volume = Volume { image: vec![0; B as usize * BLOCK_BYTES], root, words, text, keys: Vec::new() };
    plant(&mut volume, shape, levels - 1, there, &mut Next { block: root.catalog.block, record: 0 });
    volume
}

/// The answer of a search: class, found, where key and value stand and how long they are, the pages accepted.
fn search_ours(volume: &Volume, key: &[u8]) -> u64 {
    let (image, mut out) = (black_box(&volume.image[..]), [0; 8]);
    // The slices live for the call and don't overlap.
    unsafe {
        ours::carryfs_search(
            image.as_ptr(),
            image.len(),
            volume.words.as_ptr(),
            volume.words.len(),
            volume.text.as_ptr(),
            volume.text.len(),
            TreeKind::Catalog as u32,
            key.as_ptr(),
            key.len(),
            0,
            out.as_mut_ptr(),
            out.len(),
        )
    };
    assert_eq!(out[0], 0);
    digest(&out[2..])
}

/// The plain way down by the reference's reader, with the bounds kept: keys ascend, so the first and the last tell of all.
fn descend<'a>(image: &'a [u8], root: &Root, key: &[u8], count: &mut u64) -> Result<Option<(&'a [u8], &'a [u8])>, u64> {
    let (mut at, mut parent, mut level) = (root.catalog, root.generation, None);
    let (mut low, mut high): (&[u8], Option<&[u8]>) = (&[], None);
    let mut offsets = [0; 256];
    loop {
        if at.block >= (image.len() / BLOCK_BYTES) as u64 {
            return Err(7);
        }
        let bytes = &image[at.block as usize * BLOCK_BYTES..][..BLOCK_BYTES];
        let view =
            decode_page(bytes, at, &root.uuid, TreeKind::Catalog, parent, level, root.blocks).map_err(|_| 3u64)?;
        *count = count.saturating_add(1);
        if view.records().next().is_some_and(|(first, _)| first < low) {
            return Err(8);
        }
        if high.is_some_and(|high| view.records().last().is_some_and(|(last, _)| last >= high)) {
            return Err(8);
        }
        let Some((_, mut records)) = view.floor_record(key, |x, y| x.cmp(y), &mut offsets) else { return Ok(None) };
        let Some((found, value)) = records.next() else { return Ok(None) };
        if view.level == 0 {
            return Ok((found == key).then_some((found, value)));
        }
        let number = |at: usize| u64::from_le_bytes(value[at..at + 8].try_into().expect("8 bytes"));
        (low, high) = (found, records.next().map(|record| record.0).or(high));
        (parent, level) = (at.generation, Some(view.level - 1));
        at = TreeRef { block: number(0), generation: number(8) };
    }
}

fn search_reference(volume: &Volume, key: &[u8]) -> u64 {
    let (image, mut count) = (black_box(&volume.image[..]), 0);
    let found = descend(image, &volume.root, key, &mut count).expect("no refusal");
    let place = |part: &[u8]| (part.as_ptr() as usize - image.as_ptr() as usize) as u64;
    digest(&match found {
        Some((key, value)) => [1, place(key), key.len() as u64, place(value), value.len() as u64, count],
        None => [0, 0, 0, 0, 0, count],
    })
}

/// Searches in catalogs of one to eight levels, with one way down, and in ones of three, with sixteen. Records are sought in turn.
fn searches(rows: &mut Vec<Row>) {
    let name = |levels| format!("search, {levels} level{}", if levels == 1 { "" } else { "s" });
    let one_way = (1..=8).map(|levels| (name(levels), &EXTENTS, levels, 1));
    let sixteen = [
        ("search, 3 levels, 16 leaves of 108 extents".to_string(), &EXTENTS, 3, 4),
        ("search, 3 levels, 16 leaves of 48 directory entries".to_string(), &ENTRIES, 3, 4),
    ];
    for (name, shape, levels, there) in one_way.chain(sixteen) {
        let volume: &'static Volume = Box::leak(Box::new(volume(shape, levels, there)));
        assert_eq!(volume.keys.len() as u64, shape.leaf * there.pow(u32::from(levels) - 1));
        let (i, j) = (Cell::new(0), Cell::new(0));
        let turn = move |at: &Cell<usize>| {
            at.set((at.get() + 131) % volume.keys.len());
            black_box(&volume.keys[at.get()][..])
        };
        row(rows, &name, move || search_ours(volume, turn(&i)), move || search_reference(volume, turn(&j)));
    }
}

fn main() {
    let mut rows = Vec::new();
    checksum(&mut rows);
    units(&mut rows);
    root(&mut rows);
    selection(&mut rows);
    pages(&mut rows);
    lookups(&mut rows);
    slots(&mut rows);
    groups(&mut rows);
    searches(&mut rows);

    println!("| benchmark | ours ns | Rust ns | ratio |");
    println!("|---|---|---|---|");
    for row in &rows {
        for _ in 0..1000 {
            assert_eq!((row.ours)(), (row.reference)(), "{}", row.name);
        }
        let (ours, reference) = measure(row);
        println!(
            "| {} | {ours:.1} | {reference:.1} | {:.2} |",
            row.name,
            ours / reference
        );
    }
}

// ---- the measuring

/// Nanoseconds a call takes in a batch.
fn batch(work: &dyn Fn() -> u64, calls: u64) -> f64 {
    let start = Instant::now();
    for _ in 0..calls {
        black_box(work());
    }
    start.elapsed().as_nanos() as f64 / calls as f64
}

/// The best batch of each side. The sides take turns, and turns at going first.
fn measure(row: &Row) -> (f64, f64) {
    let once = batch(&row.reference, 100).max(1.0);
    let calls = (500_000.0 / once).max(1.0) as u64;
    let (mut ours, mut reference) = (f64::MAX, f64::MAX);
    for round in 0..400 {
        for turn in 0..2 {
            if (round + turn) % 2 == 0 {
                ours = ours.min(batch(&row.ours, calls));
            } else {
                reference = reference.min(batch(&row.reference, calls));
            }
        }
    }
    (ours, reference)
}
