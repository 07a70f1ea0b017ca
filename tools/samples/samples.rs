//! Makes the files of samples/ with the reference's own encoders. Nothing is random: the same bytes each time. Each body
//! says what it is and which answer it must get, and is tried on the reference before it is written.
use reference::crc::{crc32c, data_unit_crc};
use reference::error::Error;
use reference::format::{
    BLOCK_BYTES, Label, Root, TreeKind, TreeRef, compact_group, decode_page, encode_leaf, encode_node, seal_page,
    set_checksum_slot,
};
use std::collections::BTreeMap;
use std::fmt::Write;

type Block = [u8; BLOCK_BYTES];
type Record = (Vec<u8>, Vec<u8>);

const UUID: [u8; 16] = [0xA0, 0xA1, 0xA2, 0xA3, 0xA4, 0xA5, 0xA6, 0xA7, 0xA8, 0xA9, 0xAA, 0xAB, 0xAC, 0xAD, 0xAE, 0xAF];
/// The blocks of the sample volume; a volume with two allocation groups; the file's bytes.
const B: u64 = 2048;
const WIDE: u64 = 20_000;
const NOTE: &[u8] = b"Read me in thirty years.\n";
/// 2026-11-05 12:00:00 and 1969-07-20 20:17:40, UTC.
const RECENT: i64 = 1_793_880_000;
const OLD: i64 = -14_182_940;
/// What a body must be answered, beside the string of a refusal.
const GOOD: &str = "";
const GEOMETRY: &str = "class 1";
const UNSUPPORTED: &str = "class 4";

fn tree(block: u64, generation: u64) -> TreeRef {
    TreeRef { block, generation }
}

fn put(bytes: &mut [u8], at: usize, new: &[u8]) {
    bytes[at..at + new.len()].copy_from_slice(new);
}

/// Writes the checksum of a changed block at the place where it stands.
fn seal(block: &mut [u8], at: usize) {
    put(block, at, &[0; 4]);
    let word = crc32c(block);
    put(block, at, &word.to_le_bytes());
}

fn told(error: Option<Error>) -> &'static str {
    match error {
        None => GOOD,
        Some(Error::InvalidGeometry) => GEOMETRY,
        Some(Error::UnsupportedFormat) => UNSUPPORTED,
        Some(Error::InvalidInput(s) | Error::Corrupt(s) | Error::InvalidName(s) | Error::TooLong(s)) => s,
    }
}

/// A file of bodies, and what each is.
#[derive(Default)]
struct File {
    bytes: Vec<u8>,
    what: Vec<String>,
}

impl File {
    fn add(&mut self, what: &str, want: &str, got: Option<Error>, body: &[&[u8]]) {
        assert_eq!(told(got), want, "body {}: {what}", self.what.len());
        body.iter().for_each(|part| self.bytes.extend_from_slice(part));
        self.what.push(what.to_string());
    }
}

// Roots

/// A root and the arguments it is read with.
#[derive(Clone)]
struct RootCase {
    slot: u64,
    blocks: u64,
    block: Block,
}

impl RootCase {
    fn new(root: &Root, slot: u64) -> Self {
        let mut block = [0; BLOCK_BYTES];
        root.encode(slot, root.blocks, &mut block).expect("a valid root");
        Self { slot, blocks: root.blocks, block }
    }

    /// A copy with other bytes at a place, its checksum made anew.
    fn with(&self, at: usize, new: &[u8]) -> Self {
        let mut case = self.clone();
        put(&mut case.block, at, new);
        seal(&mut case.block, 4092);
        case
    }

    fn add(&self, file: &mut File, what: &str, want: &str) {
        let got = Root::decode(&self.block, self.slot, self.blocks).err();
        file.add(what, want, got, &[&[1], &self.slot.to_le_bytes(), &self.blocks.to_le_bytes(), &self.block]);
    }
}

/// The root of the sample volume, of generation 2: one file.
fn second_root() -> Root {
    Root {
        label: Some(Label::new("Grüße".as_bytes()).expect("a label")),
        uuid: UUID,
        generation: 2,
        blocks: B,
        catalog: tree(515, 2),
        allocation: tree(516, 2),
        cleanup: tree(517, 2),
        next_object: 3,
        free_blocks: 1017,
        next_job: 1,
        workspace: tree(B - 96, 2),
        workspace_cursor: 0,
    }
}

/// The root before it, of generation 1: no file yet.
fn first_root() -> Root {
    Root {
        generation: 1,
        catalog: tree(512, 1),
        allocation: tree(513, 1),
        cleanup: tree(514, 1),
        next_object: 2,
        free_blocks: 1021,
        workspace: tree(32, 1),
        ..second_root()
    }
}

// Records

fn owned(owner: u64, kind: u8, rest: &[u8]) -> Vec<u8> {
    [&owner.to_be_bytes()[..], &[kind], rest].concat()
}

fn numbered(owner: u64, kind: u8, number: u64) -> Vec<u8> {
    owned(owner, kind, &number.to_be_bytes())
}

fn time(seconds: i64, nanos: u32) -> Vec<u8> {
    [&seconds.to_le_bytes()[..], &nanos.to_le_bytes(), &[0; 4]].concat()
}

fn inode(kind: u8, parent: u64, numbers: [u64; 3], first: i64, target: &[u8]) -> Vec<u8> {
    let mut value = vec![0; 128];
    value[0] = kind;
    put(&mut value, 8, &parent.to_le_bytes());
    for (place, number) in numbers.iter().enumerate() {
        put(&mut value, 16 + 8 * place, &number.to_le_bytes());
    }
    put(&mut value, 40, &time(first, 0));
    put(&mut value, 56, &time(RECENT, 250_000_000));
    put(&mut value, 72, &time(RECENT + 1, 999_999_999));
    value.extend_from_slice(target);
    value
}

fn directory(children: u64) -> Record {
    (owned(1, 1, &[]), inode(2, 1, [0, 0, children], RECENT, &[]))
}

fn file_inode() -> Record {
    (owned(2, 1, &[]), inode(1, 1, [NOTE.len() as u64, 1, 0], OLD, &[]))
}

fn link(target: &[u8]) -> Record {
    (owned(3, 1, &[]), inode(3, 1, [target.len() as u64, 0, 0], OLD, target))
}

fn entry(owner: u64, name: &str, target: u64, kind: u8) -> Record {
    let length = (name.len() as u16).to_le_bytes();
    let value = [&target.to_le_bytes()[..], &[kind, 0], &length, name.as_bytes()].concat();
    (owned(owner, 2, name.as_bytes()), value)
}

fn extent(owner: u64, logical: u64, physical: u64, count: u32) -> Record {
    let value = [&physical.to_le_bytes()[..], &count.to_le_bytes(), &[0; 4]].concat();
    (numbered(owner, 3, logical), value)
}

fn group(owner: u64, index: u64, words: &[(usize, u32)]) -> Record {
    let mut whole = [0; 1056];
    words.iter().for_each(|&(slot, word)| set_checksum_slot(&mut whole, slot, Some(word)));
    (numbered(owner, 4, index), compact_group(&whole).to_vec())
}

/// The bitmap of a group with the blocks that can never be allocated, and a few more, taken.
fn bitmap(group: u64, blocks: u64, taken: &[u64]) -> Record {
    let mut value = vec![0; 2048];
    for block in reference::format::reserved_group_blocks(group, blocks).chain(taken.iter().copied()) {
        value[(block % 16_384 / 8) as usize] |= 1 << (block % 8);
    }
    (group.to_be_bytes().to_vec(), value)
}

fn cleanup(kind: u8, number: u64, rest: &[u8]) -> Vec<u8> {
    [&[kind], &number.to_be_bytes()[..], rest].concat()
}

fn retirement(generation: u64, first: u64, count: u32) -> Record {
    (cleanup(1, generation, &first.to_be_bytes()), [&count.to_le_bytes()[..], &[0; 4]].concat())
}

fn detached(job: u64, owner: u64, low: u8, high: u8, root: TreeRef) -> Record {
    let value = [&owner.to_le_bytes()[..], &[low, high, 0, 0, 0, 0, 0, 0], &child(root)].concat();
    (cleanup(2, job, &[]), value)
}

fn orphan(object: u64) -> Record {
    (cleanup(3, object, &[]), vec![])
}

fn run(first: u64, count: u32) -> Record {
    (first.to_be_bytes().to_vec(), count.to_le_bytes().to_vec())
}

fn child(reference: TreeRef) -> Vec<u8> {
    [reference.block.to_le_bytes(), reference.generation.to_le_bytes()].concat()
}

// Pages

/// A page and the arguments it is read with.
#[derive(Clone)]
struct PageCase {
    at: TreeRef,
    uuid: [u8; 16],
    kind: TreeKind,
    parent: u64,
    level: u8,
    blocks: u64,
    page: Block,
}

fn place(kind: TreeKind, blocks: u64) -> TreeRef {
    match kind {
        TreeKind::Catalog => tree(515, 2),
        TreeKind::Allocation => tree(516, 2),
        TreeKind::Cleanup => tree(517, 2),
        TreeKind::Workspace => tree(blocks - 96, 2),
    }
}

impl PageCase {
    fn new(kind: TreeKind, blocks: u64) -> Self {
        Self { at: place(kind, blocks), uuid: UUID, kind, parent: 2, level: 255, blocks, page: [0; BLOCK_BYTES] }
    }

    /// A leaf by the reference's encoder.
    fn leaf(kind: TreeKind, blocks: u64, records: &[Record]) -> Self {
        let mut case = Self::new(kind, blocks);
        let records: Vec<(&[u8], &[u8])> = records.iter().map(|(k, v)| (&k[..], &v[..])).collect();
        encode_leaf(&mut case.page, case.at, &UUID, kind, &records, blocks).expect("a valid leaf");
        case
    }

    /// An internal page by the reference's encoder.
    fn node(kind: TreeKind, blocks: u64, level: u8, records: &[Record], total: u64) -> Self {
        let mut case = Self::new(kind, blocks);
        let records: Vec<(&[u8], &[u8])> = records.iter().map(|(k, v)| (&k[..], &v[..])).collect();
        encode_node(&mut case.page, case.at, &UUID, kind, &records, blocks, level, total).expect("a valid page");
        case
    }

    /// Records laid out as they are, which no encoder would take.
    fn laid(kind: TreeKind, blocks: u64, level: u8, records: &[Record]) -> Self {
        let mut case = Self::new(kind, blocks);
        let mut end = 80;
        for (key, value) in records {
            put(&mut case.page, end, &(key.len() as u16).to_le_bytes());
            put(&mut case.page, end + 2, &(value.len() as u16).to_le_bytes());
            put(&mut case.page, end + 4, key);
            put(&mut case.page, end + 4 + key.len(), value);
            end += 4 + key.len() + value.len();
        }
        case.page[14] = level;
        put(&mut case.page, 32, &(records.len() as u16).to_le_bytes());
        put(&mut case.page, 34, &((end - 80) as u16).to_le_bytes());
        seal_page(&mut case.page, case.at, &UUID, kind, 0);
        case
    }

    /// A copy with other bytes at a place, its checksum made anew.
    fn with(&self, at: usize, new: &[u8]) -> Self {
        let mut case = self.clone();
        put(&mut case.page, at, new);
        seal(&mut case.page, 64);
        case
    }

    fn add(&self, file: &mut File, what: &str, want: &str) {
        let level = Some(self.level).filter(|&level| level != 255);
        let view = decode_page(&self.page, self.at, &self.uuid, self.kind, self.parent, level, self.blocks);
        let head = [&[2], &self.at.block.to_le_bytes()[..], &self.at.generation.to_le_bytes(), &self.uuid].concat();
        let tail = [&[self.kind as u8], &self.parent.to_le_bytes()[..], &[self.level], &self.blocks.to_le_bytes()];
        file.add(what, want, view.err(), &[&head, &tail.concat(), &self.page]);
    }
}

/// Damage to a record's key or value.
fn key_with((key, value): &Record, at: usize, new: &[u8]) -> Record {
    let mut key = key.clone();
    put(&mut key, at, new);
    (key, value.clone())
}

fn value_with((key, value): &Record, at: usize, new: &[u8]) -> Record {
    let mut value = value.clone();
    put(&mut value, at, new);
    (key.clone(), value)
}

fn value_cut((key, value): &Record, length: usize) -> Record {
    let mut value = value.clone();
    value.resize(length, 0);
    (key.clone(), value)
}

// The sample volume

fn note_word() -> u32 {
    data_unit_crc(&UUID, 2, 0, NOTE).expect("a unit")
}

fn catalog_records() -> Vec<Record> {
    vec![directory(1), entry(1, "note.txt", 2, 1), file_inode(), extent(2, 0, 518, 1), group(2, 0, &[(0, note_word())])]
}

fn volume() -> File {
    let mut file = File::default();
    RootCase::new(&first_root(), 256).add(&mut file, "the root in slot 256, of generation 1", GOOD);
    RootCase::new(&second_root(), B - 257).add(&mut file, "the root in slot 1791, of generation 2", GOOD);
    PageCase::leaf(TreeKind::Catalog, B, &catalog_records()).add(
        &mut file,
        "the catalog leaf in block 515: a directory, an entry, a file, an extent, a checksum group",
        GOOD,
    );
    let taken: Vec<u64> = (512..519).collect();
    PageCase::leaf(TreeKind::Allocation, B, &[bitmap(0, B, &taken)]).add(
        &mut file,
        "the allocation leaf in block 516: group 0",
        GOOD,
    );
    PageCase::leaf(TreeKind::Cleanup, B, &[retirement(2, 512, 3)]).add(
        &mut file,
        "the cleanup leaf in block 517: a retirement",
        GOOD,
    );
    PageCase::leaf(TreeKind::Workspace, B, &[]).add(&mut file, "the workspace leaf in block 1952: empty", GOOD);
    file
}

// The register: a volume whose catalog has three levels

/// A list of pages, as tools/samples/image lays them into the image of a volume, and the row of each.
#[derive(Default)]
struct Pages {
    bytes: Vec<u8>,
    rows: Vec<[String; 4]>,
}

impl Pages {
    fn add(&mut self, at: u64, what: &str, answer: String, keys: String, block: &Block) {
        self.bytes.extend_from_slice(&at.to_le_bytes());
        self.bytes.extend_from_slice(block);
        self.rows.push([at.to_string(), what.to_string(), answer, keys]);
    }

    fn root(&mut self, what: &str, root: &Root, slot: u64) {
        let case = RootCase::new(root, slot);
        let got = Root::decode(&case.block, slot, B).expect("a root");
        let label = got.label.expect("a label");
        self.add(slot, what, format!("0 0 {} {}", got.generation, label.as_str()), String::new(), &case.block);
    }

    /// A page in its place, of so many data blocks if it isn't a leaf.
    fn page(&mut self, what: &str, kind: TreeKind, at: TreeRef, level: u8, records: &[Record], total: u64) {
        let mut page = [0; BLOCK_BYTES];
        let lent: Vec<(&[u8], &[u8])> = records.iter().map(|(k, v)| (&k[..], &v[..])).collect();
        encode_node(&mut page, at, &UUID, kind, &lent, B, level, total).expect("a valid page");
        let view = decode_page(&page, at, &UUID, kind, at.generation, Some(level), B).expect("a page");
        let hex = |key: &[u8]| key.iter().map(|byte| format!("{byte:02x}")).collect::<String>();
        let keys = match (records.first(), records.last()) {
            (Some((first, _)), Some((last, _))) if first != last => format!("{} to {}", hex(first), hex(last)),
            (Some((only, _)), _) => hex(only),
            _ => String::new(),
        };
        let answer = format!("0 0 {} {} {}", view.level, view.data_blocks, view.len());
        self.add(at.block, what, answer, keys, &page);
    }

    fn block(&self, at: u64) -> &[u8] {
        let mut pages = self.bytes.chunks(8 + BLOCK_BYTES);
        let page = pages.find(|page| page[..8] == at.to_le_bytes()).unwrap_or_else(|| panic!("no block {at}"));
        &page[8..]
    }

    /// How many pages a tree has from here down: each is accepted below its parent, and its keys are in their bounds.
    fn held(
        &self,
        kind: TreeKind,
        at: TreeRef,
        parent: u64,
        level: Option<u8>,
        low: &[u8],
        high: Option<&[u8]>,
    ) -> usize {
        let view = decode_page(self.block(at.block), at, &UUID, kind, parent, level, B).expect("a page of the tree");
        let records: Vec<(&[u8], &[u8])> = view.records().collect();
        let inside = |key: &[u8]| key >= low && high.is_none_or(|high| key < high);
        assert!(records.iter().all(|(key, _)| inside(key)), "block {}: a key out of its bounds", at.block);
        let mut pages = 1;
        for (place, (key, value)) in records.iter().enumerate().filter(|_| view.level > 0) {
            let number = |at: usize| u64::from_le_bytes(value[at..at + 8].try_into().expect("8 bytes"));
            let next = records.get(place + 1).map(|record| record.0).or(high);
            pages += self.held(kind, tree(number(0), number(8)), at.generation, Some(view.level - 1), key, next);
        }
        pages
    }
}

/// The blocks of the register's pages, behind those of the pages that they replaced.
const TOP: TreeRef = TreeRef { block: 530, generation: 5 };
const HALVES: [TreeRef; 2] = [TreeRef { block: 531, generation: 5 }, TreeRef { block: 532, generation: 4 }];
const LEAVES: [TreeRef; 4] = [
    TreeRef { block: 533, generation: 5 },
    TreeRef { block: 534, generation: 3 },
    TreeRef { block: 535, generation: 2 },
    TreeRef { block: 536, generation: 4 },
];

/// A file that says what was found, so many days before 2026-11-05.
struct Kept {
    object: u64,
    directory: u64,
    name: &'static str,
    text: &'static str,
    days: i64,
}

const fn kept(object: u64, directory: u64, name: &'static str, text: &'static str, days: i64) -> Kept {
    Kept { object, directory, name, text, days }
}

const FILES: [Kept; 9] = [
    kept(5, 1, "opening hours.txt", "Monday to Friday 9 to 17.\n", 900),
    kept(6, 2, "0917 umbrella, black.txt", "Tram 5, 2025-11-02. Given back 2025-11-04.\n", 368),
    kept(7, 2, "0918 five keys on a ring.txt", "Market hall, 2025-11-03. Shelf 2.\n", 367),
    kept(8, 2, "0931 glove, left.txt", "Bus 12, 2025-12-19. Shelf 4, beside 0002.\n", 321),
    kept(10, 3, "0001 scarf, red.txt", "Library, reading room, 2026-01-05. Shelf 4.\n", 304),
    kept(11, 3, "0002 glove, right.txt", "Bus 12, 2026-01-07. Shelf 4, beside 0931.\n", 302),
    kept(12, 3, "0003 walking stick.txt", "Town hall, 2026-02-11. Behind the door.\n", 267),
    kept(13, 3, "0004 Mütze, blau.txt", "Tram 5, 2026-03-02. Shelf 4.\n", 248),
    kept(14, 3, "0005 violin without a bow.txt", "Tram 9, 2026-06-21. Shelf 1, flat.\n", 137),
];

/// A file that has lost its name, and waits for its cleanup.
const NAMELESS: Kept = kept(15, 3, "", "Town hall, 2026-08-14. Given back 2026-11-05.\n", 83);

/// A file's inode, its extent and its checksum group; its data is one block, of which samples/ keeps the checksum alone.
fn kept_file(file: &Kept) -> [Record; 3] {
    let Kept { object, directory, text, days, .. } = *file;
    let word = data_unit_crc(&UUID, object, 0, text.as_bytes()).expect("a unit");
    let value = inode(1, directory, [text.len() as u64, 1, 0], RECENT - 86_400 * days, &[]);
    [(owned(object, 1, &[]), value), extent(object, 0, 540 + object, 1), group(object, 0, &[(0, word)])]
}

/// A directory's inode and its entries, in the order of their names.
fn kept_directory(object: u64, parent: u64, others: &[Record]) -> Vec<Record> {
    let files =
        FILES.iter().filter(|file| file.directory == object).map(|file| entry(object, file.name, file.object, 1));
    let mut records: Vec<Record> = files.chain(others.iter().cloned()).collect();
    records.sort();
    let value = inode(2, parent, [0, 0, records.len() as u64], RECENT, &[]);
    records.insert(0, (owned(object, 1, &[]), value));
    records
}

/// The catalog's leaves: the directories and a link to this year's; the files.
fn register_leaves() -> [Vec<Record>; 4] {
    let years = [entry(1, "2025", 2, 2), entry(1, "2026", 3, 2), entry(1, "this year", 4, 3)];
    let link = (owned(4, 1, &[]), inode(3, 1, [4, 0, 0], RECENT, b"2026"));
    let files = |objects: std::ops::RangeInclusive<u64>| -> Vec<Record> {
        FILES.iter().filter(|file| objects.contains(&file.object)).flat_map(kept_file).collect()
    };
    [
        [kept_directory(1, 1, &years), kept_directory(2, 1, &[]), kept_directory(3, 1, &[]), vec![link]].concat(),
        files(5..=8),
        files(10..=12),
        [files(13..=14), kept_file(&NAMELESS).to_vec()].concat(),
    ]
}

/// The root of the register, of generation 5.
fn register_root() -> Root {
    Root {
        label: Some(Label::new(b"Lost property").expect("a label")),
        uuid: UUID,
        generation: 5,
        blocks: B,
        catalog: TOP,
        allocation: tree(537, 5),
        cleanup: tree(538, 5),
        next_object: 16,
        free_blocks: 1024 - (REGISTER_TAKEN.end - REGISTER_TAKEN.start),
        next_job: 1,
        workspace: tree(B - 96, 5),
        workspace_cursor: 0,
    }
}

/// Blocks of pages that were replaced and of pages that are there, of data, and of the runs that the workspace keeps.
const REGISTER_TAKEN: std::ops::Range<u64> = 512..580;

/// Object 9 was removed: the first half's last bound is still its inode's key, and the second half starts behind it.
fn register() -> Pages {
    let mut pages = Pages::default();
    let (root, leaves) = (register_root(), register_leaves());
    let before = Root {
        generation: 4,
        catalog: tree(520, 4),
        allocation: tree(521, 4),
        cleanup: tree(522, 4),
        workspace: tree(32, 4),
        ..root
    };
    pages.root("the root of generation 5", &root, 256);
    pages.root("the root of generation 4; its pages aren't in the list", &before, B - 257);
    let to = |key: Vec<u8>, at: TreeRef| (key, child(at));
    let ids = |object| owned(object, 1, &[]);
    let files = |leaves: &[Vec<Record>]| leaves.concat().iter().filter(|(key, _)| key[8] == 3).count() as u64;
    let kind = TreeKind::Catalog;
    pages.page("catalog, the top", kind, TOP, 2, &[to(ids(1), HALVES[0]), to(ids(9), HALVES[1])], files(&leaves));
    let halves = [[to(ids(1), LEAVES[0]), to(ids(5), LEAVES[1])], [to(ids(10), LEAVES[2]), to(ids(13), LEAVES[3])]];
    pages.page("catalog, the objects below 9", kind, HALVES[0], 1, &halves[0], files(&leaves[..2]));
    pages.page("catalog, those from 9 on; 9 is no more", kind, HALVES[1], 1, &halves[1], files(&leaves[2..]));
    let what = ["the directories and a link", "files", "files", "files, one of them nameless"];
    for place in 0..4 {
        let what = format!("catalog leaf: {}", what[place]);
        pages.page(&what, kind, LEAVES[place], 0, &leaves[place], 0);
    }
    let taken: Vec<u64> = REGISTER_TAKEN.collect();
    pages.page("allocation leaf: group 0", TreeKind::Allocation, root.allocation, 0, &[bitmap(0, B, &taken)], 0);
    let cleanup = [retirement(4, 512, 8), retirement(5, 520, 10), orphan(NAMELESS.object)];
    pages.page("cleanup leaf: replaced pages, the nameless file", TreeKind::Cleanup, root.cleanup, 0, &cleanup, 0);
    let runs = [run(560, 12), run(576, 4)];
    pages.page("workspace leaf: blocks kept ready", TreeKind::Workspace, root.workspace, 0, &runs, 0);
    let held: usize = [
        (TreeKind::Catalog, root.catalog),
        (TreeKind::Allocation, root.allocation),
        (TreeKind::Cleanup, root.cleanup),
        (TreeKind::Workspace, root.workspace),
    ]
    .map(|(kind, at)| pages.held(kind, at, root.generation, None, &[], None))
    .iter()
    .sum();
    assert_eq!(held + 2, pages.rows.len(), "every page is in a tree, once");
    pages
}

// Roots and pages, good and damaged

fn good_roots(file: &mut File) {
    let root = second_root();
    RootCase::new(&root, B - 257).add(file, "root with a label", GOOD);
    RootCase::new(&Root { label: None, ..root }, 256).add(file, "root without a label", GOOD);
    let longest = "\u{1F300}".repeat(63) + "abc";
    for (what, text) in [("root with the label `-`", "-"), ("root with a label of 255 bytes", &longest)] {
        let label = Label::new(text.as_bytes()).ok();
        RootCase::new(&Root { label, ..root }, 256).add(file, what, GOOD);
    }
    let smallest = Root {
        blocks: 1027,
        catalog: tree(512, 2),
        allocation: tree(513, 2),
        cleanup: tree(514, 1),
        free_blocks: 0,
        workspace: tree(32, 1),
        ..root
    };
    RootCase::new(&smallest, 1027 - 257).add(file, "root of the smallest volume, 1,027 blocks", GOOD);
}

#[rustfmt::skip]
fn bad_roots(file: &mut File) {
    let good = RootCase::new(&second_root(), 256);
    let word = |n: u64| n.to_le_bytes();
    let damaged: &[(&str, &str, usize, &[u8])] = &[
        ("root, magic", "root magic", 7, b"t"),
        ("root, revision 2", UNSUPPORTED, 8, &[2]),
        ("root, bytes 12..15 not 4096", "root envelope", 13, &[0x20]),
        ("root, bytes 20..23 not 65536", "root envelope", 20, &[1]),
        ("root, label length 256", "root label length", 184, &[0, 1]),
        ("root, a byte behind the label", "root label padding", 193, &[1]),
        ("root, byte 4091", "root label padding", 4091, &[1]),
        ("root, label with a surrogate", "root label UTF-8", 186, &[0xED, 0xA0, 0x80]),
        ("root, label with `/`", "invalid root label", 186, b"/"),
        ("root, label with U+009F", "invalid root label", 188, &[0xC2, 0x9F]),
        ("root, bit 0 of the features is set", UNSUPPORTED, 128, &[1]),
        ("root, filename profile 1", UNSUPPORTED, 136, &[1]),
        ("root, bit 0 of the state flags is set", UNSUPPORTED, 140, &[1]),
        ("root, self block", "root identity or geometry", 40, &[1]),
        ("root, device blocks", "root identity or geometry", 56, &[1]),
        ("root, maintenance reserve", "root maintenance reserve", 144, &[1]),
        ("root, zero UUID", "zero volume UUID", 24, &[0; 16]),
        ("root, generation 0", "invalid root generation or geometry", 48, &[0]),
        ("root, cursor 1 in a volume of one group", "workspace scan cursor exceeds geometry", 176, &[1]),
        ("root, catalog in block 511", "invalid tree reference", 64, &word(511)),
        ("root, allocation in block 1536", "invalid tree reference", 80, &word(1536)),
        ("root, cleanup of generation 0", "invalid tree reference", 104, &word(0)),
        ("root, workspace in block 96", "invalid workspace page reference", 160, &word(96)),
        ("root, workspace in block 33", "invalid workspace root", 160, &word(33)),
        ("root, workspace newer than the root", "invalid workspace root", 168, &word(3)),
        ("root, catalog and cleanup in one block", "root tree references share a block", 96, &word(515)),
        ("root, allocation newer than the root", "root tree generation is newer than root", 88, &word(3)),
        ("root, next object 1", "invalid next object ID", 112, &word(1)),
        ("root, next job 2^63", "invalid next cleanup-job ID", 152, &word(1 << 63)),
        ("root, 1,022 free blocks", "free block count exceeds geometry", 120, &word(1022)),
    ];
    RootCase { blocks: 1023, ..good.clone() }.add(file, "root, read with 1,023 blocks", GEOMETRY);
    RootCase { slot: 257, ..good.clone() }.add(file, "root, read with slot 257", "invalid root slot");
    let mut block = good.block;
    block[48] ^= 1;
    RootCase { block, ..good.clone() }.add(file, "root, one bit turned", "root checksum");
    for &(what, want, at, new) in damaged {
        good.with(at, new).add(file, what, want);
    }
    let dots = Root { label: Label::new(b"..a").ok(), ..second_root() };
    let dots = RootCase::new(&dots, 256).with(188, &[0]).with(184, &[2]);
    dots.add(file, "root, label `..`", "invalid root label");
}

fn good_pages(file: &mut File) {
    use TreeKind::{Allocation, Catalog, Cleanup, Workspace};
    let mut records = catalog_records();
    records[0] = directory(2);
    records.insert(2, entry(1, "way", 3, 3));
    records.push(link("note.txt".as_bytes()));
    PageCase::leaf(Catalog, B, &records).add(file, "catalog leaf with every kind of record and inode", GOOD);
    let children = [(owned(1, 1, &[]), child(tree(600, 1))), (numbered(2, 3, 0), child(tree(601, 2)))];
    let node = PageCase::node(Catalog, B, 1, &children, 1);
    node.add(file, "catalog internal page of two children", GOOD);
    PageCase { level: 1, ..node }.add(file, "the same, level 1 expected", GOOD);
    let mut many: Vec<Record> = (1..=137).map(|n| (owned(n, 1, &[]), child(tree(599 + n, 1)))).collect();
    many.push((owned(138, 2, b"fourteen bytes"), child(tree(1535, 2))));
    PageCase::node(Catalog, B, 7, &many, B).add(file, "catalog internal page of level 7, full: 4,016 bytes", GOOD);
    PageCase::leaf(Catalog, B, &[]).add(file, "catalog leaf, empty", GOOD);
    let holes = group(2, (1 << 39) - 1, &[(0, 1), (9, 2), (255, u32::MAX)]);
    let last = extent(2, (1 << 51) - 1, 1535, 1);
    PageCase::leaf(Catalog, B, &[last, holes]).add(file, "catalog leaf, the last extent and group of a file", GOOD);
    PageCase::leaf(Allocation, WIDE, &[bitmap(1, WIDE, &[17_000])]).add(file, "allocation leaf, the last group", GOOD);
    let groups = [0, 1].map(|n: u64| (n.to_be_bytes().to_vec(), child(tree(600 + n, 1))));
    PageCase::node(Allocation, WIDE, 1, &groups, 0).add(file, "allocation internal page", GOOD);
    let jobs = [retirement(1, 512, 1024), detached(1, 2, 1, 4, tree(600, 2)), orphan(1), orphan((1 << 63) - 2)];
    PageCase::leaf(Cleanup, B, &jobs).add(file, "cleanup leaf with every kind of record", GOOD);
    let keys = [(retirement(2, 1535, 1).0, child(tree(600, 1))), (orphan(7).0, child(tree(601, 2)))];
    PageCase::node(Cleanup, B, 1, &keys, 0).add(file, "cleanup internal page", GOOD);
    PageCase::leaf(Workspace, B, &[run(519, 8), run(1535, 1)]).add(file, "workspace leaf of two runs", GOOD);
    let banks = [(run(519, 0).0, child(tree(33, 1))), (run(1000, 0).0, child(tree(B - 33, 2)))];
    PageCase::node(Workspace, B, 2, &banks, 0).add(file, "workspace internal page", GOOD);
}

/// The caller's part and the header.
#[rustfmt::skip]
fn bad_headers(file: &mut File) {
    use TreeKind::{Catalog, Cleanup, Workspace};
    let good = PageCase::leaf(Catalog, B, &catalog_records());
    PageCase { blocks: 1023, ..good.clone() }.add(file, "page, read with 1,023 blocks", "device has no usable block range");
    PageCase { at: tree(515, 0), ..good.clone() }.add(file, "page, reference of generation 0", "invalid tree reference");
    let banks = PageCase::leaf(Workspace, B, &[]);
    PageCase { at: tree(515, 2), ..banks }.add(file, "workspace page in block 515", "invalid workspace page reference");
    PageCase { uuid: [0; 16], ..good.clone() }.add(file, "page, read with a zero UUID", "zero volume UUID");
    PageCase { parent: 0, ..good.clone() }.add(file, "page, parent generation 0", "invalid parent generation");
    PageCase { parent: 1, ..good.clone() }.add(file, "page, newer than its parent", "invalid parent generation");
    PageCase { level: 8, ..good.clone() }.add(file, "page, level 8 expected", "invalid expected page level");
    let mut page = good.page;
    page[3000] ^= 1;
    PageCase { page, ..good.clone() }.add(file, "page, one bit of the padding turned", "page checksum");
    let damaged: &[(&str, &str, usize, &[u8])] = &[
        ("page, magic", "page magic", 0, b"c"),
        ("page, revision 2", UNSUPPORTED, 8, &[2]),
        ("page, bit 0 of the flags is set", UNSUPPORTED, 10, &[1]),
        ("page, page kind 3", "page kind", 12, &[3]),
        ("page, tree kind 5", "page tree kind", 13, &[5]),
        ("page, tree kind 2 where 1 is due", "page tree kind mismatch", 13, &[2]),
        ("page, leaf of level 1", "page level", 14, &[1]),
        ("page, internal of level 8", "page level", 12, &[2, 1, 8]),
        ("page, byte 15", "page reserved bytes", 15, &[1]),
        ("page, byte 39", "page reserved bytes", 39, &[1]),
        ("page, byte 79", "page reserved bytes", 79, &[1]),
        ("page, self block", "page identity or generation", 16, &[4]),
        ("page, generation", "page identity or generation", 24, &[1]),
        ("page, UUID", "page UUID", 55, &[0]),
        ("page, payload length 4,017", "page payload length", 34, &4017u16.to_le_bytes()),
        ("page, total above blocks", "page data-block total", 56, &2049u64.to_le_bytes()),
    ];
    for &(what, want, at, new) in damaged {
        good.with(at, new).add(file, what, want);
    }
    PageCase { level: 1, ..good.clone() }.add(file, "leaf, level 1 expected", "unexpected page level");
    let orphans = PageCase::leaf(Cleanup, B, &[orphan(1)]);
    orphans.with(56, &[1]).add(file, "cleanup leaf with a total", "non-catalog data-block total");
}

/// The walk over the records, and what comes after it.
fn bad_walks(file: &mut File) {
    use TreeKind::{Catalog, Cleanup};
    let good = PageCase::leaf(Catalog, B, &catalog_records());
    let one = PageCase::leaf(Cleanup, B, &[orphan(1)]);
    one.with(32, &[4]).add(file, "four records in 13 bytes", "record count exceeds payload");
    let end = |orphans: u64, retirements: u64| {
        let mut records: Vec<Record> = (0..retirements).map(|n| retirement(1, 512 + n, 1)).collect();
        records.extend((1..=orphans).map(orphan));
        let count = (records.len() as u16 + 1).to_le_bytes();
        PageCase::leaf(Cleanup, B, &records).with(32, &count)
    };
    end(291, 8).add(file, "one record too many, the walk at byte 4095", "record key length");
    end(282, 12).add(file, "one record too many, the walk at byte 4094", "record value length");
    one.with(32, &[2]).add(file, "one record too many, zeros behind the payload", "invalid record key length");
    let beyond = one.with(32, &[2]).with(93, &[1]);
    beyond.add(file, "one record too many, 01 00 00 00 behind the payload", "record exceeds payload");
    one.with(80, &[1, 4]).add(file, "key of 1,025 bytes", "invalid record key length");
    one.with(82, &[0xFF, 0xFF]).add(file, "value of 65,535 bytes", "record is too large");
    one.with(82, &[1]).add(file, "record one byte longer than the payload", "record exceeds payload");
    let wrong = |a, b| PageCase::laid(Cleanup, B, 0, &[orphan(a), orphan(b)]);
    wrong(2, 1).add(file, "keys in the wrong order", "record keys are not increasing");
    wrong(2, 2).add(file, "two equal keys", "record keys are not increasing");
    one.with(34, &[14]).add(file, "payload one byte longer than its record", "payload has unconsumed bytes");
    good.with(56, &[2]).add(file, "leaf total 2, one block in its extents", "leaf data-block total");
    good.with(4095, &[1]).add(file, "a byte behind the payload", "page padding");
    let lonely = PageCase::laid(Cleanup, B, 1, &[(orphan(1).0, child(tree(600, 1)))]);
    lonely.add(file, "internal page of one child", "internal page has too few children");
    let twins = [1, 2].map(|n| (orphan(n).0, child(tree(600, n))));
    PageCase::laid(Cleanup, B, 1, &twins).add(file, "two children in one block", "internal children share a block");
}

/// One record that is at fault, in a leaf of its own.
#[rustfmt::skip]
fn bad_leaf_records(file: &mut File) {
    use TreeKind::{Allocation, Catalog, Cleanup, Workspace};
    let (dir, note, way) = (directory(1), file_inode(), link(b"note.txt"));
    let (name, data, sums) = (entry(1, "note.txt", 2, 1), extent(2, 0, 518, 1), group(2, 0, &[(0, 1), (2, 3)]));
    let (map, gone) = (bitmap(0, B, &[]), retirement(2, 512, 3));
    let (job, lost) = (detached(1, 2, 1, 4, tree(600, 2)), orphan(1));
    let far = u64::MAX.to_le_bytes();
    let long = link(&[b'x'; 1024]);
    let cases: Vec<(TreeKind, &str, &str, Record)> = vec![
        (Catalog, "catalog key of 8 bytes", "catalog key is too short", (vec![0, 0, 0, 0, 0, 0, 0, 1], vec![])),
        (Catalog, "catalog key with owner 0", "invalid object ID", key_with(&dir, 7, &[0])),
        (Catalog, "catalog key with owner 2^63 - 1", "invalid object ID", (owned((1 << 63) - 1, 1, &[]), dir.1.clone())),
        (Catalog, "catalog key of kind 5", "invalid catalog key", key_with(&dir, 8, &[5])),
        (Catalog, "inode key of 10 bytes", "invalid catalog key", (owned(1, 1, &[0]), dir.1.clone())),
        (Catalog, "entry key that isn't UTF-8", "invalid catalog key", key_with(&name, 9, &[0xC0])),
        (Catalog, "inode without a byte", "invalid inode length", value_cut(&note, 0)),
        (Catalog, "inode of type 4, too short as well", "invalid inode type", (note.0.clone(), vec![4])),
        (Catalog, "file inode of 129 bytes", "invalid inode length", value_cut(&note, 129)),
        (Catalog, "file inode with flag 1", "invalid inode flags or reserved bytes", value_with(&note, 1, &[2])),
        (Catalog, "symlink with flag 2 alone", "invalid inode flags or reserved bytes", value_with(&way, 1, &[4])),
        (Catalog, "inode, byte 127", "invalid inode flags or reserved bytes", value_with(&note, 127, &[1])),
        (Catalog, "inode with parent 0", "invalid object ID", value_with(&note, 8, &[0])),
        (Catalog, "inode of size 2^63", "inode range", value_with(&note, 16, &(1u64 << 63).to_le_bytes())),
        (Catalog, "inode with 2,049 blocks", "inode range", value_with(&note, 24, &2049u64.to_le_bytes())),
        (Catalog, "directory with a size", "inode type-specific fields", value_with(&dir, 16, &[1])),
        (Catalog, "file with a child", "inode type-specific fields", value_with(&note, 32, &[1])),
        (Catalog, "symlink whose size isn't its target's", "inode type-specific fields", value_with(&way, 16, &[7])),
        (Catalog, "symlink to 1,024 bytes", "symlink target is too long", long),
        (Catalog, "symlink to a text with NUL", "invalid symlink target", value_with(&way, 128, &[0])),
        (Catalog, "seconds -11644473601", "timestamp seconds out of range", value_with(&note, 40, &time(-11_644_473_601, 0))),
        (Catalog, "seconds 253402300800", "timestamp seconds out of range", value_with(&note, 56, &time(253_402_300_800, 0))),
        (Catalog, "nanoseconds 1000000000", "timestamp nanoseconds out of range", value_with(&note, 72, &time(0, 1_000_000_000))),
        (Catalog, "inode, byte 55", "timestamp reserved bytes", value_with(&note, 55, &[1])),
        (Catalog, "entry of 11 bytes", "directory entry is too short", value_cut(&name, 11)),
        (Catalog, "entry with target 0", "invalid object ID", value_with(&name, 0, &[0])),
        (Catalog, "entry of type 4", "invalid directory entry type", value_with(&name, 8, &[4])),
        (Catalog, "entry, byte 9", "directory entry reserved byte", value_with(&name, 9, &[1])),
        (Catalog, "entry, name of 9 bytes in 8", "invalid directory entry name", value_with(&name, 10, &[9])),
        (Catalog, "extent of 17 bytes", "invalid extent length", value_cut(&data, 17)),
        (Catalog, "extent at 2^64 - 1", "extent physical range", value_with(&data, 0, &far)),
        (Catalog, "extent for logical 2^64 - 1", "extent logical range", extent(2, u64::MAX, 518, 1)),
        (Catalog, "extent of no block", "invalid extent range", value_with(&data, 8, &[0])),
        (Catalog, "extent that ends in block 1536", "invalid extent range", extent(2, 0, 1535, 2)),
        (Catalog, "extent that ends past logical 2^51", "invalid extent range", extent(2, (1 << 51) - 1, 518, 2)),
        (Catalog, "group of 32 bytes", "invalid checksum group", value_cut(&sums, 32)),
        (Catalog, "group with index 2^39", "invalid checksum group", (numbered(2, 4, 1 << 39), sums.1.clone())),
        (Catalog, "group with a hole at its end", "checksum group is not compact", value_cut(&sums, 48)),
        (Catalog, "group with a word in a hole", "hole checksum is nonzero", value_with(&sums, 36, &[1])),
        (Allocation, "bitmap of 2,047 bytes", "invalid allocation group", value_cut(&map, 2047)),
        (Allocation, "group 1 of one", "allocation group index out of range", key_with(&map, 7, &[1])),
        (Allocation, "block 511 free", "reserved allocation bit is free", value_with(&map, 63, &[0x7F])),
        (Allocation, "block 1536 free", "reserved allocation bit is free", value_with(&map, 192, &[0xFE])),
        (Cleanup, "cleanup key of 10 bytes", "invalid cleanup key length", (cleanup(3, 1, &[0]), vec![])),
        (Cleanup, "retirement of 9 bytes", "invalid retirement record", value_cut(&gone, 9)),
        (Cleanup, "retirement at 2^64 - 1", "retirement range", retirement(2, u64::MAX, 1)),
        (Cleanup, "retirement newer than its page", "invalid retirement range", retirement(3, 512, 3)),
        (Cleanup, "detached tree of 31 bytes", "invalid detached-tree job", value_cut(&job, 31)),
        (Cleanup, "detached tree of job 0", "invalid object ID", key_with(&job, 8, &[0])),
        (Cleanup, "detached tree, kinds 3 to 2", "invalid detached-tree kind range", value_with(&job, 8, &[3, 2])),
        (Cleanup, "detached tree in block 511", "invalid tree reference", detached(1, 2, 1, 4, tree(511, 2))),
        (Cleanup, "detached tree newer than its page", "detached-tree reference is newer", detached(1, 2, 1, 4, tree(600, 3))),
        (Cleanup, "orphan marker with a value", "invalid orphan marker", value_cut(&lost, 1)),
        (Cleanup, "orphan marker of object 0", "invalid object ID", orphan(0)),
        (Cleanup, "cleanup key of kind 4", "unknown cleanup record kind", key_with(&lost, 0, &[4])),
        (Workspace, "workspace key of 7 bytes", "workspace key length", (vec![0; 7], vec![1, 0, 0, 0])),
        (Workspace, "run from block 511", "invalid workspace block", run(511, 1)),
        (Workspace, "run of 3 bytes", "workspace run length", value_cut(&run(519, 1), 3)),
        (Workspace, "run of no block", "invalid workspace run length", run(519, 0)),
        (Workspace, "run that ends in block 1536", "workspace run leaves the volume", run(1535, 2)),
    ];
    for (kind, what, want, record) in cases {
        PageCase::laid(kind, B, 0, &[record]).add(file, what, want);
    }
    let most = PageCase::laid(Allocation, u64::MAX, 0, &[bitmap(0, u64::MAX, &[])]);
    most.add(file, "allocation group, 2^64 - 1 blocks", "allocation group index");
}

/// One record that is at fault, in an internal page: the first of two.
#[rustfmt::skip]
fn bad_internal_records(file: &mut File) {
    use TreeKind::{Allocation, Catalog, Cleanup, Workspace};
    let to = |block, generation| child(tree(block, generation));
    let zero = 0u64.to_be_bytes().to_vec();
    let two = 2u64.to_be_bytes().to_vec();
    let inode = owned(1, 1, &[]);
    let cases: Vec<(TreeKind, &str, &str, Record)> = vec![
        (Catalog, "internal, catalog key of kind 0", "invalid catalog key", (owned(1, 0, &[]), to(600, 1))),
        (Catalog, "internal, value of 15 bytes", "internal value is not a tree reference", (inode.clone(), vec![1; 15])),
        (Catalog, "internal, child in block 511", "invalid tree reference", (inode.clone(), to(511, 1))),
        (Catalog, "internal, child newer than its page", "child generation is newer than parent", (inode, to(600, 3))),
        (Allocation, "internal, allocation key of 7 bytes", "invalid allocation internal key", (vec![0; 7], to(600, 1))),
        (Allocation, "internal, group 2 of two", "allocation internal key range", (two, to(600, 1))),
        (Cleanup, "internal, cleanup key of 10 bytes", "invalid cleanup internal key", (vec![3; 10], to(600, 1))),
        (Cleanup, "internal, retirement key newer than its page", "invalid retirement generation", (retirement(3, 512, 1).0, to(600, 1))),
        (Cleanup, "internal, retirement key with block 511", "invalid retirement block", (retirement(2, 511, 1).0, to(600, 1))),
        (Workspace, "internal, workspace key of 9 bytes", "workspace key length", (vec![0; 9], to(33, 1))),
        (Workspace, "internal, workspace child in block 600", "invalid workspace page reference", (run(519, 0).0, to(600, 1))),
    ];
    for (kind, what, want, record) in cases {
        let blocks = if kind == Allocation { WIDE } else { B };
        let next = (vec![0xFF], to(700, 1));
        PageCase::laid(kind, blocks, 1, &[record, next]).add(file, what, want);
    }
    let most = PageCase::laid(Allocation, u64::MAX, 1, &[(zero, to(600, 1)), (vec![0xFF], to(700, 1))]);
    most.add(file, "internal, allocation key, 2^64 - 1 blocks", "allocation internal key");
}

fn readback() -> File {
    let mut file = File::default();
    good_roots(&mut file);
    bad_roots(&mut file);
    good_pages(&mut file);
    bad_headers(&mut file);
    bad_walks(&mut file);
    bad_leaf_records(&mut file);
    bad_internal_records(&mut file);
    file
}

// The list of contents, and the paper's dumps

/// One row for each body: its number, what it is, what is answered.
fn rows(name: &str, file: &File, answers: &str) -> String {
    let mut out = format!("\n## {name}\n\n| body | what | answer |\n|---|---|---|\n");
    for (number, (what, line)) in file.what.iter().zip(answers.lines().skip(1)).enumerate() {
        let answer = line.split_once(' ').expect("an answer").1;
        let short: String = answer.chars().take(20).collect();
        let more = if short == answer { "" } else { " .." };
        writeln!(out, "| {number} | {what} | `{short}`{more} |").expect("a string");
    }
    out
}

/// One row for each page of a list: its block, what it is, what is answered, its first and last key.
fn page_rows(name: &str, pages: &Pages) -> String {
    let mut out = format!("\n## {name}\n\n| block | what | answer | keys |\n|---|---|---|---|\n");
    for [block, what, answer, keys] in &pages.rows {
        writeln!(out, "| {block} | {what} | `{answer}` | {keys} |").expect("a string");
    }
    out
}

/// The blocks of a file's bodies.
fn blocks(file: &File) -> Vec<&[u8]> {
    let (mut rest, mut found) = (&file.bytes[..], vec![]);
    while let Some(kind) = rest.first() {
        let head = if *kind == 1 { 17 } else { 51 };
        found.push(&rest[head..head + BLOCK_BYTES]);
        rest = &rest[head + BLOCK_BYTES..];
    }
    found
}

/// Rebuilds the blocks that the paper's dumps give and holds each to its body, all 4,096 bytes of it. A line `body N` opens
/// a dump, of volume.readback, or of readback.bin where it says so; lines of an offset and bytes follow, or of one byte and
/// `to` its last place. What no line shows is zero, or as in another body where the opening line says so.
fn dumps(paper: &str) -> Result<usize, String> {
    let files = [volume(), readback()];
    let bodies = [blocks(&files[0]), blocks(&files[1])];
    let mut built: BTreeMap<(usize, usize), Block> = BTreeMap::new();
    let (mut open, mut lines) = (None, 0);
    for line in paper.lines() {
        let wrong = || format!("not a line of a dump: {line}");
        let number = |text: &str| text.parse::<usize>().map_err(|_| wrong());
        if line.starts_with("```") {
            open = None;
        } else if let Some(rest) = line.strip_prefix("body ") {
            let (head, like) = rest.split_once("; what isn't shown").unwrap_or((rest, ""));
            let (head, file) = head.strip_suffix(" of readback.bin").map_or((head, 0), |head| (head, 1));
            let body = (file, number(head)?);
            let mut block = [0; BLOCK_BYTES];
            if let Some((part, other)) = like.split_once(" is as in body ") {
                let length = match part {
                    "" => BLOCK_BYTES,
                    " of bytes 0..55" => 56,
                    _ => return Err(wrong()),
                };
                let other = built.get(&(0, number(other)?)).ok_or_else(wrong)?;
                put(&mut block, 0, &other[..length]);
            }
            built.entry(body).or_insert(block);
            open = Some(body);
        } else if let Some(body) = open {
            let (at, rest) = line.trim_start().split_once("  ").ok_or_else(wrong)?;
            let shown = rest.split("  ").next().unwrap_or_default();
            let at = number(at)?;
            let byte = |word: &str| u8::from_str_radix(word, 16).map_err(|_| wrong());
            let bytes = match shown.split_once(" to ") {
                Some((word, last)) => vec![byte(word)?; (number(last)? + 1).saturating_sub(at)],
                None => shown.split(' ').map(byte).collect::<Result<_, _>>()?,
            };
            let block = built.get_mut(&body).ok_or_else(wrong)?;
            block.get_mut(at..at + bytes.len()).ok_or_else(wrong)?.copy_from_slice(&bytes);
            lines += 1;
        }
    }
    for ((file, body), block) in &built {
        let due = bodies[*file].get(*body).ok_or(format!("no body {body}"))?;
        if let Some(at) = (0..BLOCK_BYTES).find(|&at| block[at] != due[at]) {
            let name = ["volume.readback", "readback.bin"][*file];
            return Err(format!("body {body} of {name}: the paper is wrong at {at}"));
        }
    }
    match (0..bodies[0].len()).find(|&body| !built.contains_key(&(0, body))) {
        Some(body) => Err(format!("the paper has no dump of body {body}")),
        None => Ok(lines),
    }
}

fn main() -> Result<(), String> {
    let words: Vec<String> = std::env::args().skip(1).collect();
    let read = |path: &str| std::fs::read_to_string(path).map_err(|e| format!("{path}: {e}"));
    let write = |path: String, bytes: &[u8]| std::fs::write(&path, bytes).map_err(|e| format!("{path}: {e}"));
    match words.iter().map(String::as_str).collect::<Vec<_>>()[..] {
        ["files", dir] => {
            write(format!("{dir}/volume.readback"), &volume().bytes)?;
            write(format!("{dir}/levels.pages"), &register().bytes)?;
            write(format!("{dir}/readback.bin"), &readback().bytes)
        }
        ["contents", dir, head] => {
            let mut out = read(head)?;
            out += &rows("volume.readback", &volume(), &read(&format!("{dir}/volume.txt"))?);
            out += &page_rows("levels.pages", &register());
            out += &rows("readback.bin", &readback(), &read(&format!("{dir}/readback.txt"))?);
            write(format!("{dir}/CONTENTS.md"), out.as_bytes())
        }
        ["dumps", paper] => {
            let lines = dumps(&read(paper)?)?;
            println!("samples: {lines} lines of dumps in {paper} give every byte of their blocks");
            Ok(())
        }
        _ => Err("samples files DIR | contents DIR HEAD | dumps PAPER".into()),
    }
}
