//! The bodies of samples/, as 01's "The program readback" lays them out.
#![allow(dead_code)]
use carryfs::{Root, RootBlock, TreeKind, TreeRef, crc32c, decode_page};

pub const VOLUME: &[u8] = include_bytes!("../../../../samples/volume.readback");
pub const READBACK: &[u8] = include_bytes!("../../../../samples/readback.bin");
/// The pages of a volume whose catalog has three levels, each with its block before it (samples/CONTENTS.md).
pub const LEVELS: &[u8] = include_bytes!("../../../../samples/levels.pages");
pub const BLOCK: usize = 4096;

#[derive(Clone, Copy)]
pub struct PageBlock<'a> {
    pub bytes: &'a [u8],
    pub at: TreeRef,
    pub uuid: &'a [u8; 16],
    pub kind: TreeKind,
    pub parent: u64,
    pub level: Option<u8>,
    pub blocks: u64,
}

#[derive(Clone, Copy)]
pub enum Body<'a> {
    Root(RootBlock<'a>),
    Page(PageBlock<'a>),
}

fn number(bytes: &[u8]) -> u64 {
    u64::from_le_bytes(bytes[..8].try_into().expect("8 bytes"))
}

pub fn bodies(mut file: &[u8]) -> Vec<Body<'_>> {
    let mut list = Vec::new();
    while let [kind, rest @ ..] = file {
        let head = if *kind == 1 { 16 } else { 50 };
        let (body, rest) = rest.split_at(head + BLOCK);
        let bytes = &body[head..];
        list.push(match kind {
            1 => Body::Root(RootBlock { bytes, slot: number(body), blocks: number(&body[8..]) }),
            2 => Body::Page(PageBlock {
                bytes,
                at: TreeRef { block: number(body), generation: number(&body[8..]) },
                uuid: body[16..32].try_into().expect("16 bytes"),
                kind: [TreeKind::Catalog, TreeKind::Allocation, TreeKind::Cleanup, TreeKind::Workspace]
                    [usize::from(body[32]) - 1],
                parent: number(&body[33..]),
                level: Some(body[41]).filter(|&level| level != 255),
                blocks: number(&body[42..]),
            }),
            _ => panic!("a body of kind {kind}"),
        });
        file = rest;
    }
    list
}

/// The roots of a file, in their order.
pub fn roots(file: &[u8]) -> Vec<RootBlock<'_>> {
    bodies(file).into_iter().filter_map(|body| if let Body::Root(root) = body { Some(root) } else { None }).collect()
}

pub fn pages(file: &[u8]) -> Vec<PageBlock<'_>> {
    bodies(file).into_iter().filter_map(|body| if let Body::Page(page) = body { Some(page) } else { None }).collect()
}

/// The image of the volume of LEVELS, and its root.
pub fn register() -> (Vec<u8>, Root) {
    let blocks = 2048;
    let mut image = vec![0; blocks * BLOCK];
    for page in LEVELS.chunks(8 + BLOCK) {
        let start = number(page) as usize * BLOCK;
        image[start..start + BLOCK].copy_from_slice(&page[8..]);
    }
    let root = Root::decode(&image[256 * BLOCK..257 * BLOCK], 256, blocks as u64).expect("the newer root");
    (image, root)
}

/// The blocks of the four trees' pages in LEVELS.
pub fn register_pages() -> Vec<usize> {
    LEVELS.chunks(8 + BLOCK).skip(2).map(|page| number(page) as usize).collect()
}

pub const KINDS: [TreeKind; 4] = [TreeKind::Catalog, TreeKind::Allocation, TreeKind::Cleanup, TreeKind::Workspace];

pub fn tree_of(root: &Root, kind: TreeKind) -> TreeRef {
    match kind {
        TreeKind::Catalog => root.catalog,
        TreeKind::Allocation => root.allocation,
        TreeKind::Cleanup => root.cleanup,
        TreeKind::Workspace => root.workspace,
    }
}

/// Another root page for a tree.
pub fn with_tree(root: &Root, kind: TreeKind, tree: TreeRef) -> Root {
    let mut root = *root;
    match kind {
        TreeKind::Catalog => root.catalog = tree,
        TreeKind::Allocation => root.allocation = tree,
        TreeKind::Cleanup => root.cleanup = tree,
        TreeKind::Workspace => root.workspace = tree,
    }
    root
}

/// Other bytes in a page of an image, and the checksum that fits.
pub fn change(image: &mut [u8], block: usize, at: usize, bytes: &[u8]) {
    let page = &mut image[block * BLOCK..(block + 1) * BLOCK];
    page[at..at + bytes.len()].copy_from_slice(bytes);
    page[64..68].fill(0);
    let word = crc32c(page);
    page[64..68].copy_from_slice(&word.to_le_bytes());
}

/// The leaf records of a tree whose pages are all good, from a page down.
pub fn leaf_records<'a>(
    image: &'a [u8],
    root: &Root,
    kind: TreeKind,
    at: TreeRef,
    parent: u64,
) -> Vec<(&'a [u8], &'a [u8])> {
    let bytes = &image[at.block as usize * BLOCK..][..BLOCK];
    let page = decode_page(bytes, at, &root.uuid, kind, parent, None, root.blocks).expect("a page");
    if page.level == 0 {
        return page.records().collect();
    }
    let below = |(_, value): (&[u8], &[u8])| {
        let child = TreeRef { block: number(value), generation: number(&value[8..]) };
        leaf_records(image, root, kind, child, at.generation)
    };
    page.records().flat_map(below).collect()
}

/// A root like this one, of another volume: another UUID, and the checksum at the end made to fit.
pub fn stranger(root: RootBlock) -> Vec<u8> {
    let mut bytes = root.bytes.to_vec();
    let uuid = Root::decode(root.bytes, root.slot, root.blocks).expect("a root").uuid;
    let at = bytes.windows(16).position(|part| part == uuid).expect("the UUID");
    bytes[at] ^= 1;
    bytes[BLOCK - 4..].fill(0);
    let word = crc32c(&bytes);
    bytes[BLOCK - 4..].copy_from_slice(&word.to_le_bytes());
    bytes
}

/// A full checksum group with words in some slots, and its stored form.
pub fn group(slots: &[usize]) -> ([u8; 1056], Vec<u8>) {
    let mut group = [0; 1056];
    for &slot in slots {
        group[slot / 8] |= 1 << (slot % 8);
        group[32 + 4 * slot..36 + 4 * slot].copy_from_slice(&(0x0002_0304 * slot as u32 + 5).to_le_bytes());
    }
    let stored = slots.iter().max().map_or(32, |last| 36 + 4 * last);
    (group, group[..stored].to_vec())
}

/// The catalog key of a checksum group.
pub fn group_key(index: u64) -> Vec<u8> {
    [&2u64.to_be_bytes()[..], &[4], &index.to_be_bytes()].concat()
}
