//! The searches in samples/levels.pages, a volume whose catalog has three levels: those of docs/READING-RULES.md 16.14, one in
//! each leaf, and class 8 in its catalog. Of its pages only those are laid that the sought key leads to.

use super::Each;
use crate::call::{LAID_PAGE, LONGEST_IMAGE};
use crate::oracle::{kind, tree};
use crate::records::{Record, catalog_key};
use crate::trees::{Laid, Search, empty_page};
use reference::format::Root;

const LIST: &[u8] = include_bytes!("../../../../samples/levels.pages");
const BLOCK: u64 = 4_096;

pub fn all(each: Each) {
    told(each);
    leaves(each);
    others(each);
    bounds(each);
}

fn number(bytes: &[u8], at: usize) -> u64 {
    u64::from_le_bytes(bytes[at..at + 8].try_into().expect("eight bytes"))
}

/// The list's first block, the root in its slot.
fn root() -> Root {
    let block = &LIST[8..LAID_PAGE];
    Root::decode(block, number(LIST, 0), number(block, 56)).expect("the sample's root")
}

/// The root as a call has it.
fn numbers(root: &Root) -> [u64; 16] {
    let label = root.label.map_or(0, |label| label.as_bytes().len() as u64);
    let mut numbers = [0; 16];
    numbers[..4].copy_from_slice(&[u64::from(root.label.is_some()), label, root.generation, root.blocks]);
    for (at, tree) in [(4, root.catalog), (6, root.allocation), (8, root.cleanup), (13, root.workspace)] {
        (numbers[at], numbers[at + 1]) = (tree.block, tree.generation);
    }
    numbers[10..13].copy_from_slice(&[root.next_object, root.free_blocks, root.next_job]);
    numbers[15] = root.workspace_cursor;
    numbers
}

fn label(root: &Root) -> Vec<u8> {
    let mut label = root.label.map_or(Vec::new(), |label| label.as_bytes().to_vec());
    label.resize(255, 0);
    label
}

/// A page of the list with its records.
fn laid(entry: &[u8], root: &Root) -> Laid {
    let (at, page) = (number(entry, 0), &entry[8..]);
    let (no, level, own) = (u64::from(page[13]), page[14], tree(at, number(page, 24)));
    let mut case = empty_page(no, level, own, root.blocks, root.uuid);
    let view =
        reference::format::decode_page(page, own, &root.uuid, kind(no), own.generation, Some(level), root.blocks);
    let records = view.expect("a page of the sample").records();
    case.records = records.map(|(key, value)| (key.to_vec(), value.to_vec())).collect();
    case.page = page.to_vec();
    Laid { at, case }
}

/// The search of a key from a page on, by default from the root page of the tree; the image ends behind the last page.
fn search(kind: u64, key: &[u8], from: Option<u64>) -> Search {
    let root = root();
    let pages: Vec<Laid> = LIST.chunks_exact(LAID_PAGE).skip(2).map(|entry| laid(entry, &root)).collect();
    let (numbers, label) = (numbers(&root), label(&root));
    let mut search =
        Search { count: 0, kind, root: numbers, image: 0, uuid: root.uuid, label, key: key.to_vec(), pages };
    if let Some(page) = search.pages.iter().find(|laid| Some(laid.at) == from) {
        search.set_reference(tree(page.at, page.case.generation));
    }
    search.pages = search.path().iter().map(|step| search.pages[step.page].clone()).collect();
    search.fit_image();
    search
}

fn catalog(owner: u64, kind: u8) -> Search {
    search(1, &catalog_key(owner, kind, b""), None)
}

/// Found, none because object 9 is no more, none in the leaf, and the image cut behind block 533.
fn told(each: Each) {
    each(catalog(11, 1).call());
    each(catalog(9, 1).call());
    let mut absent = catalog(8, 5);
    each(absent.call());
    absent.pages.pop();
    absent.image = 534 * BLOCK;
    each(absent.call());
}

/// A record of each of the other three leaves: a directory's entry, the last checksum group, an extent.
fn leaves(each: Each) {
    let keys =
        [catalog_key(3, 2, "0004 Mütze, blau.txt".as_bytes()), catalog_key(8, 4, &[0; 8]), catalog_key(15, 3, &[0; 8])];
    keys.iter().for_each(|key| each(search(1, key, None).call()));
}

/// The group of the allocation tree, the orphan of the cleanup tree; the workspace's leaf is behind every image.
fn others(each: Each) {
    each(search(2, &[0; 8], None).call());
    each(search(3, &[3, 0, 0, 0, 0, 0, 0, 0, 15], None).call());
    let mut workspace = search(4, &560u64.to_be_bytes(), None);
    workspace.pages.clear();
    workspace.image = LONGEST_IMAGE;
    each(workspace.call());
}

/// The search with its leaf's records changed, which passes by itself.
fn changed(mut search: Search, change: impl FnOnce(&mut Vec<Record>)) -> Search {
    let leaf = &mut search.pages.last_mut().expect("a leaf").case;
    change(&mut leaf.records);
    assert!(leaf.encode(0), "a changed leaf passes");
    search
}

/// Class 8: in two levels from block 532 on below the lower bound and at the upper one, and in three at the inherited one.
fn bounds(each: Each) {
    let key = catalog_key(11, 1, b"");
    let two = search(1, &key, Some(532));
    each(changed(two.clone(), |records| records[0].0 = catalog_key(9, 1, b"")).call());
    each(changed(two, |records| records.push((catalog_key(13, 1, b""), records[0].1.clone()))).call());
    // Object 9 has an entry `x`, in the leaf before that in which it would be.
    let entry = search(1, &catalog_key(1, 2, b"2025"), None).pages[2].case.records[1].1.clone();
    each(changed(catalog(8, 5), |records| records.push((catalog_key(9, 2, b"x"), entry))).call());
}
