//! Call 60 of `probe_added`: our own descent from the root to the record, written from the request (02, Ticket 1), over the
//! reference's `decode_page`, `floor_record` and `records`.

use crate::call::{LAID_PAGE, LONGEST_IMAGE, Lent};
use crate::oracle::{self, Said};
use crate::reasons::class_and_reason;
use reference::format::{BLOCK_BYTES, PageView, Root, TreeKind, TreeRef, decode_page};
use std::cell::RefCell;

/// Zeros, but for the pages that the last call laid.
struct Image {
    bytes: Vec<u8>,
    laid: Vec<(usize, usize)>,
}

impl Image {
    /// The image of a call: zeros of its length, the pages laid one after the other, without what falls beyond the end.
    fn of(&mut self, len: usize, pages: &[u8]) -> &[u8] {
        for (from, to) in self.laid.drain(..) {
            self.bytes[from..to].fill(0);
        }
        for page in pages.chunks_exact(LAID_PAGE) {
            let (block, page) = page.split_at(8);
            let block = u64::from_le_bytes(block.try_into().expect("eight bytes"));
            let from = u128::from(block) * BLOCK_BYTES as u128;
            if from < len as u128 {
                let from = from as usize;
                let to = (from + BLOCK_BYTES).min(len);
                self.bytes[from..to].copy_from_slice(&page[..to - from]);
                self.laid.push((from, to));
            }
        }
        &self.bytes[..len]
    }
}

thread_local! {
    /// It is kept from call to call: to make it anew would cost more than a search.
    static IMAGE: RefCell<Image> = RefCell::new(Image { bytes: vec![0; LONGEST_IMAGE as usize], laid: Vec::new() });
}

/// How a search ends.
#[derive(Clone, Copy, Debug, PartialEq, Eq, PartialOrd, Ord)]
pub enum End {
    /// The places of key and value: offset and length of each.
    Found([u64; 4]),
    NotInLeaf,
    BelowFirst,
    BeyondImage,
    BelowLower,
    NotBelowUpper,
    Refused(u64, u64),
}

/// A search's end, the state it leaves, and for the tables where it ended.
#[derive(Clone, Copy, Debug)]
pub struct Answer {
    pub end: End,
    pub count: u64,
    /// How many pages were accepted.
    pub pages: u64,
    /// The level of the page where it ended, of a page not accepted the level that was expected; none at the root.
    pub level: Option<u8>,
    /// Whether the upper bound there came from above the parent.
    pub inherited: bool,
}

impl Answer {
    pub fn verdict(&self) -> (u64, u64) {
        match self.end {
            End::Found(_) | End::NotInLeaf | End::BelowFirst => (0, 0),
            End::BeyondImage => (7, 0),
            End::BelowLower | End::NotBelowUpper => (8, 0),
            End::Refused(class, reason) => (class, reason),
        }
    }
}

fn root_of(root: &Root, kind: TreeKind) -> TreeRef {
    match kind {
        TreeKind::Catalog => root.catalog,
        TreeKind::Allocation => root.allocation,
        TreeKind::Cleanup => root.cleanup,
        TreeKind::Workspace => root.workspace,
    }
}

/// The block, if it ends within the image.
fn block_of(image: &[u8], block: u64) -> Option<&[u8]> {
    let from = u128::from(block) * BLOCK_BYTES as u128;
    let end = from + BLOCK_BYTES as u128;
    (end <= image.len() as u128).then(|| &image[from as usize..end as usize])
}

/// The bounds of a page's keys, none where there is none.
#[derive(Clone, Copy)]
struct Bounds<'a> {
    lower: Option<&'a [u8]>,
    upper: Option<&'a [u8]>,
    inherited: bool,
}

impl<'a> Bounds<'a> {
    fn broken_by(&self, view: &PageView<'a>) -> Option<End> {
        view.records().find_map(|(key, _)| {
            if self.lower.is_some_and(|lower| key < lower) {
                return Some(End::BelowLower);
            }
            self.upper.is_some_and(|upper| key >= upper).then_some(End::NotBelowUpper)
        })
    }
}

fn in_leaf(view: &PageView, key: &[u8], image: &[u8]) -> End {
    match view.records().find(|(found, _)| *found == key) {
        Some((key, value)) => {
            End::Found([oracle::offset(key, image), key.len() as u64, oracle::offset(value, image), value.len() as u64])
        }
        None => End::NotInLeaf,
    }
}

/// The reference through which an internal page is left, and the bounds below it; none where the key is below the first one.
fn through<'a>(view: &PageView<'a>, key: &[u8], bounds: Bounds<'a>) -> Option<(TreeRef, Bounds<'a>)> {
    let (_, mut records) = view.floor_record(key, |a, b| a.cmp(b), &mut [0; 1_024])?;
    let (lower, value) = records.next()?;
    let number = |at: usize| u64::from_le_bytes(value[at..at + 8].try_into().expect("eight bytes"));
    let below = match records.next() {
        Some((next, _)) => Bounds { lower: Some(lower), upper: Some(next), inherited: false },
        None => Bounds { lower: Some(lower), inherited: true, ..bounds },
    };
    Some((oracle::tree(number(0), number(8)), below))
}

/// The search, page by page.
pub fn search(image: &[u8], root: &Root, kind: TreeKind, key: &[u8], count: u64) -> Answer {
    let mut reference = root_of(root, kind);
    let mut parent = root.generation;
    let mut bounds = Bounds { lower: None, upper: None, inherited: false };
    let mut answer = Answer { end: End::BeyondImage, count, pages: 0, level: None, inherited: false };
    loop {
        let Some(block) = block_of(image, reference.block) else {
            return Answer { end: End::BeyondImage, ..answer };
        };
        let view = match decode_page(block, reference, &root.uuid, kind, parent, answer.level, root.blocks) {
            Ok(view) => view,
            Err(error) => {
                let (class, reason) = class_and_reason(error);
                return Answer { end: End::Refused(class, reason), ..answer };
            }
        };
        answer.count = answer.count.saturating_add(1);
        answer.pages += 1;
        answer.level = Some(view.level);
        answer.inherited = bounds.inherited;
        if let Some(end) = bounds.broken_by(&view) {
            return Answer { end, ..answer };
        }
        if view.level == 0 {
            return Answer { end: in_leaf(&view, key, image), ..answer };
        }
        let Some((child, below)) = through(&view, key, bounds) else {
            return Answer { end: End::BelowFirst, ..answer };
        };
        parent = reference.generation;
        (reference, bounds) = (child, below);
        answer.level = Some(view.level - 1);
    }
}

/// The search of a call.
pub fn of(call: &Lent) -> Answer {
    let (n, t) = (&call.numbers, &call.texts);
    let root = oracle::made_root(&n[2..18], t[0], t[1]);
    IMAGE.with_borrow_mut(|image| {
        let image = image.of(n[18] as usize, t[3]);
        search(image, &root, oracle::kind(n[1]), t[2], n[0])
    })
}

/// Class and reason, found, four places, the count as it is left.
pub fn answer(call: &Lent, out: &mut Vec<u8>) -> Said {
    let answer = of(call);
    let (class, reason) = answer.verdict();
    oracle::fields(out, &[class, reason]);
    match answer.end {
        End::Found(places) => {
            oracle::field(out, 1);
            oracle::fields(out, &places);
        }
        _ => oracle::fields(out, &[0; 5]),
    }
    oracle::field(out, answer.count);
    oracle::said(class, reason)
}
