//! The proved reader of carryfs volumes, for Rust: safe calls over the static library libcarryfs.a, which build.rs finds or builds.
//! Each call reads what it is lent and answers: nothing is allocated, nothing is kept, and no input makes a call panic. Every
//! answer is the one that the file include/carryfs.h of the project's repository describes.
//!
//! The library is for Linux on x86-64 with SSE4.2, that is x86-64-v2: on an older processor a call may end in an illegal
//! instruction.
//!
//! [`search`] finds a record in the image of a volume, from a root down. Page by page:
//!
//! ```
//! use carryfs::{Refusal, Root, RootBlock, TreeKind, decode_page};
//!
//! /// The keys in the root page of the catalog, of a volume whose blocks `read` reads.
//! fn keys(blocks: u64, read: impl Fn(u64) -> Vec<u8>) -> Result<Vec<Vec<u8>>, Refusal> {
//!     let (low, high) = (256, blocks.saturating_sub(257));
//!     let (first, second) = (read(low), read(high));
//!     let (_, root) = Root::select(
//!         RootBlock { bytes: &first, slot: low, blocks },
//!         RootBlock { bytes: &second, slot: high, blocks },
//!     )?;
//!     let block = read(root.catalog.block);
//!     let page = decode_page(&block, root.catalog, &root.uuid, TreeKind::Catalog, root.generation, None, blocks)?;
//!     Ok(page.records().map(|(key, _)| key.to_vec()).collect())
//! }
//!
//! let refusal = keys(2048, |_| vec![0; 4096]).unwrap_err();
//! assert_eq!(refusal.to_string(), "refused as corrupt, reason 163");
//! ```
#![no_std]
#![warn(missing_docs)]

use core::error::Error;
use core::fmt;
use core::iter::FusedIterator;

mod library;
use library::*;

/// Why something is refused. Classes 1, 4, 7 and 8, and the length of a data unit, carry reason 0; the file docs/REASONS.md of the
/// project's repository says in words what each other reason is.
#[derive(Clone, Copy, Debug, PartialEq, Eq, Hash)]
pub struct Refusal {
    /// 1 geometry, 2 input (the caller's arguments), 3 corrupt, 4 unsupported; of a [`search`] also 7, a block beyond the image,
    /// and 8, a key out of its bounds; [`Refusal::NO_ANSWER`].
    pub class: u16,
    /// The reason's number in docs/REASONS.md, or 0.
    pub reason: u16,
}

impl Refusal {
    /// The class where the library gives no answer at all, which only one that doesn't belong to this crate does. The reason is
    /// its status.
    pub const NO_ANSWER: u16 = u16::MAX;

    /// The class in words.
    pub const fn class_name(&self) -> &'static str {
        match self.class {
            1 => "geometry",
            2 => "input",
            3 => "corrupt",
            4 => "unsupported",
            7 => "a block beyond the image",
            8 => "a key out of its bounds",
            Self::NO_ANSWER => "no answer of the library",
            _ => "an unknown class",
        }
    }
}

impl fmt::Display for Refusal {
    fn fmt(&self, f: &mut fmt::Formatter<'_>) -> fmt::Result {
        write!(f, "refused as {}, reason {}", self.class_name(), self.reason)
    }
}

impl Error for Refusal {}

/// The refusal in an answer, whose first words are class and reason in every call that refuses.
fn accepted(status: u32, words: &[u64]) -> Result<(), Refusal> {
    if status as usize != CARRYFS_DONE {
        return Err(Refusal { class: Refusal::NO_ANSWER, reason: status as u16 });
    }
    match words {
        [0, ..] => Ok(()),
        [class, reason, ..] => Err(Refusal { class: *class as u16, reason: *reason as u16 }),
        _ => Err(Refusal { class: Refusal::NO_ANSWER, reason: 0 }),
    }
}

/// The CRC-32C of the bytes.
///
/// ```
/// assert_eq!(carryfs::crc32c(b"123456789"), 0xE306_9283);
/// ```
pub fn crc32c(bytes: &[u8]) -> u32 {
    // Safe: the slice lives for the call, which only reads it.
    unsafe { carryfs_crc32c(bytes.as_ptr(), bytes.len()) }
}

/// The CRC register after the bytes, with no inversion at either end: start from `u32::MAX`, and invert the last.
pub fn extend(register: u32, bytes: &[u8]) -> u32 {
    // Safe: as above.
    unsafe { carryfs_extend(register, bytes.as_ptr(), bytes.len()) }
}

/// The word of a unit of an object's data, which a checksum group keeps. `valid` are the unit's valid bytes, 1 to 65,536; another
/// number is refused.
///
/// ```
/// use carryfs::{Refusal, data_unit_crc};
/// let uuid = *b"a volume's UUID.";
/// assert!(data_unit_crc(&uuid, 2, 0, b"the file's bytes").is_ok());
/// assert_eq!(data_unit_crc(&uuid, 2, 0, b""), Err(Refusal { class: 2, reason: 0 }));
/// ```
pub fn data_unit_crc(uuid: &[u8; 16], object: u64, unit: u64, valid: &[u8]) -> Result<u32, Refusal> {
    let mut out = [0; CARRYFS_UNIT_WORDS];
    // Safe: the slices live for the call; the function writes `out` within its length and nothing else.
    let status = unsafe {
        carryfs_data_unit(
            uuid.as_ptr(),
            uuid.len(),
            object,
            unit,
            valid.as_ptr(),
            valid.len(),
            out.as_mut_ptr(),
            out.len(),
        )
    };
    accepted(status, &out)?;
    Ok(out[CARRYFS_UNIT_WORD] as u32)
}

/// The word in a slot of a checksum group; `None` is a hole.
pub fn checksum_slot(group: &[u8], slot: usize) -> Result<Option<u32>, Refusal> {
    let mut out = [0; CARRYFS_SLOT_WORDS];
    // Safe: both slices live for the call; the function writes `out` within its length and nothing else.
    let status = unsafe { carryfs_slot(group.as_ptr(), group.len(), slot, out.as_mut_ptr(), out.len()) };
    accepted(status, &out)?;
    Ok((out[CARRYFS_SLOT_PRESENT] == 1).then_some(out[CARRYFS_SLOT_WORD] as u32))
}

/// Checks a record of a checksum group as it is stored: its catalog key, and its value. [`decode_page`] has done so for the
/// records of a page that it accepts.
pub fn validate_checksum_group(key: &[u8], value: &[u8]) -> Result<(), Refusal> {
    let mut out = [0; CARRYFS_GROUP_WORDS];
    // Safe: the slices live for the call; the function writes `out` within its length and nothing else.
    let status =
        unsafe { carryfs_group(key.as_ptr(), key.len(), value.as_ptr(), value.len(), out.as_mut_ptr(), out.len()) };
    accepted(status, &out)
}

/// A page's block, and the generation that it was written in.
#[derive(Clone, Copy, Debug, PartialEq, Eq, Hash)]
pub struct TreeRef {
    /// The block's number.
    pub block: u64,
    /// The generation, from 1.
    pub generation: u64,
}

/// A volume's label: UTF-8, 1 to 255 bytes.
#[derive(Clone, Copy, PartialEq, Eq, Hash)]
pub struct Label {
    len: u8,
    bytes: [u8; 255],
}

impl Label {
    /// Its bytes.
    pub fn as_bytes(&self) -> &[u8] {
        &self.bytes[..usize::from(self.len)]
    }

    /// Its text.
    pub fn as_str(&self) -> &str {
        // The library is proved to accept a root only if its label is UTF-8, so the other case doesn't happen.
        core::str::from_utf8(self.as_bytes()).unwrap_or_default()
    }
}

impl fmt::Debug for Label {
    fn fmt(&self, f: &mut fmt::Formatter<'_>) -> fmt::Result {
        fmt::Debug::fmt(self.as_str(), f)
    }
}

impl fmt::Display for Label {
    fn fmt(&self, f: &mut fmt::Formatter<'_>) -> fmt::Result {
        fmt::Display::fmt(self.as_str(), f)
    }
}

/// A block that may hold a root: its bytes, its number, and how many blocks the volume has.
#[derive(Clone, Copy, Debug)]
pub struct RootBlock<'a> {
    /// The block's 4,096 bytes.
    pub bytes: &'a [u8],
    /// The block's number: 256, or `blocks` - 257.
    pub slot: u64,
    /// How many blocks the volume has.
    pub blocks: u64,
}

/// Which of two was chosen.
#[derive(Clone, Copy, Debug, PartialEq, Eq, Hash)]
pub enum Which {
    /// The first.
    First,
    /// The second.
    Second,
}

/// The fields of an accepted root.
#[derive(Clone, Copy, Debug, PartialEq, Eq, Hash)]
pub struct Root {
    /// The volume's label, if it has one.
    pub label: Option<Label>,
    /// The volume's UUID.
    pub uuid: [u8; 16],
    /// The root's generation, from 1: of two roots the one with the higher counts.
    pub generation: u64,
    /// How many blocks the volume has.
    pub blocks: u64,
    /// The root page of the catalog.
    pub catalog: TreeRef,
    /// The root page of the allocation tree.
    pub allocation: TreeRef,
    /// The root page of the cleanup tree.
    pub cleanup: TreeRef,
    /// The next object number to be given out.
    pub next_object: u64,
    /// The free blocks, the maintenance reserve among them.
    pub free_blocks: u64,
    /// The next job number to be given out.
    pub next_job: u64,
    /// The root page of the workspace.
    pub workspace: TreeRef,
    /// The workspace cursor, an allocation group.
    pub workspace_cursor: u64,
}

impl Root {
    /// The words and the text that `decode` has of it, for a call that takes a root.
    fn words(&self) -> ([u64; CARRYFS_ROOT_WORDS], [u8; CARRYFS_TEXT_BYTES]) {
        let mut words = [0; CARRYFS_ROOT_WORDS];
        let mut text = [0; CARRYFS_TEXT_BYTES];
        text[CARRYFS_TEXT_UUID..CARRYFS_TEXT_UUID + 16].copy_from_slice(&self.uuid);
        if let Some(label) = &self.label {
            words[CARRYFS_ROOT_HAS_LABEL] = 1;
            words[CARRYFS_ROOT_LABEL_LENGTH] = u64::from(label.len);
            text[CARRYFS_TEXT_LABEL..CARRYFS_TEXT_LABEL + 255].copy_from_slice(&label.bytes);
        }
        for (at, tree) in [
            (CARRYFS_ROOT_CATALOG, self.catalog),
            (CARRYFS_ROOT_ALLOCATION, self.allocation),
            (CARRYFS_ROOT_CLEANUP, self.cleanup),
            (CARRYFS_ROOT_WORKSPACE, self.workspace),
        ] {
            words[at] = tree.block;
            words[at + 1] = tree.generation;
        }
        words[CARRYFS_ROOT_GENERATION] = self.generation;
        words[CARRYFS_ROOT_BLOCKS] = self.blocks;
        words[CARRYFS_ROOT_NEXT_OBJECT] = self.next_object;
        words[CARRYFS_ROOT_FREE_BLOCKS] = self.free_blocks;
        words[CARRYFS_ROOT_NEXT_JOB] = self.next_job;
        words[CARRYFS_ROOT_WORKSPACE_CURSOR] = self.workspace_cursor;
        (words, text)
    }

    /// The root in the block `slot` of a volume of so many blocks.
    ///
    /// ```
    /// use carryfs::{Refusal, Root};
    /// assert_eq!(Root::decode(&[0; 4096], 256, 2048), Err(Refusal { class: 3, reason: 24 }));
    /// ```
    pub fn decode(bytes: &[u8], slot: u64, blocks: u64) -> Result<Self, Refusal> {
        let mut out = [0; CARRYFS_ROOT_WORDS];
        let mut text = [0; CARRYFS_TEXT_BYTES];
        // Safe: the slices live for the call and don't overlap; the function writes `out` and `text` within their lengths.
        let status = unsafe {
            carryfs_root(
                bytes.as_ptr(),
                bytes.len(),
                slot,
                blocks,
                out.as_mut_ptr(),
                out.len(),
                text.as_mut_ptr(),
                text.len(),
            )
        };
        accepted(status, &out)?;
        let tree = |at: usize| TreeRef { block: out[at], generation: out[at + 1] };
        let mut uuid = [0; 16];
        uuid.copy_from_slice(&text[CARRYFS_TEXT_UUID..CARRYFS_TEXT_UUID + 16]);
        let mut label = Label { len: out[CARRYFS_ROOT_LABEL_LENGTH] as u8, bytes: [0; 255] };
        label.bytes.copy_from_slice(&text[CARRYFS_TEXT_LABEL..CARRYFS_TEXT_LABEL + 255]);
        Ok(Self {
            label: (out[CARRYFS_ROOT_HAS_LABEL] == 1).then_some(label),
            uuid,
            generation: out[CARRYFS_ROOT_GENERATION],
            blocks: out[CARRYFS_ROOT_BLOCKS],
            catalog: tree(CARRYFS_ROOT_CATALOG),
            allocation: tree(CARRYFS_ROOT_ALLOCATION),
            cleanup: tree(CARRYFS_ROOT_CLEANUP),
            next_object: out[CARRYFS_ROOT_NEXT_OBJECT],
            free_blocks: out[CARRYFS_ROOT_FREE_BLOCKS],
            next_job: out[CARRYFS_ROOT_NEXT_JOB],
            workspace: tree(CARRYFS_ROOT_WORKSPACE),
            workspace_cursor: out[CARRYFS_ROOT_WORKSPACE_CURSOR],
        })
    }

    /// The root to open a volume with, from its two root blocks: the one of the higher generation, where both are roots. A
    /// corrupt block counts as none; any other refusal of a block refuses both, the first block's before the second's. Roots of
    /// two volumes, and two different ones of one generation, are refused.
    pub fn select(first: RootBlock<'_>, second: RootBlock<'_>) -> Result<(Which, Self), Refusal> {
        let mut out = [0; CARRYFS_SELECT_WORDS];
        // Safe: the slices live for the call; the function writes `out` within its length and nothing else.
        let status = unsafe {
            carryfs_select(
                first.bytes.as_ptr(),
                first.bytes.len(),
                first.slot,
                first.blocks,
                second.bytes.as_ptr(),
                second.bytes.len(),
                second.slot,
                second.blocks,
                out.as_mut_ptr(),
                out.len(),
            )
        };
        accepted(status, &out)?;
        let (which, chosen) = match out[CARRYFS_SELECT_WHICH] {
            1 => (Which::First, first),
            _ => (Which::Second, second),
        };
        // The choice is by number; the fields are read from the chosen block.
        Ok((which, Self::decode(chosen.bytes, chosen.slot, chosen.blocks)?))
    }
}

/// The tree that a page belongs to.
#[derive(Clone, Copy, Debug, PartialEq, Eq, Hash)]
pub enum TreeKind {
    /// What belongs to files and directories.
    Catalog = 1,
    /// Which blocks are taken.
    Allocation = 2,
    /// What is left to a cleanup: retired blocks, detached trees, orphans.
    Cleanup = 3,
    /// Blocks that are kept ready for new pages.
    Workspace = 4,
}

/// An accepted page, and its payload in the block that was lent. Its fields are public: one that is made by hand gives what its
/// bytes give, and no more.
#[derive(Clone, Copy, Debug, PartialEq, Eq, Hash)]
pub struct PageView<'a> {
    /// 0 in a leaf, 1 to 7 in a page of references to others.
    pub level: u8,
    /// The data blocks of the subtree, as the page states them; 0 outside the catalog.
    pub data_blocks: u64,
    /// How many records there are.
    pub count: usize,
    /// The records' bytes.
    pub payload: &'a [u8],
}

/// Checks the page that the reference names. `parent` is the generation of the page or root that holds the reference, `level` the
/// level that the caller expects, if any.
///
/// For the root page of a tree, `reference`, `uuid` and `parent` are the [`Root`]'s: the tree of that kind, the UUID, and the
/// generation; `level` is `None`. In an internal page, of a level above 0, the value of each record is 16 bytes, a child's block and
/// generation, each little-endian. The child is of the same kind, its `parent` is this page's generation, and its level is one
/// less. Levels are 7 to 0, so there are at most eight pages on a way down.
pub fn decode_page<'a>(
    bytes: &'a [u8],
    reference: TreeRef,
    uuid: &[u8; 16],
    kind: TreeKind,
    parent: u64,
    level: Option<u8>,
    blocks: u64,
) -> Result<PageView<'a>, Refusal> {
    // 255 means that no level is given; a page has none above 7, so 254 is refused as 255 is.
    let level = level.map_or(CARRYFS_ANY_LEVEL as u32, |level| u32::from(level.min(254)));
    let mut out = [0; CARRYFS_PAGE_WORDS];
    // Safe: the slices live for the call; the function writes `out`, which overlaps none of them, within its length and nothing else.
    let status = unsafe {
        carryfs_page(
            bytes.as_ptr(),
            bytes.len(),
            reference.block,
            reference.generation,
            uuid.as_ptr(),
            uuid.len(),
            kind as u32,
            parent,
            level,
            blocks,
            out.as_mut_ptr(),
            out.len(),
        )
    };
    accepted(status, &out)?;
    let start = out[CARRYFS_PAGE_PAYLOAD] as usize;
    let end = start + out[CARRYFS_PAGE_PAYLOAD_LENGTH] as usize;
    Ok(PageView {
        level: out[CARRYFS_PAGE_LEVEL] as u8,
        data_blocks: out[CARRYFS_PAGE_TOTAL],
        count: out[CARRYFS_PAGE_COUNT] as usize,
        payload: &bytes[start..end],
    })
}

impl<'a> PageView<'a> {
    /// The page's records, in the order of their keys.
    pub fn records(&self) -> Records<'a> {
        Records { part: self.payload, remaining: self.count }
    }

    /// The index of the last record whose key is not above `key`, and the records from it on. With a scratch of at least
    /// `count` entries the records' offsets in the payload are written over its front, and the records are halved; with a shorter
    /// one, which stays as it was, they are walked. In a page that [`decode_page`] accepted both find the same.
    ///
    /// In a view made by hand a record that runs past the payload ends the walk as one above the key does; in halving its offset is
    /// the last that is written, and none is found. In a payload of more than 65,535 bytes none is found, and the scratch stays as
    /// it was.
    pub fn floor_record(&self, key: &[u8], scratch: &mut [u16]) -> Option<(usize, Records<'a>)> {
        let mut out = [0; CARRYFS_FLOOR_WORDS];
        // Safe: the slices live for the call; the function writes `scratch` and `out`, which overlap nothing else, within their lengths.
        let status = unsafe {
            carryfs_lookup(
                self.payload.as_ptr(),
                self.payload.len(),
                self.count,
                key.as_ptr(),
                key.len(),
                scratch.as_mut_ptr(),
                scratch.len(),
                out.as_mut_ptr(),
                out.len(),
            )
        };
        if status as usize != CARRYFS_DONE || out[CARRYFS_FLOOR_FOUND] == 0 {
            return None;
        }
        let part = &self.payload[out[CARRYFS_FLOOR_OFFSET] as usize..];
        let remaining = out[CARRYFS_FLOOR_REMAINING] as usize;
        Some((out[CARRYFS_FLOOR_INDEX] as usize, Records { part, remaining }))
    }
}

/// The records of a page, each a key and a value.
#[derive(Clone, Debug)]
pub struct Records<'a> {
    part: &'a [u8],
    remaining: usize,
}

impl<'a> Iterator for Records<'a> {
    type Item = (&'a [u8], &'a [u8]);

    fn next(&mut self) -> Option<Self::Item> {
        let mut out = [0; CARRYFS_NEXT_WORDS];
        // Safe: both slices live for the call; the function writes `out` within its length and nothing else.
        let status =
            unsafe { carryfs_next(self.part.as_ptr(), self.part.len(), self.remaining, out.as_mut_ptr(), out.len()) };
        if status as usize != CARRYFS_DONE || out[CARRYFS_NEXT_FOUND] == 0 {
            return None;
        }
        let part = self.part;
        let [start, middle, end] =
            [CARRYFS_NEXT_KEY, CARRYFS_NEXT_KEY_END, CARRYFS_NEXT_VALUE_END].map(|word| out[word] as usize);
        self.part = &part[end..];
        self.remaining = out[CARRYFS_NEXT_REMAINING] as usize;
        Some((&part[start..middle], &part[middle..end]))
    }

    /// No more than are left by the page's count, nor than the bytes have room for, four or more for each. In a page that
    /// [`decode_page`] accepted so many do come.
    fn size_hint(&self) -> (usize, Option<usize>) {
        (0, Some(self.remaining.min(self.part.len() / 4)))
    }
}

// The iterator stays as it is where no record is found, so none is found from there on. It has no ExactSizeIterator: a PageView can
// be made by hand, and there a broken record can come before as many as its count says.
impl FusedIterator for Records<'_> {}

/// A record that a search found: parts of the image that was lent.
#[derive(Clone, Copy, Debug, PartialEq, Eq, Hash)]
pub struct Record<'a> {
    /// The key that was sought, where it stands.
    pub key: &'a [u8],
    /// The value, which stands behind it.
    pub value: &'a [u8],
}

/// The state of searches, to be lent to one after the other.
#[derive(Clone, Copy, Debug, Default, PartialEq, Eq, Hash)]
pub struct Searches {
    /// The pages that they accepted, those of refused searches included. It stays at `u64::MAX`.
    pub count: u64,
}

/// The record of a key in one of a root's four trees, sought from the tree's root page down to the leaf; `None` where there is none.
/// The image is the volume, from its first block on. A root made by hand is taken as any other.
///
/// Each page on the way is checked as [`decode_page`] does it, and its keys are held to their bounds: below a record of a page of a
/// level above 0 every key is at least that record's key, and below the next one's, where there is one; and so are the keys of all
/// pages further down. A page above the leaf is left by the record that [`PageView::floor_record`] finds.
///
/// Refused with class 7 where a page's block ends beyond the image, which is tested before the page is read; as `decode_page`
/// refuses a page; with class 8 where an accepted page has a key out of its bounds. Each accepted page is counted in `searches`, also
/// where the search is refused.
///
/// ```
/// use carryfs::{Refusal, Root, RootBlock, Searches, TreeKind, search};
///
/// /// The inode of an object in a volume.
/// fn inode(image: &[u8], object: u64) -> Result<Option<&[u8]>, Refusal> {
///     let blocks = image.len() as u64 / 4096;
///     let block = |slot: u64| RootBlock { bytes: &image[slot as usize * 4096..][..4096], slot, blocks };
///     let (_, root) = Root::select(block(256), block(blocks - 257))?;
///     let key = [&object.to_be_bytes()[..], &[1]].concat();
///     let found = search(image, &root, TreeKind::Catalog, &key, &mut Searches::default())?;
///     Ok(found.map(|record| record.value))
/// }
///
/// assert_eq!(inode(&vec![0; 2048 * 4096], 1), Err(Refusal { class: 3, reason: 163 }));
/// ```
pub fn search<'a>(
    image: &'a [u8],
    root: &Root,
    kind: TreeKind,
    key: &[u8],
    searches: &mut Searches,
) -> Result<Option<Record<'a>>, Refusal> {
    let (words, text) = root.words();
    let mut out = [0; CARRYFS_SEARCH_WORDS];
    // Safe: the slices live for the call; the function writes `out`, which overlaps none of them, within its length and nothing else.
    let status = unsafe {
        carryfs_search(
            image.as_ptr(),
            image.len(),
            words.as_ptr(),
            words.len(),
            text.as_ptr(),
            text.len(),
            kind as u32,
            key.as_ptr(),
            key.len(),
            searches.count,
            out.as_mut_ptr(),
            out.len(),
        )
    };
    if status as usize == CARRYFS_DONE {
        searches.count = out[CARRYFS_SEARCH_COUNT];
    }
    accepted(status, &out)?;
    if out[CARRYFS_SEARCH_FOUND] == 0 {
        return Ok(None);
    }
    let part = |at: usize| &image[out[at] as usize..][..out[at + 1] as usize];
    Ok(Some(Record { key: part(CARRYFS_SEARCH_KEY), value: part(CARRYFS_SEARCH_VALUE) }))
}
