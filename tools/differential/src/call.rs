//! The calls of `probe` and of `probe_added`: their shapes, and reading and writing them as bytes.

/// What a number of a call may be.
#[derive(Clone, Copy, Debug, PartialEq, Eq)]
pub enum Num {
    Any,
    /// A register or nanoseconds: below 2^32.
    Word,
    /// A reason or the scratch fill: at most 65,535.
    Short,
    /// A level, page kind or label length: at most 255.
    Byte,
    /// Present, has label, or a mode: 0 or 1.
    Flag,
    /// A tree kind: 1 to 4.
    Kind,
    /// How many zero bytes: at most 1,000,000.
    Zeros,
    /// Entries of a scratch: at most 4,096.
    Entries,
    /// An image's length: at most 640 blocks.
    Image,
}

impl Num {
    pub fn least(self) -> u64 {
        u64::from(self == Num::Kind)
    }

    pub fn most(self) -> u64 {
        match self {
            Num::Any => u64::MAX,
            Num::Word => u64::from(u32::MAX),
            Num::Short => 65_535,
            Num::Byte => 255,
            Num::Flag => 1,
            Num::Kind => 4,
            Num::Zeros => 1_000_000,
            Num::Entries => 4_096,
            Num::Image => LONGEST_IMAGE,
        }
    }

    pub fn allows(self, number: u64) -> bool {
        (self.least()..=self.most()).contains(&number)
    }
}

/// The longest byte string of a call.
pub const LONGEST: usize = 80_000;

/// The longest image of a call, 640 blocks.
pub const LONGEST_IMAGE: u64 = 2_621_440;

/// What a page takes in a string of pages: its block number and 4,096 bytes.
pub const LAID_PAGE: usize = 4_104;

/// What length a byte string of a call has.
#[derive(Clone, Copy, Debug, PartialEq, Eq)]
pub enum Text {
    Any,
    Fixed(usize),
    /// Whole pages, each with its block number.
    Pages,
}

impl Text {
    pub fn allows(self, len: usize) -> bool {
        match self {
            Text::Any => len <= LONGEST,
            Text::Fixed(fixed) => len == fixed,
            Text::Pages => len <= LONGEST && len % LAID_PAGE == 0,
        }
    }
}

pub struct Shape {
    pub no: u8,
    pub name: &'static str,
    pub numbers: &'static [Num],
    pub texts: &'static [Text],
}

const fn shape(no: u8, name: &'static str, numbers: &'static [Num], texts: &'static [Text]) -> Shape {
    Shape { no, name, numbers, texts }
}

use Num::{Any, Byte, Entries, Flag, Image, Kind, Short, Word, Zeros};
const ONE: &[Text] = &[Text::Any];
const TWO: &[Text] = &[Text::Any, Text::Any];
const UUID_AND_ONE: &[Text] = &[Text::Fixed(16), Text::Any];
const UUID_AND_TWO: &[Text] = &[Text::Fixed(16), Text::Any, Text::Any];
#[rustfmt::skip]
const ROOTS: &[Num] = &[
    Flag, Flag, Byte, Any, Any, Any, Any, Any, Any, Any, Any, Any, Any, Any, Any, Any, Any,
    Flag, Flag, Byte, Any, Any, Any, Any, Any, Any, Any, Any, Any, Any, Any, Any, Any, Any,
];
const ROOT_TEXTS: &[Text] = &[Text::Fixed(16), Text::Fixed(255), Text::Fixed(16), Text::Fixed(255)];

/// The calls of `probe`. A call's place is its number less one.
#[rustfmt::skip]
pub const SHAPES: &[Shape] = &[
    shape(1, "software_extend", &[Word], ONE),
    shape(2, "crc32c", &[], ONE),
    shape(3, "crc32c_with_zero", &[Any, Any], ONE),
    shape(4, "zero bytes stepped", &[Word, Zeros], &[]),
    shape(5, "data_unit_crc", &[Any, Any], UUID_AND_ONE),
    shape(6, "UTF-8", &[], ONE),
    shape(7, "all_zero", &[], ONE),
    shape(8, "read_u16_le", &[Any, Short], ONE),
    shape(9, "read_u32_le", &[Any, Short], ONE),
    shape(10, "read_u64_le", &[Any, Short], ONE),
    shape(11, "bytewise order", &[], TWO),
    shape(12, "is_bank_root", &[Any, Any], &[]),
    shape(13, "is_bank_block", &[Any, Any], &[]),
    shape(14, "is_nonreserved_block", &[Any, Any], &[]),
    shape(15, "reserved_group_blocks", &[Any, Any], &[]),
    shape(16, "allocation_group_count", &[Any], &[]),
    shape(17, "validate_tree_ref", &[Any, Any, Any, Flag], &[]),
    shape(18, "validate_page_ref", &[Any, Any, Kind, Any, Flag], &[]),
    shape(19, "validate_root_slot", &[Any, Any, Flag], &[]),
    shape(20, "validate_timestamp_range", &[Any, Word, Flag], &[]),
    shape(21, "validate_owner_id", &[Any, Flag], &[]),
    shape(22, "validate_symlink_target", &[Flag], ONE),
    shape(23, "validate_inode", &[Any, Flag], ONE),
    shape(24, "validate_directory_entry", &[Flag], ONE),
    shape(25, "validate_extent", &[Any, Flag], TWO),
    shape(26, "validate_checksum_group", &[Flag], TWO),
    shape(27, "validate_leaf_record", &[Kind, Any, Any, Flag], TWO),
    shape(28, "validate_internal_record", &[Kind, Any, Any, Flag], TWO),
    shape(29, "leaf_record_blocks", &[Kind, Any, Any], TWO),
    shape(30, "checksum_slot", &[Any], ONE),
    shape(31, "compact_group", &[], ONE),
    shape(32, "expand_group", &[], ONE),
    shape(33, "Label::new", &[], ONE),
    shape(34, "Root::decode", &[Any, Any], ONE),
    shape(35, "choice of two roots", &[Any, Any, Any, Any], TWO),
    shape(36, "decode_page", &[Any, Any, Kind, Any, Byte, Any], UUID_AND_ONE),
    shape(37, "verified_page_view", &[Any, Any, Kind, Any, Byte], UUID_AND_ONE),
    shape(38, "draft_page_view", &[], ONE),
    shape(39, "floor_record", &[Any, Entries, Short], TWO),
    shape(40, "next record", &[Any], ONE),
    shape(41, "select_root", ROOTS, ROOT_TEXTS),
    shape(42, "validate_records", &[Kind, Byte, Any, Any, Flag, Any, Any], ONE),
    shape(43, "hand_out", &[Any, Any, Kind, Any, Byte, Any, Entries], UUID_AND_TWO),
    shape(44, "data unit in pieces", &[Any, Any, Any, Any], UUID_AND_ONE),
];

/// A count, a kind, a root and an image's length.
#[rustfmt::skip]
const SEARCH: &[Num] = &[
    Any, Kind, Flag, Byte, Any, Any, Any, Any, Any, Any, Any, Any, Any, Any, Any, Any, Any, Any, Image,
];

/// The calls of `probe_added`, by number.
#[rustfmt::skip]
const ADDED_SHAPES: &[Shape] = &[
    shape(60, "search", SEARCH, &[Text::Fixed(16), Text::Fixed(255), Text::Any, Text::Pages]),
];

/// The calls of a program, and the first line that it prints.
pub struct Calls {
    pub head: &'static str,
    pub shapes: &'static [Shape],
}

pub static PROBE: Calls = Calls { head: "probe 1", shapes: SHAPES };
pub static ADDED: Calls = Calls { head: "probe_added 1", shapes: ADDED_SHAPES };

impl Calls {
    pub fn shape_of(&self, no: u8) -> Option<&'static Shape> {
        self.shapes.iter().find(|shape| shape.no == no)
    }
}

/// A call's shape, whichever program has it: no number stands for two calls.
pub fn shape_of(no: u8) -> Option<&'static Shape> {
    PROBE.shape_of(no).or_else(|| ADDED.shape_of(no))
}

/// A call or a body, as the generators make it.
#[derive(Clone, Debug, PartialEq, Eq)]
pub struct Call {
    pub no: u8,
    pub numbers: Vec<u64>,
    pub texts: Vec<Vec<u8>>,
}

impl Call {
    pub fn new(no: u8, numbers: &[u64], texts: &[&[u8]]) -> Self {
        Self { no, numbers: numbers.to_vec(), texts: texts.iter().map(|text| text.to_vec()).collect() }
    }

    /// The call as bytes of its program's input.
    pub fn write(&self, out: &mut Vec<u8>) {
        out.push(self.no);
        for number in &self.numbers {
            out.extend_from_slice(&number.to_le_bytes());
        }
        for text in &self.texts {
            out.extend_from_slice(&(text.len() as u32).to_le_bytes());
            out.extend_from_slice(text);
        }
    }

    pub fn within_limits(&self) -> bool {
        shape_of(self.no).is_some_and(|shape| {
            shape.numbers.len() == self.numbers.len()
                && shape.texts.len() == self.texts.len()
                && (shape.numbers.iter().zip(&self.numbers)).all(|(num, n)| num.allows(*n))
                && (shape.texts.iter().zip(&self.texts)).all(|(text, t)| text.allows(t.len()))
        })
    }
}

/// A call lent from the input.
pub struct Lent<'a> {
    pub no: u8,
    pub numbers: [u64; 34],
    pub texts: [&'a [u8]; 4],
}

/// `len` bytes off the front of `input`.
pub fn take<'a>(input: &mut &'a [u8], len: usize) -> Option<&'a [u8]> {
    let (front, rest) = input.split_at_checked(len)?;
    *input = rest;
    Some(front)
}

pub fn take_number(input: &mut &[u8]) -> Option<u64> {
    Some(u64::from_le_bytes(take(input, 8)?.try_into().ok()?))
}

/// The next call of the input; none where the program prints `cut`.
pub fn read<'a>(calls: &Calls, input: &mut &'a [u8]) -> Option<Lent<'a>> {
    let no = take(input, 1)?[0];
    let shape = calls.shape_of(no)?;
    let mut lent = Lent { no, numbers: [0; 34], texts: [&[]; 4] };
    for (number, num) in lent.numbers.iter_mut().zip(shape.numbers) {
        *number = take_number(input).filter(|number| num.allows(*number))?;
    }
    for (text, kind) in lent.texts.iter_mut().zip(shape.texts) {
        let len = u32::from_le_bytes(take(input, 4)?.try_into().ok()?) as usize;
        if !kind.allows(len) {
            return None;
        }
        *text = take(input, len)?;
    }
    Some(lent)
}

#[cfg(test)]
mod tests {
    use super::*;

    #[test]
    fn numbers_are_places() {
        for (place, shape) in SHAPES.iter().enumerate() {
            assert_eq!(usize::from(shape.no), place + 1);
        }
        for shape in SHAPES.iter().chain(ADDED_SHAPES) {
            assert!(shape.numbers.len() <= 34 && shape.texts.len() <= 4);
        }
        assert_eq!(SHAPES.len(), 44);
        assert_eq!(ROOTS.len(), 34);
        assert_eq!(SEARCH.len(), 19);
        assert!(shape_of(0).is_none() && shape_of(45).is_none());
    }

    /// The programs share no call, and `probe_added` has its calls in the order of their numbers, from 60 to 77.
    #[test]
    fn two_tables() {
        let numbers: Vec<u8> = ADDED_SHAPES.iter().map(|shape| shape.no).collect();
        assert!(numbers.is_sorted() && numbers.iter().all(|no| (60..=77).contains(no)));
        assert!(numbers.iter().all(|no| PROBE.shape_of(*no).is_none()));
        assert!(SHAPES.iter().all(|shape| ADDED.shape_of(shape.no).is_none()));
    }

    #[test]
    fn whole_pages() {
        let whole = [0, 4_104, 8_208, 77_976];
        assert!(whole.iter().all(|len| Text::Pages.allows(*len)));
        assert!(![1, 4_096, 4_103, 4_105, 82_080].iter().any(|len| Text::Pages.allows(*len)));
        assert!(Num::Image.allows(2_621_440) && !Num::Image.allows(2_621_441));
    }

    #[test]
    fn written_and_read() {
        let call = Call::new(3, &[1, u64::MAX], &[b"abc"]);
        let mut bytes = Vec::new();
        call.write(&mut bytes);
        let mut rest = &bytes[..];
        let lent = read(&PROBE, &mut rest).unwrap();
        assert_eq!((lent.no, lent.numbers[1], lent.texts[0]), (3, u64::MAX, &b"abc"[..]));
        assert!(rest.is_empty());
        for end in 0..bytes.len() {
            assert!(read(&PROBE, &mut &bytes[..end]).is_none());
        }
        assert!(read(&ADDED, &mut &bytes[..]).is_none());
    }
}
