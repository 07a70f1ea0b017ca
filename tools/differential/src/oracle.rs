//! What `probe` and `probe_added` must print: the reference's answers, and 01's where a listed difference applies; for what
//! the requests add, our own Rust over the reference.

use crate::call::{self, Calls, Lent};
use crate::listed::{self, Listed};
use crate::reasons::{class_and_reason, number};
use crate::search;
use reference::crc;
use reference::error::{Error, Result};
use reference::format::{self, Label, PageView, Root, TreeKind, TreeRef, Validation, open};
use std::panic::{AssertUnwindSafe, catch_unwind};

/// What is noted of an answer beside its line.
#[derive(Clone, Copy)]
pub struct Said {
    /// Class and reason, for calls that have them.
    pub verdict: Option<(u64, u64)>,
    pub listed: Option<&'static Listed>,
}

const PLAIN: Said = Said { verdict: None, listed: None };

pub fn said(class: u64, reason: u64) -> Said {
    Said { verdict: Some((class, reason)), listed: None }
}

pub fn digits(out: &mut Vec<u8>, mut n: u64) {
    let mut buffer = [0; 20];
    let mut at = 20;
    loop {
        at -= 1;
        buffer[at] = b'0' + (n % 10) as u8;
        n /= 10;
        if n == 0 {
            break;
        }
    }
    out.extend_from_slice(&buffer[at..]);
}

pub fn field(out: &mut Vec<u8>, n: u64) {
    out.push(b' ');
    digits(out, n);
}

pub fn fields(out: &mut Vec<u8>, numbers: &[u64]) {
    numbers.iter().for_each(|&n| field(out, n));
}

pub fn hex(out: &mut Vec<u8>, bytes: &[u8]) {
    const DIGITS: &[u8; 16] = b"0123456789abcdef";
    out.extend_from_slice(b" x");
    for byte in bytes {
        out.push(DIGITS[usize::from(byte >> 4)]);
        out.push(DIGITS[usize::from(byte & 15)]);
    }
}

fn plain(out: &mut Vec<u8>, n: u64) -> Said {
    field(out, n);
    PLAIN
}

/// Class and reason, then what `accepted` writes, or `zeros` times 0 and `empties` times `x`.
fn checked<T>(
    out: &mut Vec<u8>,
    result: Result<T>,
    zeros: usize,
    empties: usize,
    accepted: impl FnOnce(&mut Vec<u8>, T),
) -> Said {
    match result {
        Ok(value) => {
            fields(out, &[0, 0]);
            accepted(out, value);
            said(0, 0)
        }
        Err(error) => {
            let (class, reason) = class_and_reason(error);
            fields(out, &[class, reason]);
            (0..zeros).for_each(|_| field(out, 0));
            (0..empties).for_each(|_| hex(out, b""));
            said(class, reason)
        }
    }
}

fn check(out: &mut Vec<u8>, result: Result<()>) -> Said {
    checked(out, result, 0, 0, |_, ()| ())
}

fn valued(out: &mut Vec<u8>, result: Result<u64>) -> Said {
    checked(out, result, 1, 0, field)
}

/// A reader's answer, the caller's reason in place of the string.
fn given(out: &mut Vec<u8>, result: Result<u64>, reason: u64) -> Said {
    match result {
        Ok(value) => {
            fields(out, &[0, 0, value]);
            said(0, 0)
        }
        Err(Error::Corrupt(_)) => {
            fields(out, &[3, reason, 0]);
            // The reason is the caller's, so it isn't noted.
            said(3, 0)
        }
        Err(error) => panic!("an integer reader answers {error:?}"),
    }
}

/// Where `part` begins in `whole`.
pub fn offset(part: &[u8], whole: &[u8]) -> u64 {
    (part.as_ptr() as usize - whole.as_ptr() as usize) as u64
}

pub fn mode(n: u64) -> Validation {
    match n {
        0 => Validation::Input,
        _ => Validation::Disk,
    }
}

pub fn kind(n: u64) -> TreeKind {
    match n {
        1 => TreeKind::Catalog,
        2 => TreeKind::Allocation,
        3 => TreeKind::Cleanup,
        4 => TreeKind::Workspace,
        _ => panic!("tree kind {n}"),
    }
}

pub fn tree(block: u64, generation: u64) -> TreeRef {
    TreeRef { block, generation }
}

/// A level, 255 being none.
pub fn level(n: u64) -> Option<u8> {
    (n != 255).then_some(n as u8)
}

pub fn uuid(bytes: &[u8]) -> [u8; 16] {
    bytes.try_into().expect("a UUID of 16 bytes")
}

/// The two ranges of `reserved_group_blocks`. The Rust hands out an iterator that hides them, so they are computed as it
/// does and held to what it yields.
fn reserved_ranges(group: u64, blocks: u64) -> [u64; 4] {
    let first = group.saturating_mul(format::ALLOCATION_GROUP_BLOCKS);
    let end = first.saturating_add(format::ALLOCATION_GROUP_BLOCKS);
    let tail = blocks.saturating_sub(format::RESERVED_BLOCKS).max(first);
    let ranges = [first, end.min(format::RESERVED_BLOCKS), tail, end];
    let sizes = [ranges[1].saturating_sub(first), end.saturating_sub(tail)];
    let at = |place: u64| format::reserved_group_blocks(group, blocks).nth(place as usize);
    for (begin, size, before) in [(first, sizes[0], 0), (tail, sizes[1], sizes[0])] {
        if size > 0 {
            assert_eq!(at(before), Some(begin));
            assert_eq!(at(before + size - 1), Some(begin + (size - 1)));
        }
    }
    assert_eq!(at(sizes[0] + sizes[1]), None);
    ranges
}

/// What 01 says where a listed difference applies.
fn listed_answer(call: &Lent, out: &mut Vec<u8>) -> Said {
    let (n, t) = (&call.numbers, &call.texts);
    let short_key = |mode: u64| said(if mode == 0 { 2 } else { 3 }, number("invalid catalog key"));
    match call.no {
        3 => {
            let (start, end) = listed::zeroed(n[0], n[1], t[0].len());
            let register = crc::extend(u32::MAX, &t[0][..start]);
            let register = crc::open::extend_zeros(register, end - start);
            plain(out, u64::from(!crc::extend(register, &t[0][end..])))
        }
        5 => {
            fields(out, &[2, 0, 0]);
            said(2, 0)
        }
        44 => {
            assert_eq!(in_pieces(call), Err(Error::InvalidInput("data unit valid length")));
            fields(out, &[2, 0, 0]);
            said(2, 0)
        }
        25 | 26 => {
            let said = short_key(n[usize::from(call.no == 25)]);
            let (class, reason) = said.verdict.unwrap_or_default();
            fields(out, &[class, reason]);
            if call.no == 25 {
                field(out, 0);
            }
            said
        }
        31 => plain(out, 0),
        39 => {
            fields(out, &[0, 0, 0, 0]);
            scratch(out, &vec![n[2] as u16; n[1] as usize]);
            PLAIN
        }
        no => panic!("call {no} has no listed difference"),
    }
}

/// A call's fields, each after a space.
pub fn answer(call: &Lent, out: &mut Vec<u8>) -> Said {
    match listed::of(call) {
        Some(listed) => Said { listed: Some(listed), ..listed_answer(call, out) },
        None => reference_answer(call, out),
    }
}

/// The reference's own answer; it may panic where a listed difference applies.
pub fn reference_answer(call: &Lent, out: &mut Vec<u8>) -> Said {
    match call.no {
        1..=11 | 44 => bytes_answer(call, out),
        12..=21 => volume_answer(call, out),
        22..=32 => record_answer(call, out),
        33..=35 | 41 => root_answer(call, out),
        60 => search::answer(call, out),
        _ => page_answer(call, out),
    }
}

/// The word of a unit whose bytes come in pieces, the last of which may be shorter; a size of 0: all at once.
fn in_pieces(call: &Lent) -> Result<u32> {
    let (n, t) = (&call.numbers, &call.texts);
    let mut sum = crc::DataUnitCrc::new(&uuid(t[0]), n[0], n[1], n[2] as usize)?;
    match n[3] as usize {
        0 => sum.update(t[1]),
        size => t[1].chunks(size).for_each(|piece| sum.update(piece)),
    }
    sum.finish()
}

fn bytes_answer(call: &Lent, out: &mut Vec<u8>) -> Said {
    let (n, t) = (&call.numbers, &call.texts);
    let at = n[0] as usize;
    match call.no {
        1 => plain(out, crc::open::software_extend(n[0] as u32, t[0]).into()),
        2 => plain(out, crc::crc32c(t[0]).into()),
        3 => plain(out, crc::open::crc32c_with_zero(t[0], at, n[1] as usize).into()),
        4 => plain(out, crc::open::extend_zeros(n[0] as u32, n[1] as usize).into()),
        5 => {
            let word = crc::data_unit_crc(&uuid(t[0]), n[0], n[1], t[1]);
            valued(out, word.map(u64::from))
        }
        6 => plain(out, core::str::from_utf8(t[0]).is_ok().into()),
        7 => plain(out, format::all_zero(t[0]).into()),
        8 => given(out, format::read_u16_le(t[0], at, "").map(u64::from), n[1]),
        9 => given(out, format::read_u32_le(t[0], at, "").map(u64::from), n[1]),
        10 => given(out, format::read_u64_le(t[0], at, ""), n[1]),
        11 => plain(out, (t[0].cmp(t[1]) as i8 + 1) as u64),
        44 => valued(out, in_pieces(call).map(u64::from)),
        no => panic!("call {no}"),
    }
}

fn volume_answer(call: &Lent, out: &mut Vec<u8>) -> Said {
    let n = &call.numbers;
    match call.no {
        12 => plain(out, format::is_bank_root(n[0], n[1]).into()),
        13 => plain(out, format::is_bank_block(n[0], n[1]).into()),
        14 => plain(out, open::is_nonreserved_block(n[0], n[1]).into()),
        15 => {
            fields(out, &reserved_ranges(n[0], n[1]));
            PLAIN
        }
        16 => valued(out, open::allocation_group_count(n[0])),
        17 => check(out, open::validate_tree_ref(tree(n[0], n[1]), n[2], mode(n[3]))),
        18 => {
            let page = tree(n[0], n[1]);
            check(out, open::validate_page_ref(page, kind(n[2]), n[3], mode(n[4])))
        }
        19 => check(out, open::validate_root_slot(n[0], n[1], mode(n[2]))),
        20 => {
            let seconds = n[0] as i64;
            check(out, format::validate_timestamp_range(seconds, n[1] as u32, mode(n[2])))
        }
        21 => check(out, format::validate_owner_id(n[0], mode(n[1]))),
        no => panic!("call {no}"),
    }
}

fn record_answer(call: &Lent, out: &mut Vec<u8>) -> Said {
    let (n, t) = (&call.numbers, &call.texts);
    match call.no {
        22 => check(out, format::validate_symlink_target(t[0], mode(n[0]))),
        23 => check(out, format::validate_inode(t[0], n[0], mode(n[1]))),
        24 => check(out, format::validate_directory_entry(t[0], mode(n[0]))),
        25 => valued(out, format::validate_extent(t[0], t[1], n[0], mode(n[1]))),
        26 => check(out, format::validate_checksum_group(t[0], t[1], mode(n[0]))),
        27 => {
            let blocks = open::validate_leaf_record(kind(n[0]), t[0], t[1], n[1], n[2], mode(n[3]));
            valued(out, blocks)
        }
        28 => {
            let child = open::validate_internal_record(kind(n[0]), t[0], t[1], n[1], n[2], mode(n[3]));
            checked(out, child, 2, 0, |out, child| {
                fields(out, &[child.block, child.generation]);
            })
        }
        29 => valued(out, format::leaf_record_blocks(kind(n[0]), t[0], t[1], n[1], n[2])),
        30 => checked(out, format::checksum_slot(t[0], n[0] as usize), 2, 0, |out, word| {
            fields(out, &[word.is_some().into(), word.unwrap_or(0).into()]);
        }),
        31 => {
            let group = t[0].try_into().expect("a group of 1,056 bytes");
            let front = format::compact_group(group);
            assert_eq!(offset(front, t[0]), 0);
            plain(out, front.len() as u64)
        }
        32 => {
            hex(out, &format::expand_group(t[0]));
            PLAIN
        }
        no => panic!("call {no}"),
    }
}

fn decoded_root(out: &mut Vec<u8>, root: &Root) {
    let none = (0, &[0; 255]);
    let (len, bytes) = root.label.as_ref().map_or(none, open::label_parts);
    fields(out, &[root.label.is_some().into(), len.into(), root.generation, root.blocks]);
    for tree in [root.catalog, root.allocation, root.cleanup] {
        fields(out, &[tree.block, tree.generation]);
    }
    fields(out, &[root.next_object, root.free_blocks, root.next_job]);
    fields(out, &[root.workspace.block, root.workspace.generation, root.workspace_cursor]);
    hex(out, &root.uuid);
    hex(out, bytes);
}

/// A root made by hand: 16 numbers and two strings.
pub fn made_root(n: &[u64], id: &[u8], label: &[u8]) -> Root {
    let bytes = label.try_into().expect("255 label bytes");
    Root {
        label: (n[0] == 1).then(|| open::label(n[1] as u8, bytes)),
        uuid: uuid(id),
        generation: n[2],
        blocks: n[3],
        catalog: tree(n[4], n[5]),
        allocation: tree(n[6], n[7]),
        cleanup: tree(n[8], n[9]),
        next_object: n[10],
        free_blocks: n[11],
        next_job: n[12],
        workspace: tree(n[13], n[14]),
        workspace_cursor: n[15],
    }
}

/// A root of call 41: whether it is present, then as above.
fn root_if_present(n: &[u64], id: &[u8], label: &[u8]) -> Option<Root> {
    (n[0] == 1).then(|| made_root(&n[1..], id, label))
}

/// 1 or 2 for the root chosen, told by its place in memory.
fn chosen(root: &Root, first: &Option<Root>) -> u64 {
    match first {
        Some(first) if std::ptr::eq(root, first) => 1,
        _ => 2,
    }
}

fn root_answer(call: &Lent, out: &mut Vec<u8>) -> Said {
    let (n, t) = (&call.numbers, &call.texts);
    match call.no {
        33 => checked(out, Label::new(t[0]), 1, 1, |out, label| {
            let (len, bytes) = open::label_parts(&label);
            field(out, len.into());
            hex(out, bytes);
        }),
        34 => checked(out, Root::decode(t[0], n[0], n[1]), 16, 2, |out, root| {
            decoded_root(out, &root);
        }),
        35 => {
            let supported = |text, slot, blocks| format::supported_root(Root::decode(text, slot, blocks));
            let both = supported(t[0], n[0], n[1]).and_then(|first| Ok((first, supported(t[1], n[2], n[3])?)));
            match both {
                Ok((first, second)) => {
                    let root = format::select_root(first.as_ref(), second.as_ref());
                    checked(out, root, 2, 0, |out, root| {
                        fields(out, &[chosen(root, &first), root.generation]);
                    })
                }
                Err(error) => checked(out, Err::<(), _>(error), 2, 0, |_, ()| ()),
            }
        }
        41 => {
            let first = root_if_present(&n[..17], t[0], t[1]);
            let second = root_if_present(&n[17..], t[2], t[3]);
            let root = format::select_root(first.as_ref(), second.as_ref());
            checked(out, root, 1, 0, |out, root| field(out, chosen(root, &first)))
        }
        no => panic!("call {no}"),
    }
}

fn whole_view(out: &mut Vec<u8>, view: Result<PageView>, page: &[u8]) -> Said {
    checked(out, view, 5, 0, |out, view| {
        let (count, payload) = open::view_parts(&view);
        fields(out, &[view.level.into(), view.data_blocks, count as u64]);
        fields(out, &[offset(payload, page), payload.len() as u64]);
    })
}

/// The scratch as `x` and four hex digits an entry.
fn scratch(out: &mut Vec<u8>, entries: &[u16]) {
    let bytes: Vec<u8> = entries.iter().flat_map(|entry| entry.to_be_bytes()).collect();
    hex(out, &bytes);
}

/// The first record of a lookup on a view: the view's numbers, the floor record's, and the record's, its contents as checksums.
fn handed(out: &mut Vec<u8>, view: &PageView, key: &[u8], entries: &mut [u16]) {
    let word = |bytes| u64::from(crc::crc32c(bytes));
    fields(out, &[view.level.into(), view.data_blocks, open::view_parts(view).0 as u64]);
    let Some((index, mut records)) = view.floor_record(key, |a, b| a.cmp(b), entries) else {
        return fields(out, &[0; 9]);
    };
    fields(out, &[1, index as u64, open::records_parts(&records).1 as u64]);
    match records.next() {
        Some((key, value)) => fields(out, &[1, key.len() as u64, word(key), value.len() as u64, word(value)]),
        None => fields(out, &[0; 5]),
    }
    field(out, open::records_parts(&records).1 as u64);
}

fn page_answer(call: &Lent, out: &mut Vec<u8>) -> Said {
    let (n, t) = (&call.numbers, &call.texts);
    match call.no {
        36 => {
            let (page, id) = (tree(n[0], n[1]), uuid(t[0]));
            let view = format::decode_page(t[1], page, &id, kind(n[2]), n[3], level(n[4]), n[5]);
            whole_view(out, view, t[1])
        }
        37 => {
            let (page, id) = (tree(n[0], n[1]), uuid(t[0]));
            let view = format::verified_page_view(t[1], page, &id, kind(n[2]), n[3], level(n[4]));
            whole_view(out, view, t[1])
        }
        38 => checked(out, format::draft_page_view(t[0]), 4, 0, |out, view| {
            let (count, payload) = open::view_parts(&view);
            fields(out, &[view.level.into(), count as u64]);
            fields(out, &[offset(payload, t[0]), payload.len() as u64]);
        }),
        39 => {
            let mut entries = vec![n[2] as u16; n[1] as usize];
            let view = open::view(n[0] as usize, t[0]);
            match view.floor_record(t[1], |a, b| a.cmp(b), &mut entries) {
                Some((index, records)) => {
                    let (rest, remaining) = open::records_parts(&records);
                    fields(out, &[1, index as u64, remaining as u64, offset(rest, t[0])]);
                }
                None => fields(out, &[0, 0, 0, 0]),
            }
            scratch(out, &entries);
            PLAIN
        }
        40 => {
            let mut records = open::records(t[0], n[0] as usize);
            match records.next() {
                Some((key, value)) => {
                    fields(out, &[1, offset(key, t[0]), key.len() as u64]);
                    fields(out, &[offset(value, t[0]), value.len() as u64]);
                    field(out, offset(open::records_parts(&records).0, t[0]));
                }
                None => fields(out, &[0, 0, 0, 0, 0, 0]),
            }
            PLAIN
        }
        42 => {
            let mut block = vec![0; 80];
            block.extend_from_slice(t[0]);
            let (payload, count) = (n[5] as usize, n[6] as usize);
            let total = open::validate_records(&block, payload, count, kind(n[0]), n[1] as u8, n[2], n[3], mode(n[4]));
            valued(out, total)
        }
        43 => {
            let (page, id) = (tree(n[0], n[1]), uuid(t[0]));
            let view = format::decode_page(t[1], page, &id, kind(n[2]), n[3], level(n[4]), n[5]);
            let mut entries = vec![0xFFFF; n[6] as usize];
            let said = checked(out, view, 12, 0, |out, view| handed(out, &view, t[2], &mut entries));
            scratch(out, &entries);
            said
        }
        no => panic!("call {no}"),
    }
}

/// The fields of a call on which the reference panics, though no listed difference applies: no program prints them.
pub const PANIC: &[u8] = b"the reference panics";

/// Writes a line by `answer`; a panic of the reference is written as such, which no program prints.
pub fn line(out: &mut Vec<u8>, place: u64, answer: impl FnOnce(&mut Vec<u8>) -> Said) -> Said {
    digits(out, place);
    let start = out.len();
    let said = catch_unwind(AssertUnwindSafe(|| answer(out))).unwrap_or_else(|_| {
        out.truncate(start);
        out.push(b' ');
        out.extend_from_slice(PANIC);
        PLAIN
    });
    out.push(b'\n');
    said
}

/// What `probe` prints for `input`; `note` is told each call's answer and its fields as printed.
pub fn probe(input: &[u8], note: impl FnMut(&Lent, Said, &[u8])) -> Vec<u8> {
    printed(&call::PROBE, input, note)
}

/// What `probe_added` prints for `input`.
pub fn probe_added(input: &[u8], note: impl FnMut(&Lent, Said, &[u8])) -> Vec<u8> {
    printed(&call::ADDED, input, note)
}

fn printed(calls: &Calls, mut input: &[u8], mut note: impl FnMut(&Lent, Said, &[u8])) -> Vec<u8> {
    let mut out = calls.head.as_bytes().to_vec();
    out.push(b'\n');
    let mut place = 0;
    while !input.is_empty() {
        let Some(call) = call::read(calls, &mut input) else {
            digits(&mut out, place);
            out.extend_from_slice(b" cut\n");
            return out;
        };
        let start = out.len();
        let said = line(&mut out, place, |out| answer(&call, out));
        note(&call, said, after_place(&out[start..]));
        place += 1;
    }
    out.extend_from_slice(b"end");
    field(&mut out, place);
    out.push(b'\n');
    out
}

/// A line's fields, without its place and its line feed.
pub fn after_place(line: &[u8]) -> &[u8] {
    let start = line.iter().position(|&byte| byte == b' ').map_or(0, |at| at + 1);
    line[start..].strip_suffix(b"\n").unwrap_or(&line[start..])
}
