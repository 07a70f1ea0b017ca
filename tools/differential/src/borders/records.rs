//! The records: each kind as a good record and its fields.

use super::{Field, Form, Pairs, big, length, little, number, tried, whole};
use crate::call::Call;
use crate::numbers::{EARLIEST, LAST_GROUP, LATEST, LOGICAL_END, MAX_ID};
use crate::records::{catalog_key, put};

/// The volume's blocks, and a page's generation.
const BLOCKS: u64 = 2_048;
const NEWEST: u64 = 5;
/// The largest volume, in which sums leave 64 bits.
const WIDE: u64 = u64::MAX;

const IDS: &[u64] = &[0, 1, MAX_ID - 1, MAX_ID, MAX_ID + 1, u64::MAX];
const SECONDS: &[u64] = &[
    LATEST as u64 + 1,
    LATEST as u64,
    EARLIEST as u64,
    EARLIEST as u64 - 1,
    u64::MAX,
    i64::MIN as u64,
    i64::MAX as u64,
];
const NANOSECONDS: &[u64] = &[1_000_000_000, 999_999_999, u32::MAX as u64];
/// What a reserved byte, and one of four bytes, may not be.
const BYTE: &[u64] = &[1, 128];
const WORD: &[u64] = &[1, 1 << 31];
const GENERATIONS: &[u64] = &[0, 1, NEWEST, NEWEST + 1, 1 << 56, u64::MAX];
const BLOCK: &[u64] = &[511, 512, BLOCKS - 513, BLOCKS - 512, 0, u64::MAX];
const COUNT: &[u64] = &[0, 1, 1_024, 1_025, u32::MAX as u64];
const VOLUMES: &[u64] = &[0, 1_023, 1_024, 1_025, 1_026];

pub fn forms() -> Vec<Form> {
    let mut forms = plain();
    forms.extend(volume());
    forms.extend(texts());
    forms.extend([file(), directory(), symlink(), long_symlink(), entry()]);
    forms.extend([extent(), wide_extent(), last_group(), short_group(), whole_group(), holes()]);
    forms.extend(catalog_leaves());
    forms.extend([first_bits(), last_bits(), bits_behind()]);
    forms.extend([retirement(), wide_retirement(), detached(), marker(), run(), wide_run()]);
    forms.extend(internal());
    forms.extend(sizes());
    forms
}

/// Times, owners and targets by themselves.
fn plain() -> Vec<Form> {
    vec![
        Form::new(
            "time",
            Call::new(20, &[0, 0, 1], &[]),
            vec![number("seconds", 0, SECONDS), number("nanoseconds", 1, NANOSECONDS)],
        ),
        Form::new("owner", Call::new(21, &[1, 1], &[]), vec![number("owner", 0, IDS)]),
        Form::new(
            "target",
            Call::new(22, &[1], &[b"abc"]),
            vec![
                length("length", 0, &[0, 1, 1_024, 1_023]),
                little("first", 0, (0, 1), &[0, 0xFF, 1, 0x7F, 0x80]),
                little("last", 0, (2, 1), &[0, 0xFF, 1, 0xC2]),
            ],
        ),
    ]
}

/// The blocks that roots, references and runs name.
fn volume() -> Vec<Form> {
    let front = [0, 1, 31, 32, 33, 95, 96, 511, 512, 513];
    let back = [513, 512, 97, 96, 95, 33, 32, 0].map(|back| BLOCKS - back);
    let blocks: Vec<u64> = front.into_iter().chain(back).chain([u64::MAX]).collect();
    let slots = [0, 255, 256, 257, BLOCKS - 258, BLOCKS - 257, BLOCKS - 256, u64::MAX];
    let volumes = |place| number("blocks", place, &[0, 1, 1_023, 1_024, 1_025, u64::MAX]);
    let generations = || number("generation", 1, &[0, 1, u64::MAX]);
    let mut forms = Vec::new();
    for (no, block) in [(12, 32), (13, 95), (14, 512)] {
        let fields = vec![number("block", 0, &blocks), volumes(1)];
        forms.push(Form::new("block", Call::new(no, &[block, BLOCKS], &[]), fields).with(Pairs::None));
    }
    let reference = vec![volumes(2), generations(), number("block", 0, &blocks)];
    forms.push(Form::new("tree reference", Call::new(17, &[512, 1, BLOCKS, 1], &[]), reference));
    for (kind, block) in [(1, 512), (2, 512), (3, 512), (4, 32)] {
        let reference = vec![volumes(3), generations(), number("block", 0, &blocks)];
        forms.push(Form::new("page reference", Call::new(18, &[block, 1, kind, BLOCKS, 1], &[]), reference));
    }
    let slot = vec![volumes(1), number("slot", 0, &slots)];
    forms.push(Form::new("slot", Call::new(19, &[256, BLOCKS, 1], &[]), slot));
    forms
}

/// Texts of labels, and the slots of a group that has none.
fn texts() -> Vec<Form> {
    let letters = [0, 0x1F, 0x20, 0x2E, SLASH, 0x7E, 0x7F, 0x80, 0xC2, 0xFF];
    let pairs = [0x2E2E, 0x80C2, 0x85C2, 0x9FC2, 0xA0C2, 0x80C3, 0x612E, 0x2E61];
    let label = |text: &[u8], fields| Form::new("label", Call::new(33, &[], &[text]), fields);
    let mut forms = vec![
        label(b"a", vec![length("length", 0, &[254, 255, 256, 0]), little("letter", 0, (0, 1), &letters)]),
        label(b"aa", vec![little("two", 0, (0, 2), &pairs), little("last", 0, (1, 1), &letters)]),
        label(b"...", vec![little("last", 0, (2, 1), &letters)]),
    ];
    for len in [31, 32] {
        let call = Call::new(30, &[0], &[&vec![0; len]]);
        forms.push(Form::new("slots", call, vec![number("slot", 0, &[254, 255, 256, u64::MAX])]));
    }
    forms
}

fn inode_value(object_type: u8, target: &[u8]) -> Vec<u8> {
    let mut value = vec![0; 128];
    value[0] = object_type;
    value[8] = 1;
    put(&mut value, (16, 8), target.len() as u64, false);
    value.extend_from_slice(target);
    value
}

/// An inode: the fields that its type decides, and one before and one behind them.
fn inode(value: &[u8], lens: &[usize]) -> Form {
    Form::new(
        "inode",
        Call::new(23, &[BLOCKS, 1], &[value]),
        vec![
            little("type", 0, (0, 1), &[0, 4, 1, 2, 3, 255]),
            length("length", 0, lens),
            little("flags", 0, (1, 1), &[8, 1, 2, 3, 6, 7, 16, 32, 64, 128]),
            little("a directory's link", 0, (1, 1), &[4, 5]),
            little("parent", 0, (8, 8), &[0]),
            little("size", 0, (16, 8), &[MAX_ID + 1, MAX_ID, 1, 2, 3, 4, u64::MAX]),
            little("allocated", 0, (24, 8), &[BLOCKS + 1, BLOCKS, BLOCKS - 1, 1, 0, u64::MAX]),
            little("children", 0, (32, 8), &[MAX_ID + 1, MAX_ID, 1, u64::MAX]),
            little("seconds", 0, (40, 8), &[LATEST as u64 + 1]),
        ],
    )
}

fn file() -> Form {
    let mut form = inode(&inode_value(1, b""), &[127, 128, 129, 1, 0]);
    // A file of one block, so that the volume's size tells.
    put(&mut form.good.texts[0], (24, 8), 1, false);
    form.fields.push(number("blocks", 0, &[0, 1, u64::MAX]));
    form.fields.push(little("flags of a link", 0, (1, 1), &[2, 6]));
    form.fields.push(little("byte 7", 0, (7, 1), BYTE));
    form.fields.push(little("byte 88", 0, (88, 1), BYTE));
    form.fields.push(little("byte 127", 0, (127, 1), BYTE));
    form
}

fn directory() -> Form {
    inode(&inode_value(2, b""), &[129, 128, 127, 1, 0])
}

/// A target's length and the inode's size in step.
fn target(call: &mut Call, len: usize) {
    call.texts[0].resize(128 + len, b'x');
    put(&mut call.texts[0], (16, 8), len as u64, false);
}

/// A symlink, and the fields that are the same in every inode.
fn symlink() -> Form {
    let mut form = inode(&inode_value(3, b"abc"), &[127, 128, 130, 131, 132, 0]);
    form.fields.extend([
        little("byte 2", 0, (2, 1), BYTE),
        little("other parents", 0, (8, 8), IDS),
        tried("target", &[0, 1, 255, 256], target),
        little("letter", 0, (128, 1), &[0, 0xFF, 1]),
    ]);
    for at in [40, 56, 72] {
        form.fields.push(little("seconds", 0, (at, 8), SECONDS));
        form.fields.push(little("nanoseconds", 0, (at + 8, 4), NANOSECONDS));
        form.fields.push(little("reserved", 0, (at + 12, 4), WORD));
    }
    form
}

/// The longest targets.
fn long_symlink() -> Form {
    Form::new(
        "inode",
        Call::new(23, &[BLOCKS, 1], &[&inode_value(3, b"abc")]),
        vec![
            little("children", 0, (32, 8), &[1]),
            tried("target", &[1_024, 1_023], target),
            little("first", 0, (128, 1), &[0]),
            little("seconds", 0, (40, 8), &[LATEST as u64 + 1]),
        ],
    )
}

fn entry_value(name: &[u8]) -> Vec<u8> {
    [&2u64.to_le_bytes()[..], &[1, 0, name.len() as u8, 0], name].concat()
}

/// A name and its length in step.
fn name(text: usize) -> impl Fn(&mut Call, usize) + Copy {
    move |call: &mut Call, len: usize| {
        call.texts[text].resize(12 + len, b'x');
        put(&mut call.texts[text], (10, 2), len as u64, false);
    }
}

fn entry_fields(text: usize) -> Vec<Field> {
    vec![
        length("length", text, &[0, 11, 12, 13, 14, 15]),
        little("target", text, (0, 8), IDS),
        little("type", text, (8, 1), &[0, 1, 2, 3, 4, 255]),
        little("reserved", text, (9, 1), BYTE),
        little("name's length", text, (10, 2), &[0, 1, 2, 3, 0x102, 255, 256]),
        tried("name", &[0, 1, 254, 255, 256], name(text)),
        little("first", text, (12, 1), &[0xFF, 0x80, 0, SLASH, 1]),
        little("last", text, (13, 1), &[0xFF, 0xC2, 0, SLASH, 1]),
    ]
}

fn entry() -> Form {
    Form::new("entry", Call::new(24, &[1], &[&entry_value(b"ab")]), entry_fields(0))
}

fn extent_key(logical: u64) -> Vec<u8> {
    catalog_key(1, 3, &logical.to_be_bytes())
}

fn extent_value(physical: u64, count: u32) -> Vec<u8> {
    [&physical.to_le_bytes()[..], &count.to_le_bytes(), &[0; 4]].concat()
}

fn extent_fields() -> Vec<Field> {
    let logical = [LOGICAL_END, LOGICAL_END - 1, 0, 1, u64::MAX, u64::MAX - 1];
    vec![
        big("logical", 0, (9, 8), &logical),
        length("value's length", 1, &[17, 16, 15, 0]),
        little("physical", 1, (0, 8), BLOCK),
        little("count", 1, (8, 4), COUNT),
        little("reserved", 1, (12, 4), WORD),
    ]
}

fn extent() -> Form {
    let mut fields = extent_fields();
    fields.insert(0, length("key's length", 0, &[9, 16, 17, 18, 0]));
    fields.push(number("blocks", 0, VOLUMES));
    Form::new("extent", Call::new(25, &[BLOCKS, 1], &[&extent_key(0), &extent_value(512, 1)]), fields)
}

/// Extents whose ends are the last numbers of 64 bits.
fn wide_extent() -> Form {
    let texts: [&[u8]; 2] = [&extent_key(0), &extent_value(WIDE - 513, 1)];
    Form::new(
        "extent",
        Call::new(25, &[WIDE, 1], &texts),
        vec![
            big("logical", 0, (9, 8), &[LOGICAL_END, u64::MAX, u64::MAX - 1, u64::MAX - 512]),
            length("value's length", 1, &[17, 15]),
            little("physical", 1, (0, 8), &[WIDE - 512, WIDE - 513, WIDE - 1, WIDE]),
            little("count", 1, (8, 4), &[1, 2, 513, 514, u32::MAX as u64]),
            little("reserved", 1, (12, 4), WORD),
        ],
    )
}

fn group_key(group: u64) -> Vec<u8> {
    catalog_key(1, 4, &group.to_be_bytes())
}

/// A stored group with these slots, each word 9.
fn group_value(slots: &[usize]) -> Vec<u8> {
    let last = slots.iter().max().map_or(0, |last| last + 1);
    let mut value = vec![0; 32 + 4 * last];
    for slot in slots {
        value[slot / 8] |= 1 << (slot % 8);
        put(&mut value, (32 + 4 * slot, 4), 9, false);
    }
    value
}

fn group_form(value: &[u8], fields: Vec<Field>) -> Form {
    Form::new("group", Call::new(26, &[1], &[&group_key(0), value]), fields)
}

/// A group of one slot, the first; its index and its lengths.
fn last_group() -> Form {
    group_form(
        &group_value(&[0]),
        vec![
            length("key's length", 0, &[18, 17, 16, 0]),
            big("index", 0, (9, 8), &[LAST_GROUP + 1, LAST_GROUP, 1, u64::MAX]),
            length("value's length", 1, &[37, 36, 35, 32, 31, 39, 40, 0]),
            little("first bits", 1, (0, 1), &[0, 1, 2, 3, 128]),
            little("byte 1", 1, (1, 1), BYTE),
            little("byte 31", 1, (31, 1), BYTE),
        ],
    )
}

/// Groups that end at and beside the end of a bitmap byte, and one whose last byte is only begun.
fn short_group() -> Form {
    let slots = [vec![], vec![7], vec![8]];
    let values = slots.iter().map(|slots: &Vec<usize>| group_value(slots)).collect();
    group_form(
        &group_value(&[6, 9]),
        vec![
            whole("slots", 1, values),
            little("byte 1", 1, (1, 1), &[0, 1, 2, 3, 4, 6]),
            little("hole 0", 1, (32, 1), BYTE),
        ],
    )
}

/// A group of all 256 slots.
fn whole_group() -> Form {
    let slots: Vec<usize> = (0..256).collect();
    group_form(
        &group_value(&slots),
        vec![
            big("index", 0, (9, 8), &[LAST_GROUP, LAST_GROUP + 1]),
            length("value's length", 1, &[1_060]),
            little("byte 31", 1, (31, 1), &[0x7F]),
        ],
    )
}

/// Holes in an empty byte, in a byte with slots, and in the last one; their words' first and last bytes.
fn holes() -> Form {
    let bits = [0x0A00, 0x01_0A00, 0x02_0A00, 0x06_0A00, 0x08_0A00, 0x0C_0A00, 0x04_0A01, 0x04_0A80, 0x04_0F00];
    // A slot's word may be anything, a hole's may not.
    let words = [9 << 32 | 1, 0, (u32::MAX as u64) << 32, 9 << 32 | 1 << 31];
    let mut fields = vec![little("bits", 1, (0, 3), &bits), little("words 8 and 9", 1, (64, 8), &words)];
    for slot in [0, 7, 10, 15, 16, 17] {
        fields.push(little("hole", 1, (32 + 4 * slot, 4), WORD));
    }
    group_form(&group_value(&[9, 11, 18]), fields)
}

/// Fields of a catalog key.
fn key_fields(lens: &[usize]) -> Vec<Field> {
    vec![
        length("key's length", 0, lens),
        big("owner", 0, (0, 8), IDS),
        big("key's kind", 0, (8, 1), &[0, 1, 2, 3, 4, 5, 255]),
    ]
}

/// The lengths and the text of an entry's key.
fn entry_key_fields() -> Vec<Field> {
    let mut fields = key_fields(&[8, 9, 10, 11, 773, 774, 775, 0]);
    fields.push(big("key's first letter", 0, (9, 1), &[0xFF, 0x80, 0, SLASH]));
    fields.push(big("key's last letter", 0, (10, 1), &[0xFF, 0xC2, 0, SLASH]));
    fields
}

fn leaf(kind: u64, key: &[u8], value: &[u8], fields: Vec<Field>) -> Form {
    Form::new("leaf", Call::new(27, &[kind, BLOCKS, NEWEST, 1], &[key, value]), fields)
}

fn catalog_leaves() -> Vec<Form> {
    let mut inode_fields = key_fields(&[10, 9, 8, 17, 0]);
    inode_fields.extend([
        length("value's length", 1, &[129, 128, 127, 0]),
        little("type", 1, (0, 1), &[0, 1, 4]),
        little("parent", 1, (8, 8), &[0, 1]),
        little("size", 1, (16, 8), &[MAX_ID + 1, MAX_ID]),
        little("seconds", 1, (40, 8), SECONDS),
    ]);
    let mut entry = entry_key_fields();
    entry.extend(entry_fields(1));
    let mut extents = key_fields(&[18, 17, 16, 9, 8, 0]);
    extents.extend(extent_fields());
    extents.push(number("blocks", 1, VOLUMES));
    let mut groups = key_fields(&[18, 17, 16, 9, 8, 0]);
    groups.extend([
        big("index", 0, (9, 8), &[LAST_GROUP + 1, LAST_GROUP]),
        length("value's length", 1, &[37, 36, 35]),
        little("first bits", 1, (0, 1), &[0, 1, 2]),
    ]);
    vec![
        leaf(1, &catalog_key(1, 1, b""), &inode_value(1, b""), inode_fields),
        leaf(1, &catalog_key(1, 2, b"ab"), &entry_value(b"ab"), entry),
        leaf(1, &extent_key(0), &extent_value(512, 1), extents),
        leaf(1, &group_key(0), &group_value(&[0]), groups),
    ]
}

/// Bits of the value, each cleared or set by itself.
fn bits(name: &'static str, tries: &[(usize, bool)]) -> Field {
    tried(name, tries, move |call, (at, set)| {
        if let Some(byte) = call.texts[1].get_mut(at / 8) {
            *byte = *byte & !(1 << (at % 8)) | u8::from(set) << (at % 8);
        }
    })
}

/// An allocation group in which just the reserved blocks are taken.
fn allocation(blocks: u64, group: u64, fields: Vec<Field>) -> Form {
    let mut value = vec![0; 2_048];
    for at in 0..16_384 {
        let block = group * 16_384 + at as u64;
        if block < 512 || block >= blocks - 512 {
            value[at / 8] |= 1 << (at % 8);
        }
    }
    Form::new("bits", Call::new(27, &[2, blocks, NEWEST, 1], &[&group.to_be_bytes(), &value]), fields)
}

fn first_bits() -> Form {
    allocation(
        2_049,
        0,
        vec![
            length("key's length", 0, &[7, 9]),
            length("value's length", 1, &[2_047, 2_049, 0]),
            number("blocks", 1, &[u64::MAX - 16_382, u64::MAX - 16_383]),
            big("index", 0, (0, 8), &[1]),
            number("fewer blocks", 1, &[2_048, 2_050]),
            bits("low end", &[(511, false), (512, true), (0, false)]),
            bits("high end", &[(1_537, false), (1_536, true), (16_383, false)]),
        ],
    )
    .with(Pairs::Next)
}

/// The second of two groups.
fn last_bits() -> Form {
    allocation(
        20_000,
        1,
        vec![
            big("index", 0, (0, 8), &[0, 2]),
            bits("high end", &[(3_104, false), (3_103, true), (0, true), (16_383, false)]),
        ],
    )
    .with(Pairs::None)
}

/// A group that holds reserved blocks only, since the volume ends in it within 512 blocks.
fn bits_behind() -> Form {
    allocation(16_385, 1, vec![bits("bits", &[(0, false), (600, false)])])
}

fn retirement_key(generation: u64, block: u64) -> Vec<u8> {
    [&[1][..], &generation.to_be_bytes(), &block.to_be_bytes()].concat()
}

fn retirement_value(count: u32) -> Vec<u8> {
    [&count.to_le_bytes()[..], &[0; 4]].concat()
}

pub const SLASH: u64 = b'/' as u64;
const KINDS: &[u64] = &[0, 1, 2, 3, 4, 255];

fn retirement() -> Form {
    leaf(
        3,
        &retirement_key(NEWEST, 512),
        &retirement_value(1),
        vec![
            length("key's length", 0, &[18, 17, 16, 10, 9, 8, 0]),
            big("key's kind", 0, (0, 1), KINDS),
            length("value's length", 1, &[9, 8, 7, 0]),
            big("generation", 0, (1, 8), GENERATIONS),
            number("newest", 2, &[0, NEWEST - 1, NEWEST, u64::MAX]),
            big("block", 0, (9, 8), BLOCK),
            little("count", 1, (0, 4), COUNT),
            little("reserved", 1, (4, 4), WORD),
            number("blocks", 1, VOLUMES),
        ],
    )
}

fn wide_retirement() -> Form {
    let mut form = leaf(
        3,
        &retirement_key(NEWEST, WIDE - 513),
        &retirement_value(1),
        vec![
            big("generation", 0, (1, 8), GENERATIONS),
            big("block", 0, (9, 8), &[WIDE - 512, WIDE - 513, WIDE - 1, WIDE]),
            length("value's length", 1, &[9, 7]),
            little("count", 1, (0, 4), &[1, 2, 513, 514, u32::MAX as u64]),
            little("reserved", 1, (4, 4), WORD),
        ],
    );
    form.good.numbers[1] = WIDE;
    form
}

/// A cleanup key of nine bytes.
fn short_key(kind: u8, id: u64) -> Vec<u8> {
    [&[kind][..], &id.to_be_bytes()].concat()
}

fn reference(block: u64, generation: u64) -> Vec<u8> {
    [block.to_le_bytes(), generation.to_le_bytes()].concat()
}

fn detached() -> Form {
    let value = [&1u64.to_le_bytes()[..], &[2, 3, 0, 0, 0, 0, 0, 0], &reference(512, NEWEST)].concat();
    leaf(
        3,
        &short_key(2, 1),
        &value,
        vec![
            length("key's length", 0, &[10, 9, 8, 17, 0]),
            big("key's kind", 0, (0, 1), KINDS),
            length("value's length", 1, &[33, 32, 31, 0]),
            big("job", 0, (1, 8), IDS),
            little("owner", 1, (0, 8), IDS),
            little("low", 1, (8, 1), &[0, 1, 2, 3, 4, 5, 255]),
            little("high", 1, (9, 1), &[5, 0, 2, 3, 4, 255]),
            little("high below low", 1, (9, 1), &[1]),
            little("byte 10", 1, (10, 1), BYTE),
            little("byte 15", 1, (15, 1), BYTE),
            number("blocks", 1, VOLUMES),
            little("block", 1, (16, 8), BLOCK),
            little("generation", 1, (24, 8), GENERATIONS),
            number("newest", 2, &[0, NEWEST - 1, NEWEST, u64::MAX]),
        ],
    )
}

fn marker() -> Form {
    leaf(
        3,
        &short_key(3, 1),
        b"",
        vec![
            length("key's length", 0, &[10, 9, 8, 17, 0]),
            big("key's kind", 0, (0, 1), KINDS),
            length("value's length", 1, &[0, 1, 8]),
            big("object", 0, (1, 8), IDS),
        ],
    )
}

fn run() -> Form {
    leaf(
        4,
        &512u64.to_be_bytes(),
        &1u32.to_le_bytes(),
        vec![
            length("key's length", 0, &[9, 8, 7, 0]),
            big("block", 0, (0, 8), BLOCK),
            length("value's length", 1, &[5, 4, 3, 0]),
            little("count", 1, (0, 4), COUNT),
            number("blocks", 1, VOLUMES),
        ],
    )
}

fn wide_run() -> Form {
    let mut form = leaf(
        4,
        &(WIDE - 513).to_be_bytes(),
        &1u32.to_le_bytes(),
        vec![
            big("block", 0, (0, 8), &[WIDE - 512, WIDE - 513, WIDE]),
            length("value's length", 1, &[5, 3]),
            little("count", 1, (0, 4), &[515, 514, 2, 1, 0, u32::MAX as u64]),
        ],
    );
    form.good.numbers[1] = WIDE;
    form
}

/// An internal record: the key's fields, then those of the child.
fn child(kind: u64, key: &[u8], mut fields: Vec<Field>) -> Form {
    let bank = [31, 32, 95, 96, BLOCKS - 97, BLOCKS - 96, BLOCKS - 33, BLOCKS - 32, 512];
    let (block, tries) = if kind == 4 { (32, &bank[..]) } else { (512, BLOCK) };
    fields.extend([
        length("value's length", 1, &[17, 16, 15, 0]),
        little("child", 1, (0, 8), tries),
        little("child's generation", 1, (8, 8), GENERATIONS),
        number("newest", 2, &[0, NEWEST - 1, NEWEST, u64::MAX]),
        number("blocks", 1, VOLUMES),
    ]);
    let texts: [&[u8]; 2] = [key, &reference(block, NEWEST)];
    Form::new("internal", Call::new(28, &[kind, BLOCKS, NEWEST, 1], &texts), fields)
}

fn internal() -> Vec<Form> {
    let cleanup = |lens: &[usize]| vec![length("key's length", 0, lens), big("key's kind", 0, (0, 1), KINDS)];
    let mut retirement = cleanup(&[18, 17, 16, 10, 9, 8, 0]);
    retirement.push(big("generation", 0, (1, 8), GENERATIONS));
    retirement.push(big("block", 0, (9, 8), BLOCK));
    let mut forms = vec![
        child(1, &catalog_key(1, 1, b""), key_fields(&[8, 9, 10, 0])),
        child(1, &catalog_key(1, 2, b"ab"), entry_key_fields()),
        child(1, &extent_key(0), key_fields(&[18, 17, 16])),
        child(1, &group_key(0), key_fields(&[18, 17, 16])),
        child(3, &retirement_key(NEWEST, 512), retirement),
        child(4, &512u64.to_be_bytes(), vec![length("key's length", 0, &[9, 8, 7, 0]), big("block", 0, (0, 8), BLOCK)]),
    ];
    for kind in 2..=3 {
        let mut fields = cleanup(&[10, 9, 8, 17, 0]);
        fields.push(big("number", 0, (1, 8), IDS));
        forms.push(child(3, &short_key(kind, 1), fields));
    }
    let mut bits = child(
        2,
        &1u64.to_be_bytes(),
        vec![
            length("key's length", 0, &[9, 8, 7, 0]),
            big("index", 0, (0, 8), &[2, 1, 0, 1 << 56]),
            number("blocks", 1, &[16_384, 16_385, 32_768, 32_769, u64::MAX - 16_383, u64::MAX - 16_382, u64::MAX]),
        ],
    );
    bits.good.numbers[1] = 20_000;
    forms.push(bits);
    forms
}

/// `leaf_record_blocks`: a record of each kind, and the lengths at the borders of what a page takes.
fn sizes() -> Vec<Form> {
    let size = |kind: u64, key: &[u8], value: &[u8], fields| {
        Form::new("size", Call::new(29, &[kind, BLOCKS, NEWEST], &[key, value]), fields)
    };
    let blocks = || number("blocks", 1, &[1_024, 1_025]);
    let newest = number("newest", 2, &[NEWEST - 1]);
    let most = 3_072 - 4 - 9;
    let lengths = vec![
        length("key's length", 0, &[1_025, 0, 10, 8, 9, 1_024]),
        length("value's length", 1, &[most + 1, most, 1]),
    ];
    vec![
        size(1, &catalog_key(1, 1, b""), &inode_value(1, b""), vec![]),
        size(1, &catalog_key(1, 2, b"ab"), &entry_value(b"ab"), vec![]),
        size(1, &extent_key(0), &extent_value(512, 3), vec![blocks()]),
        size(1, &group_key(0), &group_value(&[0]), vec![]),
        size(3, &retirement_key(NEWEST, 512), &retirement_value(1), vec![blocks(), newest]),
        size(3, &short_key(3, 1), b"", lengths),
        size(4, &512u64.to_be_bytes(), &1u32.to_le_bytes(), vec![blocks()]),
    ]
}
