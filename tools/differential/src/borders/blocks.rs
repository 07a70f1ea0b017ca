//! Roots, the choice of two, pages, their views and the walk over their records.

use super::records::SLASH;
use super::{Field, Form, Pairs, big, length, little, number, tried, whole};
use crate::call::Call;
use crate::numbers::MAX_ID;
use crate::oracle::{kind, tree};
use crate::pages::laid;
use crate::records::{Record, catalog_key, put};
use crate::roots::encoded;
use reference::format::{Label, Root, encode_node};

/// The volume's blocks: two whole allocation groups.
const BLOCKS: u64 = 32_768;
const NEWEST: u64 = 5;
const ID: [u8; 16] = [1, 2, 3, 4, 5, 6, 7, 8, 9, 10, 11, 12, 13, 14, 15, 16];

pub fn forms() -> Vec<Form> {
    let mut forms = vec![root()];
    forms.extend(root_extremes());
    forms.extend(made_up());
    forms.extend(choices());
    forms.extend([leaf(), internal(), bare_leaf()]);
    forms.extend(page_extremes());
    forms.extend([verified(), draft()]);
    forms.extend([walk(), children()]);
    forms.extend(one_record());
    forms
}

fn good_root() -> Root {
    Root {
        label: Label::new(b"ab").ok(),
        uuid: ID,
        generation: NEWEST,
        blocks: BLOCKS,
        catalog: tree(600, NEWEST),
        allocation: tree(601, NEWEST),
        cleanup: tree(602, NEWEST),
        next_object: 9,
        free_blocks: 100,
        next_job: 8,
        workspace: tree(32, NEWEST),
        workspace_cursor: 1,
    }
}

fn root_call(root: &Root, slot: u64) -> Call {
    encoded(root, slot).decode_call()
}

/// The block's checksum, left wrong.
fn checksum(text: usize, at: usize) -> Field {
    Field { unsealed: true, ..little("checksum", text, (at, 4), &[u32::MAX as u64]) }
}

/// What a root tests, in that order, before its fields.
fn root_front() -> Vec<Field> {
    let mut fields = vec![
        length("length", 0, &[4_095, 4_097]),
        number("blocks", 1, &[1_023]),
        number("slot", 0, &[255]),
        checksum(0, 4_092),
        little("magic", 0, (0, 1), &[0]),
        little("magic's end", 0, (7, 1), &[0]),
        little("revision", 0, (8, 4), &[0, 1 | 1 << 31, 2]),
        little("record bytes", 0, (12, 4), &[4_095, 4_096 | 1 << 31]),
        little("allocation bytes", 0, (16, 4), &[4_095, 4_096 | 1 << 31]),
        little("unit bytes", 0, (20, 4), &[65_535, 65_536 | 1 << 31]),
        little("label's length", 0, (184, 2), &[256, 1]),
        little("padding's end", 0, (4_091, 1), &[1]),
        little("padding", 0, (188, 1), &[1]),
        little("label's UTF-8", 0, (187, 1), &[0xFF]),
        little("label's text", 0, (187, 1), &[SLASH, 0x7F, 0]),
        little("features", 0, (128, 8), &[1, 1 << 63]),
        little("profile", 0, (136, 4), &[1, 2 | 1 << 31]),
        little("state", 0, (140, 4), &[1, 1 << 31]),
        little("self block", 0, (40, 8), &[257, 255]),
        little("own blocks", 0, (56, 8), &[BLOCKS - 1]),
        number("blocks given", 1, &[1_024]),
    ];
    fields.push(little("reserve", 0, (144, 8), &[16_383, 16_384 | 1 << 63]));
    fields
}

/// A root's fields in the order of their tests.
fn root_fields() -> Vec<Field> {
    let id = tried("UUID", &[0u8], |call, byte| call.texts[0][24..40].fill(byte));
    let mut fields = vec![id, little("generation", 0, (48, 8), &[0]), little("cursor", 0, (176, 8), &[2, 1 | 1 << 63])];
    for (name, at) in [("catalog", 64), ("allocation", 80), ("cleanup", 96)] {
        fields.push(little(name, 0, (at, 8), &[511]));
        fields.push(little(name, 0, (at + 8, 8), &[0]));
    }
    fields.extend([
        little("bank block", 0, (160, 8), &[31]),
        little("bank's generation 0", 0, (168, 8), &[0]),
        little("bank's generation", 0, (168, 8), &[NEWEST + 1]),
        little("bank root", 0, (160, 8), &[33, BLOCKS - 95]),
        little("catalog shared", 0, (64, 8), &[601, 602]),
        little("allocation shared", 0, (80, 8), &[602]),
        little("catalog newer", 0, (72, 8), &[NEWEST + 1]),
        little("allocation newer", 0, (88, 8), &[NEWEST + 1]),
        little("cleanup newer", 0, (104, 8), &[NEWEST + 1]),
        little("next object", 0, (112, 8), &[1, MAX_ID + 1]),
        little("next job", 0, (152, 8), &[0, MAX_ID + 1]),
        little("free blocks", 0, (120, 8), &[BLOCKS - 1_026]),
    ]);
    fields
}

fn root() -> Form {
    let mut fields = root_front();
    fields.extend(root_fields());
    Form::new("root", root_call(&good_root(), 256), fields).with(Pairs::Next)
}

/// Roots with every field at its lowest, in the smallest volume, and at its highest, in one that has a block too many for
/// two groups.
fn root_extremes() -> Vec<Form> {
    let id = |place: usize| std::array::from_fn(|at| u8::from(at == place));
    let lowest = Root {
        label: None,
        uuid: id(0),
        generation: 1,
        catalog: tree(512, 1),
        allocation: tree(513, 1),
        cleanup: tree(514, 1),
        next_object: 2,
        free_blocks: 0,
        next_job: 1,
        workspace: tree(32, 1),
        workspace_cursor: 0,
        blocks: 1_027,
        ..good_root()
    };
    let (newest, blocks) = (u64::MAX, BLOCKS + 1);
    let highest = Root {
        label: Label::new(&[b'a'; 255]).ok(),
        uuid: id(15),
        generation: newest,
        blocks,
        catalog: tree(blocks - 513, newest),
        allocation: tree(blocks - 514, newest),
        cleanup: tree(blocks - 515, newest),
        next_object: MAX_ID,
        free_blocks: blocks - 1_027,
        next_job: MAX_ID,
        workspace: tree(blocks - 96, newest),
        workspace_cursor: 2,
    };
    let calls = [root_call(&lowest, 1_027 - 257), root_call(&highest, blocks - 257)];
    calls.into_iter().map(|call| Form::new("root", call, vec![])).collect()
}

/// Call 41: two equal roots; the second differs in one field.
fn made_up() -> Vec<Form> {
    let one = [1, 1, 3, NEWEST, BLOCKS, 600, 1, 601, 2, 602, 3, 9, 100, 8, 32, 4, 1];
    let label = [b'a'; 255];
    let good = Call::new(41, &[one, one].concat(), &[&ID, &label, &ID, &label]);
    let mut fields = vec![
        little("UUID", 2, (0, 1), &[2]),
        little("UUID's middle", 2, (7, 1), &[0]),
        little("UUID's end", 2, (15, 1), &[0]),
        number("label", 18, &[0]),
        number("label's length", 19, &[4]),
        little("label's first", 3, (0, 1), &[0x62]),
        little("label's last", 3, (2, 1), &[0x62]),
        little("label's end", 3, (254, 1), &[0x62]),
    ];
    for place in 21..34 {
        let value = good.numbers[place];
        fields.push(number("field", place, &[value + 1]));
    }
    fields.push(number("generation", 20, &[NEWEST - 1, NEWEST + 1]));
    fields.push(number("first there", 0, &[0]));
    fields.push(number("second there", 17, &[0]));
    let mut forms = vec![Form::new("choice", good.clone(), fields).with(Pairs::Next)];
    // Other generations, then other fields of no account; no labels, whose lengths and bytes are of none.
    for newer in [NEWEST - 1, NEWEST + 1] {
        let mut call = good.clone();
        (call.numbers[20], call.numbers[21]) = (newer, 1);
        forms.push(Form::new("choice", call, vec![little("UUID", 2, (15, 1), &[0])]));
    }
    let mut call = good;
    (call.numbers[1], call.numbers[18]) = (0, 0);
    forms.push(Form::new(
        "choice",
        call,
        vec![number("label's length", 19, &[2]), little("label's first", 3, (0, 1), &[0]), number("label", 18, &[1])],
    ));
    forms
}

/// Call 35: two equal roots; the second differs in one field.
fn choices() -> Vec<Form> {
    let (one, other) = (encoded(&good_root(), 256), encoded(&good_root(), BLOCKS - 257));
    let call = |a: u64, b: u64, texts: [&[u8]; 2]| Call::new(35, &[a, b, BLOCKS - 257, BLOCKS], &texts);
    let good = call(256, BLOCKS, [&one.block, &other.block]);
    let fields = vec![
        little("UUID's end", 1, (39, 1), &[0]),
        tried("label's length", &[1u8], |call, len| call.texts[1][184..188].copy_from_slice(&[len, 0, b'a', 0])),
        little("label's first", 1, (186, 1), &[0x62]),
        little("label's last", 1, (187, 1), &[0x63]),
        little("catalog", 1, (64, 8), &[700]),
        little("cursor", 1, (176, 8), &[0]),
    ];
    let mut forms = vec![Form::new("choice", good, fields).with(Pairs::None)];
    // No root, and two refusals of which the first block's is told.
    let (zeros, none) = ([0; 4_096], [0; 0]);
    forms.push(Form::new("choice", call(256, BLOCKS, [&none, &none]), vec![]));
    let refused = Call::new(35, &[256, 1_023, 255, BLOCKS], &[&zeros, &zeros]);
    forms.push(Form::new("choice", refused, vec![]));
    forms
}

/// A page made by the reference's encoder, and the call that reads it.
#[derive(Clone)]
struct Page {
    kind: u64,
    block: u64,
    level: u8,
    total: u64,
    records: Vec<Record>,
}

impl Page {
    fn encoded(&self) -> Vec<u8> {
        let lent: Vec<(&[u8], &[u8])> = self.records.iter().map(|(key, value)| (&key[..], &value[..])).collect();
        let mut page = [0; 4096];
        let at = tree(self.block, NEWEST);
        let made = encode_node(&mut page, at, &ID, kind(self.kind), &lent, BLOCKS, self.level, self.total);
        made.expect("a good page is encoded");
        page.to_vec()
    }

    fn call(&self) -> Call {
        let numbers = [self.block, NEWEST, self.kind, NEWEST, self.level.into(), BLOCKS];
        Call::new(36, &numbers, &[&ID, &self.encoded()])
    }
}

fn extent_record(logical: u64, physical: u64, count: u32) -> Record {
    let value = [&physical.to_le_bytes()[..], &count.to_le_bytes(), &[0; 4]].concat();
    (catalog_key(1, 3, &logical.to_be_bytes()), value)
}

fn child_record(owner: u64, block: u64) -> Record {
    (catalog_key(owner, 1, b""), [block.to_le_bytes(), NEWEST.to_le_bytes()].concat())
}

/// Two extents: a leaf whose payload has 74 bytes.
fn good_leaf() -> Page {
    let records = vec![extent_record(0, 512, 3), extent_record(3, 700, 4)];
    Page { kind: 1, block: 600, level: 0, total: 0, records }
}

fn good_internal() -> Page {
    let records = vec![child_record(1, 512), child_record(2, 513)];
    Page { kind: 1, block: BLOCKS - 513, level: 7, total: BLOCKS, records }
}

/// What is tested before the page is read, in that order.
fn page_arguments() -> Vec<Field> {
    vec![
        length("length", 1, &[4_095, 4_097]),
        number("blocks", 5, &[1_023]),
        number("block", 0, &[511]),
        number("generation", 1, &[0]),
        tried("UUID", &[0u8], |call, byte| call.texts[0].fill(byte)),
        number("parent", 3, &[NEWEST - 1, 0]),
        number("level", 4, &[8]),
        checksum(1, 64),
    ]
}

/// The header's fields in the order of their tests.
fn page_header() -> Vec<Field> {
    vec![
        little("magic", 1, (0, 1), &[0]),
        little("magic's end", 1, (7, 1), &[0]),
        little("revision", 1, (8, 2), &[0, 0x101]),
        little("flags", 1, (10, 2), &[1, 0x8000]),
        little("page kind", 1, (12, 1), &[0, 3]),
        little("tree kind", 1, (13, 1), &[0, 5]),
        little("other tree", 1, (13, 1), &[2]),
        little("level of a leaf", 1, (14, 1), &[1]),
        number("other level", 4, &[1, 7, 2]),
        little("byte 15", 1, (15, 1), &[1]),
        little("byte 36", 1, (36, 1), &[1]),
        little("byte 68", 1, (68, 1), &[1]),
        little("byte 39", 1, (39, 1), &[1]),
        little("byte 79", 1, (79, 1), &[1]),
        little("self block", 1, (16, 8), &[601]),
        little("own generation", 1, (24, 8), &[NEWEST - 1, NEWEST + 1]),
        little("own UUID", 1, (40, 1), &[0]),
        little("own UUID's end", 1, (55, 1), &[255]),
        little("payload's length", 1, (34, 2), &[4_017]),
        little("total", 1, (56, 8), &[7 | 1 << 63]),
    ]
}

/// What the walk and what follows it test in a leaf.
fn leaf_records() -> Vec<Field> {
    vec![
        little("count above", 1, (32, 2), &[19]),
        little("key's length", 1, (80, 2), &[0]),
        little("value's length", 1, (82, 2), &[3_052]),
        little("payload short", 1, (34, 2), &[73]),
        big("keys equal", 1, (130, 8), &[0]),
        little("physical", 1, (138, 8), &[511]),
        little("payload long", 1, (34, 2), &[75]),
        little("count", 1, (32, 2), &[1]),
        little("leaf's total", 1, (56, 8), &[6, 8]),
        little("padding", 1, (154, 1), &[1]),
        little("padding's end", 1, (4_095, 1), &[1]),
    ]
}

fn leaf() -> Form {
    let mut fields = page_arguments();
    fields.extend(page_header());
    fields.extend(leaf_records());
    let mut form = Form::new("page", good_leaf().call(), fields).with(Pairs::Next);
    // So that a page newer than its reference isn't newer than the parent too.
    form.good.numbers[3] = NEWEST + 1;
    form
}

fn internal() -> Form {
    let few = Page { records: vec![child_record(1, 512)], ..good_internal() };
    let mut one = good_internal().encoded();
    // One child: the second record is taken away.
    let payload = laid(&few.records).len();
    one[80 + payload..80 + 2 * payload].fill(0);
    put(&mut one, (32, 2), 1, false);
    put(&mut one, (34, 2), payload as u64, false);
    Form::new(
        "page",
        good_internal().call(),
        vec![
            little("other tree", 1, (13, 1), &[2]),
            little("level", 1, (14, 1), &[0, 8]),
            little("page kind", 1, (12, 1), &[1]),
            little("other level", 1, (14, 1), &[2]),
            number("level given", 4, &[2]),
            little("total", 1, (56, 8), &[BLOCKS + 1, 0]),
            little("child's generation", 1, (101, 8), &[NEWEST + 1]),
            little("children shared", 1, (126, 8), &[512]),
            little("padding", 1, (138, 1), &[1]),
            whole("one child", 1, vec![one]),
        ],
    )
    .with(Pairs::Next)
}

/// A leaf without records of a tree that counts no blocks.
fn bare_leaf() -> Form {
    let page = Page { kind: 4, block: BLOCKS - 33, level: 0, total: 0, records: vec![] };
    Form::new(
        "page",
        page.call(),
        vec![
            little("other tree", 1, (13, 1), &[3]),
            little("total", 1, (56, 8), &[1]),
            little("padding", 1, (80, 1), &[1]),
        ],
    )
    .with(Pairs::Next)
}

/// A full payload, and the lowest level of an internal page; no level given, and the parent as new as can be.
fn page_extremes() -> Vec<Form> {
    let name = |len: usize| vec![b'a'; len];
    let entry = |owner: u64, len: usize| {
        let value = [&1u64.to_le_bytes()[..], &[1, 0, len as u8, 0], &name(len)].concat();
        (catalog_key(owner, 2, &name(700)), value)
    };
    // Four records of 980 bytes and one of the 96 that are left.
    let mut records: Vec<Record> = (1..5).map(|owner| entry(owner, 255)).collect();
    let room = 4_016 - laid(&records).len();
    records.push((catalog_key(9, 2, &name(room - 26)), entry(1, 1).1));
    let full = Page { records, ..good_leaf() };
    assert_eq!(laid(&full.records).len(), 4_016);
    let low = Page { level: 1, total: 0, block: 512, ..good_internal() };
    let mut calls = [full.call(), low.call()];
    calls.iter_mut().for_each(|call| (call.numbers[3], call.numbers[4]) = (u64::MAX, 255));
    calls.into_iter().map(|call| Form::new("page", call, vec![])).collect()
}

/// A page cut behind its payload, as the views take it.
fn view() -> Vec<u8> {
    let mut page = good_leaf().encoded();
    page.truncate(154);
    page
}

fn verified() -> Form {
    let good = Call::new(37, &[600, NEWEST, 1, NEWEST, 0], &[&ID, &view()]);
    Form::new(
        "view",
        good,
        vec![
            length("length", 1, &[14, 15, 23, 24, 31, 32, 55, 56, 79, 80, 153, 154, 155, 4_096, 0]),
            number("block", 0, &[599, 601, 600 | 1 << 63, 0]),
            little("self block", 1, (16, 8), &[601, 600 | 1 << 63]),
            number("generation", 1, &[NEWEST - 1, NEWEST + 1, 0]),
            little("own generation", 1, (24, 8), &[NEWEST - 1, NEWEST + 1]),
            number("parent", 3, &[NEWEST - 1, NEWEST + 1, 0, u64::MAX]),
            number("kind", 2, &[2, 3, 4]),
            little("own kind", 1, (13, 1), &[0, 2, 5]),
            number("level", 4, &[1, 255, 254, 7]),
            little("own level", 1, (14, 1), &[1, 255]),
            little("UUID", 0, (0, 1), &[0]),
            little("UUID's end", 0, (15, 1), &[0]),
            little("own UUID", 1, (40, 1), &[0]),
            little("own UUID's end", 1, (55, 1), &[0]),
            little("payload's length", 1, (34, 2), &[75, 74, 73, 0, u16::MAX as u64]),
            little("count", 1, (32, 2), &[0, 1, u16::MAX as u64]),
            little("total", 1, (56, 8), &[0, u64::MAX]),
            little("magic", 1, (0, 1), &[0]),
            little("revision", 1, (8, 4), &[0]),
            little("page kind", 1, (12, 1), &[2]),
            little("byte 15", 1, (15, 1), &[1]),
            little("byte 36", 1, (36, 1), &[1]),
            little("checksum", 1, (64, 4), &[0]),
        ],
    )
}

fn draft() -> Form {
    Form::new(
        "view",
        Call::new(38, &[], &[&view()]),
        vec![
            length("length", 0, &[0, 14, 15, 32, 33, 34, 35, 36, 79, 80, 153, 154, 155]),
            little("level", 0, (14, 1), &[1, 255]),
            little("count", 0, (32, 2), &[0, u16::MAX as u64]),
            little("payload's length", 0, (34, 2), &[75, 74, 73, 0, u16::MAX as u64]),
            little("total", 0, (56, 8), &[0]),
        ],
    )
}

/// Call 42 over the records of a page.
fn walk_call(page_kind: u64, records: &[Record]) -> Call {
    let payload = laid(records);
    let numbers = [1, page_kind, NEWEST, BLOCKS, 1, payload.len() as u64, records.len() as u64];
    Call::new(42, &numbers, &[&payload])
}

fn walk() -> Form {
    let records = [extent_record(0, 512, 3), extent_record(3, 700, 4)];
    Form::new(
        "walk",
        walk_call(1, &records),
        vec![
            number("count above", 6, &[19, u64::MAX]),
            number("payload", 5, &[75, u64::MAX]),
            length("length", 0, &[73]),
            little("key's length", 0, (0, 2), &[0, 1_025]),
            little("record's length", 0, (2, 2), &[4_000, 3_052]),
            little("value's length", 0, (2, 2), &[3_051, 55]),
            little("longest key", 0, (0, 2), &[1_024]),
            big("owner", 0, (4, 8), &[0]),
            little("physical", 0, (21, 8), &[511]),
            number("blocks", 3, &[0, 1_024]),
            number("payload short", 5, &[73]),
            big("second logical", 0, (50, 8), &[0, 1]),
            big("later owner", 0, (4, 8), &[2]),
            little("second physical", 0, (58, 8), &[511]),
            number("fewer blocks", 3, &[1_215, 1_216]),
            number("count", 6, &[3, 18]),
            number("fewer", 6, &[1]),
            length("behind", 0, &[75, 76, 78]),
            number("page kind", 1, &[0, 2, 3, 255]),
        ],
    )
    .with(Pairs::Next)
}

/// One record at the borders of what a key, and a record, may have.
fn one_record() -> Vec<Form> {
    let sizes = [(1_024, 2_044), (1_024, 2_045), (1_025, 0)];
    let record = |(key, value)| {
        let payload = laid(&[(vec![1; key], vec![0; value])]);
        Call::new(42, &[1, 1, NEWEST, BLOCKS, 1, payload.len() as u64, 1], &[&payload])
    };
    sizes.map(|size| Form::new("walk", record(size), vec![])).into()
}

fn children() -> Form {
    let records = [child_record(1, 512), child_record(2, 513), child_record(3, 514)];
    Form::new(
        "walk",
        walk_call(2, &records),
        vec![
            number("count", 6, &[4, 2, 1]),
            number("payload", 5, &[86, 88]),
            big("second owner", 0, (33, 8), &[1, 0, MAX_ID - 1]),
            big("last owner", 0, (62, 8), &[1, 2, 4]),
            little("second child", 0, (42, 8), &[512, 511, 600]),
            little("second generation", 0, (50, 8), &[0, NEWEST + 1, 1]),
            little("last child", 0, (71, 8), &[512, 513, 511]),
            number("newest", 2, &[NEWEST - 1, 0]),
        ],
    )
}
