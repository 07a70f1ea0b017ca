//! What `readback` must print (01, "The program readback").

use crate::call::{Call, take, take_number};
use crate::oracle::{Said, digits, field, kind, level, line, tree, uuid};
use crate::reasons::class_and_reason;
use reference::error::Error;
use reference::format::{Root, decode_page};

/// A body; its kind is 1 for a root, 2 for a page.
pub enum Body<'a> {
    Root {
        slot: u64,
        blocks: u64,
        block: &'a [u8],
    },
    Page {
        block: u64,
        generation: u64,
        uuid: [u8; 16],
        kind: u64,
        parent: u64,
        level: u64,
        blocks: u64,
        page: &'a [u8],
    },
}

impl Body<'_> {
    pub fn kind(&self) -> u8 {
        match self {
            Body::Root { .. } => 1,
            Body::Page { .. } => 2,
        }
    }
}

/// The next body of the input; none where `readback` prints `cut`.
fn read<'a>(input: &mut &'a [u8]) -> Option<Body<'a>> {
    match take(input, 1)?[0] {
        1 => Some(Body::Root { slot: take_number(input)?, blocks: take_number(input)?, block: take(input, 4096)? }),
        2 => Some(Body::Page {
            block: take_number(input)?,
            generation: take_number(input)?,
            uuid: uuid(take(input, 16)?),
            kind: Some(u64::from(take(input, 1)?[0])).filter(|kind| (1..=4).contains(kind))?,
            parent: take_number(input)?,
            level: take(input, 1)?[0].into(),
            blocks: take_number(input)?,
            page: take(input, 4096)?,
        }),
        _ => None,
    }
}

/// A body from the call that `probe` has for it (34 `Root::decode`, 36 `decode_page`); none if its block isn't 4,096 bytes.
pub fn write(call: &Call, out: &mut Vec<u8>) -> Option<()> {
    let n = |place: usize| call.numbers[place].to_le_bytes();
    if call.texts.last()?.len() != 4096 {
        return None;
    }
    if call.no == 34 {
        out.push(1);
        out.extend_from_slice(&n(0));
        out.extend_from_slice(&n(1));
        out.extend_from_slice(&call.texts[0]);
    } else {
        out.push(2);
        out.extend_from_slice(&n(0));
        out.extend_from_slice(&n(1));
        out.extend_from_slice(&call.texts[0]);
        out.push(n(2)[0]);
        out.extend_from_slice(&n(3));
        out.push(n(4)[0]);
        out.extend_from_slice(&n(5));
        out.extend_from_slice(&call.texts[1]);
    }
    Some(())
}

fn verdict(out: &mut Vec<u8>, error: Option<Error>) -> Said {
    let (class, reason) = error.map_or((0, 0), class_and_reason);
    field(out, class);
    field(out, reason);
    Said { verdict: Some((class, reason)), listed: None }
}

fn answer(body: &Body, out: &mut Vec<u8>) -> Said {
    match *body {
        Body::Root { slot, blocks, block } => {
            let root = Root::decode(block, slot, blocks);
            let said = verdict(out, root.err());
            if let Ok(root) = root {
                field(out, root.generation);
                out.push(b' ');
                match &root.label {
                    Some(label) => out.extend_from_slice(label.as_bytes()),
                    None => out.push(b'-'),
                }
            }
            said
        }
        Body::Page { block, generation, uuid, kind: tree_kind, parent, level: expected, blocks, page } => {
            let view =
                decode_page(page, tree(block, generation), &uuid, kind(tree_kind), parent, level(expected), blocks);
            let said = verdict(out, view.as_ref().err().copied());
            if let Ok(view) = view {
                field(out, view.level.into());
                field(out, view.data_blocks);
                field(out, view.len() as u64);
            }
            said
        }
    }
}

/// What `readback` prints for `input`; `note` is told each body's answer and its fields as printed.
pub fn readback(mut input: &[u8], mut note: impl FnMut(&Body, Said, &[u8])) -> Vec<u8> {
    let mut out = b"readback 1\n".to_vec();
    let mut place = 0;
    while !input.is_empty() {
        let Some(body) = read(&mut input) else {
            digits(&mut out, place);
            out.extend_from_slice(b" cut\n");
            return out;
        };
        let start = out.len();
        let said = line(&mut out, place, |out| answer(&body, out));
        note(&body, said, crate::oracle::after_place(&out[start..]));
        place += 1;
    }
    out.extend_from_slice(b"end");
    field(&mut out, place);
    out.push(b'\n');
    out
}

/// The body at the front of the input, as the call that reads the same block.
pub fn call(mut input: &[u8]) -> Option<Call> {
    Some(match read(&mut input)? {
        Body::Root { slot, blocks, block } => Call::new(34, &[slot, blocks], &[block]),
        Body::Page { block, generation, uuid, kind, parent, level, blocks, page } => {
            Call::new(36, &[block, generation, kind, parent, level, blocks], &[&uuid, page])
        }
    })
}
