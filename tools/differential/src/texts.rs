//! Byte texts: UTF-8 and what nearly is.

use crate::random::Random;

const TURNS: &[u32] = &[
    0x00, 0x01, 0x1F, 0x20, 0x2D, 0x2E, 0x2F, 0x30, 0x7E, 0x7F, 0x80, 0x81, 0x9E, 0x9F, 0xA0, 0xFF, 0x100, 0x7FF,
    0x800, 0xFFF, 0x1000, 0xCFFF, 0xD000, 0xD7FF, 0xE000, 0xFFFD, 0xFFFF, 0x10000, 0x3FFFF, 0x40000, 0xFFFFF, 0x100000,
    0x10FFFF,
];

/// Bytes at which a row of RFC 3629 begins or ends.
pub const ROW_BYTES: &[u8] = &[
    0x00, 0x2F, 0x7F, 0x80, 0x8F, 0x90, 0x9F, 0xA0, 0xBF, 0xC0, 0xC1, 0xC2, 0xDF, 0xE0, 0xE1, 0xEC, 0xED, 0xEE, 0xEF,
    0xF0, 0xF1, 0xF3, 0xF4, 0xF5, 0xF8, 0xFF,
];

fn character(r: &mut Random) -> char {
    let code = match r.below(6) {
        0..=1 => r.from_to(0x61, 0x7A) as u32,
        2 => r.pick(TURNS),
        3 => r.below(0x800) as u32,
        4 => r.below(0x1_0000) as u32,
        _ => r.below(0x11_0000) as u32,
    };
    char::from_u32(code).unwrap_or('\u{E000}')
}

fn is_label_character(c: char) -> bool {
    c != '/' && !c.is_control()
}

/// UTF-8 of exactly `len` bytes, of characters that `fits` allows; `a` must be one of them.
fn exactly(r: &mut Random, len: usize, fits: fn(char) -> bool) -> Vec<u8> {
    let mut text = String::new();
    while text.len() < len {
        let c = character(r);
        if fits(c) && text.len() + c.len_utf8() <= len {
            text.push(c);
        } else {
            text.push('a');
        }
    }
    text.into_bytes()
}

pub fn utf8(r: &mut Random, len: usize) -> Vec<u8> {
    exactly(r, len, |_| true)
}

pub fn without_nul(r: &mut Random, len: usize) -> Vec<u8> {
    exactly(r, len, |c| c != '\0')
}

pub fn label(r: &mut Random, len: usize) -> Vec<u8> {
    match exactly(r, len, is_label_character) {
        text if text == b"." || text == b".." => b"aa"[..len].to_vec(),
        text => text,
    }
}

/// One change that often leaves the text no UTF-8.
pub fn spoil(r: &mut Random, text: &mut Vec<u8>) {
    let at = r.size(0, text.len());
    match r.below(6) {
        0 => text.insert(at, r.pick(ROW_BYTES)),
        1 if at < text.len() => text[at] = r.pick(ROW_BYTES),
        2 if at < text.len() => text[at] = r.byte(),
        3 if at < text.len() => drop(text.remove(at)),
        4 => text.truncate(at),
        _ => {
            let row = (0..r.size(1, 4)).map(|_| r.pick(ROW_BYTES)).collect::<Vec<u8>>();
            text.splice(at..at, row);
        }
    }
}

/// A short text, valid or not.
pub fn any(r: &mut Random) -> Vec<u8> {
    let len = match r.below(8) {
        0 => r.pick(&[0, 1, 2, 254, 255, 256, 765, 1_022, 1_023, 1_024, 1_025]),
        1 => r.size(0, 300),
        _ => r.size(0, 12),
    };
    let mut text = match r.below(8) {
        0 => r.bytes(len),
        1 => (0..len).map(|_| r.pick(ROW_BYTES)).collect(),
        2 => b"../-."[..len.min(5)].to_vec(),
        _ => utf8(r, len),
    };
    if r.once_in(3) {
        spoil(r, &mut text);
    }
    text
}
