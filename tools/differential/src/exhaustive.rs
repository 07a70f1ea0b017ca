//! The calls that every comparison makes whatever its seed: all short texts, all borders against all borders, all slots, long strings at the
//! borders of the checksum's lanes, keys that differ in a byte.

use crate::call::Call;
use crate::numbers::{self, EARLIEST, LATEST, MAX_ID, VOLUMES, turns};
use crate::pages::laid;
use crate::random::Random;
use crate::records::{self, Record, full_group};
use crate::texts::ROW_BYTES;

type Each<'a> = &'a mut dyn FnMut(Call);

pub fn all(each: Each) {
    checksums(each);
    pieces(each);
    utf8(each);
    labels_and_targets(each);
    readers(each);
    volumes(each);
    times_and_owners(each);
    slots(each);
    lookups(each);
    long_keys(each);
    next_records(each);
}

/// A short list of the same kind, for the recorded answers.
pub fn borders(each: Each) {
    few_texts(each);
    few_pieces(each);
    let mut count = 0u64;
    let mut thinned = |call: Call| {
        count += 1;
        if count % 29 == 0 {
            each(call);
        }
    };
    readers(&mut thinned);
    volumes(&mut thinned);
    lookups(&mut thinned);
    times_and_owners(each);
    paper_cases(each);
}

fn checksums(each: Each) {
    for byte in 0..=255 {
        for register in [0, 1, 0xFFFF_FFFF] {
            each(Call::new(1, &[register], &[&[byte]]));
        }
        for zeros in 1..=9 {
            let mut bytes = vec![byte];
            bytes.resize(1 + zeros, 0);
            each(Call::new(1, &[0], &[&bytes]));
        }
    }
    let counted: Vec<u8> = (0..=255).collect();
    for len in 0..=256 {
        each(Call::new(1, &[0xFFFF_FFFF], &[&counted[..len]]));
        each(Call::new(2, &[], &[&counted[..len]]));
        each(Call::new(4, &[0xFFFF_FFFF, len as u64], &[]));
    }
    for end in 0..20 {
        for start in 0..20 {
            each(Call::new(3, &[start, end], &[&counted[7..23]]));
        }
    }
    for bit in 0..32 {
        for count in [0, 1, 2, 7, 8, 9, 255, 256, 1_335, 1_336, 1_337, 65_535, 65_536, 65_537, 1_000_000] {
            each(Call::new(4, &[1 << bit, count], &[]));
        }
    }
    // Long strings are summed in rounds of three lanes: first no two lanes have the same bytes, then a round has a single 1, at every 167th place.
    let long: Vec<u8> = (0..8_100u32).map(|at| (at.wrapping_mul(2_654_435_761) >> 24) as u8).collect();
    for len in (4_000..4_100).chain(8_000..8_100) {
        each(Call::new(1, &[0x1234_5678], &[&long[..len]]));
    }
    for at in (0..4_008).step_by(167) {
        let mut bytes = vec![0; 4_008];
        bytes[at] = 1;
        each(Call::new(1, &[0], &[&bytes]));
    }
}

/// A unit of `len` bytes of which `announced` are announced, in pieces of `size`.
fn in_pieces(len: usize, announced: u64, size: u64) -> Call {
    let bytes: Vec<u8> = (0..len as u32).map(|at| (at.wrapping_mul(2_654_435_761) >> 24) as u8).collect();
    Call::new(44, &[1, 2, announced, size], &[b"a volume's UUID.", &bytes])
}

/// All sizes of a piece for units of a few bytes, as many as announced, one fewer and one more; then lengths that no unit has, and whole units.
fn pieces(each: Each) {
    for len in 0..=24u64 {
        for size in 0..=26 {
            for announced in [len, len + 1, len.wrapping_sub(1)] {
                each(in_pieces(len as usize, announced, size));
            }
        }
    }
    few_pieces(each);
    for len in [65_535, 65_536, 65_537] {
        for size in [0, 1, 4_008, 4_096, 65_535, 65_536, 65_537] {
            for announced in [65_535, 65_536, 65_537] {
                each(in_pieces(len, announced, size));
            }
        }
    }
}

/// For the recorded answers: as long as announced, in one piece and in more; fewer and more bytes; and lengths that no unit has.
fn few_pieces(each: Each) {
    for size in [0, 1, 3, 5, 9, 10, 11, u64::MAX] {
        each(in_pieces(10, 10, size));
    }
    for (len, announced) in [(9, 10), (11, 10), (0, 1), (1, 0), (0, 0)] {
        each(in_pieces(len, announced, 0));
        each(in_pieces(len, announced, 4));
    }
    for announced in [65_535, 65_536, 65_537, (1 << 32) + 10, u64::MAX] {
        each(in_pieces(10, announced, 4));
    }
}

fn utf8(each: Each) {
    let text = |bytes: &[u8]| Call::new(6, &[], &[bytes]);
    each(text(b""));
    for a in 0..=255 {
        each(text(&[a]));
        (0..=255).for_each(|b| each(text(&[a, b])));
    }
    let tails = [0x00, 0x7F, 0x80, 0x8F, 0x90, 0x9F, 0xA0, 0xBF, 0xC0, 0xFF];
    let few = [0x7F, 0x80, 0xBF, 0xC0];
    for &a in ROW_BYTES {
        for b in tails {
            for c in tails {
                each(text(&[a, b, c]));
                for d in few {
                    each(text(&[a, b, c, d]));
                    each(text(&[b'a', a, b, c, d, b'a']));
                }
            }
        }
    }
    for a in 0xE0..=0xFF {
        (0..=255).for_each(|b| each(text(&[a, b, 0x80])));
        (0..=255).for_each(|b| each(text(&[a, b, 0x80, 0xBF])));
    }
}

fn labels_and_targets(each: Each) {
    let mut both = |bytes: &[u8]| {
        each(Call::new(33, &[], &[bytes]));
        each(Call::new(22, &[0], &[bytes]));
        each(Call::new(22, &[1], &[bytes]));
    };
    both(b"");
    for a in 0..=255 {
        both(&[a]);
        both(&[b'.', a]);
        both(&[a, b'.']);
        both(&[b'.', b'.', a]);
        both(&[0xC2, a]);
        both(&[0xC3, a]);
        both(&[a, 0x80]);
        both(&[b'a', a, 0x80, 0x80]);
    }
    for len in 250..260 {
        both(&vec![b'a'; len]);
    }
    for len in 1_020..1_028 {
        both(&vec![b'a'; len]);
    }
}

fn few_texts(each: Each) {
    for text in [&b""[..], b".", b"..", b"-", b"...", b"a/b", b"\x1F", b"\x7F", b"\xC2\x9F", b"\xC2\xA0"] {
        each(Call::new(33, &[], &[text]));
        each(Call::new(6, &[], &[text]));
        each(Call::new(22, &[1], &[text]));
    }
    for &a in ROW_BYTES {
        each(Call::new(6, &[], &[&[a]]));
        for b in [0x7F, 0x80, 0x8F, 0x90, 0x9F, 0xA0, 0xBF, 0xC0] {
            each(Call::new(6, &[], &[&[a, b]]));
            each(Call::new(6, &[], &[&[a, b, 0x80]]));
            each(Call::new(6, &[], &[&[a, b, 0xBF, 0x80]]));
        }
    }
}

fn readers(each: Each) {
    let bytes: Vec<u8> = (1..=20).collect();
    for no in 8..=10 {
        for len in 0..=17 {
            for offset in (0..=18).chain(u64::MAX - 9..=u64::MAX) {
                each(Call::new(no, &[offset, 7 + len], &[&bytes[..len as usize]]));
            }
        }
    }
    let mut texts: Vec<Vec<u8>> = vec![vec![]];
    for a in [0, 1, 127, 128, 255] {
        texts.push(vec![a]);
        [0, 1, 255].into_iter().for_each(|b| texts.push(vec![a, b]));
    }
    for a in &texts {
        texts.iter().for_each(|b| each(Call::new(11, &[], &[a, b])));
    }
    for len in 0..40 {
        each(Call::new(7, &[], &[&vec![0; len]]));
        for at in 0..len {
            let mut bytes = vec![0; len];
            bytes[at] = 1 << (at % 8);
            each(Call::new(7, &[], &[&bytes]));
        }
    }
}

fn volumes(each: Each) {
    for &blocks in VOLUMES {
        each(Call::new(16, &[blocks], &[]));
        for block in turns(blocks) {
            for no in 12..=14 {
                each(Call::new(no, &[block, blocks], &[]));
            }
            for mode in 0..=1 {
                each(Call::new(19, &[block, blocks, mode], &[]));
                for generation in 0..=1 {
                    each(Call::new(17, &[block, generation, blocks, mode], &[]));
                    for kind in 1..=4 {
                        each(Call::new(18, &[block, generation, kind, blocks, mode], &[]));
                    }
                }
            }
        }
        let last = numbers::group_count(blocks);
        let near = [last.wrapping_sub(2), last.wrapping_sub(1), last, last + 1];
        let far = [0, 1, 2, (1 << 50) - 2, (1 << 50) - 1, 1 << 50, u64::MAX];
        for group in near.into_iter().chain(far) {
            each(Call::new(15, &[group, blocks], &[]));
        }
    }
}

fn times_and_owners(each: Each) {
    let near = |n: i64| [n.wrapping_sub(1), n, n.wrapping_add(1)];
    for mode in 0..=1 {
        for seconds in [EARLIEST, LATEST, 0, i64::MIN, i64::MAX].into_iter().flat_map(near) {
            for nanoseconds in [0, 999_999_999, 1_000_000_000, 0xFFFF_FFFF] {
                each(Call::new(20, &[seconds as u64, nanoseconds, mode], &[]));
            }
        }
        for owner in [0, 1, 2, MAX_ID - 2, MAX_ID - 1, MAX_ID, MAX_ID + 1, u64::MAX] {
            each(Call::new(21, &[owner, mode], &[]));
        }
    }
}

fn slots(each: Each) {
    let mut r = Random::new(6);
    let full = full_group(&mut r, 255);
    let mut set = full;
    set[..32].fill(0xFF);
    for slot in (0..=260).chain([1 << 32, 1 << 62, (1 << 62) - 8, u64::MAX]) {
        for group in [&full[..], &set, &set[..1_055], &set[..132], &set[..32], &set[..31], &[0; 32], b""] {
            each(Call::new(30, &[slot], &[group]));
        }
    }
    for last in 0..256 {
        let mut only = [0; 1_056];
        only[last / 8] = 1 << (last % 8);
        each(Call::new(31, &[], &[&only]));
        let group = full_group(&mut r, last);
        each(Call::new(31, &[], &[&group]));
        let key = records::catalog_key(1, 4, &[0; 8]);
        let stored = &group[..36 + 4 * last];
        each(Call::new(26, &[1], &[&key, stored]));
        for len in stored.len() - 4..stored.len() + 5 {
            let mut other = stored.to_vec();
            other.resize(len, 0);
            each(Call::new(26, &[0], &[&key, &other]));
        }
        for bit in [last.saturating_sub(1), last, last + 1] {
            let mut other = stored.to_vec();
            other[bit.min(255) / 8] ^= 1 << (bit % 8);
            each(Call::new(26, &[1], &[&key, &other]));
        }
    }
    for byte in 0..=255 {
        for at in [0, 1, 30, 31] {
            let mut group = [0; 1_056];
            group[at] = byte;
            each(Call::new(31, &[], &[&group]));
        }
    }
    each(Call::new(31, &[], &[&[0; 1_056]]));
    for len in (0..40).chain(1_050..1_060) {
        each(Call::new(31, &[], &[&vec![1; len]]));
        each(Call::new(32, &[], &[&vec![1; len]]));
    }
}

/// All views of up to three records with keys of one or two letters, all counts, scratch lengths and sought keys.
fn lookups(each: Each) {
    let keys: [&[u8]; 4] = [b"", b"b", b"bb", b"d"];
    let sought: [&[u8]; 7] = [b"", b"a", b"b", b"ba", b"bb", b"c", b"e"];
    let mut views: Vec<Vec<Record>> = vec![vec![]];
    for a in keys {
        views.push(vec![(a.to_vec(), vec![1])]);
        for b in keys {
            views.push(vec![(a.to_vec(), vec![]), (b.to_vec(), vec![2])]);
            for c in keys {
                let record = |key: &[u8]| (key.to_vec(), Vec::new());
                views.push(vec![record(a), record(b), record(c)]);
            }
        }
    }
    for view in &views {
        let bytes = laid(view);
        let len = view.len() as u64;
        for key in sought {
            for count in 0..=len + 1 {
                for entries in [0, count.saturating_sub(1), count, count + 1] {
                    each(Call::new(39, &[count, entries, 0xFFFF], &[&bytes, key]));
                }
            }
            for cut in 1..=bytes.len().min(3) {
                let part = &bytes[..bytes.len() - cut];
                each(Call::new(39, &[len, 0, 9], &[part, key]));
                each(Call::new(39, &[len, len, 9], &[part, key]));
            }
        }
    }
}

/// A record and a sought key of up to 26 bytes each that are the same but for one byte, or for their lengths.
fn long_keys(each: Each) {
    for len in 0..=26 {
        let record = vec![(vec![b'k'; len], vec![])];
        let bytes = laid(&record);
        for sought in 0..=26 {
            let mut key = vec![b'k'; sought];
            each(Call::new(39, &[1, 1, 0], &[&bytes, &key]));
            for at in 0..sought {
                for byte in [b'j', b'l'] {
                    key[at] = byte;
                    each(Call::new(39, &[1, 1, 0], &[&bytes, &key]));
                }
                key[at] = b'k';
            }
        }
    }
}

fn next_records(each: Each) {
    for key in 0..=3 {
        for value in 0..=3 {
            for len in 0..=11 {
                let mut bytes = vec![key, 0, value, 0, 1, 2, 3, 4, 5, 6, 7];
                bytes.truncate(len);
                for remaining in [0, 1, 2, u64::MAX] {
                    each(Call::new(40, &[remaining], &[&bytes]));
                }
            }
        }
    }
}

/// The [P] cases of document 01, those that a call shows, and RFC 3720's vectors.
pub fn paper_cases(each: Each) {
    for block in [767, 768] {
        each(Call::new(19, &[block, 1_024, 1], &[]));
    }
    for block in [512, 513, 928, 991, 992] {
        (12..=14).for_each(|no| each(Call::new(no, &[block, 1_024], &[])));
        each(Call::new(14, &[block, 1_025], &[]));
    }
    each(Call::new(34, &[256, 1_023], &[&[0; 4_096]]));
    each(Call::new(34, &[256, 1_023], &[&[0; 4_095]]));
    let key = records::catalog_key(1, 3, &[0; 8]);
    for count in 1..=2 {
        let value = [&512u64.to_le_bytes()[..], &[count, 0, 0, 0, 0, 0, 0, 0]].concat();
        each(Call::new(25, &[1_025, 1], &[&key, &value]));
    }
    for object in 0..=1 {
        let key = [3, 0, 0, 0, 0, 0, 0, 0, object];
        each(Call::new(27, &[3, 1_025, 1, 1], &[&key, b""]));
    }
    let mut group = [0; 1_056];
    each(Call::new(31, &[], &[&group]));
    group[0] = 5;
    each(Call::new(31, &[], &[&group]));
    let view = laid(&[(b"b".to_vec(), vec![]), (b"d".to_vec(), vec![])]);
    for key in ["a", "b", "c", "da"] {
        for entries in 0..=3 {
            each(Call::new(39, &[2, entries, 9], &[&view, key.as_bytes()]));
        }
    }
    for entries in 0..=2 {
        each(Call::new(39, &[2, entries, 9], &[&view[..5], b"c"]));
    }
    let rising: Vec<u8> = (0..32).collect();
    let falling: Vec<u8> = (0..32).rev().collect();
    for message in [&[0; 32][..], &[0xFF; 32], &rising, &falling] {
        each(Call::new(2, &[], &[message]));
    }
    // Behind the payload of one orphan marker stand the lengths of a second.
    let marker = laid(&[(vec![3, 0, 0, 0, 0, 0, 0, 0, 1], vec![])]);
    for behind in [&[0, 0, 0, 0][..], &[1, 0, 0, 0], &[9, 0, 0xFF, 0xFF], b"", b"\x09", b"\x09\0", b"\x09\0\0"] {
        let bytes = [&marker, behind].concat();
        each(Call::new(42, &[3, 1, 1, 1_025, 1, 13, 2], &[&bytes]));
        each(Call::new(42, &[3, 1, 1, 1_025, 0, 13, 2], &[&bytes]));
    }
}
