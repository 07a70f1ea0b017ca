//! The oracle on inputs made by hand: document 01's cases and the protocol's details.

use crate::call::{self, Call};
use crate::listed::{self, LISTED};
use crate::random::Random;
use crate::reached::answer_of;
use crate::search::End;
use crate::{borders, oracle, readback, searches, trees};
use std::collections::{BTreeSet, HashSet};
use std::panic::{AssertUnwindSafe, catch_unwind};

/// The fields that the oracle prints for one call.
fn fields(no: u8, numbers: &[u64], texts: &[&[u8]]) -> String {
    let mut input = Vec::new();
    Call::new(no, numbers, texts).write(&mut input);
    let mut fields = String::new();
    let out = oracle::probe(&input, |_, _, line| fields = String::from_utf8(line.to_vec()).unwrap());
    assert!(out.starts_with(b"probe 1\n0 ") && out.ends_with(b"\nend 1\n"));
    fields
}

#[test]
fn readback_example_of_the_paper() {
    let mut input = vec![1];
    input.extend(256u64.to_le_bytes());
    input.extend(1023u64.to_le_bytes());
    input.extend([0; 4096]);
    input.push(2);
    input.extend(512u64.to_le_bytes());
    input.extend(0u64.to_le_bytes());
    input.extend([1; 16]);
    input.push(1);
    input.extend(1u64.to_le_bytes());
    input.push(255);
    input.extend(1025u64.to_le_bytes());
    input.extend([0; 4096]);
    assert_eq!(input.len(), 1 + 4112 + 1 + 4146);
    let nothing = |_: &readback::Body, _: oracle::Said, _: &[u8]| ();
    assert_eq!(readback::readback(&input, nothing), b"readback 1\n0 1 0\n1 2 6\nend 2\n");
    assert_eq!(readback::readback(b"", nothing), b"readback 1\nend 0\n");
    assert_eq!(readback::readback(&[2], nothing), b"readback 1\n0 cut\n");
    assert_eq!(readback::readback(&input[..4114], nothing), b"readback 1\n0 1 0\n1 cut\n");
    input[4113 + 33] = 5;
    assert_eq!(readback::readback(&input, nothing), b"readback 1\n0 1 0\n1 cut\n");
}

#[test]
fn empty_input_and_cuts() {
    let nothing = |_: &call::Lent, _: oracle::Said, _: &[u8]| ();
    assert_eq!(oracle::probe(b"", nothing), b"probe 1\nend 0\n");
    assert_eq!(oracle::probe(&[0], nothing), b"probe 1\n0 cut\n");
    assert_eq!(oracle::probe(&[2, 0, 0, 0, 0, 43, 1], nothing), b"probe 1\n0 0\n1 cut\n");
}

#[test]
fn checksums() {
    assert_eq!(fields(2, &[], &[&[0; 32]]), 0x8A91_36AAu32.to_string());
    assert_eq!(fields(2, &[], &[&[0xFF; 32]]), 0x62A8_AB43u32.to_string());
    let rising: Vec<u8> = (0..32).collect();
    assert_eq!(fields(2, &[], &[&rising]), 0x46DD_794Eu32.to_string());
    assert_eq!(fields(1, &[0xFFFF_FFFF], &[&[0; 32]]), (!0x8A91_36AAu32).to_string());
    assert_eq!(fields(4, &[0xFFFF_FFFF, 32], &[]), (!0x8A91_36AAu32).to_string());
    assert_eq!(fields(3, &[0, u64::MAX], &[&[7; 32]]), 0x8A91_36AAu32.to_string());
    let (zeros, ones) = (vec![0; 80_000], vec![1; 80_000]);
    assert_eq!(fields(3, &[0, 80_000], &[&ones]), fields(2, &[], &[&zeros]));
    assert_eq!(fields(5, &[0, 0], &[&[0; 16], b""]), "2 0 0");
    assert_eq!(fields(5, &[0, 0], &[&[0; 16], &zeros[..65_537]]), "2 0 0");
    assert!(fields(5, &[0, 0], &[&[0; 16], &zeros[..65_536]]).starts_with("0 0 "));
}

#[test]
fn readers_and_order() {
    assert_eq!(fields(8, &[1, 900], &[&[1, 2, 3]]), "0 0 770");
    assert_eq!(fields(8, &[2, 900], &[&[1, 2, 3]]), "3 900 0");
    assert_eq!(fields(10, &[u64::MAX, 0], &[&[1; 30]]), "3 0 0");
    assert_eq!(fields(11, &[], &[b"a", b"ab"]), "0");
    assert_eq!(fields(11, &[], &[b"a", b"a"]), "1");
    assert_eq!(fields(11, &[], &[b"b", b"ab"]), "2");
}

#[test]
fn volume_cases_of_the_paper() {
    assert_eq!(fields(19, &[767, 1024, 1], &[]), "0 0");
    assert_eq!(fields(19, &[768, 1024, 1], &[]), "3 14");
    assert_eq!(fields(12, &[928, 1024], &[]), "1");
    assert_eq!(fields(13, &[991, 1024], &[]), "1");
    assert_eq!(fields(13, &[992, 1024], &[]), "0");
    assert_eq!(fields(14, &[512, 1025], &[]), "1");
    assert_eq!(fields(14, &[513, 1025], &[]), "0");
    let (first, end) = (u64::MAX - 16_383, u64::MAX);
    let expected = format!("{first} 512 {first} {end}");
    assert_eq!(fields(15, &[(1 << 50) - 1, 1024], &[]), expected);
    assert_eq!(fields(16, &[u64::MAX], &[]), "3 88 0");
    assert_eq!(fields(20, &[-11_644_473_600i64 as u64, 0, 0], &[]), "0 0");
    assert_eq!(fields(20, &[-11_644_473_601i64 as u64, 0, 0], &[]), "2 2");
    assert_eq!(fields(20, &[253_402_300_799, 1_000_000_000, 1], &[]), "3 3");
}

#[test]
fn record_cases_of_the_paper() {
    let key = crate::records::catalog_key(1, 3, &[0; 8]);
    let extent = |count| [&512u64.to_le_bytes()[..], &[count, 0, 0, 0, 0, 0, 0, 0]].concat();
    assert_eq!(fields(25, &[1025, 1], &[&key, &extent(1)]), "0 0 1");
    assert_eq!(fields(25, &[1025, 1], &[&key, &extent(2)]), "3 83 0");
    assert_eq!(fields(25, &[1025, 0], &[&key[..16], b""]), "2 55 0");
    assert_eq!(fields(26, &[1], &[b"", b""]), "3 55");
    let marker = |object| [3, 0, 0, 0, 0, 0, 0, 0, object];
    assert_eq!(fields(27, &[3, 1025, 1, 1], &[&marker(0), b""]), "3 52 0");
    assert_eq!(fields(27, &[3, 1025, 1, 1], &[&marker(1), b""]), "0 0 0");
    assert_eq!(fields(22, &[0], &[&[b'a'; 1024]]), "6 59");
    assert_eq!(fields(22, &[1], &[&[b'a'; 1024]]), "3 59");
    assert_eq!(fields(23, &[0, 0], &[b""]), "2 61");
    assert_eq!(fields(23, &[0, 0], &[&[9]]), "2 62");
}

#[test]
fn pieces() {
    let (id, bytes) = ([7; 16], b"twelve bytes");
    let whole = fields(5, &[1, 2], &[&id, bytes]);
    for size in 0..=13 {
        assert_eq!(fields(44, &[1, 2, 12, size], &[&id, bytes]), whole);
    }
    for announced in [0, 11, 13, 65_536, 65_537, (1 << 32) + 12, u64::MAX] {
        assert_eq!(fields(44, &[1, 2, announced, 5], &[&id, bytes]), "2 0 0");
    }
}

#[test]
fn groups() {
    let mut group = [0; 1056];
    assert_eq!(fields(31, &[], &[&group]), "32");
    group[0] = 5;
    assert_eq!(fields(31, &[], &[&group]), "44");
    assert_eq!(fields(31, &[], &[&group[..1055]]), "0");
    group[40] = 7;
    assert_eq!(fields(30, &[2], &[&group]), "0 0 1 7");
    assert_eq!(fields(30, &[1], &[&group]), "0 0 0 0");
    assert_eq!(fields(30, &[256], &[&group]), "3 4 0 0");
    assert_eq!(fields(30, &[2], &[&group[..43]]), "3 4 0 0");
    assert_eq!(fields(32, &[], &[b"\x0A"]), format!("x0a{}", "00".repeat(1055)));
}

#[test]
fn roots() {
    assert_eq!(fields(33, &[], &[b".."]), "2 1 0 x");
    assert_eq!(fields(33, &[], &[b"-"]), format!("0 0 1 x2d{}", "00".repeat(254)));
    assert_eq!(fields(33, &[], &[b"\xC2\x9F"]), "2 1 0 x");
    let zeros = " 0".repeat(16);
    assert_eq!(fields(34, &[256, 1023], &[&[0; 4096]]), format!("1 0{zeros} x x"));
    assert_eq!(fields(34, &[256, 1023], &[&[0; 4095]]), format!("3 23{zeros} x x"));
    let block = [0; 4096];
    assert_eq!(fields(35, &[256, 1024, 256, 1024], &[&block, &block]), "3 163 0 0");
    assert_eq!(fields(35, &[256, 1024, 1, 1024], &[&block, &block]), "2 14 0 0");
    let mut r = crate::random::Random::new(7);
    let root = crate::roots::good_root(&mut r, 2000);
    let one = crate::roots::encoded(&root, 256).block;
    let other = crate::roots::encoded(&root, 1743).block;
    let expected = format!("0 0 1 {}", root.generation);
    assert_eq!(fields(35, &[256, 2000, 1743, 2000], &[&one, &other]), expected);
    let expected = format!("0 0 2 {}", root.generation);
    assert_eq!(fields(35, &[256, 2000, 1743, 2000], &[&block, &other]), expected);
}

#[test]
fn made_up_roots() {
    let answer = |first: [u64; 4], second: [u64; 4], labels: [u8; 2]| {
        let numbers = |root: [u64; 4]| [&root[..], &[0; 13]].concat();
        let numbers = [numbers(first), numbers(second)].concat();
        let (one, other) = ([labels[0]; 255], [labels[1]; 255]);
        fields(41, &numbers, &[&[1; 16], &one, &[1; 16], &other])
    };
    assert_eq!(answer([0, 0, 0, 1], [0, 0, 0, 1], [0, 0]), "3 163 0");
    assert_eq!(answer([0, 0, 0, 1], [1, 0, 0, 1], [0, 0]), "0 0 2");
    assert_eq!(answer([1, 0, 3, 1], [1, 0, 4, 1], [0, 1]), "0 0 1");
    assert_eq!(answer([1, 1, 3, 1], [1, 1, 3, 1], [0, 1]), "3 165 0");
    assert_eq!(answer([1, 1, 3, 1], [1, 1, 4, 1], [0, 0]), "3 165 0");
    assert_eq!(answer([1, 1, 3, 1], [1, 0, 3, 2], [0, 0]), "0 0 2");
}

#[test]
fn lookups() {
    let view = [1, 0, 0, 0, b'b', 1, 0, 0, 0, b'd'];
    assert_eq!(fields(39, &[2, 2, 9], &[&view, b"a"]), "0 0 0 0 x00000005");
    assert_eq!(fields(39, &[2, 2, 9], &[&view, b"c"]), "1 0 2 0 x00000005");
    assert_eq!(fields(39, &[2, 1, 9], &[&view, b"da"]), "1 1 1 5 x0009");
    assert_eq!(fields(39, &[2, 0, 9], &[&view[..5], b"c"]), "1 0 2 0 x");
    assert_eq!(fields(39, &[2, 1, 9], &[&view[..5], b"c"]), "1 0 2 0 x0009");
    assert_eq!(fields(39, &[2, 2, 9], &[&view[..5], b"c"]), "0 0 0 0 x00000005");
    assert_eq!(fields(39, &[1, 1, 9], &[&[0; 65_536], b""]), "0 0 0 0 x0009");
    assert_eq!(fields(39, &[1, 1, 9], &[&[0; 65_535], b""]), "1 0 1 0 x0000");
    assert_eq!(fields(40, &[1], &[&[0, 0, 0, 0]]), "1 4 0 4 0 4");
    assert_eq!(fields(40, &[9], &[&[1, 0, 2, 0, 7, 8, 9, 1]]), "1 4 1 5 2 7");
    assert_eq!(fields(40, &[0], &[&[0, 0, 0, 0]]), "0 0 0 0 0 0");
}

/// The lookup of a page's last key hands that record out, by its contents.
#[test]
fn handed_out() {
    let mut r = Random::new(4);
    for _ in 0..200 {
        let case = crate::pages::good(&mut r);
        let Some((key, value)) = case.records.last().cloned() else {
            continue;
        };
        let count = case.records.len();
        let call = case.handed_call(key.clone(), 0);
        let texts: Vec<&[u8]> = call.texts.iter().map(|text| &text[..]).collect();
        let answer = fields(43, &call.numbers, &texts);
        let told = |bytes: &[u8]| format!("{} {}", bytes.len(), reference::crc::crc32c(bytes));
        let due = format!(" {count} 1 {} 1 1 {} {} 0 x", count - 1, told(&key), told(&value));
        assert!(answer.starts_with("0 0 ") && answer.ends_with(&due), "{answer}, due {due}");
    }
}

#[test]
fn behind_the_payload() {
    let marker = [9, 0, 0, 0, 3, 0, 0, 0, 0, 0, 0, 0, 1];
    let answer = |behind: &[u8], mode: u64| fields(42, &[3, 1, 1, 1025, mode, 13, 2], &[&[&marker, behind].concat()]);
    assert_eq!(answer(&[0, 0, 0, 0], 1), "3 110 0");
    assert_eq!(answer(&[1, 0, 0, 0], 0), "2 129 0");
    assert_eq!(answer(&[9, 0, 0xFF, 0xFF], 1), "3 111 0");
    assert_eq!(answer(&[], 0), "3 125 0");
    assert_eq!(answer(&[9], 1), "3 125 0");
    assert_eq!(answer(&[9, 0], 1), "3 126 0");
    assert_eq!(answer(&[9, 0, 0], 0), "3 126 0");
    assert_eq!(fields(42, &[3, 1, 1, 1025, 0, u64::MAX, 0], &[b""]), "2 124 0");
    assert_eq!(fields(42, &[3, 1, 1, 1025, 0, 0, 0], &[b""]), "0 0 0");
}

/// Each listed difference is one: on its smallest input the Rust panics or answers otherwise.
#[test]
fn listed_differences_differ() {
    let smallest = [
        Call::new(3, &[0, 65_537], &[&[0; 65_537]]),
        Call::new(5, &[0, 0], &[&[0; 16], b""]),
        Call::new(44, &[0, 0, 0, 0], &[&[0; 16], b""]),
        Call::new(25, &[0, 0], &[b"", b""]),
        Call::new(26, &[0], &[b"", b""]),
        Call::new(31, &[], &[b""]),
        Call::new(39, &[1, 0, 0], &[&[0; 65_536], b""]),
    ];
    assert_eq!(smallest.len(), LISTED.len());
    for (call, listed) in smallest.iter().zip(LISTED) {
        let mut input = Vec::new();
        call.write(&mut input);
        let lent = call::read(&call::PROBE, &mut &input[..]).unwrap();
        assert_eq!(listed::of(&lent).unwrap().name, listed.name);
        let mut ours = Vec::new();
        oracle::answer(&lent, &mut ours);
        let rust = catch_unwind(AssertUnwindSafe(|| {
            let mut out = Vec::new();
            oracle::reference_answer(&lent, &mut out);
            out
        }));
        match call.no {
            // The class is the Rust's; its string has no number of its own.
            5 | 44 => assert_eq!(rust.unwrap(), ours),
            39 => assert_ne!(rust.unwrap(), ours),
            _ => assert!(rust.is_err()),
        }
    }
}

/// The calls of borders are within the limits and answered without panic, each comes once, and they stay few.
#[test]
fn borders_are_answered() {
    let mut seen = HashSet::new();
    borders::all(&mut |call| {
        assert!(call.within_limits(), "call {}", call.no);
        borders::verdict(&call);
        let mut bytes = Vec::new();
        call.write(&mut bytes);
        assert!(seen.insert(bytes), "call {} comes twice", call.no);
    });
    let sum: usize = seen.iter().map(Vec::len).sum();
    assert!(sum < 1_100_000, "{sum} bytes");
}

/// In each form of a reference, a record, a root or a page the good call is accepted, and of each field something is refused.
#[test]
fn borders_have_two_sides() {
    let accepted = Some((0, 0));
    for form in borders::forms() {
        if !matches!(form.good.no, 17..=29 | 34 | 36) {
            continue;
        }
        assert_eq!(borders::verdict(&form.good), accepted, "{}", form.name);
        for (place, field) in form.fields.iter().enumerate() {
            let verdicts: Vec<_> = form.singles(place).iter().map(borders::verdict).collect();
            let refused = verdicts.iter().any(|verdict| *verdict != accepted);
            assert!(refused, "{}, call {}: {} is never refused", form.name, form.good.no, field.name);
        }
    }
}

/// Where a fault stands with the next one only, the fields are in the order of their tests: the first fault is told.
#[test]
fn borders_are_in_order() {
    for form in borders::forms().iter().filter(|form| form.pairs == borders::Pairs::Next) {
        for (call, alone) in form.chained() {
            assert_eq!(borders::verdict(&call), alone, "{}, call {}", form.name, form.good.no);
        }
    }
}

/// Every call with more than one test has calls with two faults.
#[test]
fn borders_put_two_faults_together() {
    let forms = borders::forms();
    let pairs = |no: u8| forms.iter().filter(|form| form.good.no == no).map(|form| form.paired().len()).sum::<usize>();
    for no in (17..=20).chain(22..=29) {
        assert!(pairs(no) > 0, "call {no}");
    }
}

/// A leaf of a cleanup tree with markers, its records end to end, sealed by hand.
fn markers(block: u64, generation: u64, objects: &[u8]) -> Vec<u8> {
    let records: Vec<u8> = objects.iter().flat_map(|object| [9, 0, 0, 0, 3, 0, 0, 0, 0, 0, 0, 0, *object]).collect();
    laid_page(block, generation, 0, objects.len() as u8, &records)
}

/// An internal page of a cleanup tree: for each child its first marker, block and generation.
fn parent(block: u64, generation: u64, level: u8, children: &[(u8, u64, u64)]) -> Vec<u8> {
    let mut records = Vec::new();
    for (object, child, born) in children {
        records.extend([9, 0, 16, 0, 3, 0, 0, 0, 0, 0, 0, 0, *object]);
        records.extend(child.to_le_bytes().iter().chain(&born.to_le_bytes()));
    }
    laid_page(block, generation, level, children.len() as u8, &records)
}

/// A page as 01 has it, with its block number before it.
fn laid_page(block: u64, generation: u64, level: u8, count: u8, records: &[u8]) -> Vec<u8> {
    let mut page = [0; 4096];
    page[..8].copy_from_slice(b"CFSXPAGE");
    (page[8], page[12], page[13], page[14]) = (1, if level == 0 { 1 } else { 2 }, 3, level);
    page[16..24].copy_from_slice(&block.to_le_bytes());
    page[24..32].copy_from_slice(&generation.to_le_bytes());
    (page[32], page[34]) = (count, records.len() as u8);
    page[40..56].fill(7);
    page[80..80 + records.len()].copy_from_slice(records);
    let word = reference::crc::crc32c(&page).to_le_bytes();
    page[64..68].copy_from_slice(&word);
    [&block.to_le_bytes()[..], &page].concat()
}

fn marker(object: u8) -> [u8; 9] {
    [3, 0, 0, 0, 0, 0, 0, 0, object]
}

/// The fields of a search for a marker in a cleanup tree whose root page is 512, of generation 9; its volume has 2,048 blocks.
fn searched(count: u64, image: u64, key: &[u8], pages: &[Vec<u8>]) -> String {
    let root = [0, 0, 9, 2_048, 0, 0, 0, 0, 512, 9, 0, 0, 0, 0, 0, 0];
    let numbers = [&[count, 3][..], &root, &[image]].concat();
    let mut input = Vec::new();
    Call::new(60, &numbers, &[&[7; 16], &[0; 255], key, &pages.concat()]).write(&mut input);
    let out = String::from_utf8(oracle::probe_added(&input, |_, _, _| ())).unwrap();
    let fields = out.strip_prefix("probe_added 1\n0 ").and_then(|rest| rest.strip_suffix("\nend 1\n"));
    fields.expect("one line").into()
}

const IMAGE: u64 = 520 * 4_096;

#[test]
fn one_leaf_is_searched() {
    let leaf = [markers(512, 9, &[2, 4])];
    let at = 512 * 4_096 + 80 + 13 + 4;
    assert_eq!(searched(5, IMAGE, &marker(4), &leaf), format!("0 0 1 {at} 9 {} 0 6", at + 9));
    assert_eq!(searched(5, IMAGE, &marker(3), &leaf), "0 0 0 0 0 0 0 6");
    assert_eq!(searched(5, IMAGE, b"", &leaf), "0 0 0 0 0 0 0 6");
    assert_eq!(searched(5, 513 * 4_096, &marker(3), &leaf), "0 0 0 0 0 0 0 6");
    assert_eq!(searched(5, 513 * 4_096 - 1, &marker(4), &leaf), "7 0 0 0 0 0 0 5");
    assert_eq!(searched(5, 0, &marker(4), &[]), "7 0 0 0 0 0 0 5");
    assert_eq!(searched(5, IMAGE, &marker(4), &[]), "3 137 0 0 0 0 0 5");
    assert_eq!(searched(u64::MAX - 1, IMAGE, &marker(3), &leaf), format!("0 0 0 0 0 0 0 {}", u64::MAX));
    assert_eq!(searched(u64::MAX, IMAGE, &marker(3), &leaf), format!("0 0 0 0 0 0 0 {}", u64::MAX));
}

#[test]
fn two_levels_are_searched() {
    let tree = [parent(512, 9, 1, &[(2, 513, 8), (6, 514, 9)]), markers(513, 8, &[2, 5])];
    let at = 513 * 4_096 + 80 + 13 + 4;
    assert_eq!(searched(0, IMAGE, &marker(5), &tree), format!("0 0 1 {at} 9 {} 0 2", at + 9));
    assert_eq!(searched(0, IMAGE, &marker(4), &tree), "0 0 0 0 0 0 0 2");
    // Below the first key; a child that isn't there; a child beyond the image.
    assert_eq!(searched(0, IMAGE, &marker(1), &tree), "0 0 0 0 0 0 0 1");
    assert_eq!(searched(0, IMAGE, &marker(6), &tree), "3 137 0 0 0 0 0 1");
    assert_eq!(searched(0, 514 * 4_096, &marker(6), &tree), "7 0 0 0 0 0 0 1");
    // A child that is newer than its reference, and one of another level.
    let newer = [tree[0].clone(), markers(513, 9, &[2, 5])];
    assert_eq!(searched(0, IMAGE, &marker(5), &newer), "3 149 0 0 0 0 0 1");
    let other = [tree[0].clone(), parent(513, 8, 1, &[(2, 515, 1), (3, 516, 1)])];
    assert_eq!(searched(0, IMAGE, &marker(5), &other), "3 145 0 0 0 0 0 1");
}

#[test]
fn keys_out_of_bounds_are_found_behind_the_count() {
    let top = parent(512, 9, 1, &[(2, 513, 8), (6, 514, 9)]);
    let answer =
        |objects: &[u8], sought: u8| searched(0, IMAGE, &marker(sought), &[top.clone(), markers(513, 8, objects)]);
    assert_eq!(answer(&[1, 5], 5), "8 0 0 0 0 0 0 2");
    assert_eq!(answer(&[2, 6], 2), "8 0 0 0 0 0 0 2");
    assert_eq!(answer(&[], 3), "0 0 0 0 0 0 0 2");
    // Below the last record no bound is inherited from the root.
    let last = |objects: &[u8]| searched(u64::MAX, IMAGE, &marker(9), &[top.clone(), markers(514, 9, objects)]);
    assert!(last(&[6, 9, 200]).starts_with("0 0 1 "));
    assert_eq!(last(&[5, 9]), format!("8 0 0 0 0 0 0 {}", u64::MAX));
}

#[test]
fn upper_bounds_are_inherited() {
    let top = parent(512, 9, 2, &[(2, 513, 8), (20, 515, 9)]);
    let middle = parent(513, 8, 1, &[(2, 516, 8), (6, 514, 7)]);
    let answer =
        |objects: &[u8]| searched(0, IMAGE, &marker(9), &[top.clone(), middle.clone(), markers(514, 7, objects)]);
    assert!(answer(&[6, 9, 19]).starts_with("0 0 1 "));
    assert_eq!(answer(&[6, 9, 20]), "8 0 0 0 0 0 0 3");
    assert_eq!(answer(&[9, 21]), "8 0 0 0 0 0 0 3");
    // The internal page's own keys have bounds too.
    let middle = parent(513, 8, 1, &[(2, 516, 8), (20, 514, 7)]);
    assert_eq!(searched(0, IMAGE, &marker(9), &[top.clone(), middle]), "8 0 0 0 0 0 0 2");
}

/// A number of a block that isn't one of the image is never taken for one by wrapping, in a string or in a search.
#[test]
fn blocks_do_not_wrap() {
    let mut leaf = markers(512, 9, &[2]);
    leaf[..8].copy_from_slice(&((1u64 << 52) + 512).to_le_bytes());
    assert_eq!(searched(0, IMAGE, &marker(2), &[leaf]), "3 137 0 0 0 0 0 0");
    // The later of two pages lies there, and of the last one as much as the image has.
    let two = [markers(512, 9, &[2]), markers(512, 9, &[4])];
    assert!(searched(0, IMAGE, &marker(4), &two).starts_with("0 0 1 "));
    assert!(searched(0, IMAGE, &marker(2), &two).starts_with("0 0 0 "));
}

/// The searches by hand end in every way, at every level that the way has, and they stay few.
#[test]
fn searches_by_hand_reach_every_end() {
    let mut ends = BTreeSet::new();
    let mut sum = 0;
    searches::all(&mut |call| {
        assert!(call.within_limits());
        let answer = answer_of(&call).expect("a search");
        let way = match answer.end {
            End::Found(_) => "found",
            End::NotInLeaf => "none in the leaf",
            End::BelowFirst => "none below the first key",
            End::BeyondImage => "beyond",
            End::BelowLower => "lower",
            End::NotBelowUpper if answer.inherited => "inherited",
            End::NotBelowUpper => "upper",
            End::Refused(2, _) => "input",
            End::Refused(..) => "refused",
        };
        ends.insert((way, answer.level));
        let mut bytes = Vec::new();
        call.write(&mut bytes);
        sum += bytes.len();
    });
    let levels = |first: u8, last: u8| (first..=last).map(Some);
    let due = [
        ("found", levels(0, 0)),
        ("none in the leaf", levels(0, 0)),
        ("none below the first key", levels(1, 7)),
        ("beyond", levels(0, 6)),
        ("lower", levels(0, 6)),
        ("upper", levels(0, 6)),
        ("inherited", levels(0, 5)),
        ("refused", levels(0, 6)),
    ];
    let mut all: BTreeSet<_> =
        due.into_iter().flat_map(|(way, levels)| levels.map(move |level| (way, level))).collect();
    all.extend([("beyond", None), ("refused", None), ("input", None)]);
    assert_eq!(ends, all);
    assert!(sum < 1_100_000, "{sum} bytes");
}

/// The searches in the sample end as docs/READING-RULES.md 16.14 says, its other leaves are reached, and in its catalog each
/// bound is broken once.
#[test]
fn searches_in_the_sample() {
    let mut ends = Vec::new();
    let mut blocks = Vec::new();
    searches::sample::all(&mut |call| {
        let answer = answer_of(&call).expect("a search");
        if let End::Found([at, ..]) = answer.end {
            blocks.push(at / 4_096);
        }
        ends.push((call.numbers[1], answer.end, answer.pages, answer.inherited));
    });
    assert_eq!(ends[0], (1, End::Found([2_191_679, 9, 2_191_688, 128]), 3, false));
    assert_eq!(ends[1..3], [(1, End::BelowFirst, 2, true), (1, End::NotInLeaf, 3, true)]);
    assert_eq!((ends[3].1, ends[3].2), (End::BeyondImage, 2));
    assert_eq!(blocks, [535, 533, 534, 536, 537, 538]);
    assert_eq!(ends[9], (4, End::BeyondImage, 0, false));
    let broken = [(End::BelowLower, 2, false), (End::NotBelowUpper, 2, false), (End::NotBelowUpper, 3, true)];
    assert_eq!(ends[10..], broken.map(|(end, pages, inherited)| (1, end, pages, inherited)));
}

/// The trees reach the same ends, and found and none in trees of every depth; undamaged they pass but for what isn't there.
#[test]
fn trees_reach_every_end() {
    let mut r = Random::new(5);
    let mut ends = BTreeSet::new();
    let mut pages = BTreeSet::new();
    for _ in 0..2_000 {
        trees::searches(&mut r, &mut |call| {
            let answer = answer_of(&call).expect("a search");
            ends.insert((answer.verdict().0, answer.level));
            if answer.verdict() == (0, 0) {
                pages.insert((matches!(answer.end, End::Found(_)), answer.pages));
            }
        });
    }
    for class in [0, 3, 7, 8] {
        for level in 0..=if class == 0 { 7 } else { 6 } {
            assert!(ends.contains(&(class, Some(level))), "class {class} at level {level}");
        }
    }
    assert!([2, 3, 4, 7].iter().all(|class| ends.contains(&(*class, None))));
    assert!((1..=8).all(|count| pages.contains(&(true, count)) && pages.contains(&(false, count))));
}

/// In a tree that isn't damaged every record of every leaf is found, and its key and value are at the places told.
#[test]
fn whole_trees_are_found() {
    let mut r = Random::new(6);
    let mut found = [0; 9];
    for _ in 0..3_000 {
        let tree = trees::any(&mut r);
        let leaves = tree.search.pages.iter().filter(|laid| laid.case.place.leaf);
        for laid in leaves.clone() {
            let mut at = laid.at * 4_096 + 80;
            for (key, value) in &laid.case.records {
                let call = trees::Search { key: key.clone(), ..tree.search.clone() }.call();
                let answer = answer_of(&call).expect("a search");
                let (key, value) = (key.len() as u64, value.len() as u64);
                let due = End::Found([at + 4, key, at + 4 + key, value]);
                assert_eq!(answer.end, due, "kind {}, {} blocks", tree.search.kind, tree.search.root[trees::BLOCKS]);
                found[answer.pages as usize] += 1;
                at += 4 + key + value;
            }
        }
    }
    assert!(found[1..].iter().all(|count| *count > 100), "{found:?}");
}

/// 1 for UTF-8, and 2 where each character, as far as the bytes are UTF-8, is one that a label may hold: the core's tests.
fn answer_to_text(bytes: &[u8]) -> u8 {
    let text = std::str::from_utf8(bytes);
    let end = text.map_or_else(|e| e.valid_up_to(), str::len);
    let plain = std::str::from_utf8(&bytes[..end]).unwrap().chars().all(|c| c != '/' && !c.is_control());
    u8::from(text.is_ok()) + 2 * u8::from(plain)
}

/// What utf8_cases is recorded to print is what the core's `from_utf8` says: each case by itself, then all strings of up to three bytes, and
/// borders of four.
#[test]
fn recorded_utf8_cases() {
    let recorded = include_str!("../../../crates/utf8_cases/stdout");
    let (all, cases): (Vec<&str>, Vec<&str>) = recorded.lines().partition(|line| line.starts_with("length "));
    assert!(cases.len() > 100);
    for line in cases {
        let words: Vec<&str> = line.split(' ').collect();
        let digits = words[0].strip_prefix('x').unwrap();
        let byte = |at| u8::from_str_radix(&digits[at..at + 2], 16).unwrap();
        let bytes: Vec<u8> = (0..digits.len()).step_by(2).map(byte).collect();
        let answer = answer_to_text(&bytes);
        assert_eq!(words[1..], [(answer & 1).to_string(), (answer >> 1).to_string()], "{line}");
    }
    let borders = [0x00, 0x7F, 0x80, 0x8F, 0x90, 0x9F, 0xA0, 0xBF, 0xC0, 0xED, 0xF4, 0xFF];
    let every: Vec<u8> = (0..=255).collect();
    let mut lines = all.into_iter();
    for a in 0..=255 {
        for (length, others) in [(1, &[][..]), (2, &every), (3, &every), (4, &borders)] {
            let (mut counts, mut register) = ([0, 0], !0);
            for place in 0..others.len().pow(length - 1) {
                let at = |digit: u32| others[place / others.len().pow(digit) % others.len()];
                let mut bytes = vec![a];
                bytes.extend((0..length - 1).rev().map(at));
                let answer = answer_to_text(&bytes);
                counts[0] += u32::from(answer & 1);
                counts[1] += u32::from(answer >> 1);
                register = reference::crc::extend(register, &[answer]);
            }
            let due = format!("length {length} x{a:02x} {} {} {:08x}", counts[0], counts[1], !register);
            assert_eq!(lines.next(), Some(due.as_str()));
        }
    }
    assert_eq!(lines.next(), None);
}
