//! The binding on the blocks of samples/, held to what is written beside them, and the library on what a binding never gives it.
use carryfs::{
    PageView, Record, Refusal, Root, RootBlock, Searches, TreeKind, TreeRef, Which, checksum_slot, crc32c,
    data_unit_crc, decode_page, search, validate_checksum_group,
};
use common::{
    BLOCK, Body, KINDS, READBACK, VOLUME, bodies, change, group, group_key, leaf_records, pages, register, roots,
    stranger, tree_of, with_tree,
};

mod common;
#[path = "../src/library.rs"]
mod library;

/// What the file of the sample volume holds.
const NOTE: &[u8] = b"Read me in thirty years.\n";

fn refused<T>(class: u16, reason: u16) -> Result<T, Refusal> {
    Err(Refusal { class, reason })
}

fn decode(root: RootBlock) -> Result<Root, Refusal> {
    Root::decode(root.bytes, root.slot, root.blocks)
}

fn view<'a>(page: &common::PageBlock<'a>) -> Result<PageView<'a>, Refusal> {
    decode_page(page.bytes, page.at, page.uuid, page.kind, page.parent, page.level, page.blocks)
}

fn line(body: Body) -> String {
    let answer = match body {
        Body::Root(root) => decode(root)
            .map(|root| format!("0 0 {} {}", root.generation, root.label.as_ref().map_or("-", |label| label.as_str()))),
        Body::Page(page) => view(&page).map(|page| format!("0 0 {} {} {}", page.level, page.data_blocks, page.count)),
    };
    answer.unwrap_or_else(|refusal| format!("{} {}", refusal.class, refusal.reason))
}

#[test]
fn samples_are_answered_as_readback_answers() {
    for (file, lines) in [
        (VOLUME, include_str!("../../../samples/volume.txt")),
        (READBACK, include_str!("../../../samples/readback.txt")),
    ] {
        let bodies = bodies(file);
        let mut ours = String::from("readback 1\n");
        for (number, &body) in bodies.iter().enumerate() {
            ours += &format!("{number} {}\n", line(body));
        }
        ours += &format!("end {}\n", bodies.len());
        assert_eq!(ours, lines);
    }
}

#[test]
fn the_sample_volume_is_read_from_its_roots_to_its_data() {
    let [first, second] = roots(VOLUME)[..] else { panic!("two roots") };
    let (which, root) = Root::select(first, second).expect("a root");
    assert_eq!((which, root.generation), (Which::Second, 2));
    assert_eq!(root.label.map(|label| label.to_string()), Some("Grüße".to_string()));
    assert_eq!(format!("{:?}", root.label), "Some(\"Grüße\")");
    let block = pages(VOLUME)[0].bytes;
    let page = decode_page(block, root.catalog, &root.uuid, TreeKind::Catalog, root.generation, Some(0), root.blocks)
        .expect("the catalog");
    assert_eq!(page.records().count(), 5);
    let mut records = page.records();
    for left in (0..5).rev() {
        assert!(records.next().is_some());
        assert_eq!(records.size_hint(), (0, Some(left)));
    }
    assert_eq!([records.next(), records.next()], [None, None]);
    let key = group_key(0);
    for entries in [0, 4, 5, 9] {
        let (index, mut records) = page.floor_record(&key, &mut vec![0; entries]).expect("a record");
        let (found, value) = records.next().expect("the record itself");
        assert_eq!((index, found), (4, &key[..]));
        assert_eq!(records.next(), None);
        assert_eq!(validate_checksum_group(found, value), Ok(()));
        let word = data_unit_crc(&root.uuid, 2, 0, NOTE).expect("a unit");
        assert_eq!(checksum_slot(value, 0), Ok(Some(word)));
        assert_eq!(checksum_slot(value, 1), Ok(None));
        assert_eq!(checksum_slot(value, 256), refused(3, 4));
    }
    assert!(page.floor_record(&[], &mut [0; 5]).is_none());
    // Of fewer records than the payload has, the rest isn't seen.
    let fewer = PageView { count: 3, ..page };
    assert_eq!(fewer.records().count(), 3);
    for entries in [0, 3] {
        let (index, records) =
            fewer.floor_record(&[0, 0, 0, 0, 0, 0, 0, 1, 2], &mut vec![0; entries]).expect("a record");
        assert_eq!((index, records.count()), (0, 3));
        let (index, records) = fewer.floor_record(&key, &mut vec![0; entries]).expect("a record");
        assert_eq!((index, records.count()), (2, 1));
    }
}

#[test]
fn one_of_two_roots_is_selected() {
    let [old, new] = roots(VOLUME)[..] else { panic!("two roots") };
    let others = roots(READBACK);
    let (labelled, plain, slotless, revised) = (others[0], others[1], others[6], others[9]);
    let mut bytes = new.bytes.to_vec();
    bytes[100] ^= 1;
    let bad = RootBlock { bytes: &bytes, ..new };
    let chosen = |which, root: RootBlock| decode(root).map(|root| (which, root));
    assert_eq!(Root::select(old, new), chosen(Which::Second, new));
    assert_eq!(Root::select(new, old), chosen(Which::First, new));
    assert_eq!(Root::select(new, new), chosen(Which::First, new));
    assert_eq!(Root::select(old, bad), chosen(Which::First, old));
    assert_eq!(Root::select(bad, old), chosen(Which::Second, old));
    assert_eq!(Root::select(bad, bad), refused(3, 163));
    assert_eq!(Root::select(RootBlock { bytes: &[], ..old }, bad), refused(3, 163));
    assert_eq!(Root::select(labelled, plain), refused(3, 165));
    assert_eq!(Root::select(revised, old), refused(4, 0));
    assert_eq!(Root::select(old, revised), refused(4, 0));
    assert_eq!(Root::select(slotless, revised), refused(2, 14));
    assert_eq!(Root::select(revised, slotless), refused(4, 0));
    assert_eq!(Root::select(bad, RootBlock { blocks: 1023, ..old }), refused(1, 0));
    let bytes = stranger(new);
    let other = RootBlock { bytes: &bytes, ..new };
    assert!(decode(other).is_ok());
    assert_eq!(Root::select(old, other), refused(3, 164));
}

#[test]
fn checksum_groups_are_validated() {
    let key = group_key(0);
    let (full, stored) = group(&[0, 3, 8, 100]);
    assert_eq!(validate_checksum_group(&key, &stored), Ok(()));
    assert_eq!(validate_checksum_group(&key[..16], &stored), refused(3, 55));
    assert_eq!(validate_checksum_group(&[], &[]), refused(3, 55));
    assert_eq!(validate_checksum_group(&group_key(1 << 39), &stored), refused(3, 85));
    for value in [&[][..], &full[..35], &full[..437]] {
        assert_eq!(validate_checksum_group(&key, value), refused(3, 85));
    }
    for value in [&full[..], &stored[..432], &full[..440]] {
        assert_eq!(validate_checksum_group(&key, value), refused(3, 86));
    }
    let mut hole = stored;
    hole[36] = 1;
    assert_eq!(validate_checksum_group(&key, &hole), refused(3, 87));
}

#[test]
fn data_units_have_1_to_65536_bytes() {
    let uuid = [7; 16];
    let bytes = vec![5; 65_537];
    for length in [1, 4096, 65_535, 65_536] {
        let mut message = [&b"CFSXDATA"[..], &uuid, &2u64.to_le_bytes(), &9u64.to_le_bytes()].concat();
        message.extend((length as u32).to_le_bytes());
        message.extend(&bytes[..length]);
        message.resize(44 + 65_536, 0);
        assert_eq!(data_unit_crc(&uuid, 2, 9, &bytes[..length]), Ok(crc32c(&message)));
    }
    for length in [0, 65_537] {
        assert_eq!(data_unit_crc(&uuid, 2, 9, &bytes[..length]), refused(2, 0));
    }
}

/// A view that nobody validated gives what its bytes give, and no more.
#[test]
fn views_made_by_hand_are_harmless() {
    let payload: Vec<u8> = (0..200u8).map(|byte| byte % 5).collect();
    for length in 0..payload.len() {
        for count in [0, 1, 2, 7, 65_536, usize::MAX] {
            let page = PageView { level: 0, data_blocks: 0, count, payload: &payload[..length] };
            let taken: usize = page.records().take(300).map(|(key, value)| 4 + key.len() + value.len()).sum();
            assert!(taken <= length);
            let mut records = page.records();
            let most = records.size_hint().1.expect("a bound");
            assert!(records.by_ref().count() <= most);
            assert_eq!(records.next(), None);
            for key in [&[][..], &[0], &[2, 3, 4], &[255; 40]] {
                for entries in [0, 2, 7] {
                    let found = page.floor_record(key, &mut vec![0; entries]);
                    assert!(found.is_none_or(|(index, _)| index < count));
                }
            }
        }
    }
    // In more than 65,535 bytes none is found, and the scratch is left.
    for (length, found) in [(65_535, true), (65_536, false)] {
        let mut payload = vec![1, 0, 0, 0, b'b'];
        payload.resize(length, 0);
        let page = PageView { level: 0, data_blocks: 0, count: 1, payload: &payload };
        for entries in [0, 1] {
            let mut scratch = vec![7; entries];
            assert_eq!(page.floor_record(b"b", &mut scratch).is_some(), found);
            assert_eq!(scratch, vec![if found { 0 } else { 7 }; entries]);
        }
    }
}

#[test]
fn refusals_have_a_text() {
    let text = |class, reason| Refusal { class, reason }.to_string();
    assert_eq!(text(1, 0), "refused as geometry, reason 0");
    assert_eq!(text(2, 14), "refused as input, reason 14");
    assert_eq!(text(3, 24), "refused as corrupt, reason 24");
    assert_eq!(text(4, 0), "refused as unsupported, reason 0");
    assert_eq!(text(7, 0), "refused as a block beyond the image, reason 0");
    assert_eq!(text(8, 0), "refused as a key out of its bounds, reason 0");
    assert_eq!(text(5, 1), "refused as an unknown class, reason 1");
    let error: Box<dyn std::error::Error> = Box::new(Refusal { class: Refusal::NO_ANSWER, reason: 1 });
    assert_eq!(error.to_string(), "refused as no answer of the library, reason 1");
}

/// What a search answers, and the pages that it accepted.
fn sought<'a>(image: &'a [u8], root: &Root, kind: TreeKind, key: &[u8]) -> (Result<Option<Record<'a>>, Refusal>, u64) {
    let mut searches = Searches::default();
    (search(image, root, kind, key, &mut searches), searches.count)
}

/// An inode's key.
fn inode(object: u64) -> Vec<u8> {
    [&object.to_be_bytes()[..], &[1]].concat()
}

#[test]
fn every_record_of_a_volume_is_found() {
    let (image, root) = register();
    let mut searches = Searches::default();
    let mut pages = 0;
    for kind in KINDS {
        let records = leaf_records(&image, &root, kind, tree_of(&root, kind), root.generation);
        assert!(!records.is_empty());
        for &(key, value) in &records {
            // The sought key stands elsewhere.
            let own = key.to_vec();
            let found = search(&image, &root, kind, &own, &mut searches).expect("no refusal").expect("a record");
            assert_eq!((found.key, found.value), (key, value));
            // The parts are the image's own.
            assert_eq!((found.key.as_ptr(), found.value.as_ptr()), (key.as_ptr(), value.as_ptr()));
            pages += if kind == TreeKind::Catalog { 3 } else { 1 };
            assert_eq!(searches.count, pages);
            for other in [[key, &[0]].concat(), key[..key.len() - 1].to_vec()] {
                if !records.iter().any(|record| record.0 == other) {
                    assert_eq!(sought(&image, &root, kind, &other).0, Ok(None), "{other:?}");
                }
            }
        }
    }
}

#[test]
fn a_key_of_no_record_is_none() {
    let (image, root) = register();
    for (key, pages) in [
        (vec![], 1),
        (vec![0; 9], 1),
        (inode(1)[..8].to_vec(), 1),
        ([inode(1), vec![0]].concat(), 3),
        // Object 9 is no more: it is below the first key of a page inside the tree.
        (inode(9), 2),
        (inode(16), 3),
        (vec![255; 70_000], 3),
    ] {
        assert_eq!(sought(&image, &root, TreeKind::Catalog, &key), (Ok(None), pages), "{key:?}");
    }
    // An empty leaf has no key at all.
    let mut empty = image.clone();
    change(&mut empty, 1952, 32, &[0; 4]);
    empty[1952 * BLOCK + 80..1953 * BLOCK].fill(0);
    change(&mut empty, 1952, 0, &[]);
    assert_eq!(sought(&empty, &root, TreeKind::Workspace, &[]), (Ok(None), 1));
}

#[test]
fn a_search_is_refused_as_its_pages_are() {
    let (image, root) = register();
    let key = inode(10);
    let seek = |image: &[u8], root: &Root| {
        let (answer, pages) = sought(image, root, TreeKind::Catalog, &key);
        (answer.map(|found| found.is_some()), pages)
    };
    assert_eq!(seek(&image, &root), (Ok(true), 3));
    // The image ends before a page, or within it.
    for (blocks, pages) in [(0, 0), (530, 0), (531, 1), (532, 1), (533, 2), (535, 2)] {
        assert_eq!(seek(&image[..blocks * BLOCK], &root), (refused(7, 0), pages));
        assert_eq!(seek(&image[..(blocks + 1) * BLOCK - 1], &root).0, refused(7, 0));
    }
    assert_eq!(seek(&image[..536 * BLOCK], &root), (Ok(true), 3));
    // A page is damaged.
    for (pages, block) in [530, 532, 535].into_iter().enumerate() {
        let mut bad = image.clone();
        bad[block * BLOCK + 100] ^= 1;
        assert_eq!(seek(&bad, &root), (refused(3, 137), pages as u64));
    }
    let mut other_level = image.clone();
    change(&mut other_level, 532, 14, &[2]);
    assert_eq!(seek(&other_level, &root), (refused(3, 145), 1));
    // A leaf has a key below its lower bound, since its record in the page above has a higher key now, to which no leaf leads.
    let mut low = image.clone();
    change(&mut low, 532, 84 + 7, &[11]);
    assert_eq!(sought(&low, &root, TreeKind::Catalog, &inode(11)), (refused(8, 0), 3));
    assert_eq!(seek(&low, &root), (Ok(false), 2));
    // One isn't below its upper bound, the key of the record behind.
    let mut high = image.clone();
    change(&mut high, 532, 113 + 7, &[11]);
    assert_eq!(seek(&high, &root), (refused(8, 0), 3));
    let mut at = image.clone();
    change(&mut at, 531, 113 + 7, &[4]);
    assert_eq!(sought(&at, &root, TreeKind::Catalog, &inode(1)), (refused(8, 0), 3));
    // A page inside the tree has one.
    let mut inside = image.clone();
    change(&mut inside, 530, 113 + 7, &[11]);
    assert_eq!(sought(&inside, &root, TreeKind::Catalog, &inode(11)), (refused(8, 0), 2));
    // A refusal of the page comes first.
    change(&mut low, 535, 15, &[1]);
    assert_eq!(sought(&low, &root, TreeKind::Catalog, &inode(11)), (refused(3, 146), 2));
    // The bound comes from two levels above.
    let mut far = image.clone();
    change(&mut far, 530, 113 + 7, &[8]);
    assert_eq!(sought(&far, &root, TreeKind::Catalog, &inode(6)), (refused(8, 0), 3));
    assert_eq!(seek(&far, &root), (Ok(true), 3));
}

#[test]
fn a_root_made_by_hand_is_taken_as_any_other() {
    let (image, root) = register();
    let seek = |root: &Root| {
        let (answer, pages) = sought(&image, root, TreeKind::Catalog, &inode(10));
        (answer.map(|found| found.is_some()), pages)
    };
    assert_eq!(seek(&Root { label: None, workspace_cursor: 9, next_object: 0, ..root }), (Ok(true), 3));
    assert_eq!(seek(&Root { generation: u64::MAX, ..root }), (Ok(true), 3));
    assert_eq!(seek(&Root { generation: 4, ..root }), (refused(2, 135), 0));
    assert_eq!(seek(&Root { blocks: 1023, ..root }), (refused(2, 5), 0));
    assert_eq!(seek(&Root { blocks: 1042, ..root }), (refused(2, 6), 0));
    assert_eq!(seek(&Root { blocks: 1045, ..root }), (refused(3, 6), 1));
    assert_eq!(seek(&Root { uuid: [0; 16], ..root }), (refused(2, 13), 0));
    assert_eq!(seek(&Root { uuid: [1; 16], ..root }), (refused(3, 150), 0));
    // A page inside the tree can be its top; a page of another tree can't.
    assert_eq!(seek(&Root { catalog: TreeRef { block: 532, generation: 4 }, ..root }), (Ok(true), 2));
    assert_eq!(seek(&Root { catalog: TreeRef { block: 535, generation: 2 }, ..root }), (Ok(true), 1));
    assert_eq!(seek(&Root { catalog: root.cleanup, ..root }), (refused(3, 143), 0));
    for block in [2048, 1 << 52, (1 << 52) + 530, u64::MAX] {
        for kind in KINDS {
            let tree = TreeRef { block, generation: 1 };
            assert_eq!(sought(&image, &with_tree(&root, kind, tree), kind, &[1]), (refused(7, 0), 0));
        }
    }
}

#[test]
fn the_count_stays_at_its_largest_value() {
    let (image, root) = register();
    for (before, after) in [(0, 3), (7, 10), (u64::MAX - 3, u64::MAX), (u64::MAX - 1, u64::MAX), (u64::MAX, u64::MAX)] {
        let mut searches = Searches { count: before };
        assert!(search(&image, &root, TreeKind::Catalog, &inode(1), &mut searches).is_ok_and(|found| found.is_some()));
        assert_eq!(searches.count, after);
    }
    let mut searches = Searches { count: u64::MAX - 1 };
    assert_eq!(search(&image[..535 * BLOCK], &root, TreeKind::Catalog, &inode(10), &mut searches), refused(7, 0));
    assert_eq!(searches.count, u64::MAX);
}

/// Every number of the header has the same name and value in the binding, and there is no other.
#[test]
fn the_numbers_are_the_headers() {
    let header = include_str!("../../../include/carryfs.h");
    let due: Vec<(&str, usize)> = header
        .lines()
        .filter_map(|line| {
            let mut words = line.strip_prefix("#define ")?.split_whitespace();
            Some((words.next()?, words.next()?.trim_end_matches('u').parse().ok()?))
        })
        .collect();
    let ours = library::NUMBERS;
    let only = |a: &[(&str, usize)], b: &[(&str, usize)]| {
        format!("{:?}", a.iter().filter(|n| !b.contains(n)).collect::<Vec<_>>())
    };
    assert_eq!(only(ours, &due), "[]", "not in the header");
    assert_eq!(only(&due, ours), "[]", "not in the binding");
    assert!(!due.is_empty());
}

/// Without room nothing is written, and with more than enough the rest is left.
#[test]
fn room_is_respected() {
    let (full, _) = group(&[3]);
    let key = group_key(0);
    let [old, new] = roots(VOLUME)[..] else { panic!("two roots") };
    let (image, _) = register();
    for room in 0..10 {
        // A call that answers so many words, of which the first is 0.
        let check = |words: usize, call: &dyn Fn(*mut u64) -> u32| {
            let mut out = [9u64; 10];
            let status = call(out.as_mut_ptr());
            let written = if room < words { 0 } else { words };
            assert_eq!(status, u32::from(room < words));
            assert!(written == 0 || out[0] == 0);
            assert!(out[..written].iter().all(|&word| word != 9) && out[written..].iter().all(|&word| word == 9));
        };
        // Safe, each: `out` has at least `room` elements.
        check(4, &|out| unsafe { library::carryfs_slot(full.as_ptr(), full.len(), 3, out, room) });
        check(2, &|out| unsafe { library::carryfs_group(key.as_ptr(), 17, full.as_ptr(), 48, out, room) });
        check(3, &|out| unsafe { library::carryfs_data_unit(key.as_ptr(), 16, 2, 0, full.as_ptr(), 48, out, room) });
        check(4, &|out| unsafe {
            library::carryfs_select(
                old.bytes.as_ptr(),
                BLOCK,
                old.slot,
                old.blocks,
                new.bytes.as_ptr(),
                BLOCK,
                new.slot,
                new.blocks,
                out,
                room,
            )
        });
        check(4, &|out| unsafe {
            library::carryfs_lookup(full.as_ptr(), 0, 0, key.as_ptr(), 17, [0u16; 0].as_mut_ptr(), 0, out, room)
        });
        check(5, &|out| unsafe { library::carryfs_next(full.as_ptr(), 0, 0, out, room) });
        check(8, &|out| unsafe { ask_search(&image, 18, 271, 1, out, room) });
    }
    for (room, text_room) in [(17, 271), (18, 270), (18, 271), (20, 280)] {
        let mut out = [9u64; 20];
        let mut text = [9u8; 280];
        // Safe: both have at least as many elements as is said.
        let status = unsafe {
            library::carryfs_root(
                full.as_ptr(),
                full.len(),
                256,
                2048,
                out.as_mut_ptr(),
                room,
                text.as_mut_ptr(),
                text_room,
            )
        };
        let fits = room >= 18 && text_room >= 271;
        assert_eq!(status, u32::from(!fits));
        let (words, bytes) = if fits { (18, 271) } else { (0, 0) };
        assert!(out[words..].iter().all(|&word| word == 9) && text[bytes..].iter().all(|&byte| byte == 9));
        assert!(!fits || (out[0] == 3 && text[..271].iter().all(|&byte| byte == 0)));
    }
}

/// A search in the register's image for a key below all others, with a root of so many words and so many bytes of text.
unsafe fn ask_search(image: &[u8], words: usize, text: usize, kind: u32, out: *mut u64, room: usize) -> u32 {
    let mut root = [0u64; 18 + 2];
    root[4..8].copy_from_slice(&[5, 2048, 530, 5]);
    let mut bytes = [0u8; 271 + 2];
    bytes[..16].copy_from_slice(&image[530 * BLOCK + 40..][..16]);
    assert!(words <= root.len() && text <= bytes.len());
    // Safe: all have at least as many elements as is said, `out` by the caller's word.
    unsafe {
        library::carryfs_search(
            image.as_ptr(),
            image.len(),
            root.as_ptr(),
            words,
            bytes.as_ptr(),
            text,
            kind,
            image.as_ptr(),
            9,
            7,
            out,
            room,
        )
    }
}

/// What means nothing isn't asked.
#[test]
fn senseless_arguments_are_not_asked() {
    let bytes = [0u8; 1056];
    for (size, kind, level, status) in
        [(16, 1, 255, 0), (15, 1, 255, 2), (16, 0, 255, 2), (16, 5, 0, 2), (16, 4, 256, 2), (16, u32::MAX, u32::MAX, 2)]
    {
        let mut out = [9u64; 7];
        // Safe: there are more than 16 bytes, and `out` has as many elements as is said.
        let got = unsafe {
            library::carryfs_page(
                bytes.as_ptr(),
                bytes.len(),
                515,
                2,
                bytes.as_ptr(),
                size,
                kind,
                2,
                level,
                2048,
                out.as_mut_ptr(),
                out.len(),
            )
        };
        assert_eq!(got, status);
        assert_eq!(out[6], if status == 0 { 0 } else { 9 });
    }
    let (image, _) = register();
    for (words, text, kind, status) in [
        (18, 271, 1, 0),
        (17, 271, 1, 2),
        (19, 271, 1, 2),
        (0, 271, 1, 2),
        (18, 270, 1, 2),
        (18, 272, 1, 2),
        (18, 0, 1, 2),
        (18, 271, 0, 2),
        (18, 271, 5, 2),
        (18, 271, 257, 2),
        (18, 271, u32::MAX, 2),
    ] {
        for room in [0, 7, 8] {
            let mut out = [9u64; 8];
            // Safe: `out` has as many elements as is said, or more.
            let got = unsafe { ask_search(&image, words, text, kind, out.as_mut_ptr(), room) };
            assert_eq!(got, if status == 0 { u32::from(room < 8) } else { status });
            assert_eq!(out, if got == 0 { [0, 0, 0, 0, 0, 0, 0, 8] } else { [9; 8] });
        }
    }
    for size in [0, 15, 16, 17] {
        let mut out = [9u64; 3];
        // Safe: as above.
        let got = unsafe {
            library::carryfs_data_unit(bytes.as_ptr(), size, 2, 0, bytes.as_ptr(), 25, out.as_mut_ptr(), out.len())
        };
        assert_eq!(got, if size == 16 { 0 } else { 2 });
        assert_eq!(out[0], if size == 16 { 0 } else { 9 });
    }
}
