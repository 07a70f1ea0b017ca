//! The binding beside the reference: on every body of samples/ (roots and pages, good, cut and damaged), and on single calls.
//! Without the reference's source (CARRYFS_SRC; build.rs looks for it) these tests are left out.

#[cfg(not(reference))]
#[test]
#[ignore = "no reference: CARRYFS_SRC names the folder of its source"]
fn the_binding_is_held_to_the_reference() {}

#[cfg(reference)]
mod common;

/// The reference as it is, without its feature "std".
#[cfg(reference)]
#[allow(warnings, clippy::all)]
mod ondisk {
    include!(concat!(env!("OUT_DIR"), "/reference.rs"));
}

#[cfg(reference)]
mod beside {
    use crate::common::{
        BLOCK, Body, KINDS, PageBlock, READBACK, VOLUME, bodies, change, group, group_key, leaf_records, pages,
        register, register_pages, roots, stranger, tree_of, with_tree,
    };
    use crate::ondisk::error::Error;
    use crate::ondisk::{crc, format};
    use carryfs::*;

    /// The number of each reason, from the table of docs/REASONS.md.
    fn reason_number(reason: &str) -> u16 {
        include_str!("../../../docs/REASONS.md")
            .lines()
            .find_map(|line| {
                let mut cells = line.split(" | ");
                let number = cells.next()?.strip_prefix("| ")?.parse().ok()?;
                (cells.next()? == reason).then_some(number)
            })
            .unwrap_or_else(|| panic!("no reason {reason}"))
    }

    fn told(error: Error) -> Refusal {
        let (class, reason) = match error {
            Error::InvalidGeometry => (1, None),
            // This one stands in crc.rs, and so it has no number.
            Error::InvalidInput("data unit valid length") => (2, None),
            Error::InvalidInput(reason) => (2, Some(reason)),
            Error::Corrupt(reason) => (3, Some(reason)),
            Error::UnsupportedFormat => (4, None),
            Error::InvalidName(reason) => (5, Some(reason)),
            Error::TooLong(reason) => (6, Some(reason)),
        };
        Refusal { class, reason: reason.map_or(0, reason_number) }
    }

    /// All fields of a root, the reference's or ours: the names are the same.
    macro_rules! fields {
        ($root:expr) => {{
            let root = $root;
            let trees = [root.catalog, root.allocation, root.cleanup, root.workspace];
            (
                root.label.as_ref().map(|label| (label.as_str().to_string(), label.as_bytes().to_vec())),
                root.uuid,
                trees.map(|tree| (tree.block, tree.generation)),
                [
                    root.generation,
                    root.blocks,
                    root.next_object,
                    root.free_blocks,
                    root.next_job,
                    root.workspace_cursor,
                ],
            )
        }};
    }

    fn reference_root(block: RootBlock) -> Result<format::Root, Error> {
        format::Root::decode(block.bytes, block.slot, block.blocks)
    }

    fn compare_root(block: RootBlock) -> bool {
        let ours = Root::decode(block.bytes, block.slot, block.blocks);
        let due = reference_root(block);
        assert_eq!(ours.map(|root| fields!(root)), due.map(|root| fields!(root)).map_err(told));
        ours.is_ok()
    }

    fn compare_selection(first: RootBlock, second: RootBlock) -> Result<Which, Refusal> {
        let due = (|| {
            let a = format::supported_root(reference_root(first))?;
            let b = format::supported_root(reference_root(second))?;
            let root = format::select_root(a.as_ref(), b.as_ref())?;
            let which = if a.as_ref().is_some_and(|a| std::ptr::eq(a, root)) { Which::First } else { Which::Second };
            Ok((which, fields!(root)))
        })();
        let ours = Root::select(first, second);
        assert_eq!(ours.map(|(which, root)| (which, fields!(root))), due.map_err(told));
        ours.map(|(which, _)| which)
    }

    /// Keys at, before and after each record of the page.
    fn compare_lookups(view: &format::PageView, ours: &PageView) {
        let records: Vec<(&[u8], &[u8])> = view.records().collect();
        assert_eq!(ours.records().collect::<Vec<_>>(), records);
        let mut keys: Vec<Vec<u8>> = vec![vec![], vec![255; 20]];
        for (key, _) in &records {
            keys.extend([key.to_vec(), [key, &[0][..]].concat(), key[..key.len() - 1].to_vec()]);
        }
        for key in &keys {
            for entries in [0, records.len(), records.len() + 3] {
                let (mut a, mut b) = (vec![7; entries], vec![7; entries]);
                let due = view.floor_record(key, |x, y| x.cmp(y), &mut a);
                let got = ours.floor_record(key, &mut b);
                assert_eq!(got.is_some(), due.is_some());
                assert_eq!(a, b);
                if let (Some((i, due)), Some((j, got))) = (due, got) {
                    assert_eq!(i, j);
                    assert!(got.eq(due));
                }
            }
        }
    }

    fn reference_kind(kind: TreeKind) -> format::TreeKind {
        match kind {
            TreeKind::Catalog => format::TreeKind::Catalog,
            TreeKind::Allocation => format::TreeKind::Allocation,
            TreeKind::Cleanup => format::TreeKind::Cleanup,
            TreeKind::Workspace => format::TreeKind::Workspace,
        }
    }

    fn compare_page(page: PageBlock) -> bool {
        let PageBlock { bytes, at, uuid, kind, parent, level, blocks } = page;
        let ours = decode_page(bytes, at, uuid, kind, parent, level, blocks);
        let kind = reference_kind(kind);
        let at = format::TreeRef { block: at.block, generation: at.generation };
        let due = format::decode_page(bytes, at, uuid, kind, parent, level, blocks);
        match (&due, &ours) {
            (Ok(view), Ok(page)) => {
                assert_eq!((view.level, view.data_blocks, view.len()), (page.level, page.data_blocks, page.count));
                compare_lookups(view, page);
            }
            (Err(error), Err(refusal)) => assert_eq!(told(*error), *refusal),
            _ => panic!("one refuses: {:?} {ours:?}", due.is_ok()),
        }
        ours.is_ok()
    }

    /// The block as it is, and with a byte of each 64 damaged; each whole, and cut.
    fn with_damages(block: &[u8], mut each: impl FnMut(&[u8])) {
        for place in [None].into_iter().chain((0..block.len()).step_by(64).map(Some)) {
            let mut bytes = block.to_vec();
            if let Some(place) = place {
                bytes[place] ^= 1;
            }
            each(&bytes);
            each(&bytes[..bytes.len() - 1]);
        }
    }

    #[test]
    fn samples_are_answered_alike() {
        for file in [VOLUME, READBACK] {
            let (mut accepted, mut refused) = (0, 0);
            let mut count = |taken: bool| if taken { accepted += 1 } else { refused += 1 };
            for body in bodies(file) {
                match body {
                    Body::Root(root) => {
                        with_damages(root.bytes, |bytes| count(compare_root(RootBlock { bytes, ..root })))
                    }
                    Body::Page(page) => {
                        with_damages(page.bytes, |bytes| count(compare_page(PageBlock { bytes, ..page })))
                    }
                }
            }
            assert!(accepted > 0 && refused > accepted, "{accepted} accepted, {refused} refused");
        }
    }

    /// Every root of the samples beside every other, and each pair of the volume's with one of them damaged.
    #[test]
    fn selections_are_alike() {
        let bytes = stranger(roots(VOLUME)[0]);
        let other = RootBlock { bytes: &bytes, ..roots(VOLUME)[0] };
        let all: Vec<RootBlock> = [roots(VOLUME), roots(READBACK), vec![other]].concat();
        let mut answers = Vec::new();
        for &first in &all {
            answers.extend(all.iter().map(|&second| compare_selection(first, second)));
        }
        for (first, second) in [(all[0], all[1]), (all[1], all[0])] {
            with_damages(first.bytes, |bytes| {
                let damaged = RootBlock { bytes, ..first };
                answers.push(compare_selection(damaged, second));
                answers.push(compare_selection(second, damaged));
            });
        }
        // Chosen: the first, the second. Refused: no root, of two volumes, two of a generation, and what a block alone is refused for.
        for due in [Ok(Which::First), Ok(Which::Second)].into_iter().chain(
            [(1, 0), (2, 14), (3, 163), (3, 164), (3, 165), (4, 0)]
                .map(|(class, reason)| Err(Refusal { class, reason })),
        ) {
            assert!(answers.contains(&due), "{due:?}");
        }
    }

    #[test]
    fn a_level_of_255_is_refused() {
        let page = pages(VOLUME)[0];
        assert!(compare_page(page));
        for level in [1, 7, 8, 254, 255] {
            assert!(!compare_page(PageBlock { level: Some(level), ..page }));
        }
    }

    #[test]
    fn slots_are_answered_alike() {
        let mut group = [0; 1056];
        for slot in [0, 1, 7, 8, 100, 254] {
            format::set_checksum_slot(&mut group, slot, Some(0x0102_0304 * slot as u32 + 5));
        }
        for length in [0, 31, 32, 36, 432, 435, 436, 437, 1051, 1056] {
            for slot in (0..260).chain([usize::MAX]) {
                let due = format::checksum_slot(&group[..length], slot).map_err(told);
                assert_eq!(checksum_slot(&group[..length], slot), due);
            }
        }
    }

    /// Stored groups, whole, cut at every length, filled up, and with a bit turned in each byte.
    #[test]
    fn groups_are_validated_alike() {
        let mut answers = Vec::new();
        let mut compare = |key: &[u8], value: &[u8]| {
            let ours = validate_checksum_group(key, value);
            // With a shorter key the reference panics (docs/DIFFERENCES.md).
            let due = if key.len() < 17 {
                Err(Refusal { class: 3, reason: 55 })
            } else {
                format::validate_checksum_group(key, value, format::Validation::Disk).map_err(told)
            };
            assert_eq!(ours, due, "{key:?} {value:?}");
            answers.push(ours);
        };
        let key = group_key(0);
        for slots in [&[][..], &[0], &[7], &[8], &[0, 3, 8, 100], &[255], &[1, 254, 255]] {
            let (full, stored) = group(slots);
            for index in [0, 1, (1 << 39) - 1, 1 << 39, u64::MAX] {
                compare(&group_key(index), &stored);
            }
            for length in 0..=full.len() {
                compare(&key, &full[..length]);
            }
            for place in 0..stored.len() {
                let mut bytes = stored.clone();
                bytes[place] ^= 16;
                compare(&key, &bytes);
            }
            compare(&key, &[&full[..], &[0; 4]].concat());
            compare(&[&key[..], &[1]].concat(), &stored);
            (0..17).for_each(|length| compare(&key[..length], &stored));
        }
        for due in [Ok(())].into_iter().chain([55, 85, 86, 87].map(|reason| Err(Refusal { class: 3, reason }))) {
            assert!(answers.contains(&due), "{due:?}");
        }
    }

    /// A key and a value.
    type Parts<'a> = (&'a [u8], &'a [u8]);

    /// A search by the reference's reader: the plain way down.
    fn descend<'a>(
        image: &'a [u8],
        root: &Root,
        kind: TreeKind,
        key: &[u8],
        count: &mut u64,
    ) -> Result<Option<Parts<'a>>, Refusal> {
        let TreeRef { block, generation } = tree_of(root, kind);
        let mut at = format::TreeRef { block, generation };
        let (mut parent, mut level) = (root.generation, None);
        let (mut low, mut high): (&[u8], Option<&[u8]>) = (&[], None);
        loop {
            if at.block >= (image.len() / BLOCK) as u64 {
                return Err(Refusal { class: 7, reason: 0 });
            }
            let bytes = &image[at.block as usize * BLOCK..][..BLOCK];
            let view = format::decode_page(bytes, at, &root.uuid, reference_kind(kind), parent, level, root.blocks)
                .map_err(told)?;
            *count = count.saturating_add(1);
            if view.records().any(|(key, _)| key < low || high.is_some_and(|high| key >= high)) {
                return Err(Refusal { class: 8, reason: 0 });
            }
            let Some((_, mut records)) = view.floor_record(key, |x, y| x.cmp(y), &mut [0; 1024]) else {
                return Ok(None);
            };
            let (found, value) = records.next().expect("the floor record");
            if view.level == 0 {
                return Ok((found == key).then_some((found, value)));
            }
            let number = |at: usize| u64::from_le_bytes(value[at..at + 8].try_into().expect("8 bytes"));
            (low, high) = (found, records.next().map(|record| record.0).or(high));
            (parent, level) = (at.generation, Some(view.level - 1));
            at = format::TreeRef { block: number(0), generation: number(8) };
        }
    }

    /// Stands for the class where none is found.
    const NONE: u16 = 100;

    /// Compares a search, with the places of what it finds and the pages that it accepts; the class of the answer.
    fn compare_search(image: &[u8], root: &Root, kind: TreeKind, key: &[u8]) -> u16 {
        let mut count = if key.len() % 2 == 0 { 5 } else { u64::MAX - 2 };
        let mut searches = Searches { count };
        let due = descend(image, root, kind, key, &mut count);
        let ours = search(image, root, kind, key, &mut searches);
        let places = |(key, value): Parts| (key.as_ptr_range(), value.as_ptr_range());
        assert_eq!(
            ours.map(|found| found.map(|record| places((record.key, record.value)))),
            due.map(|found| found.map(places)),
            "{kind:?} {key:?}"
        );
        assert_eq!(searches.count, count);
        ours.map_or_else(|refusal| refusal.class, |found| if found.is_some() { 0 } else { NONE })
    }

    /// The keys of a tree's leaves and their neighbours, and some of no tree.
    fn search_keys(image: &[u8], root: &Root, kind: TreeKind) -> Vec<Vec<u8>> {
        let mut keys: Vec<Vec<u8>> = vec![vec![], vec![0], vec![255; 20], [&9u64.to_be_bytes()[..], &[1]].concat()];
        for (key, _) in leaf_records(image, root, kind, tree_of(root, kind), root.generation) {
            keys.extend([key.to_vec(), [key, &[0][..]].concat(), key[..key.len() - 1].to_vec()]);
        }
        keys
    }

    #[test]
    fn searches_are_answered_alike() {
        let (image, root) = register();
        let mut classes = Vec::new();
        for kind in KINDS {
            for key in search_keys(&image, &root, kind) {
                classes.push(compare_search(&image, &root, kind, &key));
            }
            // The image ends at a block, and beside it.
            let key = leaf_records(&image, &root, kind, tree_of(&root, kind), root.generation)[0].0.to_vec();
            for block in [0, 1].into_iter().chain(529..540).chain([1951, 1952, 1953, 2047, 2048]) {
                for length in [block * BLOCK, block * BLOCK + 1, (block + 1) * BLOCK - 1] {
                    classes.push(compare_search(&image[..length.min(image.len())], &root, kind, &key));
                }
            }
            // Roots made by hand: every page as the tree's top, and blocks that aren't there.
            for block in
                register_pages().into_iter().map(|block| block as u64).chain([0, 2047, 2048, 1 << 52, u64::MAX])
            {
                for generation in 0..7 {
                    let other = with_tree(&root, kind, TreeRef { block, generation });
                    classes.push(compare_search(&image, &other, kind, &key));
                }
            }
            for other in [
                Root { generation: 0, ..root },
                Root { generation: 4, ..root },
                Root { generation: u64::MAX, ..root },
                Root { blocks: 0, ..root },
                Root { blocks: 1044, ..root },
                Root { blocks: u64::MAX, ..root },
                Root { uuid: [0; 16], ..root },
                Root { uuid: [1; 16], ..root },
                Root { label: None, ..root },
            ] {
                classes.push(compare_search(&image, &other, kind, &key));
            }
        }
        for due in [0, NONE, 2, 3, 7] {
            assert!(classes.contains(&due), "class {due}");
        }
    }

    /// Both keys of each page above the leaves with other objects, so that pages below have keys out of their bounds.
    #[test]
    fn searches_out_of_bounds_are_answered_alike() {
        let (image, root) = register();
        let keys = search_keys(&image, &root, TreeKind::Catalog);
        let mut answers = Vec::new();
        for block in [530, 531, 532] {
            for at in [84 + 7, 113 + 7] {
                for object in 1..=16 {
                    let mut other = image.clone();
                    change(&mut other, block, at, &[object]);
                    for key in keys.iter().skip(usize::from(object) % 5).step_by(5) {
                        answers.push(compare_search(&other, &root, TreeKind::Catalog, key));
                    }
                }
            }
        }
        assert!(answers.iter().filter(|&&answer| answer == 8).count() > 100);
    }

    /// Every byte of the pages' heads and first records, and each 64th of the rest, with other values and a checksum that fits.
    #[test]
    fn searches_of_damaged_pages_are_answered_alike() {
        let (image, root) = register();
        let mut classes = Vec::new();
        for kind in [TreeKind::Catalog, TreeKind::Workspace] {
            let keys: Vec<Vec<u8>> = search_keys(&image, &root, kind).into_iter().step_by(7).collect();
            let mut damaged = image.clone();
            for block in register_pages() {
                for at in (0..170).chain((192..BLOCK).step_by(64)) {
                    let old = image[block * BLOCK + at];
                    for new in [old ^ 1, old.wrapping_add(1), old.wrapping_sub(1), old ^ 0x80] {
                        change(&mut damaged, block, at, &[new]);
                        let key = &keys[(at + usize::from(new)) % keys.len()];
                        classes.push(compare_search(&damaged, &root, kind, key));
                    }
                    change(&mut damaged, block, at, &[old]);
                }
                assert!(damaged == image);
            }
        }
        for due in [0, NONE, 3, 4, 8] {
            assert!(classes.contains(&due), "class {due}");
        }
    }

    fn bytes(length: u32) -> Vec<u8> {
        (0..length).map(|i| (i.wrapping_mul(i) >> 3) as u8).collect()
    }

    #[test]
    fn checksums_are_alike() {
        let bytes = bytes(5000);
        for length in (0..70).chain([4095, 4096, 5000]) {
            assert_eq!(crc32c(&bytes[..length]), crc::crc32c(&bytes[..length]));
            assert_eq!(extend(77, &bytes[..length]), crc::extend(77, &bytes[..length]));
        }
    }

    #[test]
    fn data_units_are_alike() {
        let bytes = bytes(65_600);
        let uuid = *b"a volume's UUID.";
        for length in (0..70).chain([3999, 4000, 4008, 4096, 65_535, 65_536, 65_537, 65_600]) {
            for (object, unit) in [(2, 0), (0, 255), (u64::MAX, 1 << 40)] {
                let due = crc::data_unit_crc(&uuid, object, unit, &bytes[..length]).map_err(told);
                assert_eq!(data_unit_crc(&uuid, object, unit, &bytes[..length]), due);
            }
        }
    }
}
