//! Seeks a record in a volume's image: the key, in hexadecimal, in a tree of the chosen root.
//!
//!     cargo run --example search -- IMAGE catalog 000000000000000101
//!
//! `tools/samples/image samples/levels.pages IMAGE`, at the top of the project's repository, makes an image to try.
use carryfs::{Refusal, Root, RootBlock, Searches, TreeKind, search};
use std::error::Error;

const BLOCK: u64 = 4096;

/// The current root of a volume, from its two root blocks. A block that the image doesn't have counts as no root.
fn root_of(image: &[u8]) -> Result<Root, Refusal> {
    let blocks = image.len() as u64 / BLOCK;
    let block = |slot: u64| {
        let start = (slot * BLOCK) as usize;
        RootBlock { bytes: image.get(start..start + BLOCK as usize).unwrap_or_default(), slot, blocks }
    };
    Root::select(block(256), block(blocks.saturating_sub(257))).map(|(_, root)| root)
}

fn kind_of(word: &str) -> Option<TreeKind> {
    match word {
        "catalog" => Some(TreeKind::Catalog),
        "allocation" => Some(TreeKind::Allocation),
        "cleanup" => Some(TreeKind::Cleanup),
        "workspace" => Some(TreeKind::Workspace),
        _ => None,
    }
}

/// Two digits a byte.
fn key_of(word: &str) -> Option<Vec<u8>> {
    let digits: Vec<u8> = word.chars().map(|digit| digit.to_digit(16).map(|n| n as u8)).collect::<Option<_>>()?;
    (digits.len() % 2 == 0).then(|| digits.chunks(2).map(|pair| pair[0] << 4 | pair[1]).collect())
}

fn hex(bytes: &[u8]) -> String {
    bytes.iter().map(|byte| format!("{byte:02x}")).collect()
}

fn main() -> Result<(), Box<dyn Error>> {
    let words: Vec<String> = std::env::args().skip(1).collect();
    let [file, kind, key] = &words[..] else { return Err("IMAGE TREE KEY".into()) };
    let kind = kind_of(kind).ok_or("the trees are catalog, allocation, cleanup and workspace")?;
    let key = key_of(key).ok_or("a key has two hexadecimal digits a byte")?;
    let image = std::fs::read(file)?;
    let root = root_of(&image)?;
    // The state is lent to each search: what one accepted is counted on by the next.
    let mut searches = Searches::default();
    match search(&image, &root, kind, &key, &mut searches) {
        Ok(Some(record)) => println!("a value of {} bytes: {}", record.value.len(), hex(record.value)),
        Ok(None) => println!("none"),
        Err(refusal) => println!("{refusal}"),
    }
    println!("pages accepted: {}", searches.count);
    Ok(())
}
