//! The listed differences: where document 01 answers otherwise than the Rust, or where the Rust can't answer at all.
//! docs/DIFFERENCES.md lists them under these names. The oracle answers as 01 says, by this table alone.

use crate::call::Lent;

pub struct Listed {
    pub name: &'static str,
    pub call: u8,
    pub rule: &'static str,
    pub smallest: &'static str,
    applies: fn(&Lent) -> bool,
}

const UNIT: usize = 65_536;

/// The part that `crc32c_with_zero` reads as zeros.
pub fn zeroed(start: u64, end: u64, len: usize) -> (usize, usize) {
    let end = end.min(len as u64);
    (start.min(end) as usize, end as usize)
}

pub const LISTED: &[Listed] = &[
    Listed {
        name: "zeros above a unit",
        call: 3,
        rule: "more than 65,536 bytes read as zeros: the register is stepped by them; the Rust panics",
        smallest: "call 3, start 0, end 65537, 65,537 bytes",
        applies: |call| {
            let (start, end) = zeroed(call.numbers[0], call.numbers[1], call.texts[0].len());
            end - start > UNIT
        },
    },
    Listed {
        name: "data unit length",
        call: 5,
        rule: "0 or above 65,536 valid bytes: class 2 and reason 0; the Rust's string is of crc.rs, not in the list",
        smallest: "call 5, object 0, unit 0, any UUID, no bytes",
        applies: |call| !(1..=UNIT).contains(&call.texts[1].len()),
    },
    Listed {
        name: "data unit in pieces",
        call: 44,
        rule: "an announced length of 0 or above 65,536, or another than the bytes have: class 2 and reason 0; the Rust's string is of crc.rs",
        smallest: "call 44, object 0, unit 0, announced 0, size 0, any UUID, no bytes",
        applies: |call| {
            let announced = call.numbers[2];
            !(1..=UNIT as u64).contains(&announced) || announced != call.texts[1].len() as u64
        },
    },
    Listed {
        name: "short extent key",
        call: 25,
        rule: "a key under 17 bytes: \"invalid catalog key\" in the mode's class, before the value; the Rust panics",
        smallest: "call 25, blocks 0, mode 0, empty key, empty value",
        applies: |call| call.texts[0].len() < 17,
    },
    Listed {
        name: "short checksum group key",
        call: 26,
        rule: "a key under 17 bytes: \"invalid catalog key\" in the mode's class, before the value; the Rust panics",
        smallest: "call 26, mode 0, empty key, empty value",
        applies: |call| call.texts[0].len() < 17,
    },
    Listed {
        name: "group length",
        call: 31,
        rule: "a lent group of another length than 1,056: an empty part; the Rust can't be lent one",
        smallest: "call 31, empty group",
        applies: |call| call.texts[0].len() != 1_056,
    },
    Listed {
        name: "part above 65,535 bytes",
        call: 39,
        rule: "a payload above 65,535 bytes: none, the scratch as it was; the Rust walks it, its offsets cut to 16 bits",
        smallest: "call 39, count 1, scratch 0, 65,536 zero bytes, empty key: the Rust finds index 0",
        applies: |call| call.texts[0].len() > 65_535,
    },
];

/// The listed difference that a call falls under.
pub fn of(call: &Lent) -> Option<&'static Listed> {
    LISTED.iter().find(|listed| listed.call == call.no && (listed.applies)(call))
}
