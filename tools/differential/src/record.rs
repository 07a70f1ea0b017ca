//! The recorded answers: a fixed list of calls and bodies that reach every class and reason that the search meets.

use crate::call::{self, Call, Calls, SHAPES, shape_of};
use crate::oracle::{self, Said};
use crate::pages;
use crate::program::Kind;
use crate::random::Random;
use crate::reached;
use crate::search::{Answer, End};
use crate::table::hash;
use crate::{borders, exhaustive, generate, readback, reasons, roots};
use std::collections::{BTreeMap, BTreeSet};
use std::fmt::Write;
use std::path::Path;

pub const SEED: u64 = 1;
pub const COUNT: u64 = 4_000_000;
/// Of so many calls of `probe` searched, one of `probe_added` is.
const ADDED_OF: u64 = 10;

/// What a kept input shows: the call, its class and reason, and a number for what else sets it apart.
type Shows = (u8, Option<(u64, u64)>, u64);

/// The inputs kept, the smallest for each thing shown.
struct Kept {
    kind: Kind,
    /// What other inputs show already.
    shown: BTreeSet<Shows>,
    inputs: BTreeMap<Shows, Vec<u8>>,
    reached: BTreeMap<u8, BTreeSet<(u64, u64)>>,
}

/// What a page and its parent must have in common: their refusals are kept at every level.
const BY_LEVEL: &[&str] = &["unexpected page level", "page identity or generation"];

/// How and where a search ends; of most refusals the level isn't asked.
fn search_apart(call: &Call, answer: &Answer) -> u64 {
    let level = answer.level.map_or(8, u64::from);
    let kind = call.numbers[1];
    let (end, place) = match answer.end {
        End::Found(places) => (u64::from(places[3] == 0), kind << 4 | answer.pages.min(2)),
        End::NotInLeaf => (2, kind << 4 | answer.pages.min(2)),
        End::BelowFirst => (3, level),
        End::BeyondImage => (4, level),
        End::BelowLower => (5, level),
        End::NotBelowUpper => (6 + u64::from(answer.inherited), level),
        End::Refused(class, reason) if class == 4 || BY_LEVEL.iter().any(|text| reasons::number(text) == reason) => {
            (8, level)
        }
        End::Refused(..) => (8, 0),
    };
    end << 8 | place
}

/// What sets an answer apart beside its class and reason.
fn apart(call: &Call, said: Said, fields: &[u8]) -> u64 {
    let n = |place: usize| call.numbers.get(place).copied().unwrap_or(0);
    let byte = |place: usize| call.texts.last().and_then(|text| text.get(place)).copied();
    if said.listed.is_some() {
        return u64::MAX;
    }
    let accepted = said.verdict == Some((0, 0));
    let found = u64::from(fields.first() == Some(&b'1'));
    let text = |place: usize| std::str::from_utf8(fields.split(|byte| *byte == b' ').nth(place)?).ok();
    let told = |place: usize| text(place).and_then(|field| field.parse::<u64>().ok()).unwrap_or(0);
    match call.no {
        // The tree kind, and leaf or internal.
        36 if accepted => n(2) << 8 | u64::from(byte(12) == Some(1)),
        42 if accepted => n(0) << 8 | u64::from(n(1) == 1) << 1 | n(6).min(1),
        27 | 29 if accepted => n(0) << 8 | u64::from(call.texts[0].get(8).copied().unwrap_or(0)),
        28 if accepted => n(0),
        30 if accepted => u64::from(fields.starts_with(b"0 0 1")),
        // With a label or without.
        34 if accepted => hash(&fields[..5]) << 1 | u64::from(fields.ends_with(b" -")),
        35 | 41 if accepted => hash(&fields[..5]),
        // Both modes' sides of a lookup: walked or halved, found or not, and where.
        39 => {
            let index = fields.get(2).copied().unwrap_or(0);
            found << 16 | u64::from(n(1) >= n(0)) << 15 | u64::from(index) << 4 | n(0).min(9)
        }
        40 => found << 4 | n(0).min(2),
        // The tree kind, walked or halved, found or not, at the front or behind it.
        43 if accepted => n(2) << 8 | told(5) << 4 | u64::from(n(6) >= told(4)) << 3 | told(6).min(1),
        // At once, in one piece, or in more, the last of which is shorter or isn't.
        44 if accepted => {
            let len = call.texts[1].len() as u64;
            len.checked_rem(n(3)).map_or(0, |last| 1 + 2 * u64::from(n(3) < len) + u64::from(last != 0))
        }
        60 => reached::answer_of(call).map_or(0, |answer| search_apart(call, &answer)),
        // A few of those that have neither class nor turn.
        1..=7 | 12..=15 | 31 | 32 => hash(fields) % 8,
        11 => hash(fields) % 64,
        8..=10 => hash(fields) % 4,
        _ => 0,
    }
}

impl Kept {
    fn new(kind: Kind) -> Self {
        Self { kind, shown: BTreeSet::new(), inputs: BTreeMap::new(), reached: BTreeMap::new() }
    }

    /// Takes what the inputs kept so far show as shown by others: they go.
    fn leave(&mut self) {
        self.shown.extend(std::mem::take(&mut self.inputs).into_keys());
    }

    /// Notes a call and keeps it if it shows something new, or the same with fewer bytes.
    fn offer(&mut self, call: &Call) {
        let mut bytes = Vec::new();
        if self.kind.write(call, &mut bytes).is_none() {
            return;
        }
        let mut answer = None;
        let mut panicked = false;
        let mut note = |said: Said, fields: &[u8]| {
            panicked = fields == oracle::PANIC;
            answer = Some((said, apart(call, said, fields)));
        };
        drop(match self.kind {
            Kind::Probe => oracle::probe(&bytes, |_, said, fields| note(said, fields)),
            Kind::Added => oracle::probe_added(&bytes, |_, said, fields| note(said, fields)),
            Kind::Readback => readback::readback(&bytes, |_, said, fields| note(said, fields)),
        });
        let Some((said, apart)) = answer else {
            return;
        };
        assert!(!panicked, "the reference panics on {call:?}");
        self.reached.entry(call.no).or_default().extend(said.verdict);
        // What `hand_out` refuses, `decode_page` does: of it only what is handed out is kept.
        if call.no == 43 && said.verdict != Some((0, 0)) {
            return;
        }
        let shows = (call.no, said.verdict, apart);
        if self.shown.contains(&shows) {
            return;
        }
        let kept = self.inputs.entry(shows).or_insert_with(|| bytes.clone());
        if bytes.len() < kept.len() {
            *kept = bytes;
        }
    }
}

/// The search: good blocks of every kind, then `count` calls from the seed.
fn search(seed: u64, count: u64) -> [Kept; 2] {
    let mut probe = Kept::new(Kind::Probe);
    let mut bodies = Kept::new(Kind::Readback);
    let mut r = Random::new(seed);
    for _ in 0..400 {
        for call in [pages::good(&mut r).decode_call(), roots::good(&mut r).decode_call()] {
            probe.offer(&call);
            bodies.offer(&call);
        }
    }
    for done in 0..count {
        if done % 500_000 == 0 {
            eprintln!("record: {done} of {count} calls");
        }
        let call = generate::any_call(&mut r);
        probe.offer(&call);
        if call.no == 34 || call.no == 36 {
            bodies.offer(&call);
        }
    }
    [probe, bodies]
}

fn concatenated(fixed: &[u8], kept: &Kept) -> Vec<u8> {
    let mut bytes = fixed.to_vec();
    kept.inputs.values().for_each(|input| bytes.extend_from_slice(input));
    bytes
}

/// The reasons reached by each call, one line each.
fn reached_by_call(kept: &Kept) -> String {
    let mut text = String::new();
    for (no, verdicts) in &kept.reached {
        let name = shape_of(*no).map_or("", |shape| shape.name);
        let _ = write!(text, "{} {no} {name}:", kept.kind.name());
        let mut last = None;
        for (class, reason) in verdicts {
            if last != Some(class) {
                let _ = write!(text, " class {class}:");
            }
            let _ = write!(text, " {reason}");
            last = Some(class);
        }
        text.push('\n');
    }
    text
}

/// For each reason its string, its classes and the calls that return it; those that none returns last.
fn reached_by_reason(kept: &Kept) -> String {
    let mut text = String::from("reason, string, classes, calls\n");
    let mut lacking = String::from("reasons that no input of the search reaches\n");
    for (string, number) in reasons::list().iter().zip(1u64..) {
        let mut classes = BTreeSet::new();
        let mut calls = Vec::new();
        for (no, verdicts) in &kept.reached {
            let here: Vec<u64> = verdicts.iter().filter(|verdict| verdict.1 == number).map(|v| v.0).collect();
            if !here.is_empty() {
                calls.push(no.to_string());
                classes.extend(here);
            }
        }
        if calls.is_empty() {
            let _ = writeln!(lacking, "{number}\t{string}");
        } else {
            let classes: Vec<String> = classes.iter().map(u64::to_string).collect();
            let _ = writeln!(text, "{number}\t{string}\t{}\t{}", classes.join(" "), calls.join(" "));
        }
    }
    text + "\n" + &lacking
}

/// The search for `probe_added`: what its calls by hand don't show.
fn search_added(seed: u64, count: u64) -> Kept {
    let mut kept = Kept::new(Kind::Added);
    generate::added_by_hand(&mut |call| kept.offer(&call));
    kept.leave();
    generate::added(seed, count, &mut |call| kept.offer(&call));
    kept
}

/// Inputs at which `probe_added` prints `cut`: one that ends early, a string that isn't whole pages, a call of `probe`.
fn added_cuts(first: &[u8]) -> [(&'static str, Vec<u8>); 3] {
    let mut pages = first[..first.len() - 4].to_vec();
    pages.extend(4_105u32.to_le_bytes());
    pages.resize(pages.len() + 4_105, 0);
    let mut other = first.to_vec();
    Call::new(2, &[], &[b""]).write(&mut other);
    let short = [first, &first[..first.len() - 1]].concat();
    [("probe_added-cut", short), ("probe_added-pages-cut", pages), ("probe_added-call-cut", other)]
}

fn calls_in(calls: &Calls, mut input: &[u8]) -> usize {
    let mut count = 0;
    while call::read(calls, &mut input).is_some() {
        count += 1;
    }
    count
}

/// Writes the recorded answers into a folder.
pub fn run(dir: &str, seed: u64, count: u64) -> Result<bool, String> {
    let dir = Path::new(dir);
    std::fs::create_dir_all(dir).map_err(|error| format!("{}: {error}", dir.display()))?;
    let file =
        |name: &str, bytes: &[u8]| std::fs::write(dir.join(name), bytes).map_err(|error| format!("{name}: {error}"));
    let [mut probe, mut bodies] = search(seed, count);
    let mut fixed = Vec::new();
    exhaustive::borders(&mut |call| call.write(&mut fixed));
    exhaustive::all(&mut |call| {
        if call.no != 36 {
            probe.offer(&call);
        }
    });
    bodies.offer(&Call::new(34, &[256, 1_023], &[&[0; 4_096]]));
    bodies.offer(&Call::new(36, &[512, 0, 1, 1, 255, 1_025], &[&[1; 16], &[0; 4_096]]));

    let mut sizes = 0;
    let mut write = |kind: Kind, name: &str, input: &[u8]| {
        let output = kind.expected(input);
        sizes += input.len() + output.len();
        file(&format!("{name}.stdin"), input)?;
        file(&format!("{name}.stdout"), &output)
    };
    let mut calls = concatenated(&fixed, &probe);
    borders::all(&mut |call| call.write(&mut calls));
    let body_bytes = concatenated(b"", &bodies);
    let added = search_added(seed, count / ADDED_OF);
    let mut added_fixed = Vec::new();
    let mut first = 0;
    generate::added_by_hand(&mut |call| {
        call.write(&mut added_fixed);
        first = if first == 0 { added_fixed.len() } else { first };
    });
    let added_calls = concatenated(&added_fixed, &added);
    write(Kind::Probe, "probe", &calls)?;
    write(Kind::Added, "probe_added", &added_calls)?;
    write(Kind::Readback, "readback", &body_bytes)?;
    // A call, and a body, that ends early.
    write(Kind::Probe, "probe-cut", &[2, 0, 0, 0, 0, 2, 5, 0, 0, 0, b'a'])?;
    write(Kind::Readback, "readback-cut", &[1, 0, 1])?;
    for (name, input) in added_cuts(&added_fixed[..first]) {
        write(Kind::Added, name, &input)?;
    }

    let by_call = reached_by_call(&probe) + &reached_by_call(&added) + &reached_by_call(&bodies);
    let by_reason = reached_by_reason(&probe);
    let about = format!(
        "Recorded answers of probe, probe_added and readback, made by `differential record`: seed {seed}, {count} calls searched.\n\
         probe.stdin {} calls, probe_added.stdin {}, readback.stdin {} bodies, each with the lines that the program must\n\
         print (.stdout); those with cut in their name end in `cut`. {} of {} calls of probe have answers here.\n\n{by_call}\n\
         {by_reason}",
        calls_in(&call::PROBE, &calls),
        calls_in(&call::ADDED, &added_calls),
        bodies.inputs.len(),
        probe.reached.len(),
        SHAPES.len(),
    );
    file("recorded.txt", about.as_bytes())?;
    print!("{about}");
    println!("\n{sizes} bytes written to {}", dir.display());
    Ok(true)
}
