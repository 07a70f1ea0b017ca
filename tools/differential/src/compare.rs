//! Runs the programs batch after batch and holds each line to the reference's.

use crate::call::{Call, shape_of};
use crate::minimise;
use crate::program::{Difference, Kind, Output, Program, differences, run as run_program};
use crate::random::Random;
use crate::table::Table;
use crate::{borders, exhaustive, generate, oracle, readback};
use std::collections::HashMap;
use std::sync::Arc;
use std::thread::JoinHandle;
use std::time::{Duration, Instant};

/// A batch ends after this many calls or bytes.
const BATCH_CALLS: usize = 5_000;
const BATCH_BODIES: usize = 400;
const BATCH_BYTES: usize = 3 << 20;
/// A search has whole pages, so that more bytes go together.
const BATCH_ADDED_BYTES: usize = 16 << 20;
/// Differences shown in full for one call, and together.
const SHOWN_EACH: u64 = 2;
const SHOWN: u64 = 20;
const PROGRESS: Duration = Duration::from_secs(5);

pub struct Settings {
    seed: u64,
    time: Duration,
    programs: Vec<Program>,
}

impl Settings {
    pub fn read(words: &[String]) -> Result<Self, String> {
        let number = |word: Option<&String>, what: &str| {
            let word = word.ok_or(format!("compare: {what} is missing"))?;
            word.parse::<u64>().map_err(|_| format!("compare: {word} is no {what}"))
        };
        let seed = number(words.first(), "seed")?;
        let time = Duration::from_secs(number(words.get(1), "time")?);
        let mut programs = Vec::new();
        for pair in words[2..].chunks(2) {
            let kind = match pair[0].as_str() {
                "--probe" => Kind::Probe,
                "--probe_added" => Kind::Added,
                "--readback" => Kind::Readback,
                other => return Err(format!("compare: {other} is unknown")),
            };
            let path = pair.get(1).ok_or(format!("compare: {} needs a path", pair[0]))?.into();
            programs.push(Program { kind, path });
        }
        if programs.is_empty() {
            return Err("compare: name a program, --probe PATH, --probe_added PATH or --readback PATH".into());
        }
        Ok(Self { seed, time, programs })
    }
}

/// An input of one program, with the places where its calls begin.
#[derive(Default)]
struct Batch {
    bytes: Vec<u8>,
    starts: Vec<usize>,
}

impl Batch {
    fn push(&mut self, kind: Kind, call: &Call) {
        let start = self.bytes.len();
        if kind.write(call, &mut self.bytes).is_some() {
            self.starts.push(start);
        }
    }

    fn push_raw(&mut self, bytes: &[u8]) {
        self.starts.push(self.bytes.len());
        self.bytes.extend_from_slice(bytes);
    }

    fn is_full(&self, kind: Kind) -> bool {
        let (calls, bytes) = match kind {
            Kind::Probe => (BATCH_CALLS, BATCH_BYTES),
            Kind::Added => (BATCH_CALLS, BATCH_ADDED_BYTES),
            Kind::Readback => (BATCH_BODIES, BATCH_BYTES),
        };
        self.starts.len() >= calls || self.bytes.len() >= bytes
    }

    fn input(&self, place: usize) -> &[u8] {
        let end = self.starts.get(place + 1).copied().unwrap_or(self.bytes.len());
        &self.bytes[self.starts[place]..end]
    }
}

/// A batch from the seed; one in four ends in a call that is cut.
fn random_batch(r: &mut Random, kind: Kind) -> Batch {
    let mut batch = Batch::default();
    while !batch.is_full(kind) {
        match kind {
            Kind::Probe => batch.push(kind, &generate::any_call(r)),
            Kind::Added => generate::some_added(r, &mut |call| batch.push(kind, &call)),
            Kind::Readback => batch.push(kind, &generate::body(r)),
        }
    }
    if r.once_in(4) {
        batch.push_raw(&broken(r, kind));
    }
    batch
}

/// Bytes that end in `cut`.
fn broken(r: &mut Random, kind: Kind) -> Vec<u8> {
    match kind {
        Kind::Probe => generate::broken_call(r),
        Kind::Added => generate::broken_added(r),
        Kind::Readback => generate::broken_body(r),
    }
}

/// The batches that are run whatever the seed.
fn fixed_batches(kind: Kind, seed: u64) -> Vec<Batch> {
    let mut batches = vec![Batch::default()];
    let mut current = Batch::default();
    let mut each = |call: Call| {
        current.push(kind, &call);
        if current.is_full(kind) {
            batches.push(std::mem::take(&mut current));
        }
    };
    match kind {
        Kind::Probe => {
            exhaustive::all(&mut each);
            borders::all(&mut each);
        }
        Kind::Added => generate::added_by_hand(&mut each),
        Kind::Readback => {}
    }
    batches.push(current);
    // Each way of being cut, alone: the batches above hide all but the first in a batch.
    let mut r = Random::new(seed);
    for _ in 0..100 {
        let mut batch = Batch::default();
        batch.push_raw(&broken(&mut r, kind));
        batches.push(batch);
    }
    batches
}

struct Run {
    table: Table,
    shown: HashMap<(&'static str, u8), u64>,
    all_shown: u64,
    begin: Instant,
    progress: Instant,
}

/// A batch whose program is at work.
struct Started {
    program: Program,
    bytes: Arc<Vec<u8>>,
    starts: Vec<usize>,
    output: JoinHandle<Result<Output, String>>,
}

fn start(program: &Program, batch: Batch) -> Started {
    let bytes = Arc::new(batch.bytes);
    let (path, input) = (program.path.clone(), bytes.clone());
    Started {
        program: program.clone(),
        bytes,
        starts: batch.starts,
        output: std::thread::spawn(move || run_program(&path, input)),
    }
}

impl Run {
    /// What must be printed, each call noted in the table.
    fn expected(&mut self, kind: Kind, input: &[u8]) -> Vec<u8> {
        let table = &mut self.table;
        let out = match kind {
            Kind::Probe => oracle::probe(input, |call, said, fields| {
                table.note(kind, call.no, said, fields);
            }),
            Kind::Added => oracle::probe_added(input, |call, said, fields| {
                table.note(kind, call.no, said, fields);
            }),
            Kind::Readback => readback::readback(input, |body, said, fields| {
                table.note(kind, body.kind(), said, fields);
            }),
        };
        self.table.cut.cases += u64::from(out.ends_with(b" cut\n"));
        out
    }

    /// Judges a started batch; `meanwhile` is done while the program is at work.
    fn finish<T>(&mut self, started: Started, meanwhile: impl FnOnce() -> T) -> Result<T, String> {
        let kind = started.program.kind;
        let expected = self.expected(kind, &started.bytes);
        let result = meanwhile();
        let output = started.output.join().map_err(|_| "the runner ended early")??;
        let found = differences(&expected, &output);
        if !found.is_empty() {
            let batch = Batch { bytes: started.bytes.to_vec(), starts: started.starts };
            found.iter().for_each(|found| self.show(&started.program, &batch, found));
        }
        if self.progress.elapsed() >= PROGRESS {
            self.progress = Instant::now();
            eprintln!(
                "{:>6} s  {:>11} calls  {:>9} bodies  {} differences",
                self.begin.elapsed().as_secs(),
                self.table.calls(),
                self.table.bodies(),
                self.table.differences()
            );
        }
        Ok(result)
    }

    /// Counts a difference and, for the first few of a call, prints its smallest input.
    fn show(&mut self, program: &Program, batch: &Batch, found: &Difference) {
        let place = found.line.wrapping_sub(1);
        let inside = place < batch.starts.len();
        let call = if inside { program.kind.call(batch.input(place)) } else { None };
        let no = call.as_ref().map_or(0, |call| match (program.kind, call.no) {
            (Kind::Readback, 34) => 1,
            (Kind::Readback, _) => 2,
            (Kind::Probe | Kind::Added, no) => no,
        });
        match no {
            0 => self.table.cut.differences += 1,
            no => self.table.row(program.kind, no).differences += 1,
        }
        let shown = self.shown.entry((program.kind.name(), no)).or_default();
        if *shown >= SHOWN_EACH || self.all_shown >= SHOWN {
            return;
        }
        *shown += 1;
        self.all_shown += 1;
        println!("difference in {}", program.kind.name());
        match call.and_then(|call| minimise::smallest(program, call)) {
            Some((call, found)) => print_call(&call, &found),
            None if inside => {
                let inputs: Vec<Vec<u8>> = (0..=place).map(|place| batch.input(place).to_vec()).collect();
                let fewest = minimise::fewest(program, &inputs);
                println!("  shown by {} calls together, as bytes:", fewest.len());
                fewest.iter().take(10).for_each(|bytes| println!("    {}", short_hex(bytes)));
                print_lines(found);
            }
            None => {
                println!("  line {} of a batch of {} calls", found.line, batch.starts.len());
                print_lines(found);
            }
        }
    }
}

fn short_hex(bytes: &[u8]) -> String {
    let mut out = Vec::new();
    oracle::hex(&mut out, &bytes[..bytes.len().min(5_000)]);
    let text = String::from_utf8_lossy(&out[1..]).into_owned();
    // A run of zeros says more as a number.
    let mut short = String::new();
    let mut rest = &text[1..];
    while !rest.is_empty() {
        let zeros = rest.bytes().take_while(|&byte| byte == b'0').count() / 2 * 2;
        if zeros >= 32 && short.len() % 2 == 0 {
            short.push_str(&format!(" {} zero bytes ", zeros / 2));
            if short.len() % 2 == 1 {
                short.push(' ');
            }
            rest = &rest[zeros..];
        } else {
            short.push_str(&rest[..2]);
            rest = &rest[2..];
        }
    }
    let more = if bytes.len() > 5_000 { " .." } else { "" };
    format!("x{}{more}", short.trim_end())
}

fn print_lines(found: &Difference) {
    let cut = |line: &str| line.chars().take(2_000).collect::<String>();
    println!("  reference: {}", cut(&found.expected));
    println!("  program:   {}", cut(&found.printed));
}

fn print_call(call: &Call, found: &Difference) {
    let name = shape_of(call.no).map_or("", |shape| shape.name);
    println!("  call {} {name}", call.no);
    println!("  numbers: {:?}", call.numbers);
    for text in &call.texts {
        println!("  string of {} bytes: {}", text.len(), short_hex(text));
    }
    print_lines(found);
}

/// Compares for the time given; true if only listed differences were met.
pub fn run(settings: &Settings) -> Result<bool, String> {
    let begin = Instant::now();
    let mut run = Run { table: Table::new(), shown: HashMap::new(), all_shown: 0, begin, progress: begin };
    let mut r = Random::new(settings.seed);
    eprintln!("compare: seed {}, {} s", settings.seed, settings.time.as_secs());
    for program in &settings.programs {
        for batch in fixed_batches(program.kind, settings.seed) {
            run.finish(start(program, batch), || ())?;
        }
    }
    let mut turn = 0;
    let mut next = random_batch(&mut r, settings.programs[0].kind);
    while begin.elapsed() < settings.time && run.all_shown < SHOWN {
        let program = &settings.programs[turn % settings.programs.len()];
        turn += 1;
        let kind = settings.programs[turn % settings.programs.len()].kind;
        let started = start(program, next);
        next = run.finish(started, || random_batch(&mut r, kind))?;
    }
    run.table.print();
    Ok(run.table.differences() == 0)
}
