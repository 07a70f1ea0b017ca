//! Compares the programs `probe`, `probe_added` and `readback` with the reference (README.md beside this folder).

mod borders;
mod call;
mod compare;
mod exhaustive;
mod generate;
mod listed;
mod lookups;
mod minimise;
mod numbers;
mod oracle;
mod pages;
mod program;
mod random;
mod reached;
mod readback;
mod reasons;
mod record;
mod records;
mod roots;
mod search;
mod searches;
mod table;
#[cfg(test)]
mod tests;
mod texts;
mod trees;

use std::io::{Read, Write};
use std::process::ExitCode;

const USAGE: &str = "differential: compares probe, probe_added and readback with the reference

  differential gen SEED COUNT [probe|probe_added]
                                               writes COUNT calls
  differential oracle probe|probe_added|readback
                                               answers standard input as the program must
  differential compare SEED SECONDS [--probe PATH] [--probe_added PATH] [--readback PATH]
                                               runs the programs against the reference for a time
  differential reached SEED COUNT              says how so many searches end, and at which level
  differential record DIR [SEED [COUNT]]       writes the recorded answers, and what they reach
  differential listed                          prints the listed differences
";

fn number(word: Option<&String>) -> Result<u64, String> {
    let word = word.ok_or("a number is missing")?;
    word.parse().map_err(|_| format!("{word} is not a number"))
}

fn generated(seed: u64, count: u64) -> Vec<u8> {
    let mut r = random::Random::new(seed);
    let mut bytes = Vec::new();
    (0..count).for_each(|_| generate::any_call(&mut r).write(&mut bytes));
    bytes
}

/// Writes calls of `probe_added` one by one: a million of them are more than memory holds.
fn write_added(seed: u64, count: u64) -> Result<bool, String> {
    let mut out = std::io::BufWriter::new(std::io::stdout().lock());
    let mut written = Ok(());
    generate::added(seed, count, &mut |call| {
        let mut bytes = Vec::new();
        call.write(&mut bytes);
        if written.is_ok() {
            written = out.write_all(&bytes);
        }
    });
    let written = written.and_then(|()| out.flush());
    written.map(|()| true).map_err(|error| format!("standard output: {error}"))
}

fn standard_input() -> Result<Vec<u8>, String> {
    let mut input = Vec::new();
    let read = std::io::stdin().lock().read_to_end(&mut input);
    read.map(|_| input).map_err(|error| format!("standard input: {error}"))
}

fn print(bytes: &[u8]) -> Result<bool, String> {
    let written = std::io::stdout().lock().write_all(bytes);
    written.map(|()| true).map_err(|error| format!("standard output: {error}"))
}

fn run(words: &[String]) -> Result<bool, String> {
    let word = |place: usize| words.get(place).map(String::as_str);
    match (word(0), word(1)) {
        (Some("gen"), _) => {
            let (seed, count) = (number(words.get(1))?, number(words.get(2))?);
            match word(3) {
                None | Some("probe") => print(&generated(seed, count)),
                Some("probe_added") => write_added(seed, count),
                Some(other) => Err(format!("gen: {other} has no calls")),
            }
        }
        (Some("reached"), _) => print(reached::table(number(words.get(1))?, number(words.get(2))?).as_bytes()),
        (Some("oracle"), Some("probe_added")) => print(&oracle::probe_added(&standard_input()?, |_, _, _| ())),
        (Some("oracle"), Some("probe")) => print(&oracle::probe(&standard_input()?, |_, _, _| ())),
        (Some("oracle"), Some("readback")) => print(&readback::readback(&standard_input()?, |_, _, _| ())),
        (Some("compare"), Some(_)) => compare::run(&compare::Settings::read(&words[1..])?),
        (Some("record"), Some(dir)) => {
            let seed = words.get(2).map_or(Ok(record::SEED), |_| number(words.get(2)))?;
            let count = words.get(3).map_or(Ok(record::COUNT), |_| number(words.get(3)))?;
            record::run(dir, seed, count)
        }
        (Some("listed"), None) => {
            for listed in listed::LISTED {
                println!("{} (call {}): {}.", listed.name, listed.call, listed.rule);
                println!("  smallest input: {}", listed.smallest);
            }
            Ok(true)
        }
        _ => Err(USAGE.into()),
    }
}

fn main() -> ExitCode {
    let words: Vec<String> = std::env::args().skip(1).collect();
    match run(&words) {
        Ok(true) => ExitCode::SUCCESS,
        Ok(false) => ExitCode::FAILURE,
        Err(error) => {
            eprintln!("{error}");
            ExitCode::from(2)
        }
    }
}
