//! Nothing else changes: the answers of the library before a change and after it.
//!
//! `record` writes a line for each stream with sums over all answers of the linked library;
//! `record FILE` compares them with the lines that another build wrote. The streams have no arcs;
//! with `--four-decimals` before FILE they have, and no number of more than four decimals; with
//! `--quarter-turns` they have these too, and no RO by more than a quarter; with `--no-replies` these
//! too, and none of OA, OP, OW, OH and OE; with `--whole` they are all streams as they are.

use differential::record::{lines, Without, BYTES};
use std::process::ExitCode;
use vutaroi::Machine;

fn all(without: Without) -> Vec<String> {
    let families = without.families().iter();
    families.flat_map(|&family| lines::<Machine>(without, family, BYTES)).collect()
}

/// Compares the lines; the first that differs is told.
fn compare(without: Without, file: &str) -> Result<usize, String> {
    let text = std::fs::read_to_string(file).map_err(|error| format!("{file}: {error}"))?;
    let (before, after): (Vec<&str>, _) = (text.lines().collect(), all(without));
    if let Some((old, new)) = before.iter().zip(&after).find(|(old, new)| old != new) {
        return Err(format!("the answers differ:\nbefore {old}\nafter  {new}"));
    }
    if before.len() != after.len() {
        return Err(format!("{} streams before, {} after", before.len(), after.len()));
    }
    Ok(after.len())
}

fn main() -> ExitCode {
    let mut arguments: Vec<String> = std::env::args().skip(1).collect();
    let without = match arguments.first().map(String::as_str) {
        Some("--four-decimals") => Without::FifthDecimals,
        Some("--quarter-turns") => Without::FurtherTurns,
        Some("--no-replies") => Without::Replies,
        Some("--whole") => Without::Nothing,
        _ => Without::Arcs,
    };
    arguments.drain(..usize::from(without != Without::Arcs));
    let Some(file) = arguments.first() else {
        all(without).iter().for_each(|line| println!("{line}"));
        return ExitCode::SUCCESS;
    };
    match compare(without, file) {
        Ok(streams) => {
            println!("{streams} streams, no answer differs");
            ExitCode::SUCCESS
        }
        Err(error) => {
            eprintln!("record: {error}");
            ExitCode::FAILURE
        }
    }
}
