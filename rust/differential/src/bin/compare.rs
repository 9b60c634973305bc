//! Two archives of the library on the same loads.
//!
//! `compare OLD NEW [NAME..]`: OLD and NEW are two programs `bench`, each linked with its archive; the
//! script `compare.sh` builds them. Symbols of two archives collide in one program, so each runs in its
//! own, and they run in turns. Both are started several times for each load, since the system puts
//! their stacks and lists at other places each time. OLD or NEW may be several programs with a comma
//! between, the same code at other places: then each start takes the next one.

use differential::least::{Least, Times};
use differential::loads::LOADS;
use std::io::{BufRead, BufReader, Error, Write};
use std::process::{Child, ChildStdin, ChildStdout, Command, ExitCode, Stdio};

const STARTS: usize = 4;
const ROUNDS: usize = 10;

/// A program that runs a load when it is asked to.
struct Side {
    child: Child,
    asks: ChildStdin,
    says: BufReader<ChildStdout>,
    bytes: f64,
    least: Least,
}

impl Side {
    fn start(program: &str, load: &str) -> Result<Side, Error> {
        let mut child = Command::new(program)
            .args(["--turns", load])
            .stdin(Stdio::piped())
            .stdout(Stdio::piped())
            .spawn()?;
        let asks = child.stdin.take().expect("a pipe");
        let says = BufReader::new(child.stdout.take().expect("a pipe"));
        let mut side = Side { child, asks, says, bytes: 0.0, least: Least::default() };
        side.bytes = side.line()?[0] as f64;
        side.turn()?;
        Ok(side)
    }

    /// The numbers of a line that it says.
    fn line(&mut self) -> Result<Times, Error> {
        let mut text = String::new();
        self.says.read_line(&mut text)?;
        let numbers: Result<Times, _> = text.split_whitespace().map(str::parse).collect();
        match numbers {
            Ok(numbers) if !numbers.is_empty() => Ok(numbers),
            _ => Err(Error::other("a program does not answer: is it a bench with --turns?")),
        }
    }

    /// One run.
    fn turn(&mut self) -> Result<Times, Error> {
        writeln!(self.asks)?;
        self.line()
    }

    /// Nanoseconds a byte.
    fn each(&self) -> f64 {
        self.least.total() / self.bytes
    }

    fn end(mut self) -> Result<(), Error> {
        drop(self.asks);
        self.child.wait().map(drop)
    }
}

/// The programs of one side, the same code at one place or at several.
struct Programs(Vec<String>);

impl Programs {
    fn named(list: &str) -> Programs {
        Programs(list.split(',').map(str::to_string).collect())
    }

    /// The program of a start.
    fn at(&self, start: usize) -> &str {
        &self.0[start % self.0.len()]
    }
}

/// Nanoseconds a byte of both programs, started anew, and how far they repeat.
fn started(sides: &[Programs; 2], start: usize, load: &str) -> Result<([f64; 2], f64), Error> {
    let mut old = Side::start(sides[0].at(start), load)?;
    let mut new = Side::start(sides[1].at(start), load)?;
    for _ in 0..ROUNDS {
        for side in [&mut old, &mut new] {
            let times = side.turn()?;
            side.least.add(&times);
        }
    }
    let each = [old.each(), new.each()];
    let repeats = old.least.repeats().max(new.least.repeats());
    old.end()?;
    new.end()?;
    Ok((each, repeats))
}

/// A row: the means over the starts, their ratio, the ratios of single starts, and how far they repeat.
fn row(sides: &[Programs; 2], load: &str) -> Result<String, Error> {
    let starts: Result<Vec<_>, Error> = (0..STARTS).map(|k| started(sides, k, load)).collect();
    let starts = starts?;
    let mean = |side: usize| starts.iter().map(|s| s.0[side]).sum::<f64>() / STARTS as f64;
    let single = starts.iter().map(|s| s.0[1] / s.0[0]);
    let least = single.clone().fold(f64::INFINITY, f64::min);
    let most = single.fold(0.0, f64::max);
    let repeats = starts.iter().map(|s| s.1).fold(1.0, f64::max);
    let [old, new] = [mean(0), mean(1)];
    let ratio = new / old;
    Ok(format!(
        "| {load} | {old:.2} | {new:.2} | {ratio:.3} | {least:.3} to {most:.3} | {repeats:.3} |"
    ))
}

fn run(mut arguments: Vec<String>) -> Result<(), String> {
    if arguments.len() < 2 {
        return Err("asks for two programs bench, old and new".to_string());
    }
    let names = arguments.split_off(2);
    let sides = [Programs::named(&arguments[0]), Programs::named(&arguments[1])];
    println!("| load | old, ns/byte | new | ratio | single starts | repeats |");
    println!("|---|---:|---:|---:|---|---:|");
    for load in LOADS.iter().filter(|load| names.is_empty() || names.iter().any(|n| n == load.name))
    {
        println!("{}", row(&sides, load.name).map_err(|error| error.to_string())?);
    }
    Ok(())
}

fn main() -> ExitCode {
    match run(std::env::args().skip(1).collect()) {
        Ok(()) => ExitCode::SUCCESS,
        Err(error) => {
            eprintln!("compare: {error}");
            ExitCode::FAILURE
        }
    }
}
