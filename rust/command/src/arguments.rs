//! What the words of the command line ask for.

use crate::failure::Failure;
use crate::sheets::{self, Limits};
use crate::streams::Name;
use std::ffi::{OsStr, OsString};
use std::path::PathBuf;

/// The subcommands.
#[derive(Clone, Copy, Debug, PartialEq, Eq)]
pub enum Command {
    Strokes,
    Csv,
    Json,
    Redraw,
}

/// Each by its name.
pub const COMMANDS: [(&str, Command); 4] = [
    ("strokes", Command::Strokes),
    ("csv", Command::Csv),
    ("json", Command::Json),
    ("redraw", Command::Redraw),
];

/// A text that is asked for, or a run.
pub enum Asked {
    /// What the command, or a subcommand, does.
    Help(Option<Command>),
    Version,
    Run(Request),
}

/// A run.
pub struct Request {
    pub command: Command,
    pub inputs: Vec<Name>,
    /// None is standard output.
    pub output: Option<PathBuf>,
    pub limits: Limits,
}

type Words<'a> = &'a mut dyn Iterator<Item = OsString>;

/// What the words ask for.
pub fn asked(mut words: impl Iterator<Item = OsString>) -> Result<Asked, Failure> {
    let Some(first) = words.next() else {
        return Err(Failure::Usage("a subcommand is missing: strokes, csv, json or redraw".into()));
    };
    if let Some(&(_, command)) = COMMANDS.iter().find(|(name, _)| first == *name) {
        return Parsing::new(command).all(&mut words);
    }
    match first.to_str() {
        Some("--help") => Ok(Asked::Help(None)),
        Some("--version") => Ok(Asked::Version),
        _ => Err(wrong(&first, "no such subcommand; strokes, csv, json and redraw are")),
    }
}

/// A wrong word, and why it is wrong.
fn wrong(word: &OsStr, why: &str) -> Failure {
    Failure::Usage(format!("{}: {why}", word.to_string_lossy()))
}

/// What the words so far ask for.
struct Parsing {
    command: Command,
    inputs: Vec<Name>,
    output: Option<PathBuf>,
    limits: Option<Limits>,
}

impl Parsing {
    fn new(command: Command) -> Parsing {
        Parsing { command, inputs: Vec::new(), output: None, limits: None }
    }

    /// All words after the subcommand.
    fn all(mut self, words: Words<'_>) -> Result<Asked, Failure> {
        while let Some(word) = words.next() {
            match word.to_str() {
                Some("--help") => return Ok(Asked::Help(Some(self.command))),
                Some("--version") => return Ok(Asked::Version),
                Some("--") => self.inputs.extend((&mut *words).map(Name::File)),
                Some("-") => self.inputs.push(Name::Standard),
                _ if word.as_encoded_bytes().starts_with(b"-") => self.option(&word, words)?,
                _ => self.inputs.push(Name::File(word)),
            }
        }
        Ok(Asked::Run(self.request()))
    }

    fn request(mut self) -> Request {
        if self.inputs.is_empty() {
            self.inputs.push(Name::Standard);
        }
        let limits = self.limits.unwrap_or(sheets::DEFAULT);
        Request { command: self.command, inputs: self.inputs, output: self.output, limits }
    }

    /// An option, with the words that belong to it.
    fn option(&mut self, option: &OsStr, words: Words<'_>) -> Result<(), Failure> {
        let has_limits = self.command != Command::Redraw;
        match option.to_str() {
            Some("-o") => {
                let file = PathBuf::from(following(option, words)?);
                once(option, self.output.replace(file).is_none())
            }
            Some("--sheet") if has_limits => {
                let name = following(option, words)?;
                let none = || format!("no sheet has this name; sheets are {}", sheets::names());
                let limits = sheets::named(&name).ok_or_else(|| wrong(&name, &none()))?;
                once(option, self.limits.replace(limits).is_none())
            }
            Some("--limits") if has_limits => {
                let limits = four(option, words)?;
                once(option, self.limits.replace(limits).is_none())
            }
            _ => Err(wrong(option, "no such option")),
        }
    }
}

/// The output and the limits are each given once.
fn once(option: &OsStr, is_first: bool) -> Result<(), Failure> {
    is_first
        .then_some(())
        .ok_or_else(|| wrong(option, "the output and the limits are each given once"))
}

/// The word after an option.
fn following(option: &OsStr, words: Words<'_>) -> Result<OsString, Failure> {
    words.next().ok_or_else(|| wrong(option, "the word after it is missing"))
}

/// Hard limits that the library takes.
fn four(option: &OsStr, words: Words<'_>) -> Result<Limits, Failure> {
    let mut limits = [0; 4];
    for limit in &mut limits {
        let word =
            words.next().ok_or_else(|| wrong(option, "four numbers follow it, x0 y0 x1 y1"))?;
        let number = word.to_str().and_then(|word| word.parse().ok());
        *limit = number.ok_or_else(|| wrong(&word, "a limit is a whole number"))?;
    }
    let [left, bottom, right, top] = limits;
    vutaroi::Machine::fresh(left, bottom, right, top).map_err(|refusal| {
        let range = "x0 below x1, y0 below y1, each -32768 to 32767";
        Failure::Usage(format!("--limits {left} {bottom} {right} {top}: {refusal}: {range}"))
    })?;
    Ok(limits)
}
