//! The command vutaroi: arguments, files and text about the proved library. It decides nothing itself:
//! each stroke, refusal and reply is the library's, and so is the HP-GL that redraw writes.
//!
//! The status is 0 where all was done, 1 where redraw was given a line that it cannot write, 2 for
//! wrong words, 3 where an input or the output failed. Each message begins with `vutaroi:`.

mod arguments;
mod csv;
mod failure;
mod form;
mod help;
mod json;
mod lines;
mod redraw;
mod sheets;
mod streams;
mod text;

use arguments::{Asked, Command, Request};
use failure::Failure;
use std::process::ExitCode;
use streams::Output;

fn main() -> ExitCode {
    match run() {
        Ok(()) => ExitCode::SUCCESS,
        Err(failure) => {
            if let Some(told) = failure.told() {
                eprintln!("vutaroi: {told}");
            }
            ExitCode::from(failure.status())
        }
    }
}

fn run() -> Result<(), Failure> {
    match arguments::asked(std::env::args_os().skip(1))? {
        Asked::Help(command) => printed(&help::text(command)),
        Asked::Version => printed(&help::version()),
        Asked::Run(request) => carried_out(&request),
    }
}

fn printed(text: &str) -> Result<(), Failure> {
    let mut output = Output::standard();
    output.text().push(text.as_bytes());
    output.flush()
}

fn carried_out(request: &Request) -> Result<(), Failure> {
    let mut output = Output::new(request.output.as_deref(), &request.inputs)?;
    match request.command {
        Command::Strokes => form::drawings(request, &mut lines::Lines, &mut output)?,
        Command::Csv => form::drawings(request, &mut csv::Csv::default(), &mut output)?,
        Command::Json => form::drawings(request, &mut json::Json::default(), &mut output)?,
        Command::Redraw => redraw::drawing(&request.inputs, &mut output)?,
    }
    output.finish()
}
