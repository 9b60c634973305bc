//! What can go wrong, with its words and its status.

use std::io;

/// Why the command ends before its work is done.
#[derive(Debug)]
pub enum Failure {
    /// Wrong words.
    Usage(String),
    /// A line that cannot be written as HP-GL.
    Line(String),
    /// An input or the output, by its name, and why.
    File(String, io::Error),
}

impl Failure {
    /// What is told of it. A reader that went away, as `head` does, knows that it did.
    pub fn told(&self) -> Option<String> {
        match self {
            Failure::Usage(told) => Some(format!("{told} (vutaroi --help says more)")),
            Failure::Line(told) => Some(told.clone()),
            Failure::File(_, error) if error.kind() == io::ErrorKind::BrokenPipe => None,
            Failure::File(name, error) => Some(format!("{name}: {error}")),
        }
    }

    /// The exit status.
    pub fn status(&self) -> u8 {
        match self {
            Failure::Line(_) => 1,
            Failure::Usage(_) => 2,
            Failure::File(..) => 3,
        }
    }
}
