//! Inputs and the output: reads and writes that a signal, or a pipe that has to wait, does not end.

use crate::failure::Failure;
use crate::text::Text;
use std::ffi::OsString;
use std::fmt;
use std::fs::File;
use std::io::{self, Read, Write};
use std::os::fd::AsFd;
use std::os::unix::fs::MetadataExt;
use std::path::{Path, PathBuf};
use std::thread;
use std::time::Duration;

/// The bytes of output that are gathered before they are written.
const FULL: usize = 65_536;

/// Until a call that has to wait is tried again.
const WAIT: Duration = Duration::from_millis(1);

/// An input.
#[derive(Clone, Debug)]
pub enum Name {
    Standard,
    File(OsString),
}

/// As messages have it.
impl fmt::Display for Name {
    fn fmt(&self, f: &mut fmt::Formatter<'_>) -> fmt::Result {
        match self {
            Name::Standard => f.write_str("standard input"),
            Name::File(file) => write!(f, "{}", file.to_string_lossy()),
        }
    }
}

impl Name {
    /// As tables have it: what was given.
    pub fn given(&self) -> String {
        match self {
            Name::Standard => "-".into(),
            Name::File(file) => file.to_string_lossy().into_owned(),
        }
    }

    fn failed(&self, error: io::Error) -> Failure {
        Failure::File(self.to_string(), error)
    }

    /// Opens it.
    pub fn open(&self) -> Result<Input<'_>, Failure> {
        let file = match self {
            Name::Standard => io::stdin().as_fd().try_clone_to_owned().map(File::from),
            Name::File(file) => File::open(file),
        };
        Ok(Input { name: self, file: file.map_err(|error| self.failed(error))? })
    }
}

/// An open input.
pub struct Input<'a> {
    name: &'a Name,
    file: File,
}

impl Input<'_> {
    /// One read, into the beginning of the block; 0 at the end.
    pub fn read(&mut self, block: &mut [u8]) -> Result<usize, Failure> {
        again(|| self.file.read(block)).map_err(|error| self.name.failed(error))
    }

    /// All that it has.
    pub fn whole(&mut self) -> Result<Vec<u8>, Failure> {
        let mut all = Vec::new();
        let mut block = vec![0; FULL];
        loop {
            let got = self.read(&mut block)?;
            if got == 0 {
                return Ok(all);
            }
            all.extend_from_slice(&block[..got]);
        }
    }
}

/// A call, until it has done something or failed for good.
fn again(mut call: impl FnMut() -> io::Result<usize>) -> io::Result<usize> {
    loop {
        match call() {
            Err(error) if error.kind() == io::ErrorKind::Interrupted => {}
            Err(error) if error.kind() == io::ErrorKind::WouldBlock => thread::sleep(WAIT),
            done => return done,
        }
    }
}

/// The output. A file is made only once there is something to write, so that one of an input that cannot
/// be opened stays as it was.
pub struct Output {
    path: Option<PathBuf>,
    file: Option<File>,
    text: Text,
}

impl Output {
    pub fn standard() -> Output {
        Output { path: None, file: None, text: Text::new() }
    }

    /// The file of this path, or standard output. It must be none of the inputs.
    pub fn new(path: Option<&Path>, inputs: &[Name]) -> Result<Output, Failure> {
        let Some(path) = path else { return Ok(Output::standard()) };
        let is_read = |name: &Name| matches!(name, Name::File(file) if same(path, Path::new(file)));
        if inputs.iter().any(is_read) {
            return Err(Failure::Usage(format!("{}: is read and written", path.display())));
        }
        Ok(Output { path: Some(path.to_owned()), ..Output::standard() })
    }

    /// Where text is gathered.
    pub fn text(&mut self) -> &mut Text {
        &mut self.text
    }

    /// Writes what is gathered if that is much.
    pub fn spill(&mut self) -> Result<(), Failure> {
        if self.text.bytes().len() < FULL {
            return Ok(());
        }
        self.flush()
    }

    /// Writes what is gathered.
    pub fn flush(&mut self) -> Result<(), Failure> {
        if self.text.bytes().is_empty() {
            return Ok(());
        }
        self.write().map_err(|error| self.failed(error))
    }

    /// Writes what is left; a file is there then, even if it is empty.
    pub fn finish(&mut self) -> Result<(), Failure> {
        self.write().map_err(|error| self.failed(error))
    }

    fn failed(&self, error: io::Error) -> Failure {
        let name = self.path.as_ref().map(|path| path.display().to_string());
        Failure::File(name.unwrap_or_else(|| "standard output".into()), error)
    }

    fn open(&self) -> io::Result<File> {
        match &self.path {
            Some(path) => File::create(path),
            None => io::stdout().as_fd().try_clone_to_owned().map(File::from),
        }
    }

    fn write(&mut self) -> io::Result<()> {
        if self.file.is_none() {
            self.file = Some(self.open()?);
        }
        let mut left = self.text.bytes();
        while let (Some(file), false) = (&mut self.file, left.is_empty()) {
            match again(|| file.write(left))? {
                0 => return Err(io::ErrorKind::WriteZero.into()),
                put => left = &left[put..],
            }
        }
        self.text.clear();
        Ok(())
    }
}

/// Whether both are there and the same regular file.
fn same(one: &Path, other: &Path) -> bool {
    match (one.metadata(), other.metadata()) {
        (Ok(a), Ok(b)) => a.is_file() && (a.dev(), a.ino()) == (b.dev(), b.ino()),
        _ => false,
    }
}
