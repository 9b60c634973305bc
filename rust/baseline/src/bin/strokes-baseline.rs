//! The program *strokes*: HP-GL on standard input, a line for each stroke or refusal.
//!
//! Prints `pen x0 y0 x1 y1` for a stroke and `E number byte` for a refused byte, counted
//! from 1 over the whole input. Limits are -10000, -7000, 10000, 7000, or the four
//! arguments left, bottom, right, top. A reply is printed as it is, at once: its asker waits.

#![forbid(unsafe_code)]

use baseline::{number, Machine, Stroke, LONGEST_REPLY};
use std::io::{self, Read, Write};
use std::process::ExitCode;

const BLOCK: usize = 1 << 18;
const RECORDS: usize = 1 << 10;

/// Lines for standard output, gathered into large blocks.
struct Lines<W: Write> {
    text: Vec<u8>,
    to: W,
}

impl<W: Write> Lines<W> {
    fn new(to: W) -> Self {
        Lines { text: Vec::with_capacity(BLOCK + 128), to }
    }

    fn whole(&mut self, value: i64) {
        let mut digits = [0; 20];
        let mut at = digits.len();
        let mut rest = value.unsigned_abs();
        loop {
            at -= 1;
            digits[at] = b'0' + (rest % 10) as u8;
            rest /= 10;
            if rest == 0 {
                break;
            }
        }
        if value < 0 {
            self.text.push(b'-');
        }
        self.text.extend_from_slice(&digits[at..]);
    }

    fn end(&mut self) -> io::Result<()> {
        self.text.push(b'\n');
        if self.text.len() >= BLOCK {
            self.flush()?;
        }
        Ok(())
    }

    fn stroke(&mut self, stroke: &Stroke) -> io::Result<()> {
        self.whole(i64::from(stroke.pen));
        for value in [stroke.x0, stroke.y0, stroke.x1, stroke.y1] {
            self.text.push(b' ');
            self.whole(value);
        }
        self.end()
    }

    fn refusal(&mut self, number: u8, byte: i64) -> io::Result<()> {
        self.text.extend_from_slice(b"E ");
        self.whole(i64::from(number));
        self.text.push(b' ');
        self.whole(byte);
        self.end()
    }

    fn flush(&mut self) -> io::Result<()> {
        self.to.write_all(&self.text)?;
        self.text.clear();
        self.to.flush()
    }
}

fn run(mut machine: Machine, mut from: impl Read, to: impl Write) -> io::Result<()> {
    let mut block = vec![0; BLOCK];
    let mut list = vec![Stroke::default(); RECORDS];
    let mut buffer = [0; LONGEST_REPLY];
    let mut lines = Lines::new(to);
    let mut count: i64 = 0;
    loop {
        let read = match from.read(&mut block) {
            Ok(0) => return lines.flush(),
            Ok(read) => read,
            Err(error) if error.kind() == io::ErrorKind::Interrupted => continue,
            Err(error) => return Err(error),
        };
        let mut bytes = &block[..read];
        loop {
            let fed = machine.feed(bytes, &mut list);
            for stroke in &list[..fed.stored] {
                lines.stroke(stroke)?;
            }
            bytes = &bytes[fed.taken..];
            count += fed.taken as i64;
            // Feed takes no byte after the one that made a reply, so it stands after the strokes.
            let (length, _) = machine.fetch(&mut buffer);
            if length > 0 {
                lines.text.extend_from_slice(&buffer[..length]);
                lines.flush()?;
            }
            match fed.number {
                number::NONE => break,
                number::FULL | number::WAITS => {}
                refused => lines.refusal(refused, count)?,
            }
        }
    }
}

/// The limits given as arguments, if they are none or four whole numbers.
fn limits(arguments: &[String]) -> Option<[i64; 4]> {
    if arguments.is_empty() {
        return Some([-10_000, -7_000, 10_000, 7_000]);
    }
    let values: Vec<i64> = arguments.iter().map(|a| a.parse().ok()).collect::<Option<_>>()?;
    values.try_into().ok()
}

fn main() -> ExitCode {
    let arguments: Vec<String> = std::env::args().skip(1).collect();
    let Some([left, bottom, right, top]) = limits(&arguments) else {
        eprintln!("usage: strokes-baseline [left bottom right top]");
        return ExitCode::from(2);
    };
    let (machine, refused) = Machine::fresh(left, bottom, right, top);
    if refused != number::NONE {
        eprintln!("strokes-baseline: limits refused with {refused}");
        return ExitCode::from(2);
    }
    match run(machine, io::stdin().lock(), io::stdout().lock()) {
        Ok(()) => ExitCode::SUCCESS,
        Err(error) if error.kind() == io::ErrorKind::BrokenPipe => ExitCode::SUCCESS,
        Err(error) => {
            eprintln!("strokes-baseline: {error}");
            ExitCode::FAILURE
        }
    }
}
