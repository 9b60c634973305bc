//! Prints the strokes of standard input, as the program strokes does: pen, x0, y0, x1, y1 a line, or
//! E, number, byte counted from 1; and each reply as soon as it is made. The lines of what a read gave
//! are written before the next read, so that a live stream is answered as it comes. A read or a write
//! that fails is told, and the status is 1.

use std::io::{self, BufWriter, Read, Write};
use vutaroi::{Machine, Made};

const BLOCK: usize = 65_536;

fn main() -> io::Result<()> {
    let mut input = io::stdin().lock();
    let mut output = BufWriter::new(io::stdout().lock());
    let mut machine = Machine::fresh(-10000, -7000, 10000, 7000).map_err(io::Error::other)?;
    let mut block = vec![0; BLOCK];
    let mut before = 0;
    loop {
        let got = read(&mut input, &mut block)?;
        if got == 0 {
            return Ok(());
        }
        for made in machine.plotted(&block[..got]) {
            print(&mut output, made.map_err(io::Error::other)?, before)?;
        }
        output.flush()?;
        before += got;
    }
}

/// One read; one that a signal interrupted is tried again.
fn read(input: &mut impl Read, block: &mut [u8]) -> io::Result<usize> {
    loop {
        match input.read(block) {
            Err(error) if error.kind() == io::ErrorKind::Interrupted => {}
            answered => return answered,
        }
    }
}

/// The line of what bytes made that come after as many as `before`; a reply is written out at once.
fn print(output: &mut impl Write, made: Made, before: usize) -> io::Result<()> {
    match made {
        Made::Stroke(stroke) => writeln!(output, "{stroke}"),
        Made::Refused(r) => writeln!(output, "E {} {}", r.refusal.number(), before + r.byte),
        Made::Reply(reply) => {
            output.write_all(&reply)?;
            output.flush()
        }
    }
}
