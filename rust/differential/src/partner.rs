//! The calls of document 01, with plain numbers as answers.

use baseline::{number, Drawn, Fed, Look, Stroke};

/// Five numbers: a stroke (pen, x0, y0, x1, y1), or a refusal (0, number, byte, 0, 0).
pub type Record = [i64; 5];

/// A machine whose answers are compared.
pub trait Partner: Sized {
    /// A machine with these hard limits (left, bottom, right, top), and 0 or 10.
    fn fresh(limits: [i64; 4]) -> (Self, u8);
    /// Takes a byte; the number.
    fn take(&mut self, byte: u8) -> u8;
    /// Works off a segment.
    fn draw(&mut self) -> Drawn;
    /// Location, pen, polygon bytes.
    fn look(&self) -> Look;
    /// Writes the reply that waits into the buffer; the bytes written, and 0 or 31.
    fn fetch(&mut self, buffer: &mut [u8]) -> (usize, u8);
    /// Bytes in, strokes out, up to a refusal.
    fn feed(&mut self, bytes: &[u8], records: &mut [Record]) -> Fed;
    /// Bytes in, strokes and refusals out.
    fn plot(&mut self, bytes: &[u8], records: &mut [Record]) -> Fed;
}

/// The proved library's own form of five numbers.
pub fn own(&[pen, x0, y0, x1, y1]: &Record) -> vutaroi::Stroke {
    vutaroi::Stroke { pen, x0, y0, x1, y1 }
}

/// Writes strokes as HP-GL; the bytes written, and 0, 32 or 33.
pub fn write(strokes: &[Record], out: &mut [u8]) -> (usize, u8) {
    let list: Vec<vutaroi::Stroke> = strokes.iter().map(own).collect();
    write_own(&list, out)
}

/// The same of strokes in the library's form.
#[cfg(feature = "writing")]
pub fn write_own(strokes: &[vutaroi::Stroke], out: &mut [u8]) -> (usize, u8) {
    match vutaroi::write(strokes, out) {
        Ok(length) => (length, number::NONE),
        Err(refusal) => (0, refusal.number()),
    }
}

/// A library from before change request 6 has no such call.
#[cfg(not(feature = "writing"))]
pub fn write_own(_: &[vutaroi::Stroke], _: &mut [u8]) -> (usize, u8) {
    (0, number::NONE)
}

/// A stroke of the proved library; a pen that no machine has becomes 255.
fn stroke(s: vutaroi::Stroke) -> Stroke {
    Stroke { pen: u8::try_from(s.pen).unwrap_or(u8::MAX), x0: s.x0, y0: s.y0, x1: s.x1, y1: s.y1 }
}

fn fed(f: vutaroi::Fed) -> Fed {
    Fed { taken: f.taken, stored: f.stored, number: number_of(f.stopped) }
}

/// The number of a refusal, 0 for none.
pub fn number_of(refusal: Option<vutaroi::Refusal>) -> u8 {
    refusal.map_or(number::NONE, vutaroi::Refusal::number)
}

/// The proved library refuses no machine of its own: a refusal is a difference, and ends the test. Where
/// the refusal itself is the answer, 40 is one that no baseline gives.
const OWN: &str = "the library takes each machine that its calls left";

impl Partner for vutaroi::Machine {
    fn fresh([left, bottom, right, top]: [i64; 4]) -> (Self, u8) {
        let (machine, refusal) = vutaroi::Machine::fresh_anyway(left, bottom, right, top);
        (machine, number_of(refusal))
    }

    fn take(&mut self, byte: u8) -> u8 {
        number_of(vutaroi::Machine::take(self, byte).err())
    }

    fn draw(&mut self) -> Drawn {
        match vutaroi::Machine::draw(self).expect(OWN) {
            vutaroi::Drawn::Idle => Drawn::Idle,
            vutaroi::Drawn::Hidden => Drawn::Hidden,
            vutaroi::Drawn::Stroke(s) => Drawn::Stroke(stroke(s)),
        }
    }

    fn look(&self) -> Look {
        let seen = vutaroi::Machine::look(self).expect(OWN);
        Look {
            x: seen.x,
            y: seen.y,
            pen: u8::try_from(seen.pen).unwrap_or(u8::MAX),
            down: seen.down,
            bytes: usize::try_from(seen.bytes).unwrap_or(usize::MAX),
        }
    }

    #[cfg(feature = "replies")]
    fn fetch(&mut self, buffer: &mut [u8]) -> (usize, u8) {
        match vutaroi::Machine::fetch(self, buffer) {
            Ok(length) => (length, number::NONE),
            Err(refusal) => (0, refusal.number()),
        }
    }

    /// A library from before change request 5 has no such call, and makes no reply.
    #[cfg(not(feature = "replies"))]
    fn fetch(&mut self, _: &mut [u8]) -> (usize, u8) {
        (0, 0)
    }

    fn feed(&mut self, bytes: &[u8], records: &mut [Record]) -> Fed {
        let mut list: Vec<vutaroi::Stroke> = records.iter().map(own).collect();
        let answer = vutaroi::Machine::feed(self, bytes, &mut list).expect(OWN);
        for (record, s) in records.iter_mut().zip(&list) {
            *record = [s.pen, s.x0, s.y0, s.x1, s.y1];
        }
        fed(answer)
    }

    fn plot(&mut self, bytes: &[u8], records: &mut [Record]) -> Fed {
        let lent = |&numbers: &Record| vutaroi::Mark { numbers };
        let mut list: Vec<vutaroi::Mark> = records.iter().map(lent).collect();
        let answer = vutaroi::Machine::plot(self, bytes, &mut list).expect(OWN);
        for (record, mark) in records.iter_mut().zip(&list) {
            *record = mark.numbers;
        }
        fed(answer)
    }
}
