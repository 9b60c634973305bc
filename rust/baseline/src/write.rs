//! Strokes back into HP-GL (change request 6).

use crate::number;

/// Pen, x0, y0, x1, y1. A list that was changed by hand may hold any numbers, so this is no
/// `Stroke`, which comes from the machine.
pub type Record = [i64; 5];

/// Writes the strokes as HP-GL: `IN;`, then for each of them `SPp;`, unless the one before has its
/// pen, and `PUx0,y0;PDx1,y1;`. A fresh machine whose hard limits contain all ends paints just them.
///
/// The bytes written, and 0, 32 or 33; after a refusal the length is 0 and the output as it was.
/// Otherwise the output past the text stays.
pub fn write(strokes: &[Record], out: &mut [u8]) -> (usize, u8) {
    if !strokes.iter().all(is_allowed) {
        return (0, number::STROKE);
    }
    let mut text = Length(0);
    text.strokes(strokes);
    let Length(length) = text;
    let Some(room) = out.get_mut(..length) else { return (0, number::OUTPUT) };
    Sheet { room, at: 0 }.strokes(strokes);
    (length, number::NONE)
}

/// Pens are 1 to 8, ends are of 16 bits.
fn is_allowed([pen, ends @ ..]: &Record) -> bool {
    (1..=8).contains(pen) && ends.iter().all(|&end| i16::try_from(end).is_ok())
}

/// No stroke has it, so that the first one changes the pen too.
const NO_PEN: i64 = 0;

/// What a text goes to: it is counted, then written.
trait Paper {
    fn bytes(&mut self, bytes: &[u8]);

    fn digits(&mut self, number: u64);

    /// A whole number, as short as it goes.
    fn whole(&mut self, value: i64) {
        if value < 0 {
            self.bytes(b"-");
        }
        self.digits(value.unsigned_abs());
    }

    fn pair(&mut self, name: &[u8; 2], x: i64, y: i64) {
        self.bytes(name);
        self.whole(x);
        self.bytes(b",");
        self.whole(y);
        self.bytes(b";");
    }

    fn strokes(&mut self, strokes: &[Record]) {
        self.bytes(b"IN;");
        let mut before = NO_PEN;
        for &[pen, x0, y0, x1, y1] in strokes {
            if pen != before {
                self.bytes(b"SP");
                self.whole(pen);
                self.bytes(b";");
            }
            self.pair(b"PU", x0, y0);
            self.pair(b"PD", x1, y1);
            before = pen;
        }
    }
}

/// The bytes of a text.
struct Length(usize);

impl Paper for Length {
    fn bytes(&mut self, bytes: &[u8]) {
        self.0 += bytes.len();
    }

    fn digits(&mut self, number: u64) {
        self.0 += digits(number);
    }
}

/// The digits of a number that has at most five.
fn digits(number: u64) -> usize {
    [10, 100, 1_000, 10_000].iter().fold(1, |count, &least| count + usize::from(number >= least))
}

/// A text as far as it is written; the room is that of the whole.
struct Sheet<'a> {
    room: &'a mut [u8],
    at: usize,
}

impl Sheet<'_> {
    /// The room of the next bytes.
    fn next(&mut self, count: usize) -> &mut [u8] {
        self.at += count;
        &mut self.room[self.at - count..self.at]
    }
}

impl Paper for Sheet<'_> {
    fn bytes(&mut self, bytes: &[u8]) {
        self.next(bytes.len()).copy_from_slice(bytes);
    }

    fn digits(&mut self, number: u64) {
        let mut rest = number;
        for place in self.next(digits(number)).iter_mut().rev() {
            *place = b'0' + (rest % 10) as u8;
            rest /= 10;
        }
    }
}
