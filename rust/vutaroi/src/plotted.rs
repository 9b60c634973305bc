//! From bytes to all that they make, one by one.

use crate::{Machine, Mark, Refusal, Refused, Stroke, REPLY};
use std::fmt;
use std::ops::Deref;

/// The marks of one call.
const ROOM: usize = 512;

/// What bytes make.
#[derive(Clone, Copy, Debug, PartialEq, Eq, Hash)]
pub enum Made {
    /// Paint this.
    Stroke(Stroke),
    /// A byte was refused; its place is counted from the first byte that the iterator was given.
    Refused(Refused),
    /// A question was answered.
    Reply(Reply),
}

/// A reply: numbers with commas, closed by 13 and 10. It dereferences to its bytes.
#[derive(Clone, Copy, PartialEq, Eq, Hash)]
pub struct Reply {
    bytes: [u8; REPLY],
    length: usize,
}

impl Deref for Reply {
    type Target = [u8];

    fn deref(&self) -> &[u8] {
        &self.bytes[..self.length]
    }
}

impl fmt::Debug for Reply {
    fn fmt(&self, f: &mut fmt::Formatter<'_>) -> fmt::Result {
        write!(f, "Reply(\"{}\")", self.escape_ascii())
    }
}

/// How a call of plot left the work.
#[derive(Clone, Copy, Debug, PartialEq, Eq)]
enum Next {
    /// A reply may wait: fetch.
    Fetch,
    /// Plot the bytes that are left.
    Plot,
    /// All is done, or the machine was refused.
    Nothing,
}

/// The iterator of [`Machine::plotted`].
#[must_use = "bytes are taken as it runs"]
pub struct Plotted<'a> {
    machine: &'a mut Machine,
    bytes: &'a [u8],
    /// The bytes taken, and how many were before the last call.
    taken: usize,
    before: usize,
    marks: Box<[Mark; ROOM]>,
    /// The marks that were seen, of those that were stored.
    seen: usize,
    stored: usize,
    /// Whether the last call took all bytes and left no segment.
    whole: bool,
    next: Next,
}

impl fmt::Debug for Plotted<'_> {
    fn fmt(&self, f: &mut fmt::Formatter<'_>) -> fmt::Result {
        let mut shown = f.debug_struct("Plotted");
        shown.field("machine", &self.machine).field("taken", &self.taken);
        shown.field("left", &self.bytes[self.taken..].len()).finish_non_exhaustive()
    }
}

impl<'a> Plotted<'a> {
    pub(crate) fn new(machine: &'a mut Machine, bytes: &'a [u8]) -> Plotted<'a> {
        Plotted {
            machine,
            bytes,
            taken: 0,
            before: 0,
            marks: Box::new([Mark::default(); ROOM]),
            seen: 0,
            stored: 0,
            whole: false,
            // A reply may wait from before.
            next: Next::Fetch,
        }
    }

    /// The next mark of those that were stored.
    #[inline]
    fn mark(&mut self) -> Option<Made> {
        let mark = self.marks[..self.stored].get(self.seen)?;
        self.seen += 1;
        if let Some(stroke) = mark.as_stroke() {
            return Some(Made::Stroke(stroke));
        }
        let Refused { refusal, byte } = mark.as_refused()?;
        Some(Made::Refused(Refused { refusal, byte: self.before + byte }))
    }

    fn plot(&mut self) -> Result<(), Refusal> {
        let fed = self.machine.plot(&self.bytes[self.taken..], &mut self.marks[..])?;
        self.before = self.taken;
        self.taken += fed.taken;
        (self.seen, self.stored) = (0, fed.stored);
        self.whole = fed.stopped.is_none();
        self.next = Next::Fetch;
        Ok(())
    }

    fn fetch(&mut self) -> Result<Option<Made>, Refusal> {
        self.next = if self.whole { Next::Nothing } else { Next::Plot };
        let mut bytes = [0; REPLY];
        let length = self.machine.fetch(&mut bytes)?;
        Ok((length > 0).then_some(Made::Reply(Reply { bytes, length })))
    }

    /// One step: what it made, if anything.
    fn step(&mut self) -> Result<Option<Made>, Refusal> {
        match self.next {
            Next::Plot => self.plot().map(|()| self.mark()),
            Next::Fetch => self.fetch(),
            Next::Nothing => Ok(None),
        }
    }

    /// What comes next where all marks of the last call were seen. Apart, so that a loop over many marks
    /// has no more than these in it.
    #[cold]
    fn after_the_marks(&mut self) -> Option<Result<Made, Refusal>> {
        while self.next != Next::Nothing {
            match self.step() {
                Ok(None) => {}
                Ok(Some(made)) => return Some(Ok(made)),
                Err(refusal) => {
                    self.next = Next::Nothing;
                    return Some(Err(refusal));
                }
            }
        }
        None
    }
}

impl Iterator for Plotted<'_> {
    type Item = Result<Made, Refusal>;

    #[inline]
    fn next(&mut self) -> Option<Self::Item> {
        match self.mark() {
            Some(made) => Some(Ok(made)),
            None => self.after_the_marks(),
        }
    }
}

impl std::iter::FusedIterator for Plotted<'_> {}

#[cfg(test)]
mod tests {
    use super::*;

    fn machine() -> Machine {
        Machine::fresh(-10000, -7000, 10000, 7000).expect("limits in range")
    }

    /// Each as the program strokes prints it.
    fn lines(machine: &mut Machine, bytes: &[u8]) -> Vec<String> {
        let line = |made: Result<Made, Refusal>| match made {
            Ok(Made::Stroke(s)) => s.to_string(),
            Ok(Made::Refused(r)) => format!("E {} {}", r.refusal.number(), r.byte),
            Ok(Made::Reply(reply)) => String::from_utf8_lossy(&reply).trim_end().to_string(),
            Err(refusal) => refusal.to_string(),
        };
        machine.plotted(bytes).map(line).collect()
    }

    #[test]
    fn all_stands_in_its_order() {
        let made = lines(&mut machine(), b"IN;SP1;PU0,0;PD1000,0;OA;SP9;OE;PD1000,500;");
        assert_eq!(made, ["1 0 0 1000 0", "1000,0,1", "E 3 29", "3", "1 1000 0 1000 500"]);
    }

    #[test]
    fn a_reply_waits_from_before_and_one_is_made_by_the_last_byte() {
        let mut machine = machine();
        assert!(b"OE;".iter().all(|&byte| machine.take(byte) == Ok(())));
        assert_eq!(lines(&mut machine, b"?OE;"), ["0", "E 1 1", "1"]);
        assert_eq!(lines(&mut machine, b""), [""; 0]);
    }

    /// More marks than a call has room for, at every place about its end: none is lost, doubled or moved.
    #[test]
    fn many_calls_are_as_one() {
        for count in ROOM - 1..=ROOM + 1 {
            let due: Vec<String> = (0..2 * count).map(|k| format!("E 1 {}", 2 * k + 1)).collect();
            assert_eq!(lines(&mut machine(), &b"?;".repeat(2 * count)), due);
        }
        let due: Vec<String> = (0..2 * ROOM).map(|k| format!("1 {k} 0 {} 0", k + 1)).collect();
        let bytes: String = (0..2 * ROOM).map(|k| format!("PD{},0;", k + 1)).collect();
        assert_eq!(lines(&mut machine(), format!("SP1;{bytes}").as_bytes()), due);
        let bytes = b"OE;".repeat(ROOM + 1);
        assert_eq!(lines(&mut machine(), &bytes), vec!["0"; ROOM + 1]);
    }
}
