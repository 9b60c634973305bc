//! Drawings through the library, into text of one form or another.

use crate::arguments::Request;
use crate::failure::Failure;
use crate::sheets::Limits;
use crate::streams::{Input, Name, Output};
use crate::text::Text;
use std::io;
use vutaroi::{Machine, Mark, Refusal, Refused, Stroke, REPLY};

/// The bytes of a read. What they make is written before the next one, so that a package that asks and
/// waits is answered.
const BLOCK: usize = 65_536;

/// The marks of one call.
const ROOM: usize = 1024;

/// How drawings are written.
pub trait Form {
    /// Before the first drawing.
    fn begin(&mut self, _text: &mut Text) {}
    /// Before a drawing.
    fn open(&mut self, _text: &mut Text, _name: &Name, _limits: &Limits) {}
    /// A stroke.
    fn stroke(&mut self, text: &mut Text, stroke: &Stroke);
    /// A refused byte, by its number and its place in the drawing, counted from 1.
    fn refused(&mut self, text: &mut Text, number: u8, byte: usize);
    /// A reply; whether it is written.
    fn reply(&mut self, _text: &mut Text, _reply: &[u8]) -> bool {
        false
    }
    /// After a drawing of so many bytes.
    fn close(&mut self, _text: &mut Text, _bytes: usize) {}
    /// After the last drawing.
    fn end(&mut self, _text: &mut Text) {}
}

/// All drawings of a request. The first input that fails ends it: what is written then has no end.
pub fn drawings(
    request: &Request,
    form: &mut impl Form,
    output: &mut Output,
) -> Result<(), Failure> {
    form.begin(output.text());
    for name in &request.inputs {
        let mut input = name.open()?;
        form.open(output.text(), name, &request.limits);
        let bytes = Drawing::new(name, &request.limits, form, output)?.whole(&mut input)?;
        form.close(output.text(), bytes);
    }
    form.end(output.text());
    Ok(())
}

/// A drawing on its way through a machine.
struct Drawing<'a, F> {
    name: &'a Name,
    machine: Machine,
    marks: Vec<Mark>,
    /// The bytes that were taken.
    taken: usize,
    form: &'a mut F,
    output: &'a mut Output,
}

/// The library refuses no machine that its calls left; if it does, the drawing cannot go on.
fn refused(name: &Name, refusal: Refusal) -> Failure {
    Failure::File(name.to_string(), io::Error::other(refusal))
}

impl<'a, F: Form> Drawing<'a, F> {
    fn new(
        name: &'a Name,
        &[left, bottom, right, top]: &Limits,
        form: &'a mut F,
        output: &'a mut Output,
    ) -> Result<Drawing<'a, F>, Failure> {
        let fresh = Machine::fresh(left, bottom, right, top);
        let machine = fresh.map_err(|refusal| refused(name, refusal))?;
        Ok(Drawing { name, machine, marks: vec![Mark::default(); ROOM], taken: 0, form, output })
    }

    /// All of it, block by block; its bytes.
    fn whole(mut self, input: &mut Input<'_>) -> Result<usize, Failure> {
        let mut block = vec![0; BLOCK];
        loop {
            let got = input.read(&mut block)?;
            if got == 0 {
                return Ok(self.taken);
            }
            self.block(&block[..got])?;
            self.output.flush()?;
        }
    }

    /// The calls of `Machine::plotted`, without an item for each mark: to copy these takes time.
    fn block(&mut self, mut bytes: &[u8]) -> Result<(), Failure> {
        loop {
            let fed = self.machine.plot(bytes, &mut self.marks);
            let fed = fed.map_err(|refusal| refused(self.name, refusal))?;
            self.put_marks(fed.stored)?;
            self.put_reply()?;
            self.taken += fed.taken;
            bytes = &bytes[fed.taken..];
            if fed.stopped.is_none() {
                return Ok(());
            }
        }
    }

    /// The first marks, of bytes that come after those taken before.
    fn put_marks(&mut self, stored: usize) -> Result<(), Failure> {
        for mark in &self.marks[..stored] {
            if let Some(stroke) = mark.as_stroke() {
                self.form.stroke(self.output.text(), &stroke);
            } else if let Some(Refused { refusal, byte }) = mark.as_refused() {
                self.form.refused(self.output.text(), refusal.number(), self.taken + byte);
            }
        }
        self.output.spill()
    }

    /// The reply that waits, if one does, written out at once.
    fn put_reply(&mut self) -> Result<(), Failure> {
        let mut reply = [0; REPLY];
        let fetched = self.machine.fetch(&mut reply);
        let length = fetched.map_err(|refusal| refused(self.name, refusal))?;
        if length > 0 && self.form.reply(self.output.text(), &reply[..length]) {
            self.output.flush()?;
        }
        Ok(())
    }
}
