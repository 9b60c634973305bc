//! An HP-GL machine for painting rink lines: bytes in, strokes and replies out.
//!
//! A safe wrapper of the proved library `libvutaroi.a`. Each call of it is one function here; the
//! library's contracts say what a call does (README.md: what crosses the boundary, and what is not
//! proved there). What a call refuses is an error, a [`Refusal`] with the number of documents 01 and
//! 02.
//!
//! ```
//! use vutaroi::{Machine, Made, Stroke};
//!
//! let mut machine = Machine::fresh(-10000, -7000, 10000, 7000)?;
//! for made in machine.plotted(b"IN;SP1;PA0,0;PD100,50;XX;OA;") {
//!     match made? {
//!         Made::Stroke(stroke) => assert_eq!(stroke, Stroke { pen: 1, x0: 0, y0: 0, x1: 100, y1: 50 }),
//!         Made::Refused(refused) => assert_eq!(refused.to_string(), "byte 24 refused with 1"),
//!         Made::Reply(reply) => assert_eq!(&*reply, b"100,50,1\r\n"),
//!     }
//! }
//! # Ok::<(), vutaroi::Refusal>(())
//! ```
//!
//! The library tests a machine before it uses it, so every call on one may answer
//! [`Refusal::NO_MACHINE`]: of a machine that was changed in memory nothing is painted.

mod calls;
mod plotted;
mod refusal;

use std::fmt;

pub use calls::NUMBERS;
pub use plotted::{Made, Plotted, Reply};
pub use refusal::{Refusal, Refused};

/// The bytes of the longest reply: `VUTAROI_REPLY` of `include/vutaroi.h`.
pub const REPLY: usize = 37;

/// The machine. It comes from [`Machine::fresh`], or from numbers that were kept, and only the calls
/// change it.
#[derive(Clone, PartialEq, Eq)]
pub struct Machine {
    state: [i64; NUMBERS],
}

/// The version of the library that is linked: 10000 times its major number, 100 times its minor
/// number, and its patch.
///
/// ```
/// assert_eq!(vutaroi::version(), 100); // 0.1.0
/// ```
#[must_use]
pub fn version() -> u32 {
    calls::version()
}

/// A stroke: the pen and both ends, in plotter units on the page.
#[repr(C)]
#[derive(Clone, Copy, Debug, Default, PartialEq, Eq, Hash)]
pub struct Stroke {
    /// The pen, 1 to 8.
    pub pen: i64,
    /// Where the stroke begins.
    pub x0: i64,
    /// Where the stroke begins.
    pub y0: i64,
    /// Where the stroke ends.
    pub x1: i64,
    /// Where the stroke ends.
    pub y1: i64,
}

/// As the program strokes prints it.
///
/// ```
/// let stroke = vutaroi::Stroke { pen: 1, x0: 0, y0: 0, x1: 100, y1: -50 };
/// assert_eq!(stroke.to_string(), "1 0 0 100 -50");
/// ```
impl fmt::Display for Stroke {
    fn fmt(&self, f: &mut fmt::Formatter<'_>) -> fmt::Result {
        let Stroke { pen, x0, y0, x1, y1 } = self;
        write!(f, "{pen} {x0} {y0} {x1} {y1}")
    }
}

/// The most bytes of HP-GL that so many strokes can take.
#[must_use]
pub const fn most_bytes(strokes: usize) -> usize {
    3 + 36 * strokes
}

/// Strokes as HP-GL, from the start of the output on: how many bytes it has; the bytes after them keep
/// their content. A fresh machine whose hard limits contain all ends makes just these strokes of it.
///
/// ```
/// use vutaroi::{most_bytes, write, Refusal, Stroke};
///
/// let mut strokes = [Stroke { pen: 1, x0: 0, y0: 0, x1: 5, y1: 5 }];
/// let mut out = [0; most_bytes(1)];
/// let length = write(&strokes, &mut out)?;
/// assert_eq!(&out[..length], b"IN;SP1;PU0,0;PD5,5;");
///
/// strokes[0].pen = 9;
/// assert_eq!(write(&strokes, &mut out), Err(Refusal::UNWRITABLE));
/// # Ok::<(), Refusal>(())
/// ```
///
/// # Errors
///
/// [`Refusal::UNWRITABLE`]: a stroke has a pen other than 1 to 8, or an end outside -32768 to 32767.
/// [`Refusal::OUTPUT`]: the output is shorter than the text; [`most_bytes`] are enough. With both,
/// nothing was written.
pub fn write(strokes: &[Stroke], out: &mut [u8]) -> Result<usize, Refusal> {
    calls::write(strokes, out)
}

/// A record of [`Machine::plot`]: a stroke or a refusal, as five numbers.
#[repr(C)]
#[derive(Clone, Copy, Debug, Default, PartialEq, Eq, Hash)]
pub struct Mark {
    /// Pen, x0, y0, x1, y1 of a stroke; or 0, number, place, 0, 0 of a refusal, which has no pen.
    pub numbers: [i64; 5],
}

/// What [`Machine::draw`] answers.
#[derive(Clone, Copy, Debug, PartialEq, Eq, Hash)]
#[must_use]
pub enum Drawn {
    /// No segment waited.
    Idle,
    /// A segment was worked off, and nothing of it shows.
    Hidden,
    /// A segment was worked off: paint this.
    Stroke(Stroke),
}

/// What [`Machine::look`] answers.
#[derive(Clone, Copy, Debug, PartialEq, Eq, Hash)]
pub struct Look {
    /// The location, not turned.
    pub x: i64,
    /// The location, not turned.
    pub y: i64,
    /// The pen, 0 to 8.
    pub pen: i64,
    /// Whether it is down.
    pub down: bool,
    /// The bytes of the polygon.
    pub bytes: i64,
}

/// How far [`Machine::feed`] or [`Machine::plot`] went.
#[derive(Clone, Copy, Debug, PartialEq, Eq, Hash)]
#[must_use = "it says where to go on, and how many records are new"]
pub struct Fed {
    /// The bytes that were taken.
    pub taken: usize,
    /// The records that were stored, from the first on; the others keep their content.
    pub stored: usize,
    /// Why it stopped before all was done: [`Refusal::BUSY`] if a reply waits, and the next byte, which
    /// is not counted, has to wait for it; [`Refusal::FULL`] if no record was free; else, of feed, that
    /// of the last byte that was taken.
    pub stopped: Option<Refusal>,
}

impl Mark {
    /// The stroke, if it is one.
    #[inline]
    #[must_use]
    pub fn as_stroke(&self) -> Option<Stroke> {
        let [pen, x0, y0, x1, y1] = self.numbers;
        (pen != 0).then_some(Stroke { pen, x0, y0, x1, y1 })
    }

    /// The refusal, if it is one. A mark that no call has stored yet is neither.
    #[inline]
    #[must_use]
    pub fn as_refused(&self) -> Option<Refused> {
        let [pen, number, byte, _, _] = self.numbers;
        let refusal = u8::try_from(number).ok().and_then(Refusal::of)?;
        (pen == 0).then_some(Refused { refusal, byte: byte as usize })
    }
}

/// Its [`Look`]: 650 numbers say nothing to a reader.
impl fmt::Debug for Machine {
    fn fmt(&self, f: &mut fmt::Formatter<'_>) -> fmt::Result {
        match self.look() {
            Ok(look) => f.debug_tuple("Machine").field(&look).finish(),
            Err(refusal) => f.debug_tuple("Machine").field(&refusal).finish(),
        }
    }
}

impl Machine {
    /// A machine with hard limits, each -32768 to 32767, `left < right`, `bottom < top`.
    ///
    /// ```
    /// use vutaroi::{Machine, Refusal};
    ///
    /// assert!(Machine::fresh(-30000, -15000, 30000, 15000).is_ok());
    /// assert_eq!(Machine::fresh(0, 0, 0, 10).unwrap_err(), Refusal::LIMITS);
    /// ```
    ///
    /// # Errors
    ///
    /// [`Refusal::LIMITS`] with other limits.
    pub fn fresh(left: i64, bottom: i64, right: i64, top: i64) -> Result<Machine, Refusal> {
        match Machine::fresh_anyway(left, bottom, right, top) {
            (machine, None) => Ok(machine),
            (_, Some(refusal)) => Err(refusal),
        }
    }

    /// As [`Machine::fresh`], and where the limits are refused the machine that document 01 gives then,
    /// which has the limits 0, 0, 1, 1.
    #[must_use]
    pub fn fresh_anyway(
        left: i64,
        bottom: i64,
        right: i64,
        top: i64,
    ) -> (Machine, Option<Refusal>) {
        let mut state = [0; NUMBERS];
        let refusal = calls::fresh(left, bottom, right, top, &mut state).err();
        (Machine { state }, refusal)
    }

    /// The machine that numbers hold which [`Machine::numbers`] gave, on this kind of processor.
    ///
    /// # Errors
    ///
    /// [`Refusal::NO_MACHINE`] where they were changed, or are those of another form.
    pub fn from_numbers(numbers: [i64; NUMBERS]) -> Result<Machine, Refusal> {
        calls::look(&numbers)?;
        Ok(Machine { state: numbers })
    }

    /// The machine as numbers, to be kept.
    #[must_use]
    pub fn numbers(&self) -> &[i64; NUMBERS] {
        &self.state
    }

    /// Takes one byte.
    ///
    /// # Errors
    ///
    /// Why the byte was refused. [`Refusal::BUSY`] while a segment or a reply waits: then nothing
    /// changed. [`Refusal::NO_MACHINE`].
    pub fn take(&mut self, byte: u8) -> Result<(), Refusal> {
        calls::take(&mut self.state, byte)
    }

    /// Works off one waiting segment.
    ///
    /// # Errors
    ///
    /// [`Refusal::NO_MACHINE`].
    pub fn draw(&mut self) -> Result<Drawn, Refusal> {
        let mut stroke = Stroke::default();
        Ok(match calls::draw(&mut self.state, &mut stroke)? {
            0 => Drawn::Idle,
            1 => Drawn::Hidden,
            _ => Drawn::Stroke(stroke),
        })
    }

    /// Where the carriage is, and with what. It changes nothing.
    ///
    /// # Errors
    ///
    /// [`Refusal::NO_MACHINE`].
    pub fn look(&self) -> Result<Look, Refusal> {
        let [x, y, pen, down, bytes] = calls::look(&self.state)?;
        Ok(Look { x, y, pen, down: down != 0, bytes })
    }

    /// Writes the reply that waits, that of OA, OP, OW, OH or OE, closed by 13 and 10, from the start of
    /// the buffer on: how many bytes it has, 0 where none waits. [`REPLY`] bytes hold any reply.
    ///
    /// # Errors
    ///
    /// [`Refusal::BUFFER`] where the buffer is shorter than the reply: nothing was written, and it still
    /// waits. [`Refusal::NO_MACHINE`].
    pub fn fetch(&mut self, out: &mut [u8]) -> Result<usize, Refusal> {
        calls::fetch(&mut self.state, out)
    }

    /// Bytes in, strokes out: draws while a segment waits and a record is free, else takes the next
    /// byte. Stops after a byte that is refused, which counts as taken; with [`Refusal::FULL`] where a
    /// segment waits and no record is free; with [`Refusal::BUSY`] before a byte that a waiting reply
    /// refuses, which does not count; or with none where all bytes are taken and no segment waits.
    ///
    /// # Errors
    ///
    /// [`Refusal::NO_MACHINE`].
    pub fn feed(&mut self, bytes: &[u8], strokes: &mut [Stroke]) -> Result<Fed, Refusal> {
        calls::feed(&mut self.state, bytes, strokes)
    }

    /// As [`Machine::feed`], but a refused byte is stored as a mark among the strokes, and the bytes
    /// after it are taken. A byte is taken only while a record is free, since it may be refused:
    /// without one it stops with [`Refusal::FULL`]. It too stops with [`Refusal::BUSY`] where a reply
    /// waits.
    ///
    /// ```
    /// use vutaroi::{Machine, Mark};
    ///
    /// let mut machine = Machine::fresh(-10000, -7000, 10000, 7000)?;
    /// let mut marks = [Mark::default(); 64];
    /// let fed = machine.plot(b"IN;SP1;PA0,0;PD100,50;", &mut marks)?;
    /// assert_eq!((fed.taken, fed.stored, fed.stopped), (22, 1, None));
    /// assert_eq!(marks[0].numbers, [1, 0, 0, 100, 50]);
    /// # Ok::<(), vutaroi::Refusal>(())
    /// ```
    ///
    /// # Errors
    ///
    /// [`Refusal::NO_MACHINE`].
    pub fn plot(&mut self, bytes: &[u8], marks: &mut [Mark]) -> Result<Fed, Refusal> {
        calls::plot(&mut self.state, bytes, marks)
    }

    /// All that bytes make, one by one and in its order: strokes, refused bytes and replies, each reply
    /// fetched as soon as it is made. Bytes are taken as the iterator runs; where it is left before its
    /// end, the machine has taken more than was seen.
    ///
    /// It ends after [`Refusal::NO_MACHINE`], the only error that it gives.
    pub fn plotted<'a>(&'a mut self, bytes: &'a [u8]) -> Plotted<'a> {
        Plotted::new(self, bytes)
    }
}

#[cfg(test)]
mod tests {
    use super::*;

    fn fresh() -> Machine {
        Machine::fresh(-10000, -7000, 10000, 7000).expect("limits in range")
    }

    fn drawn() -> Machine {
        let mut machine = fresh();
        assert_eq!(
            machine.plot(b"SP1;PA0,0;PD100,5", &mut [Mark::default(); 8]).map(|f| f.stopped),
            Ok(None)
        );
        machine
    }

    #[test]
    fn a_machine_is_kept_as_numbers() {
        let mut kept = Machine::from_numbers(*drawn().numbers()).expect("a machine of the calls");
        let mut marks = [Mark::default(); 8];
        let fed = kept.plot(b"0;", &mut marks).expect("a machine of the calls");
        assert_eq!((fed.stored, marks[0].numbers), (1, [1, 0, 0, 100, 50]));
    }

    #[test]
    fn a_list_is_used_to_its_end() {
        let mut machine = fresh();
        let mut strokes = [Stroke::default(); 2];
        let fed = machine.feed(b"SP1;PD1,1,2,2,3,3;", &mut strokes);
        assert_eq!(fed, Ok(Fed { taken: 18, stored: 2, stopped: Some(Refusal::FULL) }));
        assert_eq!(strokes[1], Stroke { pen: 1, x0: 1, y0: 1, x1: 2, y1: 2 });
        let mut marks = [Mark::default(); 2];
        let fed = machine.plot(b"??", &mut marks);
        assert_eq!(fed, Ok(Fed { taken: 1, stored: 2, stopped: Some(Refusal::FULL) }));
        assert_eq!(marks.map(|m| m.numbers), [[1, 2, 2, 3, 3], [0, 1, 1, 0, 0]]);
    }

    #[test]
    fn byte_by_byte() {
        let mut machine = fresh();
        assert!(b"SP2;PD7,9".iter().all(|&byte| machine.take(byte) == Ok(())));
        assert_eq!(machine.draw(), Ok(Drawn::Idle));
        assert_eq!(machine.take(b';'), Ok(()));
        assert_eq!(machine.take(b';'), Err(Refusal::BUSY));
        let stroke = Stroke { pen: 2, x0: 0, y0: 0, x1: 7, y1: 9 };
        assert_eq!(machine.draw(), Ok(Drawn::Stroke(stroke)));
        assert_eq!(machine.look(), Ok(Look { x: 7, y: 9, pen: 2, down: true, bytes: 0 }));
    }

    #[test]
    fn a_reply_waits_until_it_is_fetched() {
        let mut machine = fresh();
        let mut marks = [Mark::default(); 4];
        let mut out = *b"0123456789";
        assert_eq!(machine.fetch(&mut []), Ok(0));
        let fed = machine.plot(b"PA3,-4;OA;PU;", &mut marks);
        assert_eq!(fed, Ok(Fed { taken: 10, stored: 0, stopped: Some(Refusal::BUSY) }));
        assert_eq!(machine.take(b';'), Err(Refusal::BUSY));
        assert_eq!(machine.fetch(&mut out[..7]), Err(Refusal::BUFFER));
        assert_eq!(&out, b"0123456789");
        assert_eq!(machine.fetch(&mut out), Ok(8));
        assert_eq!(&out, b"3,-4,0\r\n89");
        assert_eq!(machine.fetch(&mut out), Ok(0));
        assert_eq!(machine.take(b';'), Ok(()));
    }

    #[test]
    fn a_changed_machine_is_refused_by_every_call() {
        let mut bad = drawn();
        bad.state[7] ^= 1;
        let refused = Some(Refusal::NO_MACHINE);
        assert_eq!(bad.take(b';').err(), refused);
        assert_eq!(bad.draw().err(), refused);
        assert_eq!(bad.look().err(), refused);
        assert_eq!(bad.fetch(&mut [0; REPLY]).err(), refused);
        assert_eq!(bad.feed(b";", &mut [Stroke::default()]).err(), refused);
        assert_eq!(bad.plot(b";", &mut [Mark::default()]).err(), refused);
        assert_eq!(bad.plotted(b";").collect::<Vec<_>>(), [Err(Refusal::NO_MACHINE)]);
        assert_eq!(format!("{bad:?}"), "Machine(Refusal(40))");
    }

    #[test]
    fn bad_limits_give_a_machine_of_one_unit() {
        let (mut machine, refusal) = Machine::fresh_anyway(5, 5, 5, 6);
        assert_eq!(refusal, Some(Refusal::LIMITS));
        let mut out = [0; REPLY];
        assert!(b"OH;".iter().all(|&byte| machine.take(byte) == Ok(())));
        assert_eq!(machine.fetch(&mut out).map(|length| &out[..length]), Ok(&b"0,0,1,1\r\n"[..]));
    }

    #[test]
    fn a_machine_is_shown_by_its_look() {
        let shown = "Machine(Look { x: 0, y: 0, pen: 1, down: true, bytes: 0 })";
        assert_eq!(format!("{:?}", drawn()), shown);
    }

    #[test]
    fn an_empty_mark_is_neither() {
        assert_eq!((Mark::default().as_stroke(), Mark::default().as_refused()), (None, None));
    }

    #[test]
    fn every_changed_number_is_told() {
        let good = *drawn().numbers();
        for i in 0..NUMBERS {
            let mut bad = good;
            bad[i] ^= 1;
            assert_eq!(Machine::from_numbers(bad).err(), Some(Refusal::NO_MACHINE), "number {i}");
        }
    }

    fn stroke(pen: i64, x0: i64, y0: i64, x1: i64, y1: i64) -> Stroke {
        Stroke { pen, x0, y0, x1, y1 }
    }

    /// The outcomes of document 02's CR 6; the output holds sevens where nothing was written.
    #[test]
    fn strokes_as_hpgl() {
        let one = stroke(1, 0, 0, 5, 5);
        let edge = stroke(8, -32768, 32767, 32767, -32768);
        let dot = stroke(3, 0, 0, 0, 0);
        let rows: [(&[Stroke], usize, Result<&str, Refusal>); 16] = [
            (&[], 3, Ok("IN;")),
            (&[], 2, Err(Refusal::OUTPUT)),
            (&[one], 100, Ok("IN;SP1;PU0,0;PD5,5;")),
            (&[one], 19, Ok("IN;SP1;PU0,0;PD5,5;")),
            (&[one], 18, Err(Refusal::OUTPUT)),
            (&[one, stroke(1, 5, 5, 9, 9)], 100, Ok("IN;SP1;PU0,0;PD5,5;PU5,5;PD9,9;")),
            (
                &[one, stroke(2, 5, 5, 9, 9), stroke(1, 0, 0, 1, 1)],
                100,
                Ok("IN;SP1;PU0,0;PD5,5;SP2;PU5,5;PD9,9;SP1;PU0,0;PD1,1;"),
            ),
            (&[edge], 100, Ok("IN;SP8;PU-32768,32767;PD32767,-32768;")),
            (&[stroke(3, 7, -7, 7, -7)], 100, Ok("IN;SP3;PU7,-7;PD7,-7;")),
            (&[dot, dot], 100, Ok("IN;SP3;PU0,0;PD0,0;PU0,0;PD0,0;")),
            (&[stroke(0, 0, 0, 5, 5)], 100, Err(Refusal::UNWRITABLE)),
            (&[stroke(9, 0, 0, 5, 5)], 0, Err(Refusal::UNWRITABLE)),
            (&[one, stroke(1, 32768, 0, 5, 5)], 100, Err(Refusal::UNWRITABLE)),
            (&[stroke(1, 0, -32769, 5, 5)], 100, Err(Refusal::UNWRITABLE)),
            (&[stroke(1, 0, 0, 5, 40000)], 100, Err(Refusal::UNWRITABLE)),
            (&[stroke(-1, 0, 0, 5, 5)], 100, Err(Refusal::UNWRITABLE)),
        ];
        for (strokes, room, said) in rows {
            let mut out = vec![7; room];
            let written = write(strokes, &mut out);
            assert_eq!(written, said.map(str::len), "{strokes:?}, {room}");
            let text = said.unwrap_or("");
            let mut whole = text.as_bytes().to_vec();
            whole.resize(room, 7);
            assert_eq!(out, whole, "{strokes:?}, {room}");
        }
    }

    /// The text in a machine: with a record for each stroke, with one too few, and with limits that do
    /// not contain all ends, of which CR 6 says nothing.
    #[test]
    fn a_text_in_a_machine() {
        let line = stroke(1, 0, 0, 10, 10);
        let both = [line, stroke(2, 5, 5, 5, 5)];
        let rows: [(&[Stroke], i64, usize, Fed, &[Stroke]); 3] = [
            (&both, 10, 2, Fed { taken: 37, stored: 2, stopped: None }, &both),
            (&both, 10, 1, Fed { taken: 37, stored: 1, stopped: Some(Refusal::FULL) }, &both[..1]),
            (
                &both[..1],
                5,
                2,
                Fed { taken: 21, stored: 1, stopped: None },
                &[stroke(1, 0, 0, 5, 5)],
            ),
        ];
        for (strokes, limit, records, said, painted) in rows {
            let mut out = vec![0; most_bytes(strokes.len())];
            let length = write(strokes, &mut out).expect("pens and ends are in range");
            let mut machine = Machine::fresh(0, 0, limit, limit).expect("limits in range");
            let mut back = vec![Stroke::default(); records];
            assert_eq!(machine.feed(&out[..length], &mut back), Ok(said), "{strokes:?}");
            assert_eq!(&back[..said.stored], painted);
        }
    }

    /// Strokes of every pen, over the whole range and at its ends, come back.
    #[test]
    fn strokes_come_back() {
        let mut seed = 1u64;
        let mut next = |below: u64| {
            seed = seed.wrapping_mul(6364136223846793005).wrapping_add(1442695040888963407);
            ((seed >> 33) % below) as i64
        };
        let mut end = |k: i64| match k % 5 {
            0 => -32768,
            1 => 32767,
            2 => next(21) - 10,
            _ => next(65536) - 32768,
        };
        let strokes: Vec<Stroke> = (0..20_000)
            .map(|i| stroke(end(3).rem_euclid(8) + 1, end(i), end(i + 1), end(i / 3), end(i / 7)))
            .collect();
        let mut out = vec![0; most_bytes(strokes.len())];
        let length = write(&strokes, &mut out).expect("pens and ends are in range");
        let mut machine = Machine::fresh(-32768, -32768, 32767, 32767).expect("limits in range");
        let mut back = vec![Stroke::default(); strokes.len()];
        let fed = machine.feed(&out[..length], &mut back);
        assert_eq!(fed, Ok(Fed { taken: length, stored: strokes.len(), stopped: None }));
        assert_eq!(back, strokes);
    }

    #[test]
    fn the_library_is_this_version() {
        assert_eq!(version(), 100);
    }
}
